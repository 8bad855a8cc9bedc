#!/usr/bin/env python3
"""Runs blocks of tasks again and again, explains each output by a replay of its own, and counts the histories that came.

    bench/histories.py [--runs 10000] [--tasks 8] [--commands 100] [--scripts 10] [--seed 1] [--jobs 4] [--program PATH]

Each script has one block of tasks over bounded queues, and behind it what is left of each queue. A run's lines are gone through one by one:
each is the next command of its task, which wouldn't wait on the queues at that point, with the answer that they give; behind the last one no
task can go on, and each that isn't over has a line `stalled`, in the order of the text. The exit status is 1 where an output isn't explained.
"""
import argparse
import concurrent.futures
import hashlib
import os
import random
import subprocess
import sys
import time

LEAST, MOST = -(2**63), 2**63 - 1
TOP = os.path.dirname(os.path.dirname(os.path.abspath(__file__)))


class Queue:
    """A queue of integers, with a limit or none; by priority, where it is ranked."""

    def __init__(self, limit, ranked):
        self.limit, self.ranked, self.items, self.peak = limit, ranked, [], 0

    def is_full(self):
        return self.limit is not None and len(self.items) == self.limit

    def put(self, item):
        place = len(self.items)
        if self.ranked:
            while place > 0 and priority(self.items[place - 1]) < priority(item):
                place -= 1
        self.items.insert(place, item)
        self.peak = max(self.peak, len(self.items))


def priority(item):
    """A hundredth of the item, rounded toward zero."""
    return item // 100 if item >= 0 else -(-item // 100)


class Task:
    """A task: its name, its commands with their lines, how many of them are done, and its locals."""

    def __init__(self, name, commands):
        self.name, self.commands, self.place, self.locals = name, commands, 0, {"x": 0, "y": 0}

    def next(self):
        return self.commands[self.place] if self.place < len(self.commands) else None

    def value(self, argument):
        return self.locals[argument] if isinstance(argument, str) else argument


def waits(task, queues):
    """Whether the task's next command would wait."""
    line, word, queue, argument, target = task.next()
    if word == "enqueue":
        return queues[queue].is_full()
    if word == "dequeue":
        return not queues[queue].items
    return False


def is_able(task, queues):
    return task.next() is not None and not waits(task, queues)


def answer(task, queues):
    """Does the task's next command, which doesn't wait: the text of its answer."""
    line, word, queue, argument, target = task.next()
    task.place += 1
    number = None
    if word == "enqueue":
        queues[queue].put(task.value(argument))
        return "ok"
    if word == "dequeue":
        number = queues[queue].items.pop(0)
    elif word == "dequeue_only_high_priority":
        items = queues[queue].items
        if not items or priority(items[0]) < task.value(argument):
            return "false"
        number = items.pop(0)
    elif word == "current_use":
        number = len(queues[queue].items)
    elif word == "peak_use":
        number = queues[queue].peak
    elif word == "set":
        first, add = argument
        number = task.value(first) + add
        if not LEAST <= number <= MOST:
            return "raised CONSTRAINT_ERROR (overflow)"
    if target is not None:
        task.locals[target] = number
    return str(number)


class Script:
    """A script with one block of tasks, and what is needed to replay it."""

    def __init__(self, source, queues, tasks, first_line):
        self.source, self.queues, self.tasks, self.first_line = source, queues, tasks, first_line

    def fresh(self):
        queues = {name: Queue(limit, ranked) for name, limit, ranked in self.queues}
        return queues, [Task(name, commands) for name, commands in self.tasks]


def some_command(rng, queues):
    """A command without its line, which wouldn't wait on these queues. More items are put in while there are few."""
    name = rng.choice(sorted(queues))
    queue = queues[name]
    argument = rng.choice(["x", "y", rng.randint(-999, 999)])
    target = rng.choice(["x", "y", None])
    roll = rng.random()
    if roll < 0.7:
        if not queue.is_full() and (not queue.items or rng.random() < 0.5):
            return "enqueue", name, argument, None
        if queue.items:
            return "dequeue", name, None, target
    if roll < 0.78 and queue.ranked:
        return "dequeue_only_high_priority", name, rng.choice(["x", rng.randint(-9, 9)]), target
    if roll < 0.86:
        return rng.choice(["current_use", "peak_use"]), name, None, target
    target = target or "x"
    if roll < 0.92:
        return "set", None, (rng.choice([rng.randint(-999, 999), MOST]), 0), target
    add = rng.randint(-99, 99)
    return "set", None, (rng.choice(["x", "y"]), add), target


def text_of(command):
    word, queue, argument, target = command
    if word == "set":
        first, add = argument
        return f"{target} := {first};" if not isinstance(first, str) else f"{target} := {first} {'-' if add < 0 else '+'} {abs(add)};"
    given = "" if argument is None else f" ({argument})"
    return f"{target + ' := ' if target else ''}{queue}.{word}{given};"


def some_commands(rng, tasks, commands, queues):
    """The commands of tasks, so that in one order of turns all are done; in others some may wait for ever."""
    made = [Task(f"t{number}", []) for number in range(1, tasks + 1)]
    while True:
        left = [task for task in made if len(task.commands) < commands]
        if not left:
            return [(task.name, [command[1:] for command in task.commands]) for task in made]
        task = rng.choice(left)
        task.commands.append((0, *some_command(rng, queues)))
        answer(task, queues)


def some_script(rng, tasks, commands):
    queues = [("a", rng.randint(1, 3), False), ("b", rng.randint(2, 6), False), ("c", rng.randint(2, 6), True)]
    lines = ["type q is bounded queue (integer);", "type p is bounded priority_queue (integer);"]
    lines += [f"{name} : {'p' if ranked else 'q'} ({limit});" for name, limit, ranked in queues]
    lines.append("tasks")
    made = []
    for name, steps in some_commands(rng, tasks, commands, {name: Queue(limit, ranked) for name, limit, ranked in queues}):
        lines += [f"task {name} is", "x : integer;", "y : integer;", "begin"]
        made.append((name, [(len(lines) + 1 + place, *step) for place, step in enumerate(steps)]))
        lines += [text_of(step) for step in steps] + ["end;"]
    lines.append("end tasks;")
    first = len(lines) + 1
    for name, _, _ in queues:
        lines += [f"{name}.print;", f"{name}.peak_use;"]
    return Script("\n".join(lines).encode() + b"\n", queues, made, first)


def unexplained(script, text):
    """What of an output isn't explained, or nothing."""
    queues, tasks = script.fresh()
    by_name = {task.name: task for task in tasks}
    lines = text.decode().split("\n")
    if lines.pop() != "":
        return "the last line doesn't end"
    at = 0
    while at < len(lines):
        parts = lines[at].split(": ", 2)
        if len(parts) < 3 or parts[2] == "stalled":
            break
        task = by_name.get(parts[1])
        if task is None or task.next() is None:
            return f"{lines[at]!r}: no such task goes on"
        if str(task.next()[0]) != parts[0]:
            return f"{lines[at]!r}: not the task's next command"
        if waits(task, queues):
            return f"{lines[at]!r}: the command would wait"
        told = answer(task, queues)
        if told != parts[2]:
            return f"{lines[at]!r}: answers {told}"
        at += 1
    if any(is_able(task, queues) for task in tasks):
        return "a task could go on at the end"
    left = [f"{task.next()[0]}: {task.name}: stalled" for task in tasks if task.next() is not None]
    number = script.first_line
    for name, _, _ in script.queues:
        queue = queues[name]
        left += [f"{number}: [{', '.join(map(str, queue.items))}]", f"{number + 1}: {queue.peak}"]
        number += 2
    if lines[at:] != left:
        return f"behind the history {lines[at:]} and not {left}"
    return None


def one_run(program, script):
    ended = subprocess.run([program], input=script.source, stdout=subprocess.PIPE, stderr=subprocess.DEVNULL)
    if ended.returncode != 0:
        return f"status {ended.returncode}", ended.stdout
    return unexplained(script, ended.stdout), ended.stdout


def main():
    words = argparse.ArgumentParser(description=__doc__, formatter_class=argparse.RawDescriptionHelpFormatter)
    words.add_argument("--runs", type=int, default=10000)
    words.add_argument("--tasks", type=int, default=8)
    words.add_argument("--commands", type=int, default=100)
    words.add_argument("--scripts", type=int, default=10)
    words.add_argument("--seed", type=int, default=1)
    words.add_argument("--jobs", type=int, default=os.cpu_count() or 1)
    words.add_argument("--program", default=os.path.join(TOP, "crates", "adacont", "out", "adacont"))
    asked = words.parse_args()
    rng = random.Random(asked.seed)
    scripts = [some_script(rng, asked.tasks, asked.commands) for _ in range(asked.scripts)]
    begun, bad, stalled = time.time(), 0, 0
    histories = [set() for _ in scripts]
    with concurrent.futures.ThreadPoolExecutor(asked.jobs) as pool:
        runs = [pool.submit(one_run, asked.program, scripts[i % len(scripts)]) for i in range(asked.runs)]
        for i, run in enumerate(runs):
            why, text = run.result()
            stalled += b": stalled\n" in text
            histories[i % len(scripts)].add(hashlib.sha256(text).digest())
            if why is not None:
                bad += 1
                if bad <= 5:
                    print(f"run {i}: {why}")
    counts = sorted(len(h) for h in histories)
    print(f"{asked.runs} runs of {len(scripts)} scripts, {asked.tasks} tasks of {asked.commands} commands each: {asked.runs - bad} explained, {bad} not")
    print(f"{sum(counts)} different histories, {counts[0]} to {counts[-1]} a script; {stalled} runs with a stalled task; {time.time() - begun:.0f} s")
    return 1 if bad else 0


if __name__ == "__main__":
    sys.exit(main())
