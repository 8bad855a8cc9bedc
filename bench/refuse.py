#!/usr/bin/env python3
"""Runs scripts again and again, each time with one thing that fails, and checks how each run ends.

    bench/refuse.py [--program PATH] [--quick] [--jobs N] [--seconds N] [SCRIPT ...]

The program is PATH, or what the environment variable ADACONT names, or `crates/adacont/out/adacont`. The scripts are those that are given, or those of `examples/` and `docs/gnat/` and the stored run of `crates/adacont/`. These fail, one in each run:

- each request for memory, alone and with all later ones: the status is 5 and the output is a prefix of the script's text, or the run ends as if nothing had failed;
- each read, as the program makes them and with one byte a read: the status is 3 and nothing is written;
- each write, as the program makes them and with one byte a write: the status is 4 and the output is a prefix of the text;
- each start of a thread, alone and with all later ones: the run ends as if nothing had failed;
- nothing, with one byte a read and a write: the same;
- the script, which is cut after each of its bytes. Where the whole script runs and what is left is a script too, the status is 0 and the output is what its statements write; where what is left is none, the status is 1 and the output is `line N: syntax`, where N is the line of the last token. Where the whole script is refused, what is left runs or is refused on one of its lines.

No run may end by a signal, or take more than some seconds.

The text of a script is what it writes when nothing fails. A script with blocks of tasks has many; it may have queues and integers alone, and each output is explained by a replay. Since its threads ask for memory in any order, each of its requests is refused several times.

Prints for each script how many runs of each kind were made and how many ended otherwise, then each of these with a command that repeats it. The exit status is 1 if there are any. With `--quick` only the first fifty runs of each kind are made, and about fifty more at equal distances. Needs cc, and Linux with the GNU C library; not part of the gate.
"""
import argparse
import collections
import concurrent.futures
import copy
import glob
import os
import re
import shlex
import signal
import struct
import subprocess
import sys
import tempfile
import threading
from typing import NamedTuple, Optional

import histories

TOP = os.path.dirname(os.path.dirname(os.path.abspath(__file__)))
SOURCE = os.path.join(TOP, "bench/refuse.c")
KINDS = ("memory", "read", "write", "thread")
COMPILE = ["cc", "-O1", "-shared", "-fPIC"]
DONE, REFUSED, READ_FAULT, WRITE_FAULT, NO_MEMORY = 0, 1, 3, 4, 5
TASK_RUNS = 5
QUICK = 50

# Comments, strings (open ones too), words and numbers, and any other byte that isn't blank.
TOKEN = re.compile(rb'--[^\n]*|"(?:[^"\n]|"")*"?|\w+|:=|[^ \t\n\r]|\r(?!\n)', re.ASCII)
OPENING = {b"for", b"query", b"update", b"update_key", b"reference", b"stable", b"declare", b"tasks", b"task"}
LINES = re.compile(rb"(?:[0-9]+: [^\n]*\n)*")
REFUSAL = re.compile(rb"line ([0-9]+): (?:syntax|limit|unknown name|wrong type|twice)\n")


# Scripts as tokens

def tokens(source):
    """The tokens of a script in lower case, each with the place where it begins."""
    return [(found.group().lower(), found.start()) for found in TOKEN.finditer(source) if not found.group().startswith(b"--")]


def line_of(source, place):
    return source.count(b"\n", 0, place) + 1


def last_line(source):
    """The line of the last token, 0 where there is none."""
    places = [place for _, place in tokens(source)]
    return line_of(source, places[-1]) if places else 0


def next_line(source, size):
    """The line of the first token after so many bytes, None where there is none."""
    places = [place for _, place in tokens(source) if place >= size]
    return line_of(source, places[0]) if places else None


def is_script(source):
    """Whether a prefix of a script is one: no block is open, and the last statement is complete."""
    waits_for_begin, last = [], b";"
    for word, _ in tokens(source):
        if word in OPENING and last != b"end":
            waits_for_begin.append(word in (b"declare", b"task"))
        elif word == b"begin" and waits_for_begin and waits_for_begin[-1]:
            waits_for_begin[-1] = False
        elif word == b"begin":
            waits_for_begin.append(False)
        elif word == b"end" and waits_for_begin:
            waits_for_begin.pop()
        last = word
    return last == b";" and not waits_for_begin


# What a script may write

class OneText:
    """The text of a script without blocks of tasks."""

    def __init__(self, text):
        self.text = text

    def has_prefix(self, text):
        return self.text.startswith(text)

    def is_one(self, text):
        return self.text == text

    def is_first_part(self, text, last, following):
        """Whether a text is what the statements up to the line `last` write, where the next one, if there is one, begins on the line `following`."""
        numbers = [int(line.split(b":")[0]) for line in text.splitlines()]
        rest = self.text[len(text):]
        is_before = not numbers or numbers[-1] <= last
        is_after = not rest or following is not None and int(rest.split(b":")[0]) >= following
        return self.text.startswith(text) and is_before and is_after


QUEUE_TYPE = re.compile(r"type (\w+) is (?:bounded )?(priority_)?queue \( integer \)")
DECLARED = re.compile(r"(\w+) : (\w+)(?: \( (\d+) \))?")
HEAD = re.compile(r"(?:tasks|begin|task (\w+) is)(?: |$)")
CALL = re.compile(r"(?:(\w+) := )?(\w+) \. (\w+)(?: \( (- )?(\w+) \))?")
SUM = re.compile(r"(\w+) := (- )?(\w+)(?: ([+-]) (\d+))?")


def operand(sign, word):
    return int(f"-{word}" if sign else word) if word.isdigit() else word


def command(line, text):
    """A command on queues and integers, as `histories` replays it."""
    if said := CALL.fullmatch(text):
        target, queue, word, sign, argument = said.groups()
        return line, word, queue, argument and operand(sign, argument), target
    if said := SUM.fullmatch(text):
        target, sign, first, add, number = said.groups()
        return line, "set", None, (operand(sign, first), int(f"{add}{number}") if add else 0), target
    raise ValueError(f"line {line}: only queues and integers can be replayed")


def new_task(name):
    made = histories.Task(name, [])
    made.locals = collections.defaultdict(int)
    return made


def same_task(task):
    made = copy.copy(task)
    made.locals = task.locals.copy()
    return made


def same_queue(queue):
    made = copy.copy(queue)
    made.items = queue.items.copy()
    return made


class Replay:
    """A run of a script of queues and integers: its queues, the commands that are left, and the tasks of the block that is open."""

    def __init__(self, source):
        self.queues, self.types = {}, {}
        self.serial, self.tasks = new_task(None), []
        self.read(source)

    def copy(self):
        made = copy.copy(self)
        made.queues = {name: same_queue(queue) for name, queue in self.queues.items()}
        made.serial, made.tasks = same_task(self.serial), [same_task(task) for task in self.tasks]
        return made

    def read(self, source):
        words, places, block = [], [], None
        for word, place in tokens(source):
            if word != b";":
                words.append(word.decode())
                places.append(place)
                continue
            text = " ".join(words)
            while head := HEAD.match(text):
                if text.startswith("tasks"):
                    block = []
                    self.serial.commands.append((0, "tasks", block, None, None))
                elif head[1]:
                    block.append(new_task(head[1]))
                places = places[len(head.group().split()):]
                text = text[head.end():]
            if text:
                self.read_one(line_of(source, places[0]), text, block)
            block = None if text == "end tasks" else block
            words, places = [], []

    def read_one(self, line, text, block):
        """A declaration, a command or an end."""
        if said := QUEUE_TYPE.fullmatch(text):
            self.types[said[1]] = said[2] is not None
        elif said := DECLARED.fullmatch(text):
            if said[2] != "integer":
                self.queues[said[1]] = histories.Queue(said[3] and int(said[3]), self.types[said[2]])
        elif text not in ("end", "end tasks"):
            (block[-1] if block else self.serial).commands.append(command(line, text))

    def next_lines(self):
        """Each line that may come next, with the replay after it."""
        able = [place for place, task in enumerate(self.tasks) if histories.is_able(task, self.queues)]
        for place in able:
            after = self.copy()
            yield after.line(after.tasks[place]), after
        if able:
            return
        after = self.copy()
        stalled = [task for task in after.tasks if task.next()]
        if stalled:
            after.tasks = stalled[1:]
            yield f"{stalled[0].next()[0]}: {stalled[0].name}: stalled\n", after
        elif after.serial.next() and after.serial.next()[1] == "tasks":
            after.tasks = after.serial.next()[2]
            after.serial.place += 1
            yield from after.next_lines()
        elif after.serial.next():
            yield after.line(after.serial), after

    def line(self, task):
        """Does the next command of a task, or of the script itself: its line."""
        number, word, queue, *_ = task.next()
        said = f"{number}: " if task.name is None else f"{number}: {task.name}: "
        if word == "print":
            task.place += 1
            return f"{said}[{', '.join(map(str, self.queues[queue].items))}]\n"
        if histories.waits(task, self.queues):
            task.place += 1
            return f"{said}stalled\n"
        return f"{said}{histories.answer(task, self.queues)}\n"


class ManyTexts:
    """The texts of a script with blocks of tasks."""

    def __init__(self, source):
        self.start = Replay(source)

    def after(self, lines):
        """The replay after these lines, or None where no text begins with them."""
        at = self.start
        for line in lines:
            at = next((after for said, after in at.next_lines() if said == line), None)
            if at is None:
                return None
        return at

    def has_prefix(self, text):
        lines = text.decode().splitlines(keepends=True)
        rest = lines.pop() if lines and not lines[-1].endswith("\n") else ""
        at = self.after(lines)
        return at is not None and (not rest or any(said.startswith(rest) for said, _ in at.next_lines()))

    def is_one(self, text):
        at = self.after(text.decode().splitlines(keepends=True))
        return at is not None and not any(at.next_lines())


# Runs

class Fault(NamedTuple):
    """What fails in a run: the requests of a kind from a number on, or that one alone; how many bytes a read or a write moves at most; after how many bytes the script is cut."""
    kind: Optional[str] = None
    at: int = 0
    later: bool = False
    piece: int = 0
    cut: Optional[int] = None

    def settings(self):
        """The environment that the library reads."""
        made = {"REFUSE_KIND": self.kind, "REFUSE_AT": str(self.at)} if self.kind else {}
        if self.later:
            made["REFUSE_LATER"] = "1"
        if self.piece:
            made["REFUSE_PIECE"] = str(self.piece)
        return made


class Run(NamedTuple):
    """How a run ended: its status, which is negative for a signal and None where it was stopped; what it wrote; its requests of each kind, and how many were refused."""
    status: Optional[int]
    text: bytes
    requests: dict
    refused: int


class Program:
    """A program with the library that refuses its requests, and a place for the files of each thread of this one."""

    def __init__(self, path, place, seconds):
        self.path, self.place, self.seconds = path, place, seconds
        self.library = os.path.join(place, "refuse.so")
        subprocess.run([*COMPILE, "-o", self.library, SOURCE], check=True)

    def file(self, name, content):
        """A file of this thread's own."""
        path = os.path.join(self.place, f"{name}.{threading.get_ident()}")
        with open(path, "wb") as file:
            file.write(content)
        return path

    def run(self, path, source, fault):
        counts = self.file("counts", bytes(40))
        if fault.cut is not None:
            path = self.file("script", source[:fault.cut])
        settings = {**os.environ, **fault.settings(), "REFUSE_COUNTS": counts, "LD_PRELOAD": self.library}
        with open(path, "rb") as script:
            try:
                ended = subprocess.run([self.path], stdin=script, stdout=subprocess.PIPE, stderr=subprocess.DEVNULL, env=settings, timeout=self.seconds)
                status, text = ended.returncode, ended.stdout
            except subprocess.TimeoutExpired as late:
                status, text = None, late.stdout or b""
        with open(counts, "rb") as file:
            *requests, refused = struct.unpack("5Q", file.read())
        return Run(status, text, dict(zip(KINDS, requests)), refused)

    def command(self, path, fault):
        """A shell command that repeats a run."""
        if fault.cut is not None:
            return f"head -c {fault.cut} {shlex.quote(path)} | {shlex.quote(self.path)}"
        words = "".join(f"{name}={value} " for name, value in fault.settings().items())
        return f"{words}LD_PRELOAD=/tmp/refuse.so {shlex.quote(self.path)} < {shlex.quote(path)}"


class Script:
    """A script, its runs in which nothing fails, and the texts that it may write."""

    def __init__(self, path, program):
        self.path = path
        with open(path, "rb") as file:
            self.source = file.read()
        self.run = program.run(path, self.source, Fault())
        self.in_pieces = program.run(path, self.source, Fault(piece=1))
        self.has_tasks = self.run.status == DONE and b"tasks" in (word for word, _ in tokens(self.source))
        self.texts = ManyTexts(self.source) if self.has_tasks else OneText(self.run.text)
        self.check()

    def check(self):
        """Raises ValueError where the script can't be tried."""
        requests = self.run.requests
        if self.run.status not in (DONE, REFUSED):
            raise ValueError(f"{ending(self.run)} where nothing fails")
        if not self.texts.is_one(self.run.text):
            raise ValueError("no replay explains its text")
        if not requests["memory"] or not requests["read"] or self.run.text and not requests["write"]:
            raise ValueError(f"the program's requests aren't seen, since it doesn't make them by the C library's functions: {requests}")

    def is_text_of(self, size, text):
        """Whether a text is what the script writes that is cut after so many bytes."""
        prefix = self.source[:size]
        if self.has_tasks:
            return ManyTexts(prefix).is_one(text)
        return LINES.fullmatch(text) is not None and self.texts.is_first_part(text, last_line(prefix), next_line(self.source, size))


# What must hold

def ending(run):
    if run.status is None:
        return "it didn't end"
    if run.status < 0:
        return f"it ended by {signal.Signals(-run.status).name}"
    return f"the status is {run.status}"


def wrong_status(run, wanted):
    return None if run.status == wanted else f"{ending(run)} in place of {wanted}"


def wrong_text(script, run):
    """As if nothing had failed."""
    return wrong_status(run, script.run.status) or (None if script.texts.is_one(run.text) else "the text is another one")


def wrong_prefix(script, run, status):
    return wrong_status(run, status) or (None if script.texts.has_prefix(run.text) else "the output is no prefix of the text")


def wrong_refusal(run, wanted):
    return wrong_status(run, REFUSED) or (None if run.text == wanted else f"{run.text[:80]!r} was written in place of {wanted!r}")


def wrong_cut(script, size, run):
    """What is wrong with the run of a script that is cut after so many bytes."""
    prefix = script.source[:size]
    if script.run.status == DONE and not is_script(prefix):
        return wrong_refusal(run, b"line %d: syntax\n" % last_line(prefix))
    if script.run.status == DONE:
        return wrong_status(run, DONE) or (None if script.is_text_of(size, run.text) else "the text isn't that of the statements")
    if run.status == DONE:
        return None if LINES.fullmatch(run.text) else "the output isn't lines"
    refusal = REFUSAL.fullmatch(run.text)
    return None if refusal and int(refusal[1]) <= line_of(prefix, size) else f"{run.text[:80]!r} isn't the line of a refusal"


def wrong(script, fault, run):
    """What is wrong with a run, or None."""
    if run.status is None or run.status < 0:
        return ending(run)
    if fault.cut is not None:
        return wrong_cut(script, fault.cut, run)
    if run.refused == 0 or fault.kind == "thread":
        return wrong_text(script, run)
    if fault.kind == "memory":
        return wrong_prefix(script, run, NO_MEMORY) if run.status == NO_MEMORY else wrong_text(script, run)
    if fault.kind == "read":
        return wrong_status(run, READ_FAULT) or (f"{run.text[:80]!r} was written" if run.text else None)
    return wrong_prefix(script, run, WRITE_FAULT)


# The runs of a script

class Found(NamedTuple):
    """A run that ended otherwise than it must."""
    fault: Fault
    why: str


def sample(count, quick):
    """The numbers below a count, or some of them."""
    if not quick or count <= 2 * QUICK:
        return range(count)
    return [*range(QUICK), *range(QUICK, count, -(-(count - QUICK) // QUICK))]


def faults(script, quick):
    """What fails in turn, for each column of the table."""
    times = TASK_RUNS if script.has_tasks else 1
    yield "pieces", [Fault(piece=1)]
    for kind, repeated in (("memory", times), ("thread", 1)):
        numbers = [number + 1 for number in sample(script.run.requests[kind], quick)]
        yield kind, [Fault(kind, number, later) for number in numbers for later in (False, True) for _ in range(repeated)]
    for kind in ("read", "write"):
        whole, pieces = ([number + 1 for number in sample(run.requests[kind], quick)] for run in (script.run, script.in_pieces))
        yield kind, [Fault(kind, number) for number in whole] + [Fault(kind, number, piece=1) for number in pieces]
    yield "cut", [Fault(cut=size) for size in sample(len(script.source), quick)]


def tried(program, script, column, each_of, workers):
    """The runs of one column that ended otherwise."""
    def once(fault):
        run = program.run(script.path, script.source, fault)
        if column in ("read", "write") and run.refused == 0 and not script.has_tasks:
            return Found(fault, "the request wasn't made")
        why = wrong(script, fault, run)
        return Found(fault, why) if why else None
    return [found for found in workers.map(once, each_of) if found]


COLUMNS = ("memory", "read", "write", "thread", "cut")


def row(script, program, quick, workers):
    """Tries a script and prints its row of the table: the runs that ended otherwise."""
    counts, found = {}, []
    for column, each_of in faults(script, quick):
        counts[column] = len(each_of)
        found += tried(program, script, column, each_of, workers)
    name = os.path.relpath(script.path, TOP) if script.path.startswith(TOP + os.sep) else script.path
    print(f"{name:<32}" + "".join(f"{counts[column]:>10,}" for column in COLUMNS) + f"{len(found):>12,}", flush=True)
    return found


def report(program, found):
    """Each run that ended otherwise, with a command that repeats it."""
    if found:
        print(f"\n{shlex.join([*COMPILE, '-o', '/tmp/refuse.so', SOURCE])}")
    for script, each in found:
        print(f"\n{script.path}: {each.why}\n    {program.command(script.path, each.fault)}")


def default_scripts():
    return [*sorted(glob.glob(os.path.join(TOP, "examples/*.ada"))), *sorted(glob.glob(os.path.join(TOP, "docs/gnat/*.ada"))), os.path.join(TOP, "crates/adacont/stdin")]


def wanted():
    parser = argparse.ArgumentParser(description=__doc__, formatter_class=argparse.RawDescriptionHelpFormatter)
    parser.add_argument("--program", default=os.environ.get("ADACONT", os.path.join(TOP, "crates/adacont/out/adacont")), help="the built program (%(default)s)")
    parser.add_argument("--quick", action="store_true", help="some runs of each kind")
    parser.add_argument("--jobs", metavar="N", type=int, default=1, help="runs at once (%(default)s)")
    parser.add_argument("--seconds", metavar="N", type=float, default=10, help="the most that a run may take (%(default)s)")
    parser.add_argument("scripts", metavar="SCRIPT", nargs="*", help="scripts, in place of the repository's own")
    asked = parser.parse_args()
    for path in (asked.program, *asked.scripts):
        if not os.path.isfile(path):
            parser.error(f"there is no file {path}")
    return asked


def main():
    asked = wanted()
    found, unfits = [], []
    print(f"{'script':<32}{'memory':>10}{'reads':>10}{'writes':>10}{'threads':>10}{'cuts':>10}{'otherwise':>12}")
    with tempfile.TemporaryDirectory() as place, concurrent.futures.ThreadPoolExecutor(asked.jobs) as workers:
        program = Program(os.path.abspath(asked.program), place, asked.seconds)
        for path in asked.scripts or default_scripts():
            try:
                script = Script(os.path.abspath(path), program)
                found += [(script, each) for each in row(script, program, asked.quick, workers)]
            except ValueError as why:
                unfits.append(f"{path}: {why}")
        report(program, found)
    for each in unfits:
        print(f"\n{each}")
    return 1 if found or unfits else 0


if __name__ == "__main__":
    sys.exit(main())
