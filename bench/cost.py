#!/usr/bin/env python3
"""Runs the scripts that cost most, measures what each takes, and checks how it ends.

    bench/cost.py [--program PATH] [--seconds N] [--only WORDS] [--page] [FOLDER]

The program is PATH, or what the environment variable ADACONT names, or `crates/adacont/out/adacont`. This tool makes the scripts: long inputs, long runs, many names, keys of one hash, large objects, small stacks, inputs and outputs that fail, threads that can't be started. A run is stopped once it has taken N seconds of the processor, or ten times as many by the clock.

Prints for each script how its runs ended, the seconds of the processor and how many of them the system took, the most memory, and the bytes written; where a script has several runs, the most of each. Then `yes` if all is as wanted, or what isn't. Each text is compared byte by byte with the one that the rules of the language give: the whole of it where the status is 0 or 1, a prefix otherwise. Only of tasks that may go in any order the length alone is compared. A run may take ten seconds of the processor, if nothing else is said. The exit status is 1 if anything isn't as wanted. Needs cc, and Linux with the GNU C library; not part of the gate.

With `--page` the tables are also written to `docs/hostile.md`, under the heading `Measured`, with the machine and the date.

With FOLDER the scripts are its `*.ada`, each with 4 GiB of address space. Where `NAME.want` stands beside a script, its text and the status in `NAME.status`, or 0, are wanted; elsewhere any end but a signal is.
"""
import argparse
import contextlib
import fcntl
import glob
import itertools
import os
import re
import signal
import subprocess
import sys
import tempfile
from typing import Callable, NamedTuple, Optional

import run as timing

TOP = timing.TOP
DONE, REFUSED, READ_FAULT, WRITE_FAULT, NO_MEMORY = 0, 1, 3, 4, 5
MIB = 1 << 20
INPUT_LIMIT = 1 << 20
SMALL_STACK = 64 << 10
FOLDER_MEMORY = 4 << 30
LONGEST = 10


# Texts

class Text:
    """A text as pieces that are repeated, of which only as much is made as is compared."""

    def __init__(self, *parts):
        pairs = [part if isinstance(part, tuple) else (part, 1) for part in parts]
        self.parts = [(piece.encode("latin-1"), times) for piece, times in pairs if piece]

    def blocks(self):
        for piece, times in self.parts:
            at_once = max(1, MIB // len(piece))
            block = piece * min(at_once, times)
            while times > 0:
                yield block if times >= at_once else piece * times
                times -= at_once


class Comparison:
    """What a program writes, compared with a text as it comes."""

    def __init__(self, text):
        self.blocks = text.blocks() if text else None
        self.block, self.at, self.is_prefix, self.size = b"", 0, True, 0

    def take(self, got):
        self.size += len(got)
        while self.blocks and self.is_prefix and got:
            if self.at == len(self.block):
                self.block, self.at = next(self.blocks, b""), 0
            part = got[:len(self.block) - self.at]
            self.is_prefix = len(part) > 0 and self.block.startswith(part, self.at)
            self.at += len(part)
            got = got[len(part):]

    def is_whole(self):
        return not self.blocks or self.is_prefix and self.at == len(self.block) and not any(self.blocks)


# Cases

class Case(NamedTuple):
    """A script, how it is run, and how it must end.

    text: what it writes; size: how many bytes that is, where the text isn't told
    statuses: those with which it may end; stops: it must be stopped
    within: the most seconds of the processor; most: the most bytes of memory
    memory, stack, threads: limits, 0 for none; with several limits of memory it is run with each
    source: what it reads, `script`, `long` (a file of 1 GiB), `folder` or `closed`
    sink: what it writes to, a pipe that is `read`, `unread` or `left` after a while, a `full` device, or `closed`
    refuse: settings of refuse.c
    """
    name: str
    script: Callable[[], str]
    text: Optional[Callable[[], Text]] = None
    size: Optional[int] = None
    statuses: tuple = (DONE,)
    stops: bool = False
    within: float = LONGEST
    most: Optional[int] = None
    memory: tuple = (0,)
    stack: int = 0
    threads: int = 0
    source: str = "script"
    sink: str = "read"
    refuse: tuple = ()


def written(name, script, *parts, **others):
    """A case of a script and the parts of its text."""
    return Case(name, lambda: script, lambda: Text(*parts), **others)


ANSWER = re.compile(r" --> (.*)")


def told(script, turns=0):
    """The parts of a script's text, which comments tell, as in `A.Length; --> 3`. Those in its loop come so many times, where `{n}` is the turn's number and `{minus}` its negative."""
    before, body, after = [], [], []
    at = before
    for number, line in enumerate(script.split("\n"), 1):
        at = body if line.startswith("for ") else after if line.startswith("end loop") else at
        if answer := ANSWER.search(line):
            at.append(f"{number}: {answer[1]}\n")
    turn = "".join(body)
    loop = (turn, turns) if "{" not in turn else ("".join(turn.format(n=n, minus=-n) for n in range(1, turns + 1)), 1)
    return [("".join(before), 1), loop, ("".join(after), 1)]


def bare(script):
    """The script without the comments that tell its text."""
    return ANSWER.sub("", script)


def commented(name, script, turns=0, **others):
    """A case of a script whose comments tell its text."""
    return Case(name, lambda: bare(script), lambda: Text(*told(script, turns)), **others)


def in_any_order(name, script, **others):
    """The same where the lines may come in any order."""
    return Case(name, lambda: bare(script), size=sum(len(piece) * times for piece, times in told(script)), **others)


# Keys of one hash

def integers_of_one_hash(count):
    """Integers with one hash: one more in a byte is 31 less in the next, whatever the other bytes are."""
    made = []
    for steps in itertools.product(range(-3, 4), repeat=6):
        for last in range(4):
            moves = (*steps, last)
            octets = [120 + put - 31 * taken for put, taken in zip((*moves, 0), (0, *moves))]
            made.append(int.from_bytes(bytes(octets), "little"))
        if len(made) >= count:
            return made[:count]
    raise ValueError("there aren't so many")


def strings_of_one_hash(doublings):
    """Strings with one hash, since `Aa` and `BB` have one."""
    return [f'"{"".join(each)}"' for each in itertools.product(("Aa", "BB"), repeat=doublings)]


# Inputs of 1 MiB

LIST = "type l is list (integer);\na : l;\n"


def filled(piece, head="", end=""):
    return timing.filled(INPUT_LIMIT, head, piece, end)


def assignments(name, names, **others):
    """Declarations, and assignments of the last name as often as there is room."""
    def script():
        made = names()
        return filled(f"{made[-1]}:={made[-2]};\n", "".join(f"{each}:integer;\n" for each in made))

    def text():
        return Text("".join(f"{line}: 0\n" for line in range(len(names()) + 1, script().count("\n") + 1)))

    return Case(name, script, text, **others)


def names_in_order(size):
    return [f"n{number:03d}".ljust(size, "x") for number in range(1000)]


def names_alike(size):
    """Names that are compared up to their last bytes."""
    return [f"{number:03d}".rjust(size, "x") for number in range(1000)]


def input_cases():
    for name, piece in (("blanks", " "), ("line feeds", "\n"), ("comments", "-- x\n")):
        yield written(name, filled(piece))
    for name, piece in (("semicolons", ";"), ("parentheses", "("), ("colons", ":"), ("words", "a ")):
        yield written(name, filled(piece), "line 1: syntax\n", statuses=(REFUSED,))
    yield written("one word", filled("a"), "line 1: limit\n", statuses=(REFUSED,))
    yield written("one number", filled("9", "n : integer; n := ", ";"), "line 1: limit\n", statuses=(REFUSED,))
    yield written("one string", filled("x", 'type l is list (string); a : l; a.append ("', '");'), "line 1: limit\n", statuses=(REFUSED,))
    yield written("one string that doesn't end", filled("x", 'a.b ("'), "line 1: syntax\n", statuses=(REFUSED,))
    yield written("one call with 524,000 arguments", filled("1,", "type l is list (integer); a : l; a.append (", "1);"), "line 1: wrong type\n", statuses=(REFUSED,))
    yield written("empty blocks", filled("stable a do end;\n", LIST))
    yield written("empty declares", filled("declare b : l; begin end;\n", LIST))
    yield deep_blocks()
    yield written("assignments", filled("x:=1;", "x:integer;\n"), ("2: 1\n", (INPUT_LIMIT - len("x:integer;\n")) // len("x:=1;")))
    yield assignments("1,000 names, assignments of the last", lambda: names_in_order(4))
    yield assignments("1,000 names of 64 bytes, assignments of the last", lambda: names_in_order(64))
    yield assignments("1,000 names that differ in their last bytes, assignments of the last", lambda: names_alike(64), within=1)


def deep_blocks(**others):
    """Sixteen blocks inside each other, as often as there is room."""
    script = timing.nested(INPUT_LIMIT)
    lines = [line for line, text in enumerate(script.split("\n"), 1) if text == "A.Length;"]
    return written("16 blocks inside each other", script, "".join(f"{line}: 0\n" for line in lines), **others)


# Long runs

DRIVER = "type driver is list (integer);\nz : driver;\nn : integer;\n"


def nested(depth, body):
    return "".join(f"for i{each} in z loop\n" for each in range(depth)) + body + "end loop;\n" * depth


def endless(name, body, *parts):
    """Sixteen loops inside each other over 1,000 elements: 10^48 turns."""
    return written(name, f"{DRIVER}z.append (0, 1000);\n{nested(16, body)}", "4: ok\n", *parts, stops=True, most=16 * MIB)


def insertions(name, kind, keys, value=""):
    """Insertions of keys, and a search for the last one as often."""
    lines = [f"type m is {kind};", "a : m;", "type d is list (integer);", "z : d;"]
    lines += [f"a.insert ({key}{value}); --> ok" for key in keys]
    lines += [f"z.append (0, {len(keys)}); --> ok", "for i in z loop", f"a.contains ({keys[-1]}); --> true", "end loop;", f"a.length; --> {len(keys)}"]
    script = "\n".join(lines) + "\n"
    return commented(name, script, len(keys))


def looped(name, count, objects, body, end="", **others):
    """A case of a loop with so many turns."""
    return commented(name, f"{DRIVER}{objects}z.append (0, {count}); --> ok\nfor i in z loop\n{body}end loop;\n{end}", count, **others)


SPLICES = """type t is list (integer);
a : t;
b : t;
a.append (0, 1000000); --> ok
""" + "b.splice (no_element, a); --> ok\na.splice (no_element, b); --> ok\n" * 20

WIDE_TREE = """type t is tree (integer);
a : t;
c : t.cursor;
d : t.cursor;
c := a.root; --> cursor
a.append_child (c, 0, 1000000); --> ok
a.child_count (c); --> 1000000
d := a.last_child (c); --> cursor
d := a.previous_sibling (d); --> cursor
a.splice_subtree (c, no_element, d); --> ok
a.splice_children (c, no_element, c); --> ok
a.delete_children (c); --> ok
a.node_count; --> 1
"""


def long_cases():
    yield endless("16 loops of 1,000 turns inside each other", "")
    yield endless("the same, a line in each turn", "z.length;\n", ("21: 1000\n", 10 ** 48))
    yield insertions("29,000 integers of one hash, inserted and searched", "hashed_set (integer)", integers_of_one_hash(29_000))
    yield insertions("16,384 strings of one hash, inserted and searched", "hashed_map (string, integer)", strings_of_one_hash(14), ", 1")
    yield looped("1,000,000 integers into an ordered set, ascending", 1_000_000, "type s is ordered_set (integer);\na : s;\n",
                 "n := n + 1; --> {n}\na.insert (n); --> ok\n", "a.floor (500000); --> cursor\na.length; --> 1000000\n")
    yield looped("two ordered sets of 500,000, united", 500_000, "type s is ordered_set (integer);\na : s;\nb : s;\nk : integer;\n",
                 "n := n + 1; --> {n}\nk := k - 1; --> {minus}\na.insert (n); --> ok\nb.insert (k); --> ok\n", "a.union (b); --> ok\na.symmetric_difference (b); --> ok\na.length; --> 500000\n")
    yield looped("30,000 insertions at the front of a vector", 30_000, "type t is vector (integer);\na : t;\n", "a.insert (1, 7); --> ok\n", "a.length; --> 30000\n")
    yield looped("300 deletions at the front of 1,000,000 elements", 300, "type t is vector (integer);\na : t;\na.append (1, 1000000); --> ok\n",
                 "a.delete_first; --> ok\n", "a.length; --> 999700\n")
    yield looped("two hashed maps of 500,000, compared", 500_000, "type m is hashed_map (integer, integer);\na : m;\nb : m;\n",
                 "n := n + 1; --> {n}\na.insert (n, 0); --> ok\n", "b.assign (a); --> ok\na.equal (b); --> true\n")
    yield looped("100,000 updates of a key", 100_000, 'type s is hashed_set (string) keyed;\na : s;\nc : s.cursor;\na.include ("a=1"); --> ok\nc := a.find ("a=1"); --> cursor\n',
                 'update_key a at c as x do\nx := "a=2"; --> "a=2"\nend;\n', 'a.print; --> ["a=2"]\n')
    yield looped("1,000,000 swaps of two elements' links", 1_000_000, "type t is list (integer);\na : t;\nc : t.cursor;\nd : t.cursor;\na.append (0, 1000); --> ok\nc := a.first; --> cursor\nd := a.last; --> cursor\n",
                 "a.swap_links (c, d); --> ok\n", "a.is_sorted; --> true\n")
    yield looped("999,999 splices of one element", 999_999, "type t is list (integer);\na : t;\nb : t;\nc : t.cursor;\na.append (0, 1000000); --> ok\n",
                 "c := a.first; --> cursor\nb.splice (no_element, a, c); --> ok\n", "a.length; --> 1\nb.length; --> 999999\n")
    yield commented("40 splices of 1,000,000 elements", SPLICES)
    yield commented("a tree of 1,000,000 siblings", WIDE_TREE)
    yield looped("2,000 listings of 10,000 integers", 2_000, "a : driver;\na.append (1, 10000); --> ok\n", f"a.print; --> [{', '.join(['1'] * 10_000)}]\n")


# Memory

def many_lists():
    lines = ["type l is list (integer);", *(f"a{number} : l;" for number in range(998)), *(f"a{number}.append (0, 1000000); --> ok" for number in range(998))]
    return commented("998 lists of 1,000,000 integers, in 512 MiB", "\n".join(lines), statuses=(NO_MEMORY,), memory=(512 * MIB,))


def many_strings():
    script = f'type l is list (string);\na : l;\na.append ("{"x" * 1000}", 1000000); --> ok\n'
    return commented("1,000,000 strings of 1,000 bytes, in 512 MiB", script, statuses=(NO_MEMORY,), memory=(512 * MIB,))


def copied_strings():
    script = f'type l is list (string);\na : l;\nb : l;\na.append ("{"x" * 1000}", 200000); --> ok\nb.assign (a); --> ok\na.clear; --> ok\nb.clear; --> ok\na.append ("y", 1000000); --> ok\n'
    return commented("200,000 strings of 1,000 bytes, copied", script, most=500 * 1000 * 1000)


EACH_KIND = """type z is list (integer);
type l is list (string);
type v is vector (integer);
type m is hashed_map (integer, string);
type s is ordered_set (integer);
type t is tree (string);
type h is holder (string);
type q is priority_queue (integer);
d : z;
a : l;
b : v;
c : m;
e : s;
f : t;
g : h;
p : q;
r : t.cursor;
n : integer;
d.append (0, 5000); --> ok
r := f.root; --> cursor
for i in d loop
n := n + 1; --> {n}
a.append ("XXX"); --> ok
b.append (n); --> ok
c.insert (n, "XXX"); --> ok
e.insert (n); --> ok
f.append_child (r, "XXX"); --> ok
g.replace_element ("XXX"); --> ok
p.enqueue (n); --> ok
end loop;
a.sort; --> ok
b.sort; --> ok
a.length; --> 5000
""".replace("XXX", "x" * 500)


def long_text():
    """1 MiB of appends: what the text itself takes, and what is read from it."""
    script = timing.appends(INPUT_LIMIT)
    count = script.count("\n") - 3
    listing = ", ".join(str(number % 100) for number in range(count))
    text = "".join(f"{line}: ok\n" for line in range(3, count + 3)) + f"{count + 3}: [{listing}]\n"
    return written("1 MiB of appends, in 2 to 128 MiB", script, text, statuses=(DONE, NO_MEMORY), memory=tuple(range(2 * MIB, 128 * MIB, 6 * MIB)))


def long_output():
    item = f'"{"x" * 1000}"'
    script = f'type l is list (string);\na : l;\nz : l;\na.append ({item}, 1000);\nz.append ("", 2000);\nfor i in z loop\na.print;\nend loop;\n'
    return written("2 GB of output, in 64 MiB", script, "4: ok\n5: ok\n", (f"7: [{', '.join([item] * 1000)}]\n", 2000), memory=(64 * MIB,))


def long_quotes():
    """The longest listing: each quote is written as two."""
    item = '""' * 1000
    script = f'type v is vector (string);\na : v;\na.append ("{item}", 1000000); --> ok\na.print;\n'
    return written("2 GB of quotes", bare(script), *told(script), "4: [", (f'"{item}", ', 999_999), f'"{item}"]\n', within=60)


def memory_cases():
    yield many_lists()
    yield many_strings()
    yield copied_strings()
    yield commented("each kind of container, in 2 to 32 MiB", EACH_KIND, 5000, statuses=(DONE, NO_MEMORY), memory=tuple(range(2 * MIB, 32 * MIB, MIB // 2)))
    yield long_text()
    yield chain(100, "100 blocks of 8 tasks, in 2 to 80 MiB", statuses=(DONE, NO_MEMORY), memory=tuple(range(2 * MIB, 80 * MIB, 2 * MIB)))
    yield long_output()
    yield long_quotes()


# Stacks

DEEP_TREE = """type t is tree (integer);
type l is list (integer);
a : t;
b : t;
c : t.cursor;
z : l;
z.append (0, 1000000); --> ok
c := a.root; --> cursor
for i in z loop
a.append_child (c, 0); --> ok
c := a.first_child (c); --> cursor
end loop;
a.depth (c); --> 1000001
a.node_count; --> 1000001
a.contains (1); --> false
b.assign (a); --> ok
a.equal (b); --> true
b.clear; --> ok
b.assign (a); --> ok
a.print;
"""


def deep_tree():
    """A tree of depth 1,000,000 with its calls; two such trees are there when the script ends."""
    listing = ["20: [", ("0 [", 999_999), "0", ("]", 1_000_000), "\n"]
    return written("a tree of depth 1,000,000", bare(DEEP_TREE), *told(DEEP_TREE, 1_000_000), *listing, stack=SMALL_STACK)


def sorted_sequences(kind):
    return looped(f"a {kind} of 400,000, sorted and merged", 200_000, f"type t is {kind} (integer);\na : t;\nb : t;\n", "n := n - 1; --> {minus}\na.append (n); --> ok\nb.append (n); --> ok\n",
                  "a.sort; --> ok\nb.sort; --> ok\na.merge (b); --> ok\na.is_sorted; --> true\na.length; --> 400000\n", stack=SMALL_STACK)


def stack_cases():
    yield deep_tree()
    yield sorted_sequences("vector")
    yield sorted_sequences("list")
    yield deep_blocks(stack=SMALL_STACK)
    yield chain(100, "100 blocks of 8 tasks", stack=SMALL_STACK)


# Inputs and outputs

LINES = "type l is list (integer);\na : l;\na.append (0, 1000000); --> ok\nfor i in a loop\na.length; --> 1000000\nend loop;\n"


def device_cases():
    for name, sink in (("a pipe that nobody reads", "unread"), ("a pipe whose reader leaves", "left"), ("/dev/full", "full"), ("closed", "closed")):
        yield commented(f"the output is {name}", LINES, 1_000_000, statuses=(WRITE_FAULT,), sink=sink)
    yield written("a refused script's line to /dev/full", "a.b;\n", "line 1: unknown name\n", statuses=(WRITE_FAULT,), sink="full")
    yield written("the input is a folder", "", statuses=(READ_FAULT,), source="folder")
    yield written("the input is closed", "", statuses=(READ_FAULT,), source="closed")
    yield written("the input is a file of 1 GiB", "", "input: limit\n", statuses=(REFUSED,), source="long", most=16 * MIB)


# Threads

def chain(count, name, **others):
    """Blocks of eight tasks, of which each waits for the one before: so there is one text alone."""
    lines = ["type q is queue (integer);", "type l is list (integer);", "z : l;", *(f"a{number} : q;" for number in range(1, 8)), f"z.append (0, {count}); --> ok"]
    lines += ["for i in z loop", "tasks", "task t0 is begin", "a1.enqueue (1); --> t0: ok"]
    for number in range(1, 8):
        lines += [f"end; task t{number} is n : integer; begin", f"n := a{number}.dequeue; --> t{number}: 1"]
        lines += [f"a{number + 1}.enqueue (n); --> t{number}: ok"] if number < 7 else []
    lines += ["end;", "end tasks;", "end loop;", "a7.current_use; --> 0"]
    return commented(name, "\n".join(lines) + "\n", count, **others)


def crowd():
    """Eight tasks of a thousand commands each on one queue, in any order."""
    lines = ["type q is queue (integer);", "a : q;", "tasks"]
    for number in range(8):
        lines += [f"task t{number} is begin", *[f"a.enqueue (1); --> t{number}: ok"] * 1000, "end;"]
    return in_any_order("8 tasks of 1,000 commands on one queue", "\n".join([*lines, "end tasks;", "a.current_use; --> 8000\n"]))


def ping_pong():
    """Two tasks that wait for each other at each command."""
    lines = ["type q is bounded queue (integer);", "a : q (1);", "b : q (1);", "tasks"]
    for name, first, second in (("t", "a", "b"), ("u", "b", "a")):
        lines.append(f"task {name} is n : integer; begin")
        lines += [line for number in range(450) for line in (f"{first}.enqueue ({number}); --> {name}: ok", f"n := {second}.dequeue; --> {name}: {number}")]
        lines.append("end;")
    return in_any_order("2 tasks that wait for each other 900 times", "\n".join([*lines, "end tasks;", "a.print; --> []", "b.print; --> []\n"]))


def thread_cases():
    yield chain(10_000, "10,000 blocks of 8 tasks")
    yield crowd()
    yield ping_pong()
    yield chain(100, "100 blocks of 8 tasks, no thread can be started", refuse=(("REFUSE_KIND", "thread"), ("REFUSE_LATER", "1")))
    yield chain(100, "the same, the fifth thread alone can't", refuse=(("REFUSE_KIND", "thread"), ("REFUSE_AT", "5")))
    yield chain(100, "the same, the user may have one thread", threads=1)
    yield chain(100, "the same, the user may have four threads", threads=4)


SECTIONS = [
    ("Inputs of 1 MiB", "What it takes to read the longest inputs, and to refuse or run them.", input_cases),
    ("Long runs", "The first two never end, and are stopped.", long_cases),
    ("Memory", "A limit that is named is one of the address space; from one limit to another there is a run with each, in equal steps, the least being one with which the empty script runs. Status 5 is out of memory.", memory_cases),
    ("Stack", "With a stack of 64 KiB, each thread's too.", stack_cases),
    ("Inputs and outputs", "Status 3 is a fault of reading, 4 one of writing.", device_cases),
    ("Threads", "All tasks of a block but one get a thread of their own. Where none can be started, the threads that there are do the commands of all tasks.", thread_cases),
]


# Runs

class Ended(NamedTuple):
    """How a run ended: its status, which is negative for a signal and None where it was stopped; the seconds of the processor, the system's with them and the system's alone; the most bytes of memory; the bytes written, and whether they are the text or a prefix of it."""
    status: Optional[int]
    processor: float
    system: float
    memory: int
    size: int
    is_prefix: bool
    is_whole: bool


class Row(NamedTuple):
    """What is printed of a case."""
    name: str
    ends: list
    wrong: str


class Machinery:
    """The program, what measures it, and the library that refuses its requests."""

    def __init__(self, program, place, seconds):
        self.program, self.place, self.seconds = program, place, seconds
        self.measure, self.library = os.path.join(place, "measure"), os.path.join(place, "refuse.so")
        subprocess.run(["cc", "-O1", "-o", self.measure, os.path.join(TOP, "bench/measure.c")], check=True)
        subprocess.run(["cc", "-O1", "-shared", "-fPIC", "-o", self.library, os.path.join(TOP, "bench/refuse.c")], check=True)

    def source(self, case):
        """What the program reads."""
        if case.source == "folder":
            return os.open(self.place, os.O_RDONLY)
        path = os.path.join(self.place, "script")
        with open(path, "w", encoding="latin-1", newline="") as file:
            file.write(case.script())
        if case.source == "long":
            os.truncate(path, 1 << 30)
        return os.open(path, os.O_RDONLY)

    def command(self, case, reporting, memory):
        """The command that runs a case under its limits."""
        closed = "".join((" <&-" if case.source == "closed" else "", " >&-" if case.sink == "closed" else ""))
        before = ["sh", "-c", f'exec "$@"{closed}', "sh"] if closed else []
        limits = (reporting, LONGEST if case.stops else self.seconds, memory, case.stack, case.threads)
        return [*before, self.measure, *map(str, limits), self.program]

    def settings(self, case):
        return {**os.environ, "LD_PRELOAD": self.library, **dict(case.refuse)} if case.refuse else None


def take(sink, reading, comparison):
    """Reads what the program writes to a pipe up to its end, or only some of it."""
    while sink == "read" or sink == "left" and comparison.size < MIB:
        got = os.read(reading, MIB)
        if not got:
            break
        comparison.take(got)
    os.close(reading)


def once(machinery, case, memory, text):
    """Runs a case under one limit of memory."""
    comparison = Comparison(text)
    report, reporting = os.pipe()
    reading, writing = os.pipe()
    fcntl.fcntl(writing, fcntl.F_SETPIPE_SZ, MIB)
    if case.sink == "full":
        os.close(writing)
        writing = os.open("/dev/full", os.O_WRONLY)
    if case.sink == "unread":
        os.close(reading)
    source = machinery.source(case)
    running = subprocess.Popen(machinery.command(case, reporting, memory), stdin=source, stdout=writing, stderr=subprocess.DEVNULL, env=machinery.settings(case), pass_fds=(reporting,))
    for file in (reporting, writing, source):
        os.close(file)
    if case.sink != "unread":
        take(case.sink, reading, comparison)
    running.wait()
    with open(report) as line:
        status, user, system, kibibytes = map(int, line.read().split())
    ended = os.waitstatus_to_exitcode(status)
    is_stopped = ended in (-signal.SIGALRM, -signal.SIGXCPU)
    return Ended(None if is_stopped else ended, (user + system) / 1e6, system / 1e6, kibibytes << 10, comparison.size, comparison.is_prefix, comparison.is_whole())


def ending(ended):
    if ended.status is None:
        return "stopped"
    return signal.Signals(-ended.status).name if ended.status < 0 else str(ended.status)


def wrong(case, ended):
    """What of a run isn't as wanted, or nothing."""
    if ended.status not in ((None,) if case.stops else case.statuses):
        return f"ended with {ending(ended)}"
    if not ended.is_prefix:
        return "wrote another text"
    if ended.status in (DONE, REFUSED) and not ended.is_whole:
        return "wrote less"
    if case.size not in (None, ended.size):
        return f"wrote {ended.size:,} bytes in place of {case.size:,}"
    if case.most and ended.memory > case.most:
        return f"had {ended.memory / 1e6:.1f} MB"
    if not case.stops and ended.processor > case.within:
        return f"took more than {case.within} s"
    return ""


def least_memory(machinery, limits):
    """Those limits of memory with which the empty script runs: with less the system doesn't start the program."""
    nothing = Case("nothing", lambda: "")
    return [limit for limit in limits if limit == 0 or once(machinery, nothing, limit, Text()).status == DONE]


def tried(machinery, case):
    text = case.text() if case.text else None
    ends = [once(machinery, case, limit, text) for limit in least_memory(machinery, case.memory)]
    wrongs = {wrong(case, ended): None for ended in ends}
    return Row(case.name, ends, ", ".join(filter(None, wrongs)))


HEAD = f"{'':<52}{'ended':>9}{'processor s':>13}{'system s':>10}{'memory MB':>11}{'written MB':>12}  as wanted"


def row_line(row):
    ends = " ".join(sorted({ending(ended) for ended in row.ends}))
    most = [max(value) for value in zip(*((ended.processor, ended.system, ended.memory / 1e6, ended.size / 1e6) for ended in row.ends))]
    return f"{row.name:<52}{ends:>9}{most[0]:>13.3f}{most[1]:>10.3f}{most[2]:>11.1f}{most[3]:>12.3f}  {row.wrong or 'yes'}"


def tried_in_turn(machinery, cases):
    """Runs cases and prints a row for each: the names of those that aren't as wanted."""
    print(HEAD)
    otherwise = []
    for each in cases:
        row = tried(machinery, each)
        print(row_line(row), flush=True)
        if row.wrong:
            otherwise.append(row.name)
    return otherwise


# The scripts of a folder

def read(path):
    """A file's bytes, a character each."""
    with open(path, encoding="latin-1", newline="") as file:
        return file.read()


def folder_case(path):
    """A script of a folder, with what it must write where that stands beside it."""
    base = path[:-len(".ada")]
    name = os.path.basename(base)
    if not os.path.isfile(base + ".want"):
        return Case(name, lambda: read(path), statuses=(DONE, REFUSED, NO_MEMORY, None), memory=(FOLDER_MEMORY,))
    status = int(read(base + ".status")) if os.path.isfile(base + ".status") else DONE
    return Case(name, lambda: read(path), lambda: Text(read(base + ".want")), statuses=(status,), memory=(FOLDER_MEMORY,))


# The page

PAGE = os.path.join(TOP, "docs/hostile.md")
MEASURED = "## Measured\n"


def page(tables):
    """Writes what was measured under its heading."""
    with open(PAGE) as file:
        before = file.read().split(MEASURED)[0]
    rows = "".join(f"| {name} | {said} |\n" for name, said in timing.machine() if name != "Plain Rust")
    parts = "".join(f"### {title}\n\n{says}\n\n" + "".join(f"    {line}\n" for line in printed.rstrip("\n").split("\n")) + "\n" for title, says, printed in tables)
    text = f"{before}{MEASURED}\n`bench/cost.py --page` measures, and writes this part. Each text was compared byte by byte with the one that the rules of the language give.\n\n| | |\n|---|---|\n{rows}\n{parts}"
    with open(PAGE, "w") as file:
        file.write(text.rstrip("\n") + "\n")


def wanted():
    parser = argparse.ArgumentParser(description=__doc__, formatter_class=argparse.RawDescriptionHelpFormatter)
    parser.add_argument("--program", default=os.environ.get("ADACONT", timing.PROGRAM), help="the built program (%(default)s)")
    parser.add_argument("--seconds", metavar="N", type=int, default=60, help="stop a run after so many seconds of the processor (%(default)s)")
    parser.add_argument("--only", metavar="WORDS", default="", help="only scripts with these words in their names")
    parser.add_argument("--page", action="store_true", help="write the tables to docs/hostile.md, with the machine and the date")
    parser.add_argument("folder", metavar="FOLDER", nargs="?", help="a folder of scripts, in place of those of this tool")
    asked = parser.parse_args()
    if asked.page and (asked.only or asked.folder):
        parser.error("--page measures all scripts of this tool")
    return asked


def main():
    asked = wanted()
    if not os.access(asked.program, os.X_OK):
        sys.exit(f"there is no program {asked.program}")
    sections = SECTIONS
    if asked.folder:
        paths = sorted(glob.glob(os.path.join(asked.folder, "*.ada")))
        sections = [("Scripts of a folder", "", lambda: map(folder_case, paths))]
    tables, otherwise = [], []
    with tempfile.TemporaryDirectory() as place:
        machinery = Machinery(os.path.abspath(asked.program), place, asked.seconds)
        for title, says, cases in sections:
            chosen = [each for each in cases() if asked.only in each.name]
            if chosen:
                print(f"\n{title}")
                with contextlib.redirect_stdout(timing.Tee()) as printed:
                    otherwise += tried_in_turn(machinery, chosen)
                tables.append((title, says, printed.getvalue()))
    if asked.page:
        page(tables)
    return 1 if otherwise else 0


if __name__ == "__main__":
    sys.exit(main())
