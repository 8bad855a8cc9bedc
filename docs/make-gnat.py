#!/usr/bin/env python3
"""Writes docs/gnat.md from the programs and scripts of docs/gnat/.

With --run it builds each Ada program with gnatmake instead, runs it, and says where it writes something else than what is kept beside it; with --record it keeps what they write. Neither is part of the gate, which runs the scripts alone.
"""
import argparse
import os
import subprocess
import sys
import tempfile

TOP = os.path.dirname(os.path.dirname(os.path.abspath(__file__)))
PLACE = os.path.join(TOP, "docs/gnat")
PAGE = os.path.join(TOP, "docs/gnat.md")
SECONDS = 120

ITEMS = [
    ("dead_cursor", "A dead cursor", "GNAT's cursor leads to an element that came later. Here it is dead, and refused by that name."),
    ("vector_cursor", "A vector's cursor", "GNAT's stands for a place, in which another element stands after an insertion before it. Here it follows its element."),
    ("foreign_cursor", "A cursor of another container", "GNAT's functions that take a cursor alone can't tell. Here each call has its container."),
    ("element_loop", "An element's place is taken in a loop over elements", "GNAT's loop holds no guard for elements, so that the name stands for another one from then on. Here it holds one."),
    ("no_effect", "Calls that would change nothing", "Four of GNAT's that would change nothing aren't checked for tampering. Here each is, so that whether a call is refused doesn't depend on what the container holds."),
    ("copy_subtree", "Copy_Subtree in a loop over the tree", "GNAT's isn't checked, and the loop meets what it adds."),
    ("with_itself", "Symmetric_Difference of an ordered set with itself, in a loop over it", "GNAT's isn't checked."),
    ("holder_move", "Holders that share", "Two of GNAT's holders share their element after Assign: a Move between them leaves the source as it was, and a copy that was made under a reference has what is written through it later."),
    ("deep_tree", "A deep tree", "GNAT's Assign runs out of stack. Here no call of a tree recurses."),
]

HEAD = """# What GNAT's containers do

Each program below is built by `gnatmake` as it comes, without options, and what it writes was kept from GNAT 12.2 on Linux; another version may do otherwise. Beside each stands a script of the same, with what it writes, which the gate runs. To run the programs on a machine with GNAT, and see where they write something else than is kept here:

    docs/make-gnat.py --run

`docs/make-gnat.py` writes this page from `docs/gnat/`.

"""


def read(name):
    with open(os.path.join(PLACE, name)) as file:
        return file.read()


def indented(text):
    return "".join("    " + line + "\n" if line else "\n" for line in text.rstrip("\n").split("\n"))


def shortened(text):
    """What is written, where lines stand often only the first ones."""
    lines = text.rstrip("\n").split("\n")
    return text if len(lines) <= 24 else "\n".join(lines[:9] + [".."] + lines[-3:]) + "\n"


def page():
    text = HEAD
    for name, title, says in ITEMS:
        text += f"## {title}\n\n{says}\n\n[{name}.adb](gnat/{name}.adb):\n\n{indented(read(name + '.adb'))}\nwrites\n\n{indented(read(name + '.gnat'))}\n"
        text += f"[{name}.ada](gnat/{name}.ada), for `./adacont`:\n\n{indented(read(name + '.ada'))}\nwrites\n\n{indented(shortened(read(name + '.out')))}\n"
    return text.rstrip("\n") + "\n"


def written(name, place):
    """What the Ada program writes on standard output, built anew."""
    built = subprocess.run(["gnatmake", "-q", os.path.join(PLACE, name + ".adb")], cwd=place, capture_output=True, text=True)
    if built.returncode != 0:
        sys.exit(built.stdout + built.stderr)
    try:
        return subprocess.run([os.path.join(place, name)], stdout=subprocess.PIPE, stderr=subprocess.DEVNULL, text=True, timeout=SECONDS).stdout
    except subprocess.TimeoutExpired:
        return f"nothing in {SECONDS} seconds\n"


def run(record):
    others = 0
    with tempfile.TemporaryDirectory() as place:
        for name, _, _ in ITEMS:
            now = written(name, place)
            if record:
                with open(os.path.join(PLACE, name + ".gnat"), "w") as file:
                    file.write(now)
                continue
            same = now == read(name + ".gnat")
            others += not same
            print(f"{name}: {'as kept' if same else 'otherwise:'}")
            if not same:
                print(indented(now))
    return 1 if others else 0


def main():
    parser = argparse.ArgumentParser(description=__doc__, formatter_class=argparse.RawDescriptionHelpFormatter)
    parser.add_argument("--run", action="store_true", help="build and run the Ada programs, and compare")
    parser.add_argument("--record", action="store_true", help="build and run them, and keep what they write")
    asked = parser.parse_args()
    if asked.run or asked.record:
        return run(asked.record)
    with open(PAGE, "w") as file:
        file.write(page())
    return 0


if __name__ == "__main__":
    sys.exit(main())
