#!/usr/bin/env python3
"""Times the built programs beside plain Rust programs on the same machine in the same run.

Prints the program's time for each generated script, the ratio to the baseline's, and the growth from half the script to the whole: 2 is linear. Then the time and the memory of long runs, and what `A.Length` costs. Then the time of `--check` on inputs of 1 MiB that are the worst of their sorts, and the growth. Then what the calls of two sets take for each element, in sets of 1,000 to 100,000, in time and, where valgrind is there, in instructions, which no cache changes: n log n is a growth of 1.67. Then the time of a put and a take of the pool, and the ratio; and of an insertion and a removal in the middle of a chain, which stays flat where the chain grows. Then the times of calls of lists and sets, and their growth from 10,000 elements to 1,000,000, and the memory of a slot. Then what questions take for each row. Needs rustc; isn't part of the gate.

With `--peer COMMAND` it prints instead the processor times of some scripts, and of the generator's longest, beside those of another interpreter of the same language, and the ratio: below 1 is faster. Then the growth of set algebra with both.

With `--page` it also writes what it printed to `bench/README.md`, with the machine and the date; with `--peer COMMAND` besides, the tables beside the other interpreter too.

With `--before PROGRAM`, where PROGRAM is `crates/ac_bench/out/ac_bench` of another checkout, built there by `rt run`, it prints instead the times of each workload with that program and with this checkout's, which run in turn, beside one another, and the ratio: below 1 is faster than before.
"""
import argparse
import contextlib
import datetime
import io
import os
import platform
import re
import shlex
import shutil
import subprocess
import sys
import tempfile
import time

TOP = os.path.dirname(os.path.dirname(os.path.abspath(__file__)))
PROGRAM = os.path.join(TOP, "crates/adacont/out/adacont")
HEAD = "type L is list (integer);\nA : L;\n"
RUNS = 5
# Processor times are the least of more runs: a machine that others share is often slower for a while.
PROCESSOR_RUNS = 25
ALGEBRA_RUNS = 9
PAIRS = 7
SIZES = (10_000, 100_000, 1_000_000)


def appends(size):
    """Appends up to so many bytes, and a print at the end."""
    end = "A.Print;\n"
    parts, left, n = [], size - len(HEAD) - len(end), 0
    while True:
        line = f"A.Append ({n % 100});\n"
        if left < len(line):
            return HEAD + "".join(parts) + end
        parts.append(line)
        left -= len(line)
        n += 1


def prints(count):
    """So many appends, with a print after every twentieth."""
    return HEAD + "".join(f"A.Append ({n});\n" + ("A.Print;\n" if n % 20 == 19 else "") for n in range(count))


def filled(size, head, piece, end=""):
    """A text of at most so many bytes: a piece as often as it has room."""
    return head + piece * ((size - len(head) - len(end)) // len(piece)) + end


def nested(size):
    """Sixteen blocks inside each other, as often as there is room."""
    return filled(size, HEAD, "stable A do\n" * 16 + "A.Length;\n" + "end;\n" * 16)


def named(size):
    """A thousand names, and commands that use the last of them."""
    return filled(size, "".join(f"n{i} : integer;\n" for i in range(1000)), "n999 := n998 + 1;\n")


def rounds(body, over="Drive", name="I_"):
    return f"for {name} in {over} loop\n{body}end loop;\n"


def driven(types, objects, count):
    """Declarations, with a list that loops run over so often."""
    return f"type Driver is list (integer);\n{types}Drive : Driver;\n{objects}Drive.Append (0, {count});\n"


def list_churn():
    """Two appends and a deletion at the front, then deletions at the back."""
    return (driven("type L is list (integer);\n", "A : L;\nN : integer;\n", 200_000)
            + rounds("N := N + 1;\nA.Append (N);\nA.Append (N);\nA.Delete_First;\n")
            + "A.Length;\nA.First_Element;\nA.Last_Element;\n" + rounds("A.Delete_Last;\n") + "A.Length;\n")


def list_sort_merge():
    return (driven("type L is list (integer);\n", "A : L;\nB : L;\nS : L;\nN : integer;\nK : integer;\n", 200_000)
            + "K := 100000;\n" + rounds("N := N + 7919;\nK := K - 104729;\nA.Append (N);\nA.Prepend (K);\nB.Append (K);\nB.Prepend (N);\n")
            + "A.Reverse_Elements;\nA.Sort;\nA.Is_Sorted;\nB.Sort;\nA.Merge (B);\nA.Is_Sorted;\nA.Length;\nB.Length;\n"
            + "S.Assign (A);\nS.Equal (A);\nS.Reverse_Elements;\nS.Sort;\nS.Equal (A);\n")


def dispatch():
    """The shortest commands: what a command costs at least."""
    return ("type T is list (integer);\nV : T;\nRep : T;\nX : integer;\nY : integer;\nV.Append (0, 1000);\nRep.Append (0, 1000);\n"
            + rounds(rounds("X := X + 1;\nY := X;\nV.Is_Empty;\n", "V", "C"), "Rep"))


def vector_append_read():
    """An append, and elements that are read and written by their indexes, forwards and backwards."""
    return (driven("type T is vector (integer);\n", "V : T;\nN : integer;\nX : integer;\n", 200_000)
            + rounds("N := N + 1;\nV.Append (N);\nX := V.Element (N);\nV.Last_Index;\n")
            + rounds("V.Replace_Element (N, X);\nV.Element (N);\nN := N - 1;\n")
            + "V.Length;\nV.First_Element;\nV.Last_Element;\nV.Find_Index (77);\n")


def vector_sort():
    return (driven("type T is vector (integer);\n", "A : T;\nB : T;\nN : integer;\nK : integer;\n", 200_000)
            + "K := 100000;\n" + rounds("N := N + 7919;\nK := K - 104729;\nA.Append (N);\nA.Append (K);\n")
            + "A.Is_Sorted;\nA.Sort;\nA.Is_Sorted;\nA.Length;\nA.First_Element;\nA.Last_Element;\nB.Assign (A);\nB.Reverse_Elements;\nB.Sort;\nB.Equal (A);\n")


def map_ops(kind):
    """Insertions, look-ups, replacements and exclusions, by 40,000 keys that rise and as many that fall. No line shows the order of a hashed map, which is each program's own."""
    return (driven(f"type M is {kind} (integer, integer);\n", "A : M;\nN : integer;\nK : integer;\nX : integer;\n", 40_000)
            + rounds("N := N + 1;\nK := K - 1;\nA.Insert (N, K);\nA.Insert (K, N);\nX := A.Element (K);\nA.Contains (N);\n") + "A.Length;\n"
            + rounds("A.Include (N, X);\nA.Replace (K, X);\nX := A.Element (N);\nA.Exclude (N);\nA.Contains (N);\nN := N - 1;\nK := K + 1;\n") + "A.Length;\n")


def hashed_map_ops():
    return map_ops("hashed_map")


def ordered_map_ops():
    return map_ops("ordered_map")


def ordered_set_r14():
    """200,000 insertions in ascending order, then four searches for each element, the greatest first."""
    return ("type V is vector (integer);\ntype S is ordered_set (integer);\nA : V;\nB : S;\nC : S.cursor;\nN : integer;\nA.Append (0, 200000);\n"
            + rounds("N := N + 1;\nB.Insert (N);\n", "A") + rounds("C := B.Find (N);\nB.Contains (N);\nC := B.Floor (N);\nC := B.Ceiling (N);\nN := N - 1;\n", "A") + "B.Length;\n")


def set_algebra(kind, size, times):
    """Two sets of so many elements, of which a third is common, and each call of two sets so often."""
    procedures = "".join(f"T.Assign (A);\nT.{name} (B);\nT.Length;\n" for name in ("Union", "Intersection", "Difference", "Symmetric_Difference"))
    return (f"type Driver is list (integer);\ntype S is {kind} (integer);\nDrive : Driver;\nRep : Driver;\nA : S;\nB : S;\nT : S;\nN : integer;\nK : integer;\n"
            f"Drive.Append (0, {size});\nRep.Append (0, {times});\n" + rounds("N := N + 2;\nK := K + 3;\nA.Insert (N);\nB.Insert (K);\n")
            + rounds(procedures + "A.Overlap (B);\nT.Is_Subset (A);\nA.Equivalent_Sets (B);\n", "Rep"))


def ordered_set_algebra():
    return set_algebra("ordered_set", 100_000, 10)


def tree_build_find():
    """A tree of 1,000 children with 100 children each, then searches for what isn't there, below the root and below each child."""
    return ("type Driver is list (integer);\ntype T is tree (integer);\nDrive : Driver;\nTen : Driver;\nA : T;\nR : T.cursor;\nC : T.cursor;\nD : T.cursor;\nN : integer;\n"
            "Drive.Append (0, 1000);\nTen.Append (0, 100);\nR := A.Root;\n"
            + rounds("N := N + 1;\nA.Append_Child (R, N);\nC := A.Last_Child (R);\n" + rounds("A.Append_Child (C, 5);\n", "Ten", "J_")) + "A.Node_Count;\n"
            + rounds("D := A.Find_In_Subtree (R, -1);\n", "Ten") + "C := A.First_Child (R);\n"
            + rounds("A.Find_In_Subtree (C, -1);\nA.Child_Count (C);\nA.Depth (C);\nC := A.Next_Sibling (C);\n")
            + "A.Child_Count (R);\nA.Contains (1000);\nA.Subtree_Node_Count (R);\n")


BESIDE_A_PEER = [("list_churn", list_churn), ("list_sort_merge", list_sort_merge), ("dispatch", dispatch), ("vector_append_read", vector_append_read), ("vector_sort", vector_sort),
                 ("hashed_map_ops", hashed_map_ops), ("ordered_map_ops", ordered_map_ops), ("ordered_set_r14", ordered_set_r14), ("ordered_set_algebra", ordered_set_algebra),
                 ("tree_build_find", tree_build_find)]
ALGEBRA_SIZES = (1_000, 10_000, 100_000)
GENERATED = ["--generate", "200000"]


def lengths(count):
    """So many times A.Length."""
    return driven("", "", count) + rounds("Drive.Length;\n")


def nested_loops(turns):
    """Loops sixteen deep over 100 elements, of which the outer fifteen are left at once but for so many turns; a line in each turn."""
    inner = "X := X + 1;\n"
    for depth in range(14):
        inner = rounds(inner, "One", f"D{depth}_")
    return ("type T is list (integer);\nHundred : T;\nOne : T;\nOuter : T;\nX : integer;\nHundred.Append (0, 100);\nOne.Append (0);\n"
            f"Outer.Append (0, {turns // 100});\n" + rounds(rounds(inner, "Hundred", "E_"), "Outer", "F_"))


LARGE = [
    ("1,000,000 elements, appended and printed", "type T is list (integer);\nA : T;\nA.Append (7, 1000000);\nA.Length;\nA.Print;\nA.Sort;\nA.Clear;\n"),
    ("the same of a vector", "type T is vector (integer);\nA : T;\nA.Append (7, 1000000);\nA.Length;\nA.Print;\nA.Sort;\nA.Clear;\n"),
    ("a tree of 1,000,000 integers", "type T is tree (integer);\nA : T;\nR : T.cursor;\nR := A.Root;\nA.Append_Child (R, 7, 999999);\nA.Append_Child (R, 7);\nA.Node_Count;\n"),
    ("a loop over 1,000,000 elements", "type T is list (integer);\nA : T;\nX : integer;\nA.Append (7, 1000000);\nfor E of A loop\nX := E;\nend loop;\n"),
    ("sixteen nested loops, 2,000,000 lines", nested_loops(2_000_000)),
    ("10,000 strings of 1,000 bytes, printed", f'type T is list (string);\nA : T;\nA.Append ("{"x" * 1000}", 10000);\nA.Print;\nA.Sort;\nA.Print;\n'),
]


WORST = [
    ("one long comment", lambda size: "-- " + "x" * (size - 4) + "\n"),
    ("one open string", lambda size: 'X := "' + "x" * (size - 6)),
    ("words", lambda size: filled(size, "", "ab ")),
    ("commands with words", lambda size: filled(size, HEAD, "A.B;\n")),
    ("16 blocks deep all along", nested),
    ("1,000 names in scope", named),
    ("calls", lambda size: filled(size, HEAD, "A.Insert (no_element, 1);\n")),
]


def once(command, script=os.devnull, status=True):
    with open(script) as text, open(os.devnull, "w") as nowhere:
        start = time.perf_counter()
        subprocess.run(command, stdin=text, stdout=nowhere, check=status)
        return time.perf_counter() - start


def processor(command, script):
    """The processor time of one run, its system calls with it."""
    with open(script) as text:
        running = subprocess.Popen(command, stdin=text, stdout=subprocess.DEVNULL)
        _, status, usage = os.wait4(running.pid, 0)
    if status != 0:
        sys.exit(f"{command} failed")
    return usage.ru_utime + usage.ru_stime


def seconds(command, script=os.devnull, status=True):
    """The least time of some runs."""
    return min(once(command, script, status) for _ in range(RUNS))


def build(source, place):
    """A plain Rust program."""
    program = os.path.join(place, os.path.splitext(os.path.basename(source))[0])
    subprocess.run(["rustc", "-O", "-o", program, os.path.join(TOP, "bench", source)], check=True)
    return program


def prove_and_build(folder, *words):
    """Builds a program of this repository and runs it with these words; stops with what was said where that fails."""
    built = subprocess.run(["rt", "run", "--", *words], cwd=folder, stdin=subprocess.DEVNULL, stdout=subprocess.PIPE, stderr=subprocess.STDOUT, text=True)
    if built.returncode != 0:
        sys.exit(built.stdout)


def workload(program, *words, rounds):
    """Seconds for each round of a workload, without what a program takes to start."""
    command = [program, *words]
    return (seconds(command + [str(rounds)]) - seconds(command + ["0"])) / rounds


# Runs the command of its words and prints its peak. A program's peak counts what its parent had, so the parent is a Python without modules.
SMALL_PARENT = """
import os, sys
pid = os.fork()
if pid == 0:
    os.dup2(os.open(os.devnull, os.O_WRONLY), 1)
    os.execvp(sys.argv[1], sys.argv[1:])
_, status, usage = os.wait4(pid, 0)
print(usage.ru_maxrss)
sys.exit(status != 0)
"""


def peak(command, script=subprocess.DEVNULL):
    """The most memory that a program had, in bytes."""
    ran = subprocess.run([sys.executable, "-I", "-S", "-c", SMALL_PARENT, *command], stdin=script, stdout=subprocess.PIPE, text=True)
    if ran.returncode != 0:
        sys.exit(f"{command} failed")
    return int(ran.stdout) * 1024


def scripts(place):
    baseline = build("baseline.rs", place)
    rows = [
        ("1 MiB of appends, a print at the end", appends(1048576), appends(524288)),
        ("20,000 appends with 1,000 prints", prints(20000), None),
    ]
    print(f"{'script':<40}{'adacont s':>12}{'ratio':>8}{'growth':>8}")
    for name, whole, half in rows:
        paths = []
        for text in (whole, half):
            path = os.path.join(place, f"script{len(paths)}.ada")
            with open(path, "w") as file:
                file.write(text or "")
            paths.append(path)
        ours, theirs = seconds([PROGRAM], paths[0]), seconds([baseline], paths[0])
        growth = f"{ours / seconds([PROGRAM], paths[1]):.2f}" if half else "-"
        print(f"{name:<40}{ours:>12.4f}{ours / theirs:>8.2f}{growth:>8}")


def checks(place):
    """Checks of the longest inputs of some sorts: 2 is linear."""
    print(f"{'1 MiB, --check':<40}{'adacont s':>12}{'':>8}{'growth':>8}")
    for name, text in WORST:
        took = []
        for size in (1048576, 524288):
            path = os.path.join(place, "checked.ada")
            with open(path, "w") as file:
                file.write(text(size))
            took.append(seconds([PROGRAM, "--check"], path, status=False))
        print(f"{name:<40}{took[0]:>12.4f}{'':>8}{took[0] / took[1]:>8.2f}")


def written(place, text):
    path = os.path.join(place, "script.ada")
    with open(path, "w") as file:
        file.write(text)
    return path


def large(place):
    """Long runs: their time, and the most memory that the program had."""
    print(f"{'script':<45}{'seconds':>10}{'MB':>10}")
    for name, text in LARGE:
        path = written(place, text)
        with open(path) as script:
            memory_used = peak([PROGRAM], script)
        print(f"{name:<45}{seconds([PROGRAM], path):>10.3f}{memory_used / 1e6:>10.1f}", flush=True)


def a_length(place):
    """What A.Length costs, with its line's write and without: /dev/null takes a write in little time, which a program that only writes such lines is timed for."""
    many, few = (seconds([PROGRAM], written(place, lengths(count))) for count in (1_000_000, 1))
    with open(os.devnull, "wb", buffering=0) as nowhere:
        start = time.perf_counter()
        for _ in range(1_000_000):
            os.write(nowhere.fileno(), b"5: 1000000\n")
        took = time.perf_counter() - start
        start = time.perf_counter()
        for _ in range(1_000_000):
            pass
        took -= time.perf_counter() - start
    print(f"{'A.Length, ns with its write':<45}{(many - few) * 1e3:>10.1f}")
    print(f"{'a write to /dev/null from Python, ns':<45}{took * 1e3:>10.1f}")


def beside_a_peer(peer, place):
    """Each script's processor time, and the generator's, with the ratio to another interpreter's of the same language, which runs in turn with this one."""
    print(f"{'script':<30}{'adacont s':>12}{'peer s':>12}{'ratio':>8}")
    rows = [(name, text(), []) for name, text in BESIDE_A_PEER] + [(" ".join(GENERATED), "", GENERATED)]
    for name, text, words in rows:
        path = written(place, text)
        ours, theirs = [], []
        for _ in range(PROCESSOR_RUNS):
            ours.append(processor([PROGRAM, *words], path))
            theirs.append(processor([*peer, *words], path))
        print(f"{name:<30}{min(ours):>12.3f}{min(theirs):>12.3f}{min(ours) / min(theirs):>8.2f}", flush=True)


def instructions(command, script):
    """How many instructions a command takes, as valgrind counts them: the same in each run, and whatever the machine's memory is."""
    with open(script) as text, tempfile.TemporaryDirectory() as place:
        run = subprocess.run(["valgrind", "--tool=callgrind", f"--callgrind-out-file={place}/out", *command], stdin=text, stdout=subprocess.DEVNULL, stderr=subprocess.PIPE, text=True, check=True)
    return int(re.search(r"Collected : (\d+)", run.stderr).group(1))


def algebra_row(name, of_each):
    """Of each element, in sets of each size: what the calls take besides what filling the sets takes."""
    took = [of_each(size) for size in ALGEBRA_SIZES]
    print(f"{name:<50}" + "".join(f"{each:>12,.1f}" for each in took) + f"{took[-1] / took[0]:>8.2f}", flush=True)


def algebra(place, programs):
    """What the calls of two sets take, once each, for each element of a set, in nanoseconds and, where valgrind is there, in instructions."""
    def nanoseconds(command, kind, size):
        times = 1_000_000 // size
        many, none = (min(processor(command, written(place, set_algebra(kind, size, count))) for _ in range(ALGEBRA_RUNS)) for count in (times, 0))
        return (many - none) / times / size * 1e9

    def counted(command, kind, size):
        once, none = (instructions(command, written(place, set_algebra(kind, size, count))) for count in (1, 0))
        return (once - none) / size

    print(f"{'two sets, for each element':<50}" + "".join(f"{size:>12,}" for size in ALGEBRA_SIZES) + f"{'growth':>8}")
    for name, command in programs:
        for kind in ("hashed_set", "ordered_set"):
            algebra_row(f"{kind}, {name}, ns", lambda size: nanoseconds(command, kind, size))
            if shutil.which("valgrind"):
                algebra_row(f"{kind}, {name}, instructions", lambda size: counted(command, kind, size))


def churn(program, place):
    """The median of some pairs, since the plain program's time varies by half from run to run."""
    plain, pairs = build("pool_baseline.rs", place), []
    for _ in range(PAIRS):
        ours, theirs = (workload(each, "pool", rounds=20_000_000) for each in (program, plain))
        pairs.append((ours / theirs, ours))
    ratio, ours = sorted(pairs)[PAIRS // 2]
    print(f"{'workload':<40}{'ns a round':>12}{'ratio':>8}")
    print(f"{'a put and a take, 1,000 live':<40}{ours * 1e9:>12.1f}{ratio:>8.2f}")


def questions(program, place):
    """The median of some pairs, the plain program over rows of the same shape."""
    plain = build("ask_baseline.rs", place)
    print(f"{'question, 1,000,000 rows':<56}{'ns a row':>10}{'ratio':>8}")
    for name, word in (("V'Reduce (\"+\", 0)", "ask_sum"), ("[for E of V when E > 5 => E * 2]", "ask_kept"), ("[for E of V when E = V'Reduce (\"max\", 0) => E]", "ask_greatest")):
        pairs = []
        for _ in range(PAIRS):
            ours, theirs = (workload(each, word, "1000000", rounds=10) for each in (program, plain))
            pairs.append((ours / theirs, ours))
        ratio, ours = sorted(pairs)[PAIRS // 2]
        print(f"{name:<56}{ours * 1e3:>10.1f}{ratio:>8.2f}")


def middle(program):
    for rows in (1_000, 10_000, 100_000, 1_000_000):
        took = workload(program, "chain", str(rows), rounds=5_000_000)
        print(f"{f'an insertion and a removal, {rows:,} rows':<40}{took * 1e9:>12.1f}")


def lists(program):
    """Of each element, and of a deletion and an insertion at each end: what is appended for a sort or a merge is taken off."""
    print(f"{'list, ns for each element':<40}{'10,000':>12}{'100,000':>12}{'1,000,000':>12}{'growth':>8}")
    append = [workload(program, "append", str(rows), rounds=3_000_000 // rows) / rows for rows in SIZES]
    kinds = [("append", append)]
    for name in ("walk", "sort", "merge"):
        took = [workload(program, name, str(rows), rounds=3_000_000 // rows) / rows for rows in SIZES]
        kinds.append((name, took if name == "walk" else [all_of_it - a for all_of_it, a in zip(took, append)]))
    kinds.append(("deletions and insertions at both ends", [workload(program, "ends", str(rows), rounds=1_000_000) for rows in SIZES]))
    for name, took in kinds:
        print(f"{name:<40}" + "".join(f"{each * 1e9:>12.1f}" for each in took) + f"{took[-1] / took[0]:>8.2f}")


def set_row(name, took):
    print(f"{name:<40}" + "".join(f"{each:>12.1f}" for each in took) + f"{took[-1] / took[0]:>8.2f}", flush=True)


def sets(program, place):
    """An inclusion, and an exclusion for each second one: in nanoseconds, plain Rust's beside hashed ones, and of these in instructions where valgrind is there."""
    print(f"{'set, ns for each element':<40}{'10,000':>12}{'100,000':>12}{'1,000,000':>12}{'growth':>8}")
    baseline = build("set_baseline.rs", place)
    for name, made, words in (("hashed, scrambled numbers", program, "hashed"), ("the same in plain Rust", baseline, "hashed"), ("hashed, numbers in a row", program, "hashed_row"),
                              ("the same in plain Rust", baseline, "hashed_row"), ("ordered, scrambled numbers", program, "ordered")):
        set_row(name, [workload(made, words, str(rows), rounds=3_000_000 // rows) / rows * 1e9 for rows in SIZES])
    if shutil.which("valgrind"):
        for name, words in (("hashed, scrambled, instructions", "hashed"), ("hashed, in a row, instructions", "hashed_row")):
            set_row(name, [instructions([program, words, str(rows), "1"], os.devnull) / rows for rows in SIZES])


def memory(program):
    """What a slot takes: 1,000,000 integers have twice as many as 500,000. Two lengths are compared, since the peak of a short one is this script's own. And the most that 1,000,000 integers take."""
    print(f"{'memory':<40}{'bytes a slot':>12}{'MB':>12}")
    for name, words in (("a list", "append"), ("a hashed set", "hashed"), ("an ordered set", "ordered")):
        whole = peak([program, words, "1000000", "1"])
        more = whole - peak([program, words, "500000", "1"])
        print(f"{name:<40}{more / (1 << 19):>12.1f}{whole / 1e6:>12.1f}")


def workloads():
    """Each workload's name, its words, how many rounds it is timed for, and for how many each round counts."""
    yield "a put and a take, 1,000 live", ["pool"], 10_000_000, 1
    for rows in SIZES:
        yield f"an insertion and a removal, {rows:,} rows", ["chain", str(rows)], 2_000_000, 1
    for name in ("append", "walk", "sort", "merge"):
        for rows in SIZES:
            yield f"{name}, each of {rows:,} elements", [name, str(rows)], 3_000_000 // rows, rows
    for rows in SIZES:
        yield f"both ends of {rows:,} elements", ["ends", str(rows)], 3_000_000, 1


def in_turn(programs, words, rounds, runs):
    """Seconds for each round of a workload with each program, which run in turn."""
    least = {}
    for _ in range(runs):
        for program in programs:
            for count in (rounds, 0):
                took = once([program, *words, str(count)])
                least[program, count] = min(took, least.get((program, count), took))
    return [(least[program, rounds] - least[program, 0]) / rounds for program in programs]


def beside(before, now, runs):
    print(f"{'workload, ns':<45}{'before':>10}{'now':>10}{'ratio':>8}")
    for name, words, rounds, units in workloads():
        was, took = (each / units * 1e9 for each in in_turn((before, now), words, rounds, runs))
        print(f"{name:<45}{was:>10.1f}{took:>10.1f}{took / was:>8.2f}", flush=True)


SECTIONS = [
    ("Scripts beside plain Rust", "Seconds of a script, the ratio to a plain Rust program that does the same, and the growth from half the script to the whole: 2 is linear.", lambda place, bench: scripts(place)),
    ("Long runs", "Seconds, and the most memory that the program had.", lambda place, bench: large(place)),
    ("The least command", "What `A.Length` costs with the write of its line, and what such a write costs alone.", lambda place, bench: a_length(place)),
    ("Checks", "Seconds of `--check` on inputs of 1 MiB that are the worst of their sorts, and the growth from half of it: 2 is linear.", lambda place, bench: checks(place)),
    ("Calls of two sets", "What they take for each element, in nanoseconds and in instructions, which no cache changes; n log n is a growth of 1.67.", lambda place, bench: algebra(place, [("adacont", [PROGRAM])])),
    ("A pool", "A put and a take, and the ratio to a plain Rust program that does the same.", lambda place, bench: churn(bench, place)),
    ("A chain", "An insertion and a removal in the middle: it stays flat where the chain grows.", lambda place, bench: middle(bench)),
    ("Lists", "Nanoseconds for each element, and the growth from 10,000 elements to 1,000,000.", lambda place, bench: lists(bench)),
    ("Sets", "The same, with what a `HashSet` of plain Rust takes, and what hashed ones take in instructions, which no cache changes.", lambda place, bench: sets(bench, place)),
    ("Questions", "What an answer takes for each row, and the ratio to a plain Rust program that does the same over rows of the same shape.", lambda place, bench: questions(bench, place)),
    ("Memory", "Bytes of a slot, and the most that 1,000,000 integers take.", lambda place, bench: memory(bench)),
]


def beside_peer(place, peer):
    beside_a_peer(peer, place)
    algebra(place, [("adacont", [PROGRAM]), ("peer", peer)])


class Tee(io.StringIO):
    """What is printed, kept and shown."""

    def write(self, text):
        sys.__stdout__.write(text)
        sys.__stdout__.flush()
        return super().write(text)


def first_line(*command):
    """What a command says first, or nothing where there is none."""
    try:
        return subprocess.run(command, cwd=TOP, capture_output=True, text=True).stdout.split("\n")[0].strip()
    except OSError:
        return ""


def machine():
    """The machine and the tools, in a line each."""
    model, memory_size = platform.processor(), ""
    if os.path.isfile("/proc/cpuinfo"):
        with open("/proc/cpuinfo") as file:
            model = next((line.split(":", 1)[1].strip() for line in file if line.startswith("model name")), model)
    if os.path.isfile("/proc/meminfo"):
        with open("/proc/meminfo") as file:
            memory_size = f", {int(file.readline().split()[1]) / 1e6:.0f} GB"
    return [
        ("Date", datetime.date.today().isoformat()),
        ("Machine", f"{model}, {os.cpu_count()} processors{memory_size}, {platform.system()} {platform.release()}"),
        ("Kit", first_line("rt", "version")),
        ("Plain Rust", first_line("rustc", "--version") + ", with -O"),
        ("Commit", first_line("git", "rev-parse", "HEAD")),
    ]


PAGE_HEAD = """# Measured

`bench/run.py --page` measures, and writes this page. [The calls](../docs/calls.md) says of each call what it costs.

"""


def page(tables):
    rows = "".join(f"| {name} | {said} |\n" for name, said in machine())
    parts = "".join(f"## {title}\n\n{says}\n\n" + "".join(f"    {line}\n" for line in told.rstrip("\n").split("\n")) + "\n" for title, says, told in tables)
    with open(os.path.join(TOP, "bench/README.md"), "w") as file:
        file.write(f"{PAGE_HEAD}| | |\n|---|---|\n{rows}\n{parts}".rstrip("\n") + "\n")


def measured(sections, place, bench):
    """Each section with what it printed."""
    tables = []
    for title, says, measure in sections:
        with contextlib.redirect_stdout(Tee()) as told:
            measure(place, bench)
        tables.append((title, says, told.getvalue()))
    return tables


def wanted():
    parser = argparse.ArgumentParser(description=__doc__, formatter_class=argparse.RawDescriptionHelpFormatter)
    parser.add_argument("--before", metavar="PROGRAM", help="the ac_bench of another checkout, to time beside this one's")
    parser.add_argument("--peer", metavar="COMMAND", help="another interpreter of the same language, whose times stand beside this one's")
    parser.add_argument("--page", action="store_true", help="write what is printed to bench/README.md, with the machine and the date")
    parser.add_argument("--runs", metavar="N", type=int, default=RUNS, help="with --before: the least of so many runs of each counts (%(default)s)")
    return parser.parse_args()


def main():
    asked = wanted()
    if asked.before:
        folder = os.path.join(TOP, "crates/ac_bench")
        prove_and_build(folder, "pool", "0")
        beside(os.path.abspath(asked.before), os.path.join(folder, "out/ac_bench"), asked.runs)
        return 0
    subprocess.run([os.path.join(TOP, "adacont")], stdin=subprocess.DEVNULL, check=True)
    peer = shlex.split(asked.peer) if asked.peer else None
    sections = [("Beside another interpreter", "Processor seconds of scripts, and the ratio: below 1 is faster. Then the calls of two sets with both.", lambda place, bench: beside_peer(place, peer))] if peer else []
    folder = os.path.join(TOP, "crates/ac_bench")
    if asked.page or not peer:
        prove_and_build(folder, "pool", "0")
        sections = SECTIONS + sections
    with tempfile.TemporaryDirectory() as place:
        tables = measured(sections, place, os.path.join(folder, "out/ac_bench"))
    if asked.page:
        page(tables)
    return 0


if __name__ == "__main__":
    sys.exit(main())
