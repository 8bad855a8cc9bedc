#!/usr/bin/env python3
"""Writes docs/calls.md, the reference of all calls, from the table in docs/calls/*.txt.

In the table a call is some lines `key: value`, and an empty line ends it. `letters.txt` has the letters of arguments, `reasons.txt` when each reason is raised, and `stages.txt` the objects of the examples of each kind. `.ci/check-calls` reads the same table, and compares it with the code and the program.
"""
import glob
import os
import re

TOP = os.path.dirname(os.path.dirname(os.path.abspath(__file__)))
TABLE = os.path.join(TOP, "docs/calls")
PAGE = os.path.join(TOP, "docs/calls.md")

GROUPS = {
    "maps": ["hashed_map", "ordered_map"],
    "sets": ["hashed_set", "ordered_set", "keyed_hashed_set", "keyed_ordered_set"],
    "hashed": ["hashed_map", "hashed_set", "keyed_hashed_set"],
    "ordered": ["ordered_map", "ordered_set", "keyed_ordered_set"],
    "keyed": ["keyed_hashed_set", "keyed_ordered_set"],
    "queues": ["queue", "priority_queue", "any_queue"],
}
# What a kind is called, and the types of the library that it has, each with its crate.
KINDS = {
    "vector": ("vectors", [("Vector", "ac_vector")]),
    "list": ("lists", [("List", "ac_list")]),
    "hashed_map": ("hashed maps", [("HashedMap", "ac_hashed")]),
    "ordered_map": ("ordered maps", [("OrderedMap", "ac_ordered")]),
    "hashed_set": ("hashed sets", [("HashedSet", "ac_hashed")]),
    "ordered_set": ("ordered sets", [("OrderedSet", "ac_ordered")]),
    "keyed_hashed_set": ("hashed sets with keys", [("HashedSet", "ac_hashed")]),
    "keyed_ordered_set": ("ordered sets with keys", [("OrderedSet", "ac_ordered")]),
    "tree": ("trees", [("Tree", "ac_tree")]),
    "holder": ("holders", [("Holder", "ac_forms")]),
    "stable": ("stabilised views", [("Stable", "ac_forms")]),
    "queue": ("queues", [("Queue", "ac_queue")]),
    "priority_queue": ("priority queues", [("PriorityQueue", "ac_queue")]),
    "any_queue": ("", [("AnyQueue", "ac_queue")]),
}
# Several kinds at once, the longest first: what they are called together.
TOGETHER = [
    (GROUPS["maps"] + GROUPS["sets"], "maps, sets"),
    (GROUPS["hashed"], "hashed maps and sets"),
    (GROUPS["ordered"], "ordered maps and sets"),
    (GROUPS["sets"], "sets"),
    (GROUPS["queues"], "queues"),
    (["priority_queue", "any_queue"], "priority queues"),
    (["hashed_set", "keyed_hashed_set"], "hashed sets"),
    (["ordered_set", "keyed_ordered_set"], "ordered sets"),
    (GROUPS["maps"], "maps"),
    (GROUPS["keyed"], "sets with keys"),
    (["any_queue"], "queues of either sort"),
]
REASONS = {
    "C": ["no element", "foreign cursor", "dead cursor"],
    "B": ["foreign cursor", "dead cursor"],
    "W": ["no element", "foreign cursor", "dead cursor"],
    "O": ["foreign cursor", "dead cursor"],
    "T": ["no element", "foreign cursor", "dead cursor", "root"],
    "count": ["length"],
    "room": ["length", "full", "names spent"],
}
TAMPERING = {"none": "nothing"}
KEYS = ["word", "form", "kinds", "operation", "does", "class", "reasons", "answer", "cost", "definition", "self", "function", "self-function", "on", "script"]


class Call:
    """An entry of the table."""

    def __init__(self, fields, scripts, where, stages):
        self.where = where
        self.word, self.form, self.does = fields["word"], fields["form"], fields["does"]
        self.operation = fields.get("operation")
        self.kinds = expanded(fields["kinds"].split())
        if "Queue" in (self.operation or "") and self.kinds == ["priority_queue"]:
            self.kinds.append("any_queue")
        self.tampering = fields.get("class", "none")
        self.reasons = fields.get("reasons", "")
        self.answer, self.cost = fields["answer"], fields["cost"]
        self.definitions = [name for name in (fields["definition"], fields.get("self")) if name not in (None, "none")]
        self.functions = [name for name in (fields["function"], fields.get("self-function")) if name not in (None, "none")]
        self.stage = fields.get("on") or next((kind for kind in self.kinds if kind in stages), None)
        self.named_stage = "on" in fields
        self.script = [(line, said.split(" / ")) for line, said in (example.split(" writes ", 1) for example in scripts)]

    def is_scripts(self):
        return self.operation is not None

    def types(self):
        """The types of the library that have the call, each with its crate."""
        found = []
        for kind in self.kinds:
            found += [each for each in KINDS[kind][1] if each not in found]
        return found

    def refusals(self):
        """The reasons, in the order in which they are tried: those of one step in the order of the table."""
        said = []
        if self.tampering.startswith("cursors"):
            said += ["cursor tampering"] + ([] if all(kind.endswith("set") for kind in self.kinds) else ["element tampering"])
        if self.tampering.startswith("elements"):
            said.append("element tampering")
        for code in filter(None, self.reasons.split(", ")):
            said += [reason for reason in REASONS.get(code, [code]) if reason not in said]
        return sorted(said, key=lambda reason: reasons()[reason][1])


class Stage:
    """What the examples of a kind start from."""

    def __init__(self, fields):
        self.types, self.objects, self.fill, self.says = (fields[key] for key in ("types", "objects", "fill", "says"))


def expanded(names):
    kinds = []
    for name in names:
        kinds += GROUPS.get(name, [name])
    return kinds


def records(path):
    """The entries of a file: their fields, those that may stand often, and the line where each begins."""
    fields, scripts, begins = {}, [], 0
    with open(path) as file:
        for number, line in enumerate(file.read().split("\n") + [""], 1):
            if line.startswith("#"):
                continue
            if not line:
                if fields:
                    yield fields, scripts, f"{os.path.relpath(path, TOP)}:{begins}"
                fields, scripts = {}, []
                continue
            key, value = line.split(": ", 1)
            if not fields:
                begins = number
            if key == "script":
                scripts.append(value)
            elif key in fields:
                raise ValueError(f"{path}:{number}: {key} stands twice")
            else:
                fields[key] = value


def read_calls(stages):
    calls = []
    for name in ("every", "sequences", "maps-and-sets", "trees", "holders", "queues", "library"):
        for fields, scripts, where in records(os.path.join(TABLE, name + ".txt")):
            unknown = set(fields) - set(KEYS)
            if unknown:
                raise ValueError(f"{where}: {', '.join(unknown)} is no key")
            calls.append(Call(fields, scripts, where, stages))
    return calls


_reasons = {}


def reasons():
    """Each reason's exception and step, as the specs have them, by its text, in the order of the steps."""
    if not _reasons:
        with open(os.path.join(TOP, "crates/ac_base/specs/Reason.antt")) as file:
            text = file.read()
        with open(os.path.join(TOP, "crates/ac_base/specs/FirstReason.antt")) as file:
            steps = dict(re.findall(r"^step_of (\w+) = (\d+)$", file.read(), re.M))
        exceptions = dict(re.findall(r'^exception_name (\w+) = codes "(\w+)"$', text, re.M))
        rows = re.findall(r'^row_of (\w+) = row \d+ (\w+) \(codes "([a-z ]+)"\)$', text, re.M)
        for name, exception, words in sorted(rows, key=lambda row: int(steps[row[0]])):
            _reasons[words] = exceptions[exception], int(steps[name])
    return _reasons


def read_whens():
    return {fields["reason"]: fields["when"] for fields, _, _ in records(os.path.join(TABLE, "reasons.txt"))}


def read_letters():
    return [fields for fields, _, _ in records(os.path.join(TABLE, "letters.txt"))]


def read_stages():
    return {fields["stage"]: Stage(fields) for fields, _, _ in records(os.path.join(TABLE, "stages.txt"))}


def of_kinds(kinds):
    """What some kinds are called together."""
    left, said = list(kinds), []
    while left:
        some, words = next(((some, words) for some, words in TOGETHER if left[0] in some and all(kind in left for kind in some)), ([left[0]], KINDS[left[0]][0]))
        said += words.split(", ") if words else []
        left = [kind for kind in left if kind not in some]
    return said[0] if len(said) == 1 else ", ".join(said[:-1]) + " and " + said[-1]


def spec_of(name):
    """The crate, the file and the name of a definition, which stands in ac_model where no crate is said."""
    crate, _, rest = name.rpartition(":")
    module, _, definition = rest.partition(".")
    return crate or "ac_model", f"crates/{crate or 'ac_model'}/specs/{module}.antt", definition


_sources = {}


def source_files(crate):
    found = []
    for path in glob.glob(os.path.join(TOP, "crates", crate, "src/**/*.rt"), recursive=True):
        found.append(os.path.relpath(path, TOP))
    return sorted(found)


def functions_of(crate):
    """The functions of a crate's types: for each type and name the file, the trait or none, and the contract, as text."""
    if crate not in _sources:
        _sources[crate] = {}
        for path in source_files(crate):
            with open(os.path.join(TOP, path)) as file:
                lines = file.read().split("\n")
            of = None
            for number, line in enumerate(lines):
                if line.startswith("impl"):
                    body = re.match(r"impl(?:<.*?>)? (.*)", line).group(1)
                    trait, _, body = body.rpartition(" for ")
                    of = re.match(r"\w+", body).group(0), re.match(r"\w*", trait).group(0) or None
                elif line.startswith("}"):
                    of = None
                said = re.match(r"    (pub )?fn (\w+)", line)
                if said and of and (said.group(1) or of[1]):
                    contract = []
                    for later in lines[number:]:
                        contract.append(later)
                        if later == "    {" or later.endswith(" {") or later.endswith(";"):
                            break
                    function = of[0], said.group(2)
                    # A type's own function goes before one of a trait.
                    if said.group(1) or function not in _sources[crate]:
                        _sources[crate][function] = path, of[1], "\n".join(contract)
    return _sources[crate]


def found_function(call, name, of, crate):
    """The crate, the type, and the name of a function, which a call may name with its crate."""
    if ":" in name:
        crate, _, rest = name.partition(":")
        of, _, name = rest.partition("::")
    return crate, of, name


def link(path, words):
    return f"[{words}](../{path})"


def in_code(words):
    return f"`{words}`"


def definitions_of(call):
    """The definition, and a second one for S = A."""
    if not call.definitions:
        return "only its contract"
    found = []
    for place, name in enumerate(call.definitions):
        module = name.rpartition(":")[2]
        found.append(("for S = A " if place and "_self" not in module else "") + link(spec_of(name)[1], in_code(module)))
    return ", ".join(found)


def functions_in(call):
    """The functions of each type."""
    if not call.functions:
        return "none, only scripts have it"
    found = []
    for of, crate in call.types():
        for name in call.functions:
            in_crate, its, plain = found_function(call, name, of, crate)
            if (its, plain) in functions_of(in_crate):
                each = link(functions_of(in_crate)[its, plain][0], in_code(f"{its}::{plain}"))
                if each not in found:
                    found.append(each)
    return ", ".join(found)


def example_of(call):
    """The lines of script, each with what it writes behind `--`; first the kind, where it isn't the first one that has objects."""
    width = max(len(line) for line, _ in call.script)
    kind = [f"-- {KINDS[call.stage][0]}"] if call.named_stage else []
    return ["", "```ada"] + kind + [f"{line:{width}} -- {' / '.join(said)}" for line, said in call.script] + ["```"]


def title(call):
    """A call without its object, as the index and its heading have it."""
    return call.form.removeprefix("A.")


def heading(call):
    return f"{in_code(title(call))} of {of_kinds(call.kinds)}"


def entry(call):
    """A call's section."""
    rows = [f"## {heading(call)}", "", f"{call.does}.", ""]
    if call.tampering != "none" or call.is_scripts():
        rows.append(f"- Tampers with: {TAMPERING.get(call.tampering, call.tampering)}.")
    rows.append(f"- Raises: {', '.join(call.refusals()) or 'nothing'}.")
    rows.append(f"- Result: {call.answer}.")
    rows.append(f"- Cost: {call.cost}.")
    rows.append(f"- Definition: {definitions_of(call)}.")
    rows.append(f"- Function: {functions_in(call)}.")
    if call.script:
        rows += example_of(call)
    return rows + [""]


HEAD = """<!-- Written by docs/make-calls.py from the table in docs/calls/. -->
# The calls

Every call of every container, in alphabetical order: first those of scripts, then those of the Rattle library alone, whose names are in lower case.

## Index

{index}

## How to read an entry

- **Heading**: the call without `A.` before it, and the kinds that have it. Arguments in brackets are optional. Two arguments of one letter are numbered.
- **Tampers with**: a call that tampers with cursors raises an exception while A has a cursor guard or an element guard; one that tampers with elements, while A has an element guard. `of A and of S` means that the guards on S count too. A set has only cursor guards. [The language](language.md#blocks) says which blocks hold which guards.
- **Raises**: [the reasons](#the-reasons) in the order in which they are checked; the first that applies is raised. A call that raises changes nothing, except at the end of an update that changed the key. An allocating call (`takes_some` in its definition) may also fail with `NoMemory`, and then changes no element.
- **Cost**: the number of steps, where n is A's length and m is S's. *Constant* is a few reads and writes at any length. A look-up in a hashed container searches one bucket, whose size no clause bounds; in an ordered container it makes at most 2h + 2 comparisons, for an h with 2^h at most (n + 1)^2, by a clause of Find, Contains, Floor and Ceiling. New slots (8, 16, 32 and so on) that a call creates to add elements aren't counted. The other costs are read off the code; no clause states them. [Bench](../bench/README.md) measures some.
- **Definition**: what the call means. **Function**: the library's function, which is proved to follow the definition that its contract cites. A name with `_self` is for S = A.
- **Example**: lines of script, each with its output after `--`, without the line number; `/` separates lines of output.

### The arguments

| Letter | Argument | May be No_Element | Set by the call |
|---|---|---|---|
{letters}

If S is A, copies are of A's elements before the call, and guards count even if the call changes nothing. Calls of the library have their functions' parameters.

Each element has a name, a number that its object gives only once. A cursor holds the object's number and the element's name, so that it stays at its element wherever that moves in its object, and is dead once no element has the name.

### The objects of the examples

The names in examples are these variables, not the letters above. Each entry's example starts with the objects of the first kind below that the entry has, unless its first line names another.

{stages}

## The reasons

The checks are made in nine steps. Each step covers all objects, A before S, or all cursors, from left to right, before the next step starts. Within a step the call's entry gives the order. The output has the exception and the reason: `raised PROGRAM_ERROR (dead cursor)`.

| Step | Reason | Exception | When |
|---|---|---|---|
{reasons}

"""


def slug(words):
    """The anchor of a heading."""
    return re.sub(r"[^\w\- ]", "", words.lower()).replace(" ", "-")


def alphabetical(call):
    return not call.is_scripts(), call.word.lower()


def name_in(call, calls):
    same = [other for other in calls if other.word == call.word and set(other.kinds) & set(call.kinds)]
    return title(call) if len(same) > 1 else call.word


def index(calls):
    """Each call once, with the calls of the same kinds. Where a kind has several calls of a name, by their forms."""
    by_kinds = {}
    for call in calls:
        by_kinds.setdefault(tuple(call.kinds), []).append(call)
    order = list(KINDS)
    rows = []
    for kinds, its in sorted(by_kinds.items(), key=lambda each: (order.index(each[0][0]), -len(each[0]))):
        links = ", ".join(f"[{name_in(call, calls)}](#{slug(heading(call))})" for call in its)
        said = of_kinds(kinds)
        rows.append(f"- **{said[0].upper()}{said[1:]}**: {links}")
    return "\n".join(rows)


def page(calls, stages):
    calls = sorted(calls, key=alphabetical)
    anchors = [slug(heading(call)) for call in calls]
    for call, anchor in zip(calls, anchors):
        if anchors.count(anchor) > 1:
            raise ValueError(f"{call.where}: another call has the heading {heading(call)}")
    text = HEAD.format(
        index=index(calls),
        letters="\n".join(f"| {' | '.join(fields.get(key, '') for key in ('letter', 'argument', 'none', 'set'))} |" for fields in read_letters()),
        reasons="\n".join(f"| {step} | {words} | {exception} | {read_whens().get(words, '')} |" for words, (exception, step) in reasons().items()),
        stages="\n".join(f"- {KINDS[kind][0]}: {stage.says}" for kind, stage in stages.items()),
    )
    text += "\n".join(line for call in calls for line in entry(call))
    return text.rstrip("\n") + "\n"


def main():
    stages = read_stages()
    with open(PAGE, "w") as file:
        file.write(page(read_calls(stages), stages))


if __name__ == "__main__":
    main()
