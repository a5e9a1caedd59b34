#!/usr/bin/env python3
"""Lists what must be believed: the definitions that the contracts of some calls rest on, in an order to read them.

usage: reading.py [--besides] [CRATE::MODULE::FUNCTION[/CLAUSE] ...]    (the calls of docs/READING.md if left out)
       reading.py --check docs/READING.md
       reading.py --update docs/READING.md

It follows names from the clauses of these functions through the `specs/` of this repository, definition by definition: a
definition is what stands between two blank lines. Types that the code declares (`specs.declared`) are read in `src/`, and
what the proved library defines isn't listed. Of the table of the kinds of lines (`mst_kinds`) those rows count whose kind, word or key
something else names that counts. With --besides it leaves out what the calls of docs/READING.md rest on.

--check compares the lists of a page with what is so now, and its steps "Where to begin" with the first list: each file is in
one step, behind what it rests on, and the sizes are right. The status is 1 where something differs, or where a definition
isn't seen, with a line for each fault. --update writes the lists and the sizes into the page.
"""

import functools
import os
import re
import sys

TOP = os.path.join(os.path.dirname(os.path.abspath(__file__)), os.pardir, "crates")
RUN = ["mst_tool::runs::run"]
CHECK = ["mst_tool::checks::check"]
JOINED = ["mst_roles::topology::active_ports/named", "mst_roles::topology::active_ports/joined"]
CALLS = [*RUN, *CHECK, *JOINED]
ASKED = ["mst_questions::asks::ask", "mst_between::diffs::diff"]
STANDING = ["mst_ask::asking::ask_within/ended"]
VERIFIED = ["mst_verifying::verifies::verify"]
ALTERED = ["mst_altering::alters::steps"]
LOOPS = ["mst_roles::laws::joined_without_loop"]
# What the hints of a script, a policy and a change are.
HINTED = [("mst_hinting", "Lines", "hints_of")]
# From the program's words to its exit status.
PROGRAM = ["mstplan::program::run_program"]
IMPORT = re.compile(r"^ *(?:ghost )?use Rattle\.(\w+)\.specs\.([\w.]+?)(?:\.\{([^}]*)\}| as (\w+))?;?$", re.MULTILINE)
GIVEN = re.compile(r"^pub use Rattle\.(\w+)\.specs(?:\.(\w+))? as (\w+)$", re.MULTILINE)
KIND = "(?:abbrev|unfoldable|opaque|private) "
# Four blanks stand before what is defined in a module that is in a module, and before the fields of records there.
DEFINED = re.compile(rf"^(?: {{0,2}}|    (?={KIND}))(?:{KIND})*(?:pub )?(?:(?:record|data) )?([^\s:({{]+)(?= .*:|$)")
TOKEN = re.compile(r"[^\s(){},;.]+")
QUALIFIED = re.compile(r"([^\s(){},;.]+)\.([^\s(){},;.]+)")
# The crate whose definitions are a table with rows by the variants of its types, and what names a variant.
TABLE = "mst_kinds"
ENUM = re.compile(r"^pub enum (\w+)", re.MULTILINE)
VARIANTS = re.compile(r"^ *(?:ghost )?use Rattle\.[\w.]+\.(\w+)\.TheVariants(?:\.\{([^}]*)\}| as (\w+));?$", re.MULTILINE)
# What a person reads in a minute of definitions.
LINES_A_MINUTE = 10


class Module:
    """A file of definitions: what it imports, by the name that it uses, and its parts with the names that each defines."""

    def __init__(self, text):
        self.imported, self.files, self.variants = imported(text), files_of(text), Variants(text)
        self.parts, self.part_of, self.heads = [], {}, []
        for part in re.split(r"\n\s*\n", text):
            lines = [line for line in part.splitlines() if line and not re.match(r"(ghost )?use ", line)]
            told = [line for line in lines if not line.lstrip().startswith("--")]
            self.heads += [line for line in told if line.lstrip().startswith("module ")]
            if not told:
                continue
            self.parts.append(lines)
            for line in told:
                found = DEFINED.match(line)
                if found and line not in self.heads:
                    self.part_of.setdefault(found.group(1).strip("◌"), len(self.parts) - 1)


class Variants:
    """The names by which a text knows the variants of the table's types."""

    def __init__(self, text):
        found = [it for it in VARIANTS.findall(text) if it[0] in table_types()]
        self.of_type = {alias: kind for kind, _, alias in found if alias}
        self.by_name = {}
        for kind, listed, _ in found:
            for it in listed.split(",") if listed else []:
                name, _, other = it.strip().partition(" as ")
                self.by_name[other or name] = (kind, name)

    def named(self, lines):
        """The variants that some lines name, each with its type."""
        text = "\n".join(told(lines))
        qualified = {(self.of_type[first], name) for first, name in QUALIFIED.findall(text) if first in self.of_type}
        return qualified | {self.by_name[word] for word in words(lines) if word in self.by_name}


@functools.cache
def table_types():
    """The types whose variants the table has rows of."""
    found = set()
    folder = os.path.join(TOP, TABLE, "src")
    for name in os.listdir(folder):
        with open(os.path.join(folder, name), encoding="utf-8") as file:
            found |= set(ENUM.findall(file.read()))
    return found


def imports(text):
    """Each import from a crate's definitions: the crate, the file, the names that are listed, the name for the file."""
    found = [(*resolved(crate, module), *names) for crate, module, *names in IMPORT.findall(text) if os.path.isdir(os.path.join(TOP, crate))]
    return [it for it in found if is_file(*it[:2])]


def resolved(crate, module):
    """The crate and the file that a path stands for, by way of what crates give on of those below them."""
    first, _, rest = module.partition(".")
    if first not in given_on(crate):
        return crate, module
    below, under = given_on(crate)[first]
    return resolved(below, f"{under}.{rest}" if under else rest)


@functools.cache
def given_on(crate):
    """What a crate gives on: under each name a crate below, and there the name under which that gives it on, if it does."""
    path = path_of(crate, "Lib")
    if not os.path.isfile(path):
        return {}
    with open(path, encoding="utf-8") as file:
        return {name: (below, under) for below, under, name in GIVEN.findall(file.read())}


def imported(text):
    """The names that are imported: where each is defined, and its name there."""
    names = {}
    for crate, module, listed, _ in imports(text):
        for it in listed.split(",") if listed else []:
            name, _, other = it.strip().partition(" as ")
            names[(other or name).strip("◌")] = (crate, module, name.strip("◌"))
    return names


def files_of(text):
    """The files that are imported under a name, by it; names in them are written behind it and a full stop."""
    return {alias or module.split(".")[-1]: (crate, module) for crate, module, listed, alias in imports(text) if not listed}


def path_of(crate, module):
    return os.path.join(TOP, crate, "specs", *module.split(".")) + ".antt"


def is_file(crate, module):
    return not module.startswith("declared") and os.path.isfile(path_of(crate, module))


@functools.cache
def module_of(crate, module):
    with open(path_of(crate, module), encoding="utf-8") as file:
        return Module(file.read())


def clauses(call):
    """The text of a function's source file, and its clauses, or the one that is named."""
    call, _, clause = call.partition("/")
    crate, *modules, name = call.split("::")
    with open(os.path.join(TOP, crate, "src", *modules) + ".rt", encoding="utf-8") as file:
        text = file.read()
    found = re.search(rf"^ *pub(?:\(crate\))? fn {name}\b.*?^ *\{{\}}?$", text, re.MULTILINE | re.DOTALL)
    if not found:
        sys.exit(f"no function {call}")
    said = found.group()
    if clause:
        said = "".join(re.findall(rf"^ *ensures {clause} \{{.*?\}}\n(?= *(?:ensures|requires|\{{))", said, re.MULTILINE | re.DOTALL))
    if not said:
        sys.exit(f"no clause {clause} of {call}")
    return text, said


def told(lines):
    """The lines without comments."""
    return [line for line in lines if not line.lstrip().startswith("--")]


def names_in(lines, known, files):
    """What the lines name of what is imported, by name or behind the name of a file."""
    text = "\n".join(told(lines))
    found = {known[word] for word in words(lines) if word in known}
    return found | {(*files[first], name.strip("◌")) for first, name in QUALIFIED.findall(text) if first in files}


def words(lines):
    return {token.strip("◌") for line in told(lines) for token in TOKEN.findall(line)}


class Believed:
    """What is read so far: the parts of files, the variants that these name, and the rows of the table that nothing has named yet."""

    def __init__(self):
        self.seen, self.named, self.unnamed = set(), set(), []

    def follow(self, crate, module, name, order):
        """First what a definition rests on, then the definition."""
        it = module_of(crate, module)
        part = it.part_of.get(name)
        if part is None or (crate, module, part) in self.seen:
            return
        self.seen.add((crate, module, part))
        lines, rows = rows_of(it.parts[part], it.variants) if crate == TABLE else (it.parts[part], [])
        self.read(crate, module, lines, order)
        order.append((crate, module, len(lines), 1))
        self.unnamed += [(variants, crate, module, row) for variants, row in rows]
        self.take_rows(order)

    def read(self, crate, module, lines, order):
        """Follows what some lines of a file name."""
        it = module_of(crate, module)
        lines = [*lines, *it.heads]
        of_this = {(crate, module, word) for word in words(lines) if word in it.part_of and word not in it.imported}
        for found in sorted(names_in(lines, it.imported, it.files) | of_this):
            self.follow(*found, order)
        self.name(it.variants.named(lines), order)

    def name(self, variants, order):
        if not variants <= self.named:
            self.named |= variants
            self.take_rows(order)

    def take_rows(self, order):
        """Reads the rows whose variants are named by now."""
        while taken := [it for it in self.unnamed if it[0] <= self.named]:
            self.unnamed = [it for it in self.unnamed if it not in taken]
            for _, crate, module, row in taken:
                order.append((crate, module, len(row), 0))
                self.read(crate, module, row, order)


def rows_of(lines, variants):
    """A part of the table in two: the lines that are no rows, and the rows, each with the variants by which it is and with its comment."""
    others, rows, comment = [], [], []
    for line in lines:
        of = variants.named([line.partition(" = ")[0]]) if " = " in line else set()
        if line.lstrip().startswith("--"):
            comment.append(line)
            continue
        if of:
            rows.append((of, [*comment, line]))
        else:
            others += [*comment, line]
        comment = []
    return others + comment, rows


def definitions(calls, seen, named=()):
    """The definitions that these calls rest on, or these that are named, and that weren't seen before, each with its crate, its file and
    its lines, and 1; and further rows of the table, each with 0."""
    order = []
    for found in named:
        seen.follow(*found, order)
    for call in calls:
        text, said = clauses(call)
        for found in sorted(names_in(said.splitlines(), imported(text), files_of(text))):
            seen.follow(*found, order)
        seen.name(Variants(text).named(said.splitlines()), order)
    return order


def crates():
    """In their order, each above those that it rests on."""
    with open(os.path.join(TOP, os.pardir, "crates.txt"), encoding="utf-8") as file:
        return [line.split(":")[0].strip() for line in file if ":" in line]


def in_order(crate, files):
    """The files of a crate, each behind those that it imports."""
    ordered = []

    def add(module):
        it = module_of(crate, module)
        for other in sorted({found[1] for found in [*it.imported.values(), *it.files.values()] if found[0] == crate}):
            add(other)
        if module in files and module not in ordered:
            ordered.append(module)

    for module in files:
        add(module)
    return ordered


def lines_of(order):
    """How many lines of each file count, by crate and file, both in an order to read them."""
    counted = {}
    for crate, module, lines, _ in order:
        files = counted.setdefault(crate, {})
        files[module] = files.get(module, 0) + lines
    return {crate: {it: counted[crate][it] for it in in_order(crate, counted[crate])} for crate in crates() if crate in counted}


def listing(order):
    """The list as it is printed: a line for each crate, and how much it is in all."""
    counted = lines_of(order)
    for crate, files in counted.items():
        yield f"- `{crate}`, {sum(files.values())} lines: {', '.join(f'`{it}` {lines}' for it, lines in files.items())}"
    total = sum(lines for _, _, lines, _ in order)
    count = sum(len(files) for files in counted.values())
    yield f"{definition_count(order)} definitions in {count} files, {total} lines, some {minutes(total)} minutes."


def definition_count(order):
    return sum(it for _, _, _, it in order)


def minutes(lines):
    return round(lines / LINES_A_MINUTE / 5) * 5


# ---- a page with lists

STEP = re.compile(r"^\d+\. ((?:`mst_\w+`:\s+(?:`\w+`(?:,\s+)?)+(?:;\s+)?)+)\s+\((\d+ lines, \d+ minutes)\)", re.MULTILINE)
LIST = re.compile(r"(?:^- `mst\w+`, \d+ lines: .*\n)+\n^\d+ definitions in .*\.$", re.MULTILINE)
WHOLE = re.compile(r"^`run_program` rests on \d+ definitions in all, .*$", re.MULTILINE)


def lists():
    """The lists of docs/READING.md: that of the loops, of a run, what a check and the ports that forward are besides, what is asked
    besides, what policies are, what stands and is asked, what steps of changes are, what hints are, and what the program does; and the
    lines of the three behind the first."""
    seen = Believed()
    first = [definitions(it, seen) for it in (RUN, CHECK, JOINED)]
    orders = [definitions(LOOPS, Believed()), *first, definitions(ASKED, seen), definitions(VERIFIED, seen), definitions(STANDING, seen),
              definitions(ALTERED, seen), definitions([], seen, HINTED), definitions(PROGRAM, seen)]
    return [as_text(order) for order in orders], lines_of([it for order in first for it in order])


def whole():
    """How much the program's statement rests on, and how much of that isn't in the first lists."""
    seen = Believed()
    definitions(CALLS, seen)
    order, besides = definitions(PROGRAM, Believed()), definitions(PROGRAM, seen)
    total = sum(lines for _, _, lines, _ in order)
    return (f"`run_program` rests on {definition_count(order)} definitions in all, {total} lines, some {minutes(total)} minutes; "
            f"{definition_count(besides)} of them aren't in the lists of `run` and `check`.")


def as_text(order):
    *lines, total = listing(order)
    return "\n".join(lines) + "\n\n" + total


def files_in(step):
    """The files of a step: of each crate that it names those behind it."""
    for of_crate in step.split(";"):
        crate, *modules = re.findall(r"`(\w+)`", of_crate)
        yield from ((crate, module) for module in modules)


def size_of(step, counted):
    lines = sum(counted.get(crate, {}).get(module, 0) for crate, module in files_in(step))
    return f"{lines} lines, {round(lines / LINES_A_MINUTE)} minutes"


def updated(text):
    """A page with its lists and the sizes of its steps as they are now."""
    made, counted = lists()
    left = iter(made)
    text = LIST.sub(lambda found: next(left, found.group()), text)
    text = WHOLE.sub(lambda found: whole(), text)
    return STEP.sub(lambda found: found[0].replace(found[2], size_of(found[1], counted)), text)


def faults(text):
    """What is wrong with a page: each line that differs, and steps that don't have each file of the first list once, in order."""
    for stands, wanted in zip(text.splitlines(), updated(text).splitlines()):
        if stands != wanted:
            yield f"there stands: {stands}"
            yield f"and it is: {wanted}"
    made, counted = lists()
    if len(LIST.findall(text)) != len(made):
        yield f"it has {len(LIST.findall(text))} lists, and not {len(made)}"
    if len(WHOLE.findall(text)) != 1:
        yield "it doesn't say how much the program rests on"
    steps = [file for step, _ in STEP.findall(text) for file in files_in(step)]
    listed = [(crate, module) for crate, files in counted.items() for module in files]
    yield from (f"not in one step: {crate}/{module}" for crate, module in sorted(set(steps) ^ set(listed)))
    yield from (f"in two steps: {crate}/{module}" for crate, module in sorted({file for file in steps if steps.count(file) > 1}))
    yield from (f"{'/'.join(file)} stands before {'/'.join(below)}" for file, below in turned(steps))
    yield from unseen()


def turned(steps):
    """Files that stand before one that they rest on."""
    for place, (crate, module) in enumerate(steps):
        it = module_of(crate, module)
        rests = {found[:2] for found in [*it.imported.values(), *it.files.values()]}
        yield from (((crate, module), below) for below in steps[place + 1:] if below in rests)


def unseen():
    """Names that a file of definitions imports, and that this program doesn't see where they are defined."""
    for folder, _, names in sorted(os.walk(TOP)):
        for name in sorted(names):
            if name.endswith(".antt") and os.sep + "specs" in folder:
                with open(os.path.join(folder, name), encoding="utf-8") as file:
                    found = imported(file.read()).values()
                lost = (it for it in found if it[2] not in module_of(*it[:2]).part_of)
                yield from (f"not seen: {'/'.join(it)}" for it in lost)


def of_page(given):
    """Checks a page, or brings it up to what is so."""
    option, page = given
    with open(page, encoding="utf-8") as file:
        text = file.read()
    if option == "--update":
        now = updated(text)
        with open(page, "w", encoding="utf-8") as file:
            file.write(now)
        return
    found = list(faults(text))
    for fault in found:
        print(f"{page}: {fault}")
    sys.exit(1 if found else 0)


def main():
    given = sys.argv[1:]
    if given[:1] in (["--check"], ["--update"]) and len(given) == 2:
        of_page(given)
        return
    seen = Believed()
    if given[:1] == ["--besides"]:
        definitions(CALLS, seen)
        given = given[1:] or ASKED
    if any(word.startswith("-") for word in given):
        sys.exit(__doc__)
    print(as_text(definitions(given or CALLS, seen)))


if __name__ == "__main__":
    main()
