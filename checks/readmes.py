#!/usr/bin/env python3
"""Looks at the page of each crate, crates/NAME/README.md: whether its modules, its users, and the calls and clauses that it names are there.

usage: readmes.py [NAME ..]    (all crates of crates.txt, or these)

A page begins with `# NAME: ` and has 12 to 80 lines. In its "Modules" a row or an item begins with each module of src/lib.rt (or
main.rt), in that order. Its "Used by" names just the crates that use it by crates.txt, in that order; where nothing uses it, it may have none.
In its "What it promises" and "What is proved" each `module::function`, `crate::module::function` and `Type::method` is in src/. Behind a call its
clauses may stand, as `function` (`clause`, `clause`), `function` (`clause`: `definition`) or `function`: `clause`: each is a label of the
call's contract, or a name that stands in it. Each other name there stands somewhere in src/ or specs/ of the crate, or of one below it. The
status is 1 where something isn't so, with a line for each fault.
"""

import functools
import glob
import os
import re
import sys

TOP = os.path.join(os.path.dirname(os.path.abspath(__file__)), os.pardir)
SHORTEST, LONGEST = 12, 80
CALL = re.compile(r"`([\w:]+)`(?:: ((?:`\w+`(?!: `)(?:, )?)+)| \(((?:`\w+`(?:[,;:] )?)+)\))?")


def text_of(path):
    with open(path, encoding="utf-8") as file:
        return file.read()


@functools.cache
def crates():
    """Each crate of crates.txt, with what it uses."""
    lines = [line for line in text_of(f"{TOP}/crates.txt").splitlines() if ":" in line and not line.startswith("#")]
    return {name: used.split() for name, used in (line.split(":") for line in lines)}


def modules(crate):
    """The modules of a crate in the order of its first file."""
    paths = (f"{TOP}/crates/{crate}/src/{file}" for file in ("lib.rt", "main.rt"))
    return re.findall(r"(?m)^(?:pub )?mod (\w+);", text_of(next(filter(os.path.exists, paths))))


def items(path):
    """Each type and function of a file: its name, of a function the names of its type or trait, and the names in its contract."""
    owners, contract = [], None
    for line in text_of(path).splitlines():
        head = re.match(r" *(?:pub(?:\(\w+\))? )?(?:const )?fn (\w+)", line)
        kind = re.match(r"pub (?:struct|enum|trait|type|const) (\w+)", line)
        variant = re.match(r"    ([A-Z]\w*)[ ,({]", line)
        if kind:
            yield kind.group(1), [], set()
        if re.match(r"impl\b|(?:pub )?(?:trait|enum)\b", line):
            owners = re.findall(r"\b[A-Z]\w+", line)
        if variant:
            yield variant.group(1), owners, set()
        if head:
            contract = set()
            yield head.group(1), owners if line.startswith(" ") else [], contract
        elif contract is not None:
            contract.update(re.findall(r"\w+", line))
        if line.strip() in ("", "{", "{}", ";") or head and re.search(r"[{};]$", line):
            contract = None


@functools.cache
def calls(crate):
    """The items of a crate by name: of each where it stands, and the names in its contract."""
    found = {}
    for path in glob.glob(f"{TOP}/crates/{crate}/src/**/*.rt", recursive=True):
        for name, owners, contract in items(path):
            found.setdefault(name, []).append(({os.path.basename(path).removesuffix(".rt"), *owners}, contract))
    return found


def faults_of_call(crate, path, clauses):
    """What isn't there of a call and its clauses, as a page of a crate names them. A name by itself may be a label in front of what its clause says."""
    *places, name = path.split("::")
    crate = places.pop(0) if places and places[0] in crates() else crate
    fitting = [contract for where, contract in calls(crate).get(name, []) if where.issuperset(places)]
    if "::" in path and not fitting:
        yield f"{crate} has no {'::'.join([*places, name])}"
    elif fitting:
        labelled = [contract for its in calls(crate).values() for _, contract in its if name in contract and "::" not in path]
        yield from (f"{path} has no clause {it}" for it in clauses if not any(it in contract for contract in fitting + labelled))


@functools.cache
def names(crate):
    """All names in the code and the definitions of a crate, and those of the files."""
    paths = [path for kind in ("src", "specs") for path in glob.glob(f"{TOP}/crates/{crate}/{kind}/**/*.*", recursive=True)]
    return {name for path in paths for name in re.findall(r"\w+", os.path.basename(path) + " " + text_of(path))}


@functools.cache
def at_and_below(crate):
    found = [crate]
    for it in found:
        found += [below for below in crates()[it] if below in crates() and below not in found]
    return found


def sections(text):
    """The sections of a page, by their headings."""
    return {part.partition("\n")[0].strip(): part.partition("\n")[2] for part in text.split("\n## ")[1:]}


def faults(crate):
    path = f"{TOP}/crates/{crate}/README.md"
    if not os.path.exists(path):
        yield "there is no such page"
        return
    text = text_of(path)
    part, lines = sections(text), text.count("\n")
    if not text.startswith(f"# {crate}: "):
        yield f"it doesn't begin with # {crate}: "
    if not SHORTEST <= lines <= LONGEST:
        yield f"it has {lines} lines, and not {SHORTEST} to {LONGEST}"
    told = re.findall(r"(?m)^(?:\| |- )`(\w+)`", part.get("Modules", ""))
    if told != modules(crate):
        yield f"Modules has {' '.join(told) or 'none'}, src/ {' '.join(modules(crate)) or 'none'}"
    told = [it for it in re.findall(r"`(\w+)`", part.get("Used by", "")) if it in crates()]
    users = [user for user, used in crates().items() if crate in used]
    if told != users:
        yield f"Used by has {' '.join(told) or 'none'}, crates.txt {' '.join(users) or 'none'}"
    promised = " ".join((part.get("What it promises", "") + part.get("What is proved", "")).split())
    for found in CALL.finditer(promised):
        named, clauses = found.group(1), re.findall(r"\w+", found.group(2) or re.sub(r":[^;]*", "", found.group(3) or ""))
        if "::" in named or clauses:
            yield from faults_of_call(crate, named, clauses)
    told = re.findall(r"`([\w:]+)`", promised)
    told = [name for path in told if path.split("::")[0] not in crates() for name in path.split("::")]
    yield from (f"nothing has the name {it}" for it in told if not any(it in names(its) for its in at_and_below(crate)))


def main():
    wanted = sys.argv[1:] or list(crates())
    if not set(wanted) <= set(crates()):
        sys.exit(__doc__)
    found = [f"crates/{crate}/README.md: {fault}" for crate in wanted for fault in faults(crate)]
    print("\n".join(found) if found else f"{len(wanted)} pages have what their crates have")
    return 1 if found else 0


if __name__ == "__main__":
    sys.exit(main())
