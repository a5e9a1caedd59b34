#!/usr/bin/env python3
"""Looks for what the pages name of the crates: each file stands in the crate that is named before it, and each item is one of its crate.

usage: places.py

In README.md, docs/*.md and crates/*/README.md a crate is named in backticks, and files of it behind that: `mst_lag`: `specs/View.antt`,
`Aggregation.antt`, `src/view.rt`, in one paragraph or row; in a crate's page files with no crate in front of them are its own. A file with no folder
lies in the folder of the file before it. An item is named with its crate: `mst_lag::view`, `mst_plan::laws::bounds`, `mst_lag/specs/View.antt`.
A list of what must be believed (docs/READING.md) is checked by docs/reading.py, what else stands in a crate's page by readmes.py.
The status is 1 where something isn't there, with a line for each fault.
"""

import functools
import glob
import os
import re
import sys

TOP = os.path.join(os.path.dirname(os.path.abspath(__file__)), os.pardir)
CODE = re.compile(r"`([^`\n]+)`")
CRATE = re.compile(r"mst_\w+|mstplan")
FILE = re.compile(r"(?:(specs|src|proofs)/)?((?:[\w-]+/)*[\w-]+\.(?:antt|rt))")
PATH = re.compile(r"(mst_\w+|mstplan)((?:::\w+)+)")
INSIDE = re.compile(r"(?:crates/)?(mst_\w+|mstplan)/((?:specs|src|proofs|must-fail)(?:/[\w./-]*)?)")


def crates():
    with open(os.path.join(TOP, "crates.txt"), encoding="utf-8") as file:
        return {line.split(":")[0] for line in file if ":" in line and not line.startswith("#")}


@functools.cache
def items(crate):
    """The names of a crate: what its code defines or gives on, its modules and its variants."""
    found = set()
    for path in glob.glob(f"{TOP}/crates/{crate}/src/**/*.rt", recursive=True):
        with open(path, encoding="utf-8") as file:
            text = file.read()
        found |= set(re.findall(r"\b(?:fn|struct|enum|trait|mod|const|type)\s+(\w+)", text))
        found |= {name for used in re.findall(r"pub use ([^;]+);", text) for name in re.findall(r"\w+", used)}
        found |= set(re.findall(r"(?m)^    (\w+)[,({ ]", text))
    return found


def has_file(crate, folder, file):
    """Whether a file lies in a folder of a crate, or in its modules' tests."""
    return any(os.path.exists(f"{TOP}/crates/{crate}/{folder}/{it}{file}") for it in ("", "tests/"))


def faults_of(name, text, known):
    own = name.split("/")[1] if name.startswith("crates/") else None
    crate, folder, behind = own, "", 0
    for found in CODE.finditer(text):
        code, line = found.group(1), text.count("\n", 0, found.start()) + 1
        if re.search(r"\n\n|\n[|-] ?", text[behind : found.start()]):
            crate, folder = own, ""
        behind = found.end()
        said, where = PATH.fullmatch(code), INSIDE.fullmatch(code)
        if CRATE.fullmatch(code):
            crate, folder = code, ""
        elif said:
            crate = said.group(1)
            lost = [it for it in said.group(2).split("::")[1:] if crate in known and it not in items(crate)]
            if lost:
                yield f"{name}:{line}: {crate} has no {lost[0]} ({code})"
        elif where:
            crate, folder = where.group(1), where.group(2).split("/")[0]
            if not os.path.exists(f"{TOP}/crates/{crate}/{where.group(2)}"):
                yield f"{name}:{line}: there is no crates/{crate}/{where.group(2)}"
        elif FILE.fullmatch(code) and crate:
            folder = FILE.fullmatch(code).group(1) or ("src" if code.endswith(".rt") else folder)
            if folder and not has_file(crate, folder, FILE.fullmatch(code).group(2)):
                yield f"{name}:{line}: {crate} has no {folder}/{FILE.fullmatch(code).group(2)}"
        if crate and crate not in known and (CRATE.fullmatch(code) or said or where) and not any(crate in items(it) for it in known):
            yield f"{name}:{line}: there is no crate {crate}"


def main():
    known = crates()
    pages = [os.path.relpath(path, TOP) for of in ("README.md", "docs/*.md", "crates/*/README.md") for path in sorted(glob.glob(os.path.join(TOP, of)))]
    found = []
    for name in pages:
        with open(os.path.join(TOP, name), encoding="utf-8") as file:
            found += faults_of(name, file.read(), known)
    print("\n".join(found) if found else f"{len(pages)} pages name what is there")
    return 1 if found else 0


if __name__ == "__main__":
    sys.exit(main())
