#!/usr/bin/env python3
"""Prints how large the house is: lines, functions, clauses and how long they are, and the lines that a reader believes.

usage: house.py [NAME ..]

For each NAME it prints besides how many files of `src/` and `specs/` name it as a word of its own, and in which crates: what a
change of that setting or command may touch. A clause is what stands in the braces of a `requires` or `ensures`, with one space in
place of each gap.

For example: house.py is_restricted Tracing
"""

import collections
import glob
import os
import re
import subprocess
import sys

TOP = os.path.join(os.path.dirname(os.path.abspath(__file__)), os.pardir)
CLAUSE = re.compile(r"^[ \t]*(?:requires|ensures)\b[^{\n]*\{", re.MULTILINE)
FUNCTION = re.compile(r"^\s*(?:pub(?:\(\w+\))? )?(?:const )?fn ", re.MULTILINE)
LONG, TOO_LONG = 200, 300


def texts(pattern):
    """The files of crates that a pattern matches, each with its text."""
    for path in sorted(glob.glob(os.path.join(TOP, "crates", "*", pattern), recursive=True)):
        with open(path, encoding="utf-8") as file:
            yield os.path.relpath(path, os.path.join(TOP, "crates")), file.read()


def clauses(text):
    """The clauses of a source."""
    for found in CLAUSE.finditer(text):
        end, depth = found.end(), 1
        while depth:
            depth += {"{": 1, "}": -1}.get(text[end], 0)
            end += 1
        yield " ".join(text[found.end() : end - 1].split())


def believed(*calls):
    """How many lines these calls rest on, as docs/reading.py counts them."""
    told = subprocess.run([sys.executable, os.path.join(TOP, "docs", "reading.py"), *calls], capture_output=True, text=True, check=True).stdout
    return re.search(r"(\d+) lines, some", told.splitlines()[-1])[1]


def main():
    sources = list(texts("src/**/*.rt"))
    for name, pattern in (("source", "src/**/*.rt"), ("definitions", "specs/**/*.antt"), ("proofs", "proofs/**/*.antt")):
        print(f"lines of {name}: {sum(text.count(chr(10)) for _, text in texts(pattern))}")
    print(f"functions: {sum(len(FUNCTION.findall(text)) for _, text in sources)}")
    lengths = [len(clause) for _, text in sources for clause in clauses(text)]
    print(f"clauses: {len(lengths)}; over {LONG} characters: {sum(n > LONG for n in lengths)}; over {TOO_LONG}: {sum(n > TOO_LONG for n in lengths)}")
    run, check = "mst_tool::runs::run", "mst_tool::checks::check"
    print(f"believed lines of run: {believed(run)}; of check: {believed(check)}; of both: {believed(run, check)}")
    for name in sys.argv[1:]:
        word = re.compile(rf"\b{re.escape(name)}\b")
        crates = collections.Counter(path.split("/")[0] for path, text in [*sources, *texts("specs/**/*.antt")] if word.search(text))
        print(f"{name}: {sum(crates.values())} files: " + ", ".join(f"{crate} {count}" for crate, count in sorted(crates.items())))


if __name__ == "__main__":
    main()
