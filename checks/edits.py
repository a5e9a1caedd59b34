#!/usr/bin/env python3
"""Tries edits that a check must refuse, of the crates whose edits the gate doesn't try (checks/edits/NAME/*.edit).

usage: edits.py NAME [EDIT ..]           (tries all edits of this crate, or these; EDIT is a file's name, with or without its .edit)
       edits.py --check docs/PROVED.md   (tries none: the status is 1 where one doesn't fit the file that it is of, be it one that the gate
                                          tries, or the table of the page hasn't just these edits, with a line for each fault)

It copies the crate and those below it into a folder for the time, with what `rt check` kept of them (so check the crate first, or each of
them is proved there from nothing), gives the crate these edits as its must-fail/ and runs `rt must-fail NAME`. The checkout stays as it is.
The status is rt's: not 0 where an edit isn't refused, or can't be tried.
"""

import glob
import os
import re
import shutil
import subprocess
import sys
import tempfile

HERE = os.path.dirname(os.path.abspath(__file__))
TOP = os.path.join(HERE, os.pardir)


def all_edits():
    """Each crate's edits, by name: their files."""
    found = {}
    for path in sorted(glob.glob(os.path.join(HERE, "edits", "*", "*.edit"))):
        crate, file = path.split(os.sep)[-2:]
        found.setdefault(crate, {})[file.removesuffix(".edit")] = path
    return found


def tried_by_gate():
    """Each edit in a crate's must-fail/: its crate and name, and its file."""
    paths = sorted(glob.glob(os.path.join(TOP, "crates", "*", "must-fail", "*.edit")))
    return [((path.split(os.sep)[-3], path.split(os.sep)[-1].removesuffix(".edit")), path) for path in paths]


# ---- trying them


def crates_of():
    """Each crate of crates.txt with its line and the crates of the repository that it names."""
    with open(os.path.join(TOP, "crates.txt"), encoding="utf-8") as file:
        lines = {line.split(":")[0].strip(): line for line in file if ":" in line}
    return {name: (line, [it for it in line.split(":")[1].split() if it in lines]) for name, line in lines.items()}


def at_and_below(name, crates):
    found = [name]
    for it in found:
        found += [below for below in crates[it][1] if below not in found]
    return found


def wanted_edits(name, words):
    """The files of a crate's edits, all or those of these names."""
    there = all_edits().get(name, {})
    wanted = [word.removesuffix(".edit") for word in words] or list(there)
    if not there or not set(wanted) <= set(there):
        sys.exit(f"{name} has the edits {', '.join(there)}" if there else f"{name} has no edits; these have: {', '.join(all_edits())}")
    return [there[word] for word in wanted]


def try_edits(name, edits, folder):
    """The status of rt over a copy of the crate that has these edits alone."""
    crates = crates_of()
    copied = at_and_below(name, crates)
    for it in copied:
        shutil.copytree(os.path.join(TOP, "crates", it), os.path.join(folder, "crates", it), ignore=shutil.ignore_patterns("must-fail"))
    with open(os.path.join(folder, "crates.txt"), "w", encoding="utf-8") as file:
        file.writelines(line for it, (line, _) in crates.items() if it in copied)
    shutil.copy(os.path.join(TOP, "HANDLES"), folder)
    given = os.path.join(folder, "crates", name, "must-fail")
    os.mkdir(given)
    for edit in edits:
        shutil.copy(edit, given)
    return subprocess.run(["rt", "must-fail", name], cwd=folder, check=False).returncode


# ---- whether they fit


def misfit(crate, path):
    """Why an edit doesn't fit its file, if it doesn't: each text that it takes away stands once in what the ones before it made."""
    with open(path, encoding="utf-8") as file:
        lines = file.read().splitlines()
    of = os.path.join(TOP, "crates", crate, lines[0].removeprefix("file: "))
    if not os.path.isfile(of):
        return f"no file {lines[0]}"
    with open(of, encoding="utf-8") as file:
        text = file.read()
    for old, new in zip(lines[1::2], lines[2::2]):
        old, new = old.removeprefix("old: "), new.removeprefix("new: ")
        if text.count(old) != 1:
            return f"{text.count(old)} times in {lines[0]}: {old}"
        text = text.replace(old, new)
    return None


def faults(page):
    """What doesn't fit, and which edits the page hasn't, or has and aren't there."""
    edits = {(crate, name): path for crate, named in all_edits().items() for name, path in named.items()}
    yield from (f"{crate} {name}: {why}" for (crate, name), path in [*edits.items(), *tried_by_gate()] if (why := misfit(crate, path)))
    with open(page, encoding="utf-8") as file:
        told = re.findall(r"^\| `(mst\w*)` `([\w-]+)` \|", file.read(), re.MULTILINE)
    yield from (f"{page} hasn't {' '.join(it)}" for it in edits if it not in told)
    yield from (f"{page} has {' '.join(it)}, which isn't there" for it in told if it not in edits)


def main():
    words = sys.argv[1:]
    if words[:1] == ["--check"] and len(words) == 2:
        found = list(faults(words[1]))
        print("".join(f"{fault}\n" for fault in found), end="")
        return 1 if found else 0
    if not words or words[0].startswith("-"):
        sys.exit(__doc__)
    edits = wanted_edits(words[0], words[1:])
    with tempfile.TemporaryDirectory(prefix="edits-") as folder:
        return try_edits(words[0], edits, folder)


if __name__ == "__main__":
    sys.exit(main())
