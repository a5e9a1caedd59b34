#!/usr/bin/env python3
"""Runs the blocks of docs/PYTHON.md one after another, and compares what each prints with the text behind it.

usage: python_page.py PROGRAM    (the status is 1 where one prints something else)
"""

import contextlib
import difflib
import io
import os
import re
import sys
import tempfile
import traceback

TOP = os.path.abspath(os.path.join(os.path.dirname(os.path.abspath(__file__)), os.pardir))
PAGE = os.path.join(TOP, "docs", "PYTHON.md")
BLOCK = re.compile(r"```(python|text)\n(.*?)```\n", re.DOTALL)
# nothing is to be left beside what is imported
sys.dont_write_bytecode = True
sys.path.append(os.path.join(TOP, "tools"))


def printed(code, names):
    """What a block prints, its names being those of the blocks before it."""
    out = io.StringIO()
    with contextlib.redirect_stdout(out):
        try:
            exec(compile(code, PAGE, "exec"), names)
        except Exception:
            return out.getvalue() + traceback.format_exc()
    return out.getvalue()


def faults(page):
    """What differs, as lines; and how many blocks there are."""
    found, names, blocks = [], {}, BLOCK.findall(page)
    for (kind, code), (behind, wanted) in zip(blocks, [*blocks[1:], ("", "")]):
        if kind == "python":
            told = printed(code, names)
            its = difflib.unified_diff((wanted if behind == "text" else "").splitlines(), told.splitlines(), "page", "came", lineterm="")
            found += [f"{code.splitlines()[0]} ..:", *its] if told != (wanted if behind == "text" else "") else []
    return found, sum(kind == "python" for kind, _ in blocks)


def main():
    if len(sys.argv) != 2:
        sys.exit(__doc__)
    with open(PAGE, encoding="utf-8") as file:
        page = file.read()
    with tempfile.TemporaryDirectory() as folder:
        # the page calls the program by its name
        os.symlink(os.path.abspath(sys.argv[1]), os.path.join(folder, "mstplan"))
        os.environ["PATH"] = folder + os.pathsep + os.environ["PATH"]
        os.chdir(TOP)
        found, count = faults(page)
    print("\n".join(found) if found else f"{count} blocks of docs/PYTHON.md print what stands there")
    sys.exit(1 if found else 0)


if __name__ == "__main__":
    main()
