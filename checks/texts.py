#!/usr/bin/env python3
"""Runs the built program on the texts of checks/texts, and compares both outputs and the exit status of each run.

usage: texts.py PROGRAM [NAME ..]     (all topics, or these: NAME of checks/texts/NAME.txt)

A topic is a file of sections. Each begins with a line `== ..`; what stands before the first one is comment:

    == file NAME          a file of these lines, in an empty folder of the topic
    == run WORDS          the program is run there on these words, split as a shell does, and prints just these lines; beside it has the files made so far
    == error              what the run above it prints on standard error; without it nothing
    == status N           the exit status of the run above it; without it 0
    == input              what the run above it reads on standard input; without it nothing

A text is its lines, each with its end. Of a run that differs a unified diff is printed, of its sections as they are expected and as they
came. The last line tells how many runs there were and how many differ, and the status is 0 where none does.
"""

import concurrent.futures
import difflib
import glob
import os
import shlex
import subprocess
import sys
import tempfile

TOPICS = os.path.join(os.path.dirname(os.path.abspath(__file__)), "texts")
BELONGS_TO_RUN = ("error", "status", "input")
SECONDS = 60


class Run:
    """A run: where its section begins, its words, the files that it finds, and its other sections."""

    def __init__(self, place, words, files):
        self.place, self.words, self.files = place, shlex.split(words), dict(files)
        self.parts = {"run": "", "error": "", "status": "0", "input": ""}

    def page(self):
        """What is expected: both outputs and the status."""
        return self.parts["run"], self.parts["error"], int(self.parts["status"])


def runs_of(path):
    """The runs of a topic. A section that isn't in this form ends all."""
    with open(path, encoding="utf-8", newline="") as file:
        lines = file.read().splitlines(keepends=True)
    runs, files, section = [], {}, None
    for number, line in enumerate(lines, 1):
        place = f"{os.path.basename(path)}:{number}"
        if line.startswith("== "):
            kind, _, rest = line[3:].strip().partition(" ")
            if kind == "file" and rest:
                section = (files, rest)
            elif kind == "run":
                runs.append(Run(place, rest, files))
                section = (runs[-1].parts, kind)
            elif kind in BELONGS_TO_RUN and runs:
                section = (runs[-1].parts, kind)
            else:
                sys.exit(f"{place}: no section: {line.strip()}")
            section[0][section[1]] = rest if kind == "status" else ""
        elif section:
            section[0][section[1]] += line
        elif not line.startswith("#") and line.strip():
            sys.exit(f"{place}: neither a comment nor in a section: {line.strip()}")
    return runs


def page_text(out, err, status):
    """Both outputs and the status as sections."""
    whole = [it if it.endswith("\n") or not it else f"{it}\n\\ no end of the last line\n" for it in (out, err)]
    return whole[0] + (f"== error\n{whole[1]}" if err else "") + (f"== status {status}\n" if status else "")


def difference(command, run):
    """How a run of a command, which stands before the run's words, differs from what is expected, if it does."""
    with tempfile.TemporaryDirectory(prefix="texts-") as folder:
        for name, text in run.files.items():
            with open(os.path.join(folder, name), "w", encoding="utf-8", newline="") as file:
                file.write(text)
        given = run.parts["input"].encode()
        try:
            ran = subprocess.run([*command, *run.words], input=given, capture_output=True, timeout=SECONDS, check=False, cwd=folder)
        except subprocess.TimeoutExpired:
            return f"{run.place}: no end in {SECONDS} seconds\n"
    came = (ran.stdout.decode(errors="backslashreplace"), ran.stderr.decode(errors="backslashreplace"), ran.returncode)
    if came == run.page():
        return ""
    old, new = (page_text(*page).splitlines(keepends=True) for page in (run.page(), came))
    return "".join(difflib.unified_diff(old, new, f"{run.place}: {shlex.join(run.words)}, expected", "came"))


def main():
    if len(sys.argv) < 2 or sys.argv[1].startswith("-"):
        sys.exit(__doc__)
    program = os.path.abspath(sys.argv[1])
    paths = [os.path.join(TOPICS, f"{name}.txt") for name in sys.argv[2:]] or sorted(glob.glob(os.path.join(TOPICS, "*.txt")))
    runs = [run for path in paths for run in runs_of(path)]
    with concurrent.futures.ThreadPoolExecutor(os.cpu_count()) as pool:
        found = [text for text in pool.map(lambda run: difference([program], run), runs) if text]
    print("".join(f"{text}\n" for text in found), end="")
    print(f"texts: {len(runs)} runs, {len(found)} differ")
    return 1 if found or not runs else 0


if __name__ == "__main__":
    sys.exit(main())
