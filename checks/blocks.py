#!/usr/bin/env python3
"""Runs the blocks of README.md and docs/USING.md, and compares all that each command prints with what stands below it.

usage: blocks.py PROGRAM    (the status is 1 where a command prints something else, with what stands there and what came)

A command is an indented line that begins with `$ `, and what it prints, on standard output and standard error, are the lines below
it. The commands of a page run one after another in one folder, with a copy of the repository's samples and tools, and PROGRAM as
`mstplan`; what is typed at a terminal begins with `> `. A command isn't run that has a word such as FILE, which stands for the reader's own,
names files that aren't there, or wants a tool that isn't installed; each of them is told.
"""

import difflib
import os
import pty
import re
import shlex
import shutil
import subprocess
import sys
import tempfile

TOP = os.path.join(os.path.dirname(os.path.abspath(__file__)), os.pardir)
PAGES = ("README.md", os.path.join("docs", "USING.md"))
COPIED = ("examples", "tools", "docs", "bench")
SECONDS = 300
# What isn't tried on this machine: what changes it, and what gives work to others.
NOT_TRIED = ("apt", "sbatch", "rt")
NEEDED = {"tools/package.py": "dpkg-deb"}
OWN = re.compile(r"(?<![\w$.{])[A-Z]{3,}(?![\w}])")


# ---- what stands there


def indented(text):
    """The blocks of a page: runs of lines that are indented by four, without that."""
    lines = []
    for line in [*text.splitlines(), ""]:
        if line.startswith("    "):
            lines.append(line[4:])
        elif lines:
            yield lines
            lines = []


def is_whole(command):
    """Whether a command ends here: each quote is closed, and no backslash or pipe stands at its end."""
    try:
        shlex.split(command, comments=True)
    except ValueError:
        return False
    return not command.endswith(("\\", "|"))


def commands_of(block):
    """The commands of a block, each with the lines that stand below it."""
    found = []
    for line in block:
        if line.startswith("$ "):
            found.append((line[2:], []))
        elif found and not is_whole(found[-1][0]):
            found[-1] = (f"{found[-1][0]}\n{line}", [])
        elif found:
            found[-1][1].append(line)
    return found


# ---- what isn't run


def programs_of(command):
    """The first word of each part of a command, where that has no text in quotes."""
    return [part.split()[0] for part in re.split(r"\|\|?|&&|;|\(", command) if part.split()]


def why_not(command, folder):
    """Why a command isn't run, or None."""
    plain = re.sub(r"\s# .*", "", re.sub(r"'[^']*'", "''", command))
    if own := OWN.search(plain):
        return f"{own[0]} is the reader's own"
    paths = re.findall(r"(?<!\S)/[\w./-]+|[\w./-]+\.pcap\b", plain)
    if absent := [it for it in paths if not os.path.exists(os.path.join(folder, it))]:
        return f"{absent[0]} isn't there"
    for name in programs_of(plain) + [NEEDED[it] for it in NEEDED if it in plain]:
        if name in NOT_TRIED:
            return f"{name} isn't tried here"
        if re.fullmatch(r"[a-z][\w-]*", name) and name not in ("mstplan", "echo") and not shutil.which(name):
            return f"{name} isn't installed"
    return None


# ---- what comes


def run(command, typed, folder, path):
    """What a command prints: the lines of standard output and those of standard error."""
    words = {"cwd": folder, "env": {**os.environ, "PATH": path}, "capture_output": True, "check": False, "timeout": SECONDS}
    if not typed:
        ran = subprocess.run(["bash", "-c", command], stdin=subprocess.DEVNULL, **words)
    else:
        terminal, given = pty.openpty()
        try:
            os.write(terminal, "".join(f"{line}\n" for line in typed).encode() + b"\x04")
            ran = subprocess.run(["bash", "-c", command], stdin=given, **words)
        finally:
            os.close(given)
            os.close(terminal)
    return [it.decode(errors="replace").splitlines() for it in (ran.stdout, ran.stderr)]


def is_either(lines, out, err):
    """Whether lines are those of both outputs, each in its order, however they come between each other."""
    if len(lines) != len(out) + len(err):
        return False
    ends = {0}
    for count, line in enumerate(lines):
        ends = {end + 1 for end in ends if end < len(out) and out[end] == line} | {
            end for end in ends if 0 <= count - end < len(err) and err[count - end] == line
        }
    return len(out) in ends


def check_page(page, program, folder, path):
    """Runs a page's commands: how many are as it says, aren't, and weren't run."""
    with open(os.path.join(TOP, page), encoding="utf-8") as file:
        text = file.read()
    passed = failed = skipped = 0
    for command, lines in [it for block in indented(text) for it in commands_of(block)]:
        if why := why_not(command, folder):
            print(f"not run, {why}: {command}")
            skipped += 1
            continue
        typed = [line[2:] for line in lines if line.startswith("> ")]
        told = [line for line in lines if not line.startswith("> ")]
        out, err = run(command, typed, folder, path)
        if is_either(told, out, err):
            passed += 1
        else:
            print(f"FAILED {page}: {command}")
            print("\n".join(difflib.unified_diff(told, out + err, page, "what is printed", lineterm="", n=1)))
            failed += 1
    return passed, failed, skipped


def copied(folder, program):
    """A copy of what the pages name, with the program where a build leaves it; the path by which it is found."""
    for name in COPIED:
        shutil.copytree(os.path.join(TOP, name), os.path.join(folder, name), ignore=shutil.ignore_patterns("__pycache__"))
    shutil.copy(os.path.join(TOP, "README.md"), folder)
    built = os.path.join(folder, "crates", "mstplan", "out")
    os.makedirs(built)
    shutil.copy(program, os.path.join(built, "mstplan"))
    return f"{built}{os.pathsep}{os.environ['PATH']}"


def main():
    if len(sys.argv) != 2:
        sys.exit(__doc__)
    counts = []
    for page in PAGES:
        with tempfile.TemporaryDirectory() as folder:
            path = copied(folder, sys.argv[1])
            counts.append(check_page(page, sys.argv[1], folder, path))
    passed, failed, skipped = map(sum, zip(*counts))
    print(f"{passed} passed, {failed} failed, {skipped} not run")
    return 1 if failed or not passed else 0


if __name__ == "__main__":
    sys.exit(main())
