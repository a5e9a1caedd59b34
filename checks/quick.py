#!/usr/bin/env python3
"""Runs all that the gate runs and that needs no proof (list.txt), as many at a time as there are processors.

usage: quick.py [--jobs N] [PROGRAM]     (the status is 0 just where all pass)

Without PROGRAM it builds one that isn't proved (tools/unproved.py), and keeps it in ~/.cache/mstplan, or below $XDG_CACHE_HOME, by what the
code says: a later run on the same code builds nothing. Each check has a line with the seconds that it took, those of processors first, and the
last line that it printed; one that fails has its last lines. Proofs are `rt check`'s and `rt ci`'s.
"""

import argparse
import concurrent.futures
import glob
import hashlib
import os
import shutil
import subprocess
import sys
import tempfile
import time

HERE = os.path.dirname(os.path.abspath(__file__))
TOP = os.path.join(HERE, os.pardir)
LIST = os.path.join(HERE, "list.txt")
UNPROVED = os.path.join(TOP, "tools", "unproved.py")
BUILDING = "tools/unproved.py"
MOST_LINES = 40


def read(path):
    with open(path, encoding="utf-8") as file:
        return file.read()


def checks():
    """The words of each check, in the order of the list."""
    lines = [line.strip() for line in read(LIST).splitlines()]
    return [line.split() for line in lines if line and not line.startswith("#")]


# ---- the program


def crates_of_program():
    """The crates that the program is made of."""
    lines = dict(line.split(":", 1) for line in read(os.path.join(TOP, "crates.txt")).splitlines() if ":" in line)
    found = ["mstplan"]
    for name in found:
        found += [it for it in lines[name].split() if it in lines and it not in found]
    return sorted(found)


def key():
    """What the program's code says, as a short name: its sources, what they stand on, the toolchain, and how it is built."""
    paths = [os.path.join(TOP, "crates.txt"), UNPROVED]
    for name in crates_of_program():
        paths += sorted(glob.glob(os.path.join(TOP, "crates", name, "src", "**", "*.rt"), recursive=True))
    try:
        kit = subprocess.run(["rt", "version"], capture_output=True, text=True, check=True).stdout
    except OSError:
        sys.exit("quick.py: no rt on the path, which builds the program; or give it a PROGRAM")
    digest = hashlib.sha256(kit.encode())
    for path in paths:
        digest.update(f"{os.path.relpath(path, TOP)}\0{read(path)}\0".encode())
    return digest.hexdigest()[:16]


def kept():
    """Where the program of this code is kept."""
    cache = os.environ.get("XDG_CACHE_HOME") or os.path.join(os.path.expanduser("~"), ".cache")
    return os.path.join(cache, "mstplan", key(), "mstplan")


def build(path):
    """Builds the program, and keeps it, whole or not at all."""
    os.makedirs(os.path.dirname(path), exist_ok=True)
    with tempfile.TemporaryDirectory() as folder:
        is_built = run([UNPROVED, folder], BUILDING)
        if is_built:
            shutil.copy(os.path.join(folder, "mstplan"), f"{path}.new")
            os.replace(f"{path}.new", path)
    return is_built


# ---- one check


def run(words, name):
    """Runs a script, and tells of it as soon as it is done: whether it passes."""
    begun = time.monotonic()
    with tempfile.TemporaryFile("w+b") as said:
        ran = subprocess.Popen([sys.executable, *words], cwd=TOP, stdin=subprocess.DEVNULL, stdout=said, stderr=said)
        _, status, used = os.wait4(ran.pid, 0)
        ran.returncode = os.waitstatus_to_exitcode(status)
        said.seek(0)
        lines = said.read().decode(errors="replace").splitlines()
    seconds = f"{used.ru_utime + used.ru_stime:6.1f} {time.monotonic() - begun:6.1f}"
    if ran.returncode == 0:
        tell(f"{seconds}  {name}: {lines[-1]}" if lines else f"{seconds}  {name}")
    else:
        tell("\n".join([f"{seconds}  FAILED {name}: status {ran.returncode}", *(f"    {line}" for line in lines[-MOST_LINES:])]))
    return ran.returncode == 0


def tell(text):
    """Prints whole lines, whoever else prints some."""
    sys.stdout.write(f"{text}\n")
    sys.stdout.flush()


def run_all(program, is_built, jobs):
    """Runs each check; those of the program once that is there. Whether each passes, the build among them."""
    of_program = [it for it in checks() if "PROGRAM" in it]
    with concurrent.futures.ThreadPoolExecutor(jobs) as pool:
        building = [] if is_built else [pool.submit(build, program)]
        going = [pool.submit(run, it, " ".join(it)) for it in checks() if it not in of_program]
        if all(it.result() for it in building):
            going += [pool.submit(run, [program if word == "PROGRAM" else word for word in it], it[0]) for it in of_program]
        else:
            tell(f"{len(of_program)} checks weren't run, for there is no program")
        return [it.result() for it in building + going]


def main():
    parser = argparse.ArgumentParser(description=__doc__, formatter_class=argparse.RawDescriptionHelpFormatter)
    parser.add_argument("--jobs", type=int, default=os.cpu_count() or 1, metavar="N", help="how many checks go at a time; as many as processors without it")
    parser.add_argument("program", metavar="PROGRAM", nargs="?", help="a built program; without it one of the code as it stands")
    words = parser.parse_args()
    begun = time.monotonic()
    program = os.path.abspath(words.program) if words.program else kept()
    is_built = os.path.isfile(program)
    if words.program and not is_built:
        parser.error(f"{words.program}: no such file")
    tell("processor and wall seconds")
    results = run_all(program, is_built, max(words.jobs, 1))
    used = os.times()
    print(f"{used.children_user + used.children_system:6.1f} {time.monotonic() - begun:6.1f}  in all, with {program}")
    print(f"{sum(results)} passed, {len(results) - sum(results)} failed")
    return 0 if all(results) else 1


if __name__ == "__main__":
    sys.exit(main())
