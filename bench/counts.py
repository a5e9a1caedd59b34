#!/usr/bin/env python3
"""Counts the instructions of runs that no clause tells from slower ones, and compares them with each other.

usage: counts.py PROGRAM    (prints each ratio with its bound; the exit status is 1 where one is above it)

What is printed is proved, and not how much work it takes: a body that makes the islands of a policy's VLANs anew for each line, repairs trees
after failures that nobody asked for, plans each step of a change from nothing, or makes islands of VLANs that the same ports carry in two
networks prints the same. The counts are valgrind's, of one small campus and one of 200 switches, and so the same on each machine; each is
bounded by that of another run with as much work as it may take. Without valgrind nothing is counted.
"""

import os
import re
import shutil
import subprocess
import sys
import tempfile

HERE = os.path.dirname(os.path.abspath(__file__))
PAIRS, ACCESS, LARGE = 2, 4, (11, 16)
LINES, STEPS, PARTS = 32, 10, 16
COUNT = re.compile(rb"I +refs: +([\d,]+)")


def counted(program, *words):
    """How many instructions a run takes."""
    ran = subprocess.run(["valgrind", "--tool=callgrind", "--callgrind-out-file=/dev/null", program, *words], capture_output=True, check=False, timeout=600)
    return int(COUNT.search(ran.stderr).group(1).replace(b",", b""))


def campus(pairs, access):
    """The script of a campus."""
    made = subprocess.run([sys.executable, os.path.join(HERE, "campus.py"), str(pairs), str(access)], capture_output=True, text=True, check=True)
    return made.stdout


def written(folder, name, text):
    path = os.path.join(folder, name)
    with open(path, "w", encoding="utf-8") as file:
        file.write(text)
    return path


def last_numbers(program, *words):
    """The numbers of the last line that a run prints."""
    told = subprocess.run([program, *words], capture_output=True, text=True, check=False, timeout=600).stdout
    return [int(number) for number in re.findall(r"\d+", told.splitlines()[-1])]


def ratios(program, folder):
    """What is compared, the ratio, and the most that it may be."""
    script, large = (written(folder, f"campus of {size}", campus(*size)) for size in ((PAIRS, ACCESS), LARGE))
    one, many = (written(folder, f"policy of {count}", "reach 1-4094 *\n" * count) for count in (1, LINES))
    short, long = (written(folder, f"change of {count}", "".join(f"settreeprio c1 0 {4 * (step % 2)}\n\n" for step in range(count))) for count in (STEPS, 2 * STEPS))
    first, second = (counted(program, "verify", script, policy) for policy in (one, many))
    summary, sweep = (counted(program, word, script) for word in ("summary", "sweep"))
    failures = sum(last_numbers(program, "sweep", script)[:2])
    some, pairs = counted(program, "sweep", script, "pairs", f"1/{PARTS}"), last_numbers(program, "sweep", script, "pairs", f"1/{PARTS}")[0]
    begun, ended = (counted(program, "steps", script, change) for change in (short, long))
    difference = counted(program, "diff", script, script)
    yield "a promise of the network alone, to its summary", first / summary, 2
    yield "the difference of 200 switches and themselves, to their summary", counted(program, "diff", large, large) / counted(program, "summary", large), 1
    yield "a further line of a policy, to the first", (second - first) / (LINES - 1) / first, 0.25
    yield "two failures, to one", (some - summary) / pairs / ((sweep - summary) / failures), 8
    yield "a step of a change, to the difference of two scripts", (ended - begun) / STEPS / difference, 1


def main():
    if len(sys.argv) != 2:
        sys.exit(__doc__)
    if not shutil.which("valgrind"):
        print("no valgrind: instructions weren't counted")
        return 0
    status = 0
    with tempfile.TemporaryDirectory() as folder:
        for what, ratio, most in ratios(os.path.abspath(sys.argv[1]), folder):
            print(f"{'' if ratio <= most else 'FAILED: '}{what}: {ratio:.2f}, of {most} at most")
            status = max(status, int(ratio > most))
    return status


if __name__ == "__main__":
    sys.exit(main())
