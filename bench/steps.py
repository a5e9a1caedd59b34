#!/usr/bin/env python3
"""Counts the steps of a repair: of a chain of 128 bridges, from nothing, and after a changed cost at the end away from the root.

usage: steps.py    (prints both numbers; the exit status is 1 where one is above its bound, or wasn't counted)

It runs steps.test, a test of mst_settle with a metric that counts its steps, in a copy of the crates. It isn't a test of the
crate's own, since the toolchain doesn't prove a metric that holds a reference. No contract tells a repair from a body that settles
anew beside what stands and copies what differs, or that asks a bridge all its ports at each message of a neighbour; this does.
"""

import os
import re
import shutil
import subprocess
import sys
import tempfile

HERE = os.path.dirname(os.path.abspath(__file__))
TOP = os.path.join(HERE, os.pardir)
BELOW = ("mst_ids", "mst_vector", "mst_topology", "mst_progress", "mst_outcome", "mst_settle")
# From nothing one step leads to each bridge but the root, as its neighbour's message is taken in. A repair takes no more than this.
BRIDGES, FEW = 128, 32
SECONDS = 900


def copy_crates(folder):
    """The crate with the test in the place of its own, and those below it."""
    for crate in BELOW:
        copied = os.path.join(folder, "crates", crate)
        shutil.copytree(os.path.join(TOP, "crates", crate), copied, ignore=shutil.ignore_patterns("out"))
    source = os.path.join(folder, "crates", "mst_settle", "src")
    shutil.copy(os.path.join(HERE, "steps.test"), os.path.join(source, "tests.rt"))
    with open(os.path.join(source, "lib.rt"), "a", encoding="utf-8") as lib:
        lib.write("\n#[cfg(test)]\nmod tests;\n")
    with open(os.path.join(TOP, "crates.txt"), encoding="utf-8") as file:
        listed = [line for line in file if line.split(":")[0] in BELOW]
    with open(os.path.join(folder, "crates.txt"), "w", encoding="utf-8") as file:
        file.writelines(listed)


def main():
    if len(sys.argv) > 1:
        sys.exit(__doc__)
    with tempfile.TemporaryDirectory() as folder:
        copy_crates(folder)
        crate = os.path.join(folder, "crates", "mst_settle")
        tried = subprocess.run(["rt", "try", "--test"], cwd=crate, capture_output=True, text=True, check=False, timeout=SECONDS)
    counted = re.search(r"^ *(\d+) (\d+)$", tried.stdout, re.MULTILINE)
    if not counted:
        print(f"{tried.stdout}{tried.stderr}\nFAILED: steps weren't counted")
        return 1
    all_steps, repair = map(int, counted.groups())
    is_right = tried.returncode == 0 and all_steps == BRIDGES - 1 and 0 < repair <= FEW
    if not is_right:
        print(f"{tried.stdout}{tried.stderr}")
    print(f"{'' if is_right else 'FAILED: '}from nothing {all_steps} steps, after the change {repair}")
    return 0 if is_right else 1


if __name__ == "__main__":
    sys.exit(main())
