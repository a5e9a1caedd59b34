#!/usr/bin/env python3
"""Makes edits of the mesh of region.py, settles after each, and compares all trees and VIDs with those of a run that settles once.

usage: agree.py PROGRAM [TIMES] [PART]    (200 edits of each kind of mesh_edits.py if left out; PART of the bridges as in region.py)

The exit status is 1 where a text differs.
"""

import subprocess
import sys

from mesh_edits import KINDS, edits
from load import BRIDGES
from region import TREES, mesh

QUERIES = [f"showtree {tree}" for tree in range(TREES + 1)] + ["showregions", "showplan", "shownotes"]


def printed(program, lines):
    script = "\n".join([*lines, ""]).encode()
    ended = subprocess.run([program, "run", "-"], input=script, stdout=subprocess.PIPE, check=False)
    if ended.returncode not in (0, 1):
        sys.exit(f"exit status {ended.returncode}")
    return ended.stdout


def agrees(program, kind, times, count):
    """The same edits with a plan after each, made up to its last edit by repairs, and with one plan at the end."""
    made = edits(kind, times, count)
    settled = [line for edit in made for line in (edit, "showvlan 5")]
    last = printed(program, [*mesh(count), *made, *QUERIES])
    return len(last) > 0 and printed(program, [*mesh(count), *settled, *QUERIES]).endswith(last)


def main():
    words = sys.argv[1:]
    if not 1 <= len(words) <= 3:
        sys.exit(__doc__)
    times = int(words[1]) if len(words) > 1 else 200
    count = BRIDGES // (int(words[2]) if len(words) > 2 else 1)
    differing = [kind for kind in KINDS if not agrees(words[0], kind, times, count)]
    for kind in KINDS:
        print(f"{kind}: {'differs' if kind in differing else 'agrees'}")
    sys.exit(1 if differing else 0)


if __name__ == "__main__":
    main()
