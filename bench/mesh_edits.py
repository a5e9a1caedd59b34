#!/usr/bin/env python3
"""Prints a script: the mesh of region.py, and then some times one edit of a kind and one `showvlan 60`.

usage: mesh_edits.py KIND [TIMES] [PART]    (200 times if left out; PART of the bridges as in region.py)

KIND: cost (of a port), priority (of a bridge in a tree), lan (down and up), vid (mapped to another tree), bridge (off and
on), plug (out of its LAN and back) or key (of a port's links, set and back).

For example: mesh_edits.py lan 200 | mstplan run -

What an edit and a query cost is the time of this script less that of `mesh_edits.py KIND 1`, over TIMES - 1.
"""

import sys

from load import BRIDGES
from region import mesh


def cost(i, count):
    return f"setportpathcost B{37 * i % count:04} {1 + i % 16} {15_000 + i}"


def priority(i, count):
    return f"settreeprio B{37 * i % count:04} {i % 65} {i % 16}"


def lan(i, count):
    return f"lan L{37 * (i // 2) % count:04}-{i // 2 % 8} {'up' if i % 2 else 'down'}"


def vid(i, count):
    return f"setvid2mstid B{37 * i % count:04} {1 + i % 64} {4000 + i % 90}"


def bridge(i, count):
    return f"bridge B{37 * (i // 2) % count:04} {'on' if i % 2 else 'off'}"


def plug(i, count):
    number, lan = 37 * (i // 2) % count, i // 2 % 8
    port = f"B{number:04} {2 * lan + 1}"
    return f"plug {port} L{number:04}-{lan}" if i % 2 else f"unplug {port}"


def key(i, count):
    return f"setkey B{37 * (i // 2) % count:04} {1 + i // 2 % 16} {0 if i % 2 else 7}"


KINDS = {"cost": cost, "priority": priority, "lan": lan, "vid": vid, "bridge": bridge, "plug": plug, "key": key}


def edits(kind, times, count):
    return [KINDS[kind](i, count) for i in range(times)]


def main():
    words = sys.argv[1:]
    if not 1 <= len(words) <= 3 or words[0] not in KINDS:
        sys.exit(__doc__)
    times = int(words[1]) if len(words) > 1 else 200
    count = BRIDGES // (int(words[2]) if len(words) > 2 else 1)
    print("\n".join(mesh(count)))
    for edit in edits(words[0], times, count):
        print(edit)
        print("showvlan 60")


if __name__ == "__main__":
    main()
