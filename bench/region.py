#!/usr/bin/env python3
"""Prints a script: a mesh of mstp bridges of one region, 16 ports each, with 64 MSTIs, and then queries.

usage: region.py [PART] [QUERY ..]    (of 1,024 bridges: 1 of 1, 2, 4 or 8; each QUERY is a line of its own)

For example: region.py 4 "showtree 0" "showvlan 10"
"""

import sys

from load import BRIDGES, PORTS_EACH, cables

TREES = 64


def bridge(i):
    yield f"addbridge B{i:04} 02:00:00:00:{i // 256:02x}:{i % 256:02x}"
    yield f"setmstconfid B{i:04} 1 bench"
    for tree in range(1, TREES + 1):
        first = 60 * tree
        yield f"setvid2mstid B{i:04} {tree} {first}-{first + 59}"
    for port in range(1, PORTS_EACH + 1):
        yield f"addport B{i:04} {port}"


def mesh(count):
    for i in range(count):
        yield from bridge(i)
    yield from cables(count)
    for tree in range(1, TREES + 1):
        yield f"settreeprio B{(tree * 37) % count:04} {tree} 0"
        for i in range(tree % 7, count, 29):
            yield f"settreeportcost B{i:04} {1 + (i + tree) % PORTS_EACH} {tree} {10_000 + 500 * ((i * tree) % 41)}"


def main():
    words = sys.argv[1:]
    part = int(words[0]) if words else 1
    if part not in (1, 2, 4, 8):
        sys.exit(__doc__)
    print("\n".join([*mesh(BRIDGES // part), *words[1:]]))


if __name__ == "__main__":
    main()
