#!/usr/bin/env python3
"""Prints a script: a ring of rstp bridges, and the text of its tree 0.

usage: ring.py [BRIDGES]    (3 to 1024, 200 if left out)
"""

import sys


def ring(count):
    for i in range(count):
        yield f"addbridge B{i:04} 02:00:00:00:{i // 256:02x}:{i % 256:02x}"
        yield f"kind B{i:04} rstp"
        yield f"addport B{i:04} 1"
        yield f"addport B{i:04} 2"
    for i in range(count):
        following = (i + 1) % count
        yield f"addlan L{i:04}"
        yield f"plug B{i:04} 2 L{i:04}"
        yield f"plug B{following:04} 1 L{i:04}"
    yield "showtree 0"


def main():
    count = int(sys.argv[1]) if len(sys.argv) > 1 else 200
    if not 3 <= count <= 1024:
        sys.exit(__doc__)
    print("\n".join(ring(count)))


main()
