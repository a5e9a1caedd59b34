#!/usr/bin/env python3
"""Prints a script: rstp bridges with all their ports on one LAN, and the text of tree 0.

usage: lan.py BRIDGES PORTS    (1 to 1,024 bridges of 1 to 4,095 ports each, 16,384 ports at most)

For example: lan.py 256 16 | mstplan run -
"""

import sys

from load import BRIDGES

PORTS_OF_BRIDGE, PORTS = 4095, 16_384


def lan(bridges, ports):
    yield "addlan L"
    for i in range(bridges):
        yield f"addbridge B{i:04} 02:00:00:00:{i // 256:02x}:{i % 256:02x}"
        yield f"kind B{i:04} rstp"
        for port in range(1, ports + 1):
            yield f"addport B{i:04} {port}"
            yield f"plug B{i:04} {port} L"
    yield "showtree 0"


def main():
    try:
        bridges, ports = map(int, sys.argv[1:])
    except ValueError:
        sys.exit(__doc__)
    if not (1 <= bridges <= BRIDGES and 1 <= ports <= PORTS_OF_BRIDGE and bridges * ports <= PORTS):
        sys.exit(__doc__)
    print("\n".join(lan(bridges, ports)))


if __name__ == "__main__":
    main()
