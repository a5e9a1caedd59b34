#!/usr/bin/env python3
"""Prints a script without a query: bridges, ports, LANs, and a plug for each port.

usage: load.py [PART]    (of 1,024 bridges, 16,384 ports and 8,192 LANs: 1 of 1, 2, 4 or 8; 1 if left out)
"""

import sys

BRIDGES, PORTS_EACH, LANS_EACH = 1024, 16, 8


def load(count):
    for i in range(count):
        yield f"addbridge B{i:04} 02:00:00:00:{i // 256:02x}:{i % 256:02x}"
        for port in range(1, PORTS_EACH + 1):
            yield f"addport B{i:04} {port}"
    yield from cables(count)


def cables(count):
    """A LAN between each bridge and each of those that follow it."""
    for i in range(count):
        for k in range(LANS_EACH):
            following = (i + k + 1) % count
            yield f"addlan L{i:04}-{k}"
            yield f"plug B{i:04} {2 * k + 1} L{i:04}-{k}"
            yield f"plug B{following:04} {2 * k + 2} L{i:04}-{k}"


def main():
    part = int(sys.argv[1]) if len(sys.argv) > 1 else 1
    if part not in (1, 2, 4, 8):
        sys.exit(__doc__)
    print("\n".join(load(BRIDGES // part)))


if __name__ == "__main__":
    main()
