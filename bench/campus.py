#!/usr/bin/env python3
"""Prints a script: a campus in one region, with two core switches, pairs for distribution, and access switches.

usage: campus.py PAIRS ACCESS    (1 to 50 pairs, with 1 to 18 access switches each)

Each distribution switch has a link to both core switches, and each access switch one to both of its pair. Every access
switch has VLANs 10 to 13, and one of its own on both of its ports.

For example: campus.py 4 10 > campus.script && mstplan sweep campus.script
"""

import sys

PAIRS, ACCESS = 50, 18


class Campus:
    def __init__(self):
        self.lines, self.ports = [], {}

    def switch(self, name):
        number = len(self.ports) + 1
        self.ports[name] = 0
        self.lines += [f"addbridge {name} 02:00:00:00:{number // 256:02x}:{number % 256:02x}", f"setmstconfid {name} 1 campus"]
        self.lines += [f"setvid2mstid {name} 1 10,12", f"setvid2mstid {name} 2 11,13"]

    def link(self, first, second, speed, vlans="all"):
        lan = f"{first}-{second}"
        self.lines += [f"addlan {lan}", f"speed {lan} {speed}"]
        for name in (first, second):
            self.ports[name] += 1
            port = f"{name} {self.ports[name]}"
            self.lines += [f"addport {port}", f"plug {port} {lan}"]
            self.lines += [f"setportvlans {port} {vlans}"] * (vlans != "all")


def campus(pairs, access):
    made = Campus()
    cores = ["c1", "c2"]
    for name in cores:
        made.switch(name)
    made.lines += ["settreeprio c1 0 1", "settreeprio c2 0 2", "settreeprio c1 1 1", "settreeprio c2 2 1"]
    made.link(*cores, 100_000_000)
    for pair in range(pairs):
        distribution = [f"d{pair}a", f"d{pair}b"]
        for name in distribution:
            made.switch(name)
            for core in cores:
                made.link(core, name, 10_000_000)
        for place in range(access):
            name, own = f"a{pair}.{place}", 100 + pair * ACCESS + place
            made.switch(name)
            for above in distribution:
                made.link(above, name, 1_000_000, f"1,10-13,{own}")
    return made.lines


def main():
    try:
        pairs, access = map(int, sys.argv[1:])
    except ValueError:
        sys.exit(__doc__)
    if not (1 <= pairs <= PAIRS and 1 <= access <= ACCESS):
        sys.exit(__doc__)
    print("\n".join(campus(pairs, access)))


if __name__ == "__main__":
    main()
