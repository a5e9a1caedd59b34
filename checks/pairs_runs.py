#!/usr/bin/env python3
"""Pairs of failures (`mstplan sweep FILE pairs`), for program.py: what is told of each is what the texts of `run` say of the network, of it
with either failure alone, and with both.

usage: pairs_runs.py PROGRAM [COUNT] [FIRST]    (so many networks, or 100; program.py takes fewer)

Networks are drawn by their numbers: a ring, now and then with a shared LAN across it, switches that hang on it by one or two links, so that
many a failure alone parts some bridges, of which others may still come apart by two; and some settings, such as VLANs that few links have.
The exit status is 1 where an answer differs.
"""

import concurrent.futures
import itertools
import os
import sys

# nothing is to be left beside what is imported
sys.dont_write_bytecode = True

import sketch  # noqa: E402

COUNT = 100
IN_THE_GATE = 6
RING, HUNG = "ABCDE", "PQR"


# ---- networks


class Cables:
    """The lines that make bridges and the cables between them, each bridge's ports in the order of its cables."""

    def __init__(self):
        self.lines, self.ports, self.lans = [], {}, 0

    def add_bridge(self, name):
        self.ports[name] = 0
        self.lines += [f"addbridge {name} 02:00:00:00:00:{len(self.ports):02x}", f"setmstconfid {name} 1 area", f"setvid2mstid {name} 1 1-9"]

    def join(self, *bridges, key=0):
        """A LAN with a port of each of these bridges."""
        self.lans += 1
        self.lines.append(f"addlan L{self.lans}")
        for bridge in bridges:
            self.ports[bridge] += 1
            port = f"{bridge} {self.ports[bridge]}"
            self.lines += [f"addport {port}", f"plug {port} L{self.lans}"] + [f"setkey {port} {key}"] * bool(key)


def hang(draws, cables, name):
    """A switch on one link, on two that count as one, or on two to whichever bridges."""
    others, form = list(cables.ports), draws.below(4)
    first = draws.one_of(others)
    cables.add_bridge(name)
    for other in ([first], [first], [first, first], [first, draws.one_of(others)])[form]:
        cables.join(name, other, key=int(form == 2))


def setting(draws, cables):
    """A line that says on which links a VLAN is or how trees run, or that takes something out."""
    bridge = draws.one_of(list(cables.ports))
    port = draws.below(cables.ports[bridge]) + 1
    forms = [
        f"setportvlans {bridge} {port} {draws.one_of(['all', 'none', '1-4', '5-12', '1-9,20', '5-4094'])}",
        f"setportvlans {bridge} {port} {draws.one_of(['1-4', '5-12', '5-4094'])}",
        f"settreeprio {bridge} {draws.below(2)} {draws.below(16)}",
        f"settreeportcost {bridge} {port} 1 {draws.below(3) + 1}0000",
        f"setportrestrrole {bridge} {port} yes",
        f"kind {bridge} rstp",
        f"setmstconfid {bridge} 1 lab",
        draws.one_of([f"bridge {bridge} off", f"lan L{draws.below(cables.lans) + 1} down", "no such line"]),
    ]
    return draws.one_of(forms)


def drawn(number):
    """A ring of three to five bridges with what hangs on it."""
    draws, cables = sketch.Draws(number + 10**6), Cables()
    ring = RING[: 3 + draws.below(3)]
    for name in ring:
        cables.add_bridge(name)
    for one, other in zip(ring, ring[1:] + ring[0]):
        cables.join(one, other)
    for _ in range(draws.below(2)):
        cables.join(*sorted({draws.one_of(ring) for _ in range(3)}))
    for name in HUNG[: draws.below(len(HUNG) + 1)]:
        hang(draws, cables, name)
    return cables.lines + [setting(draws, cables) for _ in range(draws.below(7))]


# ---- what is told of them


def faults_of(program, number):
    script = drawn(number)
    return sketch.pairs(program, number, script, sketch.text_of(program, script), sketch.refused(program, script))


def check(program, count, first=0):
    """What differs, of so many networks."""
    with concurrent.futures.ThreadPoolExecutor(os.cpu_count()) as pool:
        found = pool.map(lambda number: faults_of(program, number), range(first, first + count))
        return list(itertools.chain.from_iterable(found))


def checks(program, _folder):
    """Whether pairs of failures of drawn networks do what the texts say. Those worked by hand are in texts/pairs.txt."""
    faults = check(program, IN_THE_GATE)
    print("".join(f"{it}\n" for it in faults), end="")
    return [not faults]


if __name__ == "__main__":
    sketch.check_drawn(check, COUNT, "networks: as the texts say", __doc__)
