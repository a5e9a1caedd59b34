#!/usr/bin/env python3
"""Paths between two bridges (`mstplan path FILE VID A B`), for program.py: what is told of each is what a breadth-first search over the active
member ports finds, as the texts of `run` have them, of the network and of it after each single failure; and `verify` says the same of who
reaches whom.

usage: path_runs.py PROGRAM [COUNT] [FIRST]    (so many networks, or 100; program.py takes fewer)

Networks are drawn by their numbers, those of sketch.py and those of pairs_runs.py in turns: with LANs of three bridges, links that count as
one, VLANs that few ports have, and roles that are restricted, so that there may be several paths. The exit status is 1 where an answer
differs.
"""

import concurrent.futures
import itertools
import os
import sys
import tempfile

# nothing is to be left beside what is imported
sys.dont_write_bytecode = True

import pairs_runs  # noqa: E402
import sketch  # noqa: E402

COUNT = 100
IN_THE_GATE = 8
VIDS = (1, 3, 7, 12, 25, 4094)
NOBODY = "nobody"


# ---- the path of a text


def by_name(word):
    """The bridge and the number of a port."""
    bridge, number = word.rsplit(":", 1)
    return bridge, int(number)


def steps_of(text, vid):
    """Of each bridge the hops from it: the port where it arrives, the port where it leaves, and the logical LAN."""
    ports = [by_name(word) for word in text.active[vid] if not word.startswith("[") and word != "-"]
    on, steps = {}, {}
    for port in ports:
        on.setdefault(text.trees[0].ports[port]["lan"], []).append(port)
    for lan, (one, other) in ((lan, pair) for lan, those in on.items() for pair in itertools.permutations(those, 2)):
        if one[0] != other[0]:
            steps.setdefault(one[0], []).append((other, one, lan))
    return steps


def path(text, vid, first, last, off):
    """The hops from one bridge to another, or None: the fewest, and of these the first by where each arrives, and then by where it leaves."""
    if {first, last} & off:
        return None
    steps, met, found = steps_of(text, vid), {first}, {first: []}
    while found and last not in found:
        further = {}
        for bridge, hops in found.items():
            for step in steps.get(bridge, []):
                if step[0][0] not in met:
                    further.setdefault(step[0][0], []).append([*hops, step])
        found = {bridge: min(those) for bridge, those in further.items()}
        met.update(found)
    return found.get(last)


def lines_of(vid, first, last, hops):
    if hops is None:
        return [f"path {vid} {first} {last} none"]
    told = [f"hop {k} {sketch.at(one)} {lan} {sketch.at(other)}" for k, (other, one, lan) in enumerate(hops, 1)]
    return [f"path {vid} {first} {last} hops {len(hops)}", *told]


def fate(name, first, hops):
    """What is told of a failure after which the path is another one, or there is none."""
    if hops is None:
        return f"{name} none"
    return f"{name} hops {len(hops)} by {','.join([first, *(other[0] for other, _, _ in hops)])}"


class Drawn:
    """A network that a script leaves, as its text has it."""

    def __init__(self, program, script):
        self.program, self.script = program, script
        self.text, self.refused = sketch.text_of(program, script), sketch.refused(program, script)
        self.bridges, lans, self.off, down, _ = sketch.states_of(self.text.saved)
        self.failures = [f"lan {it}" for it in lans if it not in down] + [f"bridge {it}" for it in self.bridges if it not in self.off]

    def path(self, vid, first, last):
        return path(self.text, vid, first, last, self.off)

    def failed(self, failure):
        line = f"{failure} {'down' if failure.startswith('lan ') else 'off'}"
        return Drawn(self.program, [*self.script, line])

    def always(self, vid, first, last):
        """The lines behind those of the path, and whether there is a path now and after each failure."""
        now, told = self.path(vid, first, last), []
        looked_at = [it for it in self.failures if it not in (f"bridge {first}", f"bridge {last}")]
        for failure in looked_at:
            then = self.failed(failure).path(vid, first, last)
            told += [fate(failure, first, then)] * (then != now)
        nones = sum(1 for it in told if it.endswith(" none"))
        return [*told, f"path failures {len(looked_at)} other {len(told) - nones} none {nones}"], now is not None and not nones


# ---- what is told of drawn networks


def asked(network, vid):
    """All pairs of bridges, by `ask`: what differs."""
    pairs = list(itertools.product(network.bridges, repeat=2))
    wanted = [line for pair in pairs for line in [*lines_of(vid, *pair, network.path(vid, *pair)), f"done {int(network.path(vid, *pair) is None)}"]]
    with tempfile.TemporaryDirectory() as folder:
        script = os.path.join(folder, "script")
        with open(script, "w", encoding="ascii") as file:
            file.write("\n".join([*network.script, ""]))
        printed = sketch.run(network.program, ["ask", script], [f"path {vid} {one} {other}" for one, other in pairs])[0].splitlines()
    told = printed[len(network.refused) + 1 :]
    shown = [f"{one!r} in place of {other!r}" for one, other in itertools.zip_longest(told, wanted) if one != other]
    return ["\n".join([f"ask, VLAN {vid}:", *shown[:3], "of", *network.script])] if shown else []


def reaches(network, vid, first, last):
    """Whether `verify` says that two bridges are joined in the network and after each failure."""
    with tempfile.TemporaryDirectory() as folder:
        policy = os.path.join(folder, "policy")
        with open(policy, "w", encoding="ascii") as file:
            file.write(f"always reach {vid} {first},{last}\n")
        return sketch.run(network.program, ["verify", "-", policy], network.script)[0].splitlines()[-1].endswith(" hold 1")


def told_always(network, vid, first, last):
    """A path and what becomes of it: what differs."""
    behind, stays = network.always(vid, first, last)
    wanted = [*network.refused, *lines_of(vid, first, last, network.path(vid, first, last)), *behind]
    words = ["path", "-", str(vid), first, last, "always"]
    faults = sketch.differing(network.program, words, network.script, wanted, 1 if network.refused or not stays else 0)
    if first != last and reaches(network, vid, first, last) != stays:
        faults.append("\n".join([f"{words}: verify says otherwise", *network.script]))
    return faults


def refusals(network, first):
    """What can't be asked: the fault of a name comes before that of a VLAN, and a bridge that isn't there last."""
    cases = [
        (["1", "no/name", first], "E02 bad argument"),
        (["0", first, "no/name"], "E02 bad argument"),
        (["4095", first, NOBODY], "E03 bad VID or tree"),
        (["x", first, first], "E03 bad VID or tree"),
        (["1", first, NOBODY], "E04 no such bridge"),
        (["1", NOBODY, first, "always"], "E04 no such bridge"),
    ]
    faults = []
    for words, told in cases:
        faults += sketch.differing(network.program, ["path", "-", *words], network.script, [*network.refused, f"path {told}"], 1)
    return faults


def drawn(number):
    return sketch.drawn(number // 2) if number % 2 else pairs_runs.drawn(number // 2)


def faults_of(program, number):
    draws, network = sketch.Draws(number + 3 * 10**6), Drawn(program, drawn(number))
    if not network.bridges:
        return []
    faults = [fault for vid in VIDS for fault in asked(network, vid)] + refusals(network, network.bridges[0])
    for _ in range(2):
        faults += told_always(network, draws.one_of(VIDS), draws.one_of(network.bridges), draws.one_of(network.bridges))
    return [f"network {number}: {it}" for it in faults]


def check(program, count, first=0):
    """What differs, of so many networks."""
    with concurrent.futures.ThreadPoolExecutor(os.cpu_count()) as pool:
        found = pool.map(lambda number: faults_of(program, number), range(first, first + count))
        return list(itertools.chain.from_iterable(found))


def checks(program, _folder):
    """Whether paths of drawn networks are those that the texts give. Those worked by hand are in texts/paths.txt."""
    faults = check(program, IN_THE_GATE)
    print("".join(f"{it}\n" for it in faults), end="")
    return [not faults]


if __name__ == "__main__":
    sketch.check_drawn(check, COUNT, "networks: the paths that their texts give", __doc__)
