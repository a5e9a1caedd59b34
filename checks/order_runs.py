#!/usr/bin/env python3
"""Orders of changes (tools/order.py), for tools.py: the order that it finds is the least of all orders, by what `steps` says of each.

usage: order_runs.py PROGRAM [COUNT] [FIRST]    (so many networks, or 200; tools.py takes fewer)

Networks, changes of 2 to 4 steps and policies are drawn by their numbers; a policy is of lines that hold now, and of some that don't, of the
end or of what stays together. A third of the changes are the edits to another network, each a step of its own; in another third cables come, go,
move and get other names, with a step for each bridge and each LAN. The exit status is 1 where something differs.
"""

import concurrent.futures
import contextlib
import itertools
import os
import re
import subprocess
import sys

TOP = os.path.join(os.path.dirname(os.path.abspath(__file__)), os.pardir)
ORDER = os.path.join(TOP, "tools", "order.py")
# nothing is to be left beside what is imported
sys.dont_write_bytecode = True
sys.path.append(os.path.join(TOP, "tools"))

import mstplan  # noqa: E402
import sketch  # noqa: E402
import verify_runs  # noqa: E402

COUNT, IN_THE_GATE, MOST_PARTS = 200, 24, 4
OF_LANS = ("addlan", "dellan", "lan", "speed")
RISKS = ["risk hall bridge A,B", "risk duct lan L1", "after risk * reach 1-20 *"]
TOGETHER = ["together 1-20 *", "together 1-4094 A,B,C", "always together 1-4094 *", "finally together 1-20 *"]
ORDERED = re.compile(r"^# steps ([0-9,]+|-)(?:, of which ([0-9]+) break the policy)?$", re.MULTILINE)


def policy_of(program, script, draws):
    """A few lines that hold in the network of a script, and sometimes one of another kind."""
    text = sketch.text_of(program.path, script)
    judged = verify_runs.Judged(text, text)
    every = verify_runs.lines_of(judged)
    kept = [line for line in every if not verify_runs.reasons(judged, line)]
    if not kept:
        return []
    broken = [line for line in every if line not in kept]
    others = [draws.one_of(broken or kept), f"finally {draws.one_of(every)}", "together 1-20 *", "always together 1-4094 *", "root 0", "region Z", "# nothing"]
    return [draws.one_of(kept), draws.one_of(kept), *[draws.one_of(others)] * draws.below(2), *RISKS * (draws.below(3) == 0)]


def edit(draws):
    """A line of a change. Some need another one before them."""
    bridge = draws.one_of("ABCD")
    needing = [f"addport {bridge} 20", f"plug {bridge} 20 L1", "addlan N", f"plug {bridge} 20 N", f"unplug {bridge} 1", f"plug {bridge} 1 L0"]
    return draws.one_of(needing) if draws.below(3) == 0 else sketch.settings(draws, "ABCD")


def change_of(draws):
    """Steps, each a list of lines, without one that is no edit."""
    steps = [[line for line in (edit(draws) for _ in range(1 + draws.below(2))) if not line.startswith(("show", "mark"))] for _ in range(2 + draws.below(3))]
    return [step for step in steps if step]


def of_cable(draws, network, count):
    """Edits of one cable: it gets another name, moves to another LAN, comes or goes. `count` tells new LANs and ports apart."""
    words = [line.decode().split() for line in mstplan.lines_in(network)]
    bridges, lans, plugs = ([it[1:] for it in words if it[:1] == [word]] for word in ("addbridge", "addlan", "plug"))
    (bridge, port, lan), new = draws.one_of(plugs), f"N{count}"
    ends = [it[:2] for it in plugs if it[2] == lan]
    gone = [*(f"unplug {' '.join(it)}" for it in ends), f"dellan {lan}"]
    fresh = [f"{draws.one_of(bridges)[0]} {number}" for number in (20 + 2 * count, 21 + 2 * count)]
    return draws.one_of([
        [*gone, f"addlan {new}", *(f"plug {' '.join(it)} {new}" for it in ends)],
        [f"unplug {bridge} {port}", f"plug {bridge} {port} {draws.one_of(lans)[0]}"],
        [f"addlan {new}", *(f"{word} {it}{end}" for it in fresh for word, end in (("addport", ""), ("plug", f" {new}")))],
        gone,
    ])


def parts_of(edits):
    """The lines of edits by what they are of, a bridge or a LAN, in the order in which these come."""
    parts = {}
    for line in edits:
        word, name = line.split()[:2]
        parts.setdefault((word in OF_LANS, name), []).append(line)
    return list(parts.values())


def cabled(program, network, draws):
    """A network in which up to three cables are others, so that all orders of its parts can be tried, and the edits to it by their parts."""
    found = network, []
    for count in range(1 + draws.below(3)):
        if b"\nplug " in found[0]:
            new = behind(program, found[0], of_cable(draws, found[0], count))
            parts = parts_of(edits_between(program, network, new))
            found = (new, parts) if len(parts) <= MOST_PARTS else found
    return found


def edits_between(program, old, new):
    return [mstplan.line_of(it) for it in program.records("edits", old, new)[1:]]


def text_of(steps, is_second):
    return ("\n\n".join(["mstplan 2"] * is_second + ["\n".join(step) for step in steps]) + "\n").encode()


def behind(program, script, edits):
    """The network that a script leaves with edits behind it, without lines that are refused."""
    return program.saved(script + "\n".join([*edits, ""]).encode())[0]


class Tried:
    """What `steps` says of each order of a change: the least number of failing steps, the least order that has so few, and whether all is kept
    in the end."""

    def __init__(self, program, network, steps, policy, wanted):
        self.program, self.network, self.steps, self.policy, self.is_second = program, network, steps, policy, wanted is not None
        given = self.tried(range(len(steps)))
        self.wanted = wanted or (given[1] if given else None)
        self.orders = {order: self.tried(order) for order in itertools.permutations(range(len(steps)))}

    def tried(self, order):
        """How many steps of an order fail, the network that it ends in, and how many lines aren't kept there; None where a line is refused."""
        change = text_of([self.steps[at] for at in order], self.is_second)
        records = self.program.records("steps", self.network, change, self.policy)
        if any(it["kind"] == "change" for it in records):
            return None
        edits = [mstplan.edit_in(line, not self.is_second) for line in mstplan.lines_in(change)]
        return records[-1]["failing_count"], behind(self.program, self.network, [it for it in edits if it]), records[-1]["unkept_count"]

    def least(self):
        """((how many steps fail, the order by the steps' numbers), whether all is kept in the end), or (None, False)."""
        found = [(told[0], order, told[2]) for order, told in self.orders.items() if told and self.wanted in (None, told[1])]
        orders = [((failing, ",".join(str(at + 1) for at in order) or "-"), not unkept) for failing, order, unkept in found]
        return min(orders, default=(None, False))


def run(program, network, change, policy, *flags):
    """The order that the tool tells and how many steps fail, or None; and its status."""
    with contextlib.ExitStack() as paths:
        script, other, promises = (paths.enter_context(mstplan.written(it)) for it in (network, change, policy))
        files = ["--edits", other, promises] if "--by" in flags else [other, promises]
        ran = subprocess.run([sys.executable, ORDER, *flags, program.path, script, *files], capture_output=True, check=False)
    printed = ran.stdout.decode()
    found = ORDERED.search(printed)
    if ran.returncode not in (0, 1) or not found and not printed.startswith("none\n"):
        return f"status {ran.returncode}, {printed}, {ran.stderr.decode()}", None
    return (int(found[2] or 0), found[1]) if found else None, ran.returncode


def faults_of_change(program, what, network, steps, policy, wanted, by="line"):
    """What differs of one change, or of the edits to a network that is wanted: each a step of its own, or those of each bridge and LAN."""
    least, is_kept = Tried(program, network, steps, policy, wanted).least()
    kept = least if least and not least[0] else None
    is_read = b"root 0\n" not in policy
    given, flags = (text_of(steps, False), []) if wanted is None else (wanted, ["--by", by])
    faults = []
    for words, expected in ((flags, kept), ([*flags, "--fewest"], least)):
        status = 0 if expected and not expected[0] and is_kept and is_read else 1
        told = run(program, network, given, policy, *words)
        faults += [] if told == (expected, status) else [f"{what} {words}: {told} in place of {expected}, {status}"]
    return faults


def faults_of(path, number):
    program, draws, script = mstplan.Program(path), sketch.Draws(number + 10**6), sketch.drawn(number)
    network, _ = program.saved("\n".join([*script, ""]).encode())
    lines, what = policy_of(program, script, draws), f"network {number}"
    if number % 3 == 2:
        wanted, steps = cabled(program, network, draws)
        policy = "\n".join([*lines, draws.one_of(TOGETHER), ""]).encode()
        return faults_of_change(program, what, network, steps, policy, wanted, "part")
    steps, policy, wanted = change_of(draws), "\n".join([*lines, ""]).encode(), None
    if number % 3:
        new = behind(program, "\n".join([*script, ""]).encode(), [line for step in steps for line in step])
        # so many that all their orders can be tried
        wanted = behind(program, network, edits_between(program, network, new)[:4])
        steps = [[it] for it in edits_between(program, network, wanted)]
    return faults_of_change(program, what, network, steps, policy, wanted)


def check(path, count, first=0):
    """What differs, of so many networks."""
    with concurrent.futures.ThreadPoolExecutor(os.cpu_count()) as pool:
        found = pool.map(lambda number: faults_of(path, number), range(first, first + count))
        return list(itertools.chain.from_iterable(found))


if __name__ == "__main__":
    sketch.check_drawn(check, COUNT, "networks: the least orders", __doc__)
