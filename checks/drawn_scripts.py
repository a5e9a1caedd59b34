#!/usr/bin/env python3
"""Runs drawn scripts of 300 lines, over all commands and the names of 8 bridges and 8 LANs, and checks captures with each.

usage: drawn_scripts.py PROGRAM [COUNT]

With ample memory no line meets want of it: the program ends with status 0 or 1, tells nothing, and prints no E99 and no
B99. What a check prints begins with what the run of its script prints. The scripts are always the same, 1,000 of them or
COUNT. The exit status is 1 where one of them ends otherwise.
"""

import concurrent.futures
import os
import re
import subprocess
import sys

CAPTURES = os.path.join(os.path.dirname(os.path.abspath(__file__)), os.pardir, "examples", "region.captures")
WANTED = re.compile(rb"^(line|capture) \d+ [EB]99 ", re.MULTILINE)
ADDING = [
    "addbridge {bridge} 02:00:00:00:00:{mac:02x}",
    "addport {bridge} {port}",
    "addlan {lan}",
    "plug {bridge} {port} {lan}",
]
OTHERS = [
    "delbridge {bridge}",
    "bridge {bridge} {switch}",
    "kind {bridge} {kind}",
    "delport {bridge} {port}",
    "dellan {lan}",
    "lan {lan} {state}",
    "speed {lan} {speed}",
    "unplug {bridge} {port}",
    "setkey {bridge} {port} {choice}",
    "setsyspri {bridge} {step}",
    "settreeprio {bridge} {tree} {step}",
    "settreeportprio {bridge} {port} {tree} {step}",
    "setportpathcost {bridge} {port} {step}000",
    "settreeportcost {bridge} {port} {tree} {step}000",
    "setmstconfid {bridge} {choice} area",
    "setvid2mstid {bridge} {tree} {vid}-{last}",
    "setmaxhops {bridge} {hops}",
    "setmaxage {bridge} {hops}",
    "setportvlans {bridge} {port} {vlans}",
    "setportrestrrole {bridge} {port} {answer}",
    "showplan",
    "showlag",
    "showregions",
    "shownotes",
    "showtree {tree}",
    "showvlan {vid}",
    "showmstconfid {bridge}",
    "save",
    "digest",
    "mark",
    "changes",
]


class Draws:
    """Numbers that are always the same for one begin."""

    def __init__(self, begin):
        self.state = begin

    def below(self, bound):
        self.state = (self.state * 6364136223846793005 + 1442695040888963407) % 2**64
        return (self.state >> 33) % bound

    def one_of(self, things):
        return things[self.below(len(things))]


def drawn_line(draws):
    """A line; more than a third of them add something or plug it in."""
    bridge, vid = draws.below(8), draws.below(30) + 1
    words = {
        "bridge": "ABCDEFGH"[bridge],
        "mac": bridge + 1,
        "lan": draws.one_of("PQRSTUVW"),
        "port": draws.below(4) + 1,
        "tree": draws.below(4),
        "step": draws.below(16),
        "vid": vid,
        "last": vid + draws.below(20),
        "hops": draws.below(35) + 6,
        "choice": draws.below(2),
        "switch": draws.one_of(["on", "on", "off"]),
        "kind": draws.one_of(["mstp", "mstp", "rstp"]),
        "state": draws.one_of(["up", "up", "down"]),
        "answer": draws.one_of(["no", "no", "yes"]),
        "speed": 10 ** (draws.below(5) + 3),
        "vlans": draws.one_of(["all", "none", "5-20"]),
    }
    form = draws.one_of(ADDING if draws.below(5) < 2 else OTHERS)
    return form.format(**words)


def drawn_script(number):
    """Every other script is of version 2, in which most of the drawn priorities are refused."""
    draws = Draws(number)
    first = "mstplan 2" if number % 2 else "mark"
    return "\n".join([first, *(drawn_line(draws) for _ in range(299)), ""]).encode()


def fault_of(program, number):
    """What is wrong with the runs of the script of this number, or nothing."""
    script = drawn_script(number)
    printed = b""
    for words in (["run", "-"], ["check", "-", CAPTURES]):
        ran = subprocess.run([program, *words], input=script, capture_output=True)
        if ran.returncode not in (0, 1) or ran.stderr:
            return f"{words[0]}: status {ran.returncode}, {ran.stderr}"
        if WANTED.search(ran.stdout):
            return f"{words[0]}: want of memory"
        if not ran.stdout.startswith(printed):
            return "check prints otherwise than run"
        printed = ran.stdout
    return None


def main():
    if len(sys.argv) not in (2, 3):
        sys.exit(__doc__)
    program, count = os.path.abspath(sys.argv[1]), int(sys.argv[2]) if sys.argv[2:] else 1000
    with concurrent.futures.ThreadPoolExecutor(os.cpu_count() or 1) as pool:
        faults = list(pool.map(lambda number: fault_of(program, number), range(count)))
    for number, fault in enumerate(faults):
        if fault:
            print(f"FAULT script {number}: {fault}")
    bad = sum(1 for fault in faults if fault)
    print(f"{count} scripts; {bad} faults")
    sys.exit(1 if bad else 0)


if __name__ == "__main__":
    main()
