#!/usr/bin/env python3
"""First policies (tools/promises.py), for tools.py: `verify` has each kept in whole, none is long, and a change that cuts breaks it.

usage: promises_runs.py PROGRAM [COUNT] [FIRST]    (so many networks, or 200; tools.py takes fewer)

Networks are drawn by their numbers; beside them there is a campus of 50 switches, of which two links of a switch then go down. The exit
status is 1 where something differs.
"""

import concurrent.futures
import itertools
import os
import subprocess
import sys

TOP = os.path.join(os.path.dirname(os.path.abspath(__file__)), os.pardir)
PROMISES = os.path.join(TOP, "tools", "promises.py")
# nothing is to be left beside what is imported
sys.dont_write_bytecode = True
sys.path += [os.path.join(TOP, "tools"), os.path.join(TOP, "bench")]

import campus  # noqa: E402
import mstplan  # noqa: E402
import sketch  # noqa: E402

COUNT, IN_THE_GATE, MOST_LINES = 200, 40, 60


def made(path, script, *words):
    """What the tool prints of a script by standard input, what it tells, and its status."""
    ran = subprocess.run([sys.executable, PROMISES, path, "-", *words], input=script, capture_output=True, check=False)
    return ran.stdout, ran.stderr.decode(), ran.returncode


def faults_of_script(path, what, script, *words):
    """What is wrong with the policy of a script."""
    program = mstplan.Program(path)
    policy, told, status = made(path, script, *words)
    _, refused = program.saved(script)
    if status != (1 if refused else 0) or not policy:
        return [f"{what}: status {status}, {told}"]
    *broken, last = program.records("verify", script, policy)
    lines = [it for it in policy.decode().splitlines() if not it.startswith("#")]
    faults = [f"{what}: {broken[:2]} of {last}"] if broken or last["hold_count"] != len(lines) else []
    return faults + ([f"{what}: {policy.count(10)} lines"] if not words and policy.count(10) >= MOST_LINES else [])


def faults_of_campus(path):
    """What is wrong with the policy of a campus of 50 switches, as it is, with all lines, and judged after a change."""
    program, script = mstplan.Program(path), ("\n".join(campus.campus(4, 10)) + "\n").encode()
    faults = faults_of_script(path, "campus", script) + faults_of_script(path, "campus", script, "--trees", "9", "--vlans", "99", "--links", "99")
    policy, _, _ = made(path, script)
    # each access switch has a VLAN of its own, which is of more sets of bridges than have lines
    faults += [] if b"\nalways together 1-4094 *\n" in policy else ["campus: nothing stays together"]
    for edits in (b"lan d0a-a0.0 down\nlan d0b-a0.0 down\n", b"settreeprio c2 0 0\n", b"setportvlans c1 2 1-9\n", b"setportvlans a3.7 2 1,10-13\n"):
        *broken, _ = program.records("verify", script + edits, policy)
        faults += [] if broken else [f"campus: {edits} breaks no promise"]
    return faults


def check(path, count, first=0):
    """What is wrong, of so many networks."""
    with concurrent.futures.ThreadPoolExecutor(os.cpu_count()) as pool:
        found = pool.map(lambda number: faults_of_script(path, f"network {number}", "\n".join([*sketch.drawn(number), ""]).encode()), range(first, first + count))
        return list(itertools.chain.from_iterable(found))


if __name__ == "__main__":
    sketch.check_drawn(check, COUNT, "networks: their policies are kept", __doc__)
