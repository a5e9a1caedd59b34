#!/usr/bin/env python3
"""Tries the tools that search and translate beside the program, on drawn networks: order.py against all orders of small changes, night.py by other words of the
program, promises.py
by `verify`, export.py by what importers read again, ci.py by what `verify` prints, lacking.py by what it says of single items, parallel.py by
what one process prints, colour.py by the same without colours; and what each prints of the samples and of wrong words.

usage: tools.py PROGRAM

Each of order_runs.py, night_runs.py, promises_runs.py, export_runs.py, ci_runs.py, lacking_runs.py, parallel_runs.py and colour_runs.py can be called alone
for more networks. It takes about a minute and a half of a processor. The exit status is 1 where something differs.
"""

import concurrent.futures
import contextlib
import itertools
import os
import subprocess
import sys
import time

# nothing is to be left beside what is imported
sys.dont_write_bytecode = True

import ci_runs  # noqa: E402
import colour_runs  # noqa: E402
import export_runs  # noqa: E402
import lacking_runs  # noqa: E402
import mstplan  # noqa: E402
import night_runs  # noqa: E402
import order_runs  # noqa: E402
import parallel_runs  # noqa: E402
import promises_runs  # noqa: E402

TOP = os.path.join(os.path.dirname(os.path.abspath(__file__)), os.pardir)
CAMPUS, CHANGED, CHANGE, WORSE, KEEP, POLICY = (
    os.path.join(TOP, "examples", it) for it in ("campus.script", "campus-changed.script", "campus.change", "worse.change", "keep.policy", "campus.policy"))
NONE, ABSENT = os.devnull, "/nonexistent/file"
# Of each tool words behind PROGRAM (but of ci.py, which has none), how it ends, and what it prints.
CASES = [
    ("order.py", [CAMPUS, CHANGE, KEEP], 0, "# steps 1,2,3,4"),
    ("order.py", [CAMPUS, "--fewest", CHANGE, KEEP], 0, "# steps 1,2,3,4"),
    ("order.py", [CAMPUS, CHANGE, NONE], 0, "# steps 1,2,3,4"),
    ("order.py", [CAMPUS, NONE, KEEP], 0, "# steps -"),
    ("order.py", [CAMPUS, "-", KEEP], 0, "# steps -"),
    ("order.py", [CAMPUS, WORSE, KEEP], 1, "nowhere 3 lines 6-8 behind 1,2 refused settreeprio core9 0 0: E04 no such bridge"),
    ("order.py", [CAMPUS, KEEP, KEEP], 1, "nowhere line 1 E01 no such command"),
    ("order.py", [CAMPUS, "--edits", CHANGED, KEEP], 1, "end fails 2 now root 0 core2 of 6"),
    ("order.py", [CAMPUS, "--edits", CHANGED, NONE], 0, "# steps 1,2,3"),
    ("order.py", [CAMPUS, "--edits", CHANGED, "--fewest", KEEP], 1, "# steps 1,2,3, of which 1 break the policy"),
    ("order.py", [CHANGED, "--edits", CAMPUS, POLICY], 0, "# steps 1,2,3"),
    ("order.py", [CAMPUS, CHANGE, KEEP, "--most", "2"], 3, ""),
    ("order.py", [CAMPUS, CHANGE], 2, ""),
    ("order.py", [CAMPUS, CHANGE, ABSENT], 3, ""),
    ("order.py", ["-", "-", KEEP], 3, ""),
    ("night.py", [CAMPUS, CHANGE], 0, "  risk bridge dist2 cuts 1-4094 off acc1 acc2"),
    ("night.py", [CAMPUS, CHANGE], 0, "  turns 0,1 acc1"),
    ("night.py", [CAMPUS, WORSE, KEEP], 1, "  breaks 2 now root 0 core2 of 6"),
    ("night.py", [CAMPUS, CHANGE, "--to", "cisco", "--interface", "Gi1/0/{port}"], 0, "  type  spanning-tree mst 0 cost 200000"),
    ("night.py", [CAMPUS, CHANGE, "--to", "junos"], 2, ""),
    ("night.py", [CAMPUS, NONE], 0, ""),
    ("night.py", [CAMPUS], 2, ""),
    ("night.py", [CAMPUS, ABSENT], 3, ""),
    ("night.py", ["-", "-"], 3, ""),
    ("promises.py", [CAMPUS], 0, "always reach 1-4094 *"),
    ("promises.py", [CAMPUS, "--trees", "1"], 0, "# 2 more trees have no lines of their own: --trees 3 has them"),
    ("promises.py", [CHANGE], 1, ""),
    ("promises.py", [CAMPUS, "--links", "some"], 2, ""),
    ("promises.py", [ABSENT], 3, ""),
    ("export.py", [CAMPUS, CHANGED, "--to", "cisco", "--interface", "Gi1/0/{port}"], 0, "spanning-tree mst 0 priority 8192"),
    ("export.py", [CAMPUS, CHANGED, "--to", "arista", "--interface", "Ethernet{port}"], 0, "spanning-tree mst 0 priority 8192"),
    ("export.py", [CAMPUS, CHANGED, "--to", "cisco"], 1, "! by hand: line 2 setportvlans acc2 2 10,20: no interface's name is known for acc2:2; --interface or --names tells it"),
    ("export.py", [CAMPUS, CHANGED, "--to", "mstpctl,iproute2", "--interface", "{bridge}.{port}"], 0, "bridge vlan del dev acc2.2 vid 11-19"),
    ("export.py", [CAMPUS, CHANGED, "--to", "iproute2", "--interface", "{bridge}.{port}"], 1, "# by hand: line 3 settreeprio core1 0 8192: there is no such command"),
    ("export.py", [CAMPUS, "--change", CHANGE, "--to", "cisco", "--interface", "Gi1/0/{port}"], 1, "! step 1 lines 2-2"),
    ("export.py", [CAMPUS, CAMPUS, "--to", "ovs"], 0, ""),
    ("export.py", [CAMPUS, "--to", "ovs"], 2, ""),
    ("export.py", [CAMPUS, CHANGED, "--to", "junos"], 2, ""),
    ("export.py", [CAMPUS, CHANGED, "--to", "cisco,ovs"], 2, ""),
    ("export.py", [CAMPUS, CHANGED, "--to", "ovs", "--interface", "{it}"], 2, ""),
    ("export.py", [CAMPUS, ABSENT, "--to", "ovs"], 3, ""),
    ("lacking.py", [], 0, ""),
    ("lacking.py", ["verify", CAMPUS], 2, ""),
    ("lacking.py", ["verify", CAMPUS, ABSENT], 3, ""),
    ("lacking.py", ["verify", "-", NONE], 1, "policy 0 E17 nothing to judge"),
    ("lacking.py", ["steps", CAMPUS, "-", "-"], 1, "policy 0 E17 nothing to judge"),
    ("lacking.py", ["explain", "--json", "--hints", "--", CAMPUS, "core9", "1"], 1, '{"query":"explain","error":"E04","text":"no such bridge"}'),
    ("lacking.py", ["summary", CAMPUS], 0, "blocked 2 dist1:1,dist2:1"),
    ("parallel.py", [], 0, ""),
    ("parallel.py", ["-j", "2", "sweep", CAMPUS, "pairs"], 1, "sweep pairs 120 cuts 7"),
    ("parallel.py", ["verify", CAMPUS, POLICY], 0, "verify expectations 16 hold 16"),
    ("parallel.py", ["--json", "summary", CAMPUS, "--", ABSENT], 2, ""),
    ("parallel.py", ["-j", "x", "sweep", CAMPUS], 2, ""),
    ("ci.py", [NONE, POLICY], 3, ""),
    ("ci.py", [NONE], 2, ""),
]


def faults_of_case(program, tool, words, status, line):
    """What is wrong with one call: its status, the line that it is to print, and that only one which fails may print nothing."""
    path = os.path.join(TOP, "tools", tool)
    programs = [] if tool == "ci.py" else [program]
    ran = subprocess.run([sys.executable, path, *programs, *words], input=b"", capture_output=True, check=False)
    printed = ran.stdout.decode().splitlines()
    if ran.returncode == status and (not line or line in printed) and b"Traceback" not in ran.stderr and (status < 2 or not printed and ran.stderr):
        return []
    return [f"{tool} {' '.join(words)}: status {ran.returncode}, {printed[:8]}, {ran.stderr[-300:]}"]


def faults_of_cases(program):
    """What is wrong with all of them, with a program that isn't there, and with the pages."""
    absent = [("order.py", [CAMPUS, CHANGE, KEEP]), ("night.py", [CAMPUS, CHANGE]), ("promises.py", [CAMPUS]), ("export.py", [CAMPUS, CHANGED, "--to", "ovs"])]
    absent += [("lacking.py", ["verify", CAMPUS, KEEP]), ("lacking.py", ["summary", CAMPUS])]
    absent += [("parallel.py", ["verify", CAMPUS, KEEP]), ("parallel.py", ["sweep", CAMPUS]), ("parallel.py", ["summary", CAMPUS])]
    calls = [(program, *it) for it in CASES] + [(ABSENT, tool, words, 3, "") for tool, words in absent]
    calls += [(program, tool, ["--help"], 0, "") for tool in ("order.py", "night.py", "promises.py", "export.py", "ci.py", "lacking.py", "parallel.py", "colour.py")]
    with concurrent.futures.ThreadPoolExecutor(os.cpu_count()) as pool:
        return list(itertools.chain.from_iterable(pool.map(lambda it: faults_of_case(*it), calls)))


# What lines of the campus call some ports, and one that gives a port another role; of each tool files and words, how it ends, and lines that it
# prints or tells.
CALLED = "# port acc1 1 is Gi1/0/1\n# port core1 1 is Te1/0/1\n#port core1 2 is Te1/0/2 of Po1\n# port acc2 2 is Gi1/0/2\n# port acc1 9 is Gi1/0/9\n"
CHEAPER = "setportpathcost acc2 2 1\n"
NAMED = [
    ("lacking.py", ["verify", "FILE", "POLICY"], 1, ["policy line 1 core1:2 (Te1/0/2 of Po1) is a member of core1:1 (Te1/0/1)", "policy line 2 no port acc1:9 (Gi1/0/9)"]),
    ("lacking.py", ["explain", "FILE", "acc1", "gi1/0/1"], 1, ["explain B P: gi1/0/1 is acc1:1"]),
    ("lacking.py", ["steps", "FILE", "CHANGE"], 1, ["change line 5 no port acc1:9 (Gi1/0/9)"]),
    ("order.py", ["FILE", "COSTS", "WHOLE"], 0, ["# port acc1 1 is Gi1/0/1", "setportpathcost acc1 1 200000"]),
    ("order.py", ["FILE", "CHANGE", "ROLES"], 1, [
        "order.py: the network doesn't keep the policy before the change: fails 1 now role 0 acc2:2 (Gi1/0/2) Alternate",
        "nowhere 2 lines 4-5 behind 1 refused unplug acc1 9 (acc1:9 is Gi1/0/9): E05 no such port"]),
    ("export.py", ["FILE", "--change", "CHANGE", "--to", "cisco"], 1, ["! by hand: line 4 unplug acc1 1 (acc1:1 is Gi1/0/1): a cable at this port"]),
    ("ci.py", ["TOLD", "ROLES", "--script", "FILE"], 1, ["    now role 0 acc2:2 (Gi1/0/2) Alternate"]),
    ("ci.py", ["TOLD", "ROLES", "--script", "FILE", "--junit", "-"], 1, [
        '      <failure type="not kept" message="now role 0 acc2:2 (Gi1/0/2) Alternate">now role 0 acc2:2 (Gi1/0/2) Alternate</failure>']),
    ("ci.py", ["TOLD", "ROLES", "--script", ABSENT], 1, ["    now role 0 acc2:2 Alternate"]),
    ("ci.py", ["FILE", "ROLES", "--run", "PROGRAM", "--script", ABSENT, "--markdown", "-"], 1, [
        "| script&#58;1 | role 0 acc2&#58;2 Designated |  | now role 0 acc2&#58;2 (Gi1/0/2) Alternate |"]),
    ("ci.py", ["CHEAP", "HOLDS", "--run", "PROGRAM", "--base", "FILE"], 1, [
        "    by script:101: setportpathcost acc2 2 1 (acc2:2 is Gi1/0/2)", "    now role 0 acc2:2 (Gi1/0/2) Root"]),
    ("ci.py", ["CHEAP", "HOLDS", "--run", "PROGRAM", "--base", "FILE", "--junit", "-"], 1, [
        '    <testcase classname="script" name="1: role 0 acc2:2 Alternate" file="HOLDS" line="1">',
        '      <failure type="not kept" message="now role 0 acc2:2 (Gi1/0/2) Root">now role 0 acc2:2 (Gi1/0/2) Root',
        "by script:101: setportpathcost acc2 2 1 (acc2:2 is Gi1/0/2)</failure>"]),
    ("ci.py", ["CHEAP", "HOLDS", "--run", "PROGRAM", "--base", "FILE", "--github"], 1, [
        "::error file=CHEAP,line=101,title=mstplan verify%3A not kept::script:1: role 0 acc2:2 Alternate%0Anow role 0 acc2:2 (Gi1/0/2) Root"]),
    ("ci.py", ["FILE", "LEADS", "--run", "PROGRAM", "--base", "CHEAP"], 1, [
        "    by script:100: setportpathcost acc2 2 1 (acc2:2 is Gi1/0/2) is gone", "    now role 0 acc2:2 (Gi1/0/2) Alternate"]),
    ("ci.py", ["FILE", "HOLDS", "--run", "PROGRAM", "--change", "COST"], 1, ["    behind step 1 now role 0 acc2:2 (Gi1/0/2) Root"]),
]


def faults_of_names(program):
    """What differs where lines of FILE say what ports are called."""
    with open(CAMPUS, encoding="utf-8") as file:
        given = {"FILE": file.read() + CALLED, "POLICY": "role 0 core1:2 Root\nrole 0 acc1:9 Root\n", "WHOLE": "reach 1-4094 *\n",
                 "ROLES": "role 0 acc2:2 Designated\nrole 0 core1:1 Designated\n", "COSTS": "setportvlans dist1 3 10,20\n\nsetportpathcost acc1 1 200000\n",
                 "CHANGE": "\nsetportpathcost acc2 1 200000\n\nunplug acc1 1\nunplug acc1 9\n", "COST": CHEAPER, "HOLDS": "role 0 acc2:2 Alternate\n",
                 "LEADS": "role 0 acc2:2 Root\n"}
        given["CHEAP"] = given["FILE"] + CHEAPER
    faults = []
    with contextlib.ExitStack() as opened:
        paths = {name: opened.enter_context(mstplan.written(text.encode())) for name, text in given.items()}
        told = subprocess.run([program, "verify", "--json", paths["FILE"], paths["ROLES"]], capture_output=True, check=False).stdout
        paths["PROGRAM"], paths["TOLD"] = program, opened.enter_context(mstplan.written(told))
        for tool, words, status, wanted in NAMED:
            called = [sys.executable, os.path.join(TOP, "tools", tool), *([] if tool == "ci.py" else [program]), *(paths.get(it, it) for it in words)]
            ran = subprocess.run(called, capture_output=True, text=True, check=False)
            printed = (ran.stdout + ran.stderr).replace(paths["CHEAP"], "CHEAP").replace(paths["HOLDS"], "HOLDS").splitlines()
            faults += [f"{tool} {' '.join(words)}: {it!r} isn't in {printed}" for it in wanted if it not in printed]
            faults += [f"{tool} {' '.join(words)}: status {ran.returncode}"] * (ran.returncode != status)
    return faults


def main():
    if len(sys.argv) != 2:
        sys.exit(__doc__)
    program, bad = os.path.abspath(sys.argv[1]), 0
    for what, its in (
        ("words", faults_of_cases),
        ("names of ports", faults_of_names),
        *((f"{its.IN_THE_GATE} networks: {name}", lambda program, its=its: its.check(program, its.IN_THE_GATE))
          for name, its in (("order.py", order_runs), ("night.py", night_runs), ("promises.py", promises_runs), ("export.py", export_runs), ("ci.py", ci_runs), ("lacking.py", lacking_runs),
                             ("parallel.py", parallel_runs), ("colour.py", colour_runs))),
        ("a campus of 50 switches: promises.py", promises_runs.faults_of_campus),
        ("samples and no answers: ci.py", ci_runs.faults_of_words),
        ("changes by hand: export.py", export_runs.faults_of_words),
        ("samples: lacking.py", lacking_runs.faults_of_samples),
        ("short words: lacking.py", lacking_runs.faults_of_names),
        ("samples, terminals and words: colour.py", colour_runs.faults_of_cases),
        ("words, files and pipes: parallel.py", parallel_runs.faults_of_words),
        ("terminals, signals and faults: parallel.py", parallel_runs.faults_of_terminal),
        ("long lists: parallel.py", parallel_runs.faults_of_names),
    ):
        began = time.monotonic()
        faults = its(program)
        print("".join(f"{it}\n" for it in faults[:5]) + f"{what}: {len(faults)} faults ({time.monotonic() - began:.0f} s)", flush=True)
        bad += len(faults)
    sys.exit(1 if bad else 0)


if __name__ == "__main__":
    main()
