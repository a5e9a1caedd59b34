#!/usr/bin/env python3
"""Prints how long what a large network is asked takes: a line each, in milliseconds of user and system time, and the most memory in MB.

usage: table.py PROGRAM [WORD ..]    (only the rows that have one of these words; all if left out)

Each row is run three times, and the least time stands. An edit's row is the time of a script with 20 edits, each with a query behind
it, less that of one without, over 20; a step's that of a change of 4 steps less that of none, over 4. Loading is told by rows of its own,
and is part of the others.

For example: table.py crates/mstplan/out/mstplan largest
"""

import os
import random
import resource
import subprocess
import sys
import tempfile
import zlib

HERE = os.path.dirname(os.path.abspath(__file__))
TIMES, EDITS = 3, 20
CAMPUSES = {50: (4, 10), 98: (8, 10), 200: (11, 16), 1002: (50, 18)}


def made(maker, *words):
    """What a maker beside this file prints."""
    return subprocess.run([sys.executable, os.path.join(HERE, maker), *map(str, words)], capture_output=True, text=True, check=True).stdout


class Bench:
    """The scripts of the rows, each made once, in a folder."""

    def __init__(self, program, folder):
        self.program, self.folder, self.known = program, folder, {}

    def file(self, name, text):
        path = os.path.join(self.folder, f"{zlib.crc32(name.encode()):08x}")
        if not os.path.exists(path):
            with open(path, "w", encoding="utf-8") as file:
                file.write(text() if callable(text) else text)
        return path

    def run(self, *words):
        """The least milliseconds of a run, and its most memory in MB."""
        if words not in self.known:
            times, memory = [], 0
            for _ in range(TIMES):
                child = subprocess.Popen([self.program, *words], stdout=subprocess.DEVNULL, stderr=subprocess.DEVNULL)
                _, _, used = os.wait4(child.pid, 0)
                child.returncode = 0
                times.append(1000 * (used.ru_utime + used.ru_stime))
                memory = max(memory, used.ru_maxrss / 1000)
            self.known[words] = min(times), memory
        return self.known[words]

    def campus(self, switches):
        return self.file(f"campus{switches}", lambda: made("campus.py", *CAMPUSES[switches]))

    def region(self, *queries):
        name = "region " + " ".join(queries)
        return self.file(name, lambda: made("region.py", 1, *queries))


def edit_of(kind, place, draw):
    """An edit of the largest network."""
    bridge, port, tree = f"B{draw.randrange(1024):04}", draw.randrange(1, 17), 1 + place % 64
    return {
        "cost": f"setportpathcost {bridge} {port} {1000 + place}",
        "cost in a tree": f"settreeportcost {bridge} {port} {tree} {1000 + place}",
        "priority in a tree": f"settreeprio {bridge} {tree} {1 + place % 8}",
        "root": f"settreeprio {bridge} 0 {7 - place % 7}",
        "LAN": f"lan L{draw.randrange(1024):04}-{place % 8} down",
        "bridge off": f"bridge {bridge} off",
        "VID": f"setvid2mstid {bridge} {tree} {4000 + place}",
        "VLANs of a port": f"setportvlans {bridge} {port} 1-{100 + place}",
    }[kind]


KINDS = ("cost", "cost in a tree", "priority in a tree", "root", "LAN", "bridge off", "VID", "VLANs of a port")


def edited(kind):
    """A script of the largest network with edits of a kind, each with a query behind it."""
    draw = random.Random(5)
    lines = made("region.py", 1).splitlines() + ["showvlan 60"]
    for place in range(EDITS):
        lines += [edit_of(kind, place, draw)] if kind else []
        lines.append("showvlan 60")
    return "\n".join(lines) + "\n"


CHANGE = "setportpathcost a1.1 1 200000\n\nlan d1a-a1.1 down\n\nsetportvlans a1.2 1 1,10-13\n\nbridge d1a off\n"


def rows(bench):
    """The name of each row, with what gives its milliseconds and its memory."""
    load = bench.file("load", lambda: made("load.py", 1))
    yield "load.py: load", lambda: bench.run("run", load)
    yield "largest: load", lambda: bench.run("run", bench.region())
    for query in ("showtree 0", "showtree 64", "showplan"):
        yield f"largest: load and {query}", lambda query=query: bench.run("run", bench.region(query))
    yield "largest: load and 65 trees", lambda: bench.run("run", bench.region(*(f"showtree {tree}" for tree in range(65))))
    yield "largest: summary", lambda: bench.run("summary", bench.region())
    for kind in KINDS:
        def more(kind=kind):
            base, _ = bench.run("run", bench.file("no edits", lambda: edited(None)))
            time, memory = bench.run("run", bench.file(f"edits {kind}", lambda: edited(kind)))
            return (time - base) / EDITS, memory
        yield f"largest: an edit with showvlan 60: {kind}", more
    for switches in (50, 200, 1002):
        yield f"campus of {switches}: summary", lambda switches=switches: bench.run("summary", bench.campus(switches))
        def step(switches=switches):
            base, _ = bench.run("steps", bench.campus(switches), bench.file("none.change", "\n"))
            time, memory = bench.run("steps", bench.campus(switches), bench.file("four.change", CHANGE))
            return (time - base) / 4, memory
        yield f"campus of {switches}: a step", step
    for switches in (50, 200):
        yield f"campus of {switches}: sweep", lambda switches=switches: bench.run("sweep", bench.campus(switches))
    def difference():
        old = bench.campus(1002)
        with open(old, encoding="utf-8") as file:
            text = file.read()
        new = bench.file("campus1002 changed", text + "setportvlans a1.1 1 1,10-13,119,500\n")
        return bench.run("diff", old, new)
    yield "campus of 1002: diff of one port's VLANs", difference
    for switches in (50, 98):
        yield f"campus of {switches}: always reach 1-4094 *", lambda switches=switches: bench.run("verify", bench.campus(switches), bench.file("all.policy", "always reach 1-4094 *\n"))
    yield "load.py of an eighth: sweep", lambda: bench.run("sweep", bench.file("load8", lambda: made("load.py", 8)))


def main():
    words = sys.argv[1:]
    if not words:
        sys.exit(__doc__)
    resource.setrlimit(resource.RLIMIT_CORE, (0, 0))
    with tempfile.TemporaryDirectory() as folder:
        bench = Bench(words[0], folder)
        for name, row in rows(bench):
            if len(words) == 1 or any(word in name for word in words[1:]):
                time, memory = row()
                print(f"{time:9.1f} ms {memory:6.0f} MB  {name}", flush=True)


if __name__ == "__main__":
    main()
