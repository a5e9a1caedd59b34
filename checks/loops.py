#!/usr/bin/env python3
"""Draws small networks of several regions, and checks by plain search that the active ports of each VID make no loop
and join whatever enabled ports link.

usage: loops.py PROGRAM [NETWORKS]    (200 networks if left out; the draw is the same each time)
"""

import random
import subprocess
import sys

VIDS = (1, 10, 20)


def drawn(draw):
    """A script: bridges of a few configurations, LANs of two to four plugs, some off, down or aggregated."""
    bridges = [f"B{i}" for i in range(draw.randint(2, 8))]
    for i, bridge in enumerate(bridges):
        yield f"addbridge {bridge} 02:00:00:00:00:{i + 1:02x}"
        if draw.random() < 0.25:
            yield f"kind {bridge} rstp"
        area = draw.randint(1, 3)
        yield f"setmstconfid {bridge} {area} area{area}"
        yield f"setvid2mstid {bridge} {area} 10"
        if area > 1:
            yield f"setvid2mstid {bridge} {area + 4} 20"
        for tree in (0, 1, 2, 3, 6, 7):
            if draw.random() < 0.4:
                yield f"settreeprio {bridge} {tree} {draw.randint(0, 15)}"
        if draw.random() < 0.1:
            yield f"bridge {bridge} off"
    numbers = dict.fromkeys(bridges, 0)
    for i in range(draw.randint(1, 12)):
        yield f"addlan L{i}"
        if draw.random() < 0.1:
            yield f"lan L{i} down"
        for bridge in draw.choices(bridges, k=draw.randint(0, 4)):
            numbers[bridge] += 1
            port = f"{bridge} {numbers[bridge]}"
            yield f"addport {port}"
            yield f"plug {port} L{i}"
            if draw.random() < 0.3:
                yield f"setportpathcost {port} {draw.randint(1, 5)}"
            if draw.random() < 0.3:
                yield f"settreeportcost {port} {draw.choice((0, 1, 2, 3, 6, 7))} {draw.randint(1, 5)}"
            if draw.random() < 0.4:
                yield f"setkey {port} 1"


def answers(program, script):
    ran = subprocess.run([program, "run", "-"], input=script, capture_output=True, text=True, check=False)
    if ran.returncode != 0:
        sys.exit(f"status {ran.returncode}:\n{ran.stdout[-500:]}{ran.stderr}")
    return ran.stdout.splitlines()


def parts(edges):
    """The parts that these edges join, each node with the name of its part, and whether some edge closes a loop."""
    part, loop = {}, False

    def find(node):
        while part.setdefault(node, node) != node:
            node = part[node]
        return node

    for bridge, lan in edges:
        ends = find("bridge " + bridge), find("lan " + lan)
        loop |= ends[0] == ends[1]
        part[ends[0]] = ends[1]
    return {node: find(node) for node in list(part)}, loop


def is_right(lines, vids):
    ports = [line.split() for line in lines if line.startswith("port ")]
    lan_of = {f"{bridge}:{number}": (bridge, lan) for _, bridge, number, lan, *_ in ports}
    enabled = [lan_of[f"{p[1]}:{p[2]}"] for p in ports if p[-1] != "Disabled"]
    linked, _ = parts(enabled)
    actives = [line.split()[1:] for line in lines if line.startswith("active ")]
    for active in actives:
        edges = [lan_of[word.strip("[]")] for word in active if word != "-"]
        joined, loop = parts(edges)
        if loop or any(joined.get(a) is None or joined.get(a) != joined.get(b)
                       for a in linked for b in linked if linked[a] == linked[b]):
            return False
    return len(actives) == len(vids)


def main():
    if len(sys.argv) not in (2, 3):
        sys.exit(__doc__)
    draw = random.Random(802)
    count = int(sys.argv[2]) if len(sys.argv) == 3 else 200
    for i in range(count):
        script = "\n".join([*drawn(draw), "showtree 0", *(f"showvlan {vid}" for vid in VIDS), ""])
        if not is_right(answers(sys.argv[1], script), VIDS):
            sys.exit(f"network {i} has a loop or isn't joined:\n{script}")
    print(f"{count} networks, {len(VIDS)} VIDs each: no loop, and all joined")


main()
