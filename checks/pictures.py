#!/usr/bin/env python3
"""Reads the pictures of networks back, and compares them with what `run` prints of the same networks.

usage: pictures.py PROGRAM [SCRIPT ..]

Each script's network, or that of each script of the examples, is drawn with each tree that a bridge has and with one that none
has, and with the first VLAN of each group of `showplan` and of each line of a table. Bridges, roots, the ends of logical LANs, their
order and which lines are dashed are told from `showtree`, `save` and `showlag`, and with a VLAN from `showvlan`, too. The exit status
is 1 where a picture differs. Graphviz isn't needed; where its `dot` is installed, it reads each picture.
"""

import glob
import os
import re
import shutil
import subprocess
import sys

SAMPLES = os.path.join(os.path.dirname(os.path.abspath(__file__)), os.pardir, "examples")
QUIET = ("show", "mark", "changes", "save", "digest")
UNUSED = 4094
LETTERS = {"Root": "R", "Designated": "D", "Alternate": "A", "Backup": "B", "Master": "M", "Disabled": "X"}
FORWARDS = set("RDM")
LINE = re.compile(r' +"([^"]+)"(?: -- "([^"]+)")?(?: \[(.*)\])?;')
CLUSTER = re.compile(r'  subgraph "(cluster \d+)" \{')
ATTRIBUTE = re.compile(r'(\w+)=(?:"([^"]*)"|([^,]+))(?:, |$)')


def printed(program, words, text, status=None):
    ran = subprocess.run([program, *words], input=text.encode(), capture_output=True)
    if status is not None and ran.returncode != status:
        raise SystemExit(f"{words}: exit status {ran.returncode}")
    return ran.stdout.decode().splitlines()


# ---- what the texts of `run` say


def edits_of(program, script):
    """The script's network as a script of its own, in which nothing is refused."""
    lines = [line for line in open(script, encoding="utf-8").read().splitlines() if not line.lstrip().startswith(QUIET)]
    saved = printed(program, ["run", "-"], "\n".join(lines + ["save"]) + "\n")
    return [line for line in saved if not line.startswith("line ")]


class Tree:
    """A tree's text: the bridges that have it, those that are off, its roots, and the roles of ports."""

    def __init__(self, lines):
        self.bridges, self.off, self.roots, self.ports = [], set(), set(), {}
        for words in map(str.split, lines):
            if words[0] == "bridge":
                self.bridges.append(words[1])
                if words[2] == "off":
                    self.off.add(words[1])
                elif words[2] == words[4]:
                    self.roots.add(words[1])
            elif words[0] == "port":
                self.ports[words[1], int(words[2])] = (words[3], LETTERS[words[-1]])


def lans_of(lines, edits):
    """The logical LANs, by name: those that are members of another one's class are none of their own."""
    names = {line.split()[1] for line in edits if line.startswith("addlan ")}
    for words in map(str.split, lines):
        names -= set(words[words.index("lans") + 1].split(",")) - {words[1]}
    return sorted(names)


class Vlan:
    """A VLAN's text: the bridges of its islands, and the ports that are active for it, each with whether it is a member."""

    def __init__(self, lines):
        self.islands, self.active = [], {}
        for words in map(str.split, lines):
            if words[0] == "active":
                for port in words[1:]:
                    if port != "-":
                        bridge, number = port.strip("[]").split(":")
                        self.active[bridge, int(number)] = not port.startswith("[")
            elif words[0] == "island":
                bridges = words[2 : words.index("lans")]
                if bridges != ["-"]:
                    self.islands.append(bridges)


def tables_of(edits):
    """The tree of each bridge and each VID that isn't the CIST, by what the script sets, and a VID of each line that does."""
    tables, firsts, rstp = {}, set(), {line.split()[1] for line in edits if line.startswith("kind ") and line.endswith(" rstp")}
    for words in map(str.split, edits):
        if words[0] == "setvid2mstid":
            runs = [list(map(int, run.split("-"))) for run in words[3].split(",")]
            firsts.add(runs[0][0])
            if words[1] not in rstp:
                tables.update({(words[1], vid): int(words[2]) for run in runs for vid in range(run[0], run[-1] + 1)})
    return tables, firsts


GRAY = {"style": "dashed", "color": "gray", "fontcolor": "gray"}


def expected(cist, tree, lans):
    """The nodes and the lines that the picture with a tree is to have, in order."""
    drawn = []
    for bridge in cist.bridges:
        style = {}
        if bridge in cist.off:
            style = GRAY
        elif bridge not in tree.bridges:
            style = {"color": "gray", "fontcolor": "gray"}
        elif bridge in tree.roots:
            style = {"peripheries": "2"}
        drawn.append((bridge, None, style))
    ends = {}
    for port in cist.ports:
        letter = tree.ports[port][1] if port in tree.ports else None
        ends[port] = (letter, letter in FORWARDS)
    return drawn + lines_between(cist, ends, lans)


def expected_with(vlan, vid, trees, tables, lans):
    """Those that the picture with a VLAN is to have."""
    cist, drawn, ends = trees[0], [], {}
    for number, bridges in enumerate(vlan.islands, 1):
        drawn.append((f"cluster {number}", None, None))
        for bridge in bridges:
            tree = tables.get((bridge, vid), 0)
            drawn.append((bridge, None, {"label": f"{bridge}\\ntree {tree}", **({"peripheries": "2"} if bridge in trees[tree].roots else {})}))
        drawn.append(("}", None, None))
    drawn += [(bridge, None, GRAY) for bridge in cist.bridges if bridge in cist.off]
    for port in cist.ports:
        ends[port] = (trees[tables.get((port[0], vid), 0)].ports[port][1], vlan.active.get(port, False))
    return drawn + lines_between(cist, ends, lans)


def lines_between(cist, ends, lans):
    """The lines and the boxes of the logical LANs, by the letter of each port and whether it is open."""
    there = {lan: [] for lan in lans}
    for (bridge, number), (lan, _) in sorted(cist.ports.items()):
        letter, is_open = ends[bridge, number]
        there[lan].append((bridge, f"{number} {letter}" if letter else str(number), letter, is_open))
    drawn = []
    for lan in lans:
        if len(there[lan]) == 2:
            tail, head = sorted(there[lan], key=lambda end: end[2] != "D")
            drawn.append((tail[0], head[0], line_of({"label": lan, "taillabel": tail[1], "headlabel": head[1]}, tail, head)))
            continue
        drawn.append(("lan " + lan, None, {"shape": "box", "fontsize": "10", "height": "0.3", "label": lan}))
        for end in there[lan]:
            if end[2] == "D":
                drawn.append((end[0], "lan " + lan, line_of({"taillabel": end[1]}, end)))
            else:
                drawn.append(("lan " + lan, end[0], line_of({"headlabel": end[1]}, end)))
    return drawn


def line_of(labels, *ends):
    return labels if all(end[3] for end in ends) else {**labels, "style": "dashed"}


# ---- what a picture says


def picture_of(lines, name):
    """The nodes and the lines of a picture, in order. A cluster is the nodes between its name and a brace."""
    if lines[:2] != [f'graph "{name}" {{', f'  graph [label="{name}", nodesep=0.6, ranksep=0.8];'] or lines[-1] != "}":
        raise ValueError(lines[0])
    drawn = []
    for line in lines[2:-1]:
        if line.startswith("  edge ["):
            continue
        cluster = CLUSTER.fullmatch(line)
        if cluster or line == "  }":
            drawn.append((cluster.group(1) if cluster else "}", None, None))
            continue
        tail, head, attributes = LINE.fullmatch(line).groups()
        found = ATTRIBUTE.findall(attributes or "")
        drawn.append((tail, head, {name: quoted or plain for name, quoted, plain in found}))
    return drawn


def is_read(lines):
    """Whether Graphviz reads a picture without a word, where it is installed."""
    if not shutil.which("dot"):
        return True
    ran = subprocess.run(["dot", "-Tcanon"], input="\n".join(lines).encode(), capture_output=True)
    return ran.returncode == 0 and not ran.stderr


def is_as_wanted(program, script, text, words, wanted):
    """Whether the picture that these words ask for has these nodes and lines."""
    name = " ".join(words if len(words) > 1 else ["tree", *words])
    lines = printed(program, ["dot", "-", *words], text, 0)
    drawn = picture_of(lines, name)
    for one, other in zip(drawn + [None] * len(wanted), wanted + [None] * len(drawn)):
        if one != other:
            print(f"{script}: {name}: {one} in place of {other}")
            return False
    if not is_read(lines):
        print(f"{script}: {name}: Graphviz doesn't read it")
        return False
    return True


def check(program, script):
    """How many pictures of the script's network were made, and whether all were right."""
    edits = edits_of(program, script)
    text = "\n".join(edits) + "\n"
    plan = printed(program, ["run", "-"], text + "showplan\n", 0)
    used = [int(line.split()[1]) for line in plan if line.startswith("tree ")]
    shown = {tree: Tree(printed(program, ["run", "-"], f"{text}showtree {tree}\n", 0)) for tree in [*used, UNUSED]}
    lans = lans_of(printed(program, ["run", "-"], text + "showlag\n", 0), edits)
    tables, firsts = tables_of(edits)
    vids = sorted(firsts | {int(re.match(r"vlan (\d+)", line).group(1)) for line in plan if line.startswith("vlan ")})
    vlans = {vid: Vlan(printed(program, ["run", "-"], f"{text}showvlan {vid}\n", 0)) for vid in vids}
    right = [is_as_wanted(program, script, text, [str(tree)], expected(shown[0], shown[tree], lans)) for tree in shown]
    right += [is_as_wanted(program, script, text, ["vlan", str(vid)], expected_with(vlans[vid], vid, shown, tables, lans)) for vid in vids]
    return len(right), all(right)


def main():
    if len(sys.argv) < 2:
        raise SystemExit(__doc__.split("\n\n")[1])
    scripts = sys.argv[2:] or sorted(glob.glob(f"{SAMPLES}/*.script") + glob.glob(f"{SAMPLES}/*/*.script"))
    results = [check(sys.argv[1], script) for script in scripts]
    print(f"{sum(count for count, _ in results)} pictures of {len(results)} networks")
    return 0 if all(right for _, right in results) else 1


if __name__ == "__main__":
    sys.exit(main())
