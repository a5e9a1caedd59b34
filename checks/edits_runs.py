#!/usr/bin/env python3
"""What is to be set (`mstplan edits OLD NEW`), for program.py: the edits from one network to another, by what `save` tells of both.

usage: edits_runs.py PROGRAM [COUNT] [FIRST]    (so many pairs of networks, or 500; program.py takes fewer)

Networks are drawn by their numbers; of three pairs one is of networks that have nothing to do with each other, and the others of one and of
what a few lines make of it. The text is compared with a sketch of its rules. Behind the lines that `save` prints of OLD none of its lines is
refused, and `save` prints what it prints of NEW; without any one of its lines, but the first, it doesn't, or a line is refused. The exit status is
1 where something differs.
"""

import concurrent.futures
import itertools
import os
import subprocess
import sys
import tempfile

SAMPLES = os.path.join(os.path.dirname(os.path.abspath(__file__)), os.pardir, "examples")
# nothing is to be left beside what is imported
sys.dont_write_bytecode = True

import sketch  # noqa: E402

COUNT = 500
IN_THE_GATE = 30
LONGEST, MOST_TREES = 4096, 64
VERSION = "mstplan 2"
DEFAULTS = {"kind": "mstp", "setsyspri": "32768", "setmaxhops": "20", "setmaxage": "20", "setkey": "0", "setportpathcost": "0",
            "setportvlans": "all", "setportrestrrole": "no", "speed": "1000000"}
OF_BRIDGE, OF_LIMITS = ["kind", "setsyspri"], ["setmaxhops", "setmaxage"]
OF_PORT, OF_PORT_LATER = ["setkey", "setportpathcost"], ["setportvlans", "setportrestrrole"]
BY_TREE = {"settreeprio": "32768", "settreeportcost": "0", "settreeportprio": "128"}


# ---- a network by the lines that `save` prints of it


class Record:
    """What is set of a bridge, a port or a LAN: the values by command, those by tree, and the table of a bridge, without the CIST."""

    def __init__(self, mac=None):
        self.mac, self.configuration, self.is_up = mac, ("0", mac), True
        self.values, self.by_tree, self.table = {}, {command: {} for command in BY_TREE}, {}


class Saved:
    """Bridges and LANs by name, ports and plugs by bridge and number."""

    def __init__(self, lines):
        self.bridges, self.ports, self.lans, self.plugs = {}, {}, {}, {}
        for line in lines[1:]:
            self.add(*line.split(" "))

    def add(self, command, name, *words):
        port = (name, int(words[0])) if words and words[0].isdecimal() else None
        if command == "addbridge":
            self.bridges[name] = Record(words[0])
        elif command == "addlan":
            self.lans[name] = Record()
        elif command == "addport":
            self.ports[port] = Record()
        elif command == "plug":
            self.plugs[port] = words[1]
        elif command in ("bridge", "lan"):
            (self.bridges if command == "bridge" else self.lans)[name].is_up = False
        elif command == "setmstconfid":
            self.bridges[name].configuration = words
        elif command == "setvid2mstid":
            self.bridges[name].table.update(dict.fromkeys(sketch.numbers_in(words[1]), int(words[0])))
        elif command == "settreeprio":
            self.bridges[name].by_tree[command][int(words[0])] = words[1]
        elif command in BY_TREE:
            self.ports[port].by_tree[command][int(words[1])] = words[2]
        elif command == "speed":
            self.lans[name].values[command] = words[0]
        elif command in OF_PORT + OF_PORT_LATER:
            self.ports[port].values[command] = words[1]
        else:
            self.bridges[name].values[command] = words[0]


# ---- the table of a bridge


def cut(front, vids):
    """VIDs behind the words before them, in as few lines as hold them."""
    lines = []
    for run in sketch.list_of(vids).split(","):
        if lines and len(lines[-1]) + 1 + len(run) <= LONGEST:
            lines[-1] += f",{run}"
        else:
            lines.append(f"{front} {run}")
    return lines


def vids_of(line):
    return sketch.numbers_in(line.split(" ")[-1])


def by_the_cist(bridge, table, wanted):
    """The lines that take VIDs out of trees which the wanted table hasn't, so that there are no more trees than there may be."""
    trees = {tree for tree in table.values() if tree}
    if len(trees) <= MOST_TREES:
        return []
    front, chosen = f"setvid2mstid {bridge} 0", []
    for tree in sorted(trees - set(wanted.values())):
        more = [*chosen, *(vid for vid, at in table.items() if at == tree)]
        if chosen and len(cut(front, more)) > 1:
            break
        chosen = more
        if len(cut(front, chosen)) > 1:
            break
    return cut(front, chosen)


def table_lines(bridge, old, new):
    """The lines that make the one table of the other."""
    table, lines = dict(old), []
    home = [vid for vid in old if vid not in new]
    moves = [(0, home)] * bool(home)
    moves += [(tree, [vid for vid, at in new.items() if at == tree and old.get(vid) != tree]) for tree in sorted(set(new.values()))]
    for tree, vids in moves:
        for line in cut(f"setvid2mstid {bridge} {tree}", vids) if vids else []:
            first = by_the_cist(bridge, {**table, **dict.fromkeys(vids_of(line), tree)}, new)
            table.update(dict.fromkeys(itertools.chain(*map(vids_of, first)), 0))
            table.update(dict.fromkeys(vids_of(line), tree))
            lines += [*first, line]
    return lines


# ---- all of it


def value_lines(commands, front, old, new):
    values = [(command, *(it.values.get(command, DEFAULTS[command]) for it in (old, new))) for command in commands]
    return [f"{command} {front} {after}" for command, before, after in values if before != after]


def tree_lines(command, front, old, new):
    before, after = old.by_tree[command], new.by_tree[command]
    values = [(tree, *(it.get(tree, BY_TREE[command]) for it in (before, after))) for tree in sorted(before.keys() | after.keys())]
    return [f"{command} {front} {tree} {value}" for tree, other, value in values if other != value]


def port_lines(port, old, new):
    front, lines = f"{port[0]} {port[1]}", []
    if old is None:
        lines, old = [f"addport {front}"], Record()
    lines += value_lines(OF_PORT, front, old, new)
    for command in ("settreeportcost", "settreeportprio"):
        lines += tree_lines(command, front, old, new)
    return lines + value_lines(OF_PORT_LATER, front, old, new)


def bridge_lines(name, old, new):
    lines = []
    if old is None:
        lines, old = [f"addbridge {name} {new.mac}"], Record(new.mac)
    lines += value_lines(OF_BRIDGE, name, old, new)
    if old.configuration != new.configuration:
        lines.append(f"setmstconfid {name} {' '.join(new.configuration)}")
    lines += table_lines(name, old.table, new.table)
    return [*lines, *value_lines(OF_LIMITS, name, old, new), *tree_lines("settreeprio", name, old, new)]


def lan_lines(name, old, new):
    front = [f"addlan {name}"] if old is None else []
    return [*front, *value_lines(["speed"], name, old or Record(), new)]


def edits(old, new):
    """The lines of the edits."""
    bridges = {name for name, it in old.bridges.items() if name in new.bridges and new.bridges[name].mac == it.mac}
    ports = {it for it in old.ports if it[0] in bridges and it in new.ports}
    plugs = {it for it, lan in old.plugs.items() if it in ports and new.plugs.get(it) == lan}
    lines = [f"unplug {b} {p}" for b, p in sorted(old.plugs.keys() - plugs)] + [f"delport {b} {p}" for b, p in sorted(old.ports.keys() - ports)]
    lines += [f"dellan {it}" for it in sorted(old.lans.keys() - new.lans.keys())] + [f"delbridge {it}" for it in sorted(old.bridges.keys() - bridges)]
    for name, bridge in sorted(new.bridges.items()):
        lines += bridge_lines(name, old.bridges[name] if name in bridges else None, bridge)
        for port in sorted(it for it in new.ports if it[0] == name):
            lines += port_lines(port, old.ports[port] if port in ports else None, new.ports[port])
    for name, lan in sorted(new.lans.items()):
        lines += lan_lines(name, old.lans.get(name), lan)
    lines += [f"plug {b} {p} {lan}" for (b, p), lan in sorted(new.plugs.items()) if (b, p) not in plugs]
    was_on = {name: old.bridges[name].is_up if name in bridges else True for name in new.bridges}
    was_up = {name: old.lans[name].is_up if name in old.lans else True for name in new.lans}
    lines += [f"bridge {it} {'on' if b.is_up else 'off'}" for it, b in sorted(new.bridges.items()) if b.is_up != was_on[it]]
    return lines + [f"lan {it} {'up' if lan.is_up else 'down'}" for it, lan in sorted(new.lans.items()) if lan.is_up != was_up[it]]


# ---- pairs of networks


def saved(program, script):
    """The lines that `save` prints of the network that a script leaves."""
    return [line for line in sketch.run(program, ["run", "-"], [*sketch.edits_of(script), "save"])[0].splitlines() if not line.startswith("line ")]


def makes(program, lines, wanted):
    """Whether lines are refused nowhere and leave the network of which `save` prints what is wanted."""
    return sketch.run(program, ["run", "-"], [*lines, "save"])[0].splitlines() == wanted


def changed(number, script):
    """A script that differs from another one in a few lines, of which some add or take away."""
    draws = sketch.Draws(number + 10**9)
    kept = [*script[:1], *(line for line in script[1:] if draws.below(12))]
    forms = [
        "unplug A 1", "delport B 1", "addbridge Z 02:00:00:00:00:aa", "addlan N", "addport A 30", "plug A 30 N", "unplug B 2", "plug B 2 L0",
        "setmaxhops A 9", "setmaxage B 30", "setsyspri A 1", "speed L1 100", "setkey A 1 7", "settreeportprio A 1 2 3",
        f"setvid2mstid A {draws.below(5)} 1-{draws.below(4000) + 1}", "addport Z 1", "plug Z 1 L1",
    ]
    return [*kept, *(draws.one_of(forms) for _ in range(draws.below(9))), *(sketch.settings(draws, "ABCD") for _ in range(draws.below(9)))]


def pair(number):
    script = sketch.drawn(number)
    return script, sketch.drawn(number + 1000) if number % 3 == 0 else changed(number, script)


def printed(program, old, new):
    """What `edits` prints of two scripts, and its status."""
    with tempfile.TemporaryDirectory() as folder:
        paths = [os.path.join(folder, name) for name in ("old", "new")]
        for path, lines in zip(paths, (old, new)):
            with open(path, "w", encoding="ascii") as file:
                file.write("\n".join([*lines, ""]))
        told, status = sketch.run(program, ["edits", *paths], [])
    return told.splitlines(), status


def needless(program, before, lines, wanted):
    """The lines without which the others make the network as well."""
    every = [*lines[1:]]
    return [line for place, line in enumerate(every) if makes(program, [*before, *every[:place], *every[place + 1 :]], wanted)]


def faults_of_pair(program, what, old, new):
    before, after = saved(program, old), saved(program, new)
    lines = [VERSION, *edits(Saved(before), Saved(after))]
    refused = [f"{side} {line}" for side, script in (("old", old), ("new", new)) for line in sketch.refused(program, script)]
    wanted = [*refused, *lines], 1 if refused or len(lines) > 1 else 0
    faults = [] if printed(program, old, new) == wanted else [f"{what}: {printed(program, old, new)} in place of {wanted}"]
    faults += [] if makes(program, [*before, *lines[1:]], after) else [f"{what}: the edits don't make the other network"]
    faults += [f"{what}: needless: {line}" for line in needless(program, before, lines, after)]
    return faults + ([] if printed(program, before, before) == ([VERSION], 0) else [f"{what}: edits of a network to itself"])


def faults_of(program, number):
    return faults_of_pair(program, f"pair {number}", *pair(number))


def check(program, count, first=0):
    """What differs, of so many pairs of networks."""
    with concurrent.futures.ThreadPoolExecutor(os.cpu_count()) as pool:
        found = pool.map(lambda number: faults_of(program, number), range(first, first + count))
        return list(itertools.chain.from_iterable(found))


# ---- tables that are full, and names and addresses that change over


def tables(groups):
    """A bridge of version 2 with a table that maps these lists of VIDs to these trees."""
    lines = [VERSION, "addbridge A 00:00:00:00:00:01"]
    return lines + [line for tree, vids in groups for line in cut(f"setvid2mstid A {tree}", vids)]


def special():
    """Pairs of scripts by what they are for."""
    full = [(tree, [tree + 1]) for tree in range(1, 65)]
    scattered = [list(range(2 + place, 4095, 64)) for place in range(64)]
    swapped = ["addbridge A 00:00:00:00:00:02", "addbridge B 00:00:00:00:00:01", "addlan A", "addport A 1", "plug A 1 A", "bridge B off"]
    yield "one VID a tree", tables(full), tables([(tree + 100, vids) for tree, vids in full])
    yield "other trees", tables([(place + 1, vids) for place, vids in enumerate(scattered)]), tables([(place + 101, vids) for place, vids in enumerate(scattered)])
    yield "turned", tables([(place + 1, vids) for place, vids in enumerate(scattered)]), tables([((place + 1) % 64 + 1, vids) for place, vids in enumerate(scattered)])
    across = tables([(1, [1, 2]), *((place, [place + 1]) for place in range(2, 65))])
    yield "across", across, tables([*((place + 100, [place]) for place in range(1, 64)), (164, [64, 65])])
    mixed = [(place + 201, list(range(1 + place, 4095, 63))) for place in range(63)]
    yield "mixed", tables([(place + 1, vids) for place, vids in enumerate(scattered)]), tables(mixed)
    odd = [(1, list(range(101, 4095, 2))), *((place, [place]) for place in range(2, 65))]
    yield "a list of several lines", tables(odd[:1]), tables([(2, odd[0][1])])
    yield "several lines by the CIST", tables(odd), tables([(tree + 100, vids) for tree, vids in odd])
    yield "no bridge", [VERSION], across
    yield "all goes", across, [VERSION]
    yield "addresses", ["addbridge A 00:00:00:00:00:01", "addbridge B 00:00:00:00:00:02", "addlan L", "addport A 1", "plug A 1 L"], swapped
    yield "addresses back", swapped, ["addbridge A 00:00:00:00:00:01", "addbridge B 00:00:00:00:00:02", "addlan L", "addport A 1", "plug A 1 L"]


# ---- the examples


CHANGED = """mstplan 2
setportvlans acc2 2 10,20
settreeprio core1 0 8192
settreeprio core2 0 4096
"""
REPLACED = """mstplan 2
unplug acc1 1
unplug acc1 2
delport acc1 1
delport acc1 2
delbridge acc1
addbridge acc1 00:1b:21:aa:00:23
setmstconfid acc1 1 EDGE
setvid2mstid acc1 1 10,20,30,40
addport acc1 1
addport acc1 2
plug acc1 1 dist1-acc1
plug acc1 2 dist2-acc1
"""


def check_words(program, words, typed, status, told):
    ran = subprocess.run([program, "edits", *words], input=typed.encode(), capture_output=True, check=False)
    if (ran.returncode, ran.stdout.decode(), ran.stderr) == (status, told, b""):
        return True
    print(f"edits {words}: status {ran.returncode}, {ran.stdout}, {ran.stderr}")
    return False


def check_examples(program):
    script, changed_script = [os.path.join(SAMPLES, it) for it in ("campus.script", "campus-changed.script")]
    with open(script, encoding="ascii") as file:
        replaced = file.read().replace("addbridge acc1 00:1b:21:aa:00:21", "addbridge acc1 00:1b:21:aa:00:23")
    return [
        check_words(program, [script, changed_script], "", 1, CHANGED),
        check_words(program, [script, "-"], replaced, 1, REPLACED),
        check_words(program, [script, script], "", 0, f"{VERSION}\n"),
        check_words(program, ["-", "-"], "no\naddlan L\n", 1, f"old line 1 E01 no such command\n{VERSION}\ndellan L\n"),
    ]


def checks(program, _folder):
    """Whether the examples are told as they are printed in docs/USING.md, and pairs of networks as the rules say."""
    faults = check(program, IN_THE_GATE)
    for what, old, new in special():
        faults += faults_of_pair(program, what, old, new)
    print("".join(f"{it[:2000]}\n" for it in faults), end="")
    return [*check_examples(program), not faults]


if __name__ == "__main__":
    sketch.check_drawn(check, COUNT, "pairs: as the rules say", __doc__)
