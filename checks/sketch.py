#!/usr/bin/env python3
"""Compares explain, diff, sweep and summary with a sketch of them that works from the texts of `run` alone, on drawn networks.

usage: sketch.py PROGRAM [COUNT] [FIRST]
       sketch.py PROGRAM SCRIPT ..

Each network is drawn by its number, so they are always the same: 40 from the first on, or COUNT from FIRST on; or it is
that of a script. Every port is explained in every tree; a network is compared with itself and with one in which a few lines
differ; and each LAN and each bridge fails once. The exit status is 1 where an answer differs.
"""

import concurrent.futures
import itertools
import os
import re
import subprocess
import sys
import tempfile

QUERIES = ["showplan", "showregions", "save"]
QUIET = ("mark", "changes", "save", "digest")
UNREAD = ("E01", "E02", "E03")
DISABLED = "Disabled"
CIST_FIELDS = ["root", "ext", "regional", "int", "bridge", "port"]
MSTI_FIELDS = ["regional", "int", "bridge", "port"]


# ---- what the texts of `run` say of a network


class Tree:
    """A tree's text: bridges with identifier and vector, or None where they are off, and ports by bridge and number."""

    def __init__(self):
        self.bridges = {}
        self.ports = {}

    def add(self, words):
        if words[0] == "bridge":
            name = words[1]
            self.bridges[name] = None if words[2] == "off" else (words[2], vector_in(words[3:]))
        else:
            self.ports[(words[1], int(words[2]))] = port_in(words)


class Text:
    """All trees, the islands of each VID as tuples of bridges, and each bridge's region."""

    def __init__(self, printed):
        self.trees, self.islands, self.active, self.regions, self.saved = {}, {}, {}, {}, []
        vids, body = [], []
        for line in printed.splitlines():
            words = line.split()
            if words[0] == "tree":
                tree = self.trees.setdefault(int(words[1]), Tree())
            elif words[0] in ("bridge", "port") and not self.regions:
                tree.add(words)
            elif words[0] == "vlan":
                vids, body = numbers_in(words[1]), []
                self.islands.update({vid: body for vid in vids})
            elif words[0] == "island":
                bridges = [word for word in words[2 : words.index("lans")] if word != "-"]
                if bridges:
                    body.append(tuple(bridges))
            elif words[0] == "region":
                self.add_region(words)
            elif words[0] == "active":
                self.active.update({vid: set(words[1:]) for vid in vids})
            else:
                self.saved.append(words)

    def add_region(self, words):
        at = words.index("bridges")
        told = ["rstp", "-"] if words[1] == "rstp" else words[2:4]
        for bridge in words[at + 1 :]:
            self.regions[bridge] = [*told, words[at + 1]]


def vector_in(words):
    """The values of a root priority vector as it is printed, without the words between."""
    return [word for word in words if word not in ("root", "ext", "regional", "int", "from", "at")]


def port_in(words):
    """A port's LAN and role, and where it is enabled its identifier and its costs."""
    port = {"lan": words[3], "role": words[-1]}
    if words[-1] != DISABLED:
        port["id"] = words[4]
        port["ext"] = int(words[6]) if words[5] == "ext" else None
        port["int"] = int(words[words.index("int") + 1])
    return port


def numbers_in(text):
    ranges = [] if text == "-" else [[int(end) for end in item.split("-")] for item in text.split(",")]
    return [number for ends in ranges for number in range(ends[0], ends[-1] + 1)]


def list_of(numbers):
    """VIDs in rising order, the longest runs."""
    items, rest = [], sorted(numbers)
    while rest:
        first = last = rest.pop(0)
        while rest and rest[0] == last + 1:
            last = rest.pop(0)
        items.append(f"{first}" if first == last else f"{first}-{last}")
    return ",".join(items) or "-"


# ---- explain


def key(vector, fields):
    """Identifiers are written in hexadecimal, and `ext` and `int` in decimal."""
    return [int(v) if f in ("ext", "int") else int(re.sub("[.:]", "", v), 16) for v, f in zip(vector, fields)]


class Contest:
    """What one kind of tree says of vectors."""

    def __init__(self, text, number):
        self.text, self.number, self.tree = text, number, text.trees[number]
        self.fields = CIST_FIELDS if number == 0 else MSTI_FIELDS

    def all_fields(self):
        return [*self.fields, "receiver"]

    def key(self, vector):
        return key(vector, self.all_fields())

    def said(self, name):
        """The designated priority vector of a port; its last component is its bridge's."""
        identifier, own = self.tree.bridges[name[0]]
        return [*own[: len(self.fields) - 2], identifier, self.tree.ports[name]["id"], own[-1]]

    def own(self, bridge):
        identifier = self.tree.bridges[bridge][0]
        zero = ["0", identifier, "0", identifier] if self.number == 0 else ["0", identifier]
        return [identifier, *zero, "0000", "0000"]

    def in_tree(self, name):
        """In an MSTI the ports whose LAN's designated port is in their bridge's region."""
        port = self.text.trees[0].ports[name]
        if port["role"] == DISABLED:
            return False
        if self.number == 0:
            return True
        if self.tree.bridges.get(name[0]) is None:
            return False
        return self.text.regions[designated(self.text, port["lan"])[0]] == self.text.regions[name[0]]

    def on(self, lan):
        return [name for name, port in self.tree.ports.items() if port["lan"] == lan and self.in_tree(name)]

    def step(self, name, winner):
        """What a port makes of what its LAN's designated port says."""
        port, said = self.tree.ports[name], self.said(winner)
        identifier = self.tree.bridges[name[0]][0]
        if self.number:
            return [said[0], str(int(said[1]) + port["int"]), *said[2:4], port["id"]]
        if self.text.regions[winner[0]] == self.text.regions[name[0]]:
            return [*said[:3], str(int(said[3]) + port["int"]), *said[4:6], port["id"]]
        sender = said[2] if self.text.regions[name[0]][0] == "rstp" else said[4]
        return [said[0], str(int(said[1]) + port["ext"]), identifier, "0", sender, said[5], port["id"]]

    def compared(self, winner, other):
        """The first component at which two vectors differ, with both values."""
        field, first, second = next(it for it in zip(self.all_fields(), winner, other) if it[1] != it[2])
        return f"{field} {first} {second}"


def designated(text, lan):
    """The designated port of a LAN in the CIST: the one with the least designated priority vector."""
    contest = Contest(text, 0)
    return min(contest.on(lan), key=lambda name: contest.key(contest.said(name)))


def at(name):
    return f"{name[0]}:{name[1]}"


def reason(text, number, name, restricted):
    contest = Contest(text, number)
    port = text.trees[0].ports[name]
    if not contest.in_tree(name):
        role = text.trees[0].ports[name]["role"]
        return [f"boundary {role} designated {at(designated(text, port['lan']))}"]
    said = {other: contest.said(other) for other in contest.on(port["lan"])}
    ranked = sorted(said, key=lambda other: contest.key(said[other]))
    winner = ranked[0]
    if len(ranked) == 1:
        return [f"designated {at(winner)} alone"]
    rival = name if winner != name else ranked[1]
    lines = [f"designated {at(winner)} over {at(rival)} {contest.compared(said[winner], said[rival])}"]
    if winner[0] == name[0]:
        return lines
    if name in restricted:
        return [*lines, "restricted"]
    return [*lines, root_line(contest, name, restricted)]


def root_line(contest, name, restricted):
    """Which of the bridge's own vector and the steps of its ports is the least."""
    given = {"own": contest.own(name[0])}
    for other, port in contest.tree.ports.items():
        if other[0] == name[0] and contest.in_tree(other) and other not in restricted:
            winner = min(contest.on(port["lan"]), key=lambda it: contest.key(contest.said(it)))
            if winner[0] != name[0]:
                given[other] = contest.step(other, winner)
    ranked = sorted(given, key=lambda it: contest.key(given[it]))
    winner = ranked[0]
    rival = name if winner != name else ranked[1]
    told = [it if it == "own" else at(it) for it in (winner, rival)]
    return f"root {told[0]} over {told[1]} {contest.compared(given[winner], given[rival])}"


def explained(text, name, off, down, restricted):
    """The explanation in each tree that the port's bridge has."""
    lines = []
    for number, tree in sorted(text.trees.items()):
        if name[0] in tree.bridges:
            port = tree.ports[name]
            lines.append(f"explain {number} {at(name)} {port['lan']} {port['role']}")
            if port["role"] == DISABLED:
                lines += [f"off {name[0]}"] * (name[0] in off) + [f"down {port['lan']}"] * (port["lan"] in down)
            else:
                lines += reason(text, number, name, restricted)
    return lines


# ---- diff


def root_id(entry, number):
    """The identifier of a bridge's root in the CIST, and of its regional root in an MSTI: the first component."""
    return entry[1][0]


def names_by_id(tree):
    return {entry[0]: name for name, entry in tree.bridges.items() if entry}


def roots_changed(old, new):
    lines = []
    for number in sorted(old.trees.keys() & new.trees.keys()):
        before, after = old.trees[number], new.trees[number]
        names, others = names_by_id(before), names_by_id(after)
        pairs = []
        for bridge, entry in sorted(before.bridges.items()):
            other = after.bridges.get(bridge)
            if entry and other:
                pair = names[root_id(entry, number)], others[root_id(other, number)]
                if pair[0] != pair[1] and pair not in pairs:
                    pairs.append(pair)
        lines += [f"root {number} {a} -> {b}" for a, b in pairs]
    return lines


def role_at(text, number, name):
    tree = text.trees.get(number)
    return tree.ports[name]["role"] if tree and name in tree.ports else "-"


def roles_changed(old, new):
    lines = []
    for number in sorted(old.trees.keys() | new.trees.keys()):
        names = {name for text in (old, new) if number in text.trees for name in text.trees[number].ports}
        for name in sorted(names):
            roles = role_at(old, number, name), role_at(new, number, name)
            if roles[0] != roles[1]:
                lines.append(f"port {number} {name[0]} {name[1]} {roles[0]} -> {roles[1]}")
    return lines


def reach_changed(old, new):
    """VIDs by the islands that are on one side alone."""
    groups = {}
    for vid in range(1, 4095):
        sides = old.islands[vid], new.islands[vid]
        gone = [island for island in sides[0] if island not in sides[1]]
        come = [island for island in sides[1] if island not in sides[0]]
        if gone or come:
            told = [" ".join(map(",".join, side)) or "-" for side in (gone, come)]
            groups.setdefault(f"{told[0]} -> {told[1]}", []).append(vid)
    lines = [f"reach {list_of(vids)} {told}" for told, vids in groups.items()]
    return lines, sum(map(len, groups.values()))


def difference(old, new):
    regions = [
        f"region {name} {' '.join(old.regions[name])} -> {' '.join(new.regions[name])}"
        for name in sorted(old.regions.keys() & new.regions.keys())
        if old.regions[name] != new.regions[name]
    ]
    roots, ports, (reach, vlans) = roots_changed(old, new), roles_changed(old, new), reach_changed(old, new)
    last = f"diff regions {len(regions)} roots {len(roots)} ports {len(ports)} vlans {vlans}"
    return [*regions, *roots, *ports, *reach, last]


# ---- sweep


def parts(old, new):
    """Of each island from which two bridges that stay came apart, what is together afterwards."""
    after = {bridge: place for place, island in enumerate(new) for bridge in island}
    apart = []
    for island in old:
        pieces = {}
        for bridge in island:
            if bridge in after:
                pieces.setdefault(after[bridge], []).append(bridge)
        if len(pieces) > 1:
            apart += map(",".join, pieces.values())
    return " ".join(sorted(apart, key=lambda part: part.split(",")[0]))


def change_told(old, new):
    """The trees in which a bridge has another root, how many roles are other ones, and the VIDs that are cut, by their parts."""
    moved, ports = [], 0
    for number in sorted(old.trees.keys() & new.trees.keys()):
        before, after = old.trees[number], new.trees[number]
        both = [b for b in before.bridges if before.bridges[b] and after.bridges.get(b)]
        if any(root_id(before.bridges[b], number) != root_id(after.bridges[b], number) for b in both):
            moved.append(str(number))
        roles = [(port["role"], role_at(new, number, it)) for it, port in before.ports.items()]
        ports += sum(a != b and not {DISABLED, "-"} & {a, b} for a, b in roles)
    groups = {}
    for vid in range(1, 4095):
        told = parts(old.islands[vid], new.islands[vid])
        if told:
            groups.setdefault(told, []).append(vid)
    return ",".join(moved) or "-", ports, groups


def vids_in(groups):
    return list_of(itertools.chain.from_iterable(groups.values()))


def failure_lines(what, name, old, new):
    roots, ports, groups = change_told(old, new)
    first = f"{what} {name} roots {roots} ports {ports} cut {vids_in(groups)}"
    return [first, *(f"cut {list_of(vids)} parts {told}" for told, vids in groups.items())], bool(groups)


def failures_of(lans, bridges):
    return [("lan", name, f"lan {name} down") for name in lans] + [("bridge", name, f"bridge {name} off") for name in bridges]


def swept(program, script, text, lans, bridges):
    lines, cuts = [], 0
    failures = failures_of(lans, bridges)
    for what, name, edit in failures:
        told, is_cut = failure_lines(what, name, text, text_of(program, [*script, edit]))
        lines += told
        cuts += is_cut
    return [*lines, f"sweep lans {len(lans)} bridges {len(bridges)} cuts {cuts}"]


def joined_in_all(texts, vid):
    """The bridges that are on in each of some networks, in sets of those that are in one island of a VID in each."""
    places = [{bridge: place for place, island in enumerate(text.islands[vid]) for bridge in island} for text in texts]
    joined = {}
    for bridge in sorted(set.intersection(*map(set, places))):
        joined.setdefault(tuple(where[bridge] for where in places), []).append(bridge)
    return list(joined.values())


def cut_together(before, first, second, both):
    """VIDs by their parts: of each set of bridges that are joined before and with either failure alone, what is together with both."""
    groups, known = {}, {}
    # a text has one list of islands for all VIDs that it tells of together
    lists = [[id(text.islands[vid]) for vid in range(1, 4095)] for text in (before, first, second, both)]
    for vid, listed in enumerate(zip(*lists), 1):
        if listed not in known:
            known[listed] = parts(joined_in_all((before, first, second), vid), both.islands[vid])
        if known[listed]:
            groups.setdefault(known[listed], []).append(vid)
    return groups


def paired(program, script, text, lans, bridges):
    """What pairs of failures take apart that either alone leaves joined."""
    failures = failures_of(lans, bridges)
    alone = [text_of(program, [*script, edit]) for _, _, edit in failures]
    lines, cuts = [], 0
    for (one, first), (other, second) in itertools.combinations(list(zip(failures, alone)), 2):
        groups = cut_together(text, first, second, text_of(program, [*script, one[2], other[2]]))
        if groups:
            cuts += 1
            lines.append(f"pair {one[0]} {one[1]} {other[0]} {other[1]} cut {vids_in(groups)}")
            lines += [f"cut {list_of(vids)} parts {told}" for told, vids in groups.items()]
    return [*lines, f"sweep pairs {len(failures) * (len(failures) - 1) // 2} cuts {cuts}"]


# ---- summary


def root_lines(number, tree):
    """Each root by name, its priority, its followers, and the one of these that would be next."""
    entries = {name: entry for name, entry in tree.bridges.items() if entry}
    names = names_by_id(tree)
    lines = []
    for root in sorted({names[root_id(entry, number)] for entry in entries.values()}):
        own = entries[root][0]
        group = sorted(entry[0] for entry in entries.values() if root_id(entry, number) == own)
        rest = [identifier for identifier in group if identifier != own]
        told = f"{names[rest[0]]} {priority(rest[0])}" if rest else "-"
        lines.append(f"tree {number} root {root} {priority(own)} of {len(group)} next {told}")
    return lines


def priority(identifier):
    """The upper four bits of a bridge identifier, as the number that they are there."""
    return int(identifier[:4], 16) & 0xF000


def carried(text, lan):
    """The VIDs for which ports of a logical LAN on two bridges forward in their bridges' trees of them, and are members."""
    bridges = {at(name): name[0] for name, port in text.trees[0].ports.items() if port["lan"] == lan}
    return [vid for vid in range(1, 4095) if len({bridges[it] for it in bridges.keys() & text.active[vid]}) > 1]


def carries(text, enabled):
    """What each logical LAN carries at which two bridges have enabled ports, and last those that carry all VIDs."""
    ends = {}
    for name in enabled:
        ends.setdefault(text.trees[0].ports[name]["lan"], set()).add(name[0])
    vids = {lan: carried(text, lan) for lan in sorted(ends) if len(ends[lan]) > 1}
    full = [lan for lan, those in vids.items() if len(those) == 4094]
    some = [f"carries {lan} {list_of(those)}" for lan, those in vids.items() if lan not in full]
    return some + [f"carries * {','.join(full)}"] * bool(full)


def summary(text, bridges, off):
    ports = text.trees[0].ports if 0 in text.trees else {}
    enabled = [name for name, port in ports.items() if port["role"] != DISABLED]
    firsts = {region[-1] for region in text.regions.values()}
    trees = {number: tree for number, tree in sorted(text.trees.items()) if tree.bridges}
    counts = (len(bridges), len(bridges) - len(off), len(ports), len(enabled), len(firsts), len(trees))
    lines = ["bridges {} on {} ports {} enabled {} regions {} trees {}".format(*counts)]
    for number, tree in trees.items():
        lines += root_lines(number, tree)
        stops = [at(name) for name, port in tree.ports.items() if port["role"] in ("Alternate", "Backup")]
        lines.append(f"blocked {number} {','.join(stops) or '-'}")
    groups = {}
    for vid in range(1, 4095):
        groups.setdefault(len(text.islands[vid]), []).append(vid)
    lines += [f"vlan {list_of(vids)} islands {count}" for count, vids in groups.items()]
    return lines + carries(text, enabled) + looks(text.saved)


# ---- what is most often a slip, from the lines of `save` alone


def settings_of(saved, word, default):
    """The last words of the lines of a command, by the name behind it."""
    told = {words[1]: words[2:] for words in saved if words[0] == word}
    return lambda name: told.get(name, default)


def bridges_told(saved):
    """Bridges by name: (name, MAC, kind, name and revision of the configuration, trees of VIDs where it isn't 0)."""
    kinds, confs = settings_of(saved, "kind", ["mstp"]), settings_of(saved, "setmstconfid", None)
    tables = {}
    for words in saved:
        if words[0] == "setvid2mstid":
            tables.setdefault(words[1], {}).update(dict.fromkeys(numbers_in(words[3]), int(words[2])))
    told = []
    for words in sorted(words for words in saved if words[0] == "addbridge"):
        name, mac = words[1:]
        revision, conf = confs(name) or ["0", mac]
        table = {vid: tree for vid, tree in tables.get(name, {}).items() if tree}
        told.append((name, mac, kinds(name)[0], conf, int(revision), table))
    return told


def lans_told(saved):
    """Logical LANs by name: (name, speed, whether it is up, its logical ports by bridge and number)."""
    speeds, states = settings_of(saved, "speed", ["1000000"]), settings_of(saved, "lan", ["up"])
    keys = {(words[1], words[2]): int(words[3]) for words in saved if words[0] == "setkey"}
    plugs, classes = {words[1]: [] for words in saved if words[0] == "addlan"}, {}
    for words in saved:
        if words[0] == "plug":
            plugs[words[3]].append((words[1], int(words[2]), keys.get((words[1], words[2]), 0)))
    for lan, ports in sorted(plugs.items()):
        sides = [(bridge, key) for bridge, _, key in ports]
        alone = len(sides) != 2 or sides[0][0] == sides[1][0] or not all(key for _, key in sides)
        classes.setdefault(lan if alone else frozenset(sides), []).append(lan)
    told = []
    for lans in classes.values():
        ups = [lan for lan in lans if states(lan) == ["up"]]
        ports = sorted(port[:2] for lan in lans for port in plugs[lan])
        # of a group of LANs each bridge has one logical port, the first
        firsts = ports if len(lans) == 1 else [port for at, port in enumerate(ports) if not at or ports[at - 1][0] != port[0]]
        told.append((lans[0], sum(int(speeds(lan)[0]) for lan in ups), bool(ups), firsts))
    return sorted(told)


def is_near(one, other):
    """Whether two names are one but for the case of letters, or but for one letter. Names that differ in digits alone are a numbering."""
    short, long = sorted((one, other), key=len)
    if re.sub("[0-9]", "", one) == re.sub("[0-9]", "", other):
        return False
    if len(short) == len(long):
        return one.lower() == other.lower() or sum(a != b for a, b in zip(one, other)) == 1
    return any(long[:at] + long[at + 1 :] == short for at in range(len(long)))


def named_regions(bridges):
    """The regions that were given a name, by their first bridges: ((name, revision, table), bridges)."""
    regions = {}
    for name, mac, kind, conf, revision, table in bridges:
        if kind == "mstp":
            regions.setdefault((conf, revision, tuple(sorted(table.items()))), []).append((name, mac))
    return [(key, [name for name, _ in members]) for key, members in regions.items() if key[0] != members[0][1]]


def looks_at_regions(named):
    return [
        f"look region {one[0]} {','.join(members)} {other[0]} {','.join(others)}"
        for (one, members), (other, others) in itertools.combinations(named, 2)
        if one[1:] == other[1:] and is_near(one[0], other[0])
    ]


def looks_at_tables(named):
    """The bridge that stands against two or more, where all that have its name and its revision have one of two tables."""
    lines = []
    for (conf, revision, table), members in named:
        others = [(dict(key[2]), those) for key, those in named if key[:2] == (conf, revision) and key[2] != table]
        if len(members) == 1 and len(others) == 1 and len(others[0][1]) > 1:
            apart = [vid for vid in range(1, 4095) if dict(table).get(vid, 0) != others[0][0].get(vid, 0)]
            lines.append(f"look region {conf} {revision} {members[0]} table without {list_of(apart)}")
    return lines


def looks_at_lans(lans):
    bridges = {name: {bridge for bridge, _ in ports} for name, _, _, ports in lans}
    lines = []
    for name, speed, up, _ in lans:
        beside = [s for lan, s, is_up, _ in lans if lan != name and is_up and bridges[lan] & bridges[name]]
        if up and len(bridges[name]) == 2 and beside and min(beside) >= 100 * speed:
            lines.append(f"look lan {name} speed {speed} next {min(beside)}")
    return lines


def looks_at_vlans(lans, saved):
    """The links of two ports of two bridges that are members of different VLANs."""
    allowed = {(words[1], int(words[2])): words[3] for words in saved if words[0] == "setportvlans"}
    lines = []
    for _, _, up, ports in lans:
        if up and len(ports) == 2 and ports[0][0] != ports[1][0]:
            one, other = (set() if it == "none" else set(numbers_in(it)) for it in (allowed.get(port, "1-4094") for port in ports))
            told = (f"{at(port)} {list_of(vids)}" for port, vids in zip(ports, (one - other, other - one)))
            lines += ["look vlans " + " ".join(told)] * (one != other)
    return lines


def looks(saved):
    named, lans = named_regions(bridges_told(saved)), lans_told(saved)
    return looks_at_regions(named) + looks_at_tables(named) + looks_at_lans(lans) + looks_at_vlans(lans, saved)


# ---- networks


class Draws:
    """Numbers that are always the same for one begin."""

    def __init__(self, begin):
        self.state = begin * 2654435761 + 1

    def below(self, bound):
        self.state = (self.state * 6364136223846793005 + 1442695040888963407) % 2**64
        return (self.state >> 33) % bound

    def one_of(self, things):
        return things[self.below(len(things))]


def settings(draws, bridges):
    """A few settings of a bridge or a port, most of which do something."""
    bridge, port, vid = draws.one_of(bridges), draws.below(6) + 1, draws.below(20) + 1
    forms = [
        f"settreeprio {bridge} {draws.below(3)} {draws.below(16)}",
        f"settreeportprio {bridge} {port} {draws.below(3)} {draws.below(16)}",
        f"setportpathcost {bridge} {port} {draws.below(3)}0000",
        f"settreeportcost {bridge} {port} {draws.below(3)} {draws.below(3)}0000",
        f"setmstconfid {bridge} {draws.below(2)} {draws.one_of(['area', 'area', 'area', 'Area', 'areas', 'arena', 'lab', 'area1', 'area2'])}",
        f"setvid2mstid {bridge} {draws.below(3)} {vid}-{vid + draws.below(9)}",
        f"setportvlans {bridge} {port} {draws.one_of(['all', 'none', '5-12', '1-4000'])}",
        f"setportrestrrole {bridge} {port} {draws.one_of(['no', 'yes'])}",
        f"kind {bridge} {draws.one_of(['mstp', 'rstp'])}",
        f"bridge {bridge} {draws.one_of(['on', 'on', 'off'])}",
        f"lan L{draws.below(9)} {draws.one_of(['up', 'up', 'down'])}",
        f"speed L{draws.below(9)} {draws.one_of([1000, 10000, 100000, 1000000, 10000000])}",
        draws.one_of(["showplan", "showvlan 0", "showmstconfid nobody"]),
        "mark",
        "settreeprio nowhere 0 1",
    ]
    return draws.one_of(forms)


def drawn(number):
    """A network of up to eight bridges, with LANs of two or three ports and a few links that count as one."""
    draws = Draws(number)
    bridges = "ABCDEFGH"[: 2 + draws.below(7)]
    lines, next_port = [], dict.fromkeys(bridges, 1)
    for place, bridge in enumerate(bridges):
        lines += [f"addbridge {bridge} 02:00:00:00:00:{place + 1:02x}", f"setmstconfid {bridge} {draws.below(8) // 7} area"]
        lines += [f"setvid2mstid {bridge} 1 1-9"] * (draws.below(5) > 0) + [f"setvid2mstid {bridge} 2 20-29"] * (draws.below(5) > 0)
    for lan in range(len(bridges) + draws.below(5)):
        lines.append(f"addlan L{lan}")
        aggregated = draws.below(4) == 0
        for _ in range(2 + draws.below(8) // 7):
            bridge = draws.one_of(bridges)
            port = next_port[bridge]
            next_port[bridge] += 1
            lines += [f"addport {bridge} {port}", f"plug {bridge} {port} L{lan}"]
            lines += [f"setkey {bridge} {port} 1"] * aggregated
    return lines + [settings(draws, bridges) for _ in range(14)]


def run(program, words, script):
    ended = subprocess.run([program, *words], input="\n".join([*script, ""]).encode(), capture_output=True, check=False)
    if ended.returncode not in (0, 1) or ended.stderr:
        sys.exit(f"{words}: status {ended.returncode}, {ended.stderr}")
    return ended.stdout.decode(), ended.returncode


def is_quiet(line):
    """A query or a mark, which does nothing where the network is loaded, if it can be read."""
    return line.split()[0] in QUIET or line.startswith("show")


def edits_of(script):
    """The script with comments in place of its queries and marks."""
    return ["#" if is_quiet(line) else line for line in script]


def text_of(program, script):
    """What the texts say of the network that a script leaves, without its refused lines."""
    printed = run(program, ["run", "-"], [*edits_of(script), *QUERIES])[0]
    return Text("\n".join(line for line in printed.splitlines() if not line.startswith("line ")))


def refused(program, script):
    """What the refused lines print: a query and a mark are refused where they can't be read, and else do nothing."""
    lines = [line.split() for line in run(program, ["run", "-"], script)[0].splitlines() if line.startswith("line ")]
    return [" ".join(line) for line in lines if line[2] in UNREAD or not is_quiet(script[int(line[1]) - 1])]


def states_of(saved):
    """Which bridges are off, which LANs are down, all bridges and LANs, and the ports whose role is restricted."""
    names = {word: [words[1] for words in saved if words[0] == word] for word in ("addbridge", "addlan")}
    off = {words[1] for words in saved if words[0] == "bridge" and words[2] == "off"}
    down = {words[1] for words in saved if words[0] == "lan" and words[2] == "down"}
    restricted = {(words[1], int(words[2])) for words in saved if words[0] == "setportrestrrole" and words[3] == "yes"}
    return names["addbridge"], names["addlan"], off, down, restricted


def differing(program, words, script, wanted, status):
    printed, ended = run(program, words, script)
    if printed.splitlines() == wanted and ended == status:
        return []
    shown = "\n".join([f"{words}: status {ended}, not {status}", printed, "in place of", *wanted, "of", *script])
    return [shown]


def explains(program, script, text, lines):
    bridges, _, off, down, restricted = states_of(text.saved)
    faults = []
    for name in text.trees[0].ports:
        lan = text.trees[0].ports[name]["lan"]
        downs = down if lan in down and is_down(text, lan, off) else set()
        wanted = [*lines, *explained(text, name, off, downs, restricted)]
        faults += differing(program, ["explain", "-", name[0], str(name[1])], script, wanted, 1 if lines else 0)
    bridge = bridges[0] if bridges else "nowhere"
    none = "no such port" if bridges else "no such bridge"
    for words, told in ((["nowhere", "1"], "E04 no such bridge"), ([bridge, "4000"], f"{'E05' if bridges else 'E04'} {none}"), ([bridge, "x"], "E02 bad argument")):
        faults += differing(program, ["explain", "-", *words], script, [*lines, f"explain {told}"], 1)
    return faults


def is_down(text, lan, off):
    """A logical LAN is up where a port of a bridge that is on is enabled there; where no such bridge is, by its own state."""
    roles = [port["role"] for name, port in text.trees[0].ports.items() if port["lan"] == lan and name[0] not in off]
    return all(role == DISABLED for role in roles)


def diffs(program, script, other, text, folder):
    later = text_of(program, other)
    paths = [os.path.join(folder, name) for name in ("old", "new")]
    faults = []
    for (olds, old), (news, new) in itertools.product([(script, text), (other, later)], repeat=2):
        for path, lines in zip(paths, (olds, news)):
            with open(path, "w", encoding="ascii") as file:
                file.write("\n".join([*lines, ""]))
        told = difference(old, new)
        lines = [f"{side} {line}" for side, lines in (("old", olds), ("new", news)) for line in refused(program, lines)]
        faults += differing(program, ["diff", *paths], [], [*lines, *told], 1 if lines or len(told) > 1 else 0)
    return faults


def in_parts(program, number, script, words, wanted, refused_lines):
    """The parts of a sweep, of 1 to 12 of them, have its lines one after another, the refused lines once, and but for their last."""
    count = number % 12 + 1
    parts = [run(program, ["sweep", "-", *words, f"{part}/{count}"], script)[0].splitlines() for part in range(1, count + 1)]
    told = [*parts[0][:refused_lines], *itertools.chain.from_iterable(part[refused_lines:-1] for part in parts)]
    return [] if told == wanted else [f"network {number}: {count} parts of its sweep{' of pairs' if words else ''} aren't the sweep"]


def pairs(program, number, script, text, lines):
    bridges, lans, off, down, _ = states_of(text.saved)
    wanted = paired(program, script, text, [it for it in lans if it not in down], [it for it in bridges if it not in off])
    cuts = not wanted[-1].endswith(" cuts 0")
    faults = differing(program, ["sweep", "-", "pairs"], script, [*lines, *wanted], 1 if lines or cuts else 0)
    return faults + in_parts(program, number, script, ["pairs"], [*lines, *wanted[:-1]], len(lines))


def faults_of(program, number, script):
    draws = Draws(number + 10**6)
    other = [*script[:1], *(line for line in script[1:] if draws.below(20)), *(settings(draws, "ABC") for _ in range(draws.below(4)))]
    text, lines = text_of(program, script), refused(program, script)
    bridges, lans, off, down, _ = states_of(text.saved)
    with tempfile.TemporaryDirectory() as folder:
        faults = explains(program, script, text, lines) + diffs(program, script, other, text, folder)
    ups, ons = [it for it in lans if it not in down], [it for it in bridges if it not in off]
    wanted = [*lines, *summary(text, bridges, off)]
    faults += differing(program, ["summary", "-"], script, wanted, 1 if lines else 0)
    wanted = swept(program, script, text, ups, ons)
    cuts = not wanted[-1].endswith(" cuts 0")
    faults += differing(program, ["sweep", "-"], script, [*lines, *wanted], 1 if lines or cuts else 0)
    faults += in_parts(program, number, script, [], [*lines, *wanted[:-1]], len(lines))
    return faults + (pairs(program, number, script, text, lines) if len(ups) + len(ons) <= 16 else [])


def check_drawn(check, count, told, usage):
    """What a check of drawn networks comes to, by the words PROGRAM [COUNT] [FIRST]: a few faults, or what is told of none."""
    if not 2 <= len(sys.argv) <= 4:
        sys.exit(usage)
    count, first = [*map(int, sys.argv[2:]), *[count, 0][len(sys.argv) - 2 :]]
    faults = check(sys.argv[1], count, first)
    print("\n\n".join(faults[:5]) or f"{count} {told}")
    sys.exit(1 if faults else 0)


def lines_of(path):
    """A script's lines, blank ones and comments as `#`."""
    with open(path, encoding="ascii") as file:
        return [line.strip() or "#" for line in file]


def networks(words):
    """The numbers and the scripts of the networks that the words ask for, or none where they don't."""
    if words and not all(word.isdecimal() for word in words):
        return list(enumerate(map(lines_of, words)))
    count, first = [*map(int, words), *[40, 0][len(words) :]][:2]
    return [(number, drawn(number)) for number in range(first, first + count)]


def main():
    words = sys.argv[1:]
    if not words or words[1:] and words[1].isdecimal() and len(words) > 3:
        sys.exit(__doc__)
    asked = networks(words[1:])
    with concurrent.futures.ThreadPoolExecutor(os.cpu_count()) as pool:
        found = pool.map(lambda network: faults_of(words[0], *network), asked)
        faults = list(itertools.chain.from_iterable(found))
    for fault in faults[:5]:
        print(fault)
    print(f"{len(asked)} networks: {len(faults)} answers differ")
    sys.exit(1 if faults else 0)


if __name__ == "__main__":
    main()
