#!/usr/bin/env python3
"""Policies (`mstplan verify FILE POLICY`), for program.py: what is told of promises that a network keeps, and of their contraries, is
what the texts of `run` say of the network, and of the network after a failure.

usage: verify_runs.py PROGRAM [COUNT] [FIRST]    (so many networks, or 200; program.py takes fewer)

Networks are drawn by their numbers. A policy is made of each of them: of its roots, its regions, the ports that block, what VLANs reach and
what LANs carry. All of it holds. Then each promise is turned into its contrary, and behind these stand some of both after failures. Of lists
of what fails the lines are told of which nothing is judged. Some networks get risks, and promises after them, by the texts of `run` of the
network with all failures of a risk. The exit status is 1 where an answer differs.
"""

import concurrent.futures
import functools
import itertools
import os
import subprocess
import sys
import tempfile

SAMPLES = os.path.join(os.path.dirname(os.path.abspath(__file__)), os.pardir, "examples")
# nothing is to be left beside what is imported
sys.dont_write_bytecode = True

import path_runs  # noqa: E402
import sketch  # noqa: E402

COUNT = 200
IN_THE_GATE = 20
ALL_VIDS = range(1, 4095)
# Of so many sets of active ports paths are promised.
MOST_BODIES = 4
ROLES = ["Root", "Designated", "Alternate", "Backup", "Master", "Disabled", "-"]
BLOCKS = ("Alternate", "Backup")
NOTHING = "policy 0 E17 nothing to judge"
NOTHING_RECORD = '{"kind":"policy","line":0,"error":"E17","text":"nothing to judge"}'


# ---- what a network is like, and where a promise isn't kept in it


class Judged:
    """The texts of a network that is judged, those of the one before the failures, the bridges that failed, and the texts of what `together`
    looks back at."""

    def __init__(self, text, before, lost=(), earlier=None):
        self.text, self.before, self.lost, self.earlier = text, before, lost, earlier
        self.bridges, self.off = sorted(text.regions), set(sketch.states_of(text.saved)[2])
        self.over = functools.lru_cache(self.over)

    def named(self, names):
        return [it for it in self.bridges if it not in self.lost and any(has(item, it) for item in names.split(","))]

    def ports(self, items):
        """The ports of a list, but for those that stopped with the failure."""
        here, then = self.text.trees[0].ports, self.before.trees[0].ports
        stopped = {it for it in here if here[it]["role"] == sketch.DISABLED != then[it]["role"]}
        pairs = [item.split(":") for item in items.split(",")]
        return [it for it in sorted(here) if it not in stopped and any(has(b, it[0]) and p in ("*", str(it[1])) for b, p in pairs)]

    def alike(self, vids, kept, told_of):
        """VIDs by what is told of them, by the least: it is told once of those for which the same is kept."""
        told, groups = {}, {}
        for vid in sketch.numbers_in(vids):
            own = tuple(kept[vid])
            if own not in told:
                told[own] = told_of(vid)
            groups.setdefault(told[own], []).append(vid)
        return [(sketch.list_of(those), told) for told, those in groups.items() if told]

    def grouped(self, vids, told_of):
        """VIDs by what is told of their islands, by the least."""
        return self.alike(vids, self.text.islands, lambda vid: told_of(tuple(self.text.islands[vid])))

    def by_paths(self, vids, told_of):
        """VIDs by what is told of their paths, by the least."""
        return self.alike(vids, self.text.active, told_of)

    def path(self, vid, first, last):
        """The bridges of the path from one bridge to another, or nothing."""
        hops = path_runs.path(self.text, vid, first, last, self.off)
        return [] if hops is None else [first, *(arrives[0] for arrives, _, _ in hops)]

    def over(self, lan):
        """The VIDs for which ports on two bridges of a logical LAN are active and members."""
        return frozenset(sketch.carried(self.text, lan))

    def concerned(self, tree, bridge):
        """The bridges that have a root in the tree, with their entries; in a tree other than 0 those of the bridge's region."""
        entries = {name: entry for name, entry in self.text.trees[tree].bridges.items() if entry}
        regions = self.text.regions
        return {name: entry for name, entry in entries.items() if tree == 0 or regions[name] == regions[bridge]}


def has(item, name):
    return name.startswith(item[:-1]) if item.endswith("*") else item == name


def listed(parts):
    return " ".join(map(",".join, parts))


def parted(bridges, mark):
    """The parts of bridges that have the same mark, by the first; one that has none is a part of its own."""
    parts = {}
    for bridge in bridges:
        parts.setdefault(mark(bridge) or bridge, []).append(bridge)
    return list(parts.values())


def root_reasons(judged, tree, bridge, behind):
    entries = judged.concerned(int(tree), bridge)
    if not entries:
        return [f"root {tree} -"]
    names = sketch.names_by_id(judged.text.trees[int(tree)])
    roots = [names[sketch.root_id(entry, int(tree))] for entry in entries.values()]
    others = [f"root {tree} {it} of {roots.count(it)}" for it in sorted(set(roots)) if it != bridge]
    if others or not behind:
        return others
    rest = sorted((entry[0], name) for name, entry in entries.items() if name != bridge)
    follower = rest[0][1] if rest else "-"
    return [] if follower == behind[1] else [f"root {tree} {bridge} next {follower}"]


def region_reasons(judged, names):
    parts = parted(judged.named(names), lambda it: tuple(judged.text.regions[it]))
    return [f"region parts {listed(parts)}"] if len(parts) > 1 else []


def role_reasons(judged, tree, items, roles):
    lines = []
    for role in ROLES:
        those = [sketch.at(it) for it in judged.ports(items) if sketch.role_at(judged.text, int(tree), it) == role]
        if those and role not in roles.split(","):
            lines.append(f"role {tree} {','.join(those)} {role}")
    return lines


def reach_reasons(judged, vids, names):
    bridges = judged.named(names)

    def parts_of(islands):
        parts = parted(bridges, lambda bridge: next((it for it in islands if bridge in it), None))
        return listed(parts) if len(parts) > 1 else ""

    return [f"reach {those} parts {told}" for those, told in judged.grouped(vids, parts_of)]


def together_reasons(judged, vids, names):
    """Parts of those that were in one island before and are on in both; nothing where nothing is before."""
    among = [it for it in sorted(judged.earlier.regions) if it not in judged.lost and any(has(item, it) for item in names.split(","))] if judged.earlier else []

    def kept(islands):
        return [those for those in (tuple(it for it in island if it in among) for island in islands) if those]

    told = {}
    for vid in sketch.numbers_in(vids) if among else []:
        parts = sketch.parts(kept(judged.earlier.islands[vid]), kept(judged.text.islands[vid]))
        if parts:
            told.setdefault(parts, []).append(vid)
    return [f"together {sketch.list_of(those)} parts {parts}" for parts, those in told.items()]


def apart_reasons(judged, vids, names, others):
    first, second = judged.named(names), judged.named(others)

    def joined_of(islands):
        among = [[it for it in island if it in first or it in second] for island in islands]
        return listed(sorted(sorted(it) for it in among if set(it) & set(first) and set(it) & set(second)))

    return [f"apart {those} joined {told}" for those, told in judged.grouped(vids, joined_of)]


def leaves_reasons(judged, vids, names):
    first = judged.named(names)
    others = {it for it in judged.bridges if not any(has(item, it) for item in names.split(","))}

    def joined_of(islands):
        return listed(sorted(sorted(it) for it in islands if set(it) & set(first) and set(it) & others))

    return [f"leaves {those} joined {told}" for those, told in judged.grouped(vids, joined_of)]


def hops_reasons(judged, vids, most, names):
    bridges = judged.named(names)

    def farthest(vid):
        paths = [judged.path(vid, *pair) for pair in itertools.permutations(bridges, 2)]
        found = min(((1 - len(it), it[0], it[-1]) for it in paths if it), default=(0,))
        return f"{-found[0]} {','.join(found[1:])}" if -found[0] > int(most) else ""

    return [f"hops {those} {told}" for those, told in judged.by_paths(vids, farthest)]


def via_reasons(judged, vids, first, last, by):
    def otherwise(vid):
        met = judged.path(vid, first, last)
        return "" if by in met else ",".join(met)

    return [f"via {those} by {told}" for those, told in judged.by_paths(vids, otherwise)]


def carries_reasons(judged, lan, vids):
    without = [vid for vid in sketch.numbers_in(vids) if vid not in judged.over(lan)]
    return [f"carries {lan} without {sketch.list_of(without)}"] if without else []


def avoids_reasons(judged, lan, vids):
    over = [vid for vid in sketch.numbers_in(vids) if vid in judged.over(lan)]
    return [f"avoids {lan} with {sketch.list_of(over)}"] if over else []


def reasons(judged, line):
    word, *words = line.split()
    if word == "root":
        return root_reasons(judged, words[0], words[1], words[2:])
    forms = {
        "region": region_reasons, "role": role_reasons, "reach": reach_reasons, "apart": apart_reasons,
        "carries": carries_reasons, "avoids": avoids_reasons, "together": together_reasons, "leaves": leaves_reasons, "hops": hops_reasons,
        "via": via_reasons,
    }
    return forms[word](judged, *words)


# ---- promises and their contraries


def of_roots(judged):
    """Each bridge as root of each tree that its network has: with who comes next where it is the one root."""
    for tree, bridge in itertools.product(sorted(judged.text.trees), judged.bridges):
        line = f"root {tree} {bridge}"
        yield line
        told = root_reasons(judged, str(tree), bridge, ["next", "-"])
        if told and told[0].startswith(f"{line} next "):
            follower = told[0].split()[-1]
            yield from [f"{line} next {it}" for it in judged.bridges if it in (follower, bridge)]


def of_ports(judged):
    """What blocks blocks, and doesn't; each bridge's ports have their roles, and none of them."""
    for number, tree in sorted(judged.text.trees.items()):
        stops = ",".join(sketch.at(it) for it, port in tree.ports.items() if port["role"] in BLOCKS)
        if stops:
            yield from [f"role {number} {stops} {','.join(BLOCKS)}", f"role {number} {stops} Root,Designated"]
        for bridge in sorted({it[0] for it in tree.ports}):
            roles = sorted({port["role"] for it, port in tree.ports.items() if it[0] == bridge})
            yield f"role {number} {bridge}:* {','.join(roles)}"
            yield f"role {number} {bridge}:* {','.join(it for it in ROLES[:-1] if it not in roles) or 'Root'}"


def of_regions(judged):
    for region in parted(judged.bridges, lambda it: tuple(judged.text.regions[it])):
        yield f"region {','.join(region)}"
    yield "region *"


def of_islands(judged):
    bodies = {}
    for vid in ALL_VIDS:
        bodies.setdefault(tuple(judged.text.islands[vid]), []).append(vid)
    for islands, those in bodies.items():
        vids = sketch.list_of(those)
        yield from [f"reach {vids} {','.join(island)}" for island in islands]
        yield from [f"apart {vids} {','.join(one)} {','.join(other)}" for one, other in itertools.combinations(islands, 2)]
        yield from [f"reach {vids} {one[0]},{other[-1]}" for one, other in itertools.combinations(islands, 2)]
        yield from [f"apart {vids} {island[0]} {island[-1]}" for island in islands]
        yield from [f"leaves {vids} {it}" for island in islands for it in (",".join(island), island[0])]
    yield "reach 1-4094 *"


def of_paths(judged):
    """Of each set of active ports: the most hops in an island, and one hop less; of its longest path each bridge, and one that it doesn't meet."""
    bodies = {}
    for vid in ALL_VIDS:
        bodies.setdefault(tuple(judged.text.active[vid]), []).append(vid)
    for those in list(bodies.values())[:MOST_BODIES]:
        vids = sketch.list_of(those)
        paths = [judged.path(those[0], *pair) for pair in itertools.permutations(judged.bridges, 2)]
        longest = max((it for it in paths if it), key=len, default=[])
        if longest:
            yield from [f"hops {vids} {len(longest) - most} *" for most in (1, 2)]
            yield from [f"via {vids} {longest[0]} {longest[-1]} {it}" for it in (*longest, *[it for it in judged.bridges if it not in longest][:1])]
    yield "hops 1-4094 0 *"


def of_lans(judged):
    for lan in sorted({port["lan"] for port in judged.text.trees[0].ports.values()}):
        over = judged.over(lan)
        rest = [vid for vid in ALL_VIDS if vid not in over]
        yield from [f"carries {lan} {sketch.list_of(over)}", f"avoids {lan} {sketch.list_of(over)}"] * bool(over)
        yield from [f"avoids {lan} {sketch.list_of(rest)}", f"carries {lan} {sketch.list_of(rest)}"] * bool(rest)


def lines_of(judged):
    forms = of_roots, of_ports, of_regions, of_islands, of_paths, of_lans
    return [line for form in forms for line in form(judged) if len(line) < 4000]


# ---- networks


def answer(policy, told, lines):
    """What is printed of a policy, by what is told of each of its lines."""
    holding = sum(not it for it in told)
    return [*lines, *([] if policy else [NOTHING]), *itertools.chain.from_iterable(told), f"verify expectations {len(policy)} hold {holding}"]


def differing(program, script, policy, wanted, status, word="verify"):
    with tempfile.NamedTemporaryFile("w", suffix=".policy", encoding="ascii") as file:
        file.write("\n".join([*policy, ""]))
        file.flush()
        return sketch.differing(program, [word, "-", file.name], script, wanted, status)


def after_all(program, script, text, failures):
    """The network after some failures, all at once."""
    after = sketch.text_of(program, [*script, *(edit for _, _, edit in failures)])
    return Judged(after, text, {name for what, name, _ in failures if what == "bridge"}, text)


def failed(program, script, text, choice):
    """The networks of a few failures, with the scopes that ask for them."""
    bridges, lans, off, down, _ = sketch.states_of(text.saved)
    failures = sketch.failures_of([it for it in lans if it not in down], [it for it in bridges if it not in off])
    for what, name, edit in sorted({choice.one_of(failures) for _ in range(3)}, key=failures.index) if failures else []:
        yield f"{what} {name}", after_all(program, script, text, [(what, name, edit)])


# ---- what is told once


def once(place, now, later, tells_now):
    """The lines of a promise whose scope has `always` or a `*`: what the network itself tells isn't told again of failures."""
    left = [[it for it in told if it in now] for _, told in later]
    lines = [f"fails {place} now {it}" for it in now if tells_now or any(it in those for those in left)]
    lines += [f"same {place} failures {sum(map(bool, left))}"] if any(left) else []
    return lines + [f"fails {place} {what} {it}" for what, told in later for it in told if it not in now]


def everywhere(program, script, text):
    """The networks of all failures."""
    bridges, lans, off, down, _ = sketch.states_of(text.saved)
    for what, name, edit in sketch.failures_of([it for it in lans if it not in down], [it for it in bridges if it not in off]):
        yield f"{what} {name}", after_all(program, script, text, [(what, name, edit)])


def own_of(line):
    """What an expectation names: its failure is left out by a scope that doesn't name it itself."""
    word, *words = line.split()
    if word == "root":
        return [f"bridge {words[1]}", *(f"bridge {it}" for it in words[3:])]
    if word == "via":
        return [f"bridge {it}" for it in words[1:]]
    return [f"lan {words[0]}"] if word in ("carries", "avoids") else []


def folded(program, script, judged, lines, refused):
    """What differs of such promises, after each failure: with `always`, and after those of all bridges or all LANs. Those of what stays together are judged after failures alone."""
    failures = list(everywhere(program, script, judged.text))
    policy, told = [], []
    for line, scope in itertools.product(lines, ("always", "after lan *", "after bridge *")):
        later = [(place, reasons(it, line)) for place, it in failures if place not in own_of(line) and (scope == "always" or place.startswith(scope[6:-2]))]
        now = reasons(judged, line)
        if later or scope == "always" and not line.startswith("together"):
            policy.append(f"{scope} {line}")
            told.append(once(len(policy), now, later, scope == "always"))
    return differing(program, script, policy, answer(policy, told, refused), 1 if refused or any(told) or not policy else 0)


def lists_of(names, choice):
    """A few lists of names, of beginnings of names, and of both."""
    items = sorted({*names, *(f"{it[:-1]}*" for it in names if len(it) > 1), "*"})
    return [",".join(choice.one_of(items) for _ in range(choice.below(3) + 1)) for _ in range(4)]


def is_judged(items, fail, own):
    """Whether each item has a failure that is judged, of these names, where the expectation names one."""
    items = items.split(",")
    judged = [it for it in fail if any(has(item, it) for item in items) and (it != own or it in items)]
    return all(any(has(item, it) for it in judged) for item in items)


def unjudged(program, script, text, choice):
    """Lines of which nothing is judged are refused, and no others: after failures of lists of bridges and of LANs."""
    bridges, lans, off, down, _ = sketch.states_of(text.saved)
    policy, wanted = [], []
    for what, names, gone in ("bridge", bridges, off), ("lan", lans, down):
        for items in lists_of(names, choice) if names else []:
            own = choice.one_of(names)
            policy.append(f"after {what} {items} {f'root 0 {own}' if what == 'bridge' else f'carries {own} 1-9'}")
            if not is_judged(items, [it for it in names if it not in gone], own):
                wanted.append(f"policy {len(policy)} E17 nothing to judge")
    with tempfile.NamedTemporaryFile("w", suffix=".policy", encoding="ascii") as file:
        file.write("\n".join([*policy, ""]))
        file.flush()
        printed = sketch.run(program, ["verify", "-", file.name], script)[0].splitlines()
    told = [it for it in printed if it.startswith("policy ")]
    if told == wanted and printed[-1].startswith(f"verify expectations {len(policy) - len(wanted)} "):
        return []
    return ["\n".join([f"{told}, in place of {wanted}, of", *policy, "and", *script])]


# ---- what fails together

RISKS = ["duct-1", "duct-2", "hall", "x"]
LACKING = {"lan": "E06 no such LAN", "bridge": "E04 no such bridge"}


def drawn_risks(text, choice):
    """A few lines of risks with what refuses each, and the failures of the risks that have some, by their first lines: a refused line adds none."""
    bridges, lans, off, down, _ = sketch.states_of(text.saved)
    standing = sketch.failures_of([it for it in lans if it not in down], [it for it in bridges if it not in off])
    lines, meant = {}, {}
    for _ in range(choice.below(5) + 1):
        what, names = choice.one_of([("lan", lans), ("bridge", bridges)])
        items = choice.one_of([*lists_of(names, choice), "nope*"] if names else ["*"])
        name = choice.one_of(RISKS)
        is_whole = all(any(has(item, it) for it in names) for item in items.split(","))
        lines[f"risk {name} {what} {items}"] = "" if is_whole else LACKING[what]
        if is_whole:
            meant.setdefault(name, []).append((what, items.split(",")))
    risks = {name: [it for it in standing if any(it[0] == what and any(has(item, it[1]) for item in items) for what, items in parts)] for name, parts in meant.items()}
    return lines, {name: those for name, those in risks.items() if those}


def is_own(line, failures):
    return any(f"{what} {name}" in own_of(line) for what, name, _ in failures)


def with_risks(program, script, judged, lines, choice, refused):
    """What differs of promises after risks, all failures of each at once, behind lines of risks: with `always`, after one by its name, and after all. And of what
    each risk does alone."""
    text = judged.text
    said, risks = drawn_risks(text, choice)
    events = {name: after_all(program, script, text, those) for name, those in risks.items()}
    policy, told = list(said), []
    bad = [f"policy {place} {why}" for place, why in enumerate(said.values(), 1) if why]
    singles = list(everywhere(program, script, text))

    def promise(scope, line, rows):
        policy.append(f"{scope} {line}")
        told.append(rows(len(policy)))

    for line in lines:
        now, others = reasons(judged, line), [it for it in risks if not is_own(line, risks[it])]
        at_once = [(f"risk {it}", reasons(events[it], line)) for it in others]
        alone = [(place, reasons(it, line)) for place, it in singles if place not in own_of(line)]
        if alone or at_once or not line.startswith("together"):
            promise("always", line, lambda place, now=now, later=alone + at_once: once(place, now, later, True))
        if at_once:
            promise("after risk *", line, lambda place, now=now, later=at_once: once(place, now, later, False))
        for name in list(risks)[:1]:
            promise(f"after risk {name}", line, lambda place, name=name, line=line: [f"fails {place} risk {name} {it}" for it in reasons(events[name], line)])
    policy.append("after risk none-such fits")
    bad.append(f"policy {len(policy)} {NOTHING.split(' ', 2)[2]}")
    holding = sum(not it for it in told)
    wanted = [*refused, *bad, *itertools.chain.from_iterable(told), f"verify expectations {len(told)} hold {holding}"]
    faults = differing(program, script, policy, wanted, 1)
    rows, cuts = [], 0
    for name, after in events.items():
        of_risk, is_cut = sketch.failure_lines("risk", name, text, after.text)
        rows += of_risk
        cuts += is_cut
    swept = [*refused, *bad[:-1], *rows, f"sweep risks {len(events)} cuts {cuts}"]
    return faults + differing(program, script, policy, swept, 1 if refused or bad[:-1] or cuts else 0, "sweep")


def faults_of(program, number):
    script, draws = sketch.drawn(number), sketch.Draws(number + 10**7)
    text, refused = sketch.text_of(program, script), sketch.refused(program, script)
    if 0 not in text.trees:
        return []
    judged = Judged(text, text)
    all_lines = lines_of(judged)
    told = {line: reasons(judged, line) for line in all_lines}
    # what is meant to be cut stands without a scope
    scoped = [it for it in all_lines if not it.startswith("leaves ")]
    kept, broken = [it for it in all_lines if not told[it]], [it for it in all_lines if told[it]]
    status = 1 if refused or not kept else 0
    faults = differing(program, script, kept, answer(kept, [[] for _ in kept], refused), status)
    faults += unjudged(program, script, text, draws)
    now = [[f"fails {place} now {it}" for it in told[line]] for place, line in enumerate(broken, 1)]
    faults += differing(program, script, broken, answer(broken, now, refused), 1)
    policy, later = [], []
    for place, after in failed(program, script, text, draws):
        for line in scoped[draws.below(3) :: 3]:
            policy.append(f"after {place} {line}")
            later.append([f"fails {len(policy)} {place} {it}" for it in reasons(after, line)])
    faults += differing(program, script, policy, answer(policy, later, refused), 1 if refused or any(later) or not policy else 0)
    if number % 4 == 1:
        faults += with_risks(program, script, judged, [it for it in scoped[draws.below(7) :: 7] if len(it) < 200][:6] + ["together 1-4094 *"], draws, refused)
    if number % 4 == 0:
        some = [it for it in scoped[draws.below(7) :: 7] if len(it) < 200][:12]
        some += ["together 1-4094 *", *["together 1-20 A,B,C"] * ({"A", "B", "C"} <= set(judged.bridges))]
        faults += folded(program, script, judged, some, refused)
    return faults


def check(program, count, first=0):
    """What differs, of so many networks."""
    with concurrent.futures.ThreadPoolExecutor(os.cpu_count()) as pool:
        found = pool.map(lambda number: faults_of(program, number), range(first, first + count))
        return list(itertools.chain.from_iterable(found))


# ---- the examples


CHANGED = """fails 2 now root 0 core2 of 6
fails 10 lan dist1-acc2 reach 1-9,11-19,21-4094 parts acc1,core1,core2,dist1,dist2 acc2
fails 10 bridge dist1 reach 1-9,11-19,21-4094 parts acc1,core1,core2,dist2 acc2
verify expectations 16 hold 14
"""
# Lines that are no promises of the campus, and what refuses them.
BAD = {
    "roots 0 core1": "E01 no such expectation", "root 0": "E01 no such expectation", "root 4095 core1": "E03 bad VID or tree",
    "root 0 core9": "E04 no such bridge", "reach 10 zz*": "E04 no such bridge", "role 0 acc1:9 Root": "E05 no such port",
    "role 0 acc1:1 Rootish": "E02 bad argument", "reach 0 *": "E03 bad VID or tree", "after link L root 0 core1": "E01 no such expectation",
    "after lan nope* fits": "E06 no such LAN", "depth x core1": "E02 bad argument", "carries nolan 10": "E06 no such LAN",
    "always": "E01 no such expectation", f"#{' ' * 4096}": "E01 no such expectation", "mstplan 2": "E01 no such expectation",
}


# What a policy promises of a network that has nothing, and of what can't fail in the campus with a bridge off and a LAN down.
EMPTY = {
    "reach 10 *": "E04 no such bridge", "fits": "E04 no such bridge", "always depth 0 3": "E04 no such bridge", "role 0 *:* Root": "E04 no such bridge",
    "after lan * fits": "E04 no such bridge", "carries nolan 10": "E04 no such bridge", "depth 7 3": "E03 bad VID or tree",
}
OFF = ["bridge acc2 off", "lan dist1-acc1 down"]
UNJUDGED = {
    "after bridge acc2 root 0 core1": "E17 nothing to judge", "after lan dist1-acc1 fits": "E17 nothing to judge",
    "after bridge core1* root 0 core1": "E17 nothing to judge", "after lan dist2-acc*,dist1-acc1 fits": "E17 nothing to judge",
    "after bridge core1 root 0 core2": "", "after bridge core1,core1* root 0 core1 next core2": "",
    "after lan * carries core1-dist1 1-4094": "", "after lan core1-dist1 avoids core1-dist1 1-4094": "",
}


def check_words(program, words, typed, status, printed):
    ran = subprocess.run([program, "verify", *words], input=typed.encode(), capture_output=True, check=False)
    if (ran.returncode, ran.stdout.decode(), ran.stderr) == (status, printed, b""):
        return True
    print(f"verify {words}: status {ran.returncode}, {ran.stdout}, {ran.stderr}")
    return False


def rows_of(lines):
    return "".join(f"policy {place} {told}\n" for place, told in enumerate(lines.values(), 1) if told)


def check_unjudged(program, script):
    """What can't fail is no item of a scope."""
    with open(script, encoding="ascii") as file:
        lines = [*file.read().splitlines(), *OFF]
    with tempfile.NamedTemporaryFile("w", suffix=".policy", encoding="ascii") as file:
        file.write("\n".join([*UNJUDGED, ""]))
        file.flush()
        printed = sketch.run(program, ["verify", "-", file.name], lines)[0].splitlines(keepends=True)
    if "".join(it for it in printed if it.startswith("policy")) == rows_of(UNJUDGED):
        return True
    print("".join(["of what can't fail\n", *printed]))
    return False


def check_examples(program):
    script, changed, policy = [os.path.join(SAMPLES, it) for it in ("campus.script", "campus-changed.script", "campus.policy")]
    with open(policy, encoding="ascii") as file:
        promises = file.read()
    return [
        check_words(program, [script, policy], "", 0, "verify expectations 16 hold 16\n"),
        check_words(program, [changed, policy], "", 1, CHANGED),
        check_words(program, [changed, "-"], promises.replace("\n", "\r\n"), 1, CHANGED),
        check_words(program, [script, "-"], "\n".join(BAD), 1, rows_of(BAD) + "verify expectations 0 hold 0\n"),
        check_words(program, ["-", os.devnull], "no\n", 1, f"line 1 E01 no such command\n{NOTHING}\nverify expectations 0 hold 0\n"),
        check_words(program, ["-", "-"], "addbridge A 00:00:00:00:00:01\n", 1, f"{NOTHING}\nverify expectations 0 hold 0\n"),
        check_words(program, [script, "-"], "# none yet\n\n", 1, f"{NOTHING}\nverify expectations 0 hold 0\n"),
        check_words(program, [script, "-"], "roots\n", 1, "policy 1 E01 no such expectation\nverify expectations 0 hold 0\n"),
        check_words(program, [os.devnull, "-"], "\n".join(EMPTY), 1, rows_of(EMPTY) + "verify expectations 0 hold 0\n"),
        check_words(program, ["--json", "-", os.devnull], "", 1, f'{{"query":"verify","records":[{NOTHING_RECORD},{{"kind":"verify","expectation_count":0,"hold_count":0,"promises":[]}}]}}\n'),
        check_unjudged(program, script),
    ]


def checks(program, _folder):
    """Whether the examples are told as they are printed in docs/USING.md, and drawn networks as the texts say."""
    faults = check(program, IN_THE_GATE)
    print("".join(f"{it}\n" for it in faults), end="")
    return [*check_examples(program), not faults]


if __name__ == "__main__":
    sketch.check_drawn(check, COUNT, "networks: as the texts say", __doc__)
