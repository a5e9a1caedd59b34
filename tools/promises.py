#!/usr/bin/env python3
"""Prints a policy of what a network does now: its first one, to read, to cut and to keep.

Each line is a guess that `mstplan verify` has judged to hold: roots and which bridge comes next, also after a failure; regions; which
bridges each VLAN joins, also after each single failure, and where VLANs are pruned, that what is joined stays so; bridges that no traffic
crosses; ports that block; how VLANs are parted over links; depths, hops and limits. A guess that doesn't hold is left out, and so is what would be too much: comments tell of it. Names are
written by their beginnings (acc*) where these have no others, so that a new bridge of such a name is asked for the same.

For example: promises.py mstplan campus.script > campus.policy && mstplan verify campus.script campus.policy
"""

import argparse
import itertools
import re
import sys

sys.dont_write_bytecode = True

import mstplan  # noqa: E402
from command import OK, STATUSES, TOLD, Files, guarded, name_of, natural, tell, tell_refused, write  # noqa: E402

TOOL = "promises.py"
# How many trees, sets of VLANs and links have lines of their own, and slips a comment; how long such a line is at most, and any line.
TREES, VLANS, LINKS, MOST_LOOKS, LONGEST, LONGEST_LINE, WIDTH = 4, 5, 5, 4, 200, 4000, 120
MOST_TRIED, HIGHEST_VID = 30, 4094
# How many bridges a network has at most in which hops are asked for after each failure: that takes a walk from each bridge for each failure, some 4 s with 100 bridges.
MOST_FAR = 120


def expanded(runs):
    return {vid for first, last in runs for vid in range(first, last + 1)}


class Names:
    """Sets of bridges as short lists of names: by beginnings that all of some and no others have, the largest of these first."""

    def __init__(self, every):
        self.every = sorted(every)

    def items(self, wanted, others=None):
        """The items of a list. `others` are the names that a beginning may not have: all the rest where none are given."""
        left, found = set(wanted), []
        others = set(self.every) - left if others is None else set(others)
        if left and not others:
            return ["*"]
        heads = {name[:size] for name in left for size in range(1, len(name) + 1)}
        heads = {it for it in heads if not any(other.startswith(it) for other in others)}
        while left:
            sets = {it: frozenset(name for name in left if name.startswith(it)) for it in heads}
            best = max(sorted(sets), key=lambda it: (len(sets[it]), len(it)), default=None)
            if best is None or len(sets[best]) < 2:
                return sorted([*found, *left])
            found.append(f"{self.plain(best, sets)}*")
            left -= sets[best]
        return sorted(found)

    @staticmethod
    def plain(best, sets):
        """Of the beginnings of the same names the one without digits at its end, if it is one of them: acc and not acc1."""
        bare = best.rstrip("0123456789.")
        return bare if sets.get(bare) == sets[best] else best

    def list(self, wanted):
        return ",".join(self.items(wanted))


class Guesses:
    """Groups of guesses. A guess is lines of which the first that holds is taken; what is left out is told."""

    def __init__(self):
        self.groups, self.told = [], []

    def group(self, title):
        self.groups.append((title, []))

    def add(self, *lines):
        self.groups[-1][1].append([it for it in lines if len(it) <= LONGEST_LINE])

    def first(self, things, most, what, option):
        """So many of these things; of the others it is told how to have them."""
        if len(things) > most:
            self.told.append(f"{len(things) - most} more {what}: {option} {len(things)} has them")
        return things[:most]

    def lines(self):
        return list(dict.fromkeys(line for _, guesses in self.groups for lines in guesses for line in lines))


class Asked:
    """What PROGRAM tells of a network."""

    def __init__(self, program, script):
        with program.standing(script) as standing:
            self.refused = standing.refused
            answers = [standing.answer(it) for it in ("summary", "showplan", "showregions", "sweep", "shownotes")]
        self.summary, self.plan, regions, self.sweep, self.notes = answers
        self.regions = [it for it in regions if it["kind"] == "region"]
        self.every = sorted(name for it in self.regions for name in it["bridges"])
        self.islands, self.trees = {}, {}
        for it in self.plan:
            if it["kind"] in ("bridge", "port"):
                self.trees.setdefault(it["tree"], []).append(it)
            if it["kind"] == "island" and it["bridges"]:
                for vid in expanded(it["vids"]):
                    self.islands.setdefault(vid, []).append(frozenset(it["bridges"]))

    def of(self, kind):
        """The records of a summary of this kind."""
        return [it for it in self.summary if it["kind"] == kind]

    def apart_after_failures(self):
        """Of each VID the bridges that some single failure parts from most of the others."""
        found = {}
        for it in (it for it in self.sweep if it["kind"] == "cut"):
            apart = {name for part in sorted(it["parts"], key=len)[:-1] for name in part}
            for vid in expanded(it["vids"]):
                found.setdefault(vid, set()).update(apart)
        return found

    def trees_by_use(self):
        """The trees, the CIST first and then those that most VIDs are joined in."""
        bridges = {}
        for it in self.of("tree"):
            bridges[it["tree"]] = max(bridges.get(it["tree"], 0), it["bridge_count"])
        return sorted(bridges, key=lambda tree: (tree != 0, -bridges[tree], tree))


class Guesser:
    """What may be promised of a network."""

    def __init__(self, asked, words):
        self.asked, self.words, self.names, self.guesses = asked, words, Names(asked.every), Guesses()
        self.trees = sorted(self.guesses.first(asked.trees_by_use(), words.trees, "trees have no lines of their own", "--trees"))

    def guess(self):
        for its in (self.roots, self.regions, self.reaches, self.ways, self.links, self.limits):
            its()
        return self.guesses

    def roots(self):
        self.guesses.group("Roots, and which bridge comes next where one fails.")
        roots = [it for it in self.asked.of("tree") if it["tree"] in self.trees and it["bridge_count"] > 1]
        roots.sort(key=lambda it: (it["tree"] != 0, -it["bridge_count"], it["tree"]))
        for it in sorted(self.guesses.first(roots, 2 * self.words.trees, "regional roots have no lines", "--trees"), key=lambda it: it["tree"]):
            line = f"root {it['tree']} {it['root']}"
            self.guesses.add(f"always {line} next {it['next']}", f"{line} next {it['next']}", line)
            self.guesses.add(f"after bridge {it['root']} root {it['tree']} {it['next']}")

    def regions(self):
        self.guesses.group("Regions: one name, revision and table.")
        regions = [it["bridges"] for it in self.asked.regions if it["region_kind"] == "mstp"]
        largest = sorted((it for it in regions if len(it) > 1), key=lambda it: -len(it))
        for bridges in self.guesses.first(largest, self.words.vlans, "regions have no line", "--vlans"):
            self.guesses.add(f"region {self.names.list(bridges)}")
        alone = [it[0] for it in regions if len(it) == 1]
        if alone and largest:
            self.guesses.told.append(f"Regions of one bridge: {', '.join(alone)}.")

    def reaches(self):
        self.guesses.group("What VLANs join: after each single failure too, where that holds; now alone; and not at all.")
        weak, now, always, apart = self.asked.apart_after_failures(), {}, {}, {}
        for vid, islands in self.asked.islands.items():
            for island in (it for it in islands if len(it) > 1):
                strong = island - weak.get(vid, set())
                if len(strong) > 1:
                    always.setdefault(strong, set()).add(vid)
                if strong != island:
                    now.setdefault(island, set()).add(vid)
            largest = max(islands, key=len)
            if 1 < len(largest) < len(self.asked.every):
                apart.setdefault(largest, set()).add(vid)
        self.together(weak, always)
        for scope, sets in (("always ", always), ("", now)):
            for bridges, vids in self.joined(sets):
                self.guesses.add(f"{scope}reach {mstplan.listed(vids)} {self.names.list(bridges)}")
        self.apart(sorted(apart.items(), key=lambda it: -len(it[1])))

    def together(self, weak, always):
        """What stays joined after each single failure, where VLANs are pruned: all that is; or else in the VLANs that no failure cuts, and of the
        bridges that none parts from others. It isn't asked where each VLAN is to join all bridges."""
        every = frozenset(self.asked.every)
        joined = {vid for vid, islands in self.asked.islands.items() if any(len(it) > 1 for it in islands)}
        if not joined or always.get(every) == joined:
            return
        strong, whole = every - set().union(*weak.values()), joined - weak.keys()
        self.guesses.add(f"always together 1-{HIGHEST_VID} *", *[f"always together {mstplan.listed(whole)} *"] * bool(whole))
        if any(len(island & strong) > 1 for vid in weak for island in self.asked.islands.get(vid, ())):
            self.guesses.add(f"always together 1-{HIGHEST_VID} {self.names.list(strong)}")

    def joined(self, sets):
        """The sets of bridges with the most VIDs; of the others what all of them have, as one."""
        rising = sorted(sets, key=lambda it: (-len(sets[it]), min(sets[it])))
        taken, others = self.guesses.first(rising, self.words.vlans, "sets of bridges that VLANs join", "--vlans"), rising[self.words.vlans:]
        common = frozenset.intersection(*others) if others else frozenset()
        found = [(it, sets[it]) for it in taken if it != common]
        if len(common) > 1:
            found.append((common, set().union(sets.get(common, ()), *(sets[it] for it in others))))
        return sorted(found, key=lambda it: min(it[1]))

    def apart(self, sets):
        for inside, vids in self.guesses.first(sets, self.words.vlans, "sets of VLANs that are apart from others", "--vlans"):
            line = f"apart {mstplan.listed(vids)} {self.names.list(inside)} {self.names.list(set(self.asked.every) - inside)}"
            self.guesses.add(*([f"always {line}", line] if len(line) <= LONGEST else []))

    def ways(self):
        self.guesses.group("Which bridges no other's traffic crosses, and which ports block.")
        for tree in self.trees:
            bridges = [it for it in self.asked.trees[tree] if it["kind"] == "bridge" and "bridge_id" in it]
            parents = {it["designated_bridge"] for it in bridges if it["designated_bridge"] != it["bridge"]}
            leaves = [it["bridge"] for it in bridges if it["bridge"] not in parents]
            items = self.names.items(leaves) if parents else []
            items = [it for it in items if it.endswith("*")] or items
            # which of them are leaves after each failure, too, can only be asked for: all, and all but a few
            some = itertools.chain.from_iterable(itertools.combinations(items, size) for size in range(len(items), 0, -1))
            lines = [f"always leaf {tree} {','.join(it)}" for it in itertools.islice(some, MOST_TRIED)]
            self.guesses.add(*lines, *[f"leaf {tree} {','.join(items)}"] * bool(items))
            self.guesses.add(*self.blocked(tree))

    def blocked(self, tree):
        """The ports that block, by beginnings that no other bridge has whose port of that number forwards."""
        roles = {(it["bridge"], it["port"]): it["role"] for it in self.asked.trees[tree] if it["kind"] == "port"}
        wanted = {}
        for it in (it for blocked in self.asked.of("blocked") if blocked["tree"] == tree for it in blocked["ports"]):
            wanted.setdefault(it["port"], []).append(it["bridge"])
        found = []
        for number, bridges in sorted(wanted.items()):
            others = [it for it in self.asked.every if it not in bridges]
            found += [f"{item}:{number}" for item in self.names.items(bridges, others)]
        told = sorted({roles[it, number] for number, bridges in wanted.items() for it in bridges if (it, number) in roles})
        line = f"role {tree} {','.join(found)} {','.join(told)}"
        return [line] if found and len(line) <= 2 * LONGEST else []

    def links(self):
        self.guesses.group("How VLANs are parted over links of the roots.")
        roots = {it[key] for it in self.asked.of("tree") for key in ("root", "next") if it["bridge_count"] > 1}
        ends = {}
        for it in (it for it in self.asked.trees.get(0, []) if it["kind"] == "port"):
            ends.setdefault(it["lan"], set()).add(it["bridge"])
        some = [it for it in self.asked.of("carries") if it.get("vids") and ends[it["lan"]] & roots]
        some.sort(key=lambda it: (-len(ends[it["lan"]] & roots), it["lan"]))
        for it in self.guesses.first(some, self.words.links, "links of roots carry some VLANs and not all", "--links"):
            others = mstplan.listed(set(range(1, HIGHEST_VID + 1)) - expanded(it["vids"]))
            carries, avoids = f"carries {it['lan']} {mstplan.list_of(it['vids'])}", f"avoids {it['lan']} {others}"
            self.guesses.add(avoids if others and len(avoids) + 40 < len(carries) else carries)

    def limits(self):
        self.guesses.group("How deep trees are, how far bridges are from each other, and that no limit binds.")
        self.guesses.add("always fits", "fits")


class Judge:
    """What `verify` says of lines for a network."""

    def __init__(self, program, script):
        self.program, self.script = program, script

    def of(self, lines):
        """The records of what isn't kept or is refused, and that of the counts."""
        *broken, last = self.program.records("verify", self.script, "".join(f"{it}\n" for it in lines).encode())
        return broken, last

    def deepest(self, lines):
        """The depth that each of these lines would have to be with, to hold."""
        depths = [0] * len(lines)
        for it in (it for it in self.of(lines)[0] if "depth" in it):
            depths[it["line"] - 1] = max(depths[it["line"] - 1], it["depth"])
        return depths

    def holding(self, lines):
        broken = {it["line"] for it in self.of(lines)[0]}
        return {line for number, line in enumerate(lines, start=1) if number not in broken}

    def longest(self, lines):
        """The number of hops that each of these lines would have to be with, to hold."""
        longest = [0] * len(lines)
        for it in (it for it in self.of(lines)[0] if it.get("expectation") == "hops"):
            longest[it["line"] - 1] = max(longest[it["line"] - 1], it["hop_count"])
        return longest

    def add_hops(self, guesses, bridges):
        """Adds the most hops between any two bridges in one island of a VLAN: now, and after a failure where there are more. In a network of
        too many bridges it adds those of now alone."""
        if bridges > MOST_FAR:
            guesses.add(*[f"hops 1-4094 {now} *" for now in self.longest(["hops 1-4094 0 *"]) if now])
            guesses.told.append(f"no `always hops`: with more than {MOST_FAR} bridges it takes long to judge")
            return
        now, always = self.longest(["hops 1-4094 0 *", "always hops 1-4094 0 *"])
        most = max(now, always)
        guesses.add(*[f"hops 1-4094 {now} *"] * (0 < now < most))
        guesses.add(*[f"always hops 1-4094 {most} *"] * bool(most))

    def add_depths(self, guesses, trees):
        """Adds how deep the trees are now, and after a failure where that is deeper. None is, with no bridge that has a parent."""
        asked = [f"{scope}depth {tree}" for tree in trees for scope in ("", "always ")]
        depths = self.deepest([f"{it} 0" for it in asked])
        for at in range(0, len(asked), 2):
            now, always = depths[at:at + 2]
            guesses.add(*[f"depth {trees[at // 2]} {now}"] * (0 < now < always))
            guesses.add(*[f"always depth {trees[at // 2]} {always}"] * bool(always))


def comments(guesses, asked):
    """What is left out, and what is most often a slip, as comments."""
    looks = [look_in(it) for it in asked.of("look")]
    looks += [mstplan.note_in(it) for it in asked.notes if it.get("note") in ("hops", "age", "cost")]
    looks += [f"note restricted {it['bridge']} {it['port']}" for it in asked.notes if it.get("note") == "restricted"]
    more = [f"and {len(looks) - MOST_LOOKS} more such lines of `summary` and `shownotes`"] if len(looks) > MOST_LOOKS else []
    return [f"# {it}"[:WIDTH] for it in (*guesses.told, *(f"Worth a look: {it}" for it in looks[:MOST_LOOKS] + more))]


def look_in(it):
    """The line of what is most often a slip."""
    if it["look"] == "lan":
        return f"look lan {it['lan']} speed {it['speed']} next {it['next_speed']}"
    if it["look"] == "vlans":
        ends = mstplan.port_of(it), mstplan.port_of(it["other_port"])
        return f"look vlans {ends[0]} {mstplan.list_of(it['vids']) or '-'} {ends[1]} {mstplan.list_of(it['other_vids']) or '-'}"
    if "vids" in it:
        return f"look region {it['name']} {it['revision']} {it['bridge']} table without {mstplan.list_of(it['vids'])}"
    return f"look region {it['name']} {','.join(it['bridges'])} {it['other_name']} {','.join(it['other_bridges'])}"


def policy_of(judge, asked, words):
    """The lines of the policy: of each guess the first line that holds."""
    guesser = Guesser(asked, words)
    guesses = guesser.guess()
    judge.add_depths(guesses, guesser.trees)
    judge.add_hops(guesses, len(asked.every))
    holding, made = judge.holding(guesses.lines()), []
    for title, group in guesses.groups:
        taken = [next((line for line in lines if line in holding), None) for lines in group]
        taken = [it for it in dict.fromkeys(taken) if it]
        made += [f"# {title}", *taken] if taken else []
    return made + comments(guesses, asked)


def words_of():
    parser = argparse.ArgumentParser(description=__doc__, epilog=STATUSES, formatter_class=argparse.RawDescriptionHelpFormatter)
    parser.add_argument("program", metavar="PROGRAM", help="mstplan, or a file that runs it")
    parser.add_argument("script", metavar="FILE", help="the network's script; - is standard input")
    for name, value, what in (("trees", TREES, "trees"), ("vlans", VLANS, "sets of bridges that VLANs join, and regions"), ("links", LINKS, "links")):
        parser.add_argument(f"--{name}", metavar="N", type=natural, default=value, help=f"how many {what} have lines of their own ({value})")
    return parser.parse_args()


def main():
    words = words_of()
    program, script = mstplan.Program(words.program), Files().bytes_of(words.script)
    asked, judge = Asked(program, script), Judge(program, script)
    refused = tell_refused(TOOL, words.script, asked.refused)
    if not asked.every:
        tell(TOOL, f"{name_of(words.script)} has no bridge: nothing can be promised")
        return TOLD
    name = re.sub("[^ -~]", "?", name_of(words.script))
    made = [f"# What {name} does, by {program.version()}; made by {TOOL}.", *policy_of(judge, asked, words)]
    broken, last = judge.of(made)
    if broken or not last["hold_count"]:
        raise mstplan.Failed(f"{broken[:1]} of its own policy: this is a fault of {TOOL}")
    write("".join(f"{it}\n" for it in made))
    tell(TOOL, f"{last['hold_count']} promises hold")
    return TOLD if refused else OK


if __name__ == "__main__":
    guarded(TOOL, main)
