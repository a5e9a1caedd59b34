#!/usr/bin/env python3
"""Hints of what a network lacks (tools/lacking.py), for tools.py: lacking.txt, and what `verify` says of each item of a line alone.

usage: lacking_runs.py PROGRAM [COUNT] [FIRST]    (so many networks, or 100; tools.py takes fewer)

Networks, changes and policies are drawn by their numbers, most lines with a name that isn't there. Standard output and the status are the
program's; each refused line has its hint in its place, and that names the first item which the program refuses by that number where it
stands alone. Near names are those that some change makes equal. The exit status is 1 where something differs.
"""

import concurrent.futures
import contextlib
import itertools
import os
import re
import string
import subprocess
import sys

HERE = os.path.dirname(os.path.abspath(__file__))
TOP = os.path.join(HERE, os.pardir)
LACKING = os.path.join(TOP, "tools", "lacking.py")
SAMPLES, SHARED = os.path.join(HERE, "lacking.txt"), os.path.join(HERE, "texts", "changes-and-promises.txt")
# nothing is to be left beside what is imported
sys.dont_write_bytecode = True
sys.path.append(os.path.join(TOP, "tools"))

import lacking  # noqa: E402
import mstplan  # noqa: E402
import order_runs  # noqa: E402
import settings  # noqa: E402
import sketch  # noqa: E402
import texts  # noqa: E402

COUNT, IN_THE_GATE, LINES, PAIRS = 100, 20, 24, 4000
LETTERS = string.ascii_letters + string.digits + "-."
# What drawn bridges and LANs are called: many of these are near each other.
BRIDGES = dict(zip("ABCDEFGH", ("core1", "core2", "Core", "core21", "dist-a", "dsit-a", "edge", "b1")))
LANS = dict(zip((f"L{it}" for it in range(13)), ("left", "lfet", "right", "Right", "up.1", "up.2", "down", "down12", "over", "oevr", "l1", "under", "N2")))
# A line that is refused by the number of an item where that lacks, by what the item is of.
ALONE = {"tree": "depth {} 1024", "bridge": "region {}", "port": "role 0 {} Root", "LAN": "after lan {} fits"}
CODES = {"E03": ("tree",), "E04": ("bridge", "port"), "E05": ("port",), "E06": ("LAN",), "E17": ("after lan", "after bridge")}
# The numbers by which a line of a change has a hint.
HINTED = ("E01", "E02", "E03", "E04", "E05", "E06")
# What is printed of refused lines and of steps; hints as the program has them, and those of a script's lines that name what isn't there.
REFUSED = re.compile(r"^(line|policy|change) ([0-9]+) (E[0-9]+) ", re.MULTILINE)
STEP = re.compile(r"step ([0-9]+) lines [0-9]+-([0-9]+) ")
OWN = re.compile(r"(line|policy line|change line) ([0-9]+) ")
SAID = re.compile(r"^line ([0-9]+) (no \w+ [^:\n]*(?::[0-9]+)?)", re.MULTILINE)


# ---- names that are near


def changed(word, letters):
    """All words that are at most one change away."""
    cuts = [(word[:at], word[at:]) for at in range(len(word) + 1)]
    put_in = {front + it + end for front, end in cuts for it in letters}
    left_out = {front + end[1:] for front, end in cuts if end}
    return {word} | put_in | left_out | {front + end[1] + end[0] + end[2:] for front, end in cuts if len(end) > 1}


def near(word, names, letters=LETTERS):
    """The one that is nearest of all names, or None."""
    once = changed(word, letters)
    found = [[it for it in names if it.lower() == word.lower()], [it for it in names if it in once], [it for it in names if once & changed(it, letters)]]
    least = next((its for its in found if its), [])
    return least[0] if len(least) == 1 and len(word) >= 3 else None


def faults_of_names(_program):
    """What differs of short words with few letters."""
    draws, faults = sketch.Draws(1), []
    for _ in range(PAIRS):
        one, other, third = ("".join(draws.one_of("abB") for _ in range(2 + draws.below(5))) for _ in range(3))
        told, wanted = lacking.nearest(one, {other, third}), near(one, {other, third}, "abB")
        faults += [] if told == wanted else [f"{one} of {other}, {third}: {told} in place of {wanted}"]
    return faults


# ---- samples


def faults_of_samples(program):
    """What differs of the samples."""
    shared, runs = texts.runs_of(SHARED)[-1].files, texts.runs_of(SAMPLES)
    for it in runs:
        it.files = {**shared, **it.files}
    with concurrent.futures.ThreadPoolExecutor(os.cpu_count()) as pool:
        return [text for text in pool.map(lambda it: texts.difference([sys.executable, LACKING, program], it), runs) if text]


# ---- drawn networks


def text_of(lines):
    return "\n".join([*lines, ""]).encode()


def renamed(line):
    """A line of a drawn script with longer names."""
    return " ".join({**BRIDGES, **LANS}.get(it, it) for it in line.split())


def twins(draws):
    """Two links between two bridges that count as one, with the higher port first or not, and a port in no LAN."""
    ports = [(bridge, number, lan) for bridge in ("A", "B") for number, lan in zip(draws.one_of([(41, 42), (42, 41)]), ("twin-a", "twin-b"))]
    lines = [line for its in ports for line in ("addport {} {}".format(*its), "setkey {} {} 7".format(*its), "plug {} {} {}".format(*its))]
    return ["addlan twin-a", "addlan twin-b", *lines, "addport A 3"]


class Items:
    """Names of a network as items of a policy: most are there, and the others are near one that is, or begin as it does."""

    def __init__(self, draws, names):
        self.draws, self.names = draws, names

    def name(self):
        """A name, or one that isn't there."""
        name = self.draws.one_of(self.names)
        at = 1 + self.draws.below(len(name))
        slips = [name[:at] + name[at + 1:], name[:at] + self.draws.one_of("eo2") + name[at:], name.upper(), name.capitalize(), "core9", "rihgt"]
        return self.draws.one_of(slips) if self.draws.below(6) == 0 else name

    def item(self):
        name = self.draws.one_of(self.names)
        return self.draws.one_of([f"{name[:self.draws.below(len(name))]}*", "zz*", "*"]) if self.draws.below(6) == 0 else self.name()

    def list(self):
        return ",".join(self.item() for _ in range(1 + self.draws.below(3)))

    def ports(self):
        return ",".join(f"{self.item()}:{self.draws.one_of(['1', '1', '41', '42', '042', '3', '*'])}" for _ in range(1 + self.draws.below(3)))


def drawn_line(draws, bridges, lans):
    """A line of a policy that can be read, but for one of many."""
    tree, bridge, lan = draws.below(4) % 3, bridges.name(), lans.name()
    scope = draws.one_of(["", "always ", f"after lan {lans.list()} ", f"after lan {lan} ", f"after bridge {bridges.list()} ", f"after bridge {bridge} "])
    naming = [(f"after bridge {bridge[:4]}* ", f"root {tree} {bridge}"), (f"after bridge {bridge[:4]}* ", f"via 1 {bridge} {bridge} {bridge}"), (f"after lan {lan[:2]}*,{lan} ", f"carries {lan} 1"), (f"after lan {lan[:4]}* ", f"avoids {lan} 1")]
    expectation = draws.one_of([
        f"root {tree} {bridge}", f"root {tree} {bridge} next {bridges.name()}", f"region {bridges.list()}", *[f"role {tree} {bridges.ports()} Root"] * 3,
        f"reach 1-9 {bridges.list()}", f"apart 1 {bridges.list()} {bridges.list()}", f"leaves 1 {bridges.list()}", f"together 1 {bridges.list()}", f"leaf {tree} {bridges.list()}",
        f"depth {tree} 9", f"hops 1-9 3 {bridges.list()}", f"via 1 {bridge} {bridges.name()} {bridges.name()}", f"carries {lan} 1", f"avoids {lan} 1", "fits", "rot 0 b1",
    ])
    return draws.one_of(["", "", "", "finally "]) + "".join(draws.one_of(naming) if draws.below(5) == 0 else (scope, expectation))


def items_of(line):
    """A line's items, each with what it is of, and as a line that has it alone."""
    words = line.removeprefix("finally ").split()
    items = []
    if words[0] == "after":
        of = {"lan": "LAN", "bridge": "bridge"}[words[1]]
        items = [(of, it, ALONE[of].format(it)) for it in words[2].split(",")]
        items += [(f"after {words[1]}", it, " ".join([*words[:2], it, *words[3:]])) for it in words[2].split(",")]
        words = words[3:]
    word, *words = words[words[0] == "always":]
    kinds = {"root": ("tree", "bridge", "", "bridge"), "role": ("tree", "port"), "leaf": ("tree", "bridge"), "depth": ("tree",), "region": ("bridge",),
             "hops": ("", "", "bridge"), "via": ("", "bridge", "bridge", "bridge"), "carries": ("LAN",), "avoids": ("LAN",), "fits": ()}.get(word, ("", "bridge", "bridge"))
    return items + [(of, it, ALONE[of].format(it)) for of, word in zip(kinds, words) if of for it in word.split(",")]


def absent(of, name, names):
    if "*" in name:
        return f"there is no {of}" if name == "*" else f"no {of} of {name}"
    found = near(name, names) if names else None
    return f"no {of} {name}" + (f"; {found}?" if found else "")


def why_no_port(network, item):
    """Why an item has no logical port, by a network's keys and plugs."""
    bridge, _, number = item.partition(":")
    if "*" in item:
        return f"no port of {item}"
    port = network.bridges[bridge].ports.get(int(number))
    if port is None or port.lan is None:
        return f"port {bridge}:{int(number)} is in no LAN" if port else f"no port {bridge}:{int(number)}"
    return f"{bridge}:{int(number)} is a member of {bridge}:{network.logical(bridge, int(number))}"


def hint_of(saved, code, items, refused, is_first):
    """The hint of a line by its items, of which those that stand alone in a line are refused so."""
    network = settings.Network(saved)
    found = next(((of, item) for of, item, alone in items if of in CODES[code] and refused.get(alone) == code), None)
    if code == "E04":
        return absent("bridge", found[1].partition(":")[0] if found else "*", network.bridges if is_first else ())
    of, item = found
    if code == "E17":
        what = f"LAN {item} is down" if of == "after lan" else f"bridge {item} is off"
        return f"nothing of {item} can fail" if "*" in item else what
    if code == "E06":
        return absent("LAN", item, network.lans if is_first else ())
    return f"no bridge has tree {item}" if code == "E03" else why_no_port(network, item)


def lists_its_own(line):
    """Whether a scope has both a pattern and the very name of what is behind it, which counts for the pattern, too."""
    items = items_of(line)
    names = [it for of, it, _ in items if not of.startswith("after")]
    return "*" in line and len(names) > len(set(names))


def refused_alone(program, saved, lines):
    """The numbers by which lines are refused in a network, by the lines."""
    records = program.records("verify", saved, text_of(lines))
    return {lines[it["line"] - 1]: it["error"] for it in records if it["kind"] == "policy" and it["line"]}


class Wanted:
    """Which hints are wanted of a network, a change in steps, and a policy."""

    def __init__(self, program, script, change, policy):
        self.program, self.script, self.change, self.policy = program, script, change, policy
        # what the program says of the change's lines where they stand behind the script, by their numbers in the change
        said = program.ran("--hints", "run", "-", given=text_of([*script, *(it or "#" for it in change)])).stderr.decode()
        self.of_edits = {int(it[1]) - len(script): it[2] for it in SAID.finditer(said)}

    def of_policy(self, step, last, refused):
        """The hints of lines of the policy by their numbers, as they are refused behind a step; None where this can't tell."""
        lines = {number: self.policy[number - 1] for number in refused}
        saved, _ = self.program.saved(text_of([*self.script, *self.change[:last]]))
        alone = refused_alone(self.program, saved, ["fits", *(it for line in lines.values() for _, _, it in items_of(line))])
        front = f"step {step} " if step else ""
        for number, line in lines.items():
            code = refused[number]
            can_tell = code != "E17" or not lists_its_own(line)
            yield number, f"{front}policy line {number} {hint_of(saved, code, items_of(line), alone, not step)}" if can_tell else None

    def lines(self, printed, own):
        """The hints in the order of the refused lines that are printed. `own` are the program's, by how they begin."""
        for part in re.split(r"^(?=step )", printed, flags=re.MULTILINE):
            found = STEP.match(part)
            step, last = map(int, found.groups()) if found else (0, 0)
            told = [(of, int(number), code) for of, number, code in REFUSED.findall(part)]
            lacking_lines = {number: code for of, number, code in told if of == "policy" and ("policy line", number) not in own}
            hints = dict(self.of_policy(step, last, lacking_lines))
            for of, number, _ in (it for it in told if it[0] != "change" or it[2] in HINTED):
                place = of if of == "line" else f"{of} line"
                other = hints.get(number) if of == "policy" else f"{place} {number} {self.of_edits.get(number)}"
                yield own.get((place, number), other)


def answers(*words):
    ran = subprocess.run(words, stdin=subprocess.DEVNULL, capture_output=True, check=False)
    return ran.stdout.decode(), ran.stderr.decode().splitlines(), ran.returncode


def faults_of_words(wanted, what, words):
    """What differs of the program's words, of `verify` or of `steps`."""
    printed, said, status = answers(wanted.program.path, *words, "--hints")
    own = {(it[1], int(it[2])): line for line in said if (it := OWN.match(line))}
    hints = list(wanted.lines(printed, own))
    told = answers(sys.executable, LACKING, wanted.program.path, *words)
    if told[::2] != (printed, status) or len(told[1]) != len(hints):
        return [f"{what} {words[0]}: {told} in place of {printed, hints, status}"]
    return [f"{what} {words[0]}: {found} in place of {hint}" for found, hint in zip(told[1], hints) if hint not in (None, found)]


def faults_of(path, number):
    program, draws = mstplan.Program(path), sketch.Draws(number + 10**6)
    script = [renamed(it) for it in [*sketch.drawn(number), *twins(draws)]] + ["addport b9"] * draws.below(2)
    steps = [[renamed(it) for it in step] + ["delbridge nobody"] * draws.below(2) for step in order_runs.change_of(draws)]
    change = "\n\n".join("\n".join(it) for it in steps).split("\n")
    names = [Items(draws, [line.split()[1] for line in script if line.startswith(word)]) for word in ("addbridge", "addlan")]
    policy = [drawn_line(draws, *names) for _ in range(LINES)]
    wanted = Wanted(program, script, change, policy)
    with contextlib.ExitStack() as paths:
        files = [paths.enter_context(mstplan.written(text_of(it))) for it in (script, change, policy)]
        return [*faults_of_words(wanted, f"network {number}", ["verify", files[0], files[2]]), *faults_of_words(wanted, f"network {number}", ["steps", *files])]


def check(path, count, first=0):
    """What differs, of so many networks."""
    with concurrent.futures.ThreadPoolExecutor(os.cpu_count()) as pool:
        found = pool.map(lambda number: faults_of(path, number), range(first, first + count))
        return list(itertools.chain.from_iterable(found))


if __name__ == "__main__":
    sketch.check_drawn(check, COUNT, "networks: hints of what isn't there", __doc__)
