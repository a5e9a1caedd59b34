#!/usr/bin/env python3
"""Sheets for the night (tools/night.py), for tools.py: each of their lines by another word of the program. What a step does, what is at risk and
what the way back cuts are told by the texts of `run` of the networks; what is typed, and the way back, by the networks that they make; what a
policy tells by `verify`. --seen is tried with what switches show before a step and behind it, and --html by the lines of its page.

usage: night_runs.py PROGRAM [COUNT] [FIRST]    (so many networks, or 60; tools.py takes fewer)

Networks and changes are drawn by their numbers. The exit status is 1 where something differs.
"""

import concurrent.futures
import contextlib
import html
import itertools
import os
import re
import shutil
import subprocess
import sys
import tempfile

TOP = os.path.join(os.path.dirname(os.path.abspath(__file__)), os.pardir)
NIGHT = os.path.join(TOP, "tools", "night.py")
SHOWS = os.path.join(TOP, "examples", "import", "cisco", "campus")
# nothing is to be left beside what is imported
sys.dont_write_bytecode = True
sys.path.append(os.path.join(TOP, "tools"))

import mstplan  # noqa: E402
import sketch  # noqa: E402
import steps_runs  # noqa: E402
import verify_runs  # noqa: E402

COUNT, IN_THE_GATE = 60, 6
# What fails together, by the lines of each risk; some networks haven't all of it.
RISKS = {"hall": [("bridge", "A,B")], "duct": [("lan", "L*"), ("bridge", "C")]}
POLICY = ["root 0 A", "always root 0 B", "reach 1-9 *", "always reach 5 A,B", "region A,C"]
POLICY += [f"risk {name} {what} {items}" for name, lines in RISKS.items() for what, items in lines]


# ---- what the texts say


def off_told(cut):
    """VIDs by all parts but the largest, of which the first counts."""
    groups = {}
    for parts, vids in cut.items():
        parts = parts.split()
        largest = max(parts, key=lambda it: it.count(","))
        groups.setdefault(" ".join(it for it in parts if it is not largest), set()).update(vids)
    return [f"cuts {sketch.list_of(groups[it])} off {it}" for it in sorted(groups, key=lambda it: min(groups[it]))]


def moved_told(old, new):
    """The VIDs that move, and those that are cut."""
    cut, joined = sketch.change_told(old, new)[2], sketch.change_told(new, old)[2]
    return sketch.list_of({*steps_runs.moved_vids(old, new), *itertools.chain(*cut.values(), *joined.values())}), sketch.vids_in(cut)


def seen_told(old, new):
    ports = {}
    for line in sketch.roles_changed(old, new):
        _, tree, bridge, port, told = line.split(" ", 4)
        ports.setdefault((bridge, int(port)), []).append(f"{tree} {told}")
    return [f"see {bridge}:{port} {', '.join(told)}" for (bridge, port), told in sorted(ports.items())]


def has_one(items, name):
    return any(verify_runs.has(item, name) for item in items.split(","))


def risks_of(failures, names):
    """The risks that have a failure, each with the edits of all: a line of which an item is for nothing adds none."""
    for name, lines in RISKS.items():
        whole = [(what, items) for what, items in lines if all(any(verify_runs.has(item, it) for it in names[what]) for item in items.split(","))]
        edits = [edit for what, its, edit in failures if any(of == what and has_one(items, its) for of, items in whole)]
        if edits:
            yield ("risk", name), edits


def cut_by_failures(program, network, text, has_risks):
    """What each single failure cuts, by the failures in the order of `sweep`, and with a policy each risk of it."""
    bridges, lans, off, down, _ = sketch.states_of(text.saved)
    failures = sketch.failures_of([it for it in lans if it not in down], [it for it in bridges if it not in off])
    events = [((what, name), [edit]) for what, name, edit in failures]
    events += risks_of(failures, {"lan": lans, "bridge": bridges}) if has_risks else []
    return {event: sketch.change_told(text, sketch.text_of(program, [*network, *edits]))[2] for event, edits in events}


def risks_told(first, now):
    """What is cut now, and wasn't at first."""
    for failure, cut in now.items():
        known = set(itertools.chain(*first.get(failure, {}).values()))
        fresh = {parts: {vid for vid in vids if vid not in known} for parts, vids in cut.items()}
        yield from (f"risk {' '.join(failure)} {it}" for it in off_told({parts: vids for parts, vids in fresh.items() if vids}))


def verified(program, network):
    """What `verify` tells of each line of the policy, but after how many failures something is left out."""
    with contextlib.ExitStack() as paths:
        files = [paths.enter_context(mstplan.written("\n".join([*it, ""]).encode())) for it in (network, POLICY)]
        printed = subprocess.run([program, "verify", *files], capture_output=True, check=False).stdout.decode().splitlines()
    told = [it.split(" ", 2) for it in printed if it.startswith(("policy ", "fails "))]
    return [(int(number), f"refused {rest}" if kind == "policy" else rest) for kind, number, rest in told]


def judged_told(then, now):
    """What is broken now and wasn't, what is refused first, and the lines that are kept again."""
    fresh = [it for it in now if it not in then]
    refused = [it for it in fresh if it[1].startswith("refused ")]
    breaks = [f"breaks {number} {told}" for number, told in [*refused, *(it for it in fresh if it not in refused)]]
    return [*breaks, *(f"mends {number}" for number in sorted({it for it, _ in then} - {it for it, _ in now}))]


# ---- the sheet


def sheet_of(program, script, change, policy):
    """The lines of each step, by their first words, and the status."""
    with contextlib.ExitStack() as paths:
        files = [paths.enter_context(mstplan.written("\n".join([*it, ""]).encode())) for it in (script, change, *([policy] if policy else []))]
        ran = subprocess.run([sys.executable, NIGHT, program, *files], capture_output=True, check=False)
    if ran.returncode not in (0, 1):
        return [["", f"status {ran.returncode}, {ran.stderr.decode()}"]]
    steps = []
    for line in ran.stdout.decode().splitlines():
        if not line.startswith(" "):
            steps.append([line])
        else:
            steps[-1].append(line.strip())
    return steps


def behind_words(lines, word):
    return [line.split(" ", 1)[1] for line in lines if line.split()[0] == word]


class Drawn:
    """A drawn network with a change."""

    def __init__(self, program, number):
        self.program, self.number = program, number
        self.script, self.change = sketch.drawn(number), steps_runs.drawn_change(number)
        self.script += steps_runs.bundle(sketch.Draws(number + 10**9)) if number % 2 else []
        self.policy = POLICY if number % 3 == 0 else None

    def made(self, edits):
        """The network of these lines of version 2, behind the first network."""
        return sketch.text_of(self.program, edits).saved

    def wanted(self, number, numbers, old, new, first):
        """The lines of a step that tell what it does and what is at risk, by the texts."""
        refused = self.refused
        lines = [f"step {number} lines {numbers[0]}-{numbers[-1]}", *(f"refused {it} {refused[it][0]}" for it in numbers if it in refused)]
        lines += [f"moves {moved_told(old, new)[0]}", *steps_runs.turns_told(old, new), *off_told(sketch.change_told(old, new)[2])]
        failures = cut_by_failures(self.program, steps_runs.behind(self.script, self.change, numbers[-1]), new, bool(self.policy))
        return [*lines, *steps_runs.restarts_told(old, new), *seen_told(old, new), *risks_told(first, failures)]

    def ways(self, number, told, old, new, first, network):
        """What is wrong with the ways back: the networks that they make, and what these cut."""
        back = [it for it in told if it.startswith("back ") and not it.startswith("back cuts ")]
        edits = [it.removeprefix("back ") for it in back]
        if self.made([*network, *edits]) != old.saved:
            yield f"{back} doesn't lead back"
        if behind_words(told, "back")[-1:] != [f"cuts {moved_told(new, old)[1]}"]:
            yield f"back cuts {moved_told(new, old)[1]}"
        moved, cut = moved_told(new, first)
        home = [it.split(" ", 2)[2] for it in told if it.startswith("home ")]
        if home != ([f"lines moves {moved} cuts {cut}"] if number > 1 else []):
            yield f"home lines moves {moved} cuts {cut}"

    def faults(self):
        """What differs of the sheet."""
        self.refused = steps_runs.refused_in(self.program, self.script, self.change)
        first = old = sketch.text_of(self.program, self.script)
        steps, told = steps_runs.steps_of(self.change, self.refused), sheet_of(self.program, self.script, self.change, self.policy)
        if len(steps) != len(told):
            return [f"network {self.number}: {len(steps)} steps, {told}"]
        risks, faults = cut_by_failures(self.program, self.script, first, bool(self.policy)), []
        network = ["mstplan 2", *(" ".join(it) for it in first.saved if it != ["mstplan", "2"])]
        then = verified(self.program, sketch.edits_of(self.script)) if self.policy else []
        for number, (numbers, lines) in enumerate(zip(steps, told), 1):
            made = steps_runs.behind(self.script, self.change, numbers[-1])
            new = sketch.text_of(self.program, made)
            network = [*network, *behind_words(lines, "type")]
            now = verified(self.program, sketch.edits_of(made)) if self.policy else []
            wanted = [*self.wanted(number, numbers, old, new, risks), *judged_told(then, now)]
            here = [it for it in lines if it.split()[0] not in ("type", "back", "home")]
            wrong = [f"{here} in place of {wanted}"] if here != wanted else []
            wrong += [] if self.made(network) == new.saved else [f"what is typed makes another network: {lines}"]
            faults += [f"network {self.number}, step {number}: {it}" for it in [*wrong, *self.ways(number, lines, old, new, first, network)]]
            old, then = new, now
        return faults


# ---- what switches show, and the page

# Two steps for the switches of SHOWS, of which the second gives no port another role.
STEPS = ["setportpathcost acc1 1 200000", "", "addlan spare"]
WORDS = {"Root": "Root FWD", "Designated": "Desg FWD", "Alternate": "Altn BLK", "Master": "Mstr FWD", "Disabled": "Disa BLK"}


def called(program, *words):
    """The status and the lines of a call of night.py."""
    ran = subprocess.run([sys.executable, NIGHT, program, *words], capture_output=True, check=False)
    return ran.returncode, ran.stdout.decode().splitlines()


def show(folder, bridge, interface, tree, role):
    """Has a switch show another role of a port in a tree."""
    path = os.path.join(folder, f"{bridge}.mst")
    with open(path, encoding="utf-8") as file:
        parts = re.split(r"(?=^##### MST)", file.read(), flags=re.M)
    at = next(place for place, it in enumerate(parts) if it.startswith(f"##### MST{tree} "))
    parts[at] = re.sub(rf"^{re.escape(interface)}( +)\w+ \w+", rf"{interface}\1{WORDS[role]}", parts[at], flags=re.M)
    with open(path, "w", encoding="utf-8") as file:
        file.write("".join(parts))


def roles_seen(lines):
    """Of a sheet's `see` lines: bridge, number, interface, tree, and the roles before and behind."""
    for line in lines:
        if found := re.fullmatch(r"  see (\S+):(\d+) \((.*?)\) (.*)", line):
            for told in found[4].split(", "):
                tree, before, _, now = told.split()
                yield found[1], found[2], found[3], tree, before, now


def seen_faults(program):
    """Switches that show the network before a step differ from the plan behind it in the ports that the sheet says; then they show these."""
    script = subprocess.run([sys.executable, os.path.join(TOP, "tools", "import", "cisco.py"), SHOWS], capture_output=True, check=True).stdout
    with contextlib.ExitStack() as paths, tempfile.TemporaryDirectory() as folder:
        files = [paths.enter_context(mstplan.written(it)) for it in (script, "\n".join([*STEPS, ""]).encode())]
        shows = os.path.join(folder, "shows")
        shutil.copytree(SHOWS, shows)
        seen = list(roles_seen(called(program, *files)[1]))
        told = [f"differs {bridge}:{port} ({its}) {tree} plan {now} seen {before}" for bridge, port, its, tree, before, now in seen]
        calls = [called(program, *files, "--seen", "1", shows)]
        for bridge, _, its, tree, _, now in seen:
            show(shows, bridge, its, tree, now)
        calls += [called(program, *files, "--seen", number, shows) for number in "12"]
        for name in os.listdir(shows):
            if name.startswith("acc2."):
                os.remove(os.path.join(shows, name))
        calls += [called(program, *files, "--seen", "2", shows), called(program, *files, "--seen", "3", shows)]
    wanted = [(1, told), (0, ["seen 1"]), (0, ["seen 2"]), (0, ["seen 2", "unseen acc2"]), (3, [])]
    return [f"--seen: {got} in place of {want}" for got, want in zip(calls, wanted) if (got[0], sorted(got[1])) != (want[0], sorted(want[1]))]


def page_faults(program):
    """The page has the sheet's lines, each with a box but the first of a step."""
    files = [os.path.join(TOP, "examples", it) for it in ("campus.script", "campus.change")]
    with mstplan.written(b"") as path:
        status, printed = called(program, *files, "--html", path)
        with open(path, encoding="utf-8") as file:
            page = file.read()
    wanted, sheet = called(program, *files)
    rows = re.findall(r"<h2>(.*?)</h2>|<li .*?><label><input type=\"checkbox\"> <code>(.*?)</code></label></li>", page)
    lines = [html.unescape(first or re.sub("</?b>", "", its)) for first, its in rows]
    return [] if (status, printed, lines) == (wanted, [], [it.strip() for it in sheet]) else [f"--html: status {status}, {printed}, {lines} in place of {sheet}"]


def check(program, count, first=0):
    """What differs, of so many networks, of what switches show, and of the page."""
    with concurrent.futures.ThreadPoolExecutor(os.cpu_count()) as pool:
        found = pool.map(lambda number: Drawn(program, number).faults(), range(first, first + count))
        return [*seen_faults(program), *page_faults(program), *itertools.chain.from_iterable(found)]


if __name__ == "__main__":
    sketch.check_drawn(check, COUNT, "networks: each line of the sheets", __doc__)
