#!/usr/bin/env python3
"""Changes in steps (`mstplan steps FILE CHANGE [POLICY]`), for program.py: what is told of each step is what the texts of `run` say of
the networks before and after it.

usage: steps_runs.py PROGRAM [COUNT] [FIRST]    (so many networks, or 250; program.py takes fewer)

Networks and changes are drawn by their numbers. What a policy tells of the network before the change and of that behind each step is what
verify_runs.py reckons of it; of that only what is new is told behind a step. The exit status is 1 where an answer differs.
"""

import concurrent.futures
import itertools
import os
import subprocess
import sys
import tempfile

SAMPLES = os.path.join(os.path.dirname(os.path.abspath(__file__)), os.pardir, "examples")
# nothing is to be left beside what is imported
sys.dont_write_bytecode = True

import sketch  # noqa: E402
import verify_runs  # noqa: E402

COUNT = 250
IN_THE_GATE = 20
POLICY = [
    "reach 1-4094 *", "root 0 A", "always reach 5 A,B", "root 2 B", "region A,C", "roots", "finally root 0 B", "finally always together 1-9 *",
    "together 1-4094 A,B,C", "always together 3,7 *", "finally region A,Z", "always finally fits",
    "risk hall bridge A,B", "risk hall lan L1", "after risk hall reach 1-20 *", "finally after risk hall together 1-9 *",
]
UNREAD = {6: "E01 no such expectation", 12: "E01 no such expectation"}
OF_THE_END = {number for number, line in enumerate(POLICY, 1) if line.startswith("finally ")}


# ---- what a step does, by the texts of the networks before and after it


def links(text, vid, staying):
    """The ports that link such a bridge to another such one over their logical LAN, with that LAN."""
    ports = {sketch.at(name): (name[0], port["lan"]) for name, port in text.trees[0].ports.items() if name[0] in staying}
    ends = {word: ports[word] for word in text.active[vid] if word in ports}
    return {(word, lan) for word, (bridge, lan) in ends.items() if any(it[0] != bridge and it[1] == lan for it in ends.values())}


def on_in(text):
    return {name for name, entry in text.trees[0].bridges.items() if entry} if 0 in text.trees else set()


def moved_vids(old, new):
    """The VIDs whose links between bridges that are on before and afterwards aren't the same."""
    staying, known, moved = on_in(old) & on_in(new), {}, []
    if not staying:
        return []
    for vid in range(1, 4095):
        key = frozenset(old.active[vid]), frozenset(new.active[vid])
        if key not in known:
            known[key] = links(old, vid, staying) != links(new, vid, staying)
        if known[key]:
            moved.append(vid)
    return moved


def step_lines(number, numbers, old, new):
    """The lines of a step, and whether it moves and whether it cuts something."""
    roots, ports, cut = sketch.change_told(old, new)
    joined = sketch.change_told(new, old)[2]
    moved = {*moved_vids(old, new), *itertools.chain(*cut.values(), *joined.values())}
    told = f"roots {roots} ports {ports} moved {sketch.list_of(moved)} cut {sketch.vids_in(cut)} joined {sketch.vids_in(joined)}"
    first = f"step {number} lines {numbers[0]}-{numbers[-1]} {told}"
    return [first, *(f"cut {sketch.list_of(vids)} parts {parts}" for parts, vids in cut.items())], bool(moved), bool(cut)


# ---- the steps of a change


def behind(script, change, last=None):
    """A script with the lines of a change behind its own, or those up to a number; blank ones are comments there."""
    return [*script, *(line or "#" for line in change[:last])]


def refused_in(program, script, change):
    """The refused lines of a change behind a script, by their numbers: what is told of each, and whether it isn't read."""
    lines = [line.split() for line in sketch.refused(program, behind(script, change))]
    here = [line for line in lines if int(line[1]) > len(script)]
    return {int(line[1]) - len(script): (" ".join(line[2:]), line[2] in sketch.UNREAD) for line in here}


def steps_of(change, refused):
    """The numbers of the lines with an edit, a list for each step: one that isn't read counts."""
    steps, begun = [], []
    for number, line in enumerate([*change, ""], 1):
        is_silent = line.startswith("#") or line and sketch.is_quiet(line) and not refused.get(number, ("", False))[1]
        if line and not is_silent:
            begun.append(number)
        if not line and begun:
            steps, begun = [*steps, begun], []
    return steps


def restarts_told(old, new):
    """The ports that begin anew, by what is saved of both networks."""
    told = [{}, {}]
    for text, kept in zip((old, new), told):
        for words in text.saved:
            if words[0] == "addbridge":
                kept[words[1]] = [words[2], "mstp", ("0", words[2]), []]
                kept[words[1], "lans"] = {}
            elif words[0] == "kind":
                kept[words[1]][1] = words[2]
            elif words[0] == "setmstconfid":
                kept[words[1]][2] = tuple(words[2:])
            elif words[0] == "setvid2mstid":
                kept[words[1]][3] += [(int(words[2]), vid) for vid in sketch.numbers_in(words[3])]
            elif words[0] == "plug":
                kept[words[1], "lans"][int(words[2])] = words[3]
    ports = [{it for it, port in text.trees[0].ports.items() if port["role"] != sketch.DISABLED} if 0 in text.trees else set() for text in (old, new)]
    names = []
    for bridge, number in sorted(ports[0] & ports[1]):
        then, now = told[0][bridge], told[1][bridge]
        is_other = then[:2] != now[:2] or then[1] == "mstp" and (then[2], sorted(then[3])) != (now[2], sorted(now[3]))
        if is_other or told[0][bridge, "lans"].get(number) != told[1][bridge, "lans"].get(number):
            names.append(f"{bridge}:{number}")
    return [f"restarts {','.join(names)}"] if names else []


def ways_out(text, tree):
    """Of each bridge that is on and has a tree the ports that lead out of it there, each with its LAN."""
    ways = {bridge: set() for bridge, entry in text.trees[tree].bridges.items() if entry}
    for (bridge, number), port in text.trees[tree].ports.items():
        if port["role"] in ("Root", "Master"):
            ways[bridge].add((number, port["lan"]))
    return ways


def turns_told(old, new):
    """The bridges whose way out of a tree is another one, each list of them with its trees, by the least."""
    told = {}
    for tree in sorted(old.trees.keys() & new.trees.keys()):
        before, after = ways_out(old, tree), ways_out(new, tree)
        turned = ",".join(sorted(it for it in before.keys() & after.keys() if before[it] != after[it]))
        if turned:
            told.setdefault(turned, []).append(str(tree))
    return [f"turns {','.join(trees)} {bridges}" for bridges, trees in told.items()]


# ---- a policy


def lacks(text, words):
    """What of a promise the network hasn't: its tree, or a bridge of a name or an item."""
    if words[0] == "root" and int(words[1]) and int(words[1]) not in text.trees:
        return "E03 bad VID or tree"
    items = words[2:3] if words[0] == "root" else words[-1].split(",")
    bridges = sorted(text.regions)
    return "" if bridges and all(any(verify_runs.has(item, it) for it in bridges) for item in items) else "E04 no such bridge"


def risks_of(text):
    """Which line of a risk is refused in a network, and why; and what fails in each risk, if something does."""
    bridges, lans, off, down, _ = sketch.states_of(text.saved)
    standing, refused, risks = sketch.failures_of([it for it in lans if it not in down], [it for it in bridges if it not in off]), {}, {}
    for number, (word, name, what, items) in ((number, line.split()) for number, line in enumerate(POLICY, 1) if line.startswith("risk ")):
        if not all(any(verify_runs.has(item, it) for it in (lans if what == "lan" else bridges)) for item in items.split(",")):
            refused[number] = verify_runs.LACKING[what]
            continue
        risks.setdefault(name, []).extend(it for it in standing if it[0] == what and any(verify_runs.has(item, it[1]) for item in items.split(",")))
    return refused, {name: those for name, those in risks.items() if those}


def unkept(program, script, text, first, is_last):
    """Why each line of the policy isn't kept in a network: `first` is the network before the change, and None of that itself."""
    told, failures = {}, None
    refused, risks = risks_of(text)
    after = {name: verify_runs.after_all(program, script, text, those) for name, those in risks.items()}
    for number, line in enumerate(POLICY, 1):
        words = line.split()
        is_final, is_always = "finally" in words, "always" in words
        line = " ".join(it for it in words if it not in ("finally", "always"))
        told[number] = [f"policy {number} {refused[number]}"] if number in refused else []
        if number in UNREAD or is_final and not is_last or line.startswith("risk "):
            continue
        risk = line.split()[2] if line.startswith("after risk ") else None
        line = line.removeprefix(f"after risk {risk} ")
        missing = lacks(text, line.split())
        if missing:
            told[number] = [f"policy {number} {missing}"]
            continue
        if risk:
            reasons = [f"fails {number} risk {risk} {it}" for it in verify_runs.reasons(after[risk], line)] if risk in after else []
            told[number] = reasons if risk in after else [f"policy {number} {verify_runs.NOTHING.split(' ', 2)[2]}"]
            continue
        here = list(verify_runs.reasons(verify_runs.Judged(text, text, (), first), line))
        if is_always and failures is None:
            failures = [*verify_runs.everywhere(program, script, text), *((f"risk {name}", judged) for name, judged in after.items())]
        later = [(place, list(verify_runs.reasons(judged, line))) for place, judged in failures] if is_always else []
        # as `verify` tells it, but not after how many failures something is left out
        told[number] = [it for it in verify_runs.once(number, here, later, True) if not it.startswith("same ")]
    return told


def news(then, now):
    """What is told of a network behind another: what is new, and what is kept again."""
    fresh = [it for number in now for it in now[number] if it not in then[number]]
    refused = [it for it in fresh if it.startswith("policy ")]
    mends = [f"mends {number}" for number in now if then[number] and not now[number]]
    # a promise of the end alone breaks no step
    return [*refused, *(it for it in fresh if it not in refused), *mends], any(now[it] and not then[it] for it in now if it not in OF_THE_END)


def start_told(start):
    """What the network before the change doesn't keep."""
    count = sum(map(bool, start.values()))
    return [f"start unkept {count}", *news(dict.fromkeys(start, ()), start)[0]] if count else []


def wanted_of(program, script, change, policy):
    """What `steps` is to print, and its status."""
    lines, refused = list(sketch.refused(program, script)), refused_in(program, script, change)
    old, counts, is_bad = sketch.text_of(program, script), [0, 0, 0], bool(lines) or policy is not None
    first, then, steps = old, None, steps_of(change, refused)
    if policy is not None:
        then = unkept(program, sketch.edits_of(script), old, None, not steps)
        lines += [f"policy {number} {told}" for number, told in UNREAD.items()] + start_told(then)
    for number, numbers in enumerate(steps, 1):
        made = behind(script, change, numbers[-1])
        new = sketch.text_of(program, made)
        lines += [f"change {it} {refused[it][0]}" for it in numbers if it in refused]
        told, moves, cuts = step_lines(number, numbers, old, new)
        lines += [*told, *turns_told(old, new), *restarts_told(old, new)]
        is_broken = False
        if policy is not None:
            now = unkept(program, sketch.edits_of(made), new, first, number == len(steps))
            fresh, is_broken = news(then, now)
            lines, then = [*lines, *fresh], now
        counts = [a + b for a, b in zip(counts, (moves, cuts, is_broken))]
        is_bad = is_bad or cuts or any(it in refused for it in numbers)
        old = new
    failing = f" failing {counts[2]} unkept {sum(map(bool, then.values()))}" if policy is not None else ""
    return [*lines, f"steps {len(steps)} moving {counts[0]} cutting {counts[1]}{failing}"], 1 if is_bad else 0


# ---- networks and changes


def edit(draws, bridges):
    """A line of a change: mostly a setting, and now and then something that comes or goes."""
    bridge, port, lan = draws.one_of(bridges), draws.below(6) + 1, draws.below(9)
    forms = [
        f"unplug {bridge} {port}", f"plug {bridge} {port} L{lan}", f"delport {bridge} {port}", f"addport {bridge} {port + 6}", f"plug {bridge} {port + 6} L{lan}",
        f"addlan L{lan}", "addbridge Z 02:00:00:00:00:aa", f"setkey {bridge} {port} {draws.below(2)}", f"delbridge {bridge}", "no such line", "# a comment",
    ]
    return draws.one_of(forms) if draws.below(4) == 0 else sketch.settings(draws, bridges)


def cable(number, key=1):
    """The lines of a cable more between A and B, which goes by this number at both ends."""
    ends = [line for bridge in "AB" for line in (f"addport {bridge} {number}", f"setkey {bridge} {number} {key}", f"plug {bridge} {number} M{number}")]
    return [f"addlan M{number}", *ends]


def bundle(draws):
    """Cables between A and B that mostly count as one, with numbers from 10 on."""
    return [line for number in range(10, 12 + draws.below(3)) for line in cable(number, min(draws.below(6), 1))]


def cabling(draws):
    """A step that changes such cables: one joins them or leaves, two ports change theirs, one port goes to another's LAN, or a key is set."""
    bridge, one, other = draws.one_of("AB"), 10 + draws.below(4), 10 + draws.below(4)
    forms = [
        cable(10 + draws.below(6)),
        [f"unplug {it} {one}" for it in "AB"],
        [f"unplug {bridge} {one}", f"unplug {bridge} {other}", f"plug {bridge} {one} M{other}", f"plug {bridge} {other} M{one}"],
        [f"unplug {bridge} {one}", f"plug {bridge} {one} M{other}"],
        [f"setkey {it} {one} {draws.below(2)}" for it in "AB"],
        [f"lan M{one} {draws.one_of(['up', 'down'])}"],
    ]
    return draws.one_of(forms)


def drawn_change(number):
    draws = sketch.Draws(number + 10**8)
    lines = []
    for _ in range(2 + draws.below(14)):
        step = [""] + cabling(draws) if number % 2 and draws.below(2) else [edit(draws, "ABCD")]
        lines += [""] * draws.below(3) + step
    return lines


def differing(program, script, change, policy):
    """What differs of a network and a change. The script comes by standard input."""
    wanted, status = wanted_of(program, script, change, policy)
    with tempfile.TemporaryDirectory() as folder:
        paths = []
        for name, lines in (("change", change), ("policy", policy)):
            if lines is not None:
                paths.append(os.path.join(folder, name))
                with open(paths[-1], "w", encoding="ascii") as file:
                    file.write("\n".join([*lines, ""]))
        return sketch.differing(program, ["steps", "-", *paths], script, wanted, status)


def faults_of(program, number):
    script, change = sketch.drawn(number), drawn_change(number)
    # half of the networks have a bundle, whose cables come, go and change ports
    script += bundle(sketch.Draws(number + 10**9)) if number % 2 else []
    return differing(program, script, change, POLICY if number % 3 == 0 else None)


def check(program, count, first=0):
    """What differs, of so many networks."""
    with concurrent.futures.ThreadPoolExecutor(os.cpu_count()) as pool:
        found = pool.map(lambda number: faults_of(program, number), range(first, first + count))
        return list(itertools.chain.from_iterable(found))


# ---- the examples


# A bundle of one cable, which another joins; and one of two, whose cables change ports at one end.
ONE_CABLE = ["addbridge A 02:00:00:00:00:01", "addbridge B 02:00:00:00:00:02", *cable(10)]
TWO_CABLES = [*ONE_CABLE, *cable(11)]
CROSSED = ["unplug A 10", "unplug A 11", "plug A 10 M11", "plug A 11 M10"]
QUIET = "step 1 lines 1-{} roots - ports 0 moved - cut - joined -\n"
CABLES = [
    (ONE_CABLE, cable(11), QUIET.format(7)),
    (TWO_CABLES, CROSSED, QUIET.format(4) + "restarts A:10\n"),
    (TWO_CABLES, ["unplug A 11", "unplug B 11"], QUIET.format(2)),
]

DRAIN = """step 1 lines 2-2 roots - ports 4 moved 1-4094 cut - joined -
turns 0,1 acc1
step 2 lines 4-4 roots - ports 4 moved 1-4094 cut - joined -
turns 0,1 acc2
step 3 lines 7-8 roots - ports 0 moved - cut - joined -
step 4 lines 10-10 roots - ports 0 moved - cut - joined -
"""
WORSE = """step 1 lines 2-2 roots - ports 0 moved 1-9,11-19,21-4094 cut 1-9,11-19,21-4094 joined -
cut 1-9,11-19,21-4094 parts acc1 acc2,core1,core2,dist1,dist2
step 2 lines 4-4 roots - ports 4 moved 1-4094 cut - joined 1-9,11-19,21-4094
turns 0,1 acc1
change 8 E04 no such bridge
step 3 lines 6-8 roots 0 ports 6 moved 1-9,11-19,21-29,31-39,41-4094 cut - joined -
turns 0 core1,core2,dist1,dist2
fails 2 now root 0 core2 of 6
steps 3 moving 3 cutting 1 failing 1 unkept 1
"""


def check_words(program, words, typed, status, printed):
    ran = subprocess.run([program, "steps", *words], input=typed.encode(), capture_output=True, check=False)
    if (ran.returncode, ran.stdout.decode(), ran.stderr) == (status, printed, b""):
        return True
    print(f"steps {words}: status {ran.returncode}, {ran.stdout}, {ran.stderr}")
    return False


def check_cables(program, folder, script, change, printed):
    path = os.path.join(folder, "script")
    with open(path, "w", encoding="ascii") as file:
        file.write("\n".join([*script, ""]))
    return check_words(program, [path, "-"], "\n".join([*change, ""]), 0, printed + "steps 1 moving 0 cutting 0\n")


def check_examples(program):
    script, drain, worse, keep = [os.path.join(SAMPLES, it) for it in ("campus.script", "campus.change", "worse.change", "keep.policy")]
    with open(drain, encoding="ascii") as file:
        change = file.read()
    with tempfile.TemporaryDirectory() as folder:
        cables = [check_cables(program, folder, *case) for case in CABLES]
    return [
        *cables,
        check_words(program, [script, drain, keep], "", 0, DRAIN + "steps 4 moving 2 cutting 0 failing 0 unkept 0\n"),
        check_words(program, [script, drain], "", 0, DRAIN + "steps 4 moving 2 cutting 0\n"),
        check_words(program, [script, "-"], change.replace("\n", "\r\n"), 0, DRAIN + "steps 4 moving 2 cutting 0\n"),
        check_words(program, [script, worse, keep], "", 1, WORSE),
        check_words(program, ["-", "-"], "no\n", 1, "line 1 E01 no such command\nsteps 0 moving 0 cutting 0\n"),
        check_words(program, ["-", "-", "-"], "", 1, f"{verify_runs.NOTHING}\nsteps 0 moving 0 cutting 0 failing 0 unkept 0\n"),
    ]


def checks(program, _folder):
    """Whether the examples are told as they are printed in docs/USING.md, and drawn changes as the texts say."""
    faults = check(program, IN_THE_GATE)
    print("".join(f"{it}\n" for it in faults), end="")
    return [*check_examples(program), not faults]


if __name__ == "__main__":
    sketch.check_drawn(check, COUNT, "networks: as the texts say", __doc__)
