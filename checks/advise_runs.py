#!/usr/bin/env python3
"""Advice (`mstplan advise FILE root TREE B` and `mstplan advise FILE forward TREE B P`), for program.py: what is advised does it, by the
texts of `run`, none of it can be left out, and where nothing is advised none of the settings in question does, and what is told says why.

usage: advise_runs.py PROGRAM [COUNT] [FIRST]    (so many networks, or 200; program.py takes fewer)

Networks are drawn by their numbers, and so are a few goals for each: some that it has reached already, and more that it hasn't. The settings in
question are made from the texts of `explain` and `showplan`, and each is tried by `run`. What the edits do is what the texts say of the networks
before and behind them, and what `steps` tells of them as one step. The exit status is 1 where an answer differs.
"""

import concurrent.futures
import itertools
import os
import re
import subprocess
import sys
import tempfile

SAMPLES = os.path.join(os.path.dirname(os.path.abspath(__file__)), os.pardir, "examples")
# nothing is to be left beside what is imported
sys.dont_write_bytecode = True

import sketch  # noqa: E402
import steps_runs  # noqa: E402

COUNT = 200
IN_THE_GATE = 15
# Of each kind of goal so many that aren't reached, and so many that are.
MOST, MOST_REACHED = 4, 1
FORWARDING = ("Root", "Designated", "Master")
PRIORITY, MOST_PRIORITY, MOST_COST = 4096, 61440, 200_000_000
# A port's priority, which stands above its number.
PORT_PRIORITY, MOST_PORT_PRIORITY = 16, 240
SECOND = "mstplan 2"


# ---- goals, as the words that ask for them


def in_question(text, tree, bridge):
    """The bridges that are on and have the tree, with their entries; in a tree other than 0 those of the bridge's region."""
    entries = {name: entry for name, entry in text.trees[tree].bridges.items() if entry}
    return {name: entry for name, entry in entries.items() if tree == 0 or text.regions[name] == text.regions[bridge]}


def is_reached(text, goal):
    kind, tree, bridge, *port = goal
    if kind == "forward":
        return text.trees[tree].ports[(bridge, *port)]["role"] in FORWARDING
    entries = in_question(text, tree, bridge)
    return bridge in entries and all(sketch.root_id(entry, tree) == entries[bridge][0] for entry in entries.values())


def goals_of(text):
    for tree, told in text.trees.items():
        yield from (("root", tree, bridge) for bridge in told.bridges)
        yield from (("forward", tree, *port) for port in told.ports)


def drawn_goals(text, draws):
    """A few of each kind, reached and not."""
    kinds = {}
    for goal in goals_of(text):
        kinds.setdefault((goal[0], is_reached(text, goal)), []).append(goal)
    for (_, reached), goals in sorted(kinds.items()):
        yield from sorted({draws.one_of(goals) for _ in range(MOST_REACHED if reached else MOST)}, key=str)


# ---- the settings in question, each a list of edits as words of version 2


def number_of(identifier):
    return int(re.sub("[.:]", "", identifier), 16)


def with_priority(identifier, priority):
    """The number of an identifier with another priority, which is its upper four bits."""
    return priority << 48 | number_of(identifier) & (1 << 60) - 1


def greatest(own, others):
    """The greatest priority with which an identifier is less than these, or None."""
    fitting = [it for it in range(0, MOST_PRIORITY + 1, PRIORITY) if all(with_priority(own, it) < number_of(other) for other in others)]
    return max(fitting, default=None)


def for_root(text, tree, bridge):
    """The greatest priority with which the bridge comes before all others; else the least for it, and the next one for those that come before
    it. What stands already isn't set."""
    entries = in_question(text, tree, bridge)
    if bridge not in entries:
        return []
    own = entries.pop(bridge)[0]
    most = greatest(own, [entry[0] for entry in entries.values()])
    wanted = {bridge: most or 0}
    if most is None:
        wanted |= {name: PRIORITY for name, entry in sorted(entries.items()) if number_of(entry[0]) < with_priority(own, 0)}
    ids = {bridge: own, **{name: entry[0] for name, entry in entries.items()}}
    return [[["settreeprio", name, tree, prio] for name, prio in wanted.items() if prio != sketch.priority(ids[name])]]


def cost_of(text, tree, port):
    """The cost of a port that counts on its LAN, and the words that set it: the external one where the LAN's designated port is of another region."""
    other = sketch.designated(text, text.trees[0].ports[port]["lan"])
    if text.regions[other[0]] != text.regions[port[0]]:
        return text.trees[0].ports[port]["ext"], ["setportpathcost", *port]
    return text.trees[tree].ports[port]["int"], ["settreeportcost", *port, tree]


def name_in(word):
    bridge, number = word.split(":")
    return bridge, int(number)


def with_cost(text, tree, port, number):
    """The setting of this cost of a port, where there is such a cost and the port has another one."""
    cost, words = cost_of(text, tree, port)
    return [[*words, number]] if 1 <= number <= MOST_COST and number != cost else []


def by_costs(text, tree, port, contest):
    """The port's cost less what it is behind the root port, and less one more; then the root port's cost with as much more."""
    _, winner, _, _, field, value, other = contest
    behind = int(other) - int(value) if field in ("ext", "int") else 0
    moved = [(port, -behind), (port, -behind - 1)]
    moved += [(name_in(winner), behind), (name_in(winner), behind + 1)] if winner != "own" else []
    return [it for name, more in moved for it in with_cost(text, tree, name, cost_of(text, tree, name)[0] + more)]


def by_port_priorities(text, tree, port, other):
    """The greatest priority of the port with which it comes before the other one of its bridge; the least of that one with which it comes behind."""
    ids = {it: int(text.trees[tree].ports[it]["id"], 16) for it in (port, other)}
    every = range(0, MOST_PORT_PRIORITY + 1, PORT_PRIORITY)
    before = [it for it in every if it << 8 | port[1] < ids[other]]
    behind = [it for it in every if it << 8 | other[1] > ids[port]]
    return [["settreeportprio", *port, tree, it] for it in before[-1:]] + [["settreeportprio", *other, tree, it] for it in behind[:1]]


def extremes(text, tree, port, other, contest, is_restricted):
    """The least cost of the port, the greatest one of the root port, and lower priorities of the bridge: so that it comes before that of the
    LAN's designated port, and before all."""
    settings = [] if is_restricted else with_cost(text, tree, port, 1)
    settings += with_cost(text, tree, name_in(contest[1]), MOST_COST) if contest and contest[1] != "own" else []
    entries = in_question(text, tree, port[0])
    own = entries.pop(port[0])[0]
    tops = [greatest(own, its) for its in ([text.trees[tree].bridges[other[0]][0]], [entry[0] for entry in entries.values()])]
    return settings + [["settreeprio", port[0], tree, it] for it in tops if it is not None and it < sketch.priority(own)]


def for_forwarding(text, tree, port, told_in):
    """Costs by what the port lacks, and settings by the LAN's designated port; each once, and each by itself."""
    lines = [line.split() for line in told_in(tree)]
    if any(words[0] == "boundary" for words in lines):
        tree, lines = 0, [line.split() for line in told_in(0)]
    told = {words[0]: words for words in lines}
    if "designated" not in told:
        return []
    other, contest = name_in(told["designated"][1]), told.get("root")
    settings = by_costs(text, tree, port, contest) if contest else []
    if other[0] == port[0]:
        settings += by_port_priorities(text, tree, port, other)
    else:
        settings += extremes(text, tree, port, other, contest, "restricted" in told)
    return [[list(it)] for it in dict.fromkeys(map(tuple, settings))]


def candidates(program, script, text, goal):
    kind, tree, bridge, *port = goal
    if kind == "root":
        return for_root(text, tree, bridge)

    def told_in(tree):
        printed = sketch.run(program, ["explain", "-", bridge, str(port[0]), str(tree)], script)[0]
        return [line for line in printed.splitlines() if not line.startswith("line ")]

    return for_forwarding(text, tree, (bridge, *port), told_in)


# ---- what is to be told


def made(script, edits):
    """A script with edits behind it, in its own version."""
    if script[0].split() != SECOND.split():
        sizes = {"settreeprio": PRIORITY, "settreeportprio": PORT_PRIORITY}
        edits = [[*words[:-1], words[-1] // sizes.get(words[0], 1)] for words in edits]
    return [*script, *(" ".join(map(str, words)) for words in edits)]


def does(text, after):
    """What edits do, as a step does."""
    first, *cuts = steps_runs.step_lines(1, [1], text, after)[0]
    return [f"does {' '.join(first.split()[4:])}", *cuts]


def wanted_of(program, script, text, goal):
    """What is to be told of a goal, behind refused lines, and the edits."""
    if is_reached(text, goal):
        return ["advise edits 0"], []
    tried, after = candidates(program, script, text, goal), text
    for edits in tried:
        after = sketch.text_of(program, made(script, edits))
        if is_reached(after, goal):
            lines = [f"edit {' '.join(map(str, words))}" for words in edits]
            return [*lines, *does(text, after), f"advise edits {len(edits)}"], edits
    return [f"because {hindrance(text, goal) or still(after, goal, len(tried))}", "advise none"], []


def hindrance(text, goal):
    """What is in the way before anything is set: nothing where that is None."""
    _, _, bridge, *number = goal
    _, _, off, _, restricted = sketch.states_of(text.saved)
    port = text.trees[0].ports.get((bridge, *number))
    if bridge in off:
        return f"off {bridge}"
    if port and port["role"] == sketch.DISABLED:
        return f"down {port['lan']}"
    return "restricted" if (bridge, *number) in restricted else None


def still(after, goal, count):
    """The bridges that don't have the bridge as their root behind the last settings, or of how many settings none does it."""
    kind, tree, bridge, *_ = goal
    entries = in_question(after, tree, bridge) if kind == "root" else {}
    apart = [name for name, entry in sorted(entries.items()) if sketch.root_id(entry, tree) != entries[bridge][0]]
    return f"apart {','.join(apart)}" if apart else f"tried {count}"


def unequal_step(program, script, edits, told):
    """What `steps` tells of the edits as one step, where it isn't what is told of them."""
    with tempfile.NamedTemporaryFile("w", suffix=".change", encoding="ascii") as file:
        file.write("".join(f"{line}\n" for line in [SECOND, *(" ".join(map(str, words)) for words in edits)]))
        file.flush()
        lines = sketch.run(program, ["steps", "-", file.name], script)[0].splitlines()
    step = [line for line in lines if line.startswith(("step ", "cut "))]
    found = [f"does {' '.join(step[0].split()[4:])}", *step[1:]]
    return [] if found == told else [f"steps of {edits}: {found} in place of {told}"]


def lesser_one(program, script, goal, edits):
    """A priority that isn't the greatest: with the next one the bridge is still the root."""
    if goal[0] != "root" or len(edits) != 1 or edits[0][1] != goal[2] or edits[0][-1] == MOST_PRIORITY:
        return []
    after = sketch.text_of(program, made(script, [[*edits[0][:-1], edits[0][-1] + PRIORITY]]))
    return [f"{goal}: {edits} isn't the greatest priority"] if is_reached(after, goal) else []


def needless(program, script, goal, edits):
    """Edits without one of which it is the same."""
    rests = [(edits[at], edits[:at] + edits[at + 1:]) for at in range(len(edits))]
    return [f"{goal}: without {it} it is so, too" for it, rest in rests if is_reached(sketch.text_of(program, made(script, rest)), goal)]


def words_of(goal):
    return ["advise", "-", *map(str, goal)]


def faults_of_goal(program, script, text, goal, lines):
    told, edits = wanted_of(program, script, text, goal)
    faults = sketch.differing(program, words_of(goal), script, [*lines, *told], 1 if lines or told[-1] == "advise none" else 0)
    if edits:
        faults += unequal_step(program, script, edits, told[len(edits):-1]) + lesser_one(program, script, goal, edits)
        faults += needless(program, script, goal, edits)
    return faults


def refusals(text):
    """Goals that aren't asked of a network, and why."""
    bridges, ports = sorted(text.trees[0].bridges), sorted(text.trees[0].ports)
    yield from [(("root", 0, "nowhere"), "E04 no such bridge"), (("forward", 0, "nowhere", 1), "E04 no such bridge")]
    yield from [(("root", 4095, "nowhere"), "E03 bad VID or tree"), (("forward", "x", "nowhere", 1), "E03 bad VID or tree")]
    yield from [(("root", 4095, "no where"), "E02 bad argument"), (("forward", "x", "nowhere", 0), "E02 bad argument")]
    for bridge in bridges[:1]:
        yield from [(("forward", 0, bridge, 4000), "E05 no such port"), (("root", 4000, bridge), "E03 bad VID or tree")]
    for port in ports[:1]:
        yield ("forward", 4000, *port), "E03 bad VID or tree"


def faults_of(program, number):
    script = sketch.drawn(number)
    text, lines = sketch.text_of(program, script), sketch.refused(program, script)
    if 0 not in text.trees:
        return []
    faults = []
    for goal in drawn_goals(text, sketch.Draws(number + 10**9)):
        faults += faults_of_goal(program, script, text, goal, lines)
    for goal, why in refusals(text):
        faults += sketch.differing(program, words_of(goal), script, [*lines, f"advise {why}"], 1)
    return faults


def check(program, count, first=0):
    """What differs, of so many networks."""
    with concurrent.futures.ThreadPoolExecutor(os.cpu_count()) as pool:
        found = pool.map(lambda number: faults_of(program, number), range(first, first + count))
        return list(itertools.chain.from_iterable(found))


# ---- the examples


ROOT = """edit settreeprio core2 1 0
does roots 1 ports 6 moved 10,20 cut - joined -
advise edits 1
"""
FORWARD = """edit setportpathcost acc1 2 19999
does roots - ports 4 moved 1-4094 cut - joined -
advise edits 1
"""
# Two bridges of priority 0, of which the one with the lesser MAC address gives way; and a bridge that nothing links to the other.
PAIR = """addbridge A 02:00:00:00:00:01
addbridge B 02:00:00:00:00:02
settreeprio A 0 0
addlan L
addport A 1
addport B 1
plug A 1 L
"""
# Two ports of a bridge on one LAN, where it is the root: one is Backup.
DOUBLE = """addbridge A 02:00:00:00:00:01
addlan L
addport A 8
addport A 9
plug A 8 L
plug A 9 L
"""
OPENED = """edit settreeportprio A 9 0 112
does roots - ports 2 moved - cut - joined -
advise edits 1
"""
GIVES_WAY = """edit settreeprio B 0 0
edit settreeprio A 0 4096
does roots 0 ports 2 moved - cut - joined -
advise edits 2
"""
# The same where B has priority 0 already: that is no edit.
STEPS_BACK = GIVES_WAY.split("\n", 1)[1].replace("edits 2", "edits 1")


def check_words(program, words, typed, status, printed):
    ran = subprocess.run([program, "advise", *words], input=typed.encode(), capture_output=True, check=False)
    if (ran.returncode, ran.stdout.decode(), ran.stderr) == (status, printed, b""):
        return True
    print(f"advise {words}: status {ran.returncode}, {ran.stdout}, {ran.stderr}")
    return False


def check_examples(program):
    script = os.path.join(SAMPLES, "campus.script")
    return [
        check_words(program, [script, "root", "1", "core2"], "", 0, ROOT),
        check_words(program, [script, "forward", "0", "acc1", "2"], "", 0, FORWARD),
        check_words(program, [script, "root", "1", "core1"], "", 0, "advise edits 0\n"),
        check_words(program, [script, "root", "3", "core1"], "", 1, "advise E03 bad VID or tree\n"),
        check_words(program, ["-", "root", "0", "B"], f"{PAIR}plug B 1 L\n", 0, GIVES_WAY),
        check_words(program, ["-", "root", "0", "B"], f"{PAIR}plug B 1 L\nsettreeprio B 0 0\n", 0, STEPS_BACK),
        check_words(program, ["-", "root", "0", "B"], PAIR, 1, "because apart A\nadvise none\n"),
        check_words(program, ["-", "root", "0", "B"], f"{PAIR}bridge B off\n", 1, "because off B\nadvise none\n"),
        check_words(program, ["-", "forward", "0", "A", "1"], f"{PAIR}lan L down\n", 1, "because down L\nadvise none\n"),
        check_words(program, ["-", "forward", "0", "A", "9"], DOUBLE, 0, OPENED),
        check_words(program, ["-", "forward", "0", "A", "1"], f"no\n{PAIR}", 1, "line 1 E01 no such command\nadvise edits 0\n"),
        check_words(program, ["-", "root", "0", "B"], "", 1, "advise E04 no such bridge\n"),
    ]


def checks(program, _folder):
    """Whether the examples are told as they are printed here, and of drawn networks what the texts say."""
    faults = check(program, IN_THE_GATE)
    print("".join(f"{it}\n" for it in faults), end="")
    return [*check_examples(program), not faults]


if __name__ == "__main__":
    sketch.check_drawn(check, COUNT, "networks: what is advised does it, by the texts", __doc__)
