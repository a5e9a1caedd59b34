"""More large runs of the program, for program.py, beside those of large_runs.py: long policies and policies of long lists, advice,
changes of many steps and edits of many rows, long sessions, long scripts, pairs of many failures, many classes of VIDs, many regions, a long
saved text. Each has its status, and its lines, or how many there are of each kind, as they follow from what it is given. None may give up
at a size.
"""

import hashlib
import itertools
import json
import os
import sys

sys.path.append(os.path.join(os.path.dirname(os.path.abspath(__file__)), os.pardir, "bench"))

import lan  # noqa: E402
import load  # noqa: E402
from large_runs import ALL_LANS, ALL_PORTS, OTHER, TREES, Large, Mesh, as_bytes, chain, check, exactly, first_words, having, written  # noqa: E402

# A summary of two bridges on a LAN.
SUMMARY = {"bridges": 1, "tree": 1, "blocked": 1, "vlan": 1, "carries": 1}
SMALL = ("addbridge A 02:00:00:00:00:01", "addbridge B 02:00:00:00:00:02", "addlan x", "addport A 1", "addport B 1", "plug A 1 x", "plug B 1 x")


def ending(fits, last):
    """What fits, and has this last line."""
    return lambda told: told.endswith(b"\n" + last + b"\n") and fits(told)


def once(*words):
    """A line with each of these first words, and no second one."""
    return lambda told: all(told.count(b"\n" + word + b" ") == 1 for word in words)


def times(counts, number):
    return {word: number * count for word, count in counts.items()}


# ---- policies and advice

# So many bridges have five promises each, and so many are in one list.
PROMISED, LISTED = 400, 600


def promises():
    for i in range(PROMISED):
        yield "root 0 B0000"
        yield f"reach {1 + i} B{i:04},B{i + 1:04}"
        yield f"role 0 B{i:04}:1 Designated,Root,Alternate"
        yield f"carries L{i:04}-0 {1 + i}"
        yield f"depth 0 {1000 - i}"


def policy_cases(folder):
    """A mesh, in which the LANs carry nothing that have a port that blocks, and in which some bridges are parents."""
    mesh, first = Mesh(0), written(folder, "mesh", load.load(load.BRIDGES))
    idle = sum("Alternate" in (mesh.roles[i, 1], mesh.roles[i + 1, 2]) for i in range(PROMISED))
    names = ",".join(f"B{i:04}" for i in range(LISTED))
    many = written(folder, "policy of many", promises())
    long = written(folder, "policy of long lists", [f"reach 1-4094 {names}", f"leaf 0 {names}"])
    kept = 5 * PROMISED - idle
    ends = [pair for link in mesh.links for pair in (link, link[::-1])]
    parents = {bridge for port, (bridge, _) in ends if mesh.roles[port] == "Root" and bridge < LISTED}
    return [
        Large("a policy of 2,000 lines", ["verify", first, many], b"", 1,
              ending(first_words({"fails": idle, "verify": 1}), b"verify expectations %d hold %d" % (5 * PROMISED, kept))),
        Large("a policy of lists of 600", ["verify", first, long], b"", 1,
              ending(first_words({"fails": len(parents), "verify": 1}), b"verify expectations 2 hold 1")),
    ]


def star(bridges):
    """Bridges on one LAN, all but the last with the least priority that there is."""
    yield "addlan x"
    for i in range(bridges):
        yield f"addbridge B{i:02} 02:00:00:00:00:{i:02x}"
        if i + 1 < bridges:
            yield f"settreeprio B{i:02} 0 0"
        yield f"addport B{i:02} 1"
        yield f"plug B{i:02} 1 x"


def advice_cases(folder):
    """One setting makes a bridge of a mesh the root; one on a LAN with others of the least priority takes one of each. Of two ports of a bridge on
    a LAN of 4,096 the second forwards where it costs less than the first."""
    first, those = written(folder, "mesh", load.load(load.BRIDGES)), 20
    second, wide = written(folder, "star", star(those)), written(folder, "lan", lan.lan(256, 16))
    one, each = {"edit": 1, "does": 1, "advise": 1}, {"edit": those, "does": 1, "advise": 1}
    return [
        Large("a root of a mesh", ["advise", first, "root", "0", f"B{OTHER:04}"], b"", 0, ending(first_words(one), b"advise edits 1")),
        Large("a root of a star", ["advise", second, "root", "0", f"B{those - 1:02}"], b"", 0, ending(first_words(each), b"advise edits %d" % those)),
        Large("a port of a LAN", ["advise", wide, "forward", "0", "B0255", "16"], b"", 0, ending(first_words(one), b"advise edits 1")),
    ]


# So many LANs fail, and so many of them a scope names, with names of two letters or digits. So many lines aren't kept, have a hint, are kept.
FAILING, NAMED, UNKEPT, HINTED, KEPT = 2_102, 1_300, 30_000, 30_000, 100_000
LETTERS = "0123456789ABCDEFGHIJKLMNOPQRSTUVWXYZabcdefghijklmnopqrstuvwxyz"


def idle_lans(folder):
    """Two bridges that no LAN joins, and LANs that nothing is in."""
    lans = ["".join(pair) for pair in itertools.islice(itertools.product(LETTERS, repeat=2), FAILING)]
    return lans, written(folder, "LANs that are idle", [*SMALL[:2], *(f"addlan {name}" for name in lans)])


def after_failures(folder):
    """Of `always` what is so in the network is told once, and a failure whose very name the scope has is told in any case."""
    lans, script = idle_lans(folder)
    policy = written(folder, "policy of failures", ["always reach 1-4094 A,B", f"after lan {','.join(lans[:NAMED])} reach 1-4094 A,B"])
    told = ["fails 1 now reach 1-4094 parts A B", f"same 1 failures {FAILING}", *(f"fails 2 lan {name} reach 1-4094 parts A B" for name in lans[:NAMED])]
    return Large("many failures in a line", ["verify", script, policy], b"", 1, exactly(as_bytes([*told, "verify expectations 2 hold 0"])))


def after_risks(folder):
    """Each LAN is a risk of its own, and all of them are one with a line for each: each failure and each risk is counted."""
    lans, script = idle_lans(folder)
    risks = [*(f"risk {name} lan {name}" for name in lans), *(f"risk all lan {name}" for name in lans)]
    policy, number = written(folder, "policy of risks", [*risks, "always reach 1-4094 A,B"]), len(risks) + 1
    told = [f"fails {number} now reach 1-4094 parts A B", f"same {number} failures {2 * FAILING + 1}", "verify expectations 1 hold 0"]
    swept = [*(f"risk {name} roots - ports 0 cut -" for name in [*lans, "all"]), f"sweep risks {FAILING + 1} cuts 0"]
    return [
        Large("many risks of a policy", ["verify", script, policy], b"", 1, exactly(as_bytes(told))),
        Large("a sweep of many risks", ["sweep", script, policy], b"", 0, exactly(as_bytes(swept))),
    ]


def line_cases(folder):
    """Many lines of a policy that aren't kept, that are kept but for the last, and that aren't read and have a hint each."""
    small = written(folder, "small", SMALL)
    unkept, kept = ["root 0 B"] * UNKEPT, ["root 0 A"] * KEPT + ["root 0 B"]
    fails = [f"fails {number} now root 0 A of 2" for number in range(1, UNKEPT + 1)]
    refused = [f"policy {number} E01 no such expectation" for number in range(1, HINTED + 1)]
    hints = as_bytes(f"policy line {number} no expectation raech; reach?" for number in range(1, HINTED + 1))
    last = [f"fails {KEPT + 1} now root 0 A of 2", f"verify expectations {KEPT + 1} hold {KEPT}"]
    return [
        Large("many lines that aren't kept", ["verify", small, "-"], as_bytes(unkept), 1, exactly(as_bytes([*fails, f"verify expectations {UNKEPT} hold 0"]))),
        Large("a policy of 100,001 lines", ["verify", small, "-"], as_bytes(kept), 1, exactly(as_bytes(last))),
        Large("a hint of each line of a policy", ["verify", "--hints", small, "-"], as_bytes(["raech 1 *"] * HINTED), 1,
              exactly(as_bytes([*refused, "verify expectations 0 hold 0"])), hints),
    ]


# ---- tables of VIDs, and regions

# Three tables, in which no two VIDs have the same three trees.
VIDS = range(1, 4095)
TABLES = {
    "a": {vid: 1 + vid % TREES for vid in VIDS},
    "b": {vid: 1 + vid // TREES for vid in VIDS},
    "c": {vid: 1 + (vid % TREES + vid // TREES) % TREES for vid in VIDS},
}
# Trees up to this one take the first of the two LANs between the bridges of a region, and the others the second.
FIRST_HALF = TREES // 2


def as_list(vids):
    """VIDs as longest runs."""
    runs = []
    for vid in sorted(vids):
        if runs and runs[-1][1] == vid - 1:
            runs[-1][1] = vid
        else:
            runs.append([vid, vid])
    return ",".join(f"{first}-{last}" if last > first else f"{first}" for first, last in runs)


def three_regions():
    """A ring of three regions, a table each. A region is two bridges with two LANs between them."""
    for place, (name, table) in enumerate(TABLES.items()):
        for number in (1, 2):
            bridge = f"{name}{number}"
            yield from (f"addbridge {bridge} 02:00:00:00:0{place}:0{number}", f"setmstconfid {bridge} 1 {name}")
            yield from (f"setvid2mstid {bridge} {tree} {as_list(vid for vid in VIDS if table[vid] == tree)}" for tree in range(1, TREES + 1))
            yield from (f"addport {bridge} {port}" for port in (1, 2, 3))
            yield from (f"settreeportcost {bridge} 1 {tree} 30000" for tree in range(FIRST_HALF + 1, TREES + 1))
    for name, following in zip("abc", "bca"):
        links = ((f"{name}-1", f"{name}1 1", f"{name}2 1"), (f"{name}-2", f"{name}1 2", f"{name}2 2"), (f"{name}{following}", f"{name}2 3", f"{following}1 3"))
        for link, one, other in links:
            yield from (f"addlan {link}", f"plug {one} {link}", f"plug {other} {link}")


def three_summarized():
    """Its summary. Regions b and c are next to that of the root a1, and b1 has a lesser identifier than c2: so c1 blocks the LAN between b and c.
    Each tree of a region takes one of its two LANs."""
    yield f"bridges 6 on 6 ports 18 enabled 18 regions 3 trees {TREES + 1}"
    yield from ("tree 0 root a1 32768 of 6 next a2 32768", "blocked 0 a2:2,b2:2,c1:2,c1:3")
    for tree in range(1, TREES + 1):
        idle = 2 if tree <= FIRST_HALF else 1
        yield from (f"tree {tree} root {name}1 32768 of 2 next {name}2 32768" for name in TABLES)
        yield f"blocked {tree} a2:{idle},b2:{idle},c1:3,c2:{idle}"
    yield "vlan 1-4094 islands 1"
    for name, table in TABLES.items():
        first = {vid for vid in VIDS if table[vid] <= FIRST_HALF}
        yield from (f"carries {name}-1 {as_list(first)}", f"carries {name}-2 {as_list(set(VIDS) - first)}")
        yield from ["carries bc -"] * (name == "b")
    yield "carries * ab,ca"


REGIONS = 150


def near_names():
    """A bridge of each of so many regions on one LAN, and a summary, which tells of each two names that differ in one letter."""
    names = ["".join(letters) for letters in itertools.islice(itertools.product("abcdef", repeat=3), REGIONS)]
    script = ["addlan x"]
    for number, name in enumerate(names):
        bridge = f"B{number:03}"
        script += [f"addbridge {bridge} 02:00:00:00:00:{number:02x}", f"setmstconfid {bridge} 1 {name}", f"addport {bridge} 1", f"plug {bridge} 1 x"]
    told = [f"bridges {REGIONS} on {REGIONS} ports {REGIONS} enabled {REGIONS} regions {REGIONS} trees 1",
            f"tree 0 root B000 32768 of {REGIONS} next B001 32768", "blocked 0 -", "vlan 1-4094 islands 1", "carries * x"]
    for (number, name), (other, second) in itertools.combinations(enumerate(names), 2):
        if sum(one != two for one, two in zip(name, second)) == 1:
            told.append(f"look region {name} B{number:03} {second} B{other:03}")
    return script, told


def table_cases(folder):
    """VIDs that no two of which go alike, and many regions. No single failure parts a ring, so none cuts a VLAN."""
    ring, policy = written(folder, "three tables", three_regions()), as_bytes(["always together 1-4094 *"])
    script, told = near_names()
    return [
        Large("three tables of 64 trees summarized", ["summary", ring], b"", 0, exactly(as_bytes(three_summarized()))),
        Large("three tables of 64 trees after each failure", ["verify", ring, "-"], policy, 0, exactly(b"verify expectations 1 hold 1\n")),
        Large("many named regions summarized", ["summary", "-"], as_bytes(script), 0, exactly(as_bytes(told))),
    ]


# ---- changes and edits

STEPS = 1200


def many_steps():
    for number in range(STEPS):
        yield from (f"setportpathcost A 1 {1 + number}", "")


def with_costs():
    """A mesh of which each port has a cost of its own."""
    yield from load.load(load.BRIDGES)
    for i in range(load.BRIDGES):
        yield from (f"setportpathcost B{i:04} {port} {1000 + i}" for port in range(1, load.PORTS_EACH + 1))


def change_cases(folder):
    small = written(folder, "small", SMALL)
    costs = written(folder, "mesh with costs", with_costs())
    replaced = written(folder, "mesh with costs, replaced", (line.replace(" 02:00:", " 02:01:") for line in with_costs()))
    of_bridges, of_ports = ("delbridge", "addbridge"), ("unplug", "delport", "addport", "plug", "setportpathcost")
    rows = {"mstplan": 1, **dict.fromkeys(of_bridges, load.BRIDGES), **dict.fromkeys(of_ports, ALL_PORTS)}
    return [
        Large("many steps", ["steps", small, "-"], as_bytes(many_steps()), 0,
              ending(first_words({"step": STEPS, "steps": 1}), b"steps %d moving 0 cutting 0" % STEPS)),
        Large("many edits", ["edits", costs, replaced], b"", 1, first_words(rows)),
    ]


# ---- sessions

EDITS, UNDONE = 100_001, 70_000


def session():
    yield from (f"setportpathcost A 1 {1 + number}" for number in range(EDITS))
    yield from ("summary", "setmaxage A 6", f"undo {UNDONE}", "summary")


def in_json(counts):
    """So many records of each kind, and so many answers to a query, a line each."""

    def fits(told):
        found = {}
        for line in told.splitlines():
            value = json.loads(line)
            name = value.get("kind") or value["query"]
            found[name] = found.get(name, 0) + 1
        return found == counts

    return fits


# So many edits, with a question about the policy behind each.
ASKED = 101


def asked_and_told():
    """One bridge and the other is the root in turn, and the policy wants the first."""
    asked, told = [], ["done 0"]
    for number in range(ASKED):
        asked += [f"settreeprio B 0 {8 * (number % 2)}", "verify"]
        broken = ["fails 1 now root 0 B of 2", "verify expectations 1 hold 0", "done 1"]
        told += ["done 0", *(["verify expectations 1 hold 1", "done 0"] if number % 2 else broken)]
    return as_bytes(asked), as_bytes(told)


# So many ports have a list of VIDs that is nearly as long as a line may be.
LISTS, LONGEST = 1_900, 1_840


def saved():
    """A script as it is saved, of 7 MB: each second VID, so that no two are a run."""
    yield from ("mstplan 2", "addbridge A 02:00:00:00:00:01")
    for port in range(1, LISTS + 1):
        yield from (f"addport A {port}", f"setportvlans A {port} {','.join(map(str, range(1 + port % 2, LONGEST, 2)))}")


def digest_case():
    text = as_bytes(saved())
    return Large("the digest of a long text", ["run", "-"], text + b"save\ndigest\n", 0, exactly(text + f"digest {hashlib.md5(text).hexdigest()}\n".encode()))


def session_cases(folder):
    """Many edits of a small network, of which most are taken back, or behind which a policy is asked for; a script of 3 MB that is asked once;
    and one of 7 MB that is saved."""
    small, policy = written(folder, "small", SMALL), written(folder, "policy of a root", ["root 0 A"])
    asked, told = asked_and_told()
    edits = (f"setportpathcost B{i % load.BRIDGES:04} {1 + i % load.PORTS_EACH} {1 + i}" for i in range(60_000))
    long = written(folder, "a long script", [*with_costs(), *edits])
    # the script, each edit, and what stands behind them
    done = {"done": 1 + EDITS + 4, "undone": UNDONE}
    return [
        Large("a long session", ["ask", small], as_bytes(session()), 0, ending(first_words({**done, **times(SUMMARY, 2)}), b"done 0")),
        Large("a long session in JSON", ["ask", "--json", small], as_bytes(session()), 0,
              ending(in_json({**done, "summary": 2}), b'{"kind":"done","status":0}')),
        Large("a long script that stands", ["ask", long], b"summary\n", 0,
              ending(once(b"bridges", b"tree", b"blocked", b"vlan"), b"done 0")),
        Large("a policy behind each edit", ["ask", small, policy], asked, 1, exactly(told)),
        digest_case(),
    ]


# ---- failures, hints and pictures

# Chains of so many bridges, and in so many parts their pairs of failures are taken.
CHAINS, MISSPELT = ((130, 64), (260, 65536)), 40_000


def pair_case(folder, chained, parts):
    """Each link of a chain cuts it alone, and so does each bridge between two others. So no pair cuts anything more."""
    failures = 2 * chained - 1
    pairs = failures * (failures - 1) // 2 // parts
    links = written(folder, f"chain of {chained}", chain(chained, chained, "kind {} rstp"))
    return Large(f"pairs of a chain of {chained}", ["sweep", links, "pairs", f"1/{parts}"], b"", 0, exactly(b"sweep pairs %d cuts 0\n" % pairs))


def wide_cases(folder):
    """Pairs of failures of chains; each line of a script is misspelt; and a mesh is drawn with a VLAN."""
    misspelt = written(folder, "misspelt, many", ["addbrigde X 02:00:00:00:00:01"] * MISSPELT)
    refused = b"".join(b"line %d E01 no such command\n" % number for number in range(1, MISSPELT + 1))
    hints = b"".join(b"line %d no command addbrigde; addbridge?\n" % number for number in range(1, MISSPELT + 1))
    first, blocked = written(folder, "mesh", load.load(load.BRIDGES)), len(Mesh(0).blocked())
    # around the bridges of the one island and around all stands a line more at each end
    drawn = having(4 + 2 + load.BRIDGES + ALL_LANS, {b"style=dashed": blocked})
    return [
        *(pair_case(folder, chained, parts) for chained, parts in CHAINS),
        Large("a hint of each of 40,000 lines", ["run", "--hints", misspelt], b"", 1, exactly(refused), hints),
        Large("a mesh drawn with a VLAN", ["dot", first, "vlan", "10"], b"", 0, ending(drawn, b"}")),
    ]


def cases(folder):
    of_policies = policy_cases(folder) + [after_failures(folder)] + after_risks(folder) + line_cases(folder) + table_cases(folder)
    return of_policies + advice_cases(folder) + change_cases(folder) + session_cases(folder) + wide_cases(folder)


def checks(program, folder):
    """Whether each run came to what it must."""
    return [check(program, large) for large in cases(folder)]
