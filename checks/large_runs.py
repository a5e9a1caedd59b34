"""Large runs of the program, for program.py: each with its status and with what the rules of docs/RULES.md give, counted
from the script and never from what the program prints. None may be refused for want of memory, so that no size is one at
which the program gives up.
"""

import collections
import fcntl
import hashlib
import hmac
import json
import os
import struct
import subprocess
import sys
import tempfile
import termios
import time

sys.path.append(os.path.join(os.path.dirname(os.path.abspath(__file__)), os.pardir, "bench"))

import lan  # noqa: E402
import load  # noqa: E402

SECONDS = 120
LACKING = (b"memory", b"E99", b"B99")
QUERIES = ("showplan", "showvlan 10", "showregions", "showmstconfid B0007", "shownotes", "changes", "showtree 0", "showlag", "save", "digest")
# The bridge that the edit makes the root.
OTHER = load.BRIDGES // 2
EDIT = f"settreeprio B{OTHER:04} 0 0"
MAX_AGE = MAX_HOPS = 20
ALL_PORTS, ALL_LANS = load.BRIDGES * load.PORTS_EACH, load.BRIDGES * load.LANS_EACH

# A run: its name, the words, standard input, the status, whether standard output is right, and standard error.
Large = collections.namedtuple("Large", "name words given status fits err", defaults=(b"",))


# ---- what standard output is to be


def exactly(text):
    return lambda told: told == text


def first_words(counts):
    """So many lines with each first word, and no others."""
    return lambda told: collections.Counter(line.split()[0] for line in told.decode().splitlines()) == counts


def having(lines, counts):
    """So many lines, and each of these parts so often."""
    return lambda told: told.count(b"\n") == lines and all(told.count(part) == count for part, count in counts.items())


def answers(sizes):
    """An answer to each query in its order, a line of JSON, with so many records."""

    def fits(told):
        values = [json.loads(line) for line in told.splitlines()]
        return [(value.get("query"), len(value.get("records", ()))) for value in values] == sizes

    return fits


# ---- the mesh of load.py, worked out by plain search


class Mesh:
    """Its roles with the first bridge as the root, or with another one, whose identifier is the least then."""

    def __init__(self, root):
        self.root = root
        places = ((i, k) for i in range(load.BRIDGES) for k in range(load.LANS_EACH))
        self.links = [((i, 2 * k + 1), ((i + k + 1) % load.BRIDGES, 2 * k + 2)) for i, k in places]
        self.steps = self.distances()
        self.roles = dict(self.roles_of())

    def distances(self):
        """How many links lead to the root: each costs the same."""
        near = collections.defaultdict(list)
        for (one, _), (other, _) in self.links:
            near[one].append(other)
            near[other].append(one)
        steps, front = {self.root: 0}, [self.root]
        while front:
            following = [(k, steps[i] + 1) for i in front for k in near[i]]
            front = []
            for k, count in following:
                if k not in steps:
                    steps[k] = count
                    front.append(k)
        return steps

    def offer(self, port):
        """What tells the designated priority vectors of two ports apart: the cost, the bridge, the port."""
        bridge, number = port
        return self.steps[bridge], bridge != self.root, bridge, number

    def roles_of(self):
        best = {}
        for one, other in self.links:
            sender, hearer = sorted((one, other), key=self.offer)
            yield sender, "Designated"
            yield hearer, "Alternate"
            best[hearer[0]] = min(best.get(hearer[0], (self.offer(sender), hearer)), (self.offer(sender), hearer))
        yield from ((hearer, "Root") for _, hearer in best.values())

    def blocked(self):
        return sorted(port for port, role in self.roles.items() if role == "Alternate")


def mesh_words(before, after):
    """The first words of what each query prints once the mesh was marked and edited."""
    moved = sum(after.roles[port] != role for port, role in before.roles.items())
    tree = {"tree": 1, "bridge": load.BRIDGES, "port": ALL_PORTS}
    vlan = {"vlan": 1, "active": 1, "island": 1}
    records = {"addbridge": load.BRIDGES, "addport": ALL_PORTS, "addlan": ALL_LANS, "plug": ALL_PORTS}
    deep = sum(steps > MAX_AGE for steps in after.steps.values())
    return dict(zip((query.split()[0] for query in QUERIES), (
        {**tree, **vlan}, vlan, {"region": load.BRIDGES}, {"mstconfid": 1}, {"note": deep},
        {"bridge": load.BRIDGES, "port": moved}, tree, {}, {"mstplan": 1, "settreeprio": 1, **records}, {"digest": 1},
    )))


def mesh_cases(folder):
    """A network as large as one may be: each query of it, and what is asked of it."""
    before, after = Mesh(0), Mesh(OTHER)
    first = written(folder, "mesh", load.load(load.BRIDGES))
    other = written(folder, "mesh, edited", [*load.load(load.BRIDGES), EDIT])
    asking = written(folder, "mesh, with queries", [*load.load(load.BRIDGES), "mark", EDIT, *QUERIES])
    words = mesh_words(before, after)
    in_all = sum(map(collections.Counter, words.values()), collections.Counter())
    sizes = [(query, sum(counts.values())) for query, counts in words.items()]
    blocked = before.blocked()
    bridge, number = blocked[len(blocked) // 2]
    summary = {"bridges": 1, "tree": 1, "blocked": 1, "vlan": 1, "carries": len(blocked) + 1}
    moved = words["changes"]["port"]
    # the mark, the edit, each query, what takes the edit back, and two more
    questions = ["mark", EDIT, *QUERIES, "undo", "changes", "summary"]
    answers_to = in_all + collections.Counter(summary) + collections.Counter({"undone": 1, "done": 1 + len(questions)})
    return [
        Large("each query of a mesh", ["run", asking], b"", 0, first_words(in_all)),
        Large("each query of a mesh in JSON", ["run", "--json", asking], b"", 0, answers(sizes)),
        Large("a mesh summarized", ["summary", first], b"", 0, first_words(summary)),
        Large("a mesh and an edited one", ["diff", first, other], b"", 1, first_words({"root": 1, "port": moved, "diff": 1})),
        Large("a mesh that stands", ["ask", first], as_bytes(questions), 0, first_words(answers_to)),
        Large("a mesh drawn", ["dot", first, "0"], b"", 0, having(4 + load.BRIDGES + ALL_LANS, {b"style=dashed": len(blocked)})),
        Large("a mesh explained", ["explain", first, f"B{bridge:04}", str(number)], b"", 0,
              first_words({"explain": 1, "designated": 1, "root": 1})),
    ]


# As many bridges, ports and LANs as there may be, then edits, one more of each, and a tree.
COST = 20001
BEYOND = ("addbridge X 02:00:00:00:ff:ff", "addport B0000 17", "addlan X")


def limit_script():
    yield from load.load(load.BRIDGES)
    for cost in (1, COST):
        for i in range(load.BRIDGES):
            yield from (f"setportpathcost B{i:04} {port} {cost}" for port in range(1, load.PORTS_EACH + 1))
    yield from (*BEYOND, "showtree 0")


def limit_case():
    """No line is refused but those beyond the limits, and each bridge has the root and the cost that a plain search finds."""
    lines, steps = list(limit_script()), Mesh(0).steps
    first = len(lines) - len(BEYOND)
    refused = [f"line {first + place} E14 limit" for place in range(len(BEYOND))] + ["tree 0"]
    costs = [(f"B{i:04}", "8000.02:00:00:00:00:00", steps[i] * COST) for i in range(load.BRIDGES)]

    def fits(told):
        printed = told.decode().splitlines()
        bridges = [line.split() for line in printed if line.startswith("bridge ")]
        ports = sum(line.startswith("port ") for line in printed)
        named = [(words[1], words[4], int(words[6])) for words in bridges]
        return printed[:4] == refused and named == costs and ports == ALL_PORTS == len(printed) - len(refused) - load.BRIDGES

    return Large("a large script", ["run", "-"], as_bytes(lines), 1, fits)


def lan_cases(folder):
    """One LAN with 4,096 ports: on it one is designated, and each other bridge has one root port."""
    bridges, each = 256, 16
    blocked = bridges * each - bridges
    first = written(folder, "lan", lan.lan(bridges, each))
    other = written(folder, "lan, edited", [*lan.lan(bridges, each), f"settreeprio B{bridges - 1:04} 0 0"])
    explained = ("explain 0 B0255:16 L Alternate", "designated B0000:1 over B0255:16 ext 0 20000",
                 "root B0255:1 over B0255:16 receiver 8001 8010")
    return [
        Large("a LAN summarized", ["summary", first], b"", 0, having(5, {b":": blocked, b"\ncarries * L\n": 1})),
        Large("a LAN and an edited one", ["diff", first, other], b"", 1, first_words({"root": 1, "port": 2 * each, "diff": 1})),
        Large("a LAN drawn", ["dot", first, "0"], b"", 0, having(5 + bridges + bridges * each, {b"style=dashed": blocked})),
        Large("a LAN explained", ["explain", first, "B0255", "16"], b"", 0, exactly(as_bytes(explained))),
    ]


# ---- what is to be set, and steps of a change

# So many steps: LANs go down and come up again, a few at a time, and a port's cost changes.
STEPS = 60


def step_lines():
    for number in range(STEPS):
        i = 37 * (number // 2) % load.BRIDGES
        yield from (f"lan L{i:04}-{number // 2 % load.LANS_EACH} {'up' if number % 2 else 'down'}", f"setportpathcost B{i:04} {1 + number % 16} {19_000 + number}", "")


def are_steps(told):
    """So many steps and the line of counts; bridges turn behind a step alone that moves VLANs, in one line."""
    lines = [line.split() for line in told.decode().splitlines()]
    counts = collections.Counter(words[0] for words in lines)
    turns = [before for before, words in zip(lines, lines[1:]) if words[0] == "turns"]
    moving = all(words[0] == "step" and words[words.index("moved") + 1] != "-" for words in turns)
    return moving and counts == {"step": STEPS, "turns": len(turns), "steps": 1}


def change_cases(folder):
    """All of a mesh goes, or comes, or is replaced; and steps of it, each of which leaves all bridges joined."""
    mesh = [*load.load(load.BRIDGES)]
    first, nothing = written(folder, "mesh", mesh), written(folder, "nothing", [])
    replaced = written(folder, "mesh, replaced", [line.replace(" 02:00:", " 02:01:") for line in mesh])
    ports = {"unplug": ALL_PORTS, "delport": ALL_PORTS, "delbridge": load.BRIDGES}
    come = {"addbridge": load.BRIDGES, "addport": ALL_PORTS, "plug": ALL_PORTS}
    return [
        Large("all of a mesh goes", ["edits", first, nothing], b"", 1, first_words({"mstplan": 1, **ports, "dellan": ALL_LANS})),
        Large("all of a mesh comes", ["edits", nothing, first], b"", 1, first_words({"mstplan": 1, **come, "addlan": ALL_LANS})),
        Large("each bridge of a mesh replaced", ["edits", first, replaced], b"", 1, first_words({"mstplan": 1, **ports, **come})),
        Large("steps of a mesh", ["steps", first, "-"], as_bytes(step_lines()), 0, are_steps),
    ]


# ---- chains


def chain(linked, bridges, setting):
    """Bridges, of which the first ones are a chain."""
    for i in range(bridges):
        yield f"addbridge B{i:04} 02:00:00:00:{i // 256:02x}:{i % 256:02x}"
        yield setting.format(f"B{i:04}")
    for i in range(linked - 1):
        yield f"addlan L{i:04}"
        for bridge, port in ((i, 2), (i + 1, 1)):
            yield f"addport B{bridge:04} {port}"
            yield f"plug B{bridge:04} {port} L{i:04}"


def sweep_of(linked, bridges):
    """Each link and each bridge between two others cuts the chain: a failure has a line, and what it cuts another one."""
    links, between = linked - 1, linked - 2
    return {"lan": links, "bridge": bridges, "cut": links + between, "sweep": 1}


def chain_cases(folder):
    """Depths of up to 1,023, by regions and within one, and sweeps: of few LANs, and with texts of more than 64 KB."""
    bridges, apart = load.BRIDGES, 600
    kinds = (("regions", "kind {} rstp", bridges - 1 - MAX_AGE), ("a region", "setmstconfid {} 1 area", bridges - MAX_HOPS))
    cases = []
    for name, setting, count in kinds:
        script = as_bytes([*chain(bridges, bridges, setting), "shownotes"])
        cases.append(Large(f"a chain of {name}", ["run", "-"], script, 0, first_words({"note": count})))
    for linked in (3, 100):
        script = written(folder, f"chain of {linked}", chain(linked, apart, "kind {} rstp"))
        cases.append(Large(f"a sweep of {linked - 1} LANs", ["sweep", script], b"", 1, first_words(sweep_of(linked, apart))))
    return cases


# ---- a region with 64 MSTIs, and what its bridges send

TREES = 64
KEY = bytes.fromhex("13AC06A62E47FD51F95D2BA243CD0346")
A, B = 0x020000000001, 0x020000000002


def region():
    """Two bridges, of which A is the root in each tree; VID i is that of tree i."""
    yield "addlan x"
    for bridge, mac in (("A", "01"), ("B", "02")):
        yield f"addbridge {bridge} 02:00:00:00:00:{mac}"
        yield f"setmstconfid {bridge} 1 area"
        yield from (f"setvid2mstid {bridge} {tree} {tree}" for tree in range(1, TREES + 1))
        yield f"addport {bridge} 1"
        yield f"plug {bridge} 1 x"


def identifier(tree, mac):
    text = f"{mac:012x}"
    return f"{0x8000 + tree:04x}." + ":".join(text[place:place + 2] for place in range(0, 12, 2))


def explained_in_trees():
    """Why B's port is the root port of each tree."""
    for tree in range(TREES + 1):
        yield f"explain {tree} B:1 x Root"
        yield "designated A:1 over B:1 int 0 20000"
        yield f"root B:1 over own {'regional' if tree else 'root'} {identifier(tree, A)} {identifier(tree, B)}"


def digest():
    table = [tree if 1 <= tree <= TREES else 0 for tree in range(4096)]
    return hmac.new(KEY, struct.pack(">4096H", *table), hashlib.md5).digest()


def message(tree, agrees):
    """What A says of a tree; where that isn't to agree, all but the port's priority is another one."""
    flags, root, cost, priority = (0x3C, A, 0, 0x80) if agrees else (0x08, B, 7, 0x10)
    return struct.pack(">BQIBBB", flags, (0x8000 + tree) << 48 | root, cost, priority, 0x80, 20)


def bpdu(ext, agrees):
    """The MST BPDU that A sends, with this external root path cost (802.1Q-2022, clause 14)."""
    own = 0x8000 << 48 | A
    head = struct.pack(">HBBBQIQH4H", 0, 3, 2, 0x3C, own, ext, own, 0x8001, 0, 20 << 8, 2 << 8, 15 << 8)
    identity = struct.pack(">BHB32sH16s", 0, 64 + 16 * TREES, 0, b"area", 1, digest())
    rest = struct.pack(">IQB", 0, own, 20)
    return (head + identity + rest + b"".join(message(tree, agrees) for tree in range(1, TREES + 1))).hex().encode() + b"\n"


def differences():
    """What differs where no message agrees, nor the external root path cost."""
    front = "capture 1 A:1"
    yield f"{front} ext plan 0 capture 7"
    for tree in range(1, TREES + 1):
        regional = f"regional {identifier(tree, A)} {identifier(tree, B)}"
        fields = ("role 3 2", "learning 1 0", "forwarding 1 0", regional, "int 0 7", "bridgeprio 8 1")
        for field, plan, captured in map(str.split, fields):
            yield f"{front} msti {tree} {field} plan {plan} capture {captured}"


def region_cases(folder):
    """Texts of more than 4 KB about one port, and more captures than 65,536."""
    script = written(folder, "region of 64", region())
    many = 66_000
    short = b"".join(b"capture %d B02 too short\n" % number for number in range(1, many))
    return [
        Large("a port explained in 64 MSTIs", ["explain", script, "B", "1"], b"", 0, exactly(as_bytes(explained_in_trees()))),
        Large("a BPDU of 64 messages", ["check", script, "-"], bpdu(0, True), 0, exactly(b"capture 1 A:1 agrees\n")),
        Large("a BPDU of which 385 fields differ", ["check", script, "-"], bpdu(7, False), 1, exactly(as_bytes(differences()))),
        Large("many captures", ["check", script, "-"], b"00\n" * (many - 1) + bpdu(0, True), 1,
              exactly(short + b"capture %d A:1 agrees\n" % many)),
    ]


def of_both(lines):
    """These lines of the old script, and then of the new one."""
    return b"".join(side + line for side in (b"old ", b"new ") for line in lines.splitlines(keepends=True))


def hint_cases(folder):
    """As many hints as lines."""
    count = ALL_PORTS
    script = written(folder, "misspelt", ["addbrigde X 02:00:00:00:00:01"] * count)
    refused = b"".join(b"line %d E01 no such command\n" % number for number in range(1, count + 1))
    hints = b"".join(b"line %d no command addbrigde; addbridge?\n" % number for number in range(1, count + 1))
    return [
        Large("a hint of each line", ["run", "--hints", script], b"", 1, exactly(refused), hints),
        Large("a hint of each line of standard input", ["--hints"], as_bytes(["addbrigde X 02:00:00:00:00:01"] * count), 1, exactly(refused), hints),
        Large("a hint of each line of two scripts", ["diff", "--hints", script, script], b"", 1,
              exactly(of_both(refused) + b"diff regions 0 roots 0 ports 0 vlans 0\n"), of_both(hints)),
    ]


# ---- running them


def as_bytes(lines):
    return "".join(line + "\n" for line in lines).encode()


def written(folder, name, lines):
    path = os.path.join(folder, name)
    with open(path, "wb") as file:
        file.write(as_bytes(lines))
    return path


def is_right(large, status, told, errors):
    """Whether a run came to what it must; else what is wrong is told."""
    lacking = [word for word in LACKING if word in told or word in errors]
    if status == large.status and errors == large.err and not lacking and large.fits(told):
        return True
    lines = told.count(b"\n")
    print(f"FAILED {large.name}: status {status}, {lines} lines, {told[:200]!r} .. {told[-200:]!r}, {errors[:200]!r}, {lacking}")
    return False


def check(program, large):
    ran = subprocess.run([program, *large.words], input=large.given, capture_output=True, timeout=SECONDS)
    return is_right(large, ran.returncode, ran.stdout, ran.stderr)


def give_alone(child, lines):
    """Gives each line when the ones before have been read, so that each is in a read of its own."""
    pipe, until = child.stdin.fileno(), time.monotonic() + SECONDS
    for line in lines:
        os.write(pipe, line)
        while struct.unpack("i", fcntl.ioctl(pipe, termios.FIONREAD, b"\0" * 4))[0] > 0:
            if child.poll() is not None or time.monotonic() > until:
                raise BrokenPipeError
            os.sched_yield()


def give_all(child, text):
    while text:
        text = text[os.write(child.stdin.fileno(), text):]
    child.stdin.close()


def check_reads(program):
    """A script of 110,000 lines, of which each of the first 70,000 is in a read of its own."""
    alone, count = 70_000, 110_000
    lines = [b"addbridge A 02:00:00:00:00:01\n"] + [b"no\n"] * (alone - 1)
    rest = [b"setmaxage A %d\n" % (6 + number % 35) for number in range(count - alone - 1)] + [b"save\n"]
    refused = b"".join(b"line %d E01 no such command\n" % number for number in range(2, alone + 1))
    saved = b"mstplan 2\naddbridge A 02:00:00:00:00:01\n" + rest[-2]
    large = Large("a script in many reads", ["run", "-"], b"", 1, exactly(refused + saved))
    with tempfile.TemporaryFile() as out, tempfile.TemporaryFile() as errors:
        child = subprocess.Popen([program, *large.words], stdin=subprocess.PIPE, stdout=out, stderr=errors, bufsize=0)
        try:
            give_alone(child, lines)
            give_all(child, b"".join(rest))
            child.wait(SECONDS)
        except (BrokenPipeError, subprocess.TimeoutExpired):
            child.kill()
            child.wait()
        finally:
            child.stdin.close()
        out.seek(0)
        errors.seek(0)
        return is_right(large, child.returncode, out.read(), errors.read())


def cases(folder):
    return [limit_case()] + mesh_cases(folder) + lan_cases(folder) + chain_cases(folder) + region_cases(folder) + hint_cases(folder) + change_cases(folder)


def checks(program, folder):
    """Whether each large run came to what it must."""
    return [*(check(program, large) for large in cases(folder)), check_reads(program)]
