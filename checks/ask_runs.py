#!/usr/bin/env python3
"""Standing programs (`mstplan ask FILE [POLICY]`), for program.py: what each line is answered by is what a program answers that is asked it
alone, of a script which has the edits that stand.

usage: ask_runs.py PROGRAM [COUNT]    (so many questions, or 1,000; program.py asks fewer)

Networks are drawn, and so are questions of them: edits, queries, marks, words of the program, what takes edits back, and lines that are
refused. The exit status is 1 where an answer differs, or doesn't come before the next question.
"""

import concurrent.futures
import hashlib
import itertools
import json
import os
import pty
import select
import subprocess
import sys
import tempfile
import time

BENCH = os.path.join(os.path.dirname(os.path.abspath(__file__)), os.pardir, "bench")
# nothing is to be left beside what is imported
sys.dont_write_bytecode = True
sys.path.append(BENCH)

import campus  # noqa: E402
import drawn_scripts  # noqa: E402
import sketch  # noqa: E402

QUESTIONS_EACH = 30
IN_THE_GATE = 150
SECONDS = 20
AT_ONCE = 0.1
TRIES = 10
BAD_LINE, BAD_ARGUMENT = "E01 no such command", "E02 bad argument"
# Lines that are neither asked nor answered.
QUIET = ("", " \t", "# showplan", "\t#undo")
# Lines that no program is asked alone, and what refuses them.
UNREAD = {
    "explain": BAD_LINE, "explain B": BAD_LINE, "explain A 1 0 0": BAD_LINE, "summary 0": BAD_LINE, "dot": BAD_LINE, "dot 0 0": BAD_LINE,
    "sweep 0/1": BAD_ARGUMENT, "sweep pairs x": BAD_ARGUMENT, "sweep 1/2 pairs": BAD_ARGUMENT, "sweep pairs 1/2 3": BAD_LINE,
    "undo 0": BAD_ARGUMENT, "undo x": BAD_ARGUMENT, "undo 1 1": BAD_LINE, "undo 4294967296": BAD_ARGUMENT, "Summary": BAD_LINE,
    "diff - -": BAD_LINE, "verify -": BAD_LINE, "check": BAD_LINE, "run x": BAD_LINE, "summary \x01": BAD_LINE, f"undo {' ' * 4092}": BAD_LINE,
}
# What a standing program is given of a policy, in two of three networks: some lines hold, some don't, and one can't be read.
POLICY = ["# of all", "reach 1-4094 *", "always root 0 A", "root", "finally region A,B", "together 1-9 *", "always together 1-9 *"]


# ---- a network, and what is asked of it


def network(number):
    """The script of a network, and what it is without what does nothing there: refused lines, queries and marks."""
    version = ["mstplan 2"] * (number % 3 == 2)
    return [*version, "no such line", *sketch.drawn(number), "mark", "showplan", "changes"]


def plain(program, script):
    """The script without refused lines, queries and marks."""
    printed, _ = sketch.run(program, ["run", "-"], sketch.edits_of(script))
    refused = {int(line.split()[1]) for line in printed.splitlines()}
    return [line for place, line in enumerate(script, 1) if place not in refused and not sketch.is_quiet(line)]


def drawn_question(draws, bridges):
    """A line that asks something, or changes something. More than a third change something."""
    bridge, port, tree = draws.one_of(bridges), draws.below(4) + 1, draws.below(3)
    questions = [
        f"explain {bridge} {port}", f"explain {bridge} {port} {tree}", "summary", f"dot {tree}", "dot 4095", "sweep", "sweep 2/3", "sweep pairs",
        "sweep pairs 1/4", "explain nobody 1", f"explain {bridge} x", f"explain {bridge} 1 4095", "showplan", f"showtree {tree}",
        f"showvlan {draws.below(30) + 1}", "showregions", "showlag", "shownotes", f"showmstconfid {bridge}", "save", "digest", "changes", "mark",
        "mstplan 2", "verify", "verify",
    ]
    kind = draws.below(12)
    if kind < 3:
        return sketch.settings(draws, bridges)
    if kind < 5:
        return drawn_scripts.drawn_line(draws)
    if kind < 7:
        return draws.one_of(["undo", "undo", f"undo {draws.below(5)}", "undo 02"])
    if kind < 8:
        return draws.one_of([*QUIET, *UNREAD])
    return draws.one_of(questions)


class Plan:
    """What a standing program has: the lines of a script, those of the edits that were made since, and what was marked."""

    def __init__(self, program, script, form, policy=os.devnull):
        self.program, self.script, self.form, self.policy = program, plain(program, script), form, policy
        self.made, self.marked = [], None

    def alone(self, word, form, behind, script):
        """What a program answers that is asked alone, and its status."""
        words = [self.program, word, *form, "-", *behind]
        ran = subprocess.run(words, input=as_bytes(script), capture_output=True, timeout=SECONDS, check=False)
        if ran.returncode not in (0, 1) or ran.stderr:
            raise ValueError(f"{words}: status {ran.returncode}, {ran.stderr}")
        return ran.stdout.decode(), ran.returncode

    def answer(self, number, line):
        """What the line of this number is answered by; nothing where it is none that is."""
        words = line.split()
        if not words or words[0].startswith("#"):
            return ""
        if line in UNREAD or words[0] == "undo" and not self.takes_back(words):
            return self.refused(number, UNREAD.get(line, BAD_ARGUMENT)) + self.done(1)
        if words[0] == "undo":
            return self.undone(int(words[1]) if words[1:] else 1)
        if words[0] in ("explain", "summary", "sweep", "dot", "verify"):
            told, status = self.of_word(words)
        else:
            told, status = self.of_line(number, line)
        return told + self.done(status)

    def takes_back(self, words):
        return (int(words[1]) if words[1:] else 1) in range(1, len(self.made) + 1)

    def of_word(self, words):
        """A picture is a text in either form, and that there is none a record of its own."""
        form = [] if words[0] == "dot" else self.form
        told, status = self.alone(words[0], form, [self.policy] if words[0] == "verify" else words[1:], [*self.script, *self.made])
        if form != self.form and status:
            told = as_json({"query": "dot", **coded(told.strip().partition(" ")[2])})
        return told, status

    def of_line(self, number, line):
        script = [*self.as_marked(), line]
        told, status = self.alone("run", self.form, [], script)
        if line == "mark":
            self.marked = list(self.made)
        elif not sketch.is_quiet(line) and status == 0:
            self.made.append(line)
        return self.numbered(told, len(script), number), status

    def as_marked(self):
        """A script of the network, with the mark."""
        edits = [*self.script, *self.made]
        if self.marked is None:
            return edits
        if self.made[: len(self.marked)] == self.marked:
            return [*self.script, *self.marked, "mark", *self.made[len(self.marked) :]]
        # what was marked has been taken back: it is made, marked, and taken away
        marked = [*self.script, *self.marked]
        version = edits[:1] if edits[:1] == ["mstplan 2"] else []
        return [*marked, "mark", *taken_away(sketch.run(self.program, ["run", "-"], [*marked, "save"])[0]), *edits[len(version) :]]

    def numbered(self, told, old, new):
        """What is told, with another number of the line."""
        fronts = [f'{{"line":{old},', f'{{"line":{new},'] if self.form else [f"line {old} ", f"line {new} "]
        return fronts[1] + told[len(fronts[0]) :] if told.startswith(fronts[0]) else told

    def undone(self, count):
        taken, self.made = self.made[-count:], self.made[:-count]
        return "".join(self.undone_line(line) for line in reversed(taken)) + self.done(0)

    def undone_line(self, line):
        return as_json({"kind": "undone", "text": line}) if self.form else f"undone {line}\n"

    def refused(self, number, why):
        return as_json({"line": number, **coded(why)}) if self.form else f"line {number} {why}\n"

    def done(self, status):
        return as_json({"kind": "done", "status": status}) if self.form else f"done {status}\n"


def coded(why):
    code, _, text = why.partition(" ")
    return {"error": code, "text": text}


def taken_away(saved):
    """Lines that take all away that a saved network has."""
    words = [line.split() for line in saved.splitlines()]
    for front, command in (("plug", "unplug"), ("addport", "delport"), ("addbridge", "delbridge"), ("addlan", "dellan")):
        count = {"plug": 2, "addport": 2}.get(front, 1)
        yield from (" ".join([command, *it[1 : count + 1]]) for it in words if it[0] == front)


def as_bytes(script):
    return "".join(f"{line}\n" for line in script).encode()


def as_json(value):
    return json.dumps(value, separators=(",", ":")) + "\n"


# ---- a standing program


class Standing:
    """A program that stands, whose standard input stays open."""

    def __init__(self, program, folder, script, form=(), given=subprocess.PIPE, policy=()):
        path = os.path.join(folder, f"asked {time.monotonic_ns()}")
        with open(path, "wb") as file:
            file.write(as_bytes(script))
        words = [program, "ask", *form, path, *policy]
        self.ran = subprocess.Popen(words, stdin=given, stdout=subprocess.PIPE, stderr=subprocess.PIPE, bufsize=0)

    def told(self, count):
        """What it tells, up to so many bytes, before it is given more."""
        told, until = b"", time.monotonic() + SECONDS
        while len(told) < count and select.select([self.ran.stdout], [], [], until - time.monotonic())[0]:
            part = os.read(self.ran.stdout.fileno(), count - len(told))
            if not part:
                break
            told += part
        return told.decode(errors="replace")

    def is_told(self, name, wanted):
        told = self.told(len(wanted))
        if told != wanted:
            print(f"FAILED {name}: {told[:300]!r} is told, and not {wanted[:300]!r}")
        return told == wanted

    def ask(self, line):
        self.ran.stdin.write(f"{line}\n".encode())

    def end(self):
        """What it still tells, its status and what standard error has, once there are no more questions."""
        self.ran.stdin.close()
        rest, errors = self.ran.stdout.read(), self.ran.stderr.read()
        return rest, self.ran.wait(SECONDS), errors

    def __enter__(self):
        return self

    def __exit__(self, *fault):
        self.ran.kill()
        for pipe in (self.ran.stdin, self.ran.stdout, self.ran.stderr):
            if pipe:
                pipe.close()
        self.ran.wait()


def is_equal(name, found, wanted):
    if found != wanted:
        print(f"FAILED {name}: {found}, and not {wanted}")
    return found == wanted


def check_network(program, folder, number, form):
    """Asks a drawn network, and compares each answer with that of a program which is asked alone."""
    script, draws = network(number), sketch.Draws(number + 10**7)
    bridges = [line.split()[1] for line in script if line.startswith("addbridge")]
    policy = os.path.join(folder, f"policy of {number}")
    with open(policy, "wb") as file:
        file.write(as_bytes(POLICY))
    plan = Plan(program, script, form, policy if number % 3 else os.devnull)
    name = f"network {number}{' in JSON' if form else ''}"
    with Standing(program, folder, script, form, policy=[policy] if number % 3 else []) as standing:
        if not standing.is_told(f"{name}, its script", refused_lines(program, script, form) + plan.done(1)):
            return False
        for place in range(1, QUESTIONS_EACH + 1):
            line = drawn_question(draws, bridges)
            wanted = plan.answer(place, line)
            standing.ask(line)
            if not standing.is_told(f"{name}, {place}: {line[:80]!r} behind {plan.made}", wanted):
                return False
        return is_equal(f"{name}, its end", standing.end(), (b"", 1, b""))


def refused_lines(program, script, form):
    """What the refused lines of a script print where its network is loaded alone."""
    words = [program, "summary", *form, "-"]
    told = subprocess.run(words, input=as_bytes(script), capture_output=True, timeout=SECONDS, check=False).stdout.decode()
    return "".join(line for line in told.splitlines(keepends=True) if line.startswith(('{"line":', "line ")))


def check_networks(program, folder, count):
    """Whether each network is answered right, with so many questions in all; each third in JSON."""
    numbers = range(-(-count // QUESTIONS_EACH))
    with concurrent.futures.ThreadPoolExecutor(os.cpu_count() or 1) as pool:
        return list(pool.map(lambda it: check_network(program, folder, it, ["--json"] if it % 3 == 1 else []), numbers))


# ---- sessions that are worked by hand

A_AND_B = ["addbridge A 02:00:00:00:00:01", "addbridge B 02:00:00:00:00:02", "addlan x", "addport A 1", "addport B 1", "plug A 1 x", "plug B 1 x"]
A_ID, B_ID, B_FIRST = "8000.02:00:00:00:00:01", "8000.02:00:00:00:00:02", "4000.02:00:00:00:00:02"
# Each line with what it is answered by, of two bridges on a LAN, of which A is the root.
SESSION = [
    ("changes", ["line 1 E16 no mark", "done 1"]),
    ("", []),
    ("# summary", []),
    ("summary", ["bridges 2 on 2 ports 2 enabled 2 regions 2 trees 1", "tree 0 root A 32768 of 2 next B 32768", "blocked 0 -",
                 "vlan 1-4094 islands 1", "carries * x", "done 0"]),
    ("explain B 1", ["explain 0 B:1 x Root", "designated A:1 over B:1 ext 0 20000", f"root B:1 over own root {A_ID} {B_ID}", "done 0"]),
    ("mark", ["done 0"]),
    ("settreeprio B 0 4", ["done 0"]),
    ("changes", [f"bridge 0 A {A_ID} 0 {A_ID} 0 {A_ID} 0000 0000 -> {B_FIRST} 20000 {A_ID} 0 {B_FIRST} 8001 8001",
                 f"bridge 0 B {A_ID} 20000 {B_ID} 0 {A_ID} 8001 8001 -> {B_FIRST} 0 {B_FIRST} 0 {B_FIRST} 0000 0000",
                 "port 0 A 1 Designated -> Root", "port 0 B 1 Root -> Designated", "done 0"]),
    ("sweep", ["lan x roots 0 ports 0 cut 1-4094", "cut 1-4094 parts A B", "bridge A roots - ports 0 cut -", "bridge B roots 0 ports 1 cut -",
               "sweep lans 1 bridges 2 cuts 1", "done 1"]),
    ("lan x down", ["done 0"]),
    ("lan x down", ["done 0"]),
    ("undo 3", ["undone lan x down", "undone lan x down", "undone settreeprio B 0 4", "done 0"]),
    ("changes", ["done 0"]),
    ("undo", ["line 14 E02 bad argument", "done 1"]),
    ("dot 0", ['graph "tree 0" {', '  graph [label="tree 0", nodesep=0.6, ranksep=0.8];', "  edge [fontsize=10, labeldistance=1.8];",
               '  "A" [peripheries=2];', '  "B";', '  "A" -- "B" [label="x", taillabel="1 D", headlabel="1 R"];', "}", "done 0"]),
    ("dot 4095", ["dot E03 bad VID or tree", "done 1"]),
    ("explain B 2", ["explain E05 no such port", "done 1"]),
    ("explain B", ["line 18 E01 no such command", "done 1"]),
    ("sweep 0/1", ["line 19 E02 bad argument", "done 1"]),
    ("addbridge B 02:00:00:00:00:03", ["line 20 E07 name taken", "done 1"]),
    ("undo", ["line 21 E02 bad argument", "done 1"]),
    ("showvlan 1\r", ["vlan 1", "active A:1 B:1", "island bridges A B lans x", "done 0"]),
    ("settreeprio B 0 4096", ["line 23 E02 bad argument", "done 1"]),
    ("sweep pairs 1/1", ["sweep pairs 3 cuts 0", "done 0"]),
    ("save", ["mstplan 2", "addbridge A 02:00:00:00:00:01", "addport A 1", "addbridge B 02:00:00:00:00:02", "addport B 1", "addlan x",
              "plug A 1 x", "plug B 1 x", "done 0"]),
]
# The digest of a network is the MD5 of the text that saves it, and no other where an edit is taken back.
SAVED_DIGEST = f"digest {hashlib.md5(''.join(f'{line}{chr(10)}' for line in SESSION[-1][1][:-1]).encode()).hexdigest()}"
SESSION += [
    ("digest", [SAVED_DIGEST, "done 0"]), ("speed x 1000000", ["done 0"]), ("digest", [SAVED_DIGEST, "done 0"]), ("lan x down", ["done 0"]),
    ("undo", ["undone lan x down", "done 0"]), ("digest", [SAVED_DIGEST, "done 0"]), ("digest 1", ["line 32 E01 no such command", "done 1"]),
]
LONE = ["mstplan 2", "addbridge A 02:00:00:00:00:01"]
# What a promise is answered by, before and after a failure, and that nothing stands behind its word.
PROMISED = [
    ["verify expectations 1 hold 1", "done 0"], ["done 0"], ["fails 1 now reach 1 parts A B", "verify expectations 1 hold 0", "done 1"],
    ["undone lan x down", "done 0"], ["line 5 E01 no such command", "done 1"],
]
LONE_DIGEST = hashlib.md5("".join(f"{line}\n" for line in LONE).encode()).hexdigest()
DONE, REFUSED = {"kind": "done", "status": 0}, {"kind": "done", "status": 1}
# The same in JSON, of a script of version 2. A line of its text is a text.
JSON_SESSION = [
    ("showlag", [{"line": 1, "query": "showlag", "records": []}, DONE]),
    ("summary", [{"query": "summary", "records": [
        {"kind": "bridges", "bridge_count": 1, "on_count": 1, "port_count": 0, "enabled_count": 0, "region_count": 1, "tree_count": 1},
        {"kind": "tree", "tree": 0, "root": "A", "priority": 32768, "bridge_count": 1, "next": None}, {"kind": "blocked", "tree": 0, "ports": []},
        {"kind": "vlan", "vids": [[1, 4094]], "island_count": 1}]}, DONE]),
    ("explain A 1", [{"query": "explain", "error": "E05", "text": "no such port"}, REFUSED]),
    ('addlan "', [{"line": 4, "error": "E02", "text": "bad argument"}, REFUSED]),
    ("addlan x", [DONE]),
    ("settreeprio A 0 4096", [DONE]),
    ("mstplan 2", [{"line": 7, "error": "E01", "text": "no such command"}, REFUSED]),
    ("undo 2", [{"kind": "undone", "text": "settreeprio A 0 4096"}, {"kind": "undone", "text": "addlan x"}, DONE]),
    ("dot 0", ['graph "tree 0" {', '  graph [label="tree 0", nodesep=0.6, ranksep=0.8];', "  edge [fontsize=10, labeldistance=1.8];",
               '  "A" [peripheries=2];', "}", DONE]),
    ("dot x", [{"query": "dot", "error": "E03", "text": "bad VID or tree"}, REFUSED]),
    ("digest", [{"line": 11, "query": "digest", "records": [{"kind": "digest", "digest": LONE_DIGEST}]}, DONE]),
]


def told_of(answers):
    """What is printed of these answers."""
    return "".join(as_json(it) if isinstance(it, dict) else f"{it}\n" for it in itertools.chain.from_iterable(answers)).encode()


def cases(folder):
    """Each case: its name, the words, standard input, the status, standard output and standard error."""
    path, refused, lone, empty, kept = (os.path.join(folder, f"asked.{name}") for name in ("script", "refused", "lone", "empty", "policy"))
    # queries and marks do nothing there, and none is refused
    asking = [*A_AND_B, "showtree 0", "mark", "changes"]
    for name, script in ((path, asking), (refused, ["no", *asking, "plug A 1 x"]), (lone, LONE), (empty, []), (kept, ["reach 1 *"])):
        with open(name, "wb") as file:
            file.write(as_bytes(script))
    questions, answers = as_bytes(line for line, _ in SESSION), told_of(answer for _, answer in SESSION)
    asked, told = as_bytes(line for line, _ in JSON_SESSION), told_of(answer for _, answer in JSON_SESSION)
    long = b"#" * 4096 + b"\n" + b"#" * 4097 + b"\n" + b"undo" + b" " * 4093
    return [
        ("a session", ["ask", path], questions, 1, b"done 0\n" + answers, b""),
        ("a session, without an end of its last line", ["ask", path], questions[:-1], 1, b"done 0\n" + answers, b""),
        ("a session in JSON", ["ask", "--json", lone], asked, 1, as_json(DONE).encode() + told, b""),
        ("no question", ["ask", path], b"", 0, b"done 0\n", b""),
        ("no question, of nothing", ["ask", empty], b"\n# none", 0, b"done 0\n", b""),
        ("refused lines, and no question", ["ask", refused], b"", 1, b"line 1 E01 no such command\nline 12 E10 port plugged\ndone 1\n", b""),
        ("questions that differ in nothing", ["ask", path], b"summary\nmark\nchanges\n", 0,
         b"done 0\n" + told_of([SESSION[3][1], ["done 0"], ["done 0"]]), b""),
        ("questions that are too long", ["ask", empty], long, 1,
         b"done 0\n" + told_of([["line 2 E01 no such command", "done 1"], ["line 3 E01 no such command", "done 1"]]), b""),
        ("a promise", ["ask", path, kept], b"verify\nlan x down\nverify\nundo\nverify 1\n", 1, b"done 0\n" + told_of(PROMISED), b""),
        ("a promise of no policy", ["ask", path], b"verify\n", 1,
         b"done 0\n" + told_of([["policy 0 E17 nothing to judge", "verify expectations 0 hold 0", "done 1"]]), b""),
        ("a version that is asked for", ["ask", empty], b"mstplan 2\n", 1, b"done 0\nline 1 E01 no such command\ndone 1\n", b""),
    ]


# ---- at a terminal


def seconds_of(standing, terminal, line):
    """How long a line that is typed there waits for its answer, or nothing where another one comes."""
    begin = time.monotonic()
    os.write(terminal, f"{line}\n".encode())
    passed = standing.is_told(f"{line!r} at a terminal", "done 0\n")
    return time.monotonic() - begin if passed else None


def check_terminal(program, folder):
    """Edits that are typed at a terminal are answered at once, of a campus of 50 switches. Where the system has no terminal to give, there
    is nothing to check."""
    try:
        terminal, given = pty.openpty()
    except OSError as error:
        print(f"no terminal: {error}")
        return True
    try:
        with Standing(program, folder, campus.campus(4, 10), given=given) as standing:
            if not standing.is_told("a campus at a terminal, its script", "done 0\n"):
                return False
            seconds = [seconds_of(standing, terminal, f"lan c1-d0a {state}") for state in ("down", "up") * TRIES]
    finally:
        os.close(given)
        os.close(terminal)
    if None in seconds or min(seconds) > AT_ONCE:
        print(f"FAILED a question at a terminal: {seconds}")
        return False
    return True


def checks(program, folder):
    """Whether standing programs answer as programs that are asked alone, and at once at a terminal."""
    return [*check_networks(program, folder, IN_THE_GATE), check_terminal(program, folder)]


def main():
    if len(sys.argv) not in (2, 3):
        sys.exit(__doc__)
    program, count = os.path.abspath(sys.argv[1]), int(sys.argv[2]) if sys.argv[2:] else 1000
    with tempfile.TemporaryDirectory() as folder:
        passed = check_networks(program, folder, count)
    print(f"{sum(passed)} passed, {len(passed) - sum(passed)} failed")
    sys.exit(0 if all(passed) else 1)


if __name__ == "__main__":
    main()
