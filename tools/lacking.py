#!/usr/bin/env python3
"""Asks mstplan with hints, and adds those of what a network lacks: which bridge, port, LAN or tree isn't there, and what may be meant.

The words are PROGRAM's: `verify`, `steps`, `explain`, `advise`, `dot` and `path`, with its flags; any others it is given as they are, with --hints.
Standard output and the exit status are PROGRAM's. On standard error its own hints and these stand in the order of the refused lines:

  policy line N no bridge acc22; acc2?             the first item of the line that isn't there, and the one name that is nearest
  policy line N core1:2 is a member of core1:1     the port is no logical one
  policy line N bridge acc2 is off                 so there is no failure to judge
  policy line N no risk duct; duct-1?              no line of the policy says what fails in it; `nothing of risk R can fail`
  step K policy line N no bridge dist1             a line of the policy, behind a step
  change line N no bridge core9                    a line of the change
  explain no bridge Dist1; dist1?                  what the words themselves name
  explain B P TREE: TREE is 0 to 4094              a word that isn't in its form

PROGRAM says which lines are refused and by which number, whether words are in their form, and what there is in a network (`save` and
`showlag`), behind a step with the lines up to there made. Where it ends with status 2 or 3 there are no hints but its own.

Where lines of FILE say what ports are called (`# port core1 2 is Te1/0/2`), a port of a hint has that in brackets behind it, as in
`core1:2 (Te1/0/2) is a member of core1:1 (Te1/0/1)`; and where such a name stands for the number among the words, the hint has the number:

  explain B P: Te1/0/2 is core1:2

For example: lacking.py mstplan verify campus.script campus.policy
"""

import argparse
import collections
import contextlib
import functools
import os
import re
import sys
from dataclasses import dataclass

sys.dont_write_bytecode = True

import mstplan  # noqa: E402
import risks  # noqa: E402
import settings  # noqa: E402
from command import STATUSES, Files, guarded, write  # noqa: E402
from interfaces import Names  # noqa: E402

TOOL = "lacking.py"
HINTS, JSON = "--hints", "--json"
# Of each word of the program: how many words may stand behind it, and how many of these are files at most.
ASKED = {"verify": ((2,), 2), "steps": ((2, 3), 3), "explain": ((3, 4), 1), "advise": ((4, 5), 1), "dot": ((2, 3), 1), "path": ((4, 5), 1)}
# What stands behind FILE, by how many words these are.
FORMS = {"explain": {2: "B P", 3: "B P TREE"}, "advise": {3: "root TREE B", 4: "forward TREE B P"}, "dot": {1: "TREE", 2: "vlan VID"},
         "path": {3: "VID A B", 4: "VID A B always"}}
# A line of a script that tells whether a word is in its form; what can stand there as a word, and what stands for all that can't.
TRIED = {"A": "showmstconfid {A}", "B": "showmstconfid {B}", "P": "delport {B} {P}", "TREE": "showtree {TREE}", "VID": "showvlan {VID}"}
# The words whose fault is E03; that of the others is E02, and comes first.
NUMBERED = ("TREE", "VID")
WORD, NO_WORD = re.compile("[!-~]{1,100}"), "!"
# Lines of the answers that tell of what is refused, and of steps; and lines of standard error that hint at a refused line.
REFUSED = re.compile(rb"(line|policy|change|explain|advise|dot|path) (?:([0-9]+) )?(E[0-9]{2}) ")
STEP = re.compile(rb"step ([0-9]+) lines ([0-9]+)-([0-9]+) ")
HINT = re.compile(rb"(line|policy|change) (?:line )?([0-9]+) ")
# What the words behind an expectation are of, where their items may not be there.
ARGUMENTS = {
    "root": ("tree", "bridge", None, "bridge"), "region": ("bridge",), "role": ("tree", "port"), "reach": (None, "bridge"),
    "apart": (None, "bridge", "bridge"), "leaves": (None, "bridge"), "together": (None, "bridge"), "leaf": ("tree", "bridge"), "depth": ("tree",),
    "hops": (None, None, "bridge"), "via": (None, "bridge", "bridge", "bridge"), "carries": ("LAN",), "avoids": ("LAN",), "fits": (),
}
SCOPES = {"bridge": "bridge", "lan": "LAN", "risk": "risk"}
# Of what these name the failure is asked for by the very name alone.
NAMING = ("root", "via", "carries", "avoids")
LEAST_LETTERS = 3
# Of how many words it is kept which are a change away.
MOST_KEPT = 4096


# ---- names that are near


@functools.lru_cache(MOST_KEPT)
def shorter(word):
    """A word, it without one of its letters, and it with two neighbours exchanged."""
    left_out = {word[:at] + word[at + 1:] for at in range(len(word))}
    return {word} | left_out | {word[:at] + word[at + 1] + word[at] + word[at + 2:] for at in range(len(word) - 1)}


def shorter_twice(word):
    return set().union(*map(shorter, shorter(word)))


def is_in_case(one, other):
    return one.lower() == other.lower()


def is_within_one(one, other):
    """At most one change: a letter is put in, one is left out, or two neighbours are exchanged."""
    return other in shorter(one) or one in shorter(other)


def is_within_two(one, other):
    """At most two changes. Where a letter is put in and one is left out, that one can go first."""
    its, others = collections.Counter(one), collections.Counter(other)
    if ((its - others) + (others - its)).total() > 2:
        return False
    return not shorter(one).isdisjoint(shorter(other)) or other in shorter_twice(one) or one in shorter_twice(other)


def nearest(word, names):
    """The one name that a word may be meant to be, if there is one."""
    for is_near in (is_in_case, is_within_one, is_within_two) if len(word) >= LEAST_LETTERS else ():
        found = [it for it in names if is_near(word, it)]
        if found:
            return found[0] if len(found) == 1 else None
    return None


# ---- what the program tells


@dataclass(frozen=True)
class Refusal:
    """A refused line: what it is of (`line` where that is the script, or a word of the program), its number, which such a word hasn't, its code,
    and the number of the step that it is told behind."""
    of: str
    line: int
    code: str
    step: int


def records_in_text(out):
    """What a text tells of steps and of refused lines, as records have it."""
    for line in out.split(b"\n"):
        if found := STEP.match(line):
            yield {"kind": "step", "step": int(found[1]), "lines": [int(found[2]), int(found[3])]}
        elif found := REFUSED.match(line):
            yield {"kind": found[1].decode(), "line": int(found[2] or 0), "error": found[3].decode()}


def records_in_json(program, out):
    for line in out.splitlines():
        value = program.value([JSON], line)
        yield from value.get("records", [{"kind": value.get("query", "line"), **value}])


def refusals_in(records):
    """The refused lines, and of each step by its number that of its last line."""
    found, ends, step = [], {0: 0}, 0
    for it in records:
        if it["kind"] == "step":
            step = it["step"]
            ends[step] = it["lines"][1]
        elif "error" in it:
            found.append(Refusal(it["kind"], it.get("line", 0), it["error"], step))
    return found, ends


# ---- lines of a policy


def has(item, name):
    return name.startswith(item[:-1]) if item.endswith("*") else name == item


@dataclass(frozen=True)
class Item:
    """An item of a line: what it is of, how it is written, and whether it is the scope's."""
    of: str
    text: str
    is_of_scope: bool = False

    def parts(self):
        """The name, and of a port its number."""
        return self.text.split(":")


class Promise:
    """A line of a policy that can be read: its expectation's word, and its items in their order."""

    def __init__(self, line):
        words = [it.decode() for it in mstplan.words_in(line)]
        words = words[words[0] == "finally":]
        self.items = []
        if words[0] == "risk":
            self.word, self.items = words[0], [Item(SCOPES[words[2]], it) for it in words[3].split(",")]
            return
        if words[0] == "after":
            self.items = [Item(SCOPES[words[1]], it, True) for it in words[2].split(",")]
        self.word, *words = words[{"after": 3, "always": 1}.get(words[0], 0):]
        self.items += [Item(of, it) for of, word in zip(ARGUMENTS[self.word], words) if of for it in word.split(",")]

    def of(self, *its):
        return [it for it in self.items if it.of in its]

    def asks(self, item, name, failures):
        """Whether it is judged after some failures, of a name of an item. Where the expectation itself names one, the scope has the very name."""
        is_own = self.word in NAMING and any(it in self.items for it in failures)
        return has(item.text, name) and (not is_own or Item(item.of, name, True) in self.items)


# ---- what a network has


class Network:
    """What there is in a network: its bridges and its LANs, each with whether it can fail, and its ports, each with the number of the logical
    port that it goes by, which is None in no LAN; and what fails in each risk of a policy. In the network of FILE itself near names are told.
    `names` is what FILE calls ports."""

    def __init__(self, standing, is_of_file, names, policy):
        saved = settings.Network(standing.saved())
        self.is_of_file, self.names, self.risks = is_of_file, names, {}
        self.bridges = {name: it.power == "on" for name, it in saved.bridges.items()}
        self.lans = {name: it.state == "up" for name, it in saved.lans.items()}
        self.ports = {(name, number): port.lan and number for name, it in saved.bridges.items() for number, port in it.ports.items()}
        for lag in standing.answer("showlag"):
            members = sorted((it["bridge"], it["port"]) for it in lag["ports"])
            least = dict(reversed(members))
            self.ports |= {it: least[it[0]] for it in members}
        self.risks = self.risks_of(policy)

    def named(self, of):
        return {"bridge": self.bridges, "LAN": self.lans, "risk": self.risks}[of]

    def risks_of(self, policy):
        """The failures of each risk that lines of a policy name; none where these are refused, or nothing of them can fail."""
        lines, kinds = [it for it in map(risks.read, policy) if it], {risks.LAN: "LAN", risks.BRIDGE: "bridge"}
        names = {kind: {it.encode() for it in self.named(of)} for kind, of in kinds.items()}
        failing = {kind: [name.encode() for name, can_fail in self.named(of).items() if can_fail] for kind, of in kinds.items()}
        found = risks.risks_in(policy, names, failing)
        return {name.decode(): [Item(kinds[kind], it.decode()) for kind, it in found.get(name, ())] for name, _, _ in lines}

    def failures_of(self, of, name):
        """What fails at once by a name: of a risk what it has, of a LAN or a bridge that alone, if it can."""
        return self.risks[name] if of == "risk" else [Item(of, name)] * self.named(of)[name]

    def is_there(self, of, item):
        return any(has(item, name) for name in self.named(of))

    def is_port(self, bridge, number):
        """Whether an item has a logical port."""
        wanted = None if number == "*" else int(number)
        return any(its == logical and wanted in (None, its) and has(bridge, name) for (name, its), logical in self.ports.items())

    def absent(self, of, item):
        """That there is no bridge, or no LAN, of an item."""
        if item == "*":
            return f"there is no {of}"
        if item.endswith("*"):
            return f"no {of} of {item}"
        name = nearest(item, self.named(of)) if self.is_of_file else None
        return f"no {of} {item}" + (f"; {name}?" if name else "")

    def no_port(self, bridge, number):
        """Why there is no logical port of an item."""
        if "*" in bridge + number:
            return f"no port of {bridge}:{number}"
        port = bridge, int(number)
        logical, text = self.ports.get(port), self.names.port(*port)
        if logical:
            return f"{text} is a member of {self.names.port(bridge, logical)}"
        return f"port {text} is in no LAN" if port in self.ports else f"no port {text}"

    def is_judged(self, promise, item):
        """Whether there is a failure, or a risk, of an item after which a promise is judged."""
        return any(promise.asks(item, name, failures) for name in self.named(item.of) if (failures := self.failures_of(item.of, name)))

    def lacks(self, promise, code):
        """What a promise names that isn't there, by the number that is told of it: the first such item in the order of the line."""
        if code == "E03":
            return f"no bridge has tree {int(promise.of('tree')[0].text)}"
        if code == "E04":
            names = (it.parts()[0] for it in promise.of("bridge", "port"))
            return self.absent("bridge", next((it for it in names if not self.is_there("bridge", it)), "*"))
        if code == "E05":
            return next(self.no_port(*it.parts()) for it in promise.of("port") if not self.is_port(*it.parts()))
        if code == "E06":
            return next(self.absent("LAN", it.text) for it in promise.of("LAN") if not self.is_there("LAN", it.text))
        of, text = next((it.of, it.text) for it in promise.items if it.is_of_scope and not self.is_judged(promise, it))
        if "*" in text:
            return f"nothing of {text} can fail"
        if of == "risk":
            return f"nothing of risk {text} can fail" if text in self.risks else self.absent(of, text)
        return f"{of} {text} is {'off' if of == 'bridge' else 'down'}"


class Networks:
    """The network of FILE and those behind the steps of a change, each made when it is asked for, in their order."""

    def __init__(self, program, opened, asked, refusals, ends):
        self.program, self.opened, self.script, self.ends = program, opened, asked.files[0], ends
        self.standing, self.made, self.found, self.names, self.policy = None, 0, {}, asked.names, asked.policy
        self.lines = asked.change
        self.newer = mstplan.is_second(mstplan.lines_in(self.script)) - mstplan.is_second(self.lines)
        self.refused = {it.line for it in refusals if it.of == "change"}

    def behind(self, step):
        """The network behind a step; behind step 0 it is FILE's."""
        if step not in self.found:
            self.standing = self.standing or self.opened.enter_context(self.program.standing(self.script))
            for number in range(self.made + 1, self.ends[step] + 1):
                edit = None if number in self.refused else mstplan.edit_in(self.lines[number - 1], self.newer)
                if edit is not None:
                    self.standing.make(edit)
            self.made = self.ends[step]
            self.found[step] = Network(self.standing, step == 0, self.names, self.policy)
        return self.found[step]


# ---- what is asked, and its hints


class Asked:
    """What PROGRAM is asked: its word, flags, the contents of files, and the words behind these."""

    def __init__(self, word, flags, files, rest):
        self.word, self.flags, self.files, self.rest = word, flags, files, rest
        self.change = mstplan.lines_in(files[1] if word == "steps" else b"")
        self.policy, self.names = mstplan.lines_in(files[-1]), Names(files[0])

    def answer(self, program):
        """Both outputs, and the status."""
        with contextlib.ExitStack() as paths:
            ran = program.ran(self.word, *self.flags, "--", *(paths.enter_context(mstplan.written(it)) for it in self.files), *self.rest)
        return ran.stdout, ran.stderr, ran.returncode


def hint_of_form(program, arguments):
    """What PROGRAM says of the first of these words that isn't in its form, as it does of a command of scripts; None where each is."""
    words = {name: word if WORD.fullmatch(word) else NO_WORD for name, word in arguments.items()}
    for name in (it for it in words if it in TRIED):
        ran = program.ran(HINTS, given=f"mstplan 2\n{TRIED[name].format(**words)}\n".encode())
        if re.match(rb"line 2 E0[23] ", ran.stdout):
            return ran.stderr.decode().strip().partition(": ")[2]
    return None


def hint_of_words(program, asked, code, networks):
    """The hint of a refused word of PROGRAM's words."""
    form = FORMS[asked.word][len(asked.rest)]
    its = dict(zip(form.split(), asked.rest))
    if code in ("E02", "E03"):
        if code == "E02" and (number := asked.names.number(its.get("B"), its.get("P"))):
            return f"{form}: {its['P']} is {its['B']}:{number}"
        said = hint_of_form(program, {name: it for name, it in its.items() if (name in NUMBERED) == (code == "E03")})
        return f"{form}: {said}" if said else f"bridge {its['B']} hasn't tree {int(its['TREE'])}"
    network = networks.behind(0)
    if its.get("A") not in (None, *network.named("bridge")):
        return network.absent("bridge", its["A"])
    return network.absent("bridge", its["B"]) if code == "E04" else network.no_port(its["B"], its["P"])


def hint_of_edit(line, code, names):
    """The hint of an edit that names what isn't there."""
    word, *its = (it.decode() for it in mstplan.words_in(line))
    if code == "E04":
        return f"no bridge {its[0]}"
    return f"no port {names.port(its[0], its[1])}" if code == "E05" else f"no LAN {its[2 if word == 'plug' else 0]}"


def hint_of(program, asked, it, networks):
    """The hint of a refused line of which PROGRAM itself has none, or None."""
    if it.of in FORMS:
        return f"{it.of} {hint_of_words(program, asked, it.code, networks)}"
    if it.of == "change" and it.code in ("E04", "E05", "E06"):
        return f"change line {it.line} {hint_of_edit(asked.change[it.line - 1], it.code, asked.names)}"
    if it.of == "policy" and it.code in ("E03", "E04", "E05", "E06", "E17"):
        if it.line == 0:
            return "policy has no promise that can be judged"
        front = f"step {it.step} " if it.step else ""
        promise = Promise(asked.policy[it.line - 1])
        return f"{front}policy line {it.line} {networks.behind(it.step).lacks(promise, it.code)}"
    return None


def hints(program, asked, out, errors):
    """The lines of standard error: of each refused line PROGRAM's own hint or another one, and then what else PROGRAM says there."""
    refusals, ends = refusals_in(records_in_json(program, out) if JSON in asked.flags else records_in_text(out))
    said = errors.splitlines(keepends=True)
    own = {(found[1].decode(), int(found[2])): line for line in said if (found := HINT.match(line))}
    others = [line for line in said if not HINT.match(line)]
    with contextlib.ExitStack() as opened:
        networks = Networks(program, opened, asked, refusals, ends)
        for it in refusals:
            line = own.pop((it.of, it.line), None)
            hint = None if line else hint_of(program, asked, it, networks)
            if line or hint:
                yield line or f"{hint}\n".encode()
    yield from [*own.values(), *others]


# ---- the command


def words_of():
    """PROGRAM and its words."""
    parser = argparse.ArgumentParser(description=__doc__, epilog=STATUSES, formatter_class=argparse.RawDescriptionHelpFormatter, usage="%(prog)s PROGRAM WORD ..")
    parser.add_argument("program", metavar="PROGRAM", help="mstplan, or a file that runs it; behind it stand its words")
    return parser.parse_args(sys.argv[1:2]).program, sys.argv[2:]


def asked_of(words):
    """What is asked, or None where PROGRAM alone has something to say of it: of other words, wrong ones, and files that can't be read."""
    at = words.index("--") if "--" in words else len(words)
    flags = [it for it in words[:at] if it.startswith("-") and it != "-"]
    word, *its = [it for it in words[:at] if it not in flags] or [""]
    its += words[at + 1:]
    counts, most = ASKED.get(word, ((), 0))
    if len(its) not in counts or not set(flags) <= {HINTS, JSON}:
        return None
    files = Files()
    try:
        contents = [b"" if path == "-" and files.reads_input else files.bytes_of(path) for path in its[:most]]
    except OSError:
        return None
    return Asked(word, [*flags, HINTS], contents, its[most:])


def main():
    path, words = words_of()
    program, asked = mstplan.Program(path), asked_of(words)
    if asked is None:
        os.execvp(path, [path, HINTS, *words])
    out, errors, status = asked.answer(program)
    write(out)
    for line in hints(program, asked, out, errors) if status in (mstplan.WANTED, mstplan.TOLD) else [errors]:
        if sys.stderr is not None:
            sys.stderr.buffer.write(line)
    return status


if __name__ == "__main__":
    guarded(TOOL, main)
