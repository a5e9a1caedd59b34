"""What `verify` and `steps` tell of a policy, a case for each of its lines, for ci.py."""

import json
import re
from dataclasses import dataclass
from typing import Optional

import mstplan
from command import name_of

FAILURE, ERROR = "failure", "error"


def printable(text):
    """A text without what isn't of ASCII: no report can be broken by it."""
    return re.sub("[^ -~]", lambda it: it[0].encode("unicode_escape").decode(), text)


@dataclass
class Place:
    """Lines of a script or of a change that did something, and what stands there, or stood there and is gone."""
    path: str
    first: int
    last: int
    text: str
    is_gone: bool = False

    def told(self):
        lines = str(self.first) if self.first == self.last else f"{self.first}-{self.last}"
        return f"{name_of(self.path)}:{lines}: {self.text}{' is gone' * self.is_gone}"


@dataclass
class Reason:
    """Why a line isn't as wanted: in the program's own words, and with what ports are called, for people."""
    plain: str
    named: str


def bare(text):
    """A reason of no port."""
    return Reason(text, text)


@dataclass
class Case:
    """A line of a file: what is said there, and why it isn't as wanted (nothing where it is), as a failure or as an error; and what did it, where
    that is known."""
    path: str
    line: int
    name: str
    kind: str
    reasons: list
    is_skipped: bool = False
    of_policy: bool = False
    did: Optional[Place] = None

    @property
    def title(self):
        return printable(f"{self.line}: {self.name}")

    @property
    def place(self):
        """Where it is told: at what did it, or else at the line itself."""
        return self.did or Place(self.path, self.line, self.line, self.name)

    def done_by(self):
        """A line of what did it, where that is elsewhere."""
        return [f"by {self.did.told()}"] if self.did and self.did.path != self.path else []

    def texts(self, most):
        """The reasons, so many of them at most."""
        others = len(self.reasons) - most
        return [it.named for it in self.reasons[:most]] + [f"and {others} more"] * (others > 0)


def wrong_in(cases, kind=None):
    return [it for it in cases if it.reasons and kind in (None, it.kind)]


def words_told(policy):
    """The lines of a policy, each by its words."""
    return [" ".join(line.decode(errors="replace").split()) for line in mstplan.lines_in(policy)]


def is_promise(line):
    """Whether a line of a policy, by its words, is to promise something: it isn't blank, no comment, and doesn't say what fails together."""
    return bool(line) and not line.startswith("#") and line.partition(" ")[0] != "risk"


def lines_told(lines, refused):
    """The numbers of the lines of a policy that have a case: those that promise something, and those that are refused."""
    return [number for number, line in enumerate(lines, start=1) if is_promise(line) or number in refused]


def refused_line(path, value):
    """The case of a line of a script or of a change that is refused."""
    return Case(path, value["line"], "refused line", ERROR, [bare(f"{value['error']} {value['text']}")])


class Verified:
    """What `verify` tells of a network and a policy, a case for each line. `names` are those of the network's ports."""

    def __init__(self, lines, policy, policy_path, script_path, names):
        self.names, values = names, self.values(lines)
        answers = [it["records"] for it in values if it.get("query") == "verify" and "records" in it]
        if len(answers) != 1 or not answers[0] or answers[0][-1].get("kind") != "verify":
            raise mstplan.Failed(f"LINES has {len(answers)} answers of `mstplan verify --json` in place of one: nothing is known")
        *self.records, last = answers[0]
        self.counts = last["expectation_count"], last["hold_count"]
        lines = words_told(policy)
        refused = {it["line"] for it in self.records if it["kind"] == "policy"}
        told = {it["line"]: it for it in last.get("promises", ())}
        if lines_told(lines, refused) != sorted({*told, *refused} - {0}) or any(it["promise"] != lines[at - 1] for at, it in told.items()):
            raise mstplan.Failed(f"{name_of(policy_path)} isn't the policy that LINES tells of")
        self.cases = list(self.cases_of(lines, told, policy_path))
        self.cases += [refused_line(script_path, it) for it in values if "error" in it and "line" in it]

    @staticmethod
    def values(lines):
        try:
            values = [json.loads(line) for line in lines.splitlines() if line.strip()]
        except ValueError as fault:
            raise mstplan.Failed(f"LINES isn't what `mstplan verify --json` prints: {fault}") from fault
        if not all(isinstance(it, dict) for it in values):
            raise mstplan.Failed("LINES has a line that is no object")
        return values

    def cases_of(self, lines, told, path):
        """A case for each line that says something: a promise that can be read is told by LINES, and one that is refused has its reason there."""
        reasons = {}
        for it in self.records:
            reasons.setdefault(it["line"], []).append(reason_of(it, self.names))
        kinds = {it["line"]: ERROR if it["kind"] == "policy" else FAILURE for it in self.records}
        # the line 0 stands for a policy of which nothing is judged
        for number in [0] if 0 in reasons else sorted({*told, *reasons}):
            is_skipped = number not in reasons and told[number]["network_count"] == 0
            name = lines[number - 1] if number else "the policy"
            yield Case(path, max(number, 1), name, kinds.get(number, FAILURE), reasons.get(number, []), is_skipped, of_policy=number > 0)

    def wrong(self, kind=None):
        return wrong_in(self.cases, kind)


def reason_of(record, names, front=""):
    """Where a promise isn't kept, and why, with some words in front."""
    if record["kind"] == "same":
        return bare(f"{front}the same after {record['failure_count']} failures")
    failure = record.get("failure")
    front += "" if record["kind"] == "policy" else "now " if failure is None else " ".join(next(iter(failure.items()))) + " "
    return Reason(*(front + mstplan.reason_in(record, its) for its in (None, names)))


class Stepped:
    """What `steps` tells of a change and a policy: a case for each line of the policy, one for each step that cuts some VLAN, and one for each
    refused line. `names` are those of the network's ports."""

    def __init__(self, values, policy, paths, names):
        """Paths are those of the script, the change and the policy."""
        records = next(it["records"] for it in values if it.get("query") == "steps")
        self.paths, self.names, self.steps = paths, names, {it["step"]: it["lines"] for it in records if it["kind"] == "step"}
        lines = words_told(policy)
        refused = {it["line"] for it in records if it["kind"] == "policy"}
        by_line = {number: [] for number in sorted({*lines_told(lines, refused), *refused})}
        for it in records:
            if it["kind"] in ("policy", "fails", "mends"):
                by_line[it["line"]].append(it)
        self.cases = [self.case_of(number, lines, its) for number, its in by_line.items()]
        self.cases += [refused_line(paths[1], it) for it in records if it["kind"] == "change"]
        self.cases += [self.cut_of(it) for it in records if it["kind"] == "step" and it["cut_vids"]]
        self.cases += [refused_line(paths[0], it) for it in values if "error" in it and "line" in it]
        unread = next(at for at, it in enumerate(records) if it["kind"] != "policy")
        count = len(lines_told(lines, refused))
        self.counts = count, max(count - unread - records[-1]["unkept_count"], 0)

    def step_place(self, step, text):
        first, last = self.steps[step]
        return Place(self.paths[1], first, last, text)

    def case_of(self, number, lines, records):
        """A line of the policy: the first step that breaks it is what did it. One that the change mends, and breaks nowhere, is kept."""
        is_unkept, breaking = False, []
        for step in (0, *self.steps):
            told = {it["kind"] for it in records if it["step"] == step}
            breaking += [step] * (bool(told & {"policy", "fails"}) and not is_unkept and step > 0)
            is_unkept = bool(told & {"policy", "fails"}) or is_unkept and "mends" not in told
        reasons = [self.reason_at(it) for it in records if it["kind"] != "mends"] if is_unkept or breaking else []
        kind = ERROR if reasons and records[0]["kind"] == "policy" else FAILURE
        did = self.step_place(breaking[0], f"step {breaking[0]}") if breaking else None
        return Case(self.paths[2], max(number, 1), lines[number - 1] if number else "the policy", kind, reasons, of_policy=number > 0, did=did)

    def reason_at(self, record):
        place = f"behind step {record['step']} " if record["step"] else "" if record["kind"] == "policy" else "before the change "
        return reason_of(record, self.names, place)

    def cut_of(self, record):
        first, last = record["lines"]
        return Case(self.paths[1], first, f"step {record['step']}", FAILURE, [bare(f"it cuts VLANs {mstplan.list_of(record['cut_vids'])}")],
                    did=Place(self.paths[1], first, last, f"step {record['step']}"))

    def wrong(self, kind=None):
        return wrong_in(self.cases, kind)
