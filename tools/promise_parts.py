"""A policy in parts, for parallel.py: the lines with `always` are judged after some failures by each part, and what `mstplan verify`
prints of the whole is made of what it prints of the parts.

A line `always E` is `E` in the first part, which judges the network itself and all other lines. In each other part it is `after lan L,.. E`
and `after bridge B,.. E`, with the names of some failures: the same is expected after these, and all reasons are told, as each is named. In the last
one it is `after risk R,.. E`, behind the lines that say what fails together, if the policy has some. What the network itself tells, too, is left out
then, and counted behind `same`, as `verify` does.
"""

import contextlib
import re
from dataclasses import dataclass, field

import mstplan
from command import tell, write
from risks import BRIDGE, LAN, PLAIN, RISK, is_of_risk, risks_in
from running import tell_errors

TOOL = "parallel.py"
FINALLY, ALWAYS, TOGETHER = b"finally", b"always", b"together"
# Of an expectation which of its words name a bridge, or a LAN, that isn't looked at where it has failed itself.
OWN = {BRIDGE: {b"root": (2, 4), b"via": (2, 3, 4)}, LAN: {b"carries": (1,), b"avoids": (1,)}}
EXPECTATIONS = (b"root", b"region", b"role", b"reach", b"apart", b"together", b"leaf", b"depth", b"hops", b"via", b"carries", b"avoids", b"fits")
LONGEST = mstplan.LONGEST
JSON, HINTS = "--json", "--hints"
# Each processor has so many parts at most, and each but one at least so many failures.
PARTS_OF_A_PROCESSOR, LEAST_FAILURES = 4, 16
POLICY_HINT = b"policy line "
# How lines and records of `verify` stand: of a refused line of the policy its number, of a reason its line, where it is, and what it is.
TEXT, RECORD = False, True
REFUSED = {TEXT: re.compile(rb"policy ([0-9]+) .*"), RECORD: re.compile(rb'\{"kind":"policy","line":([0-9]+),.*')}
REASON = {TEXT: re.compile(rb"fails ([0-9]+) (now|(?:lan|bridge|risk) \S+) (.*)"),
          RECORD: re.compile(rb'\{"kind":"fails","line":([0-9]+),"failure":(null|\{"(?:lan|bridge|risk)":"[^"]*"\}),(.*)')}
TOLD = {TEXT: b"fails %d %b %b", RECORD: b'{"kind":"fails","line":%d,"failure":%b,%b'}
SAME = {TEXT: b"same %d failures %d", RECORD: b'{"kind":"same","line":%d,"failure_count":%d}'}
SAME_IN = {TEXT: re.compile(rb"same ([0-9]+) .*"), RECORD: re.compile(rb'\{"kind":"same","line":([0-9]+),.*')}
NOW = {TEXT: b"now", RECORD: b"null"}
COUNTS = {TEXT: re.compile(rb"verify expectations ([0-9]+) hold ([0-9]+)"),
          RECORD: re.compile(rb'\{"kind":"verify","expectation_count":([0-9]+),"hold_count":([0-9]+),"promises":\[(.*)\]\}')}
PROMISE = re.compile(rb'\{"line":([0-9]+),"promise":"(.*)","scope":null,"finally":(true|false),"network_count":([0-9]+),"holds":(?:true|false|null)\}')
NOTHING = 0


@dataclass
class Promise:
    """A line with `always`: its number, whether it is of the end alone, and the words of what it expects."""
    number: int
    is_final: bool
    words: list

    @property
    def looks_back(self):
        return self.words[0] == TOGETHER

    def names(self, kind, name):
        """Whether it names a LAN or a bridge by itself."""
        return name in {self.words[at] for at in OWN[kind].get(self.words[0], ()) if at < len(self.words)}

    def now(self):
        """The line without `always`."""
        return b" ".join([FINALLY] * self.is_final + self.words)

    def after(self, kind, names):
        """The lines that expect the same after failures, or risks, of these names, each as long as a line may be; none where it has no room."""
        front, behind, lines, line = b"after %b " % kind, b" " + b" ".join(self.words), [], b""
        for name in names:
            if line and len(front) + len(line) + 1 + len(name) + len(behind) > LONGEST:
                lines.append(front + line + behind)
                line = b""
            line += b"," * bool(line) + name
        return lines + [front + line + behind] * bool(line)

    def fits(self):
        """Whether a line has room for a name in front of what is expected."""
        return len(b" ".join(self.words)) <= LONGEST // 2


def promise_in(number, line):
    """The promise of a line with `always`, or None of another line."""
    if len(line) > LONGEST or not PLAIN.fullmatch(line):
        return None
    words = mstplan.words_in(line)
    is_final = words[0] == FINALLY
    scope, *expected = words[is_final:] or [b""]
    if scope != ALWAYS or not expected or expected[0] not in EXPECTATIONS:
        return None
    promise = Promise(number, is_final, expected)
    return promise if promise.fits() else None


class Events:
    """After what promises with `always` are judged in a network: LANs, bridges, and the risks of a policy with what fails in each."""

    def __init__(self, saved, lines):
        words = [mstplan.words_in(it) for it in saved.split(b"\n")]
        out = {(it[0], it[1]) for it in words if it[2:] in ([b"down"], [b"off"])}
        names = {kind: {it[1] for it in words if it[0] == b"add" + kind} for kind in (LAN, BRIDGE)}
        failing = {kind: sorted(it for it in its if (kind, it) not in out) for kind, its in names.items()}
        self.risks = risks_in(lines, names, failing)
        self.failures = [(kind, name) for kind in (LAN, BRIDGE) for name in failing[kind]]
        self.all = [*self.failures, *((RISK, name) for name in self.risks)]

    def is_own(self, promise, kind, name):
        """Whether some of it is of what the promise names by itself."""
        return any(promise.names(*it) for it in (self.risks[name] if kind == RISK else [(kind, name)]))

    def of(self, promise, some):
        """Those of some after which a promise is judged."""
        return [it for it in some if not self.is_own(promise, *it)]

    def count(self, promise):
        """In how many networks a promise with `always` is judged."""
        return len(self.of(promise, self.all)) + (not promise.looks_back)


class Part:
    """A policy of some events, and the promise of each of its lines: none of those in front, which say what fails together."""

    def __init__(self, promises, events, some, front):
        self.lines, self.promises = list(front), [None] * len(front)
        for promise in promises:
            its = events.of(promise, some)
            for kind in (LAN, BRIDGE, RISK):
                lines = promise.after(kind, [name for of, name in its if of == kind])
                self.lines += lines
                self.promises += [promise] * len(lines)

    def text(self):
        return b"".join(b"%b\n" % line for line in self.lines)


def parts_of(promises, events, risk_lines, count):
    """So many parts of failures, equally many and in order, and one of all risks."""
    every = events.failures
    cut = [every[len(every) * at // count:len(every) * (at + 1) // count] for at in range(count)]
    parts = [Part(promises, events, those, []) for those in cut if those]
    return parts + [Part(promises, events, events.all[len(every):], risk_lines)] * bool(events.risks)


# ---- what is told


@dataclass
class Lines:
    """What `verify` has printed: the refused lines of the script and the head of the answer, what it tells of the policy, and the end of it."""
    front: bytes
    are_refused: bool
    told: list
    last: bytes


def lines_in(printed, is_json):
    if not is_json:
        *told, last = printed.removesuffix(b"\n").split(b"\n")
        count = next((at for at, line in enumerate(told) if not line.startswith(b"line ")), len(told))
        return Lines(b"".join(b"%b\n" % line for line in told[:count]), count > 0, told[count:], last)
    at = printed.rfind(b"\n", 0, len(printed) - 1) + 1
    head, found, records = printed[at:].partition(mstplan.RECORDS)
    if not found:
        raise mstplan.Failed("a part of the policy isn't what `verify` prints")
    *told, last = split(records.removesuffix(b"]}\n"), mstplan.BETWEEN)
    return Lines(printed[:at] + head + found, at > 0, told, last)


def split(text, mark):
    """Records by what stands between them, each of them whole."""
    first, *others = text.split(mark)
    its = [first, *(mark[2:] + it for it in others)]
    return [it + b"}" for it in its[:-1]] + its[-1:]


@dataclass
class Found:
    """What is told of a promise: rows of the network itself, after how many failures one of these was so again, and the rows of these."""
    nows: list = field(default_factory=list)
    same: set = field(default_factory=set)
    others: list = field(default_factory=list)

    def add(self, place, reason):
        """A reason after a failure: it is left out where the network itself gives it."""
        if reason in self.nows:
            self.same.add(place)
        else:
            self.others.append((place, reason))

    def rows(self, number, is_json):
        told = TOLD[is_json]
        rows = [told % (number, NOW[is_json], it) for it in self.nows]
        rows += [SAME[is_json] % (number, len(self.same))] * bool(self.same)
        return rows + [told % (number, *it) for it in self.others]


class Whole:
    """What `verify` prints of the whole policy, by what it prints of its parts."""

    def __init__(self, promises, is_json, first):
        self.is_json, self.first, self.refused, self.rows = is_json, first, {}, {}
        self.found = {it.number: Found() for it in promises}
        for row in first.told:
            self.add_first(row)
        self.promises = [it for it in promises if it.number not in self.refused]

    def add_first(self, row):
        refused, reason = REFUSED[self.is_json].fullmatch(row), REASON[self.is_json].fullmatch(row)
        if refused:
            self.refused[int(refused[1])] = row
        elif reason and int(reason[1]) in self.found:
            self.found[int(reason[1])].nows.append(reason[3])
        else:
            other = reason or SAME_IN[self.is_json].fullmatch(row)
            if not other:
                raise mstplan.Failed("a part of the policy isn't what `verify` prints")
            self.rows.setdefault(int(other[1]), []).append(row)

    def add(self, part, lines):
        """What is told of a part: reasons after failures, or once more that a line is refused."""
        for row in lines.told:
            reason = REASON[self.is_json].fullmatch(row)
            if reason:
                self.found[part.promises[int(reason[1]) - 1].number].add(reason[2], reason[3])

    def printed(self, events):
        """All of it, and whether nothing is told but how many promises hold."""
        expected, held, *told = COUNTS[self.is_json].fullmatch(self.first.last).groups()
        expected, held = int(expected), int(held)
        for it in self.promises:
            found, count = self.found[it.number], events.count(it)
            self.rows[it.number] = found.rows(it.number, self.is_json)
            expected += it.looks_back and count > 0
            held += it.looks_back and count > 0
            held -= bool(found.others and not found.nows)
        if expected:
            self.refused.pop(NOTHING, None)
        rows = [row for _, row in sorted(self.refused.items())] + [row for _, its in sorted(self.rows.items()) for row in its]
        is_wanted = not rows and not self.first.are_refused
        if not self.is_json:
            return self.first.front + b"".join(b"%b\n" % row for row in [*rows, b"verify expectations %d hold %d" % (expected, held)]), is_wanted
        promises = b",".join(self.promises_told(told[0], events))
        last = b'{"kind":"verify","expectation_count":%d,"hold_count":%d,"promises":[%b]}' % (expected, held, promises)
        return self.first.front + b",".join([*rows, last]) + b"]}\n", is_wanted

    def promises_told(self, told, events):
        """What the last record tells of each promise: of a line with `always` that is another one than of the line without."""
        by_number = {it.number: it for it in self.promises}
        for record in split(told, b'},{"line":') if told else []:
            found = PROMISE.fullmatch(record)
            number = int(found[1]) if found else None
            if number not in self.found:
                yield record
            elif number not in by_number:
                yield with_always(found, 0, b"null")
            else:
                count = events.count(by_number[number])
                yield with_always(found, count, b"null" if count == 0 else b"false" if self.rows[number] else b"true")


def with_always(found, count, holds):
    """The record of a line with `always`, by that of the line without: in how many networks it is judged, and whether it holds."""
    front = b"finally " if found[3] == b"true" else b""
    told = b'{"line":%b,"promise":"%balways %b","scope":"always","finally":%b,"network_count":%d,"holds":%b}'
    return told % (found[1], front, found[2].removeprefix(front), found[3], count, holds)


# ---- the word


def hints(first, of_policy):
    """Standard error of the whole: of a policy its own hints, and not those of the part where lines have no `always`."""
    kept = [it for it in first.splitlines(keepends=True) if not it.startswith(POLICY_HINT)]
    return b"".join(kept + [it for it in of_policy.splitlines(keepends=True) if it.startswith(POLICY_HINT)])


def calls_of(flags, paths, first, parts, calls):
    """The words of each call: of the first part, with hints of what the policy's own are, which no network changes, and of each other part."""
    plain = [it for it in flags if it != HINTS]
    asked = [["verify", *flags, "--", paths[0], first]]
    asked += [["verify", *flags, "--", calls.written("nothing", b""), paths[1]]] * (HINTS in flags)
    return asked + [["verify", *plain, "--", paths[0], calls.written(f"after-{at}", it.text())] for at, it in enumerate(parts)]


def verify(flags, files, calls):
    """Writes what `verify` prints of a script and a policy: the status."""
    script, policy = files
    lines = mstplan.lines_in(policy)
    promises = [it for it in map(promise_in, range(1, len(lines) + 1), lines) if it]
    risk_lines = [it for it in lines if is_of_risk(it)]
    events = Events(calls.saved(script) if promises else b"", risk_lines)
    if not promises:
        tell(TOOL, "the policy has no line with always to cut, and verify runs as one")
    parts = parts_of(promises, events, risk_lines, min(calls.jobs * PARTS_OF_A_PROCESSOR, len(events.failures) // LEAST_FAILURES + 1))
    for it in promises:
        lines[it.number - 1] = it.now()
    paths, first = [calls.written("script", script), calls.written("policy", policy)], calls.written("now", b"\n".join(lines))
    with contextlib.closing(calls.ended(calls_of(flags, paths, first, parts, calls))) as ended:
        now = next(ended)
        tell_errors(hints(now.errors, next(ended).errors) if HINTS in flags else now.errors)
        whole = Whole(promises, JSON in flags, lines_in(now.printed, JSON in flags))
        for part, its in zip(parts, ended):
            whole.add(part, lines_in(its.printed, JSON in flags))
    printed, is_wanted = whole.printed(events)
    write(printed)
    return mstplan.WANTED if is_wanted else mstplan.TOLD
