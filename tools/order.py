#!/usr/bin/env python3
"""Finds the least order of a change's steps in which every step is accepted and none breaks a policy.

A step breaks it where a line isn't kept behind it that was kept before, as `mstplan steps` counts it. What FILE's network doesn't keep
already, and what stays so, breaks nothing; nor does a line with `finally`, which is looked at in the end alone.

PROGRAM judges: a step's lines are made and taken back in one `mstplan ask`, each network that comes about is looked at by `mstplan
verify` (by `mstplan steps`, where a line of the policy looks back at FILE's network: `together`), and the order that is found by `mstplan
steps FILE ORDERED POLICY`. The steps are those of `mstplan steps`, with blank lines between; with --edits they are the edits from FILE's
network to NEW's, one for each bridge and LAN or (--by line) for each line. Least is the order with the least numbers in front. It ends in
the network that the given order ends in, where no line of that is refused.

It prints the change in its new order; or, with status 1, `none` and why: the end where that breaks the policy, the steps that stand
nowhere, and the longest front that there is, with what is wrong behind it. With --fewest, where each order breaks the policy, it prints the
least of those with the fewest steps that do, with status 1. The status is 1 also where the end doesn't keep a line that no step breaks.

Where a person reads of a port that lines of FILE (or of CHANGE, or NEW) call by a name, it has that in brackets behind it; and in front of the
steps stand the lines of those that the change sets (`# port acc1 2 is Te1/0/2`).

For example: order.py mstplan campus.script campus.change keep.policy > ordered.change
             order.py mstplan now.script --edits wanted.script keep.policy > ordered.change
"""

import argparse
import collections
import hashlib
import sys
import time
from dataclasses import dataclass

sys.dont_write_bytecode = True

import mstplan  # noqa: E402
import risks  # noqa: E402
from command import OK, STATUSES, TOLD, Files, guarded, natural, tell, tell_refused, write  # noqa: E402
from interfaces import Names  # noqa: E402

TOOL = "order.py"
MOST, EVERY, LONGEST_REASON = 100_000, 5.0, 160
# Of a change's refusals those that no network alters.
UNREAD = ("E01", "E02", "E03")


class Stopped(Exception):
    """As many networks are looked at as there may be."""


@dataclass
class Step:
    """A step: its number, the numbers of its lines as `steps` tells them, its lines as they are printed, and its edits as FILE's network
    takes them. Of the times it was tried: whether it ever could stand, and why it couldn't, at first and behind the longest front."""
    number: int
    where: str
    text: list
    edits: list
    was_allowed: bool = False
    first: tuple = None
    last: tuple = None

    def note(self, front, reason):
        told = numbers_of(front), reason
        self.first = self.first or told
        if self.last is None or len(front) >= len(self.last[0]):
            self.last = told


@dataclass
class End:
    """The network that an order is to end in, and edits that make it of FILE's network: in their order each of them is accepted."""
    network: bytes
    edits: list


def numbers_of(steps):
    return [it.number for it in steps]


def edits_of(steps):
    return [edit for it in steps for edit in it.edits]


def listed(numbers):
    return ",".join(map(str, numbers)) or "-"


def digest_of(network):
    return hashlib.sha256(network).digest()


class Judge:
    """What a policy says of networks, each asked for once. `network` is the one before the change, and `names` is what ports are called."""

    def __init__(self, program, policy, network, most, names):
        self.program, self.policy, self.network, self.most, self.names, self.verdicts = program, policy, network, most, names, {}
        records = program.records("verify", network, policy)
        promises = records[-1]["promises"]
        # a line that says what fails together is unkept where it is refused
        self.lines = {it["line"] for it in promises} | {number for number, line in enumerate(mstplan.lines_in(policy), 1) if risks.read(line)}
        self.final = {it["line"] for it in promises if it["finally"]}
        # lines that can't be read are refused everywhere, and break nothing; nor does a policy that says nothing (its line is 0)
        self.unread = [it for it in records if it["kind"] == "policy" and it["line"] not in {0, *self.lines}]
        self.looks_back = any("together" in it["promise"].split() and it["scope"] in (None, "always") for it in promises)

    def records(self, network, edits):
        """What is told of a network, which these edits make of the one before the change."""
        if self.looks_back:
            return self.program.records("steps", self.network, "\n".join(["mstplan 2", *edits, ""]).encode(), self.policy)
        return self.program.records("verify", network, self.policy)

    def unkept(self, network, edits, is_end):
        """The lines that aren't kept in a network, each with why; those of the end alone are among them there."""
        key = digest_of(network)
        if key not in self.verdicts:
            if len(self.verdicts) >= self.most:
                raise Stopped
            self.verdicts[key] = unkept_in(self.records(network, edits), self.lines, self.names)
        return {line: why for line, why in self.verdicts[key].items() if is_end or line not in self.final}


def unkept_in(records, lines, names):
    """Of these lines of a policy those that aren't kept in the last network that is told of, each with its reasons."""
    found = {}
    for it in records:
        if it["kind"] == "mends":
            found.pop(it["line"])
        elif it["kind"] in ("policy", "fails") and it["line"] in lines:
            found.setdefault(it["line"], []).append(told_of(it, names))
    return found


def told_of(record, names):
    """The line of `verify` or of `steps` that a record of a policy stands for, with what ports are called."""
    failure = record.get("failure")
    place = "" if record["kind"] == "policy" else "now " if failure is None else f"{' '.join(next(iter(failure.items())))} "
    return f"{record['kind']} {record['line']} {place}{mstplan.reason_in(record, names)}"


def reason_of(unkept):
    """The first reason of some lines, and how many more there are; None where there is no line."""
    first, *others = [why for _, its in sorted(unkept.items()) for why in its] or [None]
    return first and first[:LONGEST_REASON] + (f" (and {len(others)} more)" if others else "")


class Search:
    """A search through the orders of steps, those with the least numbers in front first."""

    def __init__(self, standing, judge, steps, wanted):
        self.standing, self.judge, self.steps = standing, judge, steps
        # the end, or None for any; of the steps that are left and a network, with how many failing ones there is no order
        self.wanted, self.dead = wanted, {}
        self.longest, self.other_end, self.tried = [], None, 0
        self.began = self.last = time.monotonic()

    def make(self, step):
        """Makes a step: how many of its edits are made, and what is told of the first that is refused."""
        refused = [(edit, told[0]) for edit, told in ((it, self.standing.ask(it)) for it in step.edits) if told]
        why = f"refused {self.judge.names.edit(refused[0][0])}: {refused[0][1]['error']} {refused[0][1]['text']}" if refused else None
        return len(step.edits) - len(refused), why

    def take_back(self, count):
        if count:
            self.standing.ask(f"undo {count}")

    def given_end(self):
        """The end of the given order, or None where a line of it is refused."""
        made = [self.make(step) for step in self.steps]
        found = None if any(why for _, why in made) else End(self.standing.saved(), edits_of(self.steps))
        self.take_back(sum(count for count, _ in made))
        return found

    def progress(self, front):
        self.tried += 1
        if time.monotonic() - self.last > EVERY:
            self.last = time.monotonic()
            tell(TOOL, f"{self.last - self.began:.0f} s: {len(self.judge.verdicts)} networks looked at, {self.tried} steps tried, at "
                       f"{listed(numbers_of(front))}, longest front {len(self.longest)} of {len(self.steps)}")

    def behind(self, front, rest, network, spare):
        """The least order of the steps that are left, behind the network that stands, with at most `spare` failing ones; or None."""
        if len(front) > len(self.longest):
            self.longest = front
        if not rest and (self.wanted is None or self.wanted.network == network):
            return front
        if not rest:
            self.other_end = self.other_end or front
        for step in rest:
            self.progress(front)
            found = self.beginning_with(step, front, [it for it in rest if it is not step], network, spare)
            if found is not None:
                return found
        self.dead[tuple(numbers_of(rest)), digest_of(network)] = spare
        return None

    def breaks(self, front, step, before, after):
        """Why a step breaks the policy: the lines that aren't kept behind it and were before it. None of the end alone is among them."""
        then = self.judge.unkept(before, edits_of(front), False)
        now = self.judge.unkept(after, edits_of([*front, step]), False)
        return reason_of({line: why for line, why in now.items() if line not in then})

    def broken_end(self):
        """Why each order breaks the policy: what the end doesn't keep, and the network before the change does."""
        if not self.wanted:
            return None
        then, now = self.judge.unkept(self.judge.network, [], False), self.judge.unkept(self.wanted.network, self.wanted.edits, False)
        return reason_of({line: why for line, why in now.items() if line not in then})

    def unkept_end(self):
        return self.judge.unkept(self.wanted.network, self.wanted.edits, True)

    def beginning_with(self, step, front, others, network, spare):
        """The least order that goes on with a step from a network. Where there is none, the step is taken back."""
        made, why = self.make(step)
        if why:
            step.note(front, why)
        else:
            after = self.standing.saved()
            fails = self.breaks(front, step, network, after)
            if fails:
                step.note(front, fails)
            step.was_allowed |= not fails
            left = spare - bool(fails)
            if left >= 0 and self.dead.get((tuple(numbers_of(others)), digest_of(after)), -1) < left:
                found = self.behind([*front, step], others, after, left)
                if found is not None:
                    return found
        self.take_back(made)
        return None

    def run(self, is_fewest):
        """The order, and how many of its steps fail; or None and 0. Where the end breaks the policy one at least does."""
        network = self.standing.saved()
        for spare in range(int(bool(self.broken_end())), (len(self.steps) if is_fewest else 0) + 1):
            self.longest = []
            found = self.behind([], self.steps, network, spare)
            if found is not None:
                return found, spare
        return None, 0

    def told_none(self):
        """Why there is no order."""
        yield "none"
        if self.broken_end():
            yield f"end {self.broken_end()}"
            return
        for step in (it for it in self.steps if it.first and not it.was_allowed):
            front, reason = step.first
            yield f"nowhere {step.number} lines {step.where} behind {listed(front)} {reason}"
        if self.other_end:
            yield f"other end {listed(numbers_of(self.other_end))}: nothing breaks, and the end isn't that of the given order"
        at = numbers_of(self.longest)
        yield f"front {listed(at)} of {len(self.steps)}"
        for step in (it for it in self.steps if it.last and it.number not in at and it.last[0] == at):
            yield f"behind {step.number} lines {step.where} {step.last[1]}"


# ---- the steps of a change


def steps_of(program, network, change):
    """The steps of a change as PROGRAM cuts them, with comments that stand before them, and its lines that are accepted nowhere."""
    lines = mstplan.lines_in(change)
    newer = 1 - mstplan.is_second(lines)
    records = program.records("steps", network, change)
    unread = [it for it in records if it["kind"] == "change" and it["error"] in UNREAD]
    steps, last = [], int(not newer)
    for record in (it for it in records if it["kind"] == "step" and not unread):
        first, end = record["lines"]
        while end < len(lines) and lines[end].split():
            end += 1
        edits = [mstplan.edit_in(it, newer) for it in lines[first - 1:end]]
        text = b"\n".join(lines[last:end]).decode("latin-1").strip("\n").split("\n")
        steps.append(Step(record["step"], mstplan.lines_of_step(record), text, [it for it in edits if it is not None]))
        last = end
    return steps, unread


def part_of(line, replaced):
    """What an edit is of: a LAN, or a bridge; where a bridge goes and another one of its name comes, also which of both."""
    word, name = line.split()[:2]
    if word in ("addlan", "dellan", "lan", "speed"):
        return "lan", name
    return "bridge", name, name in replaced and word in ("unplug", "delport", "delbridge")


def cut(edits, by):
    """The lines of edits as a change with a step for each bridge and each LAN, or for each line."""
    named = {tuple(line.split()[:2]) for line in edits}
    replaced = {name for word, name in named if word == "delbridge" and ("addbridge", name) in named}
    steps = collections.defaultdict(list)
    for at, line in enumerate(edits):
        steps[at if by == "line" else part_of(line, replaced)].append(line)
    return "\n\n".join(["mstplan 2", *("\n".join(it) for it in steps.values()), ""]).encode()


def printed(order, is_second, failing, names):
    """A change of these steps in this order, with what their ports are called."""
    note = f"# steps {listed(numbers_of(order))}" + (f", of which {failing} break the policy" if failing else "")
    called = [it.encode("utf-8").decode("latin-1") for it in names.lines(edits_of(order))]
    lines = [*["mstplan 2"] * is_second, note, *called]
    for step in order:
        lines += ["", *step.text]
    return "\n".join([*lines, ""]).encode("latin-1")


def judged(program, script, change, policy, failing, search):
    """Asks PROGRAM of the change that is printed, which is to be what the search has found: how many lines aren't kept in the end. Cuts are
    told."""
    records = program.records("steps", script, change, policy)
    last, unkept = records[-1], len(search.unkept_end()) if search.wanted else records[-1]["unkept_count"]
    found = last["step_count"], last["failing_count"], last["unkept_count"]
    if found != (len(search.steps), failing, unkept) or any(it["kind"] == "change" for it in records):
        raise mstplan.Failed(f"`mstplan steps` doesn't find the order as it was found ({last}): this is a fault of {TOOL}")
    if last["cutting_count"]:
        tell(TOOL, f"{last['cutting_count']} steps cut some VLAN, which the policy doesn't forbid: `mstplan steps` tells")
    if unkept and not failing:
        tell(TOOL, f"lines of the policy that aren't kept in the end: {unkept}; `mstplan steps` tells")
    return unkept


# ---- the command


def words_of():
    parser = argparse.ArgumentParser(description=__doc__, epilog=STATUSES, formatter_class=argparse.RawDescriptionHelpFormatter,
                                     usage="%(prog)s [options] PROGRAM FILE CHANGE POLICY\n       %(prog)s [options] PROGRAM FILE --edits NEW POLICY")
    parser.add_argument("program", metavar="PROGRAM", help="mstplan, or a file that runs it")
    parser.add_argument("script", metavar="FILE", help="the network's script; one of the files may be - for standard input")
    parser.add_argument("files", metavar="CHANGE POLICY", nargs="+", help="the steps, and what none of them is to break")
    parser.add_argument("--edits", metavar="NEW", help="in place of CHANGE: the script of the network that is wanted")
    parser.add_argument("--by", choices=("part", "line"), default="part", help="of --edits: a step for each bridge and LAN, or each line")
    parser.add_argument("--fewest", action="store_true", help="where each order breaks the policy, one with the fewest steps that do")
    parser.add_argument("--most", metavar="N", type=natural, default=MOST, help=f"how many networks are looked at at most ({MOST})")
    words = parser.parse_intermixed_args()
    if len(words.files) != (1 if words.edits else 2):
        parser.error("FILE CHANGE POLICY, or FILE --edits NEW POLICY")
    return words


def searched(program, words, network, change, policy, wanted, names):
    """The steps of a change, and what a search of them has found: itself, the order, and how many of its steps fail."""
    steps, unread = steps_of(program, network, change)
    if unread:
        write("".join(["none\n", *(f"nowhere line {it['line']} {it['error']} {it['text']}\n" for it in unread)]))
        return None
    judge = Judge(program, policy, network, words.most, names)
    with program.standing(network) as standing:
        search = Search(standing, judge, steps, wanted)
        search.wanted = search.wanted or search.given_end()
        if search.wanted is None:
            tell(TOOL, "in the given order a line is refused, so each end is taken")
        try:
            before = reason_of(judge.unkept(network, [], not steps))
            if before:
                tell(TOOL, f"the network doesn't keep the policy before the change: {before}")
            for it in judge.unread:
                tell(TOOL, told_of(it, names))
            return search, *search.run(words.fewest)
        finally:
            tell(TOOL, f"{len(judge.verdicts)} networks looked at, {search.tried} steps tried, {time.monotonic() - search.began:.1f} s")


def main():
    words, files = words_of(), Files()
    program = mstplan.Program(words.program)
    script = files.bytes_of(words.script)
    change, policy = files.bytes_of(words.edits or words.files[0]), files.bytes_of(words.files[-1])
    names = Names(script, change)
    network, lines = program.saved(script)
    refused, wanted = tell_refused(TOOL, words.script, lines), None
    if words.edits:
        new, lines = program.saved(change)
        refused = tell_refused(TOOL, words.edits, lines) or refused
        wanted = End(new, [mstplan.line_of(it) for it in program.records("edits", network, new)[1:]])
        change = cut(wanted.edits, words.by)
    try:
        found = searched(program, words, network, change, policy, wanted, names)
    except Stopped:
        raise mstplan.Failed(f"{words.most} networks are looked at, and it isn't known whether there is an order; --most takes more") from None
    if found is None or found[1] is None:
        write("".join(f"{it}\n" for it in found[0].told_none()) if found else "")
        return TOLD
    search, order, failing = found
    text = printed(order, mstplan.is_second(mstplan.lines_in(change)), failing, names)
    unkept = judged(program, network, text, policy, failing, search)
    write(text)
    return TOLD if failing or unkept or refused or search.judge.unread else OK


if __name__ == "__main__":
    guarded(TOOL, main)
