#!/usr/bin/env python3
"""Runs what mstplan has parts of on all processors, and prints what one process prints, byte for byte, with its exit status.

`sweep FILE`, `sweep FILE pairs` and their parts K/N are cut into parts of the failures or of the pairs. Of `verify FILE POLICY` the lines
with `always`, which are looked at after each failure, are cut by failures; the risks of the policy are one part, and all other lines are one. Flags
stand as ever. Other words, `sweep FILE POLICY`, and a policy without such lines, have no parts: a line on standard error says so, and they run as
one. At a terminal standard error tells how far it is. Each input is read once, before PROGRAM runs.

For example: parallel.py mstplan sweep campus.script pairs
"""

import argparse
import contextlib
import os
import re
import sys
import tempfile
from dataclasses import dataclass

sys.dont_write_bytecode = True

import mstplan  # noqa: E402
import promise_parts  # noqa: E402
from command import STATUSES, Files, guarded, natural, tell, write  # noqa: E402
from running import Calls, tell_errors  # noqa: E402

TOOL = "parallel.py"
JSON, HINTS, PAIRS = "--json", "--hints", "pairs"
# A part is of so many failures at least, where each processor has one; it is one of so many at most of all, and of each processor.
LEAST_FAILURES, MOST_PARTS, MOST_OF_A_PROCESSOR = 64, 65536, 16
PART = re.compile(r"([0-9]{1,10})/([0-9]{1,10})")
MAKES_FAILURE = re.compile(rb"^[ \t]*(?:addlan|addbridge)[ \t]", re.MULTILINE)
# What the last line of a sweep counts, in a text and in JSON, and how its other lines and records stand.
COUNTS = {False: re.compile(rb"sweep (?:lans ([0-9]+) bridges|pairs) ([0-9]+) cuts ([0-9]+)\n"),
          True: re.compile(rb'\{"kind":"sweep",(?:"lan_count":([0-9]+),"bridge_count"|"pair_count"):([0-9]+),"cut_count":([0-9]+)\}\]\}\n')}
REFUSED = {False: re.compile(rb"(?:line [^\n]*\n)*"), True: re.compile(rb'(?:\{"line":[^\n]*\n)*')}
HEAD = {False: re.compile(rb""), True: re.compile(rb'[^\n]*?"records":\[')}
# How far in front of the last "sweep" its record begins.
BEFORE_KIND = len('{"kind":"')
PART_TOLD = re.compile(rb'"part":[0-9]+,"part_count":[0-9]+,')


@dataclass
class Asked:
    """Words of the program: what it is asked, the flags, and what stands behind, of which files are first."""
    word: str
    flags: list
    words: list

    @property
    def is_json(self):
        return JSON in self.flags


def processors():
    """How many this process may use."""
    return len(os.sched_getaffinity(0)) if hasattr(os, "sched_getaffinity") else os.cpu_count() or 1


def words_of():
    """PROGRAM, how many run at a time, and the words of PROGRAM: all that stand behind it, but for -j N as the first."""
    parser = argparse.ArgumentParser(description=__doc__, epilog=STATUSES, formatter_class=argparse.RawDescriptionHelpFormatter,
                                     usage="%(prog)s PROGRAM [-j N] WORD ..")
    parser.add_argument("program", metavar="PROGRAM", help="mstplan, or a file that runs it; behind it stand its words")
    jobs = "how many run at a time; as many as there are processors without it"
    parser.add_argument("-j", "--jobs", metavar="N", type=natural, default=processors(), help=jobs)
    words = sys.argv[1:]
    at = 3 if words[1:2] in (["-j"], ["--jobs"]) else 2 if re.match("-j.|--jobs=", "".join(words[1:2])) else 1
    front = parser.parse_args(words[:at])
    return front.program, max(front.jobs, 1), words[at:]


def asked_of(words):
    at = words.index("--") if "--" in words else len(words)
    flags = [it for it in words[:at] if it.startswith("-") and it != "-"]
    word, *others = [it for it in words[:at] if it not in flags] + words[at + 1:] or [""]
    return Asked(word, flags, others)


# ---- sweeps


@dataclass
class Sweep:
    """A sweep that is asked for: of pairs, or of single failures, and which part of it."""
    is_of_pairs: bool
    number: int
    count: int

    def parts(self, script, jobs):
        """The words behind FILE of each part that it is cut into."""
        failures = len(MAKES_FAILURE.findall(script))
        looked_at = (failures * (failures - 1) // 2 if self.is_of_pairs else failures) // self.count
        most = max(jobs, min(looked_at // LEAST_FAILURES, jobs * MOST_OF_A_PROCESSOR))
        parts = max(min(most, MOST_PARTS // self.count), 1)
        first = (self.number - 1) * parts
        return [[PAIRS] * self.is_of_pairs + [f"{first + it}/{parts * self.count}"] for it in range(1, parts + 1)]


def sweep_of(words):
    """The sweep that the words behind FILE ask for, or None where they ask for none."""
    is_of_pairs = words[:1] == [PAIRS]
    rest = words[is_of_pairs:]
    found = PART.fullmatch(rest[0] if rest else "1/1")
    number, count = (int(it) for it in found.groups()) if found and len(rest) < 2 else (0, 0)
    return Sweep(is_of_pairs, number, count) if 1 <= number <= count <= MOST_PARTS else None


class Joined:
    """What the parts of a sweep print, put together as they come."""

    def __init__(self, its, is_json):
        self.its, self.is_json, self.counts, self.is_begun = its, is_json, (0, 0, 0), False

    def add(self, printed):
        """What is to be written of a part."""
        refused = REFUSED[self.is_json].match(printed)[0]
        head = HEAD[self.is_json].match(printed, len(refused))
        last = COUNTS[self.is_json].search(printed, max(printed.rfind(b"sweep") - BEFORE_KIND, 0))
        if head is None or last is None:
            raise mstplan.Failed("a part of the sweep isn't what a sweep prints")
        self.counts = tuple(had + int(its or 0) for had, its in zip(self.counts, last.groups()))
        front = b"" if self.is_begun else refused + PART_TOLD.sub(self.part(), head[0])
        self.is_begun = True
        return front + printed[head.end():last.start()]

    def part(self):
        return b"" if self.its.count == 1 else b'"part":%d,"part_count":%d,' % (self.its.number, self.its.count)

    def last(self):
        lans, others, cuts = self.counts
        if self.is_json:
            counted = b'"pair_count":%d' % others if self.its.is_of_pairs else b'"lan_count":%d,"bridge_count":%d' % (lans, others)
            return b'{"kind":"sweep",%b,"cut_count":%d}]}\n' % (counted, cuts)
        return b"sweep %b %d cuts %d\n" % (b"pairs" if self.its.is_of_pairs else b"lans %d bridges" % lans, others, cuts)


def run_sweep(asked, its, script, calls):
    """Writes what the parts print, one after another: the status."""
    path, put, status = calls.written("script", script), Joined(its, asked.is_json), mstplan.WANTED
    words = [["sweep", *asked.flags, "--", path, *part] for part in its.parts(script, calls.jobs)]
    with contextlib.closing(calls.ended(words)) as ended:
        for number, part in enumerate(ended):
            if number == 0:
                tell_errors(part.errors)
            write(put.add(part.printed))
            status = max(status, part.status)
    write(put.last())
    return status


# ---- the command


def contents_of(paths):
    """What the files hold, standard input once; or None where one can't be read, which PROGRAM tells."""
    files = Files()
    try:
        return [b"" if path == "-" and files.reads_input else files.bytes_of(path) for path in paths]
    except OSError:
        return None


def run_as_one(path, words, asked):
    """Leaves all to PROGRAM."""
    if asked.word:
        tell(TOOL, f"{asked.word} has no parts here, and runs as one")
    os.execvp(path, [path, *words])


def main():
    path, jobs, words = words_of()
    asked = asked_of(words)
    its = sweep_of(asked.words[1:]) if asked.word == "sweep" and asked.words else None
    is_policy = asked.word == "verify" and len(asked.words) == 2
    has_parts = (its or is_policy) and set(asked.flags) <= {JSON, HINTS}
    files = contents_of(asked.words[:1 + is_policy]) if has_parts else None
    if files is None:
        return run_as_one(path, words, asked)
    with tempfile.TemporaryDirectory() as folder:
        calls = Calls(path, folder, jobs, asked.word)
        if its:
            return run_sweep(asked, its, files[0], calls)
        return promise_parts.verify(asked.flags, files, calls)


if __name__ == "__main__":
    guarded(TOOL, main)
