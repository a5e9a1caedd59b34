#!/usr/bin/env python3
"""Tells a CI service which promises of a policy aren't kept: as JUnit's XML, as GitHub's annotations, as GitLab's code quality report, and as a
summary in Markdown.

usage: ci.py LINES POLICY [--script FILE] ..
       ci.py --run PROGRAM [--base OLD] FILE POLICY ..
       ci.py --run PROGRAM --change CHANGE FILE POLICY ..

LINES is what `mstplan verify --json FILE POLICY` has printed; with --run it is PROGRAM that judges the script FILE. Each line of the policy is
a test case, by its number and its words; why it isn't kept is its failure, and that it is refused its error; one that is judged in no network
(`together` without a scope) is skipped. Refused lines of FILE are errors, too, and so is a policy of which nothing was judged. With --base, the
script of the network before, what breaks a promise that it kept is told at the line of FILE that does it. With --change the steps of CHANGE
are judged, and told at the lines of the step that first breaks a promise or cuts a VLAN.

Without an option the same stands on standard output for people; with --github as annotations, and what has no room in one behind it. The
summary of --markdown is appended to its file, as of GitHub's job; with --run it has the difference, and the failures that cut a VLAN. Where FILE
is told and can be read, a port in a reason has what lines of FILE call it in brackets behind it (`# port acc1 2 is Te1/0/2`); names of cases are
the policy's own words. The status is that of `verify`, or of `steps` (take care that a pipe doesn't hide another one: an empty LINES is status 3).

For example: mstplan verify --json campus.script campus.policy | ci.py - campus.policy --script campus.script --junit report.xml
"""

import argparse
import hashlib
import json
import os
import sys
from dataclasses import dataclass
from typing import Optional
from xml.sax.saxutils import escape, quoteattr

sys.dont_write_bytecode = True

import culprits  # noqa: E402
import markdown  # noqa: E402
import mstplan  # noqa: E402
from command import OK, STATUSES, TOLD, Files, guarded, name_of, write  # noqa: E402
from interfaces import Names  # noqa: E402
from judged import ERROR, FAILURE, Stepped, Verified, printable, wrong_in  # noqa: E402

TOOL, USAGE = "ci.py", "\n\nusage: "
# How many reasons a report has of a line, and an annotation, and how many lines of a policy an annotation has.
MOST_REASONS, MOST_ANNOTATED, MOST_CASES = 200, 5, 10
TYPES = {FAILURE: "not kept", ERROR: "refused"}


def junit(verified, name):
    """The lines of JUnit's XML."""
    skipped = sum(it.is_skipped for it in verified.cases)
    counts = f'tests="{len(verified.cases)}" failures="{len(verified.wrong(FAILURE))}" errors="{len(verified.wrong(ERROR))}" skipped="{skipped}"'
    suite = quoteattr(printable(name))
    yield '<?xml version="1.0" encoding="UTF-8"?>'
    yield f'<testsuites name="mstplan verify" {counts}>'
    yield f"  <testsuite name={suite} {counts}>"
    for it in verified.cases:
        head = f'    <testcase classname={suite} name={quoteattr(it.title)} file={quoteattr(printable(it.path))} line="{it.line}"'
        if not it.reasons:
            yield f'{head}><skipped message="judged in no network"/></testcase>' if it.is_skipped else f"{head}/>"
            continue
        text = escape("\n".join(map(printable, it.texts(MOST_REASONS) + it.done_by())))
        yield f"{head}>"
        yield f"      <{it.kind} type={quoteattr(TYPES[it.kind])} message={quoteattr(printable(it.reasons[0].named))}>{text}</{it.kind}>"
        yield "    </testcase>"
    yield "  </testsuite>"
    yield "</testsuites>"


def escaped(text, marks="%\r\n"):
    """A text as a workflow command of GitHub takes it; as a property without `:` and `,` as well."""
    return "".join(f"%{ord(it):02X}" if it in marks else it for it in text)


def annotations(verified):
    """GitHub's workflow commands of the lines that aren't as wanted: one for each place, with all that is told there."""
    places = {}
    for case in verified.wrong():
        its = case.place
        places.setdefault((its.path, its.first, its.last, case.kind), []).append(case)
    for (path, first, last, kind), cases in places.items():
        lines = [cases[0].place.told()] * cases[0].place.is_gone
        lines += [line for case in cases[:MOST_CASES] for line in [title_of(case), *case.texts(MOST_ANNOTATED)]]
        lines += [f"and {len(cases) - MOST_CASES} lines more"] * (len(cases) > MOST_CASES)
        text = escaped("\n".join(map(printable, lines)))
        path, title = (escaped(printable(word), "%\r\n:,") for word in (path, f"mstplan verify: {TYPES[kind]}"))
        yield f"::error file={path},line={first}{f',endLine={last}' * (last > first)},title={title}::{text}"


def title_of(case):
    """What a case is called at another line than its own: with its file."""
    return f"{name_of(case.path)}:{case.title}" if case.done_by() else case.title


def quality(verified):
    """GitLab's code quality report."""
    return [{
        "description": printable(f"{it.title}: {'; '.join(it.texts(MOST_ANNOTATED))}"),
        "check_name": f"mstplan-verify-{TYPES[it.kind].replace(' ', '-')}",
        "fingerprint": hashlib.sha256("\n".join([it.path, it.title, *(its.plain for its in it.reasons)]).encode("utf-8", "backslashreplace")).hexdigest(),
        "severity": "major", "location": {"path": it.place.path, "lines": {"begin": it.place.first}},
    } for it in verified.wrong()]


def told(verified, is_annotated):
    """The same for people, or for GitHub: annotations, and behind them the reasons that have no room there."""
    if is_annotated:
        yield from annotations(verified)
    for it in verified.wrong():
        if not is_annotated:
            yield printable(f"{it.path}:{it.line}: {it.name}")
            yield from (printable(f"    {text}") for text in it.done_by())
        yield from (printable(f"    {text}") for text in it.texts(MOST_REASONS)[MOST_ANNOTATED * is_annotated:])
    yield f"{verified.counts[1]} of {verified.counts[0]} promises are kept"


# ---- what is judged


@dataclass
class Judged:
    """What is told of: the answer, and with --run what else the summary has: what PROGRAM prints of the change, the policy's cases before it, and
    the failures that cut, before and now."""
    answer: object
    change: str = ""
    before: Optional[list] = None
    sweeps: Optional[tuple] = None


def values_of(program, *words):
    return b"\n".join(json.dumps(it).encode() for it in program.values(*words))


def judged_of(program, words, files):
    """What PROGRAM says of a script: as it is, beside another one, or behind each step of a change."""
    script, policy = files.bytes_of(words.lines), files.bytes_of(words.policy)
    other = files.bytes_of(words.base or words.change) if words.base or words.change else b""
    with mstplan.written(script) as path, mstplan.written(policy) as judged_by, mstplan.written(other) as beside:
        if words.change:
            text = program.run("steps", "--", path, beside, judged_by)[0].decode()
            values, paths = program.values("steps", path, beside, judged_by), (words.script, words.change, words.policy)
            return Judged(Stepped(values, policy, paths, Names(script, other)), text)
        answer = Verified(values_of(program, "verify", path, judged_by), policy, words.policy, words.script, Names(script))
        swept = markdown.cuts_in(program.run("sweep", "--", path)[0].decode()) if words.markdown else {}
        if not words.base:
            return Judged(answer, sweeps=({}, swept))
        before = Verified(values_of(program, "verify", beside, judged_by), policy, words.policy, words.base, Names(other))
        place_culprits(program, (other, script), words.script, policy, answer, before)
        text = program.run("diff", "--", beside, path)[0].decode() if words.markdown else ""
        was = markdown.cuts_in(program.run("sweep", "--", beside)[0].decode()) if words.markdown else {}
        return Judged(answer, text, before.cases, (was, swept))


def place_culprits(program, scripts, path, policy, answer, before):
    """Tells of each line of the policy that the network before kept, and this one doesn't, what did it."""
    unkept_before = {it.line for it in before.wrong() if it.of_policy}
    cases = {it.line: it for it in answer.wrong() if it.of_policy and it.line not in unkept_before}
    for number, place in culprits.places(program, scripts, path, policy, set(cases)).items() if cases else ():
        cases[number].did = place


def words_of():
    usage, text = __doc__.split(USAGE)[1].split("\n\n", 1)
    parser = argparse.ArgumentParser(description=f"{__doc__.split(USAGE)[0]}\n\n{text}", usage=usage, epilog=STATUSES,
                                     formatter_class=argparse.RawDescriptionHelpFormatter)
    what = "what `mstplan verify --json FILE POLICY` has printed, or with --run the script FILE; - is standard input"
    parser.add_argument("lines", metavar="LINES", help=what)
    called = "what it calls ports; with --run FILE calls them so, and this is its name alone"
    parser.add_argument("policy", metavar="POLICY", help="the policy that was judged, by the name that it has in the repository")
    parser.add_argument("--run", metavar="PROGRAM", help="mstplan, or a file that runs it: it judges FILE")
    parser.add_argument("--base", metavar="OLD", help="with --run the script of the network before")
    parser.add_argument("--change", metavar="CHANGE", help="with --run a change of FILE in steps, in place of --base")
    parser.add_argument("--script", metavar="FILE", help=f"the network's script: its name, where its lines are told, and {called}")
    parser.add_argument("--markdown", metavar="MD", help="a file that a summary is appended to; - is standard output, as with --junit")
    parser.add_argument("--junit", metavar="XML", help="where JUnit's XML goes; - is standard output, with nothing else there")
    parser.add_argument("--gitlab", metavar="JSON", help="where GitLab's code quality report goes; - as with --junit")
    parser.add_argument("--github", action="store_true", help="GitHub's workflow commands on standard output, which annotate the files")
    words = parser.parse_args()
    reports = [words.junit, words.gitlab, words.markdown]
    if reports.count("-") + words.github > 1:
        parser.error("one thing goes to standard output: --junit -, --gitlab -, --markdown - or --github")
    if (words.base or words.change) and not words.run or words.base and words.change:
        parser.error("--base and --change stand with --run, one of them")
    # what ports are called is read of a file that is told, and of no other
    words.calling = words.script
    words.script = words.script or (words.lines if words.run else "script")
    return words


def names_of(path):
    """What a script calls ports, which is nothing where it can't be read."""
    if path is None or not os.path.isfile(path):
        return Names()
    with open(path, "rb") as file:
        return Names(file.read())


def put(path, text, mode="w"):
    if path == "-":
        write(text)
    else:
        with open(path, mode, encoding="utf-8") as file:
            file.write(text)


def main():
    words, files = words_of(), Files()
    if words.run:
        judged = judged_of(mstplan.Program(words.run), words, files)
    else:
        lines = files.bytes_of(words.lines)
        judged = Judged(Verified(lines, files.bytes_of(words.policy), words.policy, words.script, names_of(words.calling)))
    verified = judged.answer
    if words.junit:
        put(words.junit, "".join(f"{it}\n" for it in junit(verified, name_of(words.policy))))
    if words.gitlab:
        put(words.gitlab, json.dumps(quality(verified), indent=1) + "\n")
    if words.markdown:
        put(words.markdown, "".join(f"{it}\n" for it in markdown.summary(words, judged)), "a")
    if "-" not in (words.junit, words.gitlab, words.markdown):
        write("".join(f"{it}\n" for it in told(verified, words.github)))
    return TOLD if wrong_in(verified.cases) else OK


if __name__ == "__main__":
    guarded(TOOL, main)
