#!/usr/bin/env python3
"""Colours what mstplan prints at a terminal: roles, what is cut and what isn't kept, refused lines, what is worth a look.

usage: colour.py [--always] PROGRAM WORD ..    (runs PROGRAM, whose status it has)
       colour.py [--always]                    (of what comes by standard input)

Standard output has the same text as without it. Where it is no terminal, or NO_COLOR is set, or TERM is dumb, not a byte is another one: then
PROGRAM runs as if it stood alone. With --always there are colours anywhere, for a pager. JSON has none.

For example: colour.py --always mstplan run campus.script | less -R
"""

import os
import re
import subprocess
import sys

sys.dont_write_bytecode = True

import mstplan  # noqa: E402
from command import OK, guarded  # noqa: E402

TOOL, ALWAYS = "colour.py", "--always"
PLAIN, BAD, GOOD, LOOK, DIM = b"\x1b[0m", b"\x1b[31m", b"\x1b[32m", b"\x1b[33m", b"\x1b[2m"
ROLES = {b"Root": b"\x1b[1;34m", b"Designated": b"\x1b[32m", b"Alternate": b"\x1b[33m", b"Backup": b"\x1b[33m", b"Master": b"\x1b[35m", b"Disabled": b"\x1b[2m"}
ROLE = b"(?:%b)" % b"|".join(ROLES)
PLACE = rb"(?:now|lan \S+|bridge \S+|risk \S+)"
# How a line begins, what of it has a colour, and which one: None is that of a role. A name can be any word, so only places of lines count.
RULES = [(re.compile(front), re.compile(part), style) for front, part, style in (
    (rb"(?:(?:old|new) )?line \d+ E|(?:change|policy) \d+ E|capture \d+ B|(?:explain|advise|path|dot) E", rb"^.+", BAD),
    (rb"capture \d+ \S+ (?!agrees)", rb"^capture \d+ \S+", BAD),
    (rb"fails \d+ ", rb"^fails \d+", BAD),
    (rb"mends \d+", rb"^.+", GOOD),
    (rb"same \d+ failures ", rb"^.+", DIM),
    (rb"cut \d", rb"^cut \S+", BAD),
    (rb"(?:lan \S+|bridge \S+|step \d+ lines \S+|does) roots ", rb"(?<= )cut \d\S*", BAD),
    (rb"(?:step \d+ lines \S+|does) roots ", rb"(?<= )joined \d\S*", GOOD),
    (rb"pair (?:lan|bridge) \S+ (?:lan|bridge) \S+ cut ", rb"(?<= )cut \d\S*$", BAD),
    (rb"(?:sweep|steps) (?:lans |pairs |\d)", rb"(?<= )(?:cuts|cutting|failing|unkept) [1-9]\d*", BAD),
    (rb"start unkept ", rb"^.+", BAD),
    (rb"(?:path \d+ \S+ \S+|lan \S+|bridge \S+) none$", rb"none$", BAD),
    (rb"path failures ", rb"(?<= )none [1-9]\d*$", BAD),
    (rb"(?:note|look|turns|restarts|because) |advise none$", rb"^[a-z]+(?: none)?", LOOK),
    (rb"blocked \d+ ", rb"^blocked", LOOK),
    (rb"port ", rb"(?<= )%b(?= -> |$)" % ROLE, None),
    (rb"explain \d+ ", rb"(?<= )%b$" % ROLE, None),
    (rb"boundary ", rb"(?<=^boundary )%b" % ROLE, None),
    (rb"fails \d+ %b role " % PLACE, rb"(?<= )%b$" % ROLE, None),
)]


def coloured(line):
    """A line with its colours, which change nothing else of it."""
    end = line.rstrip(b"\r\n")
    spans = sorted((found.span(), style or ROLES[found[0]]) for front, part, style in RULES if front.match(end) for found in part.finditer(end))
    out, at = b"", 0
    for (first, last), style in spans:
        if first >= at:
            out += end[at:first] + style + end[first:last] + PLAIN
            at = last
    return out + end[at:] + line[len(end):]


def has_colours(is_always):
    """Whether standard output gets some."""
    if is_always:
        return True
    return sys.stdout is not None and sys.stdout.isatty() and not os.environ.get("NO_COLOR") and os.environ.get("TERM") != "dumb"


def copy(source, change):
    """Writes lines as they come, each as soon as it has ended."""
    out = sys.stdout.buffer
    for line in iter(source.readline, b""):
        out.write(change(line))
        out.flush()


def run(words):
    """Runs a program, with colours: its status."""
    with subprocess.Popen(words, stdout=subprocess.PIPE) as ran:
        copy(ran.stdout, coloured)
    return ran.returncode if ran.returncode >= 0 else 128 - ran.returncode


def main():
    words = sys.argv[1:]
    is_always = words[:1] == [ALWAYS]
    words = words[is_always:]
    if words[:1] in (["--help"], ["-h"]):
        print(__doc__.strip())
        return OK
    if words and words[0].startswith("-"):
        print(__doc__.splitlines()[2], file=sys.stderr)
        return 2
    if sys.stdout is None or not words and sys.stdin is None:
        raise mstplan.Failed("a standard device is closed")
    if words and has_colours(is_always):
        return run(words)
    if words:
        os.execvp(words[0], words)
    copy(sys.stdin.buffer, coloured if has_colours(is_always) else bytes)
    return OK


if __name__ == "__main__":
    guarded(TOOL, main)
