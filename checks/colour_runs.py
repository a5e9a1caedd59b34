#!/usr/bin/env python3
"""Colours at a terminal (tools/colour.py), for tools.py: without them the text is what the program prints, byte for byte, and so it is where there
is no terminal; roles and what isn't as wanted have some.

usage: colour_runs.py PROGRAM [COUNT] [FIRST]    (so many networks, or 50; tools.py takes fewer)

Networks are drawn by their numbers. The exit status is 1 where something differs.
"""

import itertools
import os
import re
import subprocess
import sys
import tempfile

TOP = os.path.join(os.path.dirname(os.path.abspath(__file__)), os.pardir)
COLOUR, SAMPLES = os.path.join(TOP, "tools", "colour.py"), os.path.join(TOP, "examples")
# nothing is to be left beside what is imported
sys.dont_write_bytecode = True

import sketch  # noqa: E402
import terminals  # noqa: E402

COUNT, IN_THE_GATE = 50, 2
ESCAPE = re.compile(rb"\x1b\[[0-9;]*m")
IN_COLOUR = re.compile(rb"\x1b\[[1-9][0-9;]*m([^\x1b]*)\x1b\[0m")
ROLE_AT_END = re.compile(rb"^port .* (Root|Designated|Alternate|Backup|Master|Disabled)$", re.MULTILINE)
# Words of the samples, and what is to have a colour of what they print.
CASES = [
    (["verify", "campus-changed.script", "campus.policy"], [b"fails 2", b"fails 10", b"fails 10"]),
    (["sweep", "campus-changed.script"], [b"cut 1-9,11-19,21-4094"] * 4 + [b"cuts 2"]),
    (["sweep", "campus.script"], []),
    (["explain", "campus.script", "dist1", "2", "0"], [b"Alternate"]),
    (["explain", "campus.script", "none", "2"], [b"explain E04 no such bridge"]),
    (["diff", "campus.script", "campus-changed.script"], None),
    (["steps", "campus.script", "worse.change", "keep.policy"],
     [b"cut 1-9,11-19,21-4094"] * 2
     + [b"joined 1-9,11-19,21-4094", b"turns", b"change 8 E04 no such bridge", b"turns", b"fails 2", b"cutting 1", b"failing 1", b"unkept 1"]),
    (["summary", "campus.script"], [b"blocked"] * 3),
    (["summary", "--json", "campus.script"], []),
    (["dot", "campus.script", "0"], []),
    (["run", "absent"], []),
]


def ran(*words, env=None, given=b""):
    its = subprocess.run(words, input=given, capture_output=True, check=False, cwd=SAMPLES, env=env)
    return its.returncode, its.stdout, its.stderr


def coloured(*words):
    return ran(sys.executable, COLOUR, "--always", *words)


def at_terminal(words, env):
    """What a terminal gets of standard output, with its ends of lines as they were, and the status."""
    status, _, got = terminals.shown(words, "stdout", cwd=SAMPLES, env=env)
    return got.replace(b"\r\n", b"\n"), status


def plain_faults(program, what, words):
    """What differs of one call but for colours; and the words that have one."""
    wanted, (status, out, errors) = ran(program, *words), coloured(program, *words)
    faults = [] if (status, ESCAPE.sub(b"", out), errors) == wanted else [f"{what}: {status}, {out[:300]}, {errors}"]
    return faults, IN_COLOUR.findall(out), wanted[1]


def faults_of(program, number):
    """What differs of a drawn network: each role has a colour, and nothing else of a tree has."""
    script = [*sketch.drawn(number), "showtree 0", "nonsense", "mark", "changes", "showplan"]
    with tempfile.TemporaryDirectory() as folder:
        path = os.path.join(folder, "script")
        with open(path, "w", encoding="ascii") as file:
            file.write("\n".join(script) + "\n")
        faults, found, text = plain_faults(program, f"network {number}", ["run", path])
        if sorted(it for it in found if not it.startswith((b"line", b"note"))) != sorted(ROLE_AT_END.findall(text)):
            faults.append(f"network {number}: {found[:20]}")
        for words in (["sweep", path], ["sweep", path, "pairs"], ["summary", path], ["diff", path, os.devnull]):
            faults += plain_faults(program, f"network {number} {words}", words)[0]
    return faults


def faults_of_cases(program):
    """What differs of the samples, at a terminal, and of words that are wrong."""
    faults, environment = [], {it: text for it, text in os.environ.items() if it not in ("NO_COLOR", "TERM")}
    for words, wanted in CASES:
        differ, found, _ = plain_faults(program, words, words)
        faults += differ + ([] if wanted is None or found == wanted else [f"{words}: {found} in place of {wanted}"])
    words = [sys.executable, COLOUR, program, "verify", "campus-changed.script", "campus.policy"]
    told, shown = ran(*words[2:])[1], coloured(*words[2:])[1]
    plain, xterm = [{"TERM": "xterm", "NO_COLOR": "1"}, {"TERM": "dumb"}], [{"TERM": "xterm"}, {"TERM": "xterm", "NO_COLOR": ""}]
    for env, wanted in [*((it, told) for it in plain), *((it, shown) for it in xterm)]:
        found = at_terminal(words, {**environment, **env})
        faults += [] if found == (wanted, 1) else [f"at a terminal with {env}: {found}"]
    faults += [] if ran(*words) == ran(*words[2:]) else ["without a terminal"]
    odd = b"fails 1 now x\n\xff\x00port\r\nport A 1 Root -> Master\r\nfails 2 now y"
    faults += [] if ran(sys.executable, COLOUR, given=odd)[:2] == (0, odd) else ["what comes by standard input"]
    status, out, _ = ran(sys.executable, COLOUR, "--always", given=odd)
    told = status, ESCAPE.sub(b"", out), IN_COLOUR.findall(out)
    faults += [] if told == (0, odd, [b"fails 1", b"Root", b"Master", b"fails 2"]) else [f"standard input in colours: {out}"]
    faults += [] if ran(sys.executable, COLOUR, "--sometimes")[0] == 2 else ["wrong words"]
    return faults + ([] if ran(sys.executable, COLOUR, "--always", "/nonexistent/mstplan", "run")[0] == 3 else ["a program that isn't there"])


def check(program, count, first=0):
    """What differs, of so many networks."""
    return list(itertools.chain.from_iterable(faults_of(program, number) for number in range(first, first + count)))


if __name__ == "__main__":
    sketch.check_drawn(check, COUNT, "networks: the same but for colours", __doc__)
