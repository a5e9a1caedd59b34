#!/usr/bin/env python3
"""Work in parts (tools/parallel.py), for tools.py: what it prints is what the program prints as one, byte for byte, with its status and its
hints; at a terminal it says how far it is, and who stops it stops what it runs.

usage: parallel_runs.py PROGRAM [COUNT] [FIRST]    (so many networks, or 100; tools.py takes fewer)

Networks and policies are drawn by their numbers. The exit status is 1 where something differs.
"""

import concurrent.futures
import itertools
import os
import signal
import subprocess
import sys
import tempfile
import time

TOP = os.path.join(os.path.dirname(os.path.abspath(__file__)), os.pardir)
TOOLS, SAMPLES = os.path.join(TOP, "tools"), os.path.join(TOP, "examples")
# nothing is to be left beside what is imported
sys.dont_write_bytecode = True
sys.path.append(TOOLS)

import promise_parts  # noqa: E402
import sketch  # noqa: E402
import terminals  # noqa: E402
import verify_runs  # noqa: E402

COUNT, IN_THE_GATE = 100, 4
PARALLEL = os.path.join(TOOLS, "parallel.py")
SCOPES = [b"", b"always ", b"always ", b"\talways\t ", b"finally always ", b"finally "]
SCOPES += [b"after lan * ", b"after bridge * ", b"after lan L*,L1 ", b"after risk * "]
AS_ONE = b"parallel.py: the policy has no line with always to cut, and verify runs as one\n"
# Lines that say nothing, that can't be read or that name what isn't there, and long ones.
ODD = [b"", b"# always fits", b"always", b"always always fits", b"always finally fits", b"finally always", b"always fits x", b"always root 0",
       b"always  fits\r",
       b"always root 0 none_such", b"always root 77 A", b"always reach 0 *", b"always together 1-9 none*", b"always reach 10 n\xffo*", b"always roots 0",
       b"always fits" + b" " * 4085, b"always fits" + b" " * 4086, b"always together 1-4094 " + b",".join([b"*"] * 900), b"after lan none fits",
       b"risk", b"risk hall bridge", b"risk -hall bridge *", b"risk hall lan *,", b"risk hall port *", b"risk hall bridge * x", b"always risk hall bridge *",
       b"\trisk  hall\tbridge  A* ", b"risk hall lan *" + b" " * 4082, b"after risk hall fits"]


def written(folder, name, data):
    path = os.path.join(folder, name)
    with open(path, "wb") as file:
        file.write(data)
    return path


def ran(*words, given=b""):
    its = subprocess.run(words, input=given, capture_output=True, check=False)
    return its.returncode, its.stdout, its.stderr


def differing(program, what, words, given=b"", jobs=3):
    """What differs of one call."""
    wanted, (*found, errors) = ran(program, *words, given=given), ran(sys.executable, PARALLEL, program, "-j", str(jobs), *words, given=given)
    found = (*found, errors.replace(AS_ONE, b"") if "verify" in words else errors)
    return [] if wanted == found else [f"{what} {' '.join(words)}: {found} in place of {wanted}"[:2000]]


def policy_of(program, script, draws):
    text = sketch.text_of(program, script)
    every = [it.encode() for it in verify_runs.lines_of(verify_runs.Judged(text, text))]
    other = [it.encode() for it in verify_runs.lines_of(verify_runs.Judged(sketch.text_of(program, sketch.drawn(draws.below(1000))), text))]
    lines = [draws.one_of(SCOPES) + draws.one_of(every) for _ in range(8)] + [draws.one_of(SCOPES) + draws.one_of(other) for _ in range(4)]
    lines += [draws.one_of(ODD) for _ in range(draws.below(4))]
    lines[draws.below(3):0] = [it.encode() for it in verify_runs.drawn_risks(text, draws)[0]] if draws.below(2) else []
    return b"\n".join(draws.one_of([lines, lines[::-1], lines[:3]]) + [b""] * draws.below(2))


def faults_of(program, number):
    script, draws = sketch.drawn(number), sketch.Draws(number + 2 * 10**6)
    policy, text = policy_of(program, script, draws), "\n".join([*script, ""]).encode()
    flags = draws.one_of([[], ["--json"], ["--hints"], ["--json", "--hints"]])
    part = draws.one_of([[], ["1/1"], ["2/3"], ["pairs"], ["pairs"], ["pairs", "02/5"]])
    with tempfile.TemporaryDirectory() as folder:
        paths = [written(folder, *it) for it in (("script", text), ("policy", policy))]
        faults = differing(program, f"network {number}", ["sweep", *flags, paths[0], *part])
        return faults + differing(program, f"network {number}, {policy}", ["verify", *flags, *paths])


def faults_of_words(program):
    """What differs of the samples, of standard input, of pipes, and of words that have no parts or are wrong."""
    campus, changed, policy = (os.path.join(SAMPLES, it) for it in ("campus.script", "campus-changed.script", "campus.policy"))
    with open(changed, "rb") as file:
        given = file.read()
    calls = [["sweep", campus], ["sweep", "--json", changed], ["sweep", "-"], ["sweep", "-", "pairs"], ["sweep", os.devnull]]
    calls += [["verify", "--", "-", policy], ["verify", "-", "-"], ["verify", campus, policy], ["verify", "--json", changed, policy]]
    calls += [["verify", changed, os.devnull], ["verify", os.devnull, policy]]
    faults = itertools.chain.from_iterable(differing(program, "words", its, given) for its in calls)
    as_one = [["summary", campus], ["sweep", campus, "2/1"], ["verify", "/nonexistent", policy], ["sweep"], ["verify", campus]]
    as_one += [["sweep", "--jsno", campus], ["sweep", "/"], []]
    for its in as_one:
        wanted, found = ran(program, *its), ran(sys.executable, PARALLEL, program, *its)
        said = b"parallel.py: %b has no parts here, and runs as one\n" % its[0].encode() if its else b""
        faults = [*faults, *([] if (wanted[0], wanted[1], said + wanted[2]) == found else [f"{its}: {found} in place of {wanted}"])]
    piped = f"'{sys.executable}' '{PARALLEL}' '{program}' verify --json <(cat '{changed}') <(cat '{policy}')"
    if AS_ONE not in ran(sys.executable, PARALLEL, program, "verify", campus, os.devnull)[2]:
        faults.append("a policy that isn't cut isn't told")
    return faults + ([] if ran("bash", "-c", piped)[:2] == ran(program, "verify", "--json", changed, policy)[:2] else ["pipes as files"])


# ---- at a terminal


def slow_program(program, folder):
    """A file that runs PROGRAM after a while, and leaves its number in a folder as long as it runs."""
    text = f'#!/bin/sh\ncase $1 in ask) ;; *) echo $$ > "{folder}/$$"; sleep "$WAIT" ;; esac\nexec "{program}" "$@"\n'
    path = written(folder, "slow", text.encode())
    os.chmod(path, 0o755)
    return path


def runs(number):
    try:
        os.kill(number, 0)
    except ProcessLookupError:
        return False
    return True


def stopped(words, folder, env, number):
    """What is wrong where a signal stops it while parts run."""
    with subprocess.Popen(words, stdin=subprocess.DEVNULL, stdout=subprocess.PIPE, stderr=subprocess.PIPE, env=env) as its:
        until = time.monotonic() + 60
        while time.monotonic() < until and sum(it.isdecimal() for it in os.listdir(folder)) < 2:
            time.sleep(0.02)
        its.send_signal(number)
        out, errors = its.communicate()
    left = [it for it in os.listdir(folder) if it.isdecimal() and runs(int(it))]
    is_right = (its.returncode, out, errors, left) == (3, b"", b"parallel.py: stopped\n", [])
    return [] if is_right else [f"signal {number}: {its.returncode}, {out[:80]}, {errors[-200:]}, {left} run still"]


def faults_of_terminal(program):
    """What is wrong with the line of the progress, and with who stops."""
    campus, policy = (os.path.join(SAMPLES, it) for it in ("campus.script", "campus.policy"))
    faults = []
    with tempfile.TemporaryDirectory() as folder:
        slow = slow_program(program, folder)
        words = [sys.executable, PARALLEL, slow, "-j", "2", "sweep", campus]
        status, out, shown = terminals.shown(words, "stderr", env={**os.environ, "WAIT": "1.3"})
        is_told = shown.startswith(b"\r\x1b[Ksweep: 0 of 2 parts, 0:0") and shown.endswith(b"\r\x1b[K") and b"\n" not in shown
        if (status, out) != ran(program, "sweep", campus)[:2] or not is_told:
            faults.append(f"progress: {status}, {out[-80:]}, {shown}")
    for number, its in ((signal.SIGINT, ["sweep", campus]), (signal.SIGTERM, ["verify", campus, policy])):
        with tempfile.TemporaryDirectory() as folder:
            words = [sys.executable, PARALLEL, slow_program(program, folder), "-j", "2", *its]
            faults += stopped(words, folder, {**os.environ, "WAIT": "50"}, number)
    return faults + faults_of_faults(program, campus)


def faults_of_faults(program, campus):
    """What is wrong where a part ends by a signal or has a fault, and where who reads goes."""
    faults = []
    with tempfile.TemporaryDirectory() as folder:
        for text, said in (("kill -9 $$", "exit status -9"), ("echo out of memory >&2; exit 3", "exit status 3: out of memory")):
            path = written(folder, "fails", f"#!/bin/sh\n{text}\n".encode())
            os.chmod(path, 0o755)
            status, out, errors = ran(sys.executable, PARALLEL, path, "sweep", campus)
            if (status, out) != (3, b"") or said.encode() not in errors:
                faults.append(f"{text}: {status}, {out}, {errors}")
    closed = f"set -o pipefail; '{sys.executable}' '{PARALLEL}' '{program}' sweep '{campus}' | true"
    return faults + ([] if ran("bash", "-c", closed) == (0, b"", b"") else ["who reads goes"])


def faults_of_names(_program):
    """What is wrong with long lists of names: no line is longer than one may be, and each name stands once, but for the promise's own."""
    names = [b"lan-%05d" % it for it in range(3000)]
    promise = promise_parts.promise_in(1, b"always carries lan-00007 1-4094" + b" " * 60)
    events = promise_parts.Events(b"".join(b"addlan %b\n" % it for it in names), [])
    lines = promise.after(b"lan", [name for _, name in events.of(promise, events.all)])
    found = [name for line in lines for name in line.split()[2].split(b",")]
    is_right = found == [it for it in names if it != b"lan-00007"] and max(map(len, lines)) <= 4096 and len(lines) < 9
    return [] if is_right else [f"names: {len(lines)} lines of {len(found)} names"]


def check(program, count, first=0):
    """What differs, of so many networks."""
    with concurrent.futures.ThreadPoolExecutor(os.cpu_count()) as pool:
        found = pool.map(lambda number: faults_of(program, number), range(first, first + count))
        return list(itertools.chain.from_iterable(found))


if __name__ == "__main__":
    sketch.check_drawn(check, COUNT, "networks: as one prints", __doc__)
