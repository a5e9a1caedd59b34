#!/usr/bin/env python3
"""Reports for CI services (tools/ci.py), for tools.py: XML, annotations and JSON have just what `verify` prints, line by line; and the line of a
script or of a change that is told to break a promise is one behind whose edit, made as a step of its own, `steps` tells so.

usage: ci_runs.py PROGRAM [COUNT] [FIRST]    (so many networks, or 100; tools.py takes fewer)

Networks and policies are drawn by their numbers: lines that hold, that don't and that are refused. The exit status is 1 where something
differs.
"""

import concurrent.futures
import itertools
import json
import os
import re
import subprocess
import sys
import tempfile
import xml.etree.ElementTree

TOP = os.path.join(os.path.dirname(os.path.abspath(__file__)), os.pardir)
CI, SAMPLES = os.path.join(TOP, "tools", "ci.py"), os.path.join(TOP, "examples")
# nothing is to be left beside what is imported
sys.dont_write_bytecode = True

sys.path.append(os.path.join(TOP, "tools"))

import culprits  # noqa: E402
import sketch  # noqa: E402
import steps_runs  # noqa: E402
import verify_runs  # noqa: E402

COUNT, IN_THE_GATE = 100, 8
COUNTS = re.compile(r"verify expectations ([0-9]+) hold ([0-9]+)")
TOLD = re.compile(r"(line|policy|fails|same) ([0-9]+) (.*)")
# What a policy may have beside promises: one with marks that XML and annotations have to escape, and bytes that aren't ASCII.
ODD = [b"# a comment", b"", b"root 0 <b>&\"'%0A::error,file=x:", b"reach 10 n\xffo*", b"root 0", b"\tfits ", b"roots\r", b"finally  region *",
       b"together 1-9 *", b"risk hall bridge A,B", b"risk duct lan nope", b"after risk hall reach 1-20 *"]
# What fails together, and what is promised after that.
RISKS = ["risk hall bridge A,B", "after risk hall reach 1-20 *"]


def written(folder, name, data):
    path = os.path.join(folder, name)
    with open(path, "wb") as file:
        file.write(data)
    return path


def read(path):
    with open(path, "rb") as file:
        return file.read()


def ran(*words, given=b""):
    its = subprocess.run(words, input=given, capture_output=True, check=False)
    return its.stdout, its.returncode, its.stderr.decode()


def wanted_of(printed):
    """What `verify` tells in text: by (kind of file, line) its reasons, and the counts."""
    *lines, last = printed.decode().splitlines()
    found = {}
    for word, number, text in (TOLD.fullmatch(it).groups() for it in lines):
        text = f"the {word} after {text.split()[1]} failures" if word == "same" else text
        found.setdefault(("script" if word == "line" else "policy", max(int(number), 1)), []).append(text)
    return found, [int(it) for it in COUNTS.fullmatch(last).groups()]


def unescaped(text):
    return re.sub("%([0-9A-F]{2})", lambda it: chr(int(it[1], 16)), text)


def first(most, reasons):
    """So many of these reasons, and how many more there are."""
    return reasons[:most] + [f"and {len(reasons) - most} more"] * (len(reasons) > most)


def cases_in(path):
    """The test cases of XML by (file, line), with their reasons, and the counts that the suite tells."""
    suite = xml.etree.ElementTree.parse(path).getroot()[0]
    found = {}
    for case in suite:
        its = [line for child in case for line in (child.text or "").split("\n") if line]
        found[os.path.basename(case.get("file")), int(case.get("line"))] = its, [child.tag for child in case]
    return found, [int(suite.get(it)) for it in ("tests", "failures", "errors", "skipped")]


def differing(what, found, wanted):
    return [] if found == wanted else [f"{what}: {found} in place of {wanted}"]


def faults_of_run(program, what, script, policy):
    """What differs, of one network and a policy."""
    with tempfile.TemporaryDirectory() as folder:
        paths = [written(folder, *it) for it in (("script", script), ("policy", policy))]
        report, quality = (os.path.join(folder, it) for it in ("report.xml", "quality.json"))
        printed, status, _ = ran(program, "verify", *paths)
        lines, _, _ = ran(program, "verify", "--json", *paths)
        words = ["-", paths[1], "--script", paths[0], "--junit", report, "--gitlab", quality, "--github"]
        text, told, error = ran(sys.executable, CI, *words, given=lines)
        wanted, counts = wanted_of(printed)
        if told != status or error:
            return [f"{what}: status {told} in place of {status}, {error}"]
        cases, (tests, failures, errors, skipped) = cases_in(report)
        broken = {place: its for place, (its, _) in cases.items() if its}
        issues = json.loads(read(quality))
    faults = differing(f"{what} XML", broken, wanted)
    tags = [tag for _, its in cases.values() for tag in its]
    faults += differing(f"{what} counts", (tests, failures, errors, skipped), (len(cases), *map(tags.count, ("failure", "error", "skipped"))))
    kept = [place for place, (_, its) in cases.items() if not its]
    faults += differing(f"{what} end", [len(kept) + failures, len(kept)], counts)
    noted = [re.match("::error file=(.*),line=([0-9]+),title=[^:,]*::(.*)", it) for it in text.decode().splitlines() if it.startswith("::")]
    annotated = {(os.path.basename(unescaped(it[1])), int(it[2])): unescaped(it[3]).split("\n")[1:] for it in noted}
    faults += differing(f"{what} annotations", annotated, {place: first(5, its) for place, its in wanted.items()})
    places = {(os.path.basename(it["location"]["path"]), it["location"]["lines"]["begin"]) for it in issues}
    faults += differing(f"{what} issues", (places, len({it["fingerprint"] for it in issues})), (set(wanted), len(wanted)))
    behind = [f"    {it}" for place in sorted(wanted) for it in first(200, wanted[place])[5:]]
    told = [it for it in text.decode().splitlines() if not it.startswith("::")]
    return faults + differing(f"{what} told", told, [*behind, f"{counts[1]} of {counts[0]} promises are kept"])


def faults_of(program, number):
    script, draws = sketch.drawn(number), sketch.Draws(number + 10**6)
    text = sketch.text_of(program, script)
    every = [it.encode() for it in verify_runs.lines_of(verify_runs.Judged(text, text))]
    lines = [draws.one_of([b"", b"always "]) + draws.one_of(every) for _ in range(8)] + [draws.one_of(ODD) for _ in range(4)]
    return faults_of_run(program, f"network {number}", "\n".join([*script, ""]).encode(), b"\n".join([*lines, b""]))


# ---- what did it


def broken_by(told):
    """By line of the policy the steps behind which it isn't kept and was before, of what `steps` prints."""
    found, unkept, step = {}, set(), 0
    for line in told.decode().splitlines():
        word, number, *_ = [*line.split(), "", ""]
        if word == "step":
            step = int(number)
        elif word in ("fails", "policy"):
            if int(number) not in unkept and step:
                found.setdefault(int(number), []).append(step)
            unkept.add(int(number))
        elif word == "mends":
            unkept.discard(int(number))
    return found


def done_by(text):
    """By line of the policy the places that are told to break it, and what stands there."""
    lines, found = text.decode().splitlines(), {}
    for line, behind in zip(lines, lines[1:]):
        head, place = re.match(r"\S*policy:(\d+): ", line), re.match(r"    by [a-z]+:(\d+)(?:-(\d+))?: (.*)", behind)
        if head and place:
            found[int(head[1])] = int(place[1]), int(place[2] or place[1]), place[3]
    return found


def changed(draws, script):
    """A script with some lines gone and some more, of settings."""
    lines = [it for it in script if not it.startswith(("add", "plug")) and draws.below(8) == 0]
    kept = [it for it in script if it not in lines]
    bridges = [it.split()[1] for it in script if it.startswith("addbridge")]
    return kept + [sketch.settings(draws, bridges) for _ in range(1 + draws.below(6))]


def faults_of_base(program, number):
    """What differs of a script beside the one before."""
    old, draws = sketch.drawn(number), sketch.Draws(number + 4 * 10**6)
    text = sketch.text_of(program, old)
    # `steps` judges what is meant to leave in the last network alone, so it doesn't say which edit broke that
    promises = [it for it in verify_runs.lines_of(verify_runs.Judged(text, text)) if not it.startswith("leaves ")]
    policy = "\n".join(["root 0 none", *promises, *RISKS, ""]).encode()
    scripts = ["\n".join([*it, ""]).encode() for it in (old, changed(draws, old))]
    with tempfile.TemporaryDirectory() as folder:
        paths = [written(folder, *it) for it in (("old", scripts[0]), ("new", scripts[1]), ("policy", policy))]
        out, status, error = ran(sys.executable, CI, "--run", program, "--base", paths[0], *paths[1:], "--markdown", os.path.join(folder, "md"))
        edits = ran(program, "edits", *paths[:2])[0].partition(b"mstplan 2\n")[2].splitlines()
        change = written(folder, "change", b"mstplan 2\n\n" + b"\n\n".join(edits) + b"\n")
        broken = broken_by(ran(program, "steps", paths[0], change, paths[2])[0])
        now, wanted, _ = ran(program, "verify", *paths[1:])
        found, kept = done_by(out), unkept_in(now) - unkept_in(ran(program, "verify", paths[0], paths[2])[0])
        faults = differing(f"network {number}, status", (status, error), (wanted, ""))
    said = culprits.Lines(*scripts, "new")
    for line in kept | set(found):
        wanted = [said.place(edits[step - 1].decode()) for step in broken.get(line, ())]
        places = [it and (it.first, it.last, it.text + " is gone" * it.is_gone) for it in wanted]
        if found.get(line) not in places:
            faults.append(f"network {number}: line {line} is broken by {found.get(line)} in place of {places}")
    return faults


def unkept_in(printed):
    return {int(it) for it in re.findall(r"^(?:fails|policy) ([0-9]+) ", printed.decode(), re.MULTILINE)}


def faults_of_steps(program, number):
    """What differs of a change in steps: which step breaks a line, and the status."""
    script, change = sketch.drawn(number), steps_runs.drawn_change(number)
    policy = "\n".join([*steps_runs.POLICY, *RISKS, "roots", "root 0 none", ""]).encode()
    with tempfile.TemporaryDirectory() as folder:
        paths = [written(folder, name, "\n".join([*lines, ""]).encode()) for name, lines in (("script", script), ("change", change))]
        paths.append(written(folder, "policy", policy))
        words = ["--change", paths[1], paths[0], paths[2], "--markdown", os.path.join(folder, "md")]
        out, status, error = ran(sys.executable, CI, "--run", program, *words)
        told, wanted, _ = ran(program, "steps", *paths)
    lines = {int(it[0]): (int(it[1]), int(it[2])) for it in re.findall(r"^step (\d+) lines (\d+)-(\d+)", told.decode(), re.MULTILINE)}
    firsts = {line: lines[steps[0]] for line, steps in broken_by(told).items()}
    faults = differing(f"change {number}, status", (status, error), (wanted, ""))
    return faults + differing(f"change {number}", {line: its[:2] for line, its in done_by(out).items()}, firsts)


# ---- texts that are compared


def faults_of_recipe(program):
    """What differs of the lines of USING that make a report, under `bash -e`: they come to the report, and the status is 1."""
    page = read(os.path.join(TOP, "docs", "USING.md")).decode()
    lines = re.search(r"\n    \$ (mstplan verify --json .*)\n    \$ (python3 tools/ci.py .*)\n", page).groups()
    with tempfile.TemporaryDirectory() as folder:
        for name in ("examples", "tools"):
            os.symlink(os.path.abspath(os.path.join(TOP, name)), os.path.join(folder, name))
        its = subprocess.run(["bash", "-ec", "\n".join([f"mstplan() {{ '{program}' \"$@\"; }}", *lines])], cwd=folder, capture_output=True, check=False)
        is_there = os.path.exists(os.path.join(folder, "report.xml"))
    return differing("the recipe", (is_there, its.returncode, its.stderr), (True, 1, b""))


def faults_of_words(program):
    """What differs of the samples, of a policy that says nothing, and of what is no answer."""
    script, changed, policy = (read(os.path.join(SAMPLES, it)) for it in ("campus.script", "campus-changed.script", "campus.policy"))
    faults = []
    for what, its in (("kept", (script, policy)), ("not kept", (changed, policy)), ("nothing", (script, b"# nothing\n")), ("refused", (b"no\n" + script, policy))):
        faults += faults_of_run(program, what, *its)
    path = os.path.join(SAMPLES, "campus.policy")
    answer, _, _ = ran(program, "verify", "--json", os.path.join(SAMPLES, "campus.script"), os.path.join(SAMPLES, "keep.policy"))
    for what, lines in (("no answer", b""), ("no JSON", b"verify expectations 1 hold 1\n"), ("of another policy", answer), ("half an answer", answer[:40])):
        faults += differing(what, ran(sys.executable, CI, "-", path, given=lines)[:2], (b"", 3))
    both = ["--run", program, "--base", path, "--change", path, path, path]
    for its in (["-"], ["--base", path, "-", path], both, ["-", path, "--markdown", "-", "--github"]):
        faults += differing("words", ran(sys.executable, CI, *its)[1], 2)
    return faults + faults_of_recipe(program) + faults_of_samples(program)


# What is annotated of the campus beside its change, and of a change in steps.
OF_CAMPUS = b"""::error file=campus-changed.script,line=29,title=mstplan verify%3A not kept::campus.policy:2: root 0 core1 next core2%0Anow root 0 core2 of 6
::error file=campus-changed.script,line=98,title=mstplan verify%3A not kept::campus.policy:10: always reach 1-4094 *%0Alan dist1-acc2 reach 1-9,11-19,21-4094 parts acc1,core1,core2,dist1,dist2 acc2%0Abridge dist1 reach 1-9,11-19,21-4094 parts acc1,core1,core2,dist2 acc2
14 of 16 promises are kept
"""
OF_WORSE = b"""::error file=worse.change,line=6,endLine=8,title=mstplan verify%3A not kept::keep.policy:2: root 0 core1%0Abehind step 3 now root 0 core2 of 6
::error file=worse.change,line=8,title=mstplan verify%3A refused::8: refused line%0AE04 no such bridge
::error file=worse.change,line=2,title=mstplan verify%3A not kept::2: step 1%0Ait cuts VLANs 1-9,11-19,21-4094
1 of 2 promises are kept
"""
SUMMARY = b"""**14 of 16 promises of campus.policy are kept**

| Line | What is said there | Since | Why it isn't so |
|---|---|---|---|
| campus.policy&#58;2 | root 0 core1 next core2 | campus-changed.script&#58;29&#58; settreeprio core2 0 1 | now root 0 core2 of 6 |
"""


def faults_of_samples(program):
    """What differs of what a service gets of the samples, and where a script can't be kept from being read as mark-up."""
    faults, told = [], []
    base, change = ["--base", "campus.script", "campus-changed.script", "campus.policy"], ["--change", "worse.change", "campus.script", "keep.policy"]
    for words, wanted in ((base, OF_CAMPUS), (change, OF_WORSE)):
        in_samples = {"cwd": SAMPLES, "capture_output": True, "check": False}
        its = subprocess.run([sys.executable, CI, "--run", program, *words, "--github"], **in_samples)
        faults += differing(f"annotations {words}", (its.stdout, its.returncode, its.stderr), (wanted, 1, b""))
        told.append(subprocess.run([sys.executable, CI, "--run", program, *words, "--markdown", "-"], **in_samples).stdout)
    parts = [SUMMARY, b"**What the change does**: regions 0, roots 1, ports 6, vlans 0\n", b"bridge dist1: cut 1-9,11-19,21-4094 parts", b"7 lines of diff"]
    faults += [f"the summary hasn't {it}" for it in parts if it not in told[0]] + ["the summary of steps"] * (b"cutting 1 failing 1" not in told[1])
    with tempfile.TemporaryDirectory() as folder:
        base, lines = os.path.join(SAMPLES, "campus.script"), read(os.path.join(SAMPLES, "campus.script")).splitlines(keepends=True)
        at = lines.index(b"plug acc2 1 dist1-acc2\n") + 1
        script = written(folder, "net", b"".join(lines[:at - 1] + lines[at:]))
        out, status, _ = ran(sys.executable, CI, "--run", program, "--base", base, script, os.path.join(SAMPLES, "campus.policy"), "--github")
        told = f"::error file={script},line={at},title=mstplan verify%3A not kept::net:{at}: plug acc2 1 dist1-acc2 is gone%0Acampus.policy:".encode()
        faults += [] if status == 1 and out.startswith(told) else [f"a line that is gone: {status}, {out}"]
        policy = written(folder, "policy", b"root 0 <b>|`*_[x](y)</b>&\n")
        out, status, _ = ran(sys.executable, CI, "--run", program, os.path.join(SAMPLES, "campus.script"), policy, "--markdown", "-")
    row = out.split(b"|---|")[1].split(b"\n**Single")[0].replace(b"<br>", b"")
    return faults + ([] if status == 1 and not re.search(rb"[<`*\[]", row) else [f"mark-up: {out}"])


def check(program, count, first=0):
    """What differs, of so many networks."""
    with concurrent.futures.ThreadPoolExecutor(os.cpu_count()) as pool:
        checks = (faults_of, faults_of_base, faults_of_steps)
        found = pool.map(lambda number: [fault for its in checks for fault in its(program, number)], range(first, first + count))
        return list(itertools.chain.from_iterable(found))


if __name__ == "__main__":
    sketch.check_drawn(check, COUNT, "networks: as `verify` tells", __doc__)
