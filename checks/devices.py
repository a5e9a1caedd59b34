#!/usr/bin/env python3
"""Runs the built program on devices that fail behind each byte, and on texts that are cut off or damaged at each byte.

usage: devices.py PROGRAM

- A reader that fails: each input of each word is standard input in turn. It gives so many of its bytes and then an error. The status is 3, and
  standard error has a read fault. What was printed is a front of the whole; a run and questions print exactly what their complete lines print.
- A writer that fails: standard output takes so many bytes of the whole. It gets exactly these, the status is 3, and standard error has a write
  fault. Standard error fails in the same way while it gets hints; the run prints all.
- Damage: a script is cut off at each byte, and each byte is changed. The program reads it to its end, and reports want of memory for no line. The lines
  before print what they print alone, and captures behind it are compared. The same holds of damaged captures, and a whole capture behind each of
  them prints what it prints alone.

The exit status is 1 where that isn't so.
"""

import concurrent.futures
import functools
import multiprocessing
import os
import re
import resource
import socket
import subprocess
import sys
import tempfile

# nothing is to be left beside what is imported
sys.dont_write_bytecode = True

import line_runs  # noqa: E402

SECONDS = 60
# How many damaged captures a run reads.
AT_A_TIME = 30
READ_FAULT, WRITE_FAULT = b"mstplan: read fault\n", b"mstplan: write fault\n"

# Two bridges on a LAN. Its query is answered by a run alone, and its last line is refused.
SCRIPT = b"""addbridge A 02:00:00:00:00:01
addbridge B 02:00:00:00:00:02
addlan X
addport A 1
addport B 1
plug A 1 X
plug B 1 X
showtree 0
addlan X
"""
OTHER = b"addbridge A 02:00:00:00:00:01\nno\n"
CAPTURES = b"# none\n00\n0\n"
POLICY = b"root 0 B\nalways reach 1 *\n"
CHANGE = b"lan X down\n\nlan X up\nno\n"
QUESTIONS = b"mark\nlan X down\nchanges\nundo\nexplain B 1\nsweep\ndot 0\nsave\nverify\nno\n"
# Each word with what stands behind its inputs, and these.
WORDS = [
    (["run"], [], [SCRIPT]),
    (["run", "--json"], [], [SCRIPT]),
    (["check"], [], [SCRIPT, CAPTURES]),
    (["explain"], ["A", "1"], [SCRIPT]),
    (["sweep"], [], [SCRIPT]),
    (["summary"], [], [SCRIPT]),
    (["dot"], ["0"], [SCRIPT]),
    (["advise"], ["root", "0", "B"], [SCRIPT]),
    (["ask"], [], [SCRIPT, POLICY, QUESTIONS]),
    (["diff"], [], [SCRIPT, OTHER]),
    (["edits"], [], [SCRIPT, OTHER]),
    (["verify"], [], [SCRIPT, POLICY]),
    (["steps"], [], [SCRIPT, CHANGE, POLICY]),
]
# Words whose lines of this input print at once.
AT_ONCE = (("run", 0), ("ask", 2))
# A script of which each line has a hint.
SLIPS = b"addlna x\nlan x up\n"

# A region of two bridges, of which the second has a LAN for itself, with all its texts; and what its second bridge sends there, with a message of
# an MSTI that isn't planned.
REGION = line_runs.REGION + b"mark\nsetvid2mstid B 1 10\nchanges\nshowplan\n"
CAPTURE = line_runs.BEFORE + b"0050" + line_runs.BEHIND + line_runs.MESSAGE + b"\n"
DAMAGES = (b"\x00", b"\n", b"\x7f", b"\xff")
WANTS_MEMORY = re.compile(rb"[EB]99 ")
COMPARED = re.compile(rb"^capture (\d+) (.*)$", re.MULTILINE)


def ran(words, given):
    return subprocess.run(words, input=given, capture_output=True, timeout=SECONDS, check=False)


@functools.lru_cache(None)
def whole(line, given):
    """What is printed where no device fails."""
    told = ran(line, given)
    if told.returncode not in (0, 1) or told.stderr:
        raise ValueError(f"{line}: status {told.returncode}, {told.stderr[:200]!r}")
    return told.stdout


def lines(program, folder):
    """Each word with each of its inputs as standard input: the command line, its place, and what it reads."""
    for word, behind, inputs in WORDS:
        files = [os.path.join(folder, f"{place} of {word[0]}") for place in range(len(inputs))]
        for path, text in zip(files, inputs):
            with open(path, "wb") as file:
                file.write(text)
        for place, text in enumerate(inputs):
            named = ["-" if at == place else path for at, path in enumerate(files)]
            # Questions are standard input's, and aren't named.
            named = named[:2] if word == ["ask"] else named
            yield (program, *word, *named, *behind), place, text


# ---- devices that fail


def failing(text):
    """A device that gives this text and then an error: the other end is closed before it has read all that came."""
    ours, theirs = socket.socketpair()
    theirs.send(b"-")
    ours.sendall(text)
    ours.close()
    return theirs


def read_wrongly(line, place, text, size):
    """What is wrong where standard input fails behind so many bytes of this text."""
    complete = text[: text.rfind(b"\n", 0, size) + 1]
    with failing(text[:size]) as device:
        told = subprocess.run(line, stdin=device, capture_output=True, timeout=SECONDS, check=False)
    is_told = (told.returncode, told.stderr) == (3, READ_FAULT)
    if is_told and (line[1], place) in AT_ONCE and told.stdout == whole(line, complete):
        return None
    if is_told and (line[1], place) not in AT_ONCE and whole(line, text).startswith(told.stdout):
        return None
    return f"{line[1:]}, standard input fails behind {size} bytes: status {told.returncode}, {told.stdout[-200:]!r}, {told.stderr[:200]!r}"


def limited(line, given, device, size):
    """A run of which standard output, or standard error, is a file that takes so many bytes: its status, what came there, and the other one."""
    soft, hard = resource.getrlimit(resource.RLIMIT_FSIZE)
    with tempfile.TemporaryFile() as file:
        how = {"stdout": subprocess.PIPE, "stderr": subprocess.PIPE, device: file}
        # The signal of that limit is ignored here, and so it is in what is started.
        resource.setrlimit(resource.RLIMIT_FSIZE, (size, hard))
        try:
            running = subprocess.Popen(line, stdin=subprocess.PIPE, restore_signals=False, **how)
        finally:
            resource.setrlimit(resource.RLIMIT_FSIZE, (soft, hard))
        with running:
            outputs = running.communicate(given, timeout=SECONDS)
        file.seek(0)
        return running.returncode, file.read(), outputs[device == "stdout"]


def written_wrongly(line, given, text, size):
    """What is wrong where standard output takes so many bytes of this text."""
    told = limited(line, given, "stdout", size)
    if told == (3, text[:size], WRITE_FAULT):
        return None
    return f"{line[1:]}, standard output takes {size} bytes: status {told[0]}, {told[1][-200:]!r}, {told[2][:200]!r}"


def hinted_wrongly(line, given, printed, hints, size):
    """What is wrong where standard error takes so many bytes of these hints."""
    told = limited(line, given, "stderr", size)
    if told == (3, hints[:size], printed):
        return None
    return f"{line[1:]}, standard error takes {size} bytes: status {told[0]}, {told[1][-200:]!r}, {told[2][:200]!r}"


# ---- damage


def damaged(text):
    """The text cut off at each byte, and with each byte changed: each with the place."""
    for place in range(len(text)):
        yield place, text[:place]
        for damage in DAMAGES:
            yield place, text[:place] + damage + text[place + 1 :]


def script_wrongly(line, alone, place, text):
    """What is wrong where this text, damaged at the place, is read as a script, and a capture behind it."""
    told = ran(line, text)
    before = whole(alone, text[: text.rfind(b"\n", 0, place) + 1])
    is_read = told.returncode in (0, 1) and not told.stderr and not WANTS_MEMORY.search(told.stdout)
    if is_read and told.stdout.startswith(before) and COMPARED.search(told.stdout):
        return None
    return f"a script damaged at byte {place}: {text[max(place - 20, 0) : place + 20]!r}: status {told.returncode}, {told.stdout[-200:]!r}, {told.stderr[:200]!r}"


def captures_wrongly(line, texts):
    """What is wrong where these texts are read as captures, and behind each one that isn't damaged."""
    given = b"".join(text.rstrip(b"\n") + b"\n" + CAPTURE for text in texts)
    told, alone, answers = ran(line, given), COMPARED.findall(whole(line, CAPTURE)), {}
    for number, answer in COMPARED.findall(told.stdout):
        answers.setdefault(int(number), []).append(answer)
    whole_lines = [number for number, text in enumerate(given.split(b"\n"), 1) if text + b"\n" == CAPTURE]
    is_read = told.returncode in (0, 1) and not told.stderr and not WANTS_MEMORY.search(told.stdout)
    if is_read and len(whole_lines) >= len(texts) and all(answers.get(it) == [answer for _, answer in alone] for it in whole_lines):
        return None
    return f"{len(texts)} damaged captures: status {told.returncode}, {told.stdout[-200:]!r}, {told.stderr[:200]!r}"


# ---- all runs


def runs(program, folder):
    """Each run, as a function and what it takes."""
    for line, place, text in lines(program, folder):
        yield from ((read_wrongly, line, place, text, size) for size in range(len(text) + 1))
        if place == 0 or line[1] == "ask":
            told = whole(line, text)
            yield from ((written_wrongly, line, text, told, size) for size in range(len(told)))
    hinting = (program, "run", "--hints", "-")
    told = ran(hinting, SLIPS)
    yield from ((hinted_wrongly, hinting, SLIPS, told.stdout, told.stderr, size) for size in range(len(told.stderr)))
    capture, region = os.path.join(folder, "capture"), os.path.join(folder, "region")
    for path, text in ((capture, CAPTURE), (region, REGION)):
        with open(path, "wb") as file:
            file.write(text)
    of_script, alone = (program, "check", "-", capture), (program, "run", "-")
    yield from ((script_wrongly, of_script, alone, place, text) for place, text in damaged(REGION))
    for text in (REGION, CAPTURE):
        texts = [it for _, it in damaged(text)]
        yield from ((captures_wrongly, (program, "check", region, "-"), texts[at : at + AT_A_TIME]) for at in range(0, len(texts), AT_A_TIME))


def made(run):
    return run[0](*run[1:])


def main():
    if len(sys.argv) != 2:
        sys.exit(__doc__)
    program = os.path.abspath(sys.argv[1])
    # Processes, and not threads: how large a file may become is said of a whole process.
    with tempfile.TemporaryDirectory(prefix="devices-") as folder, concurrent.futures.ProcessPoolExecutor(mp_context=multiprocessing.get_context("fork")) as pool:
        found = list(pool.map(made, list(runs(program, folder)), chunksize=16))
    wrong = [it for it in found if it]
    print("".join(f"FAILED {it}\n" for it in wrong[:20]), end="")
    print(f"devices: {len(found)} runs, {len(wrong)} wrong")
    return 1 if wrong or not found else 0


if __name__ == "__main__":
    sys.exit(main())
