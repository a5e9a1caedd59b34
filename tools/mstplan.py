"""Runs mstplan, and reads what it prints: in texts, in lines of JSON, and standing, one question after another.

The tools beside the program share it. Where the program can't be run, ends with a fault, or prints what isn't an answer, `Failed` says so:
a tool tells that as a fault of its own. What records say is told as texts have it, and lines of scripts are read here, too.
"""

import contextlib
import json
import os
import re
import subprocess
import tempfile

# The statuses of an answer: all is as wanted, or something is told that isn't, or is refused. All others are faults.
WANTED, TOLD = 0, 1
MOST_OF_A_MESSAGE = 300
# Of a script's words those that say its version, those that ask, and, of each priority, which word it is and how version 2 counts it.
SECOND, ASKING, PRIORITIES = [b"mstplan", b"2"], (b"mark", b"changes", b"save", b"digest"), {b"settreeprio": (3, 4096), b"settreeportprio": (4, 16)}
LONGEST = 4096
# How an answer's records begin and stand beside each other, and how much is read of it at a time.
RECORDS, BETWEEN, PIECE = b'"records":[', b'},{"kind":', 1 << 20


class Failed(Exception):
    """The program gave no answer; the text says which words it was asked with, and what it said."""


class Refused(Failed):
    """The program has refused a question, by this number and with this text."""

    def __init__(self, question, error, text):
        super().__init__(f"{question}: {error} {text}")
        self.error, self.text = error, text


class Program:
    """A program that answers as mstplan does. Scripts are bytes, and reach it by files."""

    def __init__(self, path):
        self.path = path

    def failed(self, words, why):
        return Failed(f"{self.path} {' '.join(words)}: {why}")

    def ran(self, *words, given=b""):
        """One run, with both its outputs and its status, whatever it is. `given` is its standard input."""
        try:
            return subprocess.run([self.path, *words], input=given, capture_output=True, check=False)
        except OSError as fault:
            raise Failed(f"{self.path}: {fault.strerror}") from fault

    def run(self, *words, given=b"", statuses=(WANTED, TOLD)):
        """Standard output of one run, as bytes, and its status, which is one of these."""
        ran = self.ran(*words, given=given)
        if ran.returncode not in statuses:
            raise self.failed(words, ended(ran.returncode, ran.stderr))
        return ran.stdout, ran.returncode

    def text(self, *words):
        """What it prints of words that it has no reason to refuse, such as --help."""
        return self.run(*words, statuses=(WANTED,))[0].decode(errors="replace")

    def version(self):
        return self.text("--version").strip()

    def value(self, words, line):
        """What stands in a line of an answer in JSON."""
        try:
            value = json.loads(line)
        except ValueError as fault:
            raise self.failed(words, f"the answer isn't JSON: {fault}") from fault
        if not isinstance(value, dict):
            raise self.failed(words, f"a line of the answer is no object: {value}")
        return value

    def values(self, word, *words, given=b""):
        """What stands in each line that it prints in JSON."""
        return [self.value([word], line) for line in self.run(word, "--json", *words, given=given)[0].splitlines()]

    def records(self, word, *files, words=()):
        """The records of what a word of the program's answers of these files, which are bytes; `words` are those behind the files, as those of
        explain and advise. Raises Refused where the question isn't answered."""
        with contextlib.ExitStack() as paths:
            values = self.values(word, "--", *(paths.enter_context(written(file)) for file in files), *map(str, words))
        answers, unanswered = [it["records"] for it in values if "records" in it], [it for it in values if "query" in it and "error" in it]
        if unanswered and not answers:
            raise Refused(" ".join(map(str, [word, *words])), unanswered[0]["error"], unanswered[0]["text"])
        if len(answers) != 1:
            raise self.failed([word], f"{len(answers)} answers in place of one")
        return answers[0]

    def saved(self, script):
        """The network of a script as `save` has it, and the script's refused lines."""
        with self.standing(script) as standing:
            return standing.saved(), standing.refused

    @contextlib.contextmanager
    def standing(self, script, policy=None):
        """The program as it stands with the network of a script, and answers one line after another; `verify` by this policy."""
        with written(script) as path, written(policy or b"") as judged_by, tempfile.TemporaryFile() as errors:
            words = [self.path, "ask", "--json", path, *[judged_by] * (policy is not None)]
            try:
                started = subprocess.Popen(words, stdin=subprocess.PIPE, stdout=subprocess.PIPE, stderr=errors)
            except OSError as fault:
                raise Failed(f"{self.path}: {fault.strerror}") from fault
            with started as ran:
                yield Standing(self, ran, errors)


class Standing:
    """A program that stands with a script's network. It is asked in lines, and ends what it tells of each by the line `done`."""

    def __init__(self, program, ran, errors):
        self.program, self.ran, self.errors = program, ran, errors
        # The lines of the script that are refused.
        self.refused = [it for it in self.told("its script") if "error" in it]

    def told(self, asked):
        """What it tells up to the next `done`: a dictionary of each line."""
        words, told = ["ask"], []
        for line in self.ran.stdout:
            value = self.program.value(words, line)
            if value.get("kind") != "done":
                told.append(value)
            elif value.get("status") in (WANTED, TOLD):
                return told
            else:
                raise self.program.failed(words, f"{asked}: status {value.get('status')}")
        status = self.ran.wait()
        self.errors.seek(0)
        raise self.program.failed(words, f"{asked}: {ended(status, self.errors.read())}")

    def send(self, line):
        with contextlib.suppress(BrokenPipeError):
            os.write(self.ran.stdin.fileno(), f"{line}\n".encode())

    def ask(self, line):
        """What it tells of a line."""
        self.send(line)
        return self.told(line)

    def records(self, line):
        """The records of its answer to a line, one after another as they come: a large answer is nowhere whole."""
        self.send(line)
        head, found, text = self.ran.stdout.readline(PIECE).partition(RECORDS)
        if not found:
            raise self.program.failed(["ask"], f"{line}: no answer, but {head.decode(errors='replace')[:MOST_OF_A_MESSAGE]}")
        while not text.endswith(b"\n"):
            whole = text.rfind(BETWEEN)
            if whole >= 0:
                yield from self.listed(line, text[:whole + 1])
                text = text[whole + 2:]
            piece = self.ran.stdout.readline(PIECE)
            if not piece:
                self.told(line)
            text += piece
        yield from self.listed(line, text.rstrip()[:-2])
        self.told(line)

    def listed(self, line, text):
        try:
            return json.loads(b"[%b]" % text)
        except ValueError as fault:
            raise self.program.failed(["ask"], f"{line}: the answer isn't JSON: {fault}") from fault

    def answer(self, line):
        """The records of its answer to a line."""
        told = self.ask(line)
        if len(told) == 1 and "error" in told[0]:
            raise Refused(line, told[0]["error"], told[0]["text"])
        if len(told) != 1 or "records" not in told[0]:
            raise self.program.failed(["ask"], f"{line}: no answer, but {str(told)[:MOST_OF_A_MESSAGE]}")
        return told[0]["records"]

    def make(self, edit):
        """Changes the network. Raises Refused where the edit is refused, and nothing has changed then."""
        told = self.ask(edit)
        if len(told) == 1 and "error" in told[0]:
            raise Refused(edit, told[0]["error"], told[0]["text"])
        if told:
            raise self.program.failed(["ask"], f"{edit}: {str(told)[:MOST_OF_A_MESSAGE]}")

    def saved(self):
        """The network as `save` has it."""
        return script_of(self.answer("save"))


def ended(status, said):
    """How a program ended, and what it said."""
    return f"exit status {status}: {said.decode(errors='replace').strip()[:MOST_OF_A_MESSAGE] or 'nothing is told'}"


@contextlib.contextmanager
def written(script):
    """The path of a file that has a script, as long as it is needed."""
    with tempfile.TemporaryDirectory() as folder:
        path = os.path.join(folder, "script")
        with open(path, "wb") as file:
            file.write(script)
        yield path


# ---- records as texts have them


def reason_in(record, names=None):
    """What `verify` prints of a promise behind its number and its place. With `names` (interfaces.Names) ports have theirs beside them."""
    if record["kind"] == "policy":
        return f"{record['error']} {record['text']}"
    it = {key: list_told(value, names) for key, value in record.items()}
    word, tree = it["expectation"], it.get("tree")
    if word == "root":
        behind = f" next {it['next']}" if "next" in it else f" of {it['bridge_count']}" if "bridge_count" in it else ""
        return f"root {tree} {it['root']}{behind}"
    if word == "fits":
        return note_in(it)
    return {
        "region": "region parts {parts}", "role": "role {tree} {ports} {role}", "reach": "reach {vids} parts {parts}",
        "together": "together {vids} parts {parts}", "apart": "apart {vids} joined {joined}",
        "leaves": "leaves {vids} joined {joined}", "leaf": "leaf {tree} {bridge} parent of {bridges}", "depth": "depth {tree} {depth} {bridges}",
        "hops": "hops {vids} {hop_count} {bridges}", "via": "via {vids} by {bridges}",
        "carries": "carries {lan} without {vids}", "avoids": "avoids {lan} with {vids}",
    }[word].format(**it)


def note_in(it):
    """The line of a limit that binds."""
    if it["note"] == "cost":
        return f"note cost {it['tree']} {it['bridge']} {'ext' if 'ext' in it else 'int'} {it.get('ext', it.get('int'))}"
    tree = f" {it['tree']}" if it["note"] == "hops" else ""
    return f"note {it['note']}{tree} {it['bridge']} depth {it['depth']} limit {it['limit']}"


def lines_of_step(record):
    """The numbers of the first and of the last line of a step, as the text has them."""
    return "{}-{}".format(*record["lines"])


def list_told(value, names=None):
    """A value of a record as a text has it: names and ports with `,` between, parts with spaces, VIDs as runs."""
    if value is None:
        return "-"
    if not isinstance(value, list):
        return value
    if all(isinstance(it, list) for it in value):
        is_of_runs = all(isinstance(number, int) for it in value for number in it)
        return list_of(value) if is_of_runs else " ".join(map(",".join, value))
    return ",".join(port_of(it, names) if isinstance(it, dict) else it for it in value)


def port_of(record, names=None):
    bridge, number = record["bridge"], record["port"]
    return names.port(bridge, number) if names else f"{bridge}:{number}"


def list_of(runs):
    """VIDs by their runs: a list of these, of which the empty one is an empty text."""
    return ",".join(f"{first}-{last}" if first < last else str(first) for first, last in runs)


def listed(vids):
    """VIDs as a list of their longest runs, of which the empty one is an empty text."""
    runs = []
    for vid in sorted(vids):
        if runs and runs[-1][1] == vid - 1:
            runs[-1][1] = vid
        else:
            runs.append([vid, vid])
    return list_of(runs)


def line_of(record):
    """A record of `save` or of `edits` as the line of a script that it stands for."""
    return " ".join(str(list_told(value)) for key, value in record.items() if key != "vids" or "vlans" not in record)


def script_of(records):
    """The script whose lines these records of `save` or of `edits` stand for."""
    return "".join(f"{line_of(it)}\n" for it in records).encode()


# ---- lines of scripts


def words_in(line):
    return re.split(rb"[ \t]+", line.strip(b" \t"))


def lines_in(script):
    """A script's lines, without their ends."""
    return [line.removesuffix(b"\r") for line in script.split(b"\n")]


def is_second(lines):
    """Whether a script is of version 2."""
    return len(lines[0]) <= LONGEST and words_in(lines[0]) == SECOND


def edit_in(line, newer):
    """A line of a script as a text, where it is an edit, and else None: it is blank or a comment, it asks, or says the version. Its
    priorities are written for a script that is newer by so many versions, 1 to -1."""
    words = words_in(line)
    if not words[0] or words[0].startswith((b"#", b"show")) or words[0] in ASKING or words == SECOND:
        return None
    at, size = PRIORITIES.get(words[0], (0, 1))
    if newer and at:
        words[at] = b"%d" % (int(words[at]) * size if newer > 0 else int(words[at]) // size)
    return b" ".join(words).decode()
