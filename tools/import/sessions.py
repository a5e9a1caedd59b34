"""Logs of sessions at switches, for cisco.py: what each `show` has printed, cut at the prompts.

What a switch prints may have a stranger's words in it, of which a line may look like a prompt. So a log has each command once, or with the
same text again; where it has one with other texts it isn't known which counts.
"""

import re
from dataclasses import dataclass

LOGS = (".log", ".txt")
# The commands that are read, by the ending of a file that has one's text alone; each of their words may be cut short. Their names for people.
COMMANDS = {
    "mst": "show spanning-tree mst", "config": "show running-config", "cdp": "show cdp neighbors detail", "lldp": "show lldp neighbors detail",
}
LEAST_LETTERS = 2
PROMPT = re.compile(r"([A-Za-z0-9][A-Za-z0-9_.-]*)(?:\([^()]*\))?[#>][ \t]*(.*)")
UNPAGED = re.compile(r"\s*\|\s*no-more\s*$")
MORE = re.compile(r"\s*<?-{2,} ?more ?-{2,}>?\s*", re.IGNORECASE)
# What moves a terminal's cursor, and what else it is told.
SEQUENCE = re.compile(r"\x1b\[[0-9;?]*([A-Za-z])|.", re.DOTALL)


@dataclass
class Said:
    """What a file, or a part of a log, says: the file's name, and its lines, each with its number there."""
    name: str
    lines: list[tuple[int, str]]

    @property
    def texts(self):
        return [line for _, line in self.lines]

    @property
    def place(self):
        """Where its first line stands."""
        return f"line {self.lines[0][0]}"


def whole(name, text):
    """What a file says that has one text alone."""
    return Said(name, [(number, line.rstrip("\r")) for number, line in enumerate(text.split("\n"), start=1)])


class Unread(Exception):
    """Why a log can't be read."""


def shown(line):
    """A line as a terminal shows it in the end: steps back, returns and erasing are carried out."""
    letters, at = [], 0
    for found in SEQUENCE.finditer(line.rstrip("\r")):
        its = found[0]
        if its in "\b\r":
            at = max(0, at - 1) if its == "\b" else 0
        elif found[1] == "K":
            del letters[at:]
        elif not found[1]:
            letters[at:at + 1] = [its]
            at += 1
    return "".join(letters).rstrip()


def ending_of(command):
    """The ending of the command that this one is, its words cut short or not, or None."""
    words = UNPAGED.sub("", command).lower().split()
    for ending, full in COMMANDS.items():
        pairs = list(zip(words, full.split()))
        if len(words) == len(full.split()) and all(len(word) >= LEAST_LETTERS and its.startswith(word) for word, its in pairs):
            return ending
    return None


def parts_of(name, text):
    """What each command of a log that is read has printed, in their order, as (ending, Said); nothing is none. The prompt is that of the first
    such command. A pager's mark that is a whole line is none of the text."""
    switch, found, its = None, [], None
    for number, line in enumerate(text.split("\n"), start=1):
        line = shown(line)
        more = MORE.match(line)
        if more and line[more.end():]:
            raise Unread(f"{name} line {number} has a pager's {more[0].strip()} in it: log with `terminal length 0`")
        if more:
            continue
        prompt = PROMPT.fullmatch(line)
        ending = ending_of(prompt[2]) if prompt else None
        if prompt and (prompt[1] == switch or ending and switch is None):
            switch, its = prompt[1], None
            if ending:
                its = []
                found.append((ending, its))
        elif its is not None:
            its.append((number, line))
    return [(ending, Said(name, lines)) for ending, lines in found if any(line for _, line in lines)]


def said(files):
    """What each host's files say, by host and ending: `files` are texts by name. And by host why its logs can't be read."""
    found, whys = {}, {}
    for name, text in sorted(files.items()):
        host, dot, ending = name.rpartition(".")
        try:
            for its, part in parts_of(name, text) if dot + ending in LOGS else [(ending, whole(name, text))]:
                other = found.setdefault((host, its), part)
                if other.texts != part.texts:
                    raise Unread(f"`{COMMANDS[its]}` is in {other.name} {other.place} and in {part.name} {part.place}, and not alike")
        except Unread as why:
            whys.setdefault(host, str(why))
    return found, whys
