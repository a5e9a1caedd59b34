"""What fails together by the lines of a policy in a network, for tools that look at each risk by itself."""

import re

import mstplan

LAN, BRIDGE, RISK = b"lan", b"bridge", b"risk"
PLAIN = re.compile(rb"[\t -~]*")
NAME = re.compile(rb"[A-Za-z0-9][A-Za-z0-9_.-]{0,15}")
ITEM = re.compile(rb"(?:%b\*?|\*)" % NAME.pattern)


def is_of_risk(line):
    """Whether a line of a policy begins as one that says what fails together."""
    return mstplan.words_in(line)[:1] == [RISK]


def read(line):
    """The name of a risk, LAN or BRIDGE, and items of names; or None of a line that says nothing of a risk, or that can't be read."""
    words = mstplan.words_in(line)
    if len(line) > mstplan.LONGEST or not PLAIN.fullmatch(line) or len(words) != 4 or words[0] != RISK or words[2] not in (LAN, BRIDGE):
        return None
    items = words[3].split(b",")
    return (words[1], words[2], items) if NAME.fullmatch(words[1]) and all(map(ITEM.fullmatch, items)) else None


def has(item, name):
    """Whether an item, a name or the beginning of names with `*` behind, has a name."""
    return name.startswith(item[:-1]) if item.endswith(b"*") else name == item


def risks_in(lines, names, failing):
    """The risks of these lines, by their first lines, each with what fails: pairs of LAN or BRIDGE and a name. `names` are those that a network
    has of each kind, `failing` those that can fail. A line with an item that has no name there adds nothing, and no risk is without a failure."""
    risks = {}
    for name, kind, items in filter(None, map(read, lines)):
        if all(any(has(item, it) for it in names[kind]) for item in items):
            risks.setdefault(name, set()).update((kind, it) for it in failing[kind] if any(has(item, it) for item in items))
    return {name: those for name, those in risks.items() if those}
