"""Which line of a script made a network break promises, for ci.py: of the edits from the network before to that of the script the one behind
which a promise isn't kept any more, and the line of the script that says so.

Edits are made in the order of `mstplan edits`, as one who knows the halves of a list looks for a word: where a promise is kept behind half of
them, the other half is looked at. An edit may have no line: then it is the place where a line was taken away.
"""

import difflib

import mstplan
from interfaces import Names
from judged import Place
from risks import is_of_risk

# How many words behind its own say what a line is about, and which line an edit takes back.
ABOUT = {b"settreeprio": 2, b"settreeportprio": 3, b"settreeportcost": 3}
OF_A_BRIDGE = (b"addbridge", b"bridge", b"kind", b"addlan", b"lan", b"speed", b"setsyspri", b"setmstconfid", b"setvid2mstid", b"setmaxhops", b"setmaxage")
TAKEN_BACK = {b"unplug": b"plug", b"delport": b"addport", b"dellan": b"addlan", b"delbridge": b"addbridge"}


class Standing:
    """A network on the way from one to another: so many of the edits are made."""

    def __init__(self, asked, edits):
        self.asked, self.edits, self.made = asked, edits, 0

    def unkept(self, count, numbers):
        """Which of these lines of the policy aren't kept behind so many edits."""
        if self.made > count:
            self.asked.ask(f"undo {self.made - count}")
        for edit in self.edits[self.made:count]:
            self.asked.make(edit)
        self.made = count
        return {it["line"] for it in self.asked.answer("verify") if it["kind"] in ("fails", "policy")} & numbers


def first_edits(standing, first, last, numbers):
    """Of each line of the policy that is kept behind `first` edits, and isn't behind `last`, an edit that does it, by its place."""
    if not numbers or last - first <= 1:
        return dict.fromkeys(numbers, first)
    middle = (first + last) // 2
    broken = standing.unkept(middle, numbers)
    return {**first_edits(standing, first, middle, broken), **first_edits(standing, middle, last, numbers - broken)}


def about(words):
    """What a line is about: the command that it is or takes back, and the names behind it."""
    word = TAKEN_BACK.get(words[0], words[0])
    return (word, *words[1:1 + (1 if word in OF_A_BRIDGE else ABOUT.get(word, 2))])


def edits_in(script):
    """The edits of a script by the numbers of their lines, as a script of version 2 has them."""
    lines = mstplan.lines_in(script)
    newer = 1 - mstplan.is_second(lines)
    for number, line in enumerate(lines, start=1):
        try:
            edit = mstplan.edit_in(line, newer)
        except (ValueError, IndexError):
            continue
        if edit:
            yield number, mstplan.words_in(edit.encode())


def changed_lines(old, new):
    """By number lines of the new script that the old one hasn't, and, by the number of the line that stands there now, those that are gone."""
    before, after = mstplan.lines_in(old), mstplan.lines_in(new)
    added, gone, length = set(), {}, len(after) - (not after[-1])
    for _, first, last, start, end in (it for it in difflib.SequenceMatcher(None, before, after, autojunk=False).get_opcodes() if it[0] != "equal"):
        added |= set(range(start + 1, end + 1))
        gone |= {number: max(min(start + 1, length), 1) for number in range(first + 1, last + 1)}
    return added, gone


class Lines:
    """The lines of a script, and where each edit is said there, with what its port is called."""

    def __init__(self, old, new, path):
        self.path, self.lines, self.before = path, mstplan.lines_in(new), mstplan.lines_in(old)
        self.edits, self.old_edits = list(edits_in(new)), list(edits_in(old))
        self.added, self.gone = changed_lines(old, new)
        self.names = Names(old, new)

    def place(self, edit):
        """Where an edit is said, or None."""
        words = mstplan.words_in(edit.encode())
        same = [number for number, its in self.edits if its == words]
        similar = [number for number, its in self.edits if number in self.added and about(its) == about(words)]
        removed = [number for number, its in self.old_edits if number in self.gone and about(its) == about(words)]
        if same or similar:
            number = (same or similar)[-1]
            return Place(self.path, number, number, self.shown(self.lines[number - 1]))
        if removed:
            number = self.gone[removed[-1]]
            return Place(self.path, number, number, self.shown(self.before[removed[-1] - 1]), True)
        return None

    def shown(self, line):
        return self.names.edit(" ".join(line.decode(errors="replace").split()))


def edits_between(program, old, new):
    """The edits that make the new network of the old one, as lines of the old script's version."""
    with mstplan.written(old) as before, mstplan.written(new) as after:
        text = program.run("edits", "--", before, after)[0]
    lines = text.partition(b"mstplan 2\n")[2].splitlines()
    newer = mstplan.is_second(mstplan.lines_in(old)) - 1
    return [it.decode() for it in lines], [mstplan.edit_in(it, newer) for it in lines]


def places(program, scripts, path, policy, numbers):
    """By number of a line of the policy, which the old network keeps and the new one doesn't, where in the new script that was done."""
    old, new = scripts
    edits, lines = edits_between(program, old, new)
    kept = b"\n".join(line if number in numbers or is_of_risk(line) else b"" for number, line in enumerate(mstplan.lines_in(policy), start=1))
    with program.standing(old, kept) as asked:
        broken = first_edits(Standing(asked, lines), 0, len(lines), set(numbers))
    said = Lines(old, new, path)
    found = {number: said.place(edits[at]) for number, at in broken.items() if at < len(edits)}
    return {number: place for number, place in found.items() if place}
