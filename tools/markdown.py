"""A summary of what a change does to a network and to its policy, in Markdown, for ci.py: of a job of GitHub, or a comment of GitLab."""

import re

from command import name_of
from judged import wrong_in

# How many rows and lines stand in it, so that it is short enough for a job's summary.
MOST_ROWS, MOST_LINES, MOST_REASONS = 50, 200, 3
MARKED = re.compile(r"[^\w ,.;/()+=?-]", re.ASCII)


def plain(text):
    """A text that is no mark-up, whatever it says."""
    return MARKED.sub(lambda it: f"&#{ord(it[0])};", text)


def cut_short(rows, most, others):
    """Rows, so many of them at most, and how many there are more."""
    rows = list(rows)
    return rows[:most] + [others.format(len(rows) - most)] * (len(rows) > most)


def folded(title, lines):
    """Lines as they are printed, below a line that opens them."""
    if lines:
        yield from ("", f"<details><summary>{plain(title)}</summary>", "", "```text")
        yield from (*cut_short(lines, MOST_LINES, "and {} lines more"), "```", "", "</details>")


def cuts_in(swept):
    """What `sweep` prints of each failure that cuts some VLAN: its lines, by the failure."""
    found, last = {}, None
    for line in swept.splitlines():
        head = re.match(r"(lan|bridge) (\S+) roots ", line)
        if head:
            last = f"{head[1]} {head[2]}"
        elif line.startswith("cut "):
            found.setdefault(last, []).append(line)
    return found


# ---- the parts


def promises(cases, before):
    """Which promises aren't kept, what did it, and which are kept again."""
    wrong, old = wrong_in(cases), None if before is None else {(it.path, it.line) for it in wrong_in(before)}
    if wrong:
        yield from ("", "| Line | What is said there | Since | Why it isn't so |", "|---|---|---|---|")
        yield from cut_short((row_of(it, old) for it in wrong), MOST_ROWS, "| | and {} more | | |")
    mended = [it for it in cases if old and not it.reasons and (it.path, it.line) in old]
    if mended:
        yield from ("", "Kept again:", "")
        yield from cut_short((f"- {plain(f'{name_of(it.path)}:{it.line}: {it.name}')}" for it in mended), MOST_ROWS, "- and {} more")


def row_of(case, old):
    since = case.did.told() if case.done_by() else "before the change" if old and (case.path, case.line) in old else ""
    why = "<br>".join(map(plain, case.texts(MOST_REASONS)))
    return f"| {plain(f'{name_of(case.path)}:{case.line}')} | {plain(case.name)} | {plain(since)} | {why} |"


def difference(text):
    """What `diff` prints: its counts, and the lines."""
    *lines, last = text.splitlines()
    words = last.split()
    counts = ", ".join(f"{what} {number}" for what, number in zip(words[1::2], words[2::2]))
    yield from ("", f"**What the change does**: {plain(counts)}")
    yield from folded(f"{len(lines)} lines of diff", lines)


def failures(was, now, has_base):
    """Which single failures cut a VLAN, and which of them did before."""
    new = {it: lines for it, lines in now.items() if lines != was.get(it)}
    gone = [it for it in was if it not in now]
    told = f"{len(now)} cut some VLAN" + (f", {len(new)} of these not before, or others; {len(gone)} don't any more" if has_base else "")
    yield from ("", f"**Single failures**: {told}")
    lines = [f"{it}: {line}" for it, its in (new if has_base else now).items() for line in its] + [f"{it}: cuts nothing any more" for it in gone]
    yield from folded(f"{len(lines)} lines of sweep", lines)


def summary(words, judged):
    """The lines of the summary."""
    kept = f"{judged.answer.counts[1]} of {judged.answer.counts[0]} promises of {name_of(words.policy)} are kept"
    title = name_of(words.change or words.script)
    yield from (f"## mstplan: {plain(title)}", "", f"**{plain(kept)}**" + (" at the end" if words.change else ""))
    yield from promises(judged.answer.cases, judged.before)
    if words.change:
        lines = judged.change.splitlines()
        yield from folded(f"{len(lines)} lines of steps", lines)
    elif judged.change:
        yield from difference(judged.change)
    if judged.sweeps:
        yield from failures(*judged.sweeps, judged.before is not None)
    yield ""
