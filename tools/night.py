#!/usr/bin/env python3
"""Prints the sheet for the night: of each step of a change what is typed, what it does, what is at risk while it stands, and the way back.

PROGRAM judges each line: `steps` tells what a step does, `diff` which roles are other ones, `sweep` what is at risk, and `edits` the way back. Of each step

  step K lines N-M
    type EDIT                        each edit, as version 2 has it, or with --to what export.py writes; `refused N CODE TEXT` of a line that is refused
    moves VIDS                       the VLANs that go another way, or `-`; `turns TREES B,..`: the switches that notice it
    cuts VIDS off PART ..            what comes apart: each part but the largest; `restarts B:P,..`: ports that begin anew
    see B:P TREE OLD -> NEW, ..      each port whose role is another one: what `show spanning-tree` has to say then
    risk FAILURE cuts VIDS off PART ..    a single failure, or a risk of the policy, that cuts, while the step stands, what it didn't cut before the change
    back EDIT                        the edits to the network before the step, and `back cuts VIDS`, what these would cut
    home N lines moves VIDS cuts VIDS     from step 2 on: all the way back in one go
    breaks N PLACE REASON            with a policy: what isn't kept behind the step that was kept before, and `mends N`

So a step that cuts nothing can still leave switches on one link for hours: that is a `risk`. The status is 1 where `steps` has that.

--seen K FOLDER compares the network behind step K with what the switches show then: FOLDER has `show spanning-tree mst` of each, as
tools/import/cisco.py reads it. It prints `seen K`, or with status 1 a line for each port that has another role:

  differs B:P TREE plan ROLE seen ROLE

`unseen B,..` are switches of which FOLDER has no role. --html PAGE writes the sheet as a page to print, with a box to tick for each line.

For example: night.py mstplan campus.script campus.change keep.policy
             night.py --seen 2 logs mstplan campus.script campus.change
"""

import argparse
import functools
import html
import os
import re
import sys

sys.dont_write_bytecode = True

import mstplan  # noqa: E402
from command import OK, STATUSES, TOLD, Files, guarded, name_of, tell, tell_refused, write  # noqa: E402
from export import Export, add_forms, naming_of, with_forms  # noqa: E402
from interfaces import Names  # noqa: E402
from shown import Shown  # noqa: E402

TOOL = "night.py"
PAGE = os.path.join(os.path.dirname(os.path.abspath(__file__)), "web", "night.html")


# ---- VLANs and their parts


def vids_in(runs):
    return {vid for first, last in runs for vid in range(first, last + 1)}


def told_vids(vids):
    """VIDs as a list, or `-`."""
    return mstplan.listed(vids) or "-"


def off(parts):
    """All parts but the largest, of which the first counts: who is cut off from it."""
    largest = max(parts, key=len)
    return " ".join(",".join(part) for part in parts if part is not largest)


def grouped(off_by_vid):
    """VIDs by what is cut off in them, by the least VID."""
    groups = {}
    for vid in sorted(off_by_vid):
        groups.setdefault(off_by_vid[vid], set()).add(vid)
    return groups.items()


def cuts_told(off_by_vid):
    return [f"cuts {told_vids(vids)} off {parts}" for parts, vids in grouped(off_by_vid)]


def off_in(records):
    """Of each VID that these records of what is cut tell of, what is cut off."""
    return {vid: off(it["parts"]) for it in records for vid in vids_in(it["vids"])}


def has_risks(policy):
    """Whether a policy, if there is one, has lines that say what fails together."""
    return policy is not None and any(mstplan.words_in(it)[:1] == [b"risk"] for it in mstplan.lines_in(policy))


# ---- the networks between the steps


class Night:
    """A change between FILE's network and those behind its steps, as PROGRAM tells of them."""

    def __init__(self, program, network, change, policy, names):
        self.program, self.first, self.names = program, network, names
        self.lines = mstplan.lines_in(change)
        self.policy = policy if has_risks(policy) else None
        self.newer = 1 - mstplan.is_second(self.lines)
        files = [network, change] if policy is None else [network, change, policy]
        *self.records, self.counts = program.records("steps", *files)
        self.refused = {it["line"]: it for it in self.records if it["kind"] == "change"}

    @functools.cached_property
    def risks(self):
        """What single failures and risks cut before the change."""
        return self.cut_by_failures(self.first)

    def is_bad(self):
        return bool(self.refused) or any(self.counts.get(f"{it}_count") for it in ("cutting", "failing", "unkept"))

    def cut_by_failures(self, network):
        """Of each single failure of a network, and of each risk of the policy, what it cuts off, by VIDs; in the order of `sweep`."""
        found, records = {}, self.program.records("sweep", network)
        if self.policy is not None:
            records += self.program.records("sweep", network, self.policy)
        for it in records:
            if it["kind"] == "cut":
                (failure,) = it["failure"].items()
                found.setdefault(failure, []).append(it)
        return {failure: off_in(those) for failure, those in found.items()}

    def of_step(self, number, kind):
        return [it for it in self.records if it["kind"] == kind and it.get("step") == number]

    def edits_in(self, record):
        """The edits of a step's lines that aren't refused, each with the number of its line."""
        first, last = record["lines"]
        edits = ((number, mstplan.edit_in(self.lines[number - 1], self.newer)) for number in range(first, last + 1) if number not in self.refused)
        return [it for it in edits if it[1] is not None]

    def typed(self, record, standing, export):
        """What is typed in a step, which is made; and what is refused."""
        edits = self.edits_in(record)
        if export:
            typed = export.step(edits)
        else:
            typed = [self.names.edit(edit) for _, edit in edits]
            for _, edit in edits:
                standing.make(edit)
        yield from (f"type {it}" for it in typed)
        first, last = record["lines"]
        yield from (f"refused {number} {it['error']} {it['text']}" for number, it in sorted(self.refused.items()) if first <= number <= last)

    def does(self, record):
        number = record["step"]
        yield f"moves {told_vids(vids_in(record['moved_vids']))}"
        for it in self.of_step(number, "turns"):
            yield f"turns {','.join(map(str, it['trees']))} {','.join(it['bridges'])}"
        yield from cuts_told(off_in(self.of_step(number, "cut")))
        for it in self.of_step(number, "restarts"):
            yield f"restarts {mstplan.list_told(it['ports'], self.names)}"

    def seen(self, before, now):
        """Each port whose role is another one, with what it was and is in each tree."""
        roles = {}
        for it in self.program.records("diff", before, now):
            if it["kind"] == "port":
                told = f"{it['tree']} {it['old_role'] or '-'} -> {it['new_role'] or '-'}"
                roles.setdefault((it["bridge"], it["port"]), []).append(told)
        for (bridge, port), told in sorted(roles.items()):
            yield f"see {mstplan.port_of({'bridge': bridge, 'port': port}, self.names)} {', '.join(told)}"

    def at_risk(self, now):
        for failure, cut in self.cut_by_failures(now).items():
            known = self.risks.get(failure, {})
            fresh = {vid: parts for vid, parts in cut.items() if vid not in known}
            yield from (f"risk {' '.join(failure)} {it}" for it in cuts_told(fresh))

    def way(self, now, old):
        """The edits from one network to another, and what they do if they are made in one step."""
        edits = mstplan.script_of(self.program.records("edits", now, old))
        steps = [it for it in self.program.records("steps", now, edits) if it["kind"] == "step"]
        moved, cut = ({vid for it in steps for vid in vids_in(it[word])} for word in ("moved_vids", "cut_vids"))
        return edits.decode().splitlines()[1:], told_vids(moved), told_vids(cut)

    def backward(self, record, before, now):
        edits, _, cut = self.way(now, before)
        yield from (f"back {self.names.edit(edit)}" for edit in edits)
        yield f"back cuts {cut}"
        if record["step"] > 1:
            edits, moved, cut = self.way(now, self.first)
            yield f"home {len(edits)} lines moves {moved} cuts {cut}"

    def judged(self, number):
        for it in self.records:
            if it.get("step") == number and it["kind"] in ("policy", "fails"):
                place = "now" if not it.get("failure") else " ".join(*it["failure"].items())
                yield f"breaks {it['line']} {place if it['kind'] == 'fails' else 'refused'} {mstplan.reason_in(it, self.names)}"
            elif it.get("step") == number and it["kind"] == "mends":
                yield f"mends {it['line']}"

    def walked(self, forms, naming):
        """Each step with what is typed in it, and the networks before and behind it. What is typed is of these forms, if there are some."""
        before = self.first
        with self.program.standing(self.first) as standing:
            export = Export(standing, forms, naming) if forms else None
            for record in (it for it in self.records if it["kind"] == "step"):
                typed = list(self.typed(record, standing, export))
                now = standing.saved()
                yield record, typed, before, now
                before = now

    def sheet(self, forms, naming):
        """Of each step its first line, and the lines behind it."""
        for record, typed, before, now in self.walked(forms, naming):
            told = [*typed, *self.does(record), *self.seen(before, now), *self.at_risk(now), *self.backward(record, before, now)]
            yield f"step {record['step']} lines {mstplan.lines_of_step(record)}", [*told, *self.judged(record["step"])]

    def behind(self, number):
        """The network behind a step."""
        for record, _, _, now in self.walked(None, None):
            if record["step"] == number:
                return now
        raise mstplan.Failed(f"the change has no step {number}")


# ---- beside what the switches show, and as a page


def compare(night, number, folder):
    """Prints what the switches show otherwise than the network behind a step. Whether something differs or couldn't be read."""
    now, shown = night.behind(number), Shown(folder)
    told = list(shown.beside(night.program, now, night.names))
    differing = [it for it in told if it.startswith("differs ")]
    for line in [*([] if differing else [f"seen {number}"]), *told]:
        write(f"{line}\n")
    for line in shown.told:
        tell(TOOL, line)
    return bool(differing) or not shown.is_whole


def ticked(line):
    """A line of the page, with its box. Its first word says what it is of."""
    word, _, rest = line.partition(" ")
    return f'<li class="{html.escape(word)}"><label><input type="checkbox"> <code><b>{html.escape(word)}</b> {html.escape(rest)}</code></label></li>\n'


def page_of(title, steps):
    """The sheet as a page."""
    told = "".join(f"<section>\n<h2>{html.escape(first)}</h2>\n<ul>\n{''.join(map(ticked, lines))}</ul>\n</section>\n" for first, lines in steps)
    with open(PAGE, encoding="utf-8") as file:
        parts = {"TITLE": html.escape(title), "STEPS": told}
        return re.sub("@(TITLE|STEPS)@", lambda found: parts[found[1]], file.read())


def put(steps, given):
    """Writes the sheet: as a page to a file, or to standard output."""
    if given.html:
        page = page_of(f"{name_of(given.change)} on {name_of(given.file)}", steps)
        with open(given.html, "wb") as file:
            file.write(page.encode("utf-8", "replace"))
        return
    for first, lines in steps:
        write("".join(f"{it}\n" for it in [first, *(f"  {line}" for line in lines)]))


def words():
    parser = argparse.ArgumentParser(prog=TOOL, description=__doc__, epilog=STATUSES, formatter_class=argparse.RawDescriptionHelpFormatter)
    parser.add_argument("program", metavar="PROGRAM")
    parser.add_argument("file", metavar="FILE", help="the script of the network before the night")
    parser.add_argument("change", metavar="CHANGE", help="the steps, with blank lines between")
    parser.add_argument("policy", metavar="POLICY", nargs="?", help="what is promised")
    others = parser.add_mutually_exclusive_group()
    others.add_argument("--seen", metavar=("K", "FOLDER"), nargs=2, help="compares the network behind step K with what switches show, in FOLDER")
    others.add_argument("--html", metavar="PAGE", help="writes the sheet as a page to print, with a box for each line")
    add_forms(parser, False)
    given = parser.parse_intermixed_args()
    if given.seen and not given.seen[0].isdecimal():
        parser.error(f"{given.seen[0]} is no number of a step")
    return with_forms(parser, given) if given.to else given


def main():
    given, files = words(), Files()
    program = mstplan.Program(given.program)
    script, change = files.bytes_of(given.file), files.bytes_of(given.change)
    policy = None if given.policy is None else files.bytes_of(given.policy)
    network, refused = program.saved(script)
    is_refused = tell_refused(TOOL, given.file, refused)
    night = Night(program, network, change, policy, Names(script, change))
    if given.seen:
        return TOLD if compare(night, int(given.seen[0]), given.seen[1]) or is_refused else OK
    put(night.sheet(given.to, naming_of(given, files, [script, change])), given)
    return TOLD if is_refused or night.is_bad() else OK


if __name__ == "__main__":
    guarded(TOOL, main)
