#!/usr/bin/env python3
"""Writes the edits from one script's network to another's as commands of devices, or a change, step by step.

What is to be set is what `mstplan edits FILE NEW` prints, or the lines of a change that PROGRAM accepts. Commands come by step, and in a
step by switch. An edit that no command says (a cable, a MAC address, a switch's power, and what such a device doesn't have) stands in a
comment, is told by its line on standard error, and gives status 1. Ports are called as lines of FILE, NEW and CHANGE say (`# port a 1 is
eth0`, as importers write them), or as --names or --interface say. The settings of links that count as one stand at their bundle: Cisco's
Port-channel has the number of their key, and elsewhere its name is told with the interface of each cable (`# port a 1 is eth0 of bond0`, or
a fourth word in NAMES).

Forms: cisco (IOS and IOS XE with MST), arista (EOS), mstpctl (mstpd), iproute2 (ip and bridge: links and VLANs alone) and ovs (Open
vSwitch with RSTP). What is written for cisco and ovs is what import/cisco.py and import/ovs.py read. All are made by the documents of
these devices; none was tried on a switch, and those of arista and mstpctl nowhere at all. Two of them may do together what one alone
can't: --to mstpctl,iproute2.

For example: export.py mstplan now.script wanted.script --to cisco --interface GigabitEthernet1/0/{port}
             export.py mstplan now.script --change ordered.change --to mstpctl,iproute2 --interface {bridge}.{port}
"""

import argparse
import sys

sys.dont_write_bytecode = True

import mstplan  # noqa: E402
from command import OK, STATUSES, TOLD, Files, guarded, name_of, tell, tell_refused, write  # noqa: E402
from interfaces import Names, port_of  # noqa: E402
from settings import Network  # noqa: E402
from shell_forms import FORMS  # noqa: E402

TOOL = "export.py"


def names_in(text, path):
    """What a file of lines BRIDGE PORT INTERFACE or BRIDGE PORT INTERFACE BUNDLE calls ports, by (bridge, number)."""
    found = {}
    for number, line in enumerate(mstplan.lines_in(text), start=1):
        words = line.decode(errors="replace").split()
        if words and not words[0].startswith("#"):
            if len(words) not in (3, 4) or not words[1].isdecimal():
                raise mstplan.Failed(f"{name_of(path)}: line {number} isn't BRIDGE PORT INTERFACE, nor with a BUNDLE behind it")
            found[words[0], int(words[1])] = words[2], words[3] if words[3:] else None
    return found


class Export:
    """The commands of a change's steps, in one form or in several of which one has what another hasn't."""

    def __init__(self, standing, forms, naming):
        self.standing, self.forms, self.naming, self.left = standing, forms, naming, []
        self.saved, self.comment = standing.saved(), FORMS[forms[0]].comment

    def step(self, lines):
        """The commands of a step of (number, edit): PROGRAM makes the edits."""
        for _, edit in lines:
            self.standing.make(edit)
        before, now = Network(self.saved), Network(self.saved)
        self.saved = self.standing.saved()
        devices = [FORMS[it](before, now, Network(self.saved), self.naming) for it in self.forms]
        by_hand = []
        for number, edit in lines:
            whys = [it.tried(edit) for it in devices]
            if all(whys):
                whys = dict.fromkeys(it.removeprefix(f"{edit}: ") for it in whys)
                by_hand.append(f"line {number} {self.named(edit)}: {'; '.join(whys)}")
            now.make(edit)
        for edit, mark, why in (left.partition(": ") for it in devices for left in it.finish()):
            by_hand.append(self.named(edit) + mark + why)
        self.left += by_hand
        return [*(f"{self.comment} by hand: {it}" for it in by_hand), *(line for it in devices for line in it.lines())]

    def named(self, edit):
        """An edit, and what its port is called."""
        port = port_of(edit)
        interface, bundle = self.naming(*port) if port else (None, None)
        return "{} ({}:{} is {})".format(edit, *port, f"{interface} of {bundle}" if bundle else interface) if interface else edit


def steps_of(program, saved, change):
    """The steps of a change, each as the numbers of its lines and (number, edit) of those that are accepted; and what is refused."""
    lines = mstplan.lines_in(change)
    newer = 1 - mstplan.is_second(lines)
    records = program.records("steps", saved, change)
    refused = [it for it in records if it["kind"] == "change"]
    passed, steps = {it["line"] for it in refused}, []
    for it in (it for it in records if it["kind"] == "step"):
        first, last = it["lines"]
        edits = [(number, mstplan.edit_in(lines[number - 1], newer)) for number in range(first, last + 1) if number not in passed]
        steps.append((mstplan.lines_of_step(it), [it for it in edits if it[1] is not None]))
    return steps, refused


def words_of():
    parser = argparse.ArgumentParser(description=__doc__, epilog=STATUSES, formatter_class=argparse.RawDescriptionHelpFormatter,
                                     usage="%(prog)s [options] --to FORM PROGRAM FILE NEW\n       %(prog)s [options] --to FORM PROGRAM FILE --change CHANGE")
    parser.add_argument("program", metavar="PROGRAM", help="mstplan, or a file that runs it")
    parser.add_argument("script", metavar="FILE", help="the script of what stands (/dev/null is nothing); one of the files may be - for standard input")
    parser.add_argument("new", metavar="NEW", nargs="?", help="the script of what is wanted")
    parser.add_argument("--change", metavar="CHANGE", help="in place of NEW: the steps, with blank lines between")
    add_forms(parser, True)
    words = parser.parse_intermixed_args()
    if (words.new is None) == (words.change is None):
        parser.error("FILE NEW, or FILE --change CHANGE")
    return with_forms(parser, words)


def add_forms(parser, is_required):
    """The options that say in which forms commands are, and what ports are called there."""
    parser.add_argument("--to", metavar="FORM", required=is_required, help=f"one or some of {', '.join(FORMS)}, with commas between")
    parser.add_argument("--interface", metavar="NAME", default="", help="what a port is called, with {bridge} and {port} in it")
    parser.add_argument("--names", metavar="NAMES", help="a file of lines BRIDGE PORT INTERFACE [BUNDLE], which go before all else")


def with_forms(parser, words):
    """Words whose forms are a list, if these options are right; else the command ends with what is wrong."""
    words.to = words.to.split(",")
    if not all(it in FORMS for it in words.to) or len({FORMS[it].comment for it in words.to}) > 1:
        parser.error(f"--to takes one of {', '.join(FORMS)}, or some for one shell")
    try:
        words.interface.format(bridge="b", port=1)
    except (KeyError, IndexError, ValueError, AttributeError):
        parser.error("--interface takes a name with {bridge} and {port} in it, and no other braces")
    return words


def naming_of(words, files, scripts):
    """What a port's interface and its bundle are called, by bridge and number; None where nothing says it."""
    told = Names(*scripts).ends()
    if words.names:
        told |= names_in(files.bytes_of(words.names), words.names)
    return lambda bridge, port: told.get((bridge, port)) or (words.interface.format(bridge=bridge, port=port) or None, None)


def main():
    words, files = words_of(), Files()
    program, script = mstplan.Program(words.program), files.bytes_of(words.script)
    other = files.bytes_of(words.change or words.new)
    naming = naming_of(words, files, [script, other])
    saved, lines = program.saved(script)
    refused = tell_refused(TOOL, words.script, lines)
    if not words.change:
        wanted, lines = program.saved(other)
        refused = tell_refused(TOOL, words.new, lines) or refused
        other = mstplan.script_of(program.records("edits", saved, wanted))
    steps, lines = steps_of(program, saved, other)
    refused = tell_refused(TOOL, words.change or "edits", lines) or refused
    with program.standing(saved) as standing:
        export = Export(standing, words.to, naming)
        for number, (where, edits) in enumerate(steps, start=1):
            head = [f"{export.comment} step {number} lines {where}"] if words.change else []
            write("".join(f"{it}\n" for it in head + export.step(edits)))
    for it in export.left:
        tell(TOOL, f"by hand: {it}")
    return TOLD if refused or export.left else OK


if __name__ == "__main__":
    guarded(TOOL, main)
