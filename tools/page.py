#!/usr/bin/env python3
"""Makes one HTML page of a script's network: its picture with each tree and VLAN, why each port has its role, what each
single failure does, which promises of a policy aren't kept, and what each step of a change does.

What the page tells is PROGRAM's answers. Which switches a VLAN joins after a failure the page works out itself, and compares
with PROGRAM's sweep when it is opened. It needs no network and no other file, so it can be sent in a mail. Graphviz's dot puts
the switches in order; without it they stand by name.

For example: page.py mstplan campus.script campus.html
             page.py --change campus.change --policy keep.policy mstplan campus.script campus.html
"""

import argparse
import datetime
import html
import json
import os
import re
import sys

HERE = os.path.dirname(os.path.abspath(__file__))
WEB = os.path.join(HERE, "web")
# nothing is to be left beside what is imported
sys.dont_write_bytecode = True
sys.path.insert(0, WEB)

import answers  # noqa: E402
import mstplan  # noqa: E402
import places  # noqa: E402
import broken  # noqa: E402
from interfaces import Names  # noqa: E402

SCRIPTS = (
    "network.js", "words.js", "boxes.js", "cables.js", "ways.js", "picture.js", "paint.js", "sight.js", "overview.js", "telling.js", "paths.js",
    "sheets.js", "steps.js", "page.js", "keys.js",
)
STATUSES = """exit status: 0; 1 where a line of a script or of the change is refused (the page is made, and tells it); 2 where the words
are wrong; 3 where a file can't be read or written, or PROGRAM doesn't answer"""
MOST_REFUSED = 20


def web_file(name):
    with open(os.path.join(WEB, name), encoding="utf-8") as file:
        return file.read()


def page_of(data, title):
    """The whole page as a text. Nothing of the data or the title can end the element that it is in."""
    told = json.dumps(data, separators=(",", ":")).replace("<", "\\u003c")
    code = "".join(f"<script>\n{web_file(name)}</script>\n" for name in SCRIPTS)
    parts = {"TITLE": html.escape(title), "STYLE": web_file("page.css"), "DATA": told, "CODE": code}
    return re.sub("@(TITLE|STYLE|DATA|CODE)@", lambda found: parts[found[1]], web_file("page.html"))


def bytes_of(path):
    with open(path, "rb") as file:
        return file.read()


def tell_refused(path, refused):
    """Refused lines of a file are told, on standard error."""
    for line in refused[:MOST_REFUSED]:
        print(f"page.py: {path}: line {line['line']} {line['error']} {line['text']}", file=sys.stderr)
    if len(refused) > MOST_REFUSED:
        print(f"page.py: {path}: {len(refused) - MOST_REFUSED} more lines are refused", file=sys.stderr)


class Maker:
    """What makes the data of a page: a program, a policy or none, and whether single failures belong to it."""

    def __init__(self, program, policy, sweeping):
        self.program, self.sweeping = program, sweeping
        self.policy_name, self.policy = (os.path.basename(policy), bytes_of(policy)) if policy else (None, None)

    def networks(self, path, script, steps, *others):
        """The network of a script as the page has it, and those behind the edits of each step. What ports are called the script says, or else
        one of these others."""
        networks, names = list(answers.networks_of(self.program, script, steps, self.sweeping)), Names(*others, script)
        for network in networks:
            network["script"], network["interfaces"] = os.path.basename(path), names.by_port()
        tell_refused(path, networks[0]["refused"])
        return networks

    def judged(self, path, script, *others):
        """The network of a script, with what isn't kept of the policy, where there is one."""
        network, = self.networks(path, script, [], *others)
        if self.policy is not None:
            network["promises"] = {"policy": self.policy_name, **self.program.promises(script, self.policy)[0]}
        return network

    def one(self, path):
        network = self.judged(path, bytes_of(path))
        return {"after": network, "places": places.layout([network])}

    def both(self, old_path, path):
        """Two networks, and what differs in them."""
        old, new = bytes_of(old_path), bytes_of(path)
        after, before = self.judged(path, new, old), self.judged(old_path, old, new)
        return {"after": after, "before": before, "differences": self.program.differences(old, new), "places": places.layout([after, before])}

    def steps(self, path, change_path):
        """A network, and what each step of a change does to it, with the network behind the step."""
        script, change = bytes_of(path), bytes_of(change_path)
        steps, judged, counts = self.program.steps(script, change, self.policy)
        networks = self.networks(path, script, [answers.edits_in(step, script, change) for step in steps], change)
        tell_refused(change_path, [it for step in steps for it in step["refused"]])
        for step, network in zip(steps, networks[1:]):
            step["network"] = network
        told = {"name": os.path.basename(change_path), **counts, "steps": steps}
        if self.policy is not None:
            told |= self.followed(networks, script, steps, judged)
        return {"after": networks[0], "change": told, "places": places.layout(networks)}

    def followed(self, networks, script, steps, judged):
        """Gives each network of a change what isn't kept of the policy there, and each step what is new: what is told in front of all steps
        is returned."""
        unkept = broken.Unkept(self.policy, self.program.promises(script, self.policy)[1], len(steps))
        for place, (network, records) in enumerate(zip(networks, judged)):
            network["promises"] = {"policy": self.policy_name, **unkept.behind(place, records)}
        for step, records in zip(steps, judged[1:]):
            step.update(broken.news_in(self.policy, records))
        return {"front": broken.front_in(self.policy, judged[0])}


def data_of(program, words):
    """All that the page has."""
    maker = Maker(program, words.policy, not words.no_sweep)
    if words.change:
        data = maker.steps(words.script, words.change)
    else:
        data = maker.both(words.old, words.script) if words.old else maker.one(words.script)
    made = datetime.datetime.now(datetime.timezone.utc).strftime("%Y-%m-%d %H:%M UTC")
    return {**data, "version": program.version(), "made": made}


def is_refused(data):
    """Whether a line of a script or of a change is refused."""
    networks, steps = [data["after"], data.get("before", {})], data.get("change", {}).get("steps", [])
    return any(it.get("refused") for it in [*networks, *steps])


def words_of():
    parser = argparse.ArgumentParser(description=__doc__, epilog=STATUSES, formatter_class=argparse.RawDescriptionHelpFormatter)
    parser.add_argument("program", metavar="PROGRAM", help="mstplan, or a file that runs it")
    parser.add_argument("script", metavar="SCRIPT", help="the network's script")
    parser.add_argument("page", metavar="PAGE.html", nargs="?", help="where the page goes; standard output without it")
    others = parser.add_mutually_exclusive_group()
    others.add_argument("--old", metavar="OLD", help="another script, which is the network before the change")
    others.add_argument("--change", metavar="CHANGE", help="a change in steps: the page has the network behind each, and tells what it does")
    parser.add_argument("--policy", metavar="POLICY", help="what the network is to promise: the page tells what isn't kept, and where")
    parser.add_argument("--title", metavar="T", help="the page's title; the script's name without it")
    parser.add_argument("--no-sweep", action="store_true", help="without single failures, which take longest in a large network")
    return parser.parse_args()


def failed(why):
    print(f"page.py: {why}", file=sys.stderr)
    return 3


def main():
    words = words_of()
    try:
        data = data_of(answers.Program(words.program), words)
        page = page_of(data, words.title or data["after"]["script"])
        with open(words.page, "wb") if words.page else sys.stdout.buffer as file:
            file.write(page.encode("utf-8", "replace"))
    except OSError as fault:
        sys.exit(failed(f"{fault.filename or 'standard output'}: {fault.strerror}"))
    except mstplan.Failed as fault:
        sys.exit(failed(fault))
    sys.exit(1 if is_refused(data) else 0)


if __name__ == "__main__":
    main()
