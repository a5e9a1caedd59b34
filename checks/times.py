#!/usr/bin/env python3
"""Counts what `rt ci` costs, by crate: the processor seconds of its proof, of its must-fail edits and of its tests.

usage: times.py PID       (beside a run: counts what the process PID starts, and what that starts, until SIGTERM or its end, and prints the table)
       times.py FILE ..   (prints one table of what several runs wrote into files by --log FILE)

It looks five times a second at each `rattle` that runs below PID: the last look before its end is off by a fifth of a second at most. What
the compilers and the program's own runs take isn't counted. The last lines are the sum, and the longest chain of proofs, each of which waits for
the one before: no number of processors makes the gate shorter than that. A crate that an earlier run proved has no line.
"""

import collections
import json
import os
import signal
import sys
import time

HERE = os.path.dirname(os.path.abspath(__file__))
TICKS = os.sysconf("SC_CLK_TCK")
KINDS = ("proof", "edits", "tests")


# ---- what runs


def stat_of(pid):
    """The name, the parent and the processor seconds of a process and of its ended children, or None where it has ended."""
    try:
        with open(f"/proc/{pid}/stat", encoding="utf-8", errors="replace") as file:
            text = file.read()
    except OSError:
        return None
    name, fields = text[text.index("(") + 1 : text.rindex(")")], text[text.rindex(")") + 2 :].split()
    return name, int(fields[1]), sum(int(it) for it in fields[11:15]) / TICKS


def below(pid, found):
    """The processes that a process has started, and those that these have."""
    children = collections.defaultdict(list)
    for it, (_, parent, _) in found.items():
        children[parent].append(it)
    reached = [pid]
    for it in reached:
        reached += children[it]
    return reached


def kind_of(pid):
    """The crate that a `rattle` is about and what it does there, or None where that isn't a check."""
    try:
        with open(f"/proc/{pid}/cmdline", encoding="utf-8", errors="replace") as file:
            words = file.read().split("\0")
        folder = os.readlink(f"/proc/{pid}/cwd")
    except OSError:
        return None
    if "--crate-name" not in words:
        return None
    crate = words[words.index("--crate-name") + 1]
    if os.path.basename(folder).startswith("rt-edit-"):
        return crate, "edits"
    return crate, "tests" if "--test" in words else "proof"


def watch(pid):
    """Counts until SIGTERM, or until the process has ended: the seconds by crate and kind."""
    ended, running, stops = collections.Counter(), {}, []
    signal.signal(signal.SIGTERM, lambda *_: stops.append(True))
    while not stops:
        found = {int(it): stat for it in os.listdir("/proc") if it.isdigit() and (stat := stat_of(it))}
        if pid not in found:
            break
        for it in [it for it in running if it not in found]:
            what, seconds = running.pop(it)
            ended[what] += seconds
        for it in below(pid, found):
            if it in found and found[it][0] == "rattle":
                what = running[it][0] if it in running else kind_of(it)
                if what:
                    running[it] = what, sum(found[each][2] for each in below(it, found) if each in found)
        time.sleep(0.2)
    for what, seconds in running.values():
        ended[what] += seconds
    return ended


# ---- what is told


def libraries():
    """Each crate of crates.txt with those of the repository that it stands on, lowest first."""
    with open(os.path.join(HERE, os.pardir, "crates.txt"), encoding="utf-8") as file:
        lines = dict(line.strip().split(":", 1) for line in file if ":" in line)
    return {name: [it for it in line.split() if it in lines] for name, line in lines.items()}


def longest_chain(crates, seconds):
    """The crates of the longest chain of proofs, lowest first, and its seconds."""
    chains = {}
    for name, under in crates.items():
        longest = max((chains[it] for it in under if it in chains), key=lambda chain: chain[0], default=(0, []))
        chains[name] = longest[0] + seconds[name, "proof"], [*longest[1], name]
    return max(chains.values(), key=lambda chain: chain[0])


def tell(seconds):
    """Prints the table."""
    crates = libraries()
    total = {kind: sum(it for (_, other), it in seconds.items() if other == kind) for kind in KINDS}
    print(f"{'processor seconds':<20}" + "".join(f"{kind:>8}" for kind in KINDS))
    for name in crates:
        if any(seconds[name, kind] for kind in KINDS):
            print(f"{name:<20}" + "".join(f"{seconds[name, kind]:8.0f}" if seconds[name, kind] else " " * 8 for kind in KINDS))
    print(f"{'in all':<20}" + "".join(f"{total[kind]:8.0f}" for kind in KINDS) + f", {sum(total.values()) / 60:.0f} minutes")
    length, chain = longest_chain(crates, seconds)
    print(f"the longest chain of proofs: {length / 60:.0f} minutes ({' '.join(chain)})")


def main():
    words = sys.argv[1:]
    log = words.pop(words.index("--log") + 1) if "--log" in words else None
    words = [it for it in words if it != "--log"]
    if not words or words[0].startswith("-"):
        sys.exit(__doc__)
    if words[0].isdigit():
        seconds = watch(int(words[0]))
        if log:
            with open(log, "w", encoding="utf-8") as file:
                json.dump([[*what, it] for what, it in seconds.items()], file)
    else:
        seconds = collections.Counter()
        for path in words:
            with open(path, encoding="utf-8") as file:
                for name, kind, it in json.load(file):
                    seconds[name, kind] += it
    tell(seconds)


if __name__ == "__main__":
    main()
