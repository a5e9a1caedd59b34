#!/usr/bin/env python3
"""Tells where a check's time went: the modules of a crate that took longest.

usage: slow.py NAME [SECONDS]     (after `rt check NAME --jobs 1` from nothing, that is with no crates/NAME/out/incremental before)

A check writes each module as soon as it is done, so the time between two files is what the later one took. It prints those of at least
SECONDS (1, if it isn't given), the longest first, and what the kinds of modules took together: `Lts` is what is live at each step of a
function, and goes by its form (owned containers beside many `?`: divide it); `Proof` has the goals that the search is left with (answer
them: CONTRIBUTING says how). Nothing else should run beside the check.
"""

import collections
import glob
import os
import sys

CRATES = os.path.join(os.path.dirname(os.path.abspath(__file__)), os.pardir, "crates")


def written(name):
    """The modules of a crate with the seconds that each took, as its last check from nothing wrote them."""
    found = []
    for folder in glob.glob(os.path.join(CRATES, name, "out", "incremental", "*")):
        for at, _, files in os.walk(folder):
            found += [(os.stat(os.path.join(at, it)).st_mtime_ns, it) for it in files if it.endswith(".oantt")]
    found.sort()
    prefix, suffix = f"Rattle-{name}-", ".decls.oantt"
    for (before, _), (time, file) in zip(found, found[1:]):
        yield (time - before) / 1e9, file.removeprefix(prefix).removesuffix(suffix).removesuffix(".oantt")


def main():
    words = sys.argv[1:]
    if not 1 <= len(words) <= 2 or words[0].startswith("-"):
        sys.exit(__doc__)
    least = float(words[1]) if len(words) == 2 else 1.0
    modules, kinds = sorted(written(words[0]), reverse=True), collections.Counter()
    if not modules:
        sys.exit(f"crates/{words[0]}/out/incremental holds nothing: run rt check {words[0]} --jobs 1 first")
    for seconds, module in modules:
        if seconds >= least:
            print(f"{seconds:6.1f} {module}")
        kinds[module.rsplit(".", 1)[-1].split("-")[0]] += seconds
    print(", ".join(f"{kind} {seconds:.0f}" for kind, seconds in kinds.most_common(8)), f"; in all {sum(kinds.values()):.0f} seconds")


if __name__ == "__main__":
    main()
