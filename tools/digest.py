#!/usr/bin/env python3
"""Looks for a table of VIDs to MSTIs that has a Configuration Digest: a BPDU has that of its region's table, and no table.

usage: digest.py DIGEST [VIDS] [--trees TREES] [--bridge NAME] [--seconds N]

DIGEST is 32 hexadecimal digits, as `check` and `showregions` print it. VIDS are those that may be mapped, as a script has them
(10,20,100-110), where those with - between may go together, and TREES the MSTIs that the BPDUs have messages of (1,2). Both are
worth telling: with them all ways to map some ten VIDs or ranges are tried. For example:

    digest.py 60c0f7106757ed98f78fcf6d6efeef38 --trees 1,2 --bridge core1

prints the lines `setvid2mstid NAME TREE VIDS` of a table that has the digest, for the bridge NAME (B if it isn't told), or a
comment where no VID is mapped. The digest is the HMAC-MD5 of the table (docs/RULES.md): two tables don't share one by chance.
These are tried: no VID mapped; all VIDs or VIDS to one MSTI; VIDS in each way; odd and even ones; VIDs to the MSTIs with their own
numbers, and round ones; ranges of one width; ranges between round numbers; each single VID; two ranges at any cut; and round VIDs
to MSTIs in each way. N is the most seconds that it may take, 60 if it isn't told.

The exit status is 0 where a table was found, 1 where none was, and what was tried is told on standard error, and 2 where the
words are wrong.
"""

import argparse
import hashlib
import itertools
import os
import re
import sys
import time
from array import array

sys.dont_write_bytecode = True
HERE = os.path.dirname(os.path.abspath(__file__))
sys.path.append(os.path.join(HERE, "import"))

from network import LONGEST_LIST, runs  # noqa: E402

KEY = bytes.fromhex("13AC06A62E47FD51F95D2BA243CD0346")
ELEMENTS, LAST_VID, MOST_TREES = 4096, 4094, 64
ZEROS = bytes(2 * ELEMENTS)
SECONDS = 60.0
# The most tables of one kind for each choice of VIDs and trees: those that come early, and all.
FEW, MOST = 1000, 200_000
NAME = re.compile(r"[A-Za-z0-9][A-Za-z0-9_.-]{0,15}")
ITEM = re.compile(r"([0-9]{1,10})(?:-([0-9]{1,10}))?")


def keyed(octet):
    """An MD5 that begins with the key, each octet of it altered by this one (RFC 2104)."""
    return hashlib.md5(bytes(it ^ octet for it in KEY.ljust(64, b"\0")), usedforsecurity=False)


INNER, OUTER = keyed(0x36), keyed(0x5C)


def digest(table):
    """The Configuration Digest of a table, which has trees, each with a range or another collection of its VIDs."""
    elements = array("H", ZEROS)
    for tree, vids in table:
        element = int.from_bytes(tree.to_bytes(2, "big"), sys.byteorder)
        if isinstance(vids, range):
            elements[vids.start:vids.stop:vids.step] = array("H", [element]) * len(vids)
        else:
            for vid in vids:
                elements[vid] = element
    inner, outer = INNER.copy(), OUTER.copy()
    inner.update(elements)
    outer.update(inner.digest())
    return outer.digest()


def span(first, last, step=1):
    return range(first, min(last, LAST_VID) + 1, step)


# ---- the tables that are tried; a kind is given the trees that are known, or those that are most likely, and the VIDs


def all_to_one(trees, _named):
    known = trees or span(1, LAST_VID)
    return ([(tree, span(1, LAST_VID))] for tree in known)


def single_vids(named):
    """The VIDs of some ranges, rising."""
    return sorted({vid for vids in named for vid in vids})


def named_to_one(trees, named):
    vids = single_vids(named)
    return ([(tree, vids)] for tree in trees or span(1, LAST_VID)) if vids else iter(())


def ordered(trees):
    """Two trees, of which one may be the CIST, in either order."""
    return itertools.permutations([*(trees or range(1, 5)), 0], 2)


def odd_and_even(trees, _named):
    for last in [LAST_VID, *range(10, 101, 10), *range(200, 4001, 100)]:
        for first in (1, 2):
            for one, other in ordered(trees):
                yield [(one, span(first, last, 2)), (other, span(2 if first == 1 else 3, last, 2))]


def own_numbers(trees, named):
    for times in (1, 10, 100, 1000):
        known = [tree for tree in trees if tree * times <= LAST_VID]
        yield [(tree, (tree * times,)) for tree in known]
        for last in span(1, min(MOST_TREES, LAST_VID // times)):
            yield [(tree, (tree * times,)) for tree in range(1, last + 1)]
            yield [(tree, (tree * times,)) for tree in range(2, last + 1)]
            yield [(tree * times, (tree * times,)) for tree in range(1, last + 1)]
    vids = single_vids(named)
    if len(vids) <= MOST_TREES:
        yield [(vid, (vid,)) for vid in vids]
        yield [(tree, (vid,)) for tree, vid in enumerate(vids, start=1)]


def single(trees, _named):
    for tree in trees or range(1, MOST_TREES + 1):
        for vid in span(1, LAST_VID):
            yield [(tree, (vid,))]


def rounds():
    """Numbers that ranges begin or end at, or next to."""
    powers = (2**exponent for exponent in range(3, 12))
    return sorted({1, 2, 5, *range(10, 101, 10), *range(150, 1001, 50), *range(1100, 4001, 100), *powers})


def ranges(trees, _named):
    firsts = sorted({it + more for it in rounds() for more in (0, 1)})
    lasts = sorted({it + more for it in rounds() for more in (-1, 0)} | {LAST_VID})
    for tree in trees or range(1, 4):
        for first in firsts:
            for last in lasts:
                if first < last:
                    yield [(tree, span(first, last))]


def any_cut(trees, _named):
    for one, other in ordered((trees or (1, 2))[:4]):
        for first in (1, 2):
            for cut in span(first, LAST_VID - 1):
                yield [(one, span(first, cut)), (other, span(cut + 1, LAST_VID))]


def one_width(trees, _named):
    thirds = [LAST_VID // count for count in range(2, 17)]
    for width in sorted({*rounds(), *thirds, *(it + 1 for it in thirds)} - {1}):
        for first in sorted({1, 2, 10, 11, 100, 101, width, width + 1, 1000, 1001}):
            for count in (len(trees),) if trees else range(2, 17):
                chain = [span(at, at + width - 1) for at in range(first, first + count * width, width)]
                chain = [it for it in chain if len(it)]
                table = list(zip(trees or range(1, count + 1), chain))
                yield table
                yield [*table[:-1], *((tree, span(vids.start, LAST_VID)) for tree, vids in table[-1:])]


def two_ranges(trees, _named):
    ends = [it for it in rounds() if it > 9]
    for one, other in itertools.permutations((trees or (1, 2))[:3], 2):
        for first, cut, last in itertools.product((1, 2, 10, 100), ends, [*ends, LAST_VID]):
            if first < cut < last:
                yield [(one, span(first, cut)), (other, span(cut + 1, last))]
                yield [(one, span(first, cut - 1)), (other, span(cut, last - (last < LAST_VID)))]


def one_each(trees, named):
    """One VID to each MSTI."""
    tens, hundreds = [*range(10, 101, 10), *range(110, 251, 10)], [*range(100, 1001, 100), *range(1100, 4001, 100)]
    likely = [*single_vids(named), *tens[:10], *hundreds[:10], *range(1, 21), *tens[10:], *range(101, 111), *hundreds[10:]]
    likely = list(dict.fromkeys(likely))
    for known in [trees] if trees else [(1, 2), (1, 2, 3)]:
        count = len(likely)
        while count > len(known) and count ** len(known) > MOST:
            count -= 1
        for chosen in itertools.islice(itertools.permutations(likely[:count], len(known)), MOST):
            yield list(zip(known, ((vid,) for vid in chosen)))


def choices_of(trees, some, most):
    """Each way to map these ranges to these trees or the CIST, as many of them as isn't too many."""
    count = len(some)
    while count > 1 and (len(trees) + 1) ** count > most:
        count -= 1
    for chosen in itertools.product((0, *trees), repeat=count):
        yield [(tree, vids) for tree, vids in zip(chosen, some) if tree]


def named_each_way(trees, named):
    for known in [trees] if trees else [(1,), (1, 2), (1, 2, 3), (1, 2, 3, 4)]:
        yield from choices_of(known, named, MOST) if named else ()


def each_way(trees, named, most=MOST):
    """Each way to map single VIDs."""
    likely = [range(10, 171, 10), range(100, 1701, 100), range(1, 18), range(10, 27), range(101, 118)]
    likely = [single_vids(named)] if named else likely
    for known in [trees] if trees else [(1,), (1, 2), (1, 2, 3)]:
        for some in likely:
            yield from choices_of(known, [(vid,) for vid in some], most)


def few_each_way(trees, named):
    """The first ways to map single VIDs, the likely ones even where others are named."""
    return itertools.chain(each_way(trees, named, FEW), each_way(trees, (), FEW) if named else ())


KINDS = [
    ("no VID mapped", lambda _trees, _named: iter([[]])),
    ("all VIDs to one MSTI", all_to_one),
    ("the VIDs that were named to one MSTI", named_to_one),
    ("the ranges that were named in each way", named_each_way),
    ("odd and even VIDs", odd_and_even),
    ("VIDs to the MSTIs with their numbers, and round ones", own_numbers),
    ("a few VIDs in each way", few_each_way),
    ("ranges of one width", one_width),
    ("two ranges at round numbers", two_ranges),
    ("one range at round numbers", ranges),
    ("a single VID", single),
    ("one VID to each MSTI", one_each),
    ("two ranges at any cut", any_cut),
    ("some VIDs in each way", each_way),
]


def find(wanted, trees=(), named=(), seconds=SECONDS):
    """A table with this digest, as a sorted list of VIDs for each of its trees, or None; and what was tried, in lines.

    The trees are those that the table has, if they are known, and `named` are ranges of VIDs that may be mapped.
    """
    tried, until = [], time.monotonic() + seconds
    for text, kind in KINDS:
        count, is_over = 0, False
        for table in kind(tuple(trees), tuple(named)):
            if digest(table) == wanted:
                return mapped(table), tried
            count += 1
            is_over = count % 256 == 0 and time.monotonic() > until
            if is_over:
                break
        if count:
            tried.append(f"{text}: {count} tables" + (", and not all of them: time was up" if is_over else ""))
        if is_over:
            break
    return None, tried


def mapped(table):
    """The VIDs of each tree but the CIST, by tree."""
    its = {}
    for tree, vids in table:
        for vid in vids:
            its[vid] = tree
    trees = sorted(set(its.values()) - {0})
    return {tree: sorted(vid for vid in its if its[vid] == tree) for tree in trees}


def lines(bridge, table):
    """The lines of a script that make a bridge's table, each list short enough for a line."""
    for tree, vids in table.items():
        held = ""
        for item in runs(vids).split(","):
            if len(held) + len(item) + 1 > LONGEST_LIST:
                yield f"setvid2mstid {bridge} {tree} {held}"
                held = ""
            held += f",{item}" if held else item
        yield f"setvid2mstid {bridge} {tree} {held}"


# ---- the words of the program


def of_digest(word):
    digits = re.sub("[:-]", "", word.lower().removeprefix("0x"))
    if not re.fullmatch("[0-9a-f]{32}", digits):
        raise argparse.ArgumentTypeError(f"{word!r} isn't 32 hexadecimal digits")
    return bytes.fromhex(digits)


def of_ranges(word):
    """The ranges of a list, of numbers from 1 to 4094."""
    found = []
    for item in word.split(","):
        its = ITEM.fullmatch(item)
        first, last = (int(its[1]), int(its[2] or its[1])) if its else (0, 0)
        if not 1 <= first <= last <= LAST_VID:
            raise argparse.ArgumentTypeError(f"{item!r} isn't a number, or two with - between, from 1 to {LAST_VID}")
        found.append(span(first, last))
    return tuple(found)


def of_list(word):
    return tuple(single_vids(of_ranges(word)))


def of_name(word):
    if not NAME.fullmatch(word):
        raise argparse.ArgumentTypeError(f"{word!r} is no name of a bridge")
    return word


def of_seconds(word):
    if not re.fullmatch("[0-9]{1,6}", word):
        raise argparse.ArgumentTypeError(f"{word!r} is no number of seconds")
    return int(word)


def words():
    parser = argparse.ArgumentParser(prog="digest.py", usage=__doc__.split("\n\n")[1].removeprefix("usage: "), add_help=False)
    parser.add_argument("digest", type=of_digest)
    parser.add_argument("vids", type=of_ranges, nargs="?", default=())
    parser.add_argument("--trees", type=of_list, default=())
    parser.add_argument("--bridge", type=of_name, default="B")
    parser.add_argument("--seconds", type=of_seconds, default=SECONDS)
    return parser.parse_args()


def main():
    if {"-h", "--help"} & set(sys.argv[1:]):
        print(__doc__.strip())
        return 0
    its = words()
    table, tried = find(its.digest, its.trees, its.vids, its.seconds)
    if table is None:
        print(f"digest.py: no table with the digest {its.digest.hex()} was found; tried:", file=sys.stderr)
        for line in tried:
            print(f"digest.py: {line}", file=sys.stderr)
        return 1
    print("\n".join(lines(its.bridge, table)) if table else "# no VID is mapped to an MSTI")
    return 0


if __name__ == "__main__":
    try:
        sys.exit(main())
    except KeyboardInterrupt:
        sys.exit(130)
