#!/usr/bin/env python3
"""Runs the built program on a table of cases, and compares the exit status and both outputs of each; and then on what is large in
each way (large_runs.py, size_runs.py): networks as large as they may be, long scripts, answers of megabytes.

usage: program.py PROGRAM

The gate runs it on the program that it has built (.ci/run).
"""

import itertools
import json
import os
import pty
import re
import subprocess
import sys
import tempfile

TOP = os.path.join(os.path.dirname(os.path.abspath(__file__)), os.pardir)
SAMPLES = os.path.join(TOP, "examples")
# nothing is to be left beside the script that is imported
sys.dont_write_bytecode = True

import advise_runs  # noqa: E402
import ask_runs  # noqa: E402
import edits_runs  # noqa: E402
import hint_runs  # noqa: E402
import large_runs  # noqa: E402
import line_runs  # noqa: E402
import pairs_runs  # noqa: E402
import path_runs  # noqa: E402
import size_runs  # noqa: E402
import steps_runs  # noqa: E402
import verify_runs  # noqa: E402
from hint_runs import HINTED, HINTED_RUN, HINTS, told_within  # noqa: E402

NOBODY = 65534
# Any text that has a usage line.
USAGE = object()
VERSION = re.compile(rb"mstplan \d+\.\d+\.\d+\n")
VERSION_RECORD = re.compile(rb'\{"kind":"version","release":"\d+\.\d+\.\d+","json":2,"script":2\}\n')
TREE = b"tree 0\n"
REFUSED = b"line 1 E01 no such command\n"
SHORT = b"# none\n00\n"
TOO_SHORT = b"capture 2 B02 too short\n"
NO_CAPTURES = b"check captures 0 agree 0\n"

# Three bridges of a region in a triangle, and one of its own, which two of them are linked to. A is the root of the CIST,
# and C that of tree 1. The first line is refused; the queries and the mark say nothing.
EXPLAINED = b"""no
addbridge A 02:00:00:00:00:01
addbridge B 02:00:00:00:00:02
addbridge C 02:00:00:00:00:03
addbridge D 02:00:00:00:00:04
setmstconfid A 1 area
setmstconfid B 1 area
setmstconfid C 1 area
setvid2mstid A 1 10
setvid2mstid B 1 10
setvid2mstid C 1 10
kind D rstp
settreeprio C 1 4
addlan ab
addlan ac
addlan bc
addlan bd
addlan cd
addport A 1
addport A 2
addport A 5
addport B 1
addport B 2
addport B 3
addport C 1
addport C 2
addport C 3
addport D 1
addport D 2
plug A 1 ab
plug B 1 ab
plug A 2 ac
plug C 1 ac
plug B 2 bc
plug C 2 bc
plug B 3 bd
plug D 1 bd
plug C 3 cd
plug D 2 cd
showtree 0
changes
mark
save
"""
QUIET = EXPLAINED.removeprefix(b"no\n")

# What is told of it, worked out by hand from the rules of docs/RULES.md, where each link costs 20000.
OF_C_2 = b"""explain 0 C:2 bc Alternate
designated B:2 over C:2 bridge 8000.02:00:00:00:00:02 8000.02:00:00:00:00:03
root C:1 over C:2 int 20000 40000
explain 1 C:2 bc Designated
designated C:2 over B:2 int 0 20000
"""
OF_D_2 = b"""explain 0 D:2 cd Alternate
designated C:3 over D:2 ext 0 20000
root D:1 over D:2 receiver 8001 8002
"""
OF_B_3_ALONE = b"""explain 1 B:3 bd Designated
designated B:3 alone
"""
# D is made the root of the CIST.
OF_C_3_OUTSIDE = b"""explain 0 C:3 cd Alternate
designated D:2 over C:3 ext 0 20000
root C:2 over C:3 regional 8000.02:00:00:00:00:02 8000.02:00:00:00:00:03
explain 1 C:3 cd Alternate
boundary Alternate designated D:2
"""
OF_B_3_OUTSIDE = b"""explain 1 B:3 bd Master
boundary Root designated D:1
"""
OF_D_2_RESTRICTED = b"""explain 0 D:2 cd Alternate
designated C:3 over D:2 ext 0 20000
restricted
"""
OF_A_1_OFF = b"""explain 0 A:1 ab Disabled
off A
down ab
explain 1 A:1 ab Disabled
off A
down ab
"""
# Two links of one class count as one, of twice the speed: that one of a port's members stands for it.
PAIR = b"""addbridge A 02:00:00:00:00:01
addbridge B 02:00:00:00:00:02
addlan x
addlan y
addport A 1
addport A 2
addport B 1
addport B 2
setkey A 1 1
setkey A 2 1
setkey B 1 1
setkey B 2 1
plug A 1 x
plug B 1 x
plug A 2 y
plug B 2 y
"""
OF_PAIR = b"""explain 0 A:1 x Designated
designated A:1 over B:1 ext 0 10000
"""
BAD = b"explain E02 bad argument\n"
BAD_TREE = b"explain E03 bad VID or tree\n"
NO_BRIDGE = b"explain E04 no such bridge\n"
NO_PORT = b"explain E05 no such port\n"


def unopened(name, why="no such file"):
    """What is told of a file that can't be opened."""
    return f"mstplan: cannot open {name}: {why}\n".encode()


def is_folder(name):
    return f"mstplan: {name} is a folder\n".encode()


def explain_cases(folder):
    """Each case: its name, the words, standard input, the status, standard output and standard error."""
    script = os.path.join(folder, "explained")
    with open(script, "wb") as file:
        file.write(QUIET)
    absent = os.path.join(folder, "absent")
    cannot = unopened(absent)

    def of(words):
        return ["explain", "-"] + words.split()

    return [
        ("explain FILE B P", ["explain", script, "C", "2"], b"no\n", 0, OF_C_2, b""),
        ("explain FILE B P TREE", ["explain", script, "C", "02", "0"], b"no\n", 0,
         OF_C_2[: OF_C_2.index(b"explain 1")], b""),
        ("explain, the other tree", of("C 2 1"), QUIET, 0, OF_C_2[OF_C_2.index(b"explain 1"):], b""),
        ("explain, refused lines before", of("D 2"), EXPLAINED, 1, REFUSED + OF_D_2, b""),
        ("explain, no other port of the tree", of("B 3 1"), QUIET, 0, OF_B_3_ALONE, b""),
        ("explain, a port at the boundary", of("C 3"), QUIET + b"settreeprio D 0 0\n", 0, OF_C_3_OUTSIDE, b""),
        ("explain, the Master port", of("B 3 1"), QUIET + b"settreeprio D 0 0", 0, OF_B_3_OUTSIDE, b""),
        ("explain, a restricted role", of("D 2"), QUIET + b"setportrestrrole D 2 yes\n", 0, OF_D_2_RESTRICTED, b""),
        ("explain, a Disabled port", of("A 1"), QUIET + b"bridge A off\nlan ab down\n", 0, OF_A_1_OFF, b""),
        ("explain, links of a class", of("A 1"), PAIR, 0, OF_PAIR, b""),
        ("explain, a member that a lower one stands for", of("A 2"), PAIR, 1, NO_PORT, b""),
        ("explain, a bad bridge", of("a_name_of_more_than_16 1"), QUIET, 1, BAD, b""),
        ("explain, a bad port", of("A x 4095"), QUIET, 1, BAD, b""),
        ("explain, a port of no number", of("A 4096"), QUIET, 1, BAD, b""),
        ("explain, a bad tree", of("Z 1 4095"), QUIET, 1, BAD_TREE, b""),
        ("explain, an unknown bridge", of("Z 1"), QUIET, 1, NO_BRIDGE, b""),
        ("explain, an unknown bridge's tree", of("Z 1 1"), EXPLAINED, 1, REFUSED + NO_BRIDGE, b""),
        ("explain, a port that isn't there", of("A 9"), QUIET, 1, NO_PORT, b""),
        ("explain, a port in no LAN", of("A 5 2"), QUIET, 1, NO_PORT, b""),
        ("explain, a tree that the bridge hasn't", of("D 1 1"), QUIET, 1, BAD_TREE, b""),
        ("explain, nothing to read", of("A 1"), b"", 1, NO_BRIDGE, b""),
        ("explain with no port", ["explain", script, "A"], b"", 2, b"", USAGE),
        ("explain with no bridge", ["explain", script], b"", 2, b"", USAGE),
        ("explain with no file", ["explain"], b"", 2, b"", USAGE),
        ("explain with one word more", ["explain", script, "A", "1", "0", "0"], b"", 2, b"", USAGE),
        ("run with the words of explain", ["run", script, "A", "1"], b"", 2, b"", USAGE),
        ("check with the words of explain", ["check", script, "A", "1", "0"], b"", 2, b"", USAGE),
        ("explain, a file that isn't there", ["explain", absent, "A", "1"], QUIET, 3, b"", cannot),
        ("explain, a folder", ["explain", folder, "A", "1"], QUIET, 3, b"", is_folder(folder)),
    ]


# Two bridges on a LAN, of which A is the root, and what the others make of it.
PAIRED = b"""addbridge A 02:00:00:00:00:01
addbridge B 02:00:00:00:00:02
addlan x
addport A 1
addport B 1
plug A 1 x
plug B 1 x
"""
OTHER_ROOT = PAIRED + b"settreeprio B 0 4\n"
# The same in a region with a tree 1, and what leaves the region.
REGION = PAIRED + b"""setmstconfid A 1 area
setmstconfid B 1 area
setvid2mstid A 1 10
setvid2mstid B 1 10
"""

# How they differ, worked out by hand from the rules of docs/RULES.md.
NO_DIFFERENCE = b"diff regions 0 roots 0 ports 0 vlans 0\n"
TO_OTHER_ROOT = b"""root 0 A -> B
port 0 A 1 Designated -> Root
port 0 B 1 Root -> Designated
diff regions 0 roots 1 ports 2 vlans 0
"""
FROM_OTHER_ROOT = b"""root 0 B -> A
port 0 A 1 Root -> Designated
port 0 B 1 Designated -> Root
diff regions 0 roots 1 ports 2 vlans 0
"""
TO_OTHER_REGION = b"""region B area 1 A -> other 2 B
root 1 A -> B
port 1 B 1 Root -> Master
diff regions 1 roots 1 ports 1 vlans 0
"""
TO_RSTP = b"""region B area 1 A -> rstp - B
port 1 B 1 Root -> -
diff regions 1 roots 0 ports 1 vlans 0
"""
TO_FEW_VLANS = b"""reach 1-9,11-19,21-4094 A,B -> A B
diff regions 0 roots 0 ports 0 vlans 4092
"""
TO_NOTHING = b"""port 0 A 1 Designated -> -
port 0 B 1 Root -> -
reach 1-4094 A,B -> -
diff regions 0 roots 0 ports 2 vlans 4094
"""
# A bridge that is off stays the first of its region.
TO_A_OFF = b"""root 0 A -> B
root 1 A -> B
port 0 A 1 Designated -> Disabled
port 0 B 1 Root -> Designated
port 1 A 1 Designated -> Disabled
port 1 B 1 Root -> Designated
reach 1-4094 A,B -> B
diff regions 0 roots 2 ports 4 vlans 4094
"""


def diff_cases(folder):
    """Each case: its name, the words, standard input, the status, standard output and standard error."""
    script = os.path.join(folder, "paired")
    with open(script, "wb") as file:
        file.write(PAIRED)
    region = os.path.join(folder, "region")
    with open(region, "wb") as file:
        file.write(REGION)
    refused = os.path.join(folder, "paired, with a refused line")
    with open(refused, "wb") as file:
        file.write(b"no\n" + PAIRED)
    absent = os.path.join(folder, "absent")
    cannot = unopened(absent)
    other_absent = absent + " "
    other = unopened(other_absent)
    asks = b"changes\nshowtree 9\nmark\nsave\n"
    return [
        ("diff OLD NEW", ["diff", script, script], b"no\n", 0, NO_DIFFERENCE, b""),
        ("diff OLD -", ["diff", script, "-"], OTHER_ROOT, 1, TO_OTHER_ROOT, b""),
        ("diff - NEW", ["diff", "-", script], OTHER_ROOT, 1, FROM_OTHER_ROOT, b""),
        ("diff - -", ["diff", "-", "-"], PAIRED, 1, TO_NOTHING, b""),
        ("diff - - with nothing to read", ["diff", "-", "-"], b"", 0, NO_DIFFERENCE, b""),
        ("diff, queries and marks", ["diff", script, "-"], asks + PAIRED + asks, 0, NO_DIFFERENCE, b""),
        ("diff, refused lines of both", ["diff", refused, "-"], PAIRED + b"no\n", 1,
         b"old line 1 E01 no such command\nnew line 8 E01 no such command\n" + NO_DIFFERENCE, b""),
        ("diff, a refused line and differences", ["diff", refused, "-"], OTHER_ROOT, 1,
         b"old line 1 E01 no such command\n" + TO_OTHER_ROOT, b""),
        ("diff, another region", ["diff", region, "-"], REGION + b"setmstconfid B 2 other\n", 1, TO_OTHER_REGION, b""),
        ("diff, another kind", ["diff", region, "-"], REGION + b"kind B rstp\n", 1, TO_RSTP, b""),
        ("diff, fewer VLANs", ["diff", script, "-"], PAIRED + b"setportvlans B 1 10,20\n", 1, TO_FEW_VLANS, b""),
        ("diff, a bridge that is off", ["diff", region, "-"], REGION + b"bridge A off\n", 1, TO_A_OFF, b""),
        ("diff, another MAC", ["diff", region, "-"], REGION.replace(b"00:01", b"00:00"), 0, NO_DIFFERENCE, b""),
        ("diff with one file", ["diff", script], b"", 2, b"", USAGE),
        ("diff with no file", ["diff"], b"", 2, b"", USAGE),
        ("diff with a third file", ["diff", script, script, script], b"", 2, b"", USAGE),
        ("diff, a file that isn't there", ["diff", script, absent], b"", 3, b"", cannot),
        ("diff, two files that aren't there", ["diff", other_absent, absent], b"", 3, b"", other),
        ("diff, of standard input and no file", ["diff", "-", absent], b"no\n", 3, b"", cannot),
        ("diff, an old script in a folder", ["diff", folder, script], b"", 3, b"", is_folder(folder)),
        ("diff, a new script in a folder", ["diff", refused, folder], b"", 3, b"", is_folder(folder)),
    ]


# Words that name no part of a sweep, and what is told of them.
NO_PARTS = ("0/1", "2/1", "0/0", "1/0", "1/65537", "1", "1/", "/1", "/", "", "1/2/3", "1/99999999999")
NO_PART = b"error: PART is K/N, two numbers in decimal with 1 <= K <= N <= 65536, and pairs or nothing stands before it\n"

# What each single failure does, worked out by hand.
NO_FAILURE = b"sweep lans 0 bridges 0 cuts 0\n"
OF_PAIRED = b"""lan x roots 0 ports 0 cut 1-4094
cut 1-4094 parts A B
bridge A roots 0 ports 1 cut -
bridge B roots - ports 0 cut -
sweep lans 1 bridges 2 cuts 1
"""
# Of the two links of a class each is a failure, which the other one makes good.
OF_PAIR_SWEPT = b"""lan x roots - ports 0 cut -
lan y roots - ports 0 cut -
bridge A roots 0 ports 1 cut -
bridge B roots - ports 0 cut -
sweep lans 2 bridges 2 cuts 0
"""
# A triangle, of which A is the root and B has the designated port of the link that isn't A's.
TRIANGLE = b"""addbridge A 02:00:00:00:00:01
addbridge B 02:00:00:00:00:02
addbridge C 02:00:00:00:00:03
addlan ab
addlan ac
addlan bc
addport A 1
addport A 2
addport B 1
addport B 2
addport C 1
addport C 2
plug A 1 ab
plug B 1 ab
plug A 2 ac
plug C 1 ac
plug B 2 bc
plug C 2 bc
"""
OF_TRIANGLE = b"""lan ab roots - ports 2 cut -
lan ac roots - ports 1 cut -
lan bc roots - ports 0 cut -
bridge A roots 0 ports 3 cut -
bridge B roots - ports 1 cut -
bridge C roots - ports 0 cut -
sweep lans 3 bridges 3 cuts 0
"""
# VLANs 10 and 20 alone are on the link of B and C.
FEW_ON_BC = TRIANGLE + b"setportvlans C 2 10,20\n"
OF_FEW_ON_BC = b"""lan ab roots - ports 2 cut 1-9,11-19,21-4094
cut 1-9,11-19,21-4094 parts A,C B
lan ac roots - ports 1 cut 1-9,11-19,21-4094
cut 1-9,11-19,21-4094 parts A,B C
lan bc roots - ports 0 cut -
bridge A roots 0 ports 3 cut 1-9,11-19,21-4094
cut 1-9,11-19,21-4094 parts B C
bridge B roots - ports 1 cut -
bridge C roots - ports 0 cut -
sweep lans 3 bridges 3 cuts 3
"""
# What is down or off is no failure any more.
C_IS_OFF = TRIANGLE + b"bridge C off\nlan ac down\n"
OF_C_IS_OFF = b"""lan ab roots 0 ports 0 cut 1-4094
cut 1-4094 parts A B
lan bc roots - ports 0 cut -
bridge A roots 0 ports 1 cut -
bridge B roots - ports 0 cut -
sweep lans 2 bridges 2 cuts 1
"""

# What pairs of failures of a triangle cut: two sides, or a side and the bridge opposite.
TRIANGLE_IN_PAIRS = b"""pair lan ab lan ac cut 1-4094
cut 1-4094 parts A B,C
pair lan ab lan bc cut 1-4094
cut 1-4094 parts A,C B
pair lan ab bridge C cut 1-4094
cut 1-4094 parts A B
pair lan ac lan bc cut 1-4094
cut 1-4094 parts A,B C
pair lan ac bridge B cut 1-4094
cut 1-4094 parts A C
pair lan bc bridge A cut 1-4094
cut 1-4094 parts B C
sweep pairs 15 cuts 6
"""
# The second of three parts of the 15 pairs: from that of ac and bc to that of bc and A.
SECOND_OF_PAIRS = b"""pair lan ac lan bc cut 1-4094
cut 1-4094 parts A,B C
pair lan ac bridge B cut 1-4094
cut 1-4094 parts A C
pair lan bc bridge A cut 1-4094
cut 1-4094 parts B C
sweep pairs 5 cuts 3
"""


def sweep_cases(folder):
    """Each case: its name, the words, standard input, the status, standard output and standard error."""
    script = os.path.join(folder, "swept")
    with open(script, "wb") as file:
        file.write(TRIANGLE)
    absent = os.path.join(folder, "absent")
    cannot = unopened(absent)
    asks = b"changes\nshowtree 9\nmark\nsave\n"
    return [
        ("sweep FILE", ["sweep", script], b"no\n", 0, OF_TRIANGLE, b""),
        ("sweep -", ["sweep", "-"], PAIRED, 1, OF_PAIRED, b""),
        ("sweep, nothing to read", ["sweep", "-"], b"", 0, NO_FAILURE, b""),
        ("sweep, queries and marks", ["sweep", "-"], asks + TRIANGLE + asks, 0, OF_TRIANGLE, b""),
        ("sweep, a refused line", ["sweep", "-"], b"no\n" + TRIANGLE, 1, REFUSED + OF_TRIANGLE, b""),
        ("sweep, links of a class", ["sweep", "-"], PAIR, 0, OF_PAIR_SWEPT, b""),
        ("sweep, fewer VLANs on a link", ["sweep", "-"], FEW_ON_BC, 1, OF_FEW_ON_BC, b""),
        ("sweep, what is down and off", ["sweep", "-"], C_IS_OFF, 1, OF_C_IS_OFF, b""),
        ("sweep with no file", ["sweep"], b"", 2, b"", USAGE),
        ("sweep of a policy without risks", ["sweep", script, os.devnull], b"", 0, b"sweep risks 0 cuts 0\n", b""),
        ("sweep of a policy, script and policy from one input", ["sweep", "-", "-"], TRIANGLE, 0, b"sweep risks 0 cuts 0\n", b""),
        ("sweep of a policy that isn't there", ["sweep", script, absent], b"", 3, b"", cannot),
        ("sweep with a word behind a part", ["sweep", script, "1/2", "2/2"], b"", 2, b"", NO_PART),
        ("sweep with a fourth word", ["sweep", script, "pairs", "2/2", "2/2"], b"", 2, b"", USAGE),
        ("sweep pairs", ["sweep", script, "pairs"], b"no\n", 1, TRIANGLE_IN_PAIRS, b""),
        ("sweep pairs -, a refused line", ["sweep", "-", "pairs", "1/1"], b"no\n" + TRIANGLE, 1, REFUSED + TRIANGLE_IN_PAIRS, b""),
        ("sweep pairs, a part", ["sweep", script, "pairs", "2/3"], b"", 1, SECOND_OF_PAIRS, b""),
        ("sweep pairs, nothing to read", ["sweep", "-", "pairs"], b"", 0, b"sweep pairs 0 cuts 0\n", b""),
        ("sweep pairs, what is cut alone", ["sweep", "-", "pairs"], PAIRED, 0, b"sweep pairs 3 cuts 0\n", b""),
        ("sweep pairs with a word that names no part", ["sweep", script, "pairs", "pairs"], b"", 2, b"", NO_PART),
        ("sweep, a file that isn't there", ["sweep", absent], b"", 3, b"", cannot),
        ("sweep, a folder", ["sweep", folder], b"", 3, b"", is_folder(folder)),
        ("sweep, a part of a script that isn't there", ["sweep", absent, "1/2"], b"", 3, b"", cannot),
        *((f"sweep, the part {word}", ["sweep", script, word], b"", 2, b"", NO_PART) for word in NO_PARTS),
        *part_cases("a triangle", TRIANGLE, OF_TRIANGLE),
        *part_cases("fewer VLANs on a link", FEW_ON_BC, OF_FEW_ON_BC),
    ]


def part_cases(name, network, whole):
    """The parts of a sweep of a network: each has its share of the failures, each with its lines, and counts that alone."""
    told = whole.decode().split("\n")[:-2]
    starts = [place for place, line in enumerate(told) if not line.startswith("cut ")]
    failures = [told[start:end] for start, end in zip(starts, [*starts[1:], len(told)])]
    cases = []
    for count in (1, 2, 3, 4, 5, 6, 7, 64, 65536):
        for number in {1, 2, 3, count - 1, count} & set(range(1, count + 1)):
            part = failures[(number - 1) * len(failures) // count : number * len(failures) // count]
            kinds = [lines[0].split()[0] for lines in part]
            cuts = sum(len(lines) > 1 for lines in part)
            last = f"sweep lans {kinds.count('lan')} bridges {kinds.count('bridge')} cuts {cuts}"
            text = "".join(line + "\n" for line in [*itertools.chain.from_iterable(part), last]).encode()
            cases.append((f"sweep, {name}, {number}/{count}", ["sweep", "-", f"{number}/{count}"], network, 1 if cuts else 0, text, b""))
    return cases


NO_NETWORK = b"bridges 0 on 0 ports 0 enabled 0 regions 0 trees 0\nvlan 1-4094 islands 0\n"
TRIANGLE_IN_SHORT = b"""bridges 3 on 3 ports 6 enabled 6 regions 3 trees 1
tree 0 root A 32768 of 3 next B 32768
blocked 0 C:2
vlan 1-4094 islands 1
carries bc -
carries * ab,ac
"""
# B's port of the link to A has two VLANs alone, and B is the next after A no longer.
FEW_ON_AB = TRIANGLE + b"setportvlans B 1 10,20\nsettreeprio B 0 9\n"
FEW_IN_SHORT = b"""bridges 3 on 3 ports 6 enabled 6 regions 3 trees 1
tree 0 root A 32768 of 3 next C 32768
blocked 0 B:2
vlan 1-9,11-19,21-4094 islands 2
vlan 10,20 islands 1
carries ab 10,20
carries bc -
carries * ac
look vlans A:1 1-9,11-19,21-4094 B:1 -
"""
OFF_IN_SHORT = b"""bridges 3 on 2 ports 6 enabled 3 regions 3 trees 1
tree 0 root A 32768 of 2 next B 32768
blocked 0 -
vlan 1-4094 islands 1
carries * ab
"""


# C's way to A by y is the better one, so its port at x blocks; x goes from A to B all the same. At h there are hosts alone.
OF_THREE = b"""addbridge A 02:00:00:00:00:01
addbridge B 02:00:00:00:00:02
addbridge C 02:00:00:00:00:03
addlan h
addlan x
addlan y
speed y 10000000
addport A 1
addport A 2
addport A 3
addport B 1
addport C 1
addport C 2
plug A 1 x
plug A 2 y
plug A 3 h
plug B 1 x
plug C 1 x
plug C 2 y
"""
THREE_IN_SHORT = b"""bridges 3 on 3 ports 6 enabled 6 regions 3 trees 1
tree 0 root A 32768 of 3 next B 32768
blocked 0 C:1
vlan 1-4094 islands 1
carries * x,y
"""
SLIPS_IN_SHORT = b"""bridges 6 on 6 ports 4 enabled 4 regions 5 trees 2
tree 0 root A 32768 of 3 next B 32768
tree 0 root D 32768 of 1 next -
tree 0 root E 32768 of 1 next -
tree 0 root F 32768 of 1 next -
blocked 0 -
tree 1 root D 32768 of 1 next -
tree 1 root E 32768 of 1 next -
tree 1 root F 32768 of 1 next -
blocked 1 -
vlan 1-99 islands 4
vlan 100-4094 islands 5
carries Y 1-99
carries * X
look region campus A Campus B
look region campus A canpus C
look region lab 1 F table without 16-19
look lan X speed 1000 next 1000000
look vlans B:2 100-4094 C:1 -
"""


# Names that differ in digits alone are a numbering; one that differs in a letter isn't, with digits or without.
NUMBERED = b"".join(b"addbridge %c 02:00:00:00:00:%02x\nsetmstconfid %c 1 %s\n" % (65 + place, place, 65 + place, name)
                    for place, name in enumerate((b"R1", b"R2", b"R10", b"r1", b"RX")))
NUMBERED_IN_SHORT = b"look region R1 A r1 D\nlook region R1 A RX E\nlook region R2 B RX E\n"


def summary_cases(folder):
    """Each case: its name, the words, standard input, the status, standard output and standard error."""
    script = os.path.join(folder, "swept")
    absent = os.path.join(folder, "absent")
    cannot = unopened(absent)
    return [
        ("summary FILE", ["summary", script], b"no\n", 0, TRIANGLE_IN_SHORT, b""),
        ("summary -", ["summary", "-"], FEW_ON_AB, 0, FEW_IN_SHORT, b""),
        ("summary, what is down and off", ["summary", "-"], C_IS_OFF, 0, OFF_IN_SHORT, b""),
        ("summary, a LAN of three and one of hosts", ["summary", "-"], OF_THREE, 0, THREE_IN_SHORT, b""),
        ("summary, slips", ["summary", os.path.join(SAMPLES, "small", "slips.script")], b"", 0, SLIPS_IN_SHORT, b""),
        ("summary, numbered names", ["summary", "-"], NUMBERED, 0, re.compile(rb"(?:(?!look )[^\n]*\n)*" + NUMBERED_IN_SHORT), b""),
        ("summary, nothing to read", ["summary", "-"], b"", 0, NO_NETWORK, b""),
        ("summary, a refused line", ["summary", "-"], b"no\n" + TRIANGLE + b"showplan\n", 1, REFUSED + TRIANGLE_IN_SHORT, b""),
        ("summary with no file", ["summary"], b"", 2, b"", USAGE),
        ("summary, a file that isn't there", ["summary", absent], b"", 3, b"", cannot),
    ]


OPENING = b"""graph "tree 0" {
  graph [label="tree 0", nodesep=0.6, ranksep=0.8];
  edge [fontsize=10, labeldistance=1.8];
"""
# The designated ends come first: A's ports are, and B's on the link to C.
TRIANGLE_DRAWN = OPENING + b"""  "A" [peripheries=2];
  "B";
  "C";
  "A" -- "B" [label="ab", taillabel="1 D", headlabel="1 R"];
  "A" -- "C" [label="ac", taillabel="2 D", headlabel="1 R"];
  "B" -- "C" [label="bc", taillabel="2 D", headlabel="2 A", style=dashed];
}
"""
# A LAN of three ports, one of no port, and a bridge that is off.
HUB = b"""addbridge A 02:00:00:00:00:01
addbridge B 02:00:00:00:00:02
addbridge C 02:00:00:00:00:03
addlan A
addlan none
addport A 1
addport B 1
addport C 1
plug A 1 A
plug B 1 A
plug C 1 A
bridge C off
"""
HUB_DRAWN = OPENING + b"""  "A" [peripheries=2];
  "B";
  "C" [style=dashed, color=gray, fontcolor=gray];
  "lan A" [shape=box, fontsize=10, height=0.3, label="A"];
  "A" -- "lan A" [taillabel="1 D"];
  "lan A" -- "B" [headlabel="1 R"];
  "lan A" -- "C" [headlabel="1 X", style=dashed];
  "lan none" [shape=box, fontsize=10, height=0.3, label="none"];
}
"""
# All bridges are in one island, each with tree 0, the root of which is A.
VLAN_OPENING = OPENING.replace(b"tree 0", b"vlan 10")
TRIANGLE_WITH_VLAN = VLAN_OPENING + rb"""  subgraph "cluster 1" {
    "A" [label="A\ntree 0", peripheries=2];
    "B" [label="B\ntree 0"];
    "C" [label="C\ntree 0"];
  }
""" + TRIANGLE_DRAWN[TRIANGLE_DRAWN.index(b'  "A" -- "B"'):]
NO_DRAWING = b"error: VID stands behind the word vlan alone\n"


def dot_cases(folder):
    """Each case: its name, the words, standard input, the status, standard output and standard error."""
    script = os.path.join(folder, "swept")
    absent = os.path.join(folder, "absent")
    cannot = unopened(absent)
    return [
        ("dot FILE TREE", ["dot", script, "0"], b"no\n", 0, TRIANGLE_DRAWN, b""),
        ("dot -, boxes", ["dot", "-", "00"], HUB, 0, HUB_DRAWN, b""),
        ("dot, a refused line", ["dot", "-", "0"], b"no\n", 1, REFUSED + OPENING + b"}\n", b""),
        ("dot, no tree", ["dot", "-", "4095"], b"no\n", 1, REFUSED + b"dot E03 bad VID or tree\n", b""),
        ("dot with no tree", ["dot", script], b"", 2, b"", USAGE),
        ("dot FILE vlan VID", ["dot", script, "vlan", "10"], b"no\n", 0, TRIANGLE_WITH_VLAN, b""),
        ("dot, a VLAN, a refused line", ["dot", "-", "vlan", "010"], b"no\n", 1, REFUSED + VLAN_OPENING + b"}\n", b""),
        ("dot, no VLAN", ["dot", "-", "vlan", "0"], b"no\n", 1, REFUSED + b"dot E03 bad VID or tree\n", b""),
        ("dot, vlan alone", ["dot", "-", "vlan"], b"no\n", 1, REFUSED + b"dot E03 bad VID or tree\n", b""),
        ("dot, a VLAN behind a tree", ["dot", script, "0", "10"], b"", 2, b"", NO_DRAWING),
        ("dot, a VLAN of a script that isn't there", ["dot", absent, "vlan", "10"], b"", 3, b"", cannot),
        ("dot, a VLAN behind a tree of a script that isn't there", ["dot", absent, "0", "10"], b"", 2, b"", NO_DRAWING),
        ("dot with two VLANs", ["dot", script, "vlan", "10", "20"], b"", 2, b"", USAGE),
        ("dot, a file that isn't there", ["dot", absent, "x"], b"", 3, b"", cannot),
    ]


# B is the root then: the link of A and B turns round, that of B and C is open, and that of A and C isn't at A or at C.
OF_B = re.compile(rb"edit settreeprio B 0 28672\ndoes roots 0 ports \d+ moved 1-4094 cut - joined -\nadvise edits 1\n")
NO_GOAL = b"error: GOAL is root, behind which no P stands, or forward, with P\n"


def advise_cases(folder):
    """Each case: its name, the words, standard input, the status, standard output and standard error. What is advised is in advise_runs.py."""
    script = os.path.join(folder, "swept")
    absent = os.path.join(folder, "absent")
    absent_port = [{"kind": "because", "because": "down", "down_lan": "ac"}, {"kind": "advise", "result": "none"}]
    json_of_none = {"query": "advise", "goal": "root", "tree": 0, "bridge": "A", "records": [{"kind": "advise", "edit_count": 0}]}
    return [
        ("advise FILE root TREE B", ["advise", script, "root", "0", "A"], b"no\n", 0, b"advise edits 0\n", b""),
        ("advise -, a refused line", ["advise", "-", "root", "00", "A"], b"no\n" + TRIANGLE, 1, REFUSED + b"advise edits 0\n", b""),
        ("advise, queries and marks", ["advise", "-", "root", "0", "B"], b"changes\n" + TRIANGLE + b"mark\nshowtree 0\n", 0, OF_B, b""),
        ("advise, no bridge's name", ["advise", script, "root", "4095", "b-" * 20], b"", 1, b"advise E02 bad argument\n", b""),
        ("advise, no port's number", ["advise", script, "forward", "4095", "A", "0"], b"", 1, b"advise E02 bad argument\n", b""),
        ("advise, no tree", ["advise", script, "forward", "x", "A", "1"], b"", 1, b"advise E03 bad VID or tree\n", b""),
        ("advise, no such bridge", ["advise", script, "root", "7", "Z"], b"", 1, b"advise E04 no such bridge\n", b""),
        ("advise, no such port", ["advise", script, "forward", "7", "A", "9"], b"", 1, b"advise E05 no such port\n", b""),
        ("advise, a tree that the bridge hasn't", ["advise", script, "root", "7", "A"], b"", 1, b"advise E03 bad VID or tree\n", b""),
        ("advise, a LAN that is down", ["advise", "-", "forward", "0", "C", "1"], TRIANGLE + b"lan ac down\n", 1,
         b"because down ac\nadvise none\n", b""),
        ("advise, a LAN that is down, in JSON", ["advise", "--json", "-", "forward", "0", "C", "1"], TRIANGLE + b"lan ac down\n", 1,
         Json({"query": "advise", "goal": "forward", "tree": 0, "bridge": "C", "port": 1, "records": absent_port}), b""),
        ("advise, a bridge that is off", ["advise", "-", "root", "0", "B"], TRIANGLE + b"bridge B off\n", 1, b"because off B\nadvise none\n", b""),
        ("advise, another word", ["advise", script, "block", "0", "A"], b"", 2, b"", NO_GOAL),
        ("advise, a root with a port", ["advise", script, "root", "0", "A", "1"], b"", 2, b"", NO_GOAL),
        ("advise, no port to forward", ["advise", script, "forward", "0", "A"], b"", 2, b"", NO_GOAL),
        ("advise with too few words", ["advise", script, "root", "0"], b"", 2, b"", USAGE),
        ("advise with too many words", ["advise", script, "forward", "0", "A", "1", "2"], b"", 2, b"", USAGE),
        ("advise, a file that isn't there", ["advise", absent, "root", "0", "A"], b"", 3, b"", unopened(absent)),
        ("advise, a folder", ["advise", folder, "root", "0", "A"], b"", 3, b"", is_folder(folder)),
        ("advise in JSON", ["--json", "advise", script, "root", "0", "A"], b"", 0, Json(json_of_none), b""),
        ("no advice in JSON", ["advise", script, "root", "0", "Z", "--json"], b"", 1,
         Json({"query": "advise", "error": "E04", "text": "no such bridge"}), b""),
        ("advise with hints", ["advise", "--hints", "-", "root", "0", "A"], b"no\n" + TRIANGLE, 1, REFUSED + b"advise edits 0\n",
         re.compile(rb"line 1 no command no.*\n")),
    ]


def ask_cases(folder):
    """Each case: its name, the words, standard input, the status, standard output and standard error. Sessions are in ask_runs.py."""
    script = os.path.join(folder, "paired")
    absent = os.path.join(folder, "absent")
    return ask_runs.cases(folder) + [
        ("ask -, which takes all", ["ask", "-"], PAIRED + b"no\nsummary\n", 1,
         b"line 8 E01 no such command\nline 9 E01 no such command\ndone 1\n", b""),
        ("ask with no file", ["ask"], b"", 2, b"", USAGE),
        ("ask with a question", ["ask", script, "summary"], b"", 3, b"", unopened("summary")),
        ("ask with a third file", ["ask", script, script, script], b"", 2, b"", USAGE),
        ("ask, a policy that isn't there", ["ask", script, absent], b"verify\n", 3, b"", unopened(absent)),
        ("ask, a file that isn't there", ["ask", absent], b"summary\n", 3, b"", unopened(absent)),
        ("ask, a folder", ["ask", folder], b"summary\n", 3, b"", is_folder(folder)),
    ]


def cases(folder):
    """Each case: its name, the words, standard input, the status, standard output and standard error."""
    script = os.path.join(folder, "script")
    with open(script, "wb") as file:
        file.write(b"showtree 0\n")
    refused = os.path.join(folder, "refused")
    with open(refused, "wb") as file:
        file.write(b"no\n" * 5000)
    lines = b"".join(b"line %d E01 no such command\n" % number for number in range(1, 5001))
    captures = os.path.join(folder, "captures")
    with open(captures, "wb") as file:
        file.write(SHORT)
    blank = os.path.join(folder, "script ")
    with open(blank, "wb") as file:
        file.write(b"no\n")
    absent = os.path.join(folder, "absent")
    cannot = unopened(absent)
    blank_absent = absent + " "
    other = unopened(blank_absent)
    return [
        ("no words", [], b"showtree 0\n", 0, TREE, b""),
        ("no words and nothing to read", [], b"", 0, b"", b""),
        ("run -", ["run", "-"], b"showtree 0", 0, TREE, b""),
        ("run FILE", ["run", script], b"no\n", 0, TREE, b""),
        ("a refused line", ["run", "-"], b"no\n", 1, REFUSED, b""),
        ("a long script", ["run", refused], b"", 1, lines, b""),
        ("a file that isn't there", ["run", absent], b"", 3, b"", cannot),
        ("a folder", ["run", folder], b"", 3, b"", is_folder(folder)),
        ("help", ["--help"], b"", 0, USAGE, b""),
        ("help, short", ["-h"], b"", 0, USAGE, b""),
        ("help of a command", ["sweep", "--help"], b"", 0, USAGE, b""),
        ("version", ["--version"], b"", 0, VERSION, b""),
        ("version, short", ["-V"], b"", 0, VERSION, b""),
        ("version, JSON", ["--version", "--json"], b"", 0, VERSION_RECORD, b""),
        ("run with no file", ["run"], b"", 2, b"", USAGE),
        ("two files", ["run", script, script], b"", 2, b"", USAGE),
        ("an unknown word", ["walk"], b"", 2, b"", USAGE),
        ("check FILE CAPTURES", ["check", script, captures], b"no\n", 1, TREE + TOO_SHORT, b""),
        ("check - CAPTURES", ["check", "-", captures], b"no\n", 1, REFUSED + TOO_SHORT, b""),
        ("check FILE -", ["check", script, "-"], SHORT, 1, TREE + TOO_SHORT, b""),
        ("check - -", ["check", "-", "-"], b"showtree 0\n00\n", 1, TREE + b"line 2 E01 no such command\n" + NO_CAPTURES, b""),
        ("check with nothing to compare", ["check", script, "-"], b"# none\n \n", 1, TREE + NO_CAPTURES, b""),
        ("check with no captures", ["check", script, os.devnull], b"", 1, TREE + NO_CAPTURES, b""),
        ("captures that aren't there", ["check", script, absent], b"", 3, b"", cannot),
        ("captures that aren't there, of standard input's script", ["check", "-", absent], b"no\n", 3, b"", cannot),
        ("a script that isn't there", ["check", absent, captures], b"", 3, b"", cannot),
        ("captures in a folder", ["check", script, folder], b"", 3, b"", is_folder(folder)),
        ("check with no captures", ["check", script], b"", 2, b"", USAGE),
        ("run with captures", ["run", script, captures], b"", 2, b"", USAGE),
        ("check with a third file", ["check", script, captures, captures], b"", 2, b"", USAGE),
        ("two files that aren't there", ["check", absent, blank_absent], b"", 3, b"", cannot),
        ("the two the other way round", ["check", blank_absent, absent], b"", 3, b"", other),
        ("check FILE CAPTURES, the other way round", ["check", captures, script], b"", 1,
         b"line 2 E01 no such command\ncapture 1 B01 not hexadecimal\n", b""),
        ("a file whose name ends in a blank", ["run", blank], b"", 1, REFUSED, b""),
        ("an empty word", ["run", ""], b"", 3, b"", unopened("")),
        ("an empty command", [""], b"", 2, b"", USAGE),
        ("a command with a blank", ["run ", script], b"", 2, b"", USAGE),
    ]


# What is told of words that the program hasn't: what they were meant for.
NO_FLAG = "flags are --json and --hints, what a command takes stands without --"
MEANT = [
    (["help"], "help", "mstplan --help?"),
    (["version"], "version", "mstplan --version?"),
    (["Version"], "Version", "mstplan --version?"),
    (["-version"], "-version", "mstplan --version?"),
    (["--verson"], "--verson", "mstplan --version?"),
    (["run", "--version"], "--version", "mstplan --version?"),
    (["json", "run", "-"], "json", "--json?"),
    (["--JSON", "run", "-"], "--JSON", "--json?"),
    (["run", "-", "--jsn"], "--jsn", "--json?"),
    (["run", "-json", "-"], "-json", "--json?"),
    (["--hint", "run", "-"], "--hint", "--hints?"),
    (["run", "-", "--hint"], "--hint", "--hints?"),
    (["sweep", "-", "--pairs"], "--pairs", NO_FLAG),
    (["--summary", "-"], "--summary", NO_FLAG),
    (["steps", "-", "-", "--policy", "-"], "--policy", NO_FLAG),
    (["--fast"], "--fast", NO_FLAG),
    (["run", "-", "--json=yes"], "--json=yes", NO_FLAG),
    (["run", "-", "--\x1b[2J"], "--\\x1b[2J", NO_FLAG),
    (["run", "-", "--\x85\x9b"], "--\\x85\\x9b", NO_FLAG),
    # a word of one hyphen, which would be letters that each ask for something
    (["verify", "-", "-", "-hints"], "-hints", "--hints?"),
    (["verify", "-", "-", "-hint"], "-hint", "--hints?"),
    (["-help"], "-help", "mstplan --help?"),
    (["run", "-", "-help"], "-help", "mstplan --help?"),
    (["run", "-hjson", "-"], "-hjson", "--json?"),
    (["-Version"], "-Version", "mstplan --version?"),
    (["run", "-", "-Vx"], "-Vx", NO_FLAG),
    (["run", "-", "-hx"], "-hx", NO_FLAG),
    (["run", "-x"], "-x", NO_FLAG),
    (["run", "--help", "-x"], "-x", NO_FLAG),
    (["--fast", "-x"], "-x", NO_FLAG),
    (["-h", "-x"], "-x", NO_FLAG),
    (["--json", "run", "-x"], "-x", NO_FLAG),
    (["dot", "-", "-vlan", "10"], "-vlan", NO_FLAG),
    (["explain", "-", "A", "-1"], "-1", NO_FLAG),
    (["-campus.script"], "-campus.script", NO_FLAG),
]


def told_tame(word):
    """What the parser tells of words, in which this is quoted, with nothing in it that a terminal acts on."""
    return re.compile(rb"error: [ -~\n]*" + re.escape(word) + rb"[ -~\n]*")


def meant_cases():
    told = [(words, f"error: no such word {word}; {meant}\n".encode()) for words, word, meant in MEANT]
    return [
        *((f"a word that was meant for another, {words}", words, b"no\n", 2, b"", text) for words, text in told),
        ("a command that is nearly one", ["sumary", "-"], b"", 2, b"", USAGE),
        ("help of a command that there isn't", ["walk", "--help"], b"", 2, b"", USAGE),
        ("a file that is called as the version is", ["diff", "version"], b"", 2, b"", USAGE),
        ("a word of the parser's line with a control character", ["r\x1bun"], b"", 2, b"", told_tame(rb"r\x1bun")),
        ("a word of the parser's line with one above 7F", ["run", "-", "a\x9bb"], b"", 2, b"", told_tame(rb"a\x9bb")),
    ]


def steps_cases(folder):
    """What the steps of a change do to a policy. What else steps do is in steps_runs.py."""
    script = os.path.join(folder, "paired")
    parted = os.path.join(folder, "parted.change")
    with open(parted, "wb") as file:
        file.write(b"lan x down\n\nlan x up\n")
    told = b"""start unkept 1
fails 2 now root 0 A of 2
step 1 lines 1-1 roots 0 ports 0 moved 1-4094 cut 1-4094 joined -
cut 1-4094 parts A B
turns 0 B
fails 2 now root 0 A of 1
fails 3 now together 1 parts A B
step 2 lines 3-3 roots 0 ports 0 moved 1-4094 cut - joined 1-4094
turns 0 B
fails 2 now root 0 A of 2
mends 3
steps 2 moving 2 cutting 1 failing 1 unkept 1
"""
    records = [{"kind": "policy", "step": 0, "line": 0, "error": "E17", "text": "nothing to judge"},
               {"kind": "steps", "step_count": 0, "moving_count": 0, "cutting_count": 0, "failing_count": 0, "unkept_count": 0}]
    return [
        ("steps, what isn't kept before", ["steps", script, parted, "-"], b"# of both\nroot 0 B\ntogether 1 *\n", 1, told, b""),
        ("steps, of the end alone", ["steps", script, parted, "-"], b"finally root 0 A\nfinally together 1 *\n", 1,
         b"".join(line for line in told.splitlines(keepends=True) if line[:4] in (b"step", b"cut ", b"turn")).replace(b"failing 1 unkept 1", b"failing 0 unkept 0"), b""),
        ("steps with an empty policy", ["steps", script, os.devnull, "-"], b"", 1,
         b"policy 0 E17 nothing to judge\nsteps 0 moving 0 cutting 0 failing 0 unkept 0\n", b""),
        ("steps with an empty policy in JSON", ["steps", "--json", script, os.devnull, "-"], b"", 1, Json({"query": "steps", "records": records}), b""),
        ("steps, none, and a policy of the end", ["steps", script, os.devnull, "-"], b"finally root 0 B\n", 1,
         b"start unkept 1\nfails 1 now root 0 A of 2\nsteps 0 moving 0 cutting 0 failing 0 unkept 1\n", b""),
    ]


# A policy of which nothing can be judged.
NOTHING_JUDGED = b"policy 0 E17 nothing to judge\nverify expectations 0 hold 0\n"


def verify_cases(folder):
    """A policy that promises nothing, and promises of all in a network that has nothing: no status 0. What else is verified is in verify_runs.py."""
    script = os.path.join(folder, "paired")
    everything = os.path.join(folder, "of everything")
    with open(everything, "wb") as file:
        file.write(b"reach 10 *\nalways region *\n")
    no_bridge = b"policy 1 E04 no such bridge\npolicy 2 E04 no such bridge\nverify expectations 0 hold 0\n"
    return [
        ("verify with an empty policy", ["verify", script, "-"], b"", 1, NOTHING_JUDGED, b""),
        ("verify with a policy of comments", ["verify", script, "-"], b"# none\n\n", 1, NOTHING_JUDGED, b""),
        ("verify - -", ["verify", "-", "-"], PAIRED, 1, NOTHING_JUDGED, b""),
        ("verify - -, a refused line", ["verify", "-", "-"], b"no\n" + PAIRED, 1, REFUSED + NOTHING_JUDGED, b""),
        ("verify, all of an empty network", ["verify", "-", everything], b"", 1, no_bridge, b""),
    ]


def word_cases(folder):
    """The program's words as the system gives them: long ones, bytes that are no text, or that a terminal acts on, and names of files that
    read like flags."""
    long = os.path.join(folder, "a" * 300)
    no_text = b"error: a word isn't text in UTF-8\n"
    for name in FLAGS_AS_NAMES:
        with open(os.path.join(folder, name), "wb") as file:
            file.write(b"no\n")
    strange, shown = f"{folder}/\x1b[2J\x01\x7f\n\té", f"{folder}/\\x1b[2J\\x01\\x7f\\x0a\\x09é"
    return [
        ("a name that a terminal acts on", ["run", strange], b"", 3, b"", unopened(shown)),
        ("a command that a terminal acts on", [strange], b"", 2, b"", no_word(shown)),
        ("a name of 300 bytes", ["run", long], b"", 3, b"", f"mstplan: cannot open {long}\n".encode()),
        ("a name that isn't UTF-8", ["run", b"\xff"], b"", 2, b"", no_text),
        ("a command that isn't UTF-8", [b"r\xffn"], b"", 2, b"", no_text),
    ]


# What a script with hints prints (hint_runs.py), and what is explained of it, as JSON.
HINTED_JSON = [
    {"line": 1, "error": "E01", "text": "no such command"},
    {"line": 2, "error": "E01", "text": "no such command"},
    {"line": 4, "error": "E02", "text": "bad argument"},
    {"line": 5, "error": "E04", "text": "no such bridge"},
    {"line": 6, "error": "E02", "text": "bad argument"},
    {"line": 8, "error": "E09", "text": "port number taken"},
    {"line": 9, "error": "E06", "text": "no such LAN"},
    {"line": 10, "error": "E02", "text": "bad argument"},
    {
        "line": 11,
        "query": "showtree",
        "tree": 0,
        "records": [
            {"kind": "tree", "tree": 0},
            {
                "kind": "bridge",
                "tree": 0,
                "bridge": "B",
                "bridge_id": "8000.02:00:00:00:00:02",
                "root_id": "8000.02:00:00:00:00:02",
                "root": "B",
                "ext": 0,
                "regional_id": "8000.02:00:00:00:00:02",
                "regional": "B",
                "int": 0,
                "designated_id": "8000.02:00:00:00:00:02",
                "designated_bridge": "B",
                "designated_port_id": "0000",
                "receiver_id": "0000",
            },
        ],
    },
]
TOO_SHORT_JSON = {"kind": "capture", "line": 2, "error": "B02", "text": "too short"}
UNEXPLAINED_JSON = {"query": "explain", "error": "E05", "text": "no such port"}


class Json:
    """Bytes that are these values, one a line, each as short as JSON can be written, with its members in this order."""

    def __init__(self, *values):
        self.values = values

    def fits(self, text):
        """Whether a text is that."""
        lines = [json.dumps(value, separators=(",", ":")) + "\n" for value in self.values]
        return text == "".join(lines).encode()


# Files whose names are flags, or read like options.
FLAGS_AS_NAMES = ("--json", "--hints", "-x", "--help", "--")


def no_word(name):
    """What is told of a file that stands alone, without a command."""
    return f"error: no such word {name}; mstplan run {name}?\n".encode()


def alone_cases(folder):
    """A script's file without a command."""
    script = os.path.join(folder, "script")
    absent = os.path.join(folder, "absent")
    return [
        ("a file alone", [script], b"", 2, b"", no_word(script)),
        ("a file alone that isn't there", [absent], b"", 2, b"", no_word(absent)),
        ("a name alone with a full stop", ["campus.script"], b"", 2, b"", no_word("campus.script")),
        ("a file alone with a flag", ["--json", script], b"", 2, b"", no_word(script)),
        ("a file and a word", [script, "0"], b"", 2, b"", USAGE),
        ("a word that is no file", ["campus"], b"", 2, b"", USAGE),
    ]


def flag_cases(folder):
    """Cases of words with flags."""
    script = os.path.join(folder, "hinted.script")
    wrong = b"error: --json is a flag of run, check, explain, diff, sweep, summary, ask, verify, edits, steps, advise and path\n"
    gone = [
        {"kind": "reach", "vids": [[1, 4094]], "old_islands": [["B"]], "new_islands": []},
        {"kind": "diff", "region_count": 0, "root_count": 0, "port_count": 0, "vlan_count": 4094},
    ]
    same = [value for value in HINTED_JSON if "error" in value]
    return hint_runs.cases(folder) + [
        ("a check in JSON", ["check", "--json", script, "-"], SHORT, 1, Json(*HINTED_JSON, TOO_SHORT_JSON), b""),
        ("no JSON of a picture", ["dot", "--json", script, "0"], b"", 2, b"", wrong),
        ("no JSON of a picture of a VLAN", ["dot", script, "vlan", "10", "--json"], b"", 2, b"", wrong),
        ("a run in JSON", ["run", "--json", script], b"", 1, Json(*HINTED_JSON), b""),
        ("standard input in JSON", ["--json"], HINTED, 1, Json(*HINTED_JSON), b""),
        ("JSON and hints", ["--json", "run", "--hints", script], b"", 1, Json(*HINTED_JSON), HINTS),
        ("nothing to explain in JSON", ["explain", "--json", script, "B", "1"], b"", 1, Json(*same, UNEXPLAINED_JSON), b""),
        ("a difference in JSON", ["diff", "--json", script, os.devnull], b"", 1,
         Json(*({"side": "old", **value} for value in same), {"query": "diff", "records": gone}), b""),
    ]


def asked_cases(folder):
    """The cases of what is asked of a script's network."""
    return explain_cases(folder) + diff_cases(folder) + sweep_cases(folder) + summary_cases(folder) + dot_cases(folder) + advise_cases(folder) + ask_cases(folder) + verify_cases(folder) + steps_cases(folder)


def fits(text, expected):
    """Whether a text is what is expected: it, or what fits it."""
    if isinstance(expected, re.Pattern):
        return expected.fullmatch(text) is not None
    if isinstance(expected, Json):
        return expected.fits(text)
    return b"Usage: mstplan" in text if expected is USAGE else text == expected


def run(program, words, given, out=subprocess.PIPE, seconds=60):
    return subprocess.run([program] + words, input=given, stdout=out, stderr=subprocess.PIPE, timeout=seconds)


def check(program, name, words, given, status, out, err):
    ran = run(program, words, given)
    if ran.returncode == status and fits(ran.stdout, out) and fits(ran.stderr, err):
        return True
    print(f"FAILED {name}: status {ran.returncode}, {ran.stdout[:200]!r}, {ran.stderr[:200]!r}")
    return False


def check_helps(program):
    """The help of each word: its flags and statuses, two examples of that word, and no line of over 100 letters; and one number of the release."""
    wrong = []
    for word in re.findall(r"^  ([a-z]+)  ", run(program, ["--help"], b"").stdout.decode().partition("Options:")[0], re.MULTILINE):
        told = run(program, [word, "--help"], b"").stdout.decode()
        examples = re.findall(r"^  .*\bmstplan (\w+) .*$", told.partition("Examples:\n")[2], re.MULTILINE)
        is_whole = "Flags: --" in told and "Exit status: 0, or 1 where" in told and len(examples) == 2 and word in examples[0]
        wrong += [] if is_whole and max(map(len, told.splitlines())) <= 100 else [word]
    release = run(program, ["--version"], b"").stdout.split()[1]
    wrong += [] if b'"release":"' + release + b'"' in run(program, ["--version", "--json"], b"").stdout else ["--version"]
    if wrong:
        print(f"FAILED the help of {' '.join(wrong)}")
    return not wrong


def check_full(program, words, given):
    """Standard output that takes nothing, in a script's answer and in the help text."""
    with open("/dev/full", "wb") as full:
        ran = run(program, words, given, full)
    if ran.returncode == 3 and ran.stderr == b"mstplan: write fault\n":
        return True
    print(f"FAILED a full device, {words}: status {ran.returncode}, {ran.stderr[:200]!r}")
    return False


def forms_of_rules():
    """The forms of a script's commands, by the table of docs/RULES.md."""
    with open(os.path.join(TOP, "docs", "RULES.md"), encoding="utf-8") as file:
        rules = file.read()
    forms = set()
    for row in rules.split("| Line | What it does |")[1].split("\n\n")[0].splitlines()[2:]:
        quoted = re.findall("`([^`]*)`", row.split("|")[1])
        whole = [form for form in quoted if form not in ("all", "none")]
        others = [whole[0].replace("VIDS", form) for form in quoted if form not in whole]
        forms.update(whole + others)
    return forms


def forms_of_page(page):
    """The forms of the commands that the page at the end of the help has."""
    forms = set()
    for line in page.split("\n\n")[0].splitlines()[1:]:
        *words, last = line.strip().split("  ")[0].split()
        forms.update(" ".join(words + [choice]) for choice in last.split("|"))
    return forms


def check_page(program):
    """The help has the program's words, then the commands that docs/RULES.md has, the exit statuses, and where more is told."""
    told = run(program, ["--help"], b"").stdout.decode()
    words, begun, page = told.partition("\nCommands of a script,")
    statuses = re.findall(r"^  (\d)  \S", page.partition("\nExit statuses:\n")[2], re.MULTILINE)
    is_whole = words.startswith("Plans networks of spanning trees.") and "\nUsage: mstplan [COMMAND]\n" in words
    is_ended = told.endswith("\n\ndocs/RULES.md in the repository has the whole language, and all that is printed.\n")
    if begun and is_whole and is_ended and statuses == ["0", "1", "2", "3"] and forms_of_page(page) == forms_of_rules():
        return True
    print(f"FAILED the help page: {forms_of_page(page) ^ forms_of_rules()}, {statuses}, {words[:200]!r}, {told[-200:]!r}")
    return False


def check_terminal(program, words, typed, status, out, err):
    """A script that is typed at a terminal. Where the system has none to give, there is nothing to check."""
    try:
        terminal, given = pty.openpty()
    except OSError as error:
        print(f"no terminal, {words}: {error}")
        return True
    try:
        os.write(terminal, typed + b"\x04")
        ran = subprocess.run([program] + words, stdin=given, stdout=subprocess.PIPE, stderr=subprocess.PIPE, timeout=60)
    finally:
        os.close(given)
        os.close(terminal)
    if (ran.returncode, ran.stdout, ran.stderr) == (status, out, err):
        return True
    print(f"FAILED a terminal, {words}: status {ran.returncode}, {ran.stdout[:200]!r}, {ran.stderr[:200]!r}")
    return False


def check_answered(program):
    """Lines that come through a pipe while it stays open: each is answered before the next one is given."""
    lines = [(b"no\n", REFUSED), (b"addlan x\nshowtree 0\n", TREE), (b"showplan", b""), (b"\n", b"tree 0\nvlan 1-4094\nactive -\nisland bridges - lans x\n")]
    with subprocess.Popen([program, "run", "-"], stdin=subprocess.PIPE, stdout=subprocess.PIPE, bufsize=0) as ran:
        for given, answer in lines:
            ran.stdin.write(given)
            told = told_within(ran.stdout, len(answer))
            if told != answer:
                ran.kill()
                print(f"FAILED {given!r} isn't answered before the next line: {told!r}")
                return False
        ran.stdin.close()
        return ran.wait(60) == 1 and ran.stdout.read() == b""


INVITED = b"mstplan: reading a script from the terminal, until Ctrl-D; --help tells of its commands\n"
ASKED_FOR = b"mstplan: reading questions from the terminal, until Ctrl-D; --help tells of them\n"


def check_closed(program, folder, words, closed, status, out, err):
    """Standard devices that are closed, or full, when the program is started. `closed` is what a shell writes for that."""
    words = [os.path.join(folder, word) if word in ("script", "captures", "hinted.script") else word for word in words]
    shell = ["sh", "-c", 'exec "$0" "$@" ' + closed, program] + words
    ran = subprocess.run(shell, stdin=subprocess.DEVNULL, stdout=subprocess.PIPE, stderr=subprocess.PIPE, timeout=60)
    if ran.returncode == status and fits(ran.stdout, out) and fits(ran.stderr, err):
        return True
    print(f"FAILED {words} {closed}: status {ran.returncode}, {ran.stdout[:200]!r}, {ran.stderr[:200]!r}")
    return False


def closed_cases():
    read = b"mstplan: read fault\n"
    write = b"mstplan: write fault\n"
    return [
        (["check", "-", "captures"], "<&-", 3, b"", read),
        (["check", "script", "-"], "<&-", 3, TREE, read),
        (["run", "-"], "<&-", 3, b"", read),
        (["run", "script"], "<&-", 0, TREE, b""),
        (["run", "script"], ">&-", 3, b"", write),
        (["run", "script"], "<&- >&-", 3, b"", write),
        (["--help"], ">&-", 3, b"", write),
        (["--version"], ">&-", 3, b"", write),
        (["run", "script"], "2>&-", 0, TREE, b""),
        (["run", "absent"], "2>&-", 3, b"", b""),
        (["run", "absent"], "2>/dev/full", 3, b"", b""),
        (["walk"], "2>&-", 2, b"", b""),
        (["walk"], "2>/dev/full", 2, b"", b""),
        (["--fast"], "2>&-", 2, b"", b""),
        (["--help"], "2>&-", 0, USAGE, b""),
        (["--version"], "2>&-", 0, VERSION, b""),
        (["--help"], ">&- 2>&-", 3, b"", b""),
        (["run", "script"], ">&- 2>&-", 3, b"", b""),
        (["run", "-"], "<&- 2>&-", 3, b"", b""),
        (["explain", "-", "A", "1"], "<&-", 3, b"", read),
        (["explain", "script", "A", "1"], ">&-", 3, b"", write),
        (["sweep", "-"], "<&-", 3, b"", read),
        (["diff", "script", "-"], "<&-", 3, b"", read),
        (["diff", "script", "script"], ">&-", 3, b"", write),
        (["ask", "script"], "<&-", 3, b"done 0\n", read),
        (["ask", "script"], ">&-", 3, b"", write),
        (["ask", "-"], "<&-", 3, b"", read),
    ]


def failing_hints():
    """Hints that can't be written: the run is as ever, and the status tells it."""
    words = ["run", "--hints", "hinted.script"]
    return [(words, "2>&-", 3, HINTED_RUN, b""), (words, "2>/dev/full", 3, HINTED_RUN, b"")]


def check_sample(program):
    """What captures.py makes of a sample of tcpdump, compared with the plan of its network."""
    maker = [sys.executable, os.path.join(TOP, "tools", "captures.py"), os.path.join(SAMPLES, "triangle.tcpdump")]
    made = subprocess.run(maker, stdout=subprocess.PIPE, stderr=subprocess.DEVNULL, timeout=60, check=True).stdout
    ran = run(program, ["check", os.path.join(SAMPLES, "triangle.script"), "-"], made)
    told = ran.stdout.splitlines()[-2:]
    if ran.returncode == 1 and told == [b"capture 2 A:2 agrees", b"capture 4 A:2 role plan 3 capture 2"]:
        return True
    print(f"FAILED a sample of tcpdump: status {ran.returncode}, {told}")
    return False


def check_left(program, folder):
    """Who reads standard output closes it after a line: the program ends quietly, whatever it would still tell."""
    path = os.path.join(folder, "many.script")
    with open(path, "wb") as file:
        file.write(b"no\n" * 100_000)
    passed = True
    for words in (["run", path], ["run", "--hints", path], ["summary", path], ["run", "--json", path], ["ask", path]):
        with open(os.path.join(folder, "many.errors"), "w+b") as errors:
            with subprocess.Popen([program, *words], stdin=subprocess.DEVNULL, stdout=subprocess.PIPE, stderr=errors) as ran:
                first = ran.stdout.readline()
                ran.stdout.close()
                status = ran.wait(60)
            errors.seek(0)
            told = b"" if "--hints" in words else errors.read()
        if (status, told) != (0, b"") or b"E01" not in first:
            print(f"FAILED {words} | head -1: status {status}, {first!r}, {told[:200]!r}")
            passed = False
    return passed


def check_dashes(program, folder):
    """Behind a word `--` each word is what it says, and none is a flag or an option."""
    refused = [{"line": 1, "error": "E01", "text": "no such command"}]
    both = b"old line 1 E01 no such command\nnew line 1 E01 no such command\n" + NO_DIFFERENCE
    cases = [
        *((["run", "--", name], 1, REFUSED, b"") for name in FLAGS_AS_NAMES),
        (["run", "--json", "--", "--hints"], 1, Json(*refused), b""),
        (["--json", "run", "--", "--json"], 1, Json(*refused), b""),
        (["diff", "--", "--json", "--hints"], 1, both, b""),
        (["explain", "--", "-", "A", "-1"], 1, BAD, b""),
        (["run", "./--json"], 1, REFUSED, b""),
        (["run", "--", "-"], 0, b"", b""),
        (["run", "--", "-", "--pairs"], 2, b"", USAGE),
        (["run", "--", "-x", "-x"], 2, b"", USAGE),
        (["run", "--"], 2, b"", USAGE),
        (["run", "-x"], 2, b"", f"error: no such word -x; {NO_FLAG}\n".encode()),
        (["--", "run", "-x"], 2, b"", USAGE),
    ]
    passed = True
    for words, status, out, err in cases:
        ran = subprocess.run([program, *words], input=b"", capture_output=True, timeout=60, check=False, cwd=folder)
        if not (ran.returncode == status and fits(ran.stdout, out) and fits(ran.stderr, err)):
            print(f"FAILED {words}: status {ran.returncode}, {ran.stdout[:200]!r}, {ran.stderr[:200]!r}")
            passed = False
    return passed


def check_called(program, folder):
    """The name that the program is called by is no flag and no `--`, whatever it is."""
    refused = {"line": 1, "error": "E01", "text": "no such command"}
    path = os.path.join(folder, "called.script")
    with open(path, "wb") as file:
        file.write(b"no\n")
    passed = True
    for name in ("--json", "--hints", "--", "-x", "", "run"):
        for words, out in ((["run", path], REFUSED), (["run", path, "--json"], Json(refused))):
            ran = subprocess.run([name, *words], executable=program, stdin=subprocess.DEVNULL, capture_output=True, timeout=60, check=False)
            if not (ran.returncode == 1 and fits(ran.stdout, out) and ran.stderr == b""):
                print(f"FAILED called {name!r}, {words}: status {ran.returncode}, {ran.stdout[:200]!r}, {ran.stderr[:200]!r}")
                passed = False
    return passed


def check_unread(program, folder):
    """Standard output, or standard error, that who was to read it has closed before the program is started: it ends quietly, and the status is
    0, or what it is without a reader of errors."""
    path, absent = os.path.join(folder, "called.script"), os.path.join(folder, "absent")
    cases = [
        *(("stdout", words, 0) for words in (["--help"], ["--version"], ["sweep", "--help"], ["run", path], ["run", "--json", path], ["summary", path])),
        *(("stdout", words, 0) for words in (["verify", path, os.devnull], ["check", path, os.devnull], ["ask", path])),
        *(("stderr", words, 3) for words in (["run", absent], ["run", "--hints", path])),
        *(("stderr", words, 2) for words in (["walk"], ["--fast"], [path], ["sweep", path, "1"])),
        *(("stderr", words, 0) for words in (["--help"], ["--version"])),
    ]
    passed = True
    for device, words, status in cases:
        reading, writing = os.pipe()
        os.close(reading)
        how = {"stdout": subprocess.PIPE, "stderr": subprocess.PIPE, device: writing}
        ran = subprocess.run([program, *words], stdin=subprocess.DEVNULL, timeout=60, check=False, **how)
        os.close(writing)
        if ran.returncode != status or (device == "stdout" and ran.stderr):
            print(f"FAILED {device} that no one reads, {words}: status {ran.returncode}, {ran.stderr!r}")
            passed = False
    return passed


def check_denied(program, folder):
    """A file that may not be read. Who is root may read each, and runs the program as another user, if that one may run it."""
    path = os.path.join(folder, "denied.script")
    with open(path, "wb") as file:
        file.write(b"no\n")
    os.chmod(path, 0)
    other = {"user": NOBODY, "group": NOBODY} if os.access(path, os.R_OK) else {}
    try:
        subprocess.run([program, "--version"], capture_output=True, timeout=60, check=True, cwd="/", **other)
    except (OSError, subprocess.SubprocessError) as error:
        print(f"no file is denied: {error}")
        return True
    passed = True
    for words in (["run", path], ["diff", "-", path], ["ask", path], ["check", path, "absent"], ["summary", "--json", path]):
        ran = subprocess.run([program, *words], input=b"no\n", capture_output=True, timeout=60, check=False, cwd="/", **other)
        if (ran.returncode, ran.stdout, ran.stderr) != (3, b"", unopened(path, "permission denied")):
            print(f"FAILED denied, {words}: status {ran.returncode}, {ran.stdout[:200]!r}, {ran.stderr[:200]!r}")
            passed = False
    return passed


def main():
    if len(sys.argv) != 2:
        sys.exit(__doc__)
    program = os.path.abspath(sys.argv[1])
    with tempfile.TemporaryDirectory() as folder:
        passed = [check(program, *case) for case in cases(folder) + word_cases(folder) + alone_cases(folder) + meant_cases() + asked_cases(folder) + flag_cases(folder) + line_runs.cases(folder)]
        passed += [
            check_full(program, [], b"showtree 0\n"),
            check_full(program, ["check", "-", os.devnull], b"showtree 0\n"),
            check_full(program, ["explain", "-", "A", "1"], QUIET),
            check_full(program, ["diff", "-", "-"], QUIET),
            check_full(program, ["sweep", "-"], QUIET),
            check_full(program, ["ask", "-"], QUIET),
            check_full(program, ["verify", "-", "-"], QUIET),
            check_full(program, ["edits", "-", "-"], QUIET),
            check_full(program, ["steps", "-", "-"], QUIET),
            check_full(program, ["advise", "-", "root", "0", "A"], QUIET),
            check_full(program, ["dot", "-", "vlan", "10"], QUIET),
            check_full(program, ["--help"], b""),
            check_full(program, ["--version"], b""),
            check_page(program),
            check_helps(program),
            check_terminal(program, [], b"showtree 0\n", 0, TREE, INVITED),
            check_terminal(program, [], b"", 0, b"", INVITED),
            check_terminal(program, ["run", "-"], b"no\n", 1, REFUSED, b""),
            check_terminal(program, ["ask", os.devnull], b"no\n", 1, b"done 0\n" + REFUSED + b"done 1\n", ASKED_FOR),
            check_terminal(program, ["ask", "-"], b"no\n", 1, REFUSED + b"done 1\n", b""),
            check_answered(program),
            check_sample(program),
            check_left(program, folder),
            check_denied(program, folder),
            check_dashes(program, folder),
            check_called(program, folder),
            check_unread(program, folder),
        ]
        passed += [check_closed(program, folder, *case) for case in closed_cases() + failing_hints()]
        passed += hint_runs.checks(program, folder)
        passed += ask_runs.checks(program, folder)
        passed += verify_runs.checks(program, folder)
        passed += edits_runs.checks(program, folder)
        passed += steps_runs.checks(program, folder)
        passed += advise_runs.checks(program, folder)
        passed += pairs_runs.checks(program, folder)
        passed += path_runs.checks(program, folder)
        passed += large_runs.checks(program, folder)
        passed += size_runs.checks(program, folder)
    print(f"{sum(passed)} passed, {len(passed) - sum(passed)} failed")
    sys.exit(0 if all(passed) else 1)


main()
