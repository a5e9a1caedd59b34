"""Hints of scripts (`--hints`), for program.py: with each word of the program, of scripts that come by pipes, and when they come."""

import itertools
import os
import select
import subprocess
import threading
import time

HERE = os.path.dirname(os.path.abspath(__file__))
SECONDS = 20
# The program reads so many bytes of a file at a time.
CHUNK = 4096

# A script whose lines are refused in each way that has a hint, and one that hasn't. What is printed is that of the rules.
HINTED = b"""addbrigde dist1 02:00:00:00:00:01
settreeprio B 0
addbridge B 02:00:00:00:00:02
settreeprio B 0 4096
bridge dist1 off
addport B 0
addport B 1
addport B 1
plug B 1 L
delport B 0
showtree 0
"""
HINTED_LINES = b"""line 1 E01 no such command
line 2 E01 no such command
line 4 E02 bad argument
line 5 E04 no such bridge
line 6 E02 bad argument
line 8 E09 port number taken
line 9 E06 no such LAN
line 10 E02 bad argument
"""
HINTED_TREE = b"""tree 0
bridge B 8000.02:00:00:00:00:02 root 8000.02:00:00:00:00:02 ext 0 regional 8000.02:00:00:00:00:02 int 0 from 8000.02:00:00:00:00:02 0000 at 0000
"""
HINTED_RUN = HINTED_LINES + HINTED_TREE
HINTS = b"""line 1 no command addbrigde; addbridge?
line 2 settreeprio takes B TREE PRIO; 2 words stand here
line 4 settreeprio B TREE PRIO: PRIO is 0 to 15, in steps of 4096; 4096 is 1
line 5 no bridge dist1: line 1 was to add it
line 6 addport B P: P is 1 to 4095
line 8 port B:1 is there since line 7
line 9 no LAN L
line 10 delport B P: P is 1 to 4095
"""
# What is told of its network, which is a lone bridge with a port in no LAN.
EXPLAINED = b"explain E05 no such port\n"
SUMMARY = b"""bridges 1 on 1 ports 0 enabled 0 regions 1 trees 1
tree 0 root B 32768 of 1 next -
blocked 0 -
vlan 1-4094 islands 1
"""
SWEPT = b"bridge B roots - ports 0 cut -\nsweep lans 0 bridges 1 cuts 0\n"
IN_PAIRS = b"sweep pairs 0 cuts 0\n"
DRAWN = b"""graph "tree 0" {
  graph [label="tree 0", nodesep=0.6, ranksep=0.8];
  edge [fontsize=10, labeldistance=1.8];
  "B" [peripheries=2];
}
"""
DIFFERENCE = b"diff regions 0 roots 0 ports 0 vlans 0\n"
# Another script, which leaves no network.
MISSPELT = b"addlna x\nlan x up\n"
MISSPELT_LINES = b"line 1 E01 no such command\nline 2 E06 no such LAN\n"
MISSPELT_HINTS = b"line 1 no command addlna; addlan?\nline 2 no LAN x: line 1 was to add it\n"
TO_NOTHING = b"reach 1-4094 B -> -\ndiff regions 0 roots 0 ports 0 vlans 4094\n"
# A bridge that has as many trees as one may have, and gets one more; records that are taken away while something holds them, also
# where what was put there first has gone; and a MAC address that is had already.
FULL = b"".join([b"addbridge a 02:00:00:00:00:01\n", *(b"setvid2mstid a %d %d\n" % (tree, tree) for tree in range(1, 66)),
                 b"addport a 2\naddport a 1\naddlan l\nplug a 2 l\nplug a 1 l\ndellan l\ndelbridge a\nunplug a 2\ndellan l\ndelport a 2\ndelbridge a\n",
                 b"addbridge b 02:00:00:00:00:01\n"])
FULL_LINES = b"""line 66 E15 more than 64 trees
line 72 E13 LAN has plugs
line 73 E12 bridge has ports
line 75 E13 LAN has plugs
line 77 E12 bridge has ports
line 78 E08 MAC taken
"""
FULL_HINTS = b"""line 66 bridge a has 64 trees besides tree 0
line 72 LAN l has port a:2; unplug comes first
line 73 bridge a has port a:2; delport comes first
line 75 LAN l has port a:1; unplug comes first
line 77 bridge a has port a:1; delport comes first
line 78 bridge a has this MAC address since line 1
"""
# Queries, which are refused where they are asked, and the last one anywhere, since it can't be read.
ASKING = b"changes\nshowmstconfid x\nshowtree 4095\n"
ASKING_LINES = b"line 1 E16 no mark\nline 2 E04 no such bridge\nline 3 E03 bad VID or tree\n"
ASKING_HINTS = b"""line 1 a line with mark comes first; changes tells what differs from the network as it was there
line 2 no bridge x
line 3 showtree TREE: TREE is 0 to 4094
"""
UNREAD_LINE, UNREAD_HINT = ASKING_LINES[ASKING_LINES.index(b"line 3"):], ASKING_HINTS[ASKING_HINTS.index(b"line 3"):]
NO_NETWORK = b"bridges 0 on 0 ports 0 enabled 0 regions 0 trees 0\nvlan 1-4094 islands 0\n"
CAPTURES = b"# none\n00\n"
TOO_SHORT = b"capture 2 B02 too short\n"
# What a check prints of captures without a message.
UNCHECKED = b"check captures 0 agree 0\n"
# Lines of a policy that aren't read, each with its hint; and a change with two such lines, each of which is a step.
ALONE = "leaves stands by itself, without a scope or finally; it is judged in the last network"
PROMISES = {
    "rot 0 A": ("E01 no such expectation", "no expectation rot; root?"),
    "root 0 A B": ("E01 no such expectation", "root takes TREE B, or TREE B next C; 3 words stand here"),
    "root 4095 A": ("E03 bad VID or tree", "root TREE B: TREE is 0 to 4094"),
    "lan X root 0 A": ("E01 no such expectation", "no expectation lan; after lan?"),
    "after lan": ("E01 no such expectation", "after takes lan NAMES, bridge NAMES or risk NAMES, and an expectation behind it"),
    "always": ("E01 no such expectation", "a scope has an expectation behind it"),
    "role 0 A:1 Rootish": ("E02 bad argument", "role TREE PORTS ROLES: ROLES is of Root, Designated, Alternate, Backup, Master and Disabled, "
                           "as in Root,Designated"),
    "reach 1 * # all": ("E01 no such expectation", "a comment is a line of its own"),
    "showtree 0": ("E01 no such expectation", "no expectation showtree; that is a command of scripts"),
    "always always fits": ("E01 no such expectation", "no expectation always; a line has one scope"),
    "always finally fits": ("E01 no such expectation", "no expectation finally; finally comes first"),
    "finally": ("E01 no such expectation", "finally has an expectation behind it"),
    "Finally fits": ("E01 no such expectation", "no expectation Finally; finally?"),
    "always leaves 1 A": ("E01 no such expectation", ALONE), "finally leaves 1 A": ("E01 no such expectation", ALONE),
    "after lan # leaves 1 A": ("E01 no such expectation", ALONE),
    "leaves 1": ("E01 no such expectation", "leaves takes VIDS NAMES; 1 word stands here"),
    "leaves 0 A": ("E03 bad VID or tree", "leaves VIDS NAMES: VIDS is VIDs of 1 to 4094 as in 1-9,20"),
    "hops 1 *": ("E01 no such expectation", "hops takes VIDS N NAMES; 2 words stand here"),
    "via 1 A B": ("E01 no such expectation", "via takes VIDS A B C; 3 words stand here"),
    "finally together 1": ("E01 no such expectation", "together takes VIDS NAMES; 1 word stands here"),
}
POLICY = "".join(f"{line}\n" for line in PROMISES).encode()
POLICY_LINES = "".join(f"policy {number} {told}\n" for number, (told, _) in enumerate(PROMISES.values(), 1)).encode()
POLICY_HINTS = "".join(f"policy line {number} {hint}\n" for number, (_, hint) in enumerate(PROMISES.values(), 1)).encode()
VERIFIED = b"verify expectations 0 hold 0\n"
CHANGE = b"settreeprio A 0 4096\n\nbridg A off\n"
STEPS = b"""change 1 E02 bad argument
step 1 lines 1-1 roots - ports 0 moved - cut - joined -
change 3 E01 no such command
step 2 lines 3-3 roots - ports 0 moved - cut - joined -
steps 2 moving 0 cutting 0%s
"""
CHANGE_HINTS = b"""change line 1 settreeprio B TREE PRIO: PRIO is 0 to 15, in steps of 4096; 4096 is 1
change line 3 no command bridg; bridge?
"""


def of_side(side, lines):
    """These lines, of one of two scripts."""
    return b"".join(side + b" " + line for line in lines.splitlines(keepends=True))


def cases(folder):
    """Each case: its name, the words, standard input, the status, standard output and standard error."""
    script, other, captures = (os.path.join(folder, name) for name in ("hinted.script", "misspelt.script", "hinted.captures"))
    change = os.path.join(folder, "hinted.change")
    for path, text in ((script, HINTED), (other, MISSPELT), (captures, CAPTURES), (change, CHANGE)):
        with open(path, "wb") as file:
            file.write(text)
    both = of_side(b"old", HINTED_LINES) + of_side(b"new", MISSPELT_LINES)
    both_hints = of_side(b"old", HINTS) + of_side(b"new", MISSPELT_HINTS)
    return [
        ("hints of a run", ["run", "--hints", script], b"", 1, HINTED_RUN, HINTS),
        ("hints behind the script", ["run", script, "--hints"], b"", 1, HINTED_RUN, HINTS),
        ("hints of standard input", ["--hints"], HINTED, 1, HINTED_RUN, HINTS),
        ("hints of run -", ["run", "-", "--hints"], HINTED, 1, HINTED_RUN, HINTS),
        ("hints of a last line without an end", ["run", "--hints", "-"], MISSPELT[:-1], 1, MISSPELT_LINES, MISSPELT_HINTS),
        ("hints of queries", ["run", "--hints", "-"], ASKING, 1, ASKING_LINES, ASKING_HINTS),
        ("hints of queries that aren't asked", ["summary", "--hints", "-"], ASKING, 1, UNREAD_LINE + NO_NETWORK, UNREAD_HINT),
        ("hints of two scripts' queries", ["diff", "--hints", os.devnull, "-"], ASKING, 1, of_side(b"new", UNREAD_LINE) + DIFFERENCE,
         of_side(b"new", UNREAD_HINT)),
        ("hints of what is full or held", ["run", "--hints", "-"], FULL, 1, FULL_LINES, FULL_HINTS),
        ("no hints of what isn't refused", ["run", "--hints", "-"], b"showlag\n# addlna\n\n", 0, b"", b""),
        ("no hints of nothing", ["--hints"], b"", 0, b"", b""),
        ("hints of UTF-16", ["--hints"], b"\xff\xfem\0\n", 1, b"line 1 E01 no such command\n",
         b"line 1 this is UTF-16; a script is plain text of one byte a character\n"),
        ("hints of a pcap file", ["--hints"], b"\xd4\xc3\xb2\xa1\x02\n", 1, b"line 1 E01 no such command\n",
         b"line 1 this is a pcap file; tools/import/captures.py makes a script of it\n"),
        ("hints of a check", ["check", "--hints", script, os.devnull], b"", 1, HINTED_RUN + UNCHECKED, HINTS),
        ("hints of a check, and no hints of captures", ["check", "--hints", "-", captures], HINTED, 1, HINTED_RUN + TOO_SHORT, HINTS),
        ("hints of a check of standard input", ["check", "--hints", script, "-"], CAPTURES, 1, HINTED_RUN + TOO_SHORT, HINTS),
        ("hints and what isn't explained", ["explain", "--hints", script, "B", "1"], b"", 1, HINTED_LINES + EXPLAINED, HINTS),
        ("hints and a summary", ["--hints", "summary", "-"], HINTED, 1, HINTED_LINES + SUMMARY, HINTS),
        ("hints and failures", ["sweep", "--hints", script], b"", 1, HINTED_LINES + SWEPT, HINTS),
        ("hints and a part of them", ["sweep", script, "--hints", "1/1"], b"", 1, HINTED_LINES + SWEPT, HINTS),
        ("hints and pairs of failures", ["sweep", "-", "pairs", "--hints"], HINTED, 1, HINTED_LINES + IN_PAIRS, HINTS),
        ("hints and a picture", ["dot", "--hints", "-", "0"], HINTED, 1, HINTED_LINES + DRAWN, HINTS),
        ("hints of a script that is asked, and none of questions", ["ask", "--hints", script], b"no\nsummary\n", 1,
         HINTED_LINES + b"done 1\nline 1 E01 no such command\ndone 1\n" + SUMMARY + b"done 0\n", HINTS),
        ("hints of two scripts", ["diff", "--hints", script, other], b"", 1, both + TO_NOTHING, both_hints),
        ("hints of two scripts of edits", ["edits", "--hints", script, other], b"", 1, both + b"mstplan 2\ndelport B 1\ndelbridge B\n", both_hints),
        ("hints of a policy", ["verify", "--hints", os.devnull, "-"], POLICY, 1, POLICY_LINES + VERIFIED, POLICY_HINTS),
        ("hints of a script and its policy", ["verify", "--hints", script, "-"], POLICY, 1, HINTED_LINES + POLICY_LINES + VERIFIED, HINTS + POLICY_HINTS),
        ("hints of a change", ["steps", "--hints", os.devnull, "-"], CHANGE, 1, STEPS % b"", CHANGE_HINTS),
        ("hints of a change and a policy", ["steps", "--hints", os.devnull, change, "-"], POLICY, 1,
         POLICY_LINES + STEPS % b" failing 0 unkept 0", CHANGE_HINTS + POLICY_HINTS),
        ("hints of the new script", ["diff", "--hints", os.devnull, "-"], MISSPELT, 1, of_side(b"new", MISSPELT_LINES) + DIFFERENCE,
         of_side(b"new", MISSPELT_HINTS)),
        ("hints of all of standard input", ["diff", "--hints", "-", "-"], MISSPELT, 1, of_side(b"old", MISSPELT_LINES) + DIFFERENCE,
         of_side(b"old", MISSPELT_HINTS)),
    ]


# ---- scripts that can be read but once


def fed(path, text):
    """Writes a text into a named pipe, which waits for a reader."""

    def feed():
        with open(path, "wb") as pipe:
            pipe.write(text)

    writer = threading.Thread(target=feed, daemon=True)
    writer.start()
    return writer


def check_pipes(program, folder, words, texts, status, out, err):
    """Scripts and captures in named pipes, each of which is read once."""
    paths = {}
    for name, text in texts.items():
        paths[name] = os.path.join(folder, f"pipe {name} {time.monotonic_ns()}")
        os.mkfifo(paths[name])
        fed(paths[name], text)
    words = [program, *(paths.get(word, word) for word in words)]
    try:
        ran = subprocess.run(words, stdin=subprocess.DEVNULL, capture_output=True, timeout=SECONDS, check=False)
    except subprocess.TimeoutExpired:
        print(f"FAILED {words}: it waits for a pipe")
        return False
    if (ran.returncode, ran.stdout, ran.stderr) == (status, out, err):
        return True
    print(f"FAILED {words} of pipes: status {ran.returncode}, {ran.stdout[:200]!r}, {ran.stderr[:200]!r}")
    return False


def pipe_cases():
    """Words, what is in the pipes that they name, the status, standard output and standard error."""
    one, two = {"one": HINTED}, {"one": HINTED, "two": MISSPELT}
    both = of_side(b"old", HINTED_LINES) + of_side(b"new", MISSPELT_LINES)
    both_hints = of_side(b"old", HINTS) + of_side(b"new", MISSPELT_HINTS)
    return [
        (["run", "--hints", "one"], one, 1, HINTED_RUN, HINTS),
        (["summary", "--hints", "one"], one, 1, HINTED_LINES + SUMMARY, HINTS),
        (["sweep", "--hints", "one"], one, 1, HINTED_LINES + SWEPT, HINTS),
        (["dot", "--hints", "one", "0"], one, 1, HINTED_LINES + DRAWN, HINTS),
        (["explain", "--hints", "one", "B", "1"], one, 1, HINTED_LINES + EXPLAINED, HINTS),
        (["check", "--hints", "one", "two"], {"one": HINTED, "two": CAPTURES}, 1, HINTED_RUN + TOO_SHORT, HINTS),
        (["ask", "--hints", "one"], one, 1, HINTED_LINES + b"done 1\n", HINTS),
        (["diff", "--hints", "one", "two"], two, 1, both + TO_NOTHING, both_hints),
    ]


# ---- where they stand


def told_within(pipe, length):
    """What a program writes to a pipe, up to so many bytes."""
    told, until = b"", time.monotonic() + SECONDS
    while len(told) < length and select.select([pipe], [], [], max(0, until - time.monotonic()))[0]:
        part = os.read(pipe.fileno(), length - len(told))
        if not part:
            break
        told += part
    return told


def check_answered(program):
    """A hint comes before the next line is given, behind what the line prints."""
    lines = zip(HINTED.splitlines(keepends=True), itertools.count(1))
    hints = {int(hint.split()[1]): hint for hint in HINTS.splitlines(keepends=True)}
    refused = {int(line.split()[1]): line for line in HINTED_LINES.splitlines(keepends=True)}
    with subprocess.Popen([program, "--hints"], stdin=subprocess.PIPE, stdout=subprocess.PIPE, stderr=subprocess.STDOUT, bufsize=0) as ran:
        for line, number in lines:
            wanted = refused.get(number, b"") + hints.get(number, b"") if line != b"showtree 0\n" else HINTED_TREE
            ran.stdin.write(line)
            told = told_within(ran.stdout, len(wanted))
            if told != wanted:
                ran.kill()
                print(f"FAILED {line!r} is told, before the next line, {told!r}")
                return False
        ran.stdin.close()
        return ran.wait(SECONDS) == 1 and ran.stdout.read() == b""


def check_turns(program, folder):
    """Of a long script the hints of the lines that came with a part of it stand behind what these print, before what the next part prints."""
    lines = [b"addlna L%d\n" % number for number in range(1, 2001)]
    path = os.path.join(folder, "long.hinted")
    with open(path, "wb") as file:
        file.writelines(lines)
    ends = list(itertools.accumulate(map(len, lines)))
    wanted, chunks = b"", itertools.groupby(range(1, len(lines) + 1), lambda number: (ends[number - 1] - 1) // CHUNK)
    for numbers in (list(numbers) for _, numbers in chunks):
        wanted += b"".join(b"line %d E01 no such command\n" % number for number in numbers)
        wanted += b"".join(b"line %d no command addlna; addlan?\n" % number for number in numbers)
    words = [program, "run", "--hints", path]
    ran = subprocess.run(words, stdin=subprocess.DEVNULL, stdout=subprocess.PIPE, stderr=subprocess.STDOUT, timeout=SECONDS, check=False)
    if (ran.returncode, ran.stdout) == (1, wanted):
        return True
    print(f"FAILED hints in turn: status {ran.returncode}, {ran.stdout[:200]!r}")
    return False


def check_wrong(program):
    """The lines of wrong-lines.txt, each in a script of version 2, and its hint, of this line alone."""
    with open(os.path.join(HERE, "wrong-lines.txt"), encoding="ascii") as file:
        wrong = [line.rstrip("\n").split("\t") for line in file if not line.startswith("#")]
    script = "".join(line + "\n" for line in ["mstplan 2", *(line for line, _ in wrong)])
    ran = subprocess.run([program, "--hints"], input=script.encode(), capture_output=True, timeout=SECONDS, check=False)
    wanted = [f"line {number} {hint}" for number, (_, hint) in enumerate(wrong, 2)]
    told, refused = ran.stderr.decode().splitlines(), ran.stdout.count(b"\n")
    if (ran.returncode, told, refused) == (1, wanted, len(wrong)):
        return True
    differs = next((pair for pair in itertools.zip_longest(told, wanted) if pair[0] != pair[1]), None)
    print(f"FAILED wrong lines: status {ran.returncode}, {refused} refused, {differs}")
    return False


def checks(program, folder):
    """Whether hints come of pipes, and in turn, and what those of wrong lines say."""
    passed = [check_pipes(program, folder, *case) for case in pipe_cases()]
    return [*passed, check_answered(program), check_turns(program, folder), check_wrong(program)]
