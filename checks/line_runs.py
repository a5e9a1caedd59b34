"""Lines at the limit of their length, with other ends than a line feed, or with no end; and captures at the limit of their messages: program.py
runs them."""

import os

REFUSED = b"line 1 E01 no such command\n"
TREE_OF_A = b"""tree 0
bridge A 8000.02:00:00:00:00:01 root 8000.02:00:00:00:00:01 ext 0 regional 8000.02:00:00:00:00:01 int 0 from 8000.02:00:00:00:00:01 0000 at 0000
"""
# Scripts with what they print: carriage returns, tabs and blanks, other bytes in comments, and no line feed at the end.
SCRIPTS = [
    (b"\n# comment\n   \t \n\t# \x7f more\n\n", b""),
    (b"addlan X\naddlan X", b"line 2 E07 name taken\n"),
    (b"addlan X\r\n\r\naddlan X\r\nkind A\r\n", b"line 3 E07 name taken\nline 4 E01 no such command\n"),
    (b"addbridge A 02:00:00:00:00:01\r\n\tshowtree\t0", TREE_OF_A),
    (b"mstplan 2\r\naddlan X\r\nsave\r\n", b"mstplan 2\naddlan X\n"),
    (b"\t mstplan   2 \naddbridge A 02:00:00:00:00:01\nsettreeprio A 0 8\n", b"line 3 E02 bad argument\n"),
]
# How long a comment is, or what makes a first line longer, and what it prints.
COMMENTS = [(4096, b""), (4097, REFUSED), (9000, REFUSED)]
VERSIONS = [(4087, b""), (4088, REFUSED), (9000, REFUSED)]
NOT_HEXADECIMAL = b"capture 2 B01 not hexadecimal\n"
# What stands behind many tabs in a line of captures, and what that line prints.
ENDS = [(b"", b""), (b"#0", b""), (b"\r", b""), (b"0", NOT_HEXADECIMAL), (b"\r#", NOT_HEXADECIMAL)]
# A bridge of a region that sends by its port 2, its message up to the length of its MSTI messages and from there on, and such a message.
REGION = b"""addbridge A 02:00:00:00:00:01
addbridge B 02:00:00:00:00:02
setmstconfid A 1 area
setmstconfid B 1 area
addlan X
addport A 1
addport B 1
plug A 1 X
plug B 1 X
addlan Y
addport B 2
plug B 2 Y
"""
BEFORE = b"0000 03 02 7c 8000020000000001 00000000 8000020000000001 8002 0000 1400 0200 0f00 00 "
BEHIND = b" 00 61726561" + b" 00" * 28 + b" 0001 ac36177f50283cd4b83821d8ab26de62 00004e20 8000020000000002 13"
MESSAGE = b" 7c 8001020000000001 00004e20 80 80 13"
BAD_LENGTH = b"capture 1 B06 version 3 length\n"
MESSAGES = [(b"ffff", 0, BAD_LENGTH), (b"0450", 65, BAD_LENGTH), (b"0440", 63, BAD_LENGTH), (b"0440", 64, b"capture 1 B:2 msti 1 unplanned\n" * 64)]


def run_cases():
    """Scripts of standard input."""
    cases = [(f"a script with ends of all kinds, {script!r}", script, out) for script, out in SCRIPTS]
    cases += [(f"a comment of {count} bytes, end {end!r}", b"#" * count + end, out) for count, out in COMMENTS for end in (b"", b"\n", b"\r\n")]
    cases += [(f"a first line with {count} blanks", b"mstplan 2" + b" " * count, out) for count, out in VERSIONS]
    return [(name, ["run", "-"], script, 1 if b" E0" in out else 0, out, b"") for name, script, out in cases]


def check_cases(folder):
    """Captures of standard input."""
    refused, region = os.path.join(folder, "refused.script"), os.path.join(folder, "region.script")
    for path, text in ((refused, b"no\n"), (region, REGION)):
        with open(path, "wb") as file:
            file.write(text)
    cases = [
        (f"a capture of {count} tabs, end {end!r}", ["check", refused, "-"], b"# none\n" + b"\t" * count + end + b"\n00\n", REFUSED + out + b"capture 3 B02 too short\n")
        for count in (0, 4096, 4097, 4098, 9000)
        for end, out in ENDS
    ]
    cases += [("a capture of 4097 digits", ["check", os.devnull, "-"], b"0" * 4097, b"capture 1 B01 not hexadecimal\n")]
    cases += [(f"{count} messages of length {length}", ["check", region, "-"], BEFORE + length + BEHIND + MESSAGE * count, out) for length, count, out in MESSAGES]
    return [(name, words, captures, 1, out, b"") for name, words, captures, out in cases]


def cases(folder):
    """Each case: its name, the words, standard input, the status, standard output and standard error."""
    told = b"done 0\ndone 0\nundone addlan X\ndone 0\n"
    asked = ("questions with ends of all kinds", ["ask", os.devnull], b"addlan X\r\n undo \t 1", 0, told, b"")
    return [*run_cases(), *check_cases(folder), asked]
