#!/usr/bin/env python3
"""Marks lines by the syntax files (tools/editors/), and compares what they mark as wrong with what the program reads: no line that it reads is
marked, each that is no command or has another number of words (E01) is, but for a command alone, and Vim's file marks the same lines as VS Code's, where vim is
installed.

usage: syntax_runs.py PROGRAM

Lines are those of the samples, those of wrong-lines.txt, and each form of the tables with words that are right, wrong, more and fewer. The exit
status is 1 where something differs.
"""

import glob
import os
import re
import shutil
import subprocess
import sys
import tempfile

TOP = os.path.join(os.path.dirname(os.path.abspath(__file__)), os.pardir)
EDITORS = os.path.join(TOP, "tools", "editors")
# nothing is to be left beside what is imported
sys.dont_write_bytecode = True
sys.path.append(os.path.join(TOP, "docs"))

import json  # noqa: E402

import syntax  # noqa: E402

HERE = os.path.dirname(os.path.abspath(__file__))
# Words in the form of arguments, by what these are; and words that are in the form of none.
RIGHT = {"B": "core1", "L": "a-b.1", "MAC": "00:1B-21:aa:00:01", "CNAME": "EDGE/1!", "VIDS": "1-9,20", "VIDS|all|none": "none", "Tree": "2",
         "Steps": "3", "Next": "next", "FirstBridge": "acc1", "Bridge": "core1", "NextBridge": "9", "Lan": "x", "Vids": "10", "Names": "core*,x,*", "Ports": "core1:2,x*:*", "Roles": "Root,Disabled"}
SCOPES = ("always", "finally", "finally  always", "after lan x*,y", "finally after\tbridge *", "after risk x*,y", "finally after risk\t*")
SCOPES += ("always always", "always finally", "after x", "after lan", "after lan x:1", "after lan x always", "after risk", "after risk x:1")
# Lines of what fails together: right ones of LANs and of bridges.
RISKS = (["risk", "hall-a", "lan", "core*,x,*"], ["risk", "1", "bridge", "core1"])
WRONG = ("-x", "a_name_of_more_than_16", "1,,2", "é", "1-", "ab:", "maybe")
VIM = """set nocompatible
set encoding=utf-8
set runtimepath={runtime}
syntax on
edit {file}
set filetype={kind}
let told = []
for number in range(1, line('$'))
  let width = max([1, col([number, '$']) - 1])
  let first = synIDattr(synID(number, match(getline(number), '\\S') + 1, 1), 'name')
  let last = synIDattr(synID(number, match(getline(number), '\\S\\s*$') + 1, 1), 'name')
  call add(told, first . ' ' . last)
endfor
call writefile(told, '{told}')
qall!
"""


def words_of(argument):
    """A word in the form of an argument of a script."""
    return RIGHT.get(argument) or ("7" if syntax.OF_SCRIPTS[argument][0] == syntax.A_NUMBER else argument.split("|")[0])


def changed(words):
    """Words as they are, with one more, with one fewer, and with one that is wrong."""
    yield words
    yield [*words, "x"]
    yield words[:-1]
    yield from ([*words[:at], wrong, *words[at + 1:]] for at in range(len(words)) for wrong in WRONG)


def script_lines():
    """Lines of scripts, of which none is `mstplan 2`."""
    lines = [line.split("\t")[0] for line in open(os.path.join(HERE, "wrong-lines.txt"), encoding="utf-8").read().splitlines()]
    for path in sorted(glob.glob(os.path.join(TOP, "examples", "*.script"))):
        lines += open(path, encoding="utf-8").read().splitlines()
    for form, _ in syntax.commands.table():
        lines += [" ".join(it) for it in changed([form[0], *map(words_of, form[1:])])]
    return [it for it in dict.fromkeys(lines) if it.split() != ["mstplan", "2"]] + ["", " # x", "\tmark\t", "mstplan 3", "mark x"]


def policy_lines():
    lines = open(os.path.join(TOP, "examples", "campus.policy"), encoding="utf-8").read().splitlines()
    text = syntax.commands.read(syntax.POLICY)
    forms = re.findall(r'^    b"(\w+)" \w+ \[([\w ]*)\];$', text, re.MULTILINE)
    for right in [*([word, *(RIGHT[it] for it in arguments.split())] for word, arguments in forms), *RISKS]:
        lines += [" ".join(it) for it in changed(right)]
        lines += [f"{scope} {' '.join(right)}" for scope in SCOPES]
    return [*dict.fromkeys(lines), "", "always", "finally", "# x"]


# ---- what the files mark


def marked_by(grammar, lines):
    """Whether some of a line is wrong, by the grammar of VS Code, whose first match at its first place counts; for each line."""
    with open(os.path.join(EDITORS, "vscode", "syntaxes", grammar), encoding="utf-8") as file:
        patterns = [(re.compile(it["match"]), it) for it in json.load(file)["patterns"]]
    for line in lines:
        for pattern, its in patterns:
            if found := pattern.match(line):
                names = [(its["captures"][str(at)]["name"], text) for at, text in enumerate(found.groups(), start=1)] if "captures" in its else []
                yield any(name.startswith("invalid") and (text or "").strip() for name, text in names)
                break
        else:
            yield False


def marked_by_vim(kind, lines, folder):
    """The same, by Vim."""
    paths = {name: os.path.join(folder, f"{kind}.{name}") for name in ("file", "told", "vim")}
    with open(paths["file"], "w", encoding="utf-8") as file:
        file.write("".join(f"{line}\n" for line in [*lines, "#"]))
    runtime = ",".join([os.path.join(EDITORS, "vim"), *sorted(glob.glob("/usr/share/vim/vim[0-9]*"))])
    with open(paths["vim"], "w", encoding="utf-8") as file:
        file.write(VIM.format(runtime=runtime, kind=kind, **{it: paths[it] for it in ("file", "told")}))
    subprocess.run(["vim", "-u", "NONE", "-i", "NONE", "-es", "-S", paths["vim"]], stdin=subprocess.DEVNULL, capture_output=True, check=False, timeout=120)
    with open(paths["told"], encoding="utf-8") as file:
        return [it.endswith(("Wrong", "Rest")) for it in file.read().splitlines()][:len(lines)]


# ---- what the program reads


def refused(program, lines):
    """By number the code of each line of a script that isn't read."""
    ran = subprocess.run([program, "run", "-"], input="".join(f"{it}\n" for it in lines).encode(), capture_output=True, check=False)
    found = re.findall(r"^line (\d+) (E0[123]) ", ran.stdout.decode(errors="replace"), re.MULTILINE)
    return {int(number): code for number, code in found}


def refused_of_policy(program, lines, folder):
    """The same of a policy: the lines in front of what `steps` tells of its own network."""
    path = os.path.join(folder, "policy")
    with open(path, "w", encoding="utf-8") as file:
        file.write("".join(f"{it}\n" for it in lines))
    ran = subprocess.run([program, "steps", os.devnull, os.devnull, path], capture_output=True, check=False)
    front = ran.stdout.decode().partition("start unkept")[0]
    return {int(number): code for number, code in re.findall(r"^policy (\d+) (E0[123]) ", front, re.MULTILINE)}


def faults_of(what, lines, marked, codes, words):
    """Lines that are marked and read, or not marked and no command; one of a command alone is being typed."""
    for number, (line, is_marked) in enumerate(zip(lines, marked), start=1):
        code = codes.get(number)
        if is_marked and not code or code == "E01" and not is_marked and line.strip() not in words:
            yield f"{what}: {'marked' if is_marked else 'not marked'}, and the program says {code}: {line!r}"


def faults_of_vim(what, lines, marked, by_vim):
    if len(by_vim) != len(lines):
        yield f"{what}: Vim tells of {len(by_vim)} lines"
    for line, one, other in zip(lines, marked, by_vim):
        if one != other:
            yield f"{what}: VS Code {one}, Vim {other}: {line!r}"


def check(program):
    """What is wrong, and how many lines were looked at."""
    faults, count = [], 0
    with tempfile.TemporaryDirectory() as folder:
        scripts, policies = script_lines(), policy_lines()
        for kind, lines, rows, codes in (("mstplan", scripts, syntax.script_rows(), refused(program, scripts)),
                                         ("mstplanpolicy", policies, syntax.policy_rows(), refused_of_policy(program, policies, folder))):
            marked = list(marked_by(f"{kind}.tmLanguage.json", lines))
            faults += faults_of(kind, lines, marked, codes, [word for _, word, _ in rows])
            if shutil.which("vim"):
                faults += faults_of_vim(kind, lines, marked, marked_by_vim(kind, lines, folder))
            count += len(lines)
    return faults, count


def main():
    if len(sys.argv) != 2:
        sys.exit(__doc__)
    faults, count = check(os.path.abspath(sys.argv[1]))
    left_out = "" if shutil.which("vim") else "left out, for vim is missing: Vim's files\n"
    print("".join(f"{it}\n" for it in faults[:20]) + f"{left_out}{count} lines: {len(faults)} faults")
    return 1 if faults else 0


if __name__ == "__main__":
    sys.exit(main())
