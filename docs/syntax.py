#!/usr/bin/env python3
"""Makes the syntax files for Vim and for VS Code (tools/editors/), for scripts, changes and policies, of the tables of commands and of
expectations (crates/mst_lang/src/form.rt, crates/mst_policy/src/form.rt), and compares those that stand there.

usage: syntax.py --check     (the status is 1 where a file is another one, and each is named)
       syntax.py --update    (writes them anew)

A line is right that is in the form of its command; what stands behind a command in no such form, and a line of no command, is marked as
wrong; a command alone isn't, since it is being typed. Ranges of numbers, and what a network has, the program tells alone (`--hints`).
"""

import os
import re
import sys

sys.dont_write_bytecode = True

import commands  # noqa: E402

# json.py beside this one is another thing than Python's
HERE = os.path.dirname(os.path.abspath(__file__))
sys.path = [it for it in sys.path if os.path.abspath(it) != HERE]

import json  # noqa: E402

TOP = commands.TOP
POLICY = os.path.join(TOP, "crates", "mst_policy", "src", "form.rt")
EDITORS = os.path.join(TOP, "tools", "editors")
NAME, NUMBER = "[A-Za-z0-9][A-Za-z0-9_.-]{0,15}", "[0-9]{1,10}"
ITEM = r"(?:[A-Za-z0-9][A-Za-z0-9_.-]{0,15}\*?|\*)"
ROLES = ("Root", "Designated", "Alternate", "Backup", "Master", "Disabled")


def listed(item):
    return f"{item}(?:,{item})*"


VIDS = listed(f"{NUMBER}(?:-{NUMBER})?")
A_NAME, A_NUMBER, A_WORD, AN_ADDRESS = "name", "number", "word", "address"
# What stands in the place of an argument: what it is, and its form. Of scripts by the word that the table has for it, of policies by its name there.
OF_SCRIPTS = {
    **dict.fromkeys(("B", "L"), (A_NAME, NAME)),
    **dict.fromkeys(("P", "TREE", "PRIO", "COST", "KEY", "SYS", "REV", "LIM", "KBPS", "VID"), (A_NUMBER, NUMBER)),
    "MAC": (AN_ADDRESS, "[0-9A-Fa-f]{2}(?:[:-][0-9A-Fa-f]{2}){5}"), "CNAME": (A_NAME, "[!-~]{1,32}"),
    "VIDS": (A_NUMBER, VIDS), "VIDS|all|none": (A_NUMBER, f"(?:{VIDS}|all|none)"),
    **{words: (A_WORD, f"(?:{words})") for words in ("on|off", "mstp|rstp", "up|down", "yes|no")},
}
OF_POLICIES = {
    **dict.fromkeys(("FirstBridge", "Bridge", "NextBridge", "Lan"), (A_NAME, NAME)), **dict.fromkeys(("Tree", "Steps"), (A_NUMBER, NUMBER)),
    "Next": (A_WORD, "next"), "Vids": (A_NUMBER, VIDS), "Names": (A_NAME, listed(ITEM)),
    "Ports": (A_NAME, listed(rf"{ITEM}:(?:{NUMBER}|\*)")), "Roles": (A_WORD, listed(f"(?:{'|'.join(ROLES)})")),
}
# What neither a scope nor `finally` stands in front of.
ALONE = ("leaves", "risk")
SCOPE = [("scope", "finally"), ("scope", rf"always|after[ \t]+(?:lan|bridge|risk)[ \t]+{listed(ITEM)}")]
# A line that says what fails together.
RISK = ("edit", "risk", [(A_NAME, NAME), (A_WORD, "(?:lan|bridge)"), (A_NAME, listed(ITEM))])
QUERIES = re.compile("show|mark$|changes$|save$|digest$")
SCOPES = {"edit": "keyword.other", "query": "support.function", A_NAME: "variable.other", A_NUMBER: "constant.numeric", A_WORD: "constant.language",
          AN_ADDRESS: "constant.other", "scope": "keyword.control"}
GROUPS = {"Edit": "Statement", "Query": "Function", "Scope": "PreProc", "Name": "Identifier", "Number": "Number", "Word": "Constant", "Address": "Special",
          "Comment": "Comment", "Version": "PreProc", "Wrong": "Error", "Rest": "Error"}


# ---- the tables


def script_rows():
    """Each command: what it is, its word, and its arguments as (what it is, its form)."""
    return [("query" if QUERIES.match(word) else "edit", word, [OF_SCRIPTS[it] for it in arguments]) for (word, *arguments), _ in commands.table()]


def policy_rows():
    """Each expectation in the same way, and a line of a risk."""
    rows = re.findall(r'^    b"(\w+)" \w+ \[([\w ]*)\];$', commands.read(POLICY), re.MULTILINE)
    return [*(("edit", word, [OF_POLICIES[it] for it in arguments.split()]) for word, arguments in rows), RISK]


def before(front, word):
    """What may stand in front of a line that has this word."""
    return [] if word in ALONE else front


# ---- VS Code


def line_of(front, kinds, forms):
    """A match of a whole line: groups of its words, and what each of them is."""
    captures = {str(at): {"name": f"{SCOPES[kind]}.mstplan"} for at, kind in enumerate([*(it[0] for it in front), *kinds], start=1)}
    scopes = "".join(rf"(?:({form})[ \t]+)?" for _, form in front)
    words = r"[ \t]+".join(f"({it})" for it in forms)
    return {"match": rf"^[ \t]*{scopes}{words}[ \t]*$", "captures": captures}


def grammar(name, scope, rows, front, version):
    """A TextMate grammar: right lines, then what begins as one, then all others."""
    words = "|".join(dict.fromkeys(word for _, word, _ in rows))
    scopes = "".join(rf"(?:(?:{form})[ \t]+)?" for _, form in front)
    begun = rf"^[ \t]*({scopes}(?:{words}))(?![^ \t])(.*)$"
    patterns = [{"match": r"^[ \t]*#.*$", "name": "comment.line.number-sign.mstplan"}]
    patterns += [{"match": r"\A[ \t]*mstplan[ \t]+2[ \t]*$", "name": "keyword.control.mstplan"}] * version
    patterns += [line_of(before(front, word), [kind, *(it for it, _ in arguments)], [word, *(form for _, form in arguments)]) for kind, word, arguments in rows]
    patterns += [{"match": begun, "captures": {"1": {"name": "keyword.other.mstplan"}, "2": {"name": "invalid.illegal.mstplan"}}},
                 {"match": r"^[ \t]*([^ \t].*)$", "captures": {"1": {"name": "invalid.illegal.mstplan"}}}]
    return json.dumps({"name": name, "scopeName": scope, "comment": "Made by docs/syntax.py", "patterns": patterns}, indent=1) + "\n"


# ---- Vim


def in_vim(form):
    return form.replace("(?:", "%(").replace(r"[ \t]", r"\s")


def scopes_in_vim(front):
    return "".join(f"%(%({in_vim(form)})\\s+)?" for _, form in front)


def vim(prefix, rows, front, version):
    """The lines of a syntax file. Of two matches that begin at one place the later one counts."""
    words = "|".join(dict.fromkeys(word for _, word, _ in rows))
    scopes = scopes_in_vim(front)
    yield '" Syntax of mstplan\'s files, made by docs/syntax.py\nif exists("b:current_syntax")\n  finish\nendif\nsyn case match'
    yield f"syn match {prefix}Wrong /^\\s*\\S.*$/"
    yield f"syn match {prefix}Rest /\\s*\\S.*$/ contained"
    yield f"syn match {prefix}Edit /\\v^\\s*{scopes}%({words})\\ze%(\\s|$)/ nextgroup={prefix}Rest"
    for kind, word, arguments in rows:
        behind = "".join(f"\\s+{in_vim(form)}" for _, form in arguments)
        yield f"syn match {prefix}{kind.capitalize()} /\\v^\\s*{scopes_in_vim(before(front, word))}{word}\\ze{behind}\\s*$/ contains={prefix}Scope nextgroup=@{prefix}Argument skipwhite"
    chained = f"contained nextgroup=@{prefix}Argument skipwhite"
    yield f"syn match {prefix}Scope /\\v<%(finally|always|after\\s+%(lan|bridge|risk)\\s+\\S+)\\ze\\s/ contained" if front else ""
    yield f"syn match {prefix}Name /\\S\\+/ {chained}"
    yield f"syn match {prefix}Number /\\v[0-9,-]+\\ze%(\\s|$)/ {chained}"
    yield f"syn match {prefix}Address /\\v{in_vim(OF_SCRIPTS['MAC'][1])}\\ze%(\\s|$)/ {chained}"
    plain = sorted({it for _, _, arguments in rows for kind, form in arguments if kind == A_WORD for it in re.findall(r"\w+", form.replace("(?:", ""))})
    yield f"syn match {prefix}Word /\\v%({'|'.join(plain)})%(,%({'|'.join(plain)}))*\\ze%(\\s|$)/ {chained}"
    yield f"syn cluster {prefix}Argument contains={prefix}Name,{prefix}Number,{prefix}Address,{prefix}Word"
    yield f"syn match {prefix}Comment /^\\s*#.*$/"
    yield f"syn match {prefix}Version /\\v%^\\s*mstplan\\s+2\\s*$/" if version else ""
    yield from (f"hi def link {prefix}{group} {other}" for group, other in GROUPS.items())
    yield f'let b:current_syntax = "{prefix}"'


def detection(scripts, policies):
    """Which files are whose: by their names, and a line among the first ones that begins as one of theirs."""
    yield '" Which files are mstplan\'s, made by docs/syntax.py'
    yield "function! s:Detect(words, type)\n  for line in getline(1, 200)\n    if line =~# '\\v^\\s*%(' . a:words . ')%(\\s|$)'"
    yield "      execute 'setfiletype' a:type\n      return\n    endif\n  endfor\nendfunction"
    for names, rows, more, kind in (("*.script,*.change", scripts, "mstplan\\s+2", "mstplan"), ("*.policy", policies, "finally|always|after", "mstplanpolicy")):
        words = "|".join([*dict.fromkeys(word for _, word, _ in rows), more])
        yield f"autocmd BufNewFile,BufRead {names} call s:Detect('{words}', '{kind}')"


# ---- the files


def files():
    """Each file by its name below tools/editors/, with its text."""
    scripts, policies = script_rows(), policy_rows()
    return {
        "vim/syntax/mstplan.vim": "\n".join(filter(None, [*vim("mstplan", scripts, [], True), ""])) + "\n",
        "vim/syntax/mstplanpolicy.vim": "\n".join(filter(None, vim("mstplanpolicy", policies, SCOPE, False))) + "\n",
        "vim/ftdetect/mstplan.vim": "\n".join(detection(scripts, policies)) + "\n",
        "vscode/syntaxes/mstplan.tmLanguage.json": grammar("mstplan script", "source.mstplan", scripts, [], True),
        "vscode/syntaxes/mstplanpolicy.tmLanguage.json": grammar("mstplan policy", "source.mstplanpolicy", policies, SCOPE, False),
    }


def main():
    if sys.argv[1:] not in (["--check"], ["--update"]):
        sys.exit(__doc__)
    faults = 0
    for name, text in files().items():
        path = os.path.join(EDITORS, name)
        if sys.argv[1] == "--update":
            os.makedirs(os.path.dirname(path), exist_ok=True)
            with open(path, "w", encoding="utf-8") as file:
                file.write(text)
        elif not os.path.isfile(path) or commands.read(path) != text:
            print(f"{os.path.relpath(path, TOP)} isn't what the tables say: docs/syntax.py --update")
            faults += 1
    print(f"{len(files())} syntax files")
    return 1 if faults else 0


if __name__ == "__main__":
    sys.exit(main())
