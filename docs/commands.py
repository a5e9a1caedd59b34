#!/usr/bin/env python3
"""Compares where the commands of scripts are told with the table of them (crates/mst_lang/src/form.rt): the page at the end of
`mstplan --help` (crates/mst_command/src/page.rt), whose lines are made of the table, and docs/RULES.md, which tells each of them.

usage: commands.py --check     (the status is 1 where something differs, with a line for each difference)
       commands.py --update    (writes the page's lines anew, in their order; new ones stand behind the one before them in the table)
"""

import os
import re
import sys

TOP = os.path.join(os.path.dirname(os.path.abspath(__file__)), os.pardir)
TABLE = os.path.join(TOP, "crates", "mst_lang", "src", "form.rt")
PAGE = os.path.join(TOP, "crates", "mst_command", "src", "page.rt")
RULES = os.path.join(TOP, "docs", "RULES.md")
FIRST = "Commands of a script, one a line (a line that begins with # is a comment):\n"


def read(path):
    with open(path, encoding="utf-8") as file:
        return file.read()


def table():
    """Each command's form, as its words, and what it is for, in the order of the table."""
    text = read(TABLE)
    words = dict(re.findall(r'^            (\w+) => "([^" ]+)",$', text, re.MULTILINE))
    rows = re.findall(r'^    b"(\w+)" \w+ \[([\w ]*)\] "([^"]*)";$', text, re.MULTILINE)
    return [([word] + [words[argument] for argument in arguments.split()], purpose) for word, arguments, purpose in rows]


def page_lines(rows, old):
    """The lines of the page, in the order of the old ones."""
    order = [line.split()[0] for line in old]
    for i, (form, _) in enumerate(rows):
        if form[0] not in order:
            order.insert(order.index(rows[i - 1][0][0]) + 1 if i else 0, form[0])
    width = max(len(" ".join(form)) for form, _ in rows)
    told = {form[0]: f"  {' '.join(form):{width}}  {purpose}" for form, purpose in rows}
    return [told[word] for word in order if word in told]


def main():
    if sys.argv[1:] not in (["--check"], ["--update"]):
        sys.exit(__doc__)
    rows = table()
    page = read(PAGE)
    start = page.index(FIRST) + len(FIRST)
    end = page.index("\n\n", start)
    old = page[start:end].split("\n")
    new = page_lines(rows, old)
    if sys.argv[1] == "--update":
        with open(PAGE, "w", encoding="utf-8") as file:
            file.write(page[:start] + "\n".join(new) + page[end:])
        old = new
    faults = [f"page.rt: there stands: {line}" for line in old if line not in new]
    faults += [f"page.rt: and it is:     {line}" for line in new if line not in old]
    rules = read(RULES)
    for form, _ in rows:
        told = " ".join(word.split("|")[0] for word in form)
        if f"`{told}`" not in rules:
            faults.append(f"RULES.md: it doesn't tell `{told}`")
    for fault in faults:
        print(fault)
    print(f"{len(rows)} commands")
    return 1 if faults else 0


if __name__ == "__main__":
    sys.exit(main())
