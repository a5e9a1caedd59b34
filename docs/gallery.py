#!/usr/bin/env python3
"""Draws the gallery of docs/USING.md: each network of examples/gallery/ with a tree, as `mstplan dot` and Graphviz's `dot` draw it.

usage: gallery.py --check PROGRAM     (the status is 1 where a picture isn't of what PROGRAM prints now, with a line for each)
       gallery.py --update PROGRAM    (draws those anew; Graphviz is needed)

Graphviz's versions draw the same text a little differently. So a picture has the digest of the text that it was made of, and that is compared.
"""

import hashlib
import os
import re
import shutil
import subprocess
import sys

HERE = os.path.dirname(os.path.abspath(__file__))
TOP = os.path.join(HERE, os.pardir)
# Each network, and the tree that its picture shows.
PICTURES = {"ring": 0, "cores": 0, "provider": 0, "regions": 1, "bundle": 0}
STYLE = ["-Nfontname=Helvetica", "-Efontname=Helvetica", "-Gfontname=Helvetica", "-Nfontsize=12", "-Efontsize=9", "-Gfontsize=11"]
SECONDS = 60


def printed(words, given=None):
    return subprocess.run(words, input=given, capture_output=True, text=True, timeout=SECONDS, check=True).stdout


def path_of(name):
    return os.path.join(HERE, "gallery", f"{name}.svg")


def digest_in(path):
    """The digest that a picture has, or None where there is none."""
    if not os.path.exists(path):
        return None
    with open(path, encoding="utf-8") as file:
        found = re.search(r"<!-- of ([0-9a-f]{64}) -->", file.read())
    return found and found[1]


def drawn(text, digest):
    """The picture of a text for Graphviz, without what tells of the version that drew it."""
    picture = re.sub(r"<!--.*?-->\n?", "", printed(["dot", "-Tsvg", *STYLE], text), flags=re.DOTALL)
    return re.sub(r"(<svg )", rf"<!-- of {digest} -->\n\1", picture, count=1)


def main():
    if len(sys.argv) != 3 or sys.argv[1] not in ("--check", "--update"):
        sys.exit(__doc__)
    is_update, program = sys.argv[1] == "--update", os.path.abspath(sys.argv[2])
    if is_update and not shutil.which("dot"):
        sys.exit("gallery.py: Graphviz's dot isn't there")
    wrong = []
    for name, tree in PICTURES.items():
        text = printed([program, "dot", os.path.join(TOP, "examples", "gallery", f"{name}.script"), str(tree)])
        digest = hashlib.sha256(text.encode()).hexdigest()
        if digest_in(path_of(name)) == digest:
            continue
        wrong.append(name)
        if is_update:
            os.makedirs(os.path.dirname(path_of(name)), exist_ok=True)
            with open(path_of(name), "w", encoding="utf-8") as file:
                file.write(drawn(text, digest))
    for name in wrong:
        print(f"docs/gallery/{name}.svg: {'drawn anew' if is_update else 'not of what is printed now: gallery.py --update'}")
    sys.exit(1 if wrong and not is_update else 0)


if __name__ == "__main__":
    main()
