#!/usr/bin/env python3
"""Looks at the scripts with ruff, or with pyflakes where that is there alone: what is wrong with them at sight.

usage: scripts.py    (the status is the tool's; 0, with a line that says so, where neither is installed)
"""

import os
import shutil
import subprocess
import sys

TOP = os.path.join(os.path.dirname(os.path.abspath(__file__)), os.pardir)
FOLDERS = ("tools", "checks", "bench", "lab", "docs")
TOOLS = (["ruff", "check"], ["pyflakes3"], ["pyflakes"])


def main():
    if len(sys.argv) > 1:
        sys.exit(__doc__)
    for words in TOOLS:
        if shutil.which(words[0]):
            return subprocess.run([*words, *FOLDERS], cwd=TOP, check=False).returncode
    print("skipped, for neither ruff nor pyflakes is there: a look at the scripts")
    return 0


if __name__ == "__main__":
    sys.exit(main())
