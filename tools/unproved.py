#!/usr/bin/env python3
"""Builds the program without proving it, and keeps it as a file: for the first day. It takes some six minutes of a processor.

usage: unproved.py FOLDER    (leaves FOLDER/mstplan, and nothing else)

Standard error has its three steps with the seconds that each takes, at a terminal as they pass.

`rt try` builds what it runs, and takes it away. This keeps the module that it makes, and compiles it anew with
optimization. Checks of bounds, overflow and unwraps are in it, so it is about half as quick as the proved program.
"""

import contextlib
import glob
import os
import subprocess
import sys
import tempfile
import time

PROGRAM = os.path.join(os.path.dirname(os.path.abspath(__file__)), os.pardir, "crates", "mstplan")
# What the module is linked with: what takes memory, and what gives the program its words.
NEEDED = ("rattle_alloc", "rattle_arg_count")
TARGET = ["--target=x86_64-unknown-linux-gnu", "--no-default-config", "-march=x86-64", "-fPIE", "-c"]
QUICK = ["-O1", "-ffunction-sections", "-fdata-sections", "-fno-vectorize", "-fno-slp-vectorize"]
# How often a terminal gets the time so far, in seconds.
A_TICK, CLEAR = 0.5, "\r\x1b[K"
BEGINS = ("Scrt1.o", "crti.o", "crtbeginS.o")
ENDS = ("libm.so.6", "libc.so.6", "libc_nonshared.a", "ld-linux-x86-64.so.2", "libgcc.a", "libgcc_s.so.1", "crtendS.o", "crtn.o")
LINKED = ["-m", "elf_x86_64", "-pie", "--as-needed", "--eh-frame-hdr", "--gc-sections", "--no-dependent-libraries"]


class Steps:
    """What is being done, in a line on standard error with the time that it took; at a terminal with the time so far."""

    def __init__(self, count):
        self.count, self.number, self.what, self.begun = count, 0, "", time.monotonic()
        self.is_terminal = sys.stderr.isatty()

    def line(self):
        return f"{self.number} of {self.count}: {self.what}: {time.monotonic() - self.begun:.0f} s"

    @contextlib.contextmanager
    def step(self, what):
        self.number, self.what, self.begun = self.number + 1, what, time.monotonic()
        self.tick()
        yield
        print(f"{CLEAR * self.is_terminal}{self.line()}", file=sys.stderr, flush=True)

    def tick(self):
        if self.is_terminal:
            print(f"{CLEAR}{self.line()}", end="", file=sys.stderr, flush=True)

    def wait(self, ran, pause=A_TICK, meanwhile=lambda: None):
        """The status of what runs, at its end. It is ended with who waits for it."""
        told = time.monotonic()
        try:
            while ran.poll() is None:
                meanwhile()
                if time.monotonic() - told > A_TICK:
                    self.tick()
                    told = time.monotonic()
                time.sleep(pause)
        finally:
            if ran.poll() is None:
                ran.terminate()
                ran.wait()
        return ran.returncode

    def run(self, *words):
        if self.wait(subprocess.Popen(words, stdin=subprocess.DEVNULL), 0.05) != 0:
            sys.exit(f"not built: {os.path.basename(words[0])} failed")


def keep(built, kept):
    """Keeps each file that matters while `rt try` still has it, modules under numbers of their own."""
    for folder, _, names in os.walk(built):
        for name in names:
            if name == "module.bc" or name.startswith("input-"):
                path = os.path.join(folder, name)
                try:
                    number = os.stat(path).st_ino
                    os.link(path, os.path.join(kept, f"{number}.bc" if name == "module.bc" else name))
                except OSError:
                    pass


def try_and_keep(built, kept, steps):
    words = ["rt", "try", "--", "run", "-"]
    where = {"cwd": PROGRAM, "env": {**os.environ, "TMPDIR": built}}
    with open(os.path.join(kept, "said"), "w+") as said:
        status = steps.wait(subprocess.Popen(words, stdin=subprocess.DEVNULL, stdout=said, stderr=said, **where), 0.002, lambda: keep(built, kept))
        modules = glob.glob(os.path.join(kept, "*.bc"))
        if status != 0 or not modules:
            said.seek(0)
            sys.exit(f"not built\n{said.read()}")
    return max(modules, key=os.path.getsize)


def part_with(kept, symbol):
    """The part that defines a symbol."""
    for part in sorted(glob.glob(os.path.join(kept, "input-*"))):
        symbols = subprocess.run(["nm", part], capture_output=True, check=False).stdout
        if f" T {symbol}\n".encode() in symbols:
            return part
    return sys.exit(f"no part of the program has {symbol}")


def build(folder, program):
    """Builds the program, with all that this needs in a folder."""
    built, kept, steps = os.path.join(folder, "tried"), os.path.join(folder, "kept"), Steps(3)
    for it in (built, kept):
        os.mkdir(it)
    with steps.step("rt try makes the module"):
        module = try_and_keep(built, kept, steps)
    kit = os.path.dirname(subprocess.run(["rt", "doc"], capture_output=True, text=True, check=True).stdout.split()[0])
    tools, lib = os.path.join(kit, "toolchain", "bin"), os.path.join(kit, "toolchain", "lib")
    compiled, linked = os.path.join(kept, "module.o"), os.path.join(kept, "mstplan")
    with steps.step("clang compiles it"):
        steps.run(f"{tools}/clang", *TARGET, *QUICK, "-x", "ir", module, "-o", compiled)
    with steps.step("ld.lld links it"):
        parts = [compiled, *dict.fromkeys(part_with(kept, symbol) for symbol in NEEDED)]
        libraries = [[f"{lib}/{it}" for it in names] for names in (BEGINS, ENDS)]
        loader = ["--dynamic-linker", f"{lib}/ld-linux-x86-64.so.2", "-rpath", lib]
        steps.run(f"{tools}/ld.lld", *LINKED, *loader, "-o", linked, *libraries[0], *parts, *libraries[1])
    os.replace(linked, program)


def main():
    if sys.argv[1:] in (["--help"], ["-h"]):
        print(__doc__.strip())
        return
    if len(sys.argv) != 2 or sys.argv[1].startswith("-"):
        print("usage: unproved.py FOLDER", file=sys.stderr)
        sys.exit(2)
    folder = os.path.abspath(sys.argv[1])
    program = os.path.join(folder, "mstplan")
    os.makedirs(folder, exist_ok=True)
    try:
        with tempfile.TemporaryDirectory(prefix="building-", dir=folder) as here:
            build(here, program)
    except KeyboardInterrupt:
        sys.exit("\nstopped")
    except FileNotFoundError as why:
        sys.exit(f"not built: {why.filename}: {why.strerror}")
    used = os.times()
    print(f"{(used.children_user + used.children_system) / 60:.1f} minutes of a processor", file=sys.stderr)
    print(program)


if __name__ == "__main__":
    main()
