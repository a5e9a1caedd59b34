"""What the commands beside the program have in common: files, of which one may be standard input (`-`), what is told, and statuses."""

import argparse
import contextlib
import os
import sys

import mstplan

OK, TOLD, FAULT = 0, 1, 3
STATUSES = """exit status: 0; 1 where something isn't as wanted, or a line is refused; 2 where the words are wrong; 3 where a file can't be
read or written, or PROGRAM doesn't answer"""
MOST_REFUSED = 20


class Files:
    """The files that a command reads. Standard input is one of them at most."""

    def __init__(self):
        self.reads_input = False

    def bytes_of(self, path):
        if path != "-":
            with open(path, "rb") as file:
                return file.read()
        if self.reads_input:
            raise mstplan.Failed("only one of the files can be standard input (-)")
        self.reads_input = True
        if sys.stdin is None:
            raise mstplan.Failed("standard input is closed")
        return sys.stdin.buffer.read()


def natural(word):
    """A number that an option takes, 0 or more."""
    if not word.isdecimal():
        raise argparse.ArgumentTypeError(f"{word} is no number")
    return int(word)


def name_of(path):
    """What a file is called where it is told of."""
    return "standard input" if path == "-" else os.path.basename(path)


def tell(tool, text):
    """A line on standard error. What isn't printable is escaped, since a terminal might act on it."""
    text = "".join(it if it.isprintable() else it.encode("unicode_escape").decode() for it in str(text))
    print(f"{tool}: {text}".encode("ascii", "backslashreplace").decode(), file=sys.stderr, flush=True)


def tell_refused(tool, path, refused):
    """Refused lines of a file are told; whether there are any."""
    for it in refused[:MOST_REFUSED]:
        tell(tool, f"{name_of(path)}: line {it['line']} {it['error']} {it['text']}")
    if len(refused) > MOST_REFUSED:
        tell(tool, f"{name_of(path)}: {len(refused) - MOST_REFUSED} more lines are refused")
    return bool(refused)


def write(text):
    """Writes to standard output."""
    if sys.stdout is None:
        raise mstplan.Failed("standard output is closed")
    sys.stdout.buffer.write(text if isinstance(text, bytes) else text.encode("utf-8", "backslashreplace"))
    sys.stdout.flush()


def guarded(tool, main):
    """Runs a command, and ends with the status that it returns, or that stands for its fault. Who reads standard output may go: then
    there is nobody to tell."""
    try:
        status = main()
    except BrokenPipeError:
        os.dup2(os.open(os.devnull, os.O_WRONLY), sys.stdout.fileno())
        status = OK
    except mstplan.Failed as why:
        tell(tool, why)
        status = FAULT
    except OSError as fault:
        tell(tool, f"{fault.filename or 'standard output'}: {fault.strerror}")
        status = FAULT
    except KeyboardInterrupt:
        with contextlib.suppress(OSError):
            tell(tool, "stopped")
        status = FAULT
    sys.exit(status)
