"""Runs words with a device at a terminal, for checks of what is printed there."""

import os
import pty
import subprocess


def read_all(leader):
    """What a terminal gets until it is closed."""
    got = b""
    while True:
        try:
            piece = os.read(leader, 4096)
        except OSError:
            return got
        if not piece:
            return got
        got += piece


def shown(words, device, **more):
    """The status of words, the device `stdout` or `stderr` of which is a terminal, what the other one gets, and what the terminal."""
    leader, follower = pty.openpty()
    other = "stderr" if device == "stdout" else "stdout"
    with subprocess.Popen(words, stdin=subprocess.DEVNULL, **{device: follower, other: subprocess.PIPE}, **more) as its:
        os.close(follower)
        got = read_all(leader)
        piped = getattr(its, other).read()
    os.close(leader)
    return its.returncode, piped, got
