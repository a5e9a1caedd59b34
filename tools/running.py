"""Runs calls of a program side by side, so many at a time, and tells at a terminal how far that is. What runs ends with who waits for it."""

import concurrent.futures
import contextlib
import os
import signal
import subprocess
import sys
import threading
import time
from dataclasses import dataclass

import mstplan

# How often the line of the progress is written anew, in seconds.
A_TICK = 0.5
CLEAR = "\r\x1b[K"
STOPPING = (signal.SIGTERM, signal.SIGHUP)


def stop(_number, _frame):
    raise KeyboardInterrupt


@dataclass
class Ended:
    """A call that has ended: its status, where its standard output stands, and its standard error."""
    status: int
    path: str
    errors: bytes

    @property
    def printed(self):
        with open(self.path, "rb") as file:
            return file.read()


def tell_errors(errors):
    """What a call has told on standard error."""
    if errors and sys.stderr is not None:
        sys.stderr.buffer.write(errors)
        sys.stderr.flush()


def clock(seconds):
    minutes, seconds = divmod(round(seconds), 60)
    return f"{minutes // 60}:{minutes % 60:02}:{seconds:02}" if minutes >= 60 else f"{minutes}:{seconds:02}"


class Progress:
    """A line on standard error that says how much is done: at a terminal alone."""

    def __init__(self, what, count):
        self.what, self.count, self.begun = what, count, time.monotonic()
        self.is_told = sys.stderr is not None and sys.stderr.isatty()

    def tell(self, done):
        if self.is_told:
            spent = time.monotonic() - self.begun
            left = f", about {clock(spent / done * (self.count - done))} more" if done else ""
            sys.stderr.write(f"{CLEAR}{self.what}: {done} of {self.count} parts, {clock(spent)}{left}")
            sys.stderr.flush()

    def clear(self):
        if self.is_told:
            sys.stderr.write(CLEAR)
            sys.stderr.flush()


class Calls:
    """Calls of a program, of which some run at a time. What they print goes into a folder."""

    def __init__(self, program, folder, jobs, what):
        self.program, self.folder, self.jobs, self.what = program, folder, jobs, what
        self.lock, self.going, self.is_stopped, self.done = threading.Lock(), set(), False, 0

    def written(self, name, data):
        """The path of a file of the folder that has this."""
        path = os.path.join(self.folder, name)
        with open(path, "wb") as file:
            file.write(data)
        return path

    def saved(self, script):
        """The network of a script as `save` has it."""
        return mstplan.Program(self.program).saved(script)[0]

    def start(self, words, out):
        """A call that has begun, or None where all are stopped."""
        with self.lock:
            if self.is_stopped:
                return None
            ran = subprocess.Popen([self.program, *words], stdin=subprocess.DEVNULL, stdout=out, stderr=subprocess.PIPE)
            self.going.add(ran)
            return ran

    def run(self, number, words):
        path = os.path.join(self.folder, f"part-{number}")
        with open(path, "wb") as out:
            ran = self.start(words, out)
            if ran is None:
                return Ended(-signal.SIGTERM, path, b"")
            _, errors = ran.communicate()
        with self.lock:
            self.going.discard(ran)
            self.done += 1
        return Ended(ran.returncode, path, errors)

    def stop(self):
        """Ends what runs, and begins nothing more."""
        with self.lock:
            self.is_stopped = True
            for ran in self.going:
                with contextlib.suppress(OSError):
                    ran.kill()

    def ended(self, calls):
        """What has become of each, in their order, as soon as it and those before it have ended."""
        for number in STOPPING:
            signal.signal(number, stop)
        progress = Progress(self.what, len(calls))
        with concurrent.futures.ThreadPoolExecutor(self.jobs) as pool:
            try:
                for it in [pool.submit(self.run, number, words) for number, words in enumerate(calls)]:
                    while not concurrent.futures.wait([it], A_TICK).done:
                        progress.tell(self.done)
                    progress.clear()
                    yield self.answered(it.result(), calls)
            finally:
                progress.clear()
                self.stop()

    def answered(self, ended, calls):
        """The same; where it is no answer, that is said."""
        if ended.status not in (mstplan.WANTED, mstplan.TOLD):
            raise mstplan.Failed(f"{self.program} {calls[0][0]}: {mstplan.ended(ended.status, ended.errors)}")
        return ended
