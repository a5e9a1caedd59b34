#!/usr/bin/env python3
"""Turns captured frames into capture lines, which `mstplan check` reads.

usage: captures.py [FILE ...]

It reads the files, or standard input where none is named or for `-`. What a file is its first octets tell: a pcap or pcapng
file of Ethernet, or of Linux's cooked frames (`tcpdump -i any`), or else the text that one of these prints, where FILE.pcap
may be `-i INTERFACE` instead, and `stp` leaves only spanning tree frames without a tag, `stp or vlan` those with one, too:

    tcpdump -x -nn -r FILE.pcap stp
    tcpdump -xx -nn -r FILE.pcap stp
    tshark -x -r FILE.pcap -Y stp

Each BPDU becomes one line of hexadecimal digits: the frame from its addresses on, or the BPDU alone where it has none. A line
is written as soon as its frame is read, from a text as soon as the next one begins. So Ctrl-C may end a live capture:

    tcpdump -U -w - -i INTERFACE 'stp or vlan' | python3 captures.py > CAPTURES

What the other program still writes within a second of it is read, too (a second Ctrl-C doesn't wait), and the status is 0.

BPDUs are the frames to 01-80-C2-00-00-00 with the LLC octets 42 42 03. Tags of 802.1Q and 802.1ad before these are left out of the
line. A cooked header has no destination: there a BPDU is what goes to a group, or is sent from here, with these LLC octets, and a
provider bridge's counts as one, too. PVST+ (LLC and SNAP octets AA AA 03 00 00 0C 01 0B) and the BPDUs of provider bridges (to
01-80-C2-00-00-08) are of other trees: they are told on standard error, and not written. Of a BPDU that the snap length has cut a
line is written only where what was cut is behind its end.

`tcpdump -xx` and `tshark -x` print whole frames. `tcpdump -x` leaves out the header and, from some version on, the LLC octets
behind it, so that its text begins with the BPDU: this is one where tcpdump's own line of the frame says STP. A PVST+ frame is
known there by the VLAN's number behind the BPDU, and a provider bridge's only where `-e` prints the addresses. `-X` and `-XX` are
read as `-x` and `-xx` are. `triangle.tcpdump` is a sample of `tcpdump -x`.

Other lines of a text, as tcpdump's line of a frame, go before it as comments; of a capture's frame one with its number, its time
and its interface. Of several files each comment begins with the file's name. What was left out is counted on standard error, and so is what was written, where Ctrl-C ended it or there was
nothing. The status is 1 where a file, or the rest of it, can't be read, or nothing can be written; standard error tells why.
"""

import os
import select
import signal
import sys
import time

sys.dont_write_bytecode = True

import frames  # noqa: E402

# After Ctrl-C what comes within so many seconds is still read.
GRACE = 1.0
CHUNK = 1 << 16
LONGEST = 2048

COUNTED = {
    frames.OTHER: "frames that are no BPDUs",
    frames.FOREIGN: "frames of a link type other than Ethernet and Linux's cooked ones",
    frames.PVST: "PVST+ frames, which are of other trees and aren't compared",
    frames.PROVIDER: "BPDUs of provider bridges, which are of other trees and aren't compared",
    "tagged": "BPDUs behind a tag with a VID, which may be of another network",
    "cut": "BPDUs in frames that the snap length has cut",
    "lost": "BPDUs left out, since the snap length has cut them",
}


class Unwritten(Exception):
    """A line that couldn't be written, and why."""


class Stop:
    """Whether Ctrl-C was pressed, and until when reading goes on."""

    def __init__(self):
        self.until = None
        self.woken, self.wakes = os.pipe()
        os.set_blocking(self.wakes, False)
        signal.set_wakeup_fd(self.wakes, warn_on_full_buffer=False)
        signal.signal(signal.SIGINT, self.pressed)

    def pressed(self, _number, _frame):
        if self.until is not None:
            raise KeyboardInterrupt
        self.until = time.monotonic() + GRACE

    def left(self):
        """The seconds left to read, or None for any number."""
        return None if self.until is None else max(0.0, self.until - time.monotonic())


class Input:
    """What a descriptor has, until its end or until reading is to stop."""

    def __init__(self, descriptor, stop):
        self.descriptor, self.stop, self.held, self.at = descriptor, stop, b"", 0

    def fill(self):
        """Takes more octets, if there are any."""
        while self.stop.left() != 0.0:
            ready, _, _ = select.select([self.descriptor, self.stop.woken], [], [], self.stop.left())
            if self.stop.woken in ready:
                os.read(self.stop.woken, CHUNK)
            elif ready:
                more = os.read(self.descriptor, CHUNK)
                self.held, self.at = self.held[self.at:] + more, 0
                return bool(more)
        return False

    def read(self, count):
        """So many octets, fewer only at the end."""
        while len(self.held) - self.at < count and self.fill():
            pass
        taken = self.held[self.at:self.at + count]
        self.at += len(taken)
        return taken

    def readline(self, limit):
        """The octets of a line with its end, no more than the limit."""
        while True:
            end = self.held.find(b"\n", self.at, self.at + limit) + 1
            if end or len(self.held) - self.at >= limit or not self.fill():
                return self.read(end - self.at if end else limit)


class Writer:
    """Writes the lines of frames, and counts the rest."""

    def __init__(self):
        self.counts, self.written, self.source = dict.fromkeys(COUNTED, 0), 0, None

    def write(self, frame):
        """Writes the line of a frame that is a BPDU, after its comments."""
        its = frames.found(frame)
        if its.kind != frames.BPDU:
            self.counts[its.kind] += 1
            return
        self.counts["tagged"] += any(its.vids)
        if its.cut:
            self.counts["cut"] += 1
            if not its.whole:
                self.counts["lost"] += 1
                return
        comments = list(frame.comments)
        if its.vids and frame.link is not None:
            comments[-1] += f" tagged {','.join(map(str, its.vids))}"
        if self.source:
            comments = [f"{self.source}: {it}" for it in comments] or [self.source]
        octets = (its.header + its.bpdu)[:LONGEST]
        try:
            sys.stdout.write("".join(f"# {comment}\n" for comment in comments) + octets.hex() + "\n")
            sys.stdout.flush()
        except OSError as why:
            raise Unwritten(why.strerror) from why
        self.written += 1

    def tell(self, stopped):
        """What was left out; and how much was written, where Ctrl-C ended it or nothing was."""
        for kind, count in self.counts.items():
            if count:
                tell(f"{COUNTED[kind]}: {count}")
        if stopped or not self.written:
            tell(f"BPDUs written: {self.written}")


def called(name):
    """A file's name as it stands in a line."""
    return "standard input" if name == "-" else "".join(it if it.isprintable() else "?" for it in name)


def tell(text):
    """A line on standard error, if that is open."""
    if sys.stderr:
        print(f"captures.py: {text}", file=sys.stderr)


def read(name, writer, stop):
    """Reads a file. Raises Unread, Unwritten, or OSError where it can't be opened or a read fails."""
    if name == "-" and not sys.stdin:
        raise frames.Unread("it is closed")
    descriptor = sys.stdin.fileno() if name == "-" else os.open(name, os.O_RDONLY)
    try:
        for frame in frames.frames(Input(descriptor, stop)):
            writer.write(frame)
    finally:
        if name != "-":
            os.close(descriptor)


def read_all(names, writer, stop):
    """Reads the files, and returns the status. Raises Unwritten."""
    status = 0
    for name in names:
        writer.source = called(name) if len(names) > 1 else None
        try:
            read(name, writer, stop)
        except (frames.Unread, OSError, ValueError) as why:
            if isinstance(why, frames.EndsEarly) and stop.until is not None:
                continue
            tell(f"{called(name)}: {why.strerror if isinstance(why, OSError) else why}")
            status = 1
    return status


def main():
    if {"-h", "--help"} & set(sys.argv[1:]):
        print(__doc__.strip())
        return 0
    if not sys.stdout:
        tell("standard output is closed")
        return 1
    sys.stdout.reconfigure(errors="backslashreplace")
    stop, writer, status = Stop(), Writer(), 0
    try:
        status = read_all(sys.argv[1:] or ["-"], writer, stop)
    except KeyboardInterrupt:
        pass
    except Unwritten as why:
        tell(f"standard output: {why}")
        os.dup2(os.open(os.devnull, os.O_WRONLY), sys.stdout.fileno())
        status = 1
    writer.tell(stop.until is not None)
    return status


if __name__ == "__main__":
    sys.exit(main())
