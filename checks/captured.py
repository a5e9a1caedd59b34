#!/usr/bin/env python3
"""Checks captures.py, digest.py and import/captures.py on captures that it writes itself, octet by octet.

usage: captured.py PROGRAM

captures.py reads pcap and pcapng files in all their forms, frames with tags and cooked ones, texts, what others' BPDUs are and
what is cut; damaged ones, of which none may end in a traceback; and a live capture that Ctrl-C ends. digest.py looks for tables
whose digests are made here. import/captures.py makes scripts of what plans of networks say on the wire, with which the program
must then agree.
"""

import concurrent.futures
import hashlib
import hmac
import importlib.util
import io
import os
import random
import re
import select
import signal
import struct
import subprocess
import sys
import tempfile
import time

sys.dont_write_bytecode = True
TOP = os.path.join(os.path.dirname(os.path.abspath(__file__)), os.pardir)
SAMPLES, TOOLS = os.path.join(TOP, "examples"), os.path.join(TOP, "tools")
sys.path[1:1] = [TOOLS, os.path.join(TOOLS, "import")]

import digest  # noqa: E402
import frames  # noqa: E402
import sketch  # noqa: E402

CAPTURES, DIGEST, LEARN = (os.path.join(TOOLS, *names) for names in (["captures.py"], ["digest.py"], ["import", "captures.py"]))
# How many damaged captures and drawn networks there are, and how many seconds a program may run.
MUTATIONS, DRAWN, SECONDS = 1200, 8, 60
GROUP, PROVIDER, PVST = bytes.fromhex("0180c2000000"), bytes.fromhex("0180c2000008"), bytes.fromhex("01000ccccccd")
SENDER, LLC, SNAP = bytes.fromhex("020000000001"), bytes.fromhex("424203"), bytes.fromhex("aaaa0300000c010b")
RST = bytes.fromhex("0000" "02" "02" "3c" "8000020000000001" "00000000" "8000020000000001" "8002" "0000" "1400" "0200" "0f00" "00")
MST = bytes.fromhex(
    "0000" "03" "02" "7c" "8000020000000001" "00000000" "8000020000000001" "8002" "0000" "1400" "0200" "0f00" "00" "0040"
    "00" "61726561" + "00" * 28 + "0001" "ac36177f50283cd4b83821d8ab26de62" "00004e20" "8000020000000002" "13"
)
STP = bytes.fromhex("0000" "00" "00" "00" "8000020000000001" "00000000" "8000020000000001" "8002" "0000" "1400" "0200" "0f00")
KEY = bytes.fromhex("13AC06A62E47FD51F95D2BA243CD0346")


# ---- captures, written by hand


def ethernet(llc, group=GROUP, tags=()):
    """A frame with tags, each a type and a VID with its priority, in front of its length."""
    front = group + SENDER + b"".join(struct.pack(">HH", *tag) for tag in tags)
    return (front + struct.pack(">H", len(llc)) + llc).ljust(60, b"\0")


def cooked(llc, kind=2, tags=b"", protocol=4):
    return struct.pack(">HHH", kind, 1, 6) + SENDER + b"\0\0" + struct.pack(">H", protocol) + tags + llc


def cooked_2(llc, kind=2, interface=3, tags=b"", protocol=4):
    return struct.pack(">HHIHBB", protocol, 0, interface, 1, kind, 6) + SENDER + b"\0\0" + tags + llc


def pcap(them, order="<", nano=False, link=1, snap=65535):
    head = struct.pack(order + "IHHiIII", 0xA1B23C4D if nano else 0xA1B2C3D4, 2, 4, 0, 0, snap, link)
    return head + b"".join(struct.pack(order + "IIII", 1_700_000_000 + at, 5, min(len(it), snap), len(it)) + it[:snap]
                           for at, it in enumerate(them))


def block(order, kind, body):
    body += b"\0" * (-len(body) % 4)
    length = struct.pack(order + "I", len(body) + 12)
    return struct.pack(order + "I", kind) + length + body + length


def section(order):
    return block(order, 0x0A0D0D0A, struct.pack(order + "IHHq", 0x1A2B3C4D, 1, 0, -1))


def described(order, link=1, snap=0, extra=b""):
    return block(order, 1, struct.pack(order + "HHI", link, 0, snap) + extra)


def enhanced(order, it, interface=0, snap=65535):
    ticks = 1_700_000_000_000_005
    head = struct.pack(order + "IIIII", interface, ticks >> 32, ticks & 0xFFFFFFFF, min(len(it), snap), len(it))
    return block(order, 6, head + it[:snap])


def simple(order, it):
    return block(order, 3, struct.pack(order + "I", len(it)) + it)


def obsolete(order, it, interface=0):
    return block(order, 2, struct.pack(order + "HHIIII", interface, 0, 0, 0, len(it), len(it)) + it)


def tcpdump(octets, says="STP 802.1w, Rapid STP, Flags [Learn, Forward], length 36", whole=False):
    """The text of tcpdump -x, or -xx, of these octets."""
    rows = [octets[at:at + 16] for at in range(0, len(octets), 16)]
    dump = [f"\t0x{at * 16:04x}:  " + " ".join(row[i:i + 2].hex() for i in range(0, len(row), 2)) for at, row in enumerate(rows)]
    return "\n".join([f"14:00:00.000000 {'' if whole else says}", *dump, ""])


def tshark(octets):
    rows = [octets[at:at + 16] for at in range(0, len(octets), 16)]
    return "".join(f"{at * 16:04x}  {row.hex(' '):47}   {'.' * len(row)}\n" for at, row in enumerate(rows)) + "\n"


def lines_of(octets):
    """What captures.py writes of frames and BPDUs."""
    return [it.hex() for it in octets]


PLAIN, PLAIN_MST = ethernet(LLC + RST), ethernet(LLC + MST)
PRIORITY_TAGGED = ethernet(LLC + RST, tags=[(0x8100, 0xE000)])
SERVICE_TAGGED = ethernet(LLC + MST, tags=[(0x88A8, 0xE00A)])
STACKED = ethernet(LLC + RST, tags=[(0x88A8, 10), (0x8100, 0xE000)])
OTHERS = [
    ethernet(LLC + RST, PROVIDER), ethernet(SNAP + RST + bytes.fromhex("000000020001"), PVST),
    ethernet(SNAP + RST + bytes.fromhex("00000002000a"), PVST, [(0x8100, 0xE00A)]), PVST + SENDER + b"\x08\x00" + bytes(46),
]
MIXED = [PLAIN, PRIORITY_TAGGED, SERVICE_TAGGED, STACKED, *OTHERS, PLAIN_MST]
# The lines of these: tags are left out, and with them what pads a frame.
MIXED_LINES = lines_of([PLAIN, PLAIN[:-4], PLAIN_MST, PLAIN[:-7], PLAIN_MST])
TAG = struct.pack(">HH", 0xE000, 4)
TOLD = {
    "other": "captures.py: frames that are no BPDUs: {}",
    "foreign": "captures.py: frames of a link type other than Ethernet and Linux's cooked ones: {}",
    "PVST": "captures.py: PVST+ frames, which are of other trees and aren't compared: {}",
    "provider": "captures.py: BPDUs of provider bridges, which are of other trees and aren't compared: {}",
    "tagged": "captures.py: BPDUs behind a tag with a VID, which may be of another network: {}",
    "cut": "captures.py: BPDUs in frames that the snap length has cut: {}",
    "lost": "captures.py: BPDUs left out, since the snap length has cut them: {}",
    "written": "captures.py: BPDUs written: {}",
    "unread": "captures.py: standard input: {}",
}


def told(**counts):
    return [TOLD[kind].format(counts[kind]) for kind in TOLD if kind in counts]


MIXED_TOLD = told(other=1, PVST=2, provider=1, tagged=2)


def whole_cases():
    """Captures that can be read: their names, their octets, the lines that are to be written, and what is to be told."""
    for order, name in (("<", "little endian"), (">", "big endian")):
        for nano in (False, True):
            yield f"pcap, {name}{', nanoseconds' * nano}", pcap(MIXED, order, nano), MIXED_LINES, MIXED_TOLD
        packets = b"".join(enhanced(order, it) for it in MIXED)
        yield f"pcapng, {name}", section(order) + described(order) + packets, MIXED_LINES, MIXED_TOLD
        named = struct.pack(order + "HH", 2, 4) + b"eth0" + struct.pack(order + "HHB3xHHq", 9, 1, 9, 14, 8, 3)
        parts = [section(order), described(order, extra=named), block(order, 5, bytes(12)), simple(order, PLAIN)]
        other = ">" if order == "<" else "<"
        parts += [obsolete(order, PLAIN), section(other), *(described(other, link) for link in (113, 276, 105))]
        parts += [enhanced(other, cooked(LLC + RST)), enhanced(other, cooked_2(LLC + MST), 1), enhanced(other, b"\x80", 2)]
        yield f"pcapng, two sections, {name} first", b"".join(parts), lines_of([PLAIN, PLAIN, RST, MST]), told(foreign=1)
    sll = [cooked(LLC + RST), cooked(LLC + MST, 4), cooked(LLC + RST, 0), cooked(SNAP + RST), cooked(LLC + RST, 2, TAG, 0x8100)]
    yield "cooked", pcap(sll, link=113), lines_of([RST, MST, RST]), told(other=1, PVST=1)
    sll = [cooked_2(LLC + RST), cooked_2(LLC + MST, 4), cooked_2(LLC + RST, 3), cooked_2(SNAP + RST)]
    stacked = struct.pack(">HH", 0xE000, len(LLC + RST))
    sll += [cooked_2(LLC + RST, 2, 4, TAG, 0x8100), cooked_2(LLC + RST, 2, 4, stacked, len(LLC + RST))]
    yield "cooked, version 2", pcap(sll, link=276), lines_of([RST, MST, RST, RST]), told(other=1, PVST=1)
    yield "another link type", pcap([bytes(60)] * 3, link=105), [], told(foreign=3, written=0)
    yield "STP", pcap([ethernet(LLC + STP)]), lines_of([ethernet(LLC + STP)]), []
    yield "padded to 9000 octets", pcap([PLAIN.ljust(9000, b"\0")]), lines_of([PLAIN.ljust(2048, b"\0")]), []
    yield "no frames", pcap([]), [], told(written=0)
    yield "nothing", b"", [], told(written=0)


def cut_cases():
    """Captures with cut frames, ends within a frame, and what is no capture."""
    yield "cut behind the BPDU", pcap([PLAIN, PLAIN_MST], snap=53), lines_of([PLAIN[:53]]), told(cut=2, lost=1)
    yield "cut by one octet", pcap([PLAIN, PLAIN_MST], snap=118), lines_of([PLAIN]), told(cut=1, lost=1)
    yield "cut in the LLC", pcap([PLAIN], snap=16), [], told(cut=1, lost=1, written=0)
    held = section("<") + described("<", snap=52) + simple("<", PLAIN[:52])
    yield "cut in a simple packet", held.replace(struct.pack("<I", 52) + PLAIN[:4], struct.pack("<I", 60) + PLAIN[:4]), [], told(
        cut=1, lost=1, written=0)
    ends = "it ends within "
    file = pcap([PLAIN, PLAIN])
    yield "the last octet is missing", file[:-1], lines_of([PLAIN]), told(unread=ends + "frame 2")
    yield "a header is cut", file[:104], lines_of([PLAIN]), told(unread=ends + "the header of frame 2")
    yield "the file's header is cut", file[:20], [], told(written=0, unread=ends + "its own header")
    large = file[:24] + struct.pack("<IIII", 0, 0, 1 << 30, 60) + bytes(60)
    yield "a frame of 1 GiB", large, [], told(written=0, unread="its frame 1 would have 1073741824 octets: it is damaged")
    held = section("<") + described("<") + enhanced("<", PLAIN)
    yield "a block's end is missing", held[:-2], [], told(written=0, unread=ends + "a block")
    yield "lengths that differ", held[:-4] + bytes(4), [], told(
        written=0, unread="the two lengths of a block aren't equal: it is damaged")
    no_interface = section("<") + enhanced("<", PLAIN)
    yield "no interface", no_interface, [], told(
        written=0, unread="its frame 1 is of an interface that isn't described: it is damaged")
    none = "it is no capture, and no text of tcpdump -x, tcpdump -xx or tshark -x"
    yield "no capture", b"hello\n\xff\n", [], told(written=0, unread=none)
    compressed = "it is compressed: gzip -dc makes a capture of it"
    yield "compressed", b"\x1f\x8b\x08\0" + bytes(20), [], told(written=0, unread=compressed)


def text_cases():
    """Texts of tcpdump and tshark."""
    padded = RST.ljust(43, b"\0")
    pvst = RST + bytes.fromhex("000000020001")
    for name, form in (("tcpdump -xx", lambda it: tcpdump(it, whole=True)), ("tshark -x", tshark)):
        yield name, "".join(map(form, MIXED)).encode(), MIXED_LINES, MIXED_TOLD
    short = [tcpdump(padded), tcpdump(pvst, "STP 802.1w, Rapid STP, length 42"), tcpdump(MST, "STP 802.1s, Rapid STP, length 102")]
    yield "tcpdump -x", "".join(short).encode(), lines_of([padded, MST]), told(PVST=1)
    short = [tcpdump(LLC + RST), tcpdump(padded, "> 01:80:c2:00:00:08, 802.3, length 39: STP 802.1w, length 36")]
    short += [tcpdump(bytes(40), "ARP")]
    yield "tcpdump -x, of more kinds", "".join(short).encode(), lines_of([RST]), told(other=1, provider=1)
    short = tcpdump(padded[:33]) + tcpdump(PLAIN[:50], "STP 802.1w, Rapid STP [|stp]") + tcpdump(MST[:60], "STP 802.1s, length 102")
    yield "tcpdump -x, cut", short.encode(), [], told(cut=3, lost=3, written=0)
    for name, them in (("cooked", cooked), ("cooked, version 2", cooked_2)):
        for form, text in (("tcpdump -xx", lambda it: tcpdump(it, whole=True)), ("tshark -x", tshark)):
            whole = "".join(map(text, [them(LLC + MST), them(SNAP + RST)]))
            yield f"{form}, {name}", whole.encode(), lines_of([MST]), told(PVST=1)


def ran(words, given=b""):
    """What a script of Python writes and tells, in lines, and its status."""
    it = subprocess.run([sys.executable, *words], input=given, capture_output=True, timeout=SECONDS, check=False)
    return it.stdout.decode().splitlines(), it.stderr.decode().splitlines(), it.returncode


def asked(program, lines, words=("run", "-")):
    """What the program prints where these lines are its standard input."""
    text = "\n".join(lines) + "\n"
    it = subprocess.run([program, *words], input=text, capture_output=True, text=True, timeout=SECONDS, check=False)
    return it.stdout.splitlines()


def in_pool(what, each):
    """What a check finds wrong with each of these, in lines, and how many they are."""
    each = list(each)
    with concurrent.futures.ThreadPoolExecutor(os.cpu_count()) as pool:
        return len(each), [line for lines in pool.map(what, each) for line in lines]


def check_case(case):
    """What captures.py does wrong with a capture, in lines."""
    name, octets, wanted, tells = case
    written, telling, status = ran([CAPTURES], octets)
    lines = [line for line in written if not line.startswith("#")]
    unread = any(line.startswith(TOLD["unread"][:-2]) for line in tells)
    if (lines, sorted(telling), status) == (wanted, sorted(tells), int(unread)):
        return []
    return [f"{name}: status {status}, {telling}, {[line[:60] for line in lines]}"]


def check_cases():
    """Each capture by captures.py: how many, and what is wrong, in lines."""
    return in_pool(check_case, [*whole_cases(), *cut_cases(), *text_cases()])


def check_sample():
    """The sample of tcpdump, whose lines are to be as they always were, and the files that can't be read."""
    sample = os.path.join(SAMPLES, "triangle.tcpdump")
    written, telling, status = ran([CAPTURES, sample])
    with open(sample, encoding="utf-8") as file:
        its = file.read().splitlines()
    wanted = ["# " + its[0], RST.ljust(43, b"\0").hex(), "# " + its[8], (RST[:4] + b"\x38" + RST[5:]).ljust(43, b"\0").hex()]
    wrong = [] if (written, telling, status) == (wanted, told(other=1), 0) else [f"triangle.tcpdump: {status} {telling} {written}"]
    # of several files each comment begins with its file
    wanted = [it.replace("# ", f"# {sample}: ", 1) for it in wanted]
    written, telling, status = ran([CAPTURES, SAMPLES, os.path.join(SAMPLES, "no-such-file"), sample])
    if status != 1 or written != wanted or len(telling) != 3 or "directory" not in telling[0]:
        wrong.append(f"files that can't be read: {status} {telling} {written}")
    for program in (CAPTURES, DIGEST, LEARN):
        written, telling, status = ran([program, "--help"])
        if status or telling or not any(line.startswith("usage: ") for line in written):
            wrong.append(f"{program} --help: status {status}, {telling}")
    return 5, wrong


# ---- damage


def damaged(draw, octets):
    """A capture in which something is changed, taken away, or put in."""
    its = bytearray(octets)
    for _ in range(draw.randint(1, 6)):
        at = draw.randrange(len(its) + 1)
        what = draw.randrange(5)
        if what == 0 and at < len(its):
            its[at] = draw.randrange(256)
        elif what == 1:
            del its[at:at + draw.randint(1, 40)]
        elif what == 2:
            its[at:at] = draw.randbytes(draw.randint(1, 40))
        elif what == 3:
            its[at:at + 4] = draw.choice([b"\0\0\0\0", b"\xff\xff\xff\xff", b"\x7f\xff\xff\xff", b"\x01\0\0\0"])
        else:
            del its[at:]
            its += draw.randbytes(draw.randrange(8))
    return bytes(its)


def learner():
    """import/captures.py as a module, with a search for tables that finds none at once."""
    spec = importlib.util.spec_from_file_location("learned_captures", LEARN)
    module = importlib.util.module_from_spec(spec)
    sys.modules[spec.name] = module
    spec.loader.exec_module(module)
    return module


def read_through(module, octets):
    """Reads a capture as captures.py and import/captures.py do, and returns the learned script. Raises any fault but Unread."""
    try:
        for frame in frames.frames(io.BytesIO(octets)):
            its = frames.found(frame)
            bool(its.whole and (its.header + its.bpdu).hex())
    except frames.Unread:
        pass
    heard = module.Heard()
    try:
        module.listen_to(heard, "a.pcap", io.BytesIO(octets))
    except frames.Unread:
        pass
    heard.end()
    return list(heard.script())


def check_damage(program):
    """Damaged captures: none may end in a traceback, and no line of a script that is learned of them may be refused."""
    draw, wrong, module = random.Random(802), [], learner()
    whole = [octets for cases in (whole_cases(), cut_cases(), text_cases()) for _, octets, _, _ in cases if octets]
    searched, digest.find = digest.find, lambda *_: (None, [])
    scripts = []
    for number in range(MUTATIONS):
        octets = damaged(draw, draw.choice(whole)) if number % 30 else draw.randbytes(draw.randrange(300))
        try:
            scripts.append(read_through(module, octets))
        except Exception as why:  # pylint: disable=broad-except
            wrong.append(f"damaged capture {number}: {why!r}")
        if number % 100 == 0:
            _, telling, status = ran([CAPTURES], octets)
            if status not in (0, 1) or any("Traceback" in line for line in telling):
                wrong.append(f"damaged capture {number}: status {status}, {telling}")
    digest.find = searched
    for script in [it for it in scripts if len(it) > 4][:60]:
        wrong += [f"a learned script: {line}" for line in asked(program, script)]
    return MUTATIONS, wrong


# ---- a live capture


def lines_within(stream, count, seconds):
    """The octets of so many lines of a stream, or of fewer if they don't come within so many seconds."""
    held, until = b"", time.monotonic() + seconds
    while held.count(b"\n") < count and select.select([stream], [], [], max(0.0, until - time.monotonic()))[0]:
        more = os.read(stream.fileno(), 1 << 16)
        if not more:
            break
        held += more
    return held


def interrupted(before, after, closes, comes):
    """A live capture of which so much comes before Ctrl-C and so much after it, and whether it then ends: how many BPDUs were there
    before, what was written, what was told, the status and the seconds that passed."""
    with subprocess.Popen([sys.executable, CAPTURES], stdin=subprocess.PIPE, stdout=subprocess.PIPE, stderr=subprocess.PIPE) as it:
        it.stdin.write(before)
        it.stdin.flush()
        early = lines_within(it.stdout, comes, 20)
        start = time.monotonic()
        it.send_signal(signal.SIGINT)
        it.stdin.write(after)
        it.stdin.flush()
        if closes:
            it.stdin.close()
        late, status = it.stdout.read(), it.wait(20)
        passed, telling = time.monotonic() - start, it.stderr.read().decode().splitlines()
        if not closes:
            it.stdin.close()
    lines = [[line for line in part.decode().splitlines() if not line.startswith("#")] for part in (early, late)]
    return len(lines[0]), lines[0] + lines[1], telling, status, passed


def live_cases():
    """Live captures: the name, what comes before Ctrl-C and after, whether it ends, the lines and the BPDUs that are there before,
    all BPDUs, what is told of other frames, and the seconds that it may take."""
    file, text, more = pcap([PLAIN, *OTHERS, PLAIN_MST]), tcpdump(RST) * 3, pcap([PLAIN])[24:]
    both, counts = lines_of([PLAIN, PLAIN_MST]), told(other=1, PVST=2, provider=1)
    yield "a pcap that ends", file, more, True, 4, 2, [*both, PLAIN.hex()], counts, 20
    yield "a pcap that stays open", file, b"", False, 4, 2, both, counts, 20
    yield "a pcap that stops in a frame", file, more[:40], False, 4, 2, both, counts, 20
    yield "a text", text.encode(), tcpdump(RST).encode(), True, 4, 2, lines_of([RST] * 4), [], 20
    yield "a text that stays open", text.encode(), b"", False, 4, 2, lines_of([RST] * 3), [], 20
    part = (text + tcpdump(RST)[:100]).encode()
    yield "a text that stops in a frame", part, b"", False, 6, 3, lines_of([RST] * 3), told(cut=1, lost=1), 20


def check_live_case(case):
    """What is wrong with a live capture that Ctrl-C ends, in lines: nothing that came may be lost."""
    name, before, after, closes, comes, early, wanted, tells, most = case
    first, lines, telling, status, passed = interrupted(before, after, closes, comes)
    tells = [*tells, *told(written=len(wanted))]
    if (first, lines, telling, status) == (early, wanted, tells, 0) and passed < most:
        return []
    return [f"{name}: {first} before Ctrl-C, {len(lines)} lines, {telling}, status {status}, {passed:.1f} s"]


# ---- digests


def digest_of(table):
    """The digest of a table, which has the MSTI of each VID, by the standard library alone."""
    octets = bytearray(8192)
    for vid, tree in table.items():
        struct.pack_into(">H", octets, 2 * vid, tree)
    return hmac.new(KEY, octets, hashlib.md5).hexdigest()


EVERY = range(1, 4095)
TABLES = [
    ({}, []), ({vid: 1 for vid in EVERY}, []), ({vid: 2 - vid % 2 for vid in EVERY}, []), ({vid: 7 for vid in EVERY}, []),
    ({137: 5}, ["--trees", "5"]), ({4000: 12}, ["--trees", "12"]), ({vid: vid for vid in range(1, 21)}, []),
    ({10: 1, 20: 2}, []), ({100: 1, 200: 2, 300: 3}, []),
    ({vid: 1 if vid < 101 else 2 for vid in range(1, 201)}, []), ({vid: 1 for vid in range(1, 101)}, ["--trees", "1"]),
    ({vid: 1 if vid < 2048 else 2 for vid in EVERY}, []), ({vid: 1 if vid < 1777 else 2 for vid in EVERY}, ["--trees", "1,2"]),
    ({vid: 3 for vid in range(200, 300)}, ["--trees", "3"]), ({vid: vid // 100 for vid in range(100, 500)}, []),
    ({17: 4, 333: 4, 1234: 4}, ["17,333,1234"]), ({5: 5, 77: 77, 901: 901}, ["5,77,901", "--trees", "5,77,901"]),
    ({17: 3, 333: 9, 1234: 3, 2: 9}, ["2,17,333,1234,1999", "--trees", "3,9"]), ({10: 1, 20: 1, 30: 2, 40: 2}, ["--trees", "1,2"]),
    ({10: 1, 12: 1, 11: 2, 13: 2}, []),
    ({vid: 1 if vid < 10 else 2 for vid in [*range(1, 10), *range(20, 30)]}, ["1-9,15,20-29", "--trees", "1,2"]),
]
# The digests of the first three, as they are known.
KNOWN = ["ac36177f50283cd4b83821d8ab26de62", "e13a80f11ed0856acd4ee3476941c73b", "60c0f7106757ed98f78fcf6d6efeef38"]
WRONG_WORDS = [[], ["12"], ["0" * 32, "1-"], ["0" * 32, "--bridge", "a b"], ["0" * 32, "1", "2"], ["0" * 32, "--trees", "0"]]


def check_digest(program, table, words):
    """What digest.py does wrong with a table's digest, in lines: the program must have the same one of what it finds."""
    wanted = digest_of(table)
    lines, telling, status = ran([DIGEST, wanted, *words, "--bridge", "core1"])
    shows = asked(program, ["addbridge core1 02:00:00:00:00:01", *lines, "showmstconfid core1"])
    fits = status == 0 and not telling and len(shows) == 1 + len(set(table.values())) and shows[0].split()[-1] == wanted
    return [] if fits else [f"digest {wanted}: status {status}, {telling}, {shows[:1]}"]


def check_wrong_words(words):
    lines, telling, status = ran([DIGEST, *words])
    fits = not lines and status == 2 and telling and "Traceback" not in telling[0]
    return [] if fits else [f"digest.py {words}: status {status}, {telling}"]


def check_digests(program):
    """Tables whose digests are made here, one that nothing has, and wrong words."""
    wrong = [f"digest {at}: {digest_of(TABLES[at][0])}" for at, known in enumerate(KNOWN) if digest_of(TABLES[at][0]) != known]
    found, lines = in_pool(lambda it: check_digest(program, *it), TABLES)
    refused, others = in_pool(check_wrong_words, WRONG_WORDS)
    written, telling, status = ran([DIGEST, "00" * 16, "--seconds", "1"])
    if written or status != 1 or len(telling) < 3 or "time was up" not in telling[-1]:
        wrong.append(f"no table: status {status}, {telling}")
    return found + refused + 1, wrong + lines + others


# ---- what a plan says on the wire


class Wire:
    """The BPDUs that the bridges of a script's plan send, by LAN."""

    def __init__(self, program, edits):
        self.regions, self.trees = {}, {}
        for words in map(str.split, asked(program, [*edits, "showregions"])):
            if words[0] != "region":
                continue
            for bridge in words[words.index("bridges") + 1:]:
                self.regions[bridge] = words[2:5] if words[1] == "mstp" else None
        for line in asked(program, [*edits, "showplan"]):
            words = line.split()
            if words[0] == "tree":
                bridges, ports = self.trees.setdefault(int(words[1]), ({}, {}))
            elif words[0] == "bridge" and words[2] != "off":
                bridges[words[1]] = dict(zip(["id", *words[3::2]], words[2::2])) | dict(zip(words[3::2], words[4::2]))
            elif words[0] == "port" and words[-1] != "Disabled":
                ports[words[1], int(words[2])] = words[3], int(words[4], 16), words[-1]

    def frames(self, everyone):
        """The frames of each LAN: of its designated ports in some tree, or of all of its ports."""
        found = {}
        for (bridge, number), (lan, _, _) in self.trees[0][1].items():
            roles = [ports[bridge, number][2] for _, ports in self.trees.values() if (bridge, number) in ports]
            if everyone or "Designated" in roles:
                found.setdefault(lan, []).append(ethernet(LLC + self.bpdu(bridge, number)))
        return found

    def bpdu(self, bridge, number):
        says, (_, port, role) = self.trees[0][0][bridge], self.trees[0][1][bridge, number]
        vector = identifier(says["root"]) + struct.pack(">I", int(says["ext"]))
        times = struct.pack(">HHHHB", 0, 20 << 8, 2 << 8, 15 << 8, 0)
        region = self.regions[bridge]
        if region is None:
            return b"\0\0\2\2" + flags(role) + vector + identifier(says["id"]) + struct.pack(">H", port) + times
        name, revision, digits = region
        config = b"\0" + name.encode().ljust(32, b"\0") + struct.pack(">H", int(revision)) + bytes.fromhex(digits)
        its = [tree for tree in sorted(self.trees) if tree and bridge in self.trees[tree][0]]
        messages = b"".join(self.message(tree, bridge, number) for tree in its)
        inside = config + struct.pack(">I", int(says["int"])) + identifier(says["id"]) + b"\x13"
        front = b"\0\0\3\2" + flags(role) + vector + identifier(says["regional"]) + struct.pack(">H", port) + times
        return front + struct.pack(">H", 64 + len(messages)) + inside + messages

    def message(self, tree, bridge, number):
        says, (_, port, role) = self.trees[tree][0][bridge], self.trees[tree][1][bridge, number]
        its = identifier(says["id"])[0] & 0xF0, port >> 8 & 0xF0, 0x13
        return flags(role) + identifier(says["regional"]) + struct.pack(">I", int(says["int"])) + bytes(its)


def identifier(text):
    return bytes.fromhex(text.replace(".", "").replace(":", ""))


def flags(role):
    code = {"Master": 0, "Root": 2, "Designated": 3}.get(role, 1)
    return bytes([code << 2 | (0 if code == 1 else 0x30)])


def quiet(lines):
    """The edits of a script."""
    return [line for line in lines if not re.match(r"\s*(show|mark|changes|save)", line)]


# The VIDs that the tables of the networks map, and the lines of drawn ones that map them.
VIDS = "1-9,10,20,30,40,20-29"
TABLE_LINE = re.compile(r"setvid2mstid \w (1 1-9|2 20-29)")


def networks():
    """Scripts of networks: the examples, and drawn ones."""
    for name in ("triangle", "region", "campus", "campus-changed", "bundle", "small/split-region", "small/one-vid-two-trees"):
        with open(os.path.join(SAMPLES, f"{name}.script"), encoding="utf-8") as file:
            yield name, quiet(file.read().splitlines())
    for number in range(DRAWN):
        lines = [line for line in sketch.drawn(number) if TABLE_LINE.fullmatch(line) or "setvid2mstid" not in line]
        yield f"drawn network {number}", quiet(lines)


def capture_lines(octets):
    """The lines of a capture's BPDUs, as captures.py writes them."""
    them = map(frames.found, frames.frames(io.BytesIO(octets)))
    return [(it.header + it.bpdu).hex() for it in them if it.kind == frames.BPDU]


def check_learned(program, what, captures):
    """What is wrong with a script that is learned of captures, one for each LAN, in lines: all of them must agree with its plan."""
    with tempfile.TemporaryDirectory() as folder:
        paths = [os.path.join(folder, f"lan-{at}.pcap") for at in range(len(captures))]
        for path, octets in zip(paths, captures):
            with open(path, "wb") as file:
                file.write(octets)
        script, telling, status = ran([LEARN, "--vids", VIDS, *paths])
        lines = [line for octets in captures for line in capture_lines(octets)]
        plan = os.path.join(folder, "learned.script")
        with open(plan, "w", encoding="utf-8") as file:
            file.write("\n".join(script) + "\n")
        says = asked(program, lines, ("check", plan, "-"))
    wrong = [f"status {status}, {telling[-1:]}"] * (status != 0) + [line for line in says if not line.endswith(" agrees")]
    wrong += ["not each BPDU is compared"] * (len(says) != len(lines))
    return [f"{what}: {line}" for line in wrong]


def check_plan(program, name, edits):
    """What is wrong with scripts that are learned of what a plan says on the wire: of designated ports alone, of all ports, of the
    designated ports of each second LAN; of one file with all LANs, each heard by another interface; and of two files of each LAN."""
    wire = Wire(program, edits)
    sent, everyone = wire.frames(False), wire.frames(True)
    some = dict(list(sent.items())[::2])
    apart = [cooked_2(it[14:], interface=at) for at, them in enumerate(everyone.values()) for it in them]
    twice = [*sent.values(), *everyone.values()]
    cases = [("designated ports", sent.values()), ("all ports", everyone.values()), ("some LANs", some.values()), ("twice", twice)]
    cases = [(what, list(map(pcap, its))) for what, its in cases] + [("one file", [pcap(apart, link=276)] if apart else [])]
    return [line for what, its in cases if its for line in check_learned(program, f"{name}, {what}", its)]


def samples():
    """The samples of captures, of which those lines count that agree with the plans of their scripts: one LAN each."""
    for name in ("triangle", "region"):
        with open(os.path.join(SAMPLES, f"{name}.captures"), encoding="utf-8") as file:
            lines = [line for line in file.read().splitlines() if line and not line.startswith("#")]
        digits = [re.sub("[^0-9a-f]", "", line) for line in lines]
        bpdus = [bytes.fromhex(it[34:] if it.startswith(GROUP.hex()) else it) for it in digits]
        yield name, bpdus[:2 if name == "region" else 1]


def check_learning(program):
    """Scripts that are learned of what plans say on the wire, of the samples, and of captures of which nothing follows."""
    count, wrong = in_pool(lambda it: check_plan(program, *it), networks())
    for name, bpdus in samples():
        for form, them in (("Ethernet", pcap([ethernet(LLC + it) for it in bpdus])),
                           ("cooked", pcap([cooked_2(LLC + it) for it in bpdus], link=276))):
            count += 1
            wrong += check_learned(program, f"{name}.captures, {form}", [them])
    script, telling, status = ran([LEARN, os.path.join(SAMPLES, "no-such-file"), CAPTURES])
    if script != ["mstplan 2"] or status != 1 or len(telling) < 3:
        wrong.append(f"files that can't be read: status {status}, {telling}")
    return count + 1, wrong


def main():
    if len(sys.argv) != 2:
        sys.exit(__doc__)
    program = os.path.abspath(sys.argv[1])
    checks = [
        ("captures", check_cases), ("sample", check_sample), ("damage", lambda: check_damage(program)),
        ("live", lambda: in_pool(check_live_case, live_cases())),
        ("digests", lambda: check_digests(program)), ("learning", lambda: check_learning(program)),
    ]
    passed = failed = 0
    for name, check in checks:
        count, wrong = check()
        for line in wrong[:20]:
            print(f"FAILED {name}: {line}")
        failed += len(wrong)
        passed += max(0, count - len(wrong))
    print(f"{passed} passed, {failed} failed")
    sys.exit(1 if failed else 0)


if __name__ == "__main__":
    main()
