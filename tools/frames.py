"""Captured frames as they are found: pcap and pcapng files, and the texts of tcpdump and tshark; and the BPDUs in them.

captures.py and import/captures.py share it. Octets are counted from 0 here.
"""

import re
import struct
from dataclasses import dataclass, field
from datetime import datetime, timedelta, timezone

# Link types of captures: Ethernet, and the two cooked ones of Linux, which `tcpdump -i any` makes.
ETHERNET, COOKED, COOKED_2 = 1, 113, 276
LINK_TYPES = (ETHERNET, COOKED, COOKED_2)
BRIDGE_GROUP, PROVIDER_GROUP = bytes.fromhex("0180c2000000"), bytes.fromhex("0180c2000008")
LLC, PVST_SNAP = bytes.fromhex("424203"), bytes.fromhex("aaaa0300000c010b")
# What a PVST+ BPDU has behind that of RSTP or STP, before the two octets of its VID.
PVST_TAIL, PVST_TAIL_AT = bytes.fromhex("00000002"), 36
# Types of the tags of 802.1Q and 802.1ad, and of those before the latter.
TAG_TYPES = (0x8100, 0x88A8, 0x9100, 0x9200, 0x9300)
LONGEST_LENGTH = 1500
# How a cooked header says that a frame goes to a group, or is sent from here. The destination itself isn't in it.
MULTICAST, OUTGOING, ETHERNET_DEVICE = 2, 4, 1

# What a frame is: a BPDU of ours, one of Cisco's for one VLAN, a provider bridge's, or none; or the capture has another link type.
BPDU, PVST, PROVIDER, OTHER, FOREIGN = "BPDU", "PVST+", "provider", "other", "foreign"

# The first octets of a pcap file: its byte order, and the digits of its fractions of a second.
PCAP_MAGIC = {
    b"\xd4\xc3\xb2\xa1": ("<", 6), b"\xa1\xb2\xc3\xd4": (">", 6),
    b"\x4d\x3c\xb2\xa1": ("<", 9), b"\xa1\xb2\x3c\x4d": (">", 9),
}
SECTION_HEADER = b"\x0a\x0d\x0d\x0a"
PCAPNG_ORDER = {b"\x4d\x3c\x2b\x1a": "<", b"\x1a\x2b\x3c\x4d": ">"}
SECTION, INTERFACE, OBSOLETE, SIMPLE, ENHANCED = 0x0A0D0D0A, 1, 2, 3, 6
NAME_OPTION, RESOLUTION_OPTION, OFFSET_OPTION = 2, 9, 14
GZIP_MAGIC = b"\x1f\x8b"
LARGEST_FRAME, LARGEST_BLOCK, LONGEST_LINE = 1 << 18, 1 << 24, 1 << 16

# tcpdump: an offset, then groups of two octets, then perhaps two spaces and text.
TCPDUMP = re.compile(r"^\s+0x([0-9a-f]{4,}):\s+((?:[0-9a-f]{2}){1,2}(?: (?:[0-9a-f]{2}){1,2})*)(?:\s\s.*)?$")
# tshark: an offset, then octets, then perhaps three spaces or more and text.
TSHARK = re.compile(r"^([0-9a-f]{4,})  ([0-9a-f]{2}(?: {1,2}[0-9a-f]{2})*)(?:   .*)?$")
# What tcpdump says of a frame that it reads as a BPDU, the octets that the BPDU had, and that some are missing.
SAYS_STP = re.compile(r"\bSTP 802\.1(?:.*\blength (\d+))?")
SAYS_CUT = re.compile(r"\[\|\w+\]")


class Unread(Exception):
    """A file, or the rest of it, that can't be read, and why."""


class EndsEarly(Unread):
    """A file that ends within a frame."""


@dataclass
class Frame:
    """A frame: its octets as far as they were captured, its link type or None where a text has it, whether it was cut by the
    snap length, the lines that tell of it, and the interface that heard it, if the capture says which."""
    octets: bytes
    link: int | None
    cut: bool = False
    comments: list[str] = field(default_factory=list)
    interface: str = ""


@dataclass
class Found:
    """What a frame is; and of a BPDU its octets, the header before it as `mstplan check` reads it or none, the VIDs of the tags
    that stood there, and whether the snap length cut the frame."""
    kind: str
    bpdu: bytes = b""
    header: bytes = b""
    vids: tuple[int, ...] = ()
    cut: bool = False

    @property
    def whole(self):
        return len(self.bpdu) >= needed(self.bpdu)


def needed(bpdu):
    """How many octets a BPDU must have, as far as these tell."""
    if len(bpdu) < 4 or bpdu[3] not in (0, 2):
        return 4
    if bpdu[3] == 0 or bpdu[2] < 3:
        return 35 if bpdu[3] == 0 else 36
    return max(102, 38 + min(int.from_bytes(bpdu[36:38], "big"), 64 + 16 * 64))


# ---- frames of a file


def frames(stream):
    """Each frame of a stream, whose kind its first octets tell. Raises Unread where it can't be read on."""
    first = stream.read(4)
    if first in PCAP_MAGIC:
        yield from pcap_frames(first, stream)
    elif first == SECTION_HEADER:
        yield from pcapng_frames(first, stream)
    elif first.startswith(GZIP_MAGIC):
        raise Unread("it is compressed: gzip -dc makes a capture of it")
    elif first:
        yield from text_frames(first, stream)


def sized(stream, size, what):
    """So many octets, or EndsEarly."""
    octets = stream.read(size)
    if len(octets) < size:
        raise EndsEarly(f"it ends within {what}")
    return octets


def clock(ticks, each, more=0):
    """A time of so many ticks, of which a second has `each`, and so many seconds more, since 1970."""
    seconds, rest = divmod(ticks, each)
    digits = 6 if each <= 10**6 else 9
    try:
        day = datetime(1970, 1, 1, tzinfo=timezone.utc) + timedelta(seconds=seconds + more)
        return f"{day:%Y-%m-%dT%H:%M:%S}.{rest * 10**digits // each:0{digits}}Z"
    except OverflowError:
        return f"{seconds + more} s"


def pcap_frames(first, stream):
    """The frames of a pcap file."""
    order, digits = PCAP_MAGIC[first]
    link = struct.unpack(order + "HHiIII", sized(stream, 20, "its own header"))[-1] & 0xFFFF
    number = 0
    while head := stream.read(16):
        number += 1
        if len(head) < 16:
            raise EndsEarly(f"it ends within the header of frame {number}")
        seconds, rest, held, length = struct.unpack(order + "IIII", head)
        if held > LARGEST_FRAME:
            raise Unread(f"its frame {number} would have {held} octets: it is damaged")
        octets = sized(stream, held, f"frame {number}")
        yield Frame(octets, link, held < length, [f"frame {number} {clock(seconds * 10**digits + rest, 10**digits)}"])


def fields(form, octets):
    """The first fields of a block, or Unread."""
    if len(octets) < struct.calcsize(form):
        raise Unread("a block of it is too short: it is damaged")
    return struct.unpack_from(form, octets)


def blocks(kind, stream):
    """The byte order, the type and the body of each block of a pcapng file, which begins with these octets of a type."""
    order = "<"
    while kind:
        if len(kind) < 4:
            raise EndsEarly("it ends within the header of a block")
        length, body = sized(stream, 4, "the header of a block"), b""
        if kind == SECTION_HEADER:
            body = sized(stream, 4, "the header of a section")
            if body not in PCAPNG_ORDER:
                raise Unread("the byte order of a section can't be told: it is damaged")
            order = PCAPNG_ORDER[body]
        size = struct.unpack(order + "I", length)[0]
        if not 12 + len(body) <= size <= LARGEST_BLOCK or size % 4:
            raise Unread(f"a block of it would have {size} octets: it is damaged")
        body += sized(stream, size - 12 - len(body), "a block")
        if sized(stream, 4, "a block") != length:
            raise Unread("the two lengths of a block aren't equal: it is damaged")
        yield order, struct.unpack(order + "I", kind)[0], body
        kind = stream.read(4)


def options(order, octets):
    """The options of a block, by code."""
    found, at = {}, 0
    while at + 4 <= len(octets):
        code, size = struct.unpack_from(order + "HH", octets, at)
        if code == 0:
            break
        found[code] = octets[at + 4:at + 4 + size]
        at += 4 + (size + 3) // 4 * 4
    return found


@dataclass
class Interface:
    """An interface of a pcapng file: its link type, its snap length or 0, its clock's ticks each second and its offset in
    seconds, and its name in the file."""
    link: int
    snap: int
    each: int
    offset: int
    name: str

    @classmethod
    def of(cls, order, body, otherwise):
        """That of an interface description block, which has the other name if none is told."""
        link, _, snap = fields(order + "HHI", body)
        said = options(order, body[8:])
        resolution = said.get(RESOLUTION_OPTION, b"\x06")[:1] or b"\x06"
        each = (2 if resolution[0] & 0x80 else 10) ** (resolution[0] & 0x7F)
        offset = said.get(OFFSET_OPTION, b"")
        name = said.get(NAME_OPTION, b"").rstrip(b"\0").decode("utf-8", "replace")
        name = "".join(letter if letter.isprintable() else "?" for letter in name)
        return cls(link, snap, each, int.from_bytes(offset, "little" if order == "<" else "big", signed=True), name or otherwise)


def pcapng_frames(first, stream):
    """The frames of a pcapng file."""
    number, interfaces, before = 0, [], 0
    for order, kind, body in blocks(first, stream):
        if kind == SECTION:
            before, interfaces = before + len(interfaces), []
        elif kind == INTERFACE:
            interfaces.append(Interface.of(order, body, f"interface-{before + len(interfaces)}"))
        elif kind in (ENHANCED, OBSOLETE, SIMPLE):
            number += 1
            yield packet(order, kind, body, interfaces, number)


def packet(order, kind, body, interfaces, number):
    """The frame of a packet block."""
    if kind == SIMPLE:
        which, at = 0, 4
        (length,) = fields(order + "I", body)
        snap = interfaces[0].snap if interfaces else 0
        held, ticks = min(length, snap or length, len(body) - 4), None
    else:
        at = 20
        which, high, low, held, length = fields(order + ("IIIII" if kind == ENHANCED else "HxxIIII"), body)
        ticks = high << 32 | low
    if which >= len(interfaces):
        raise Unread(f"its frame {number} is of an interface that isn't described: it is damaged")
    if held > len(body) - at:
        raise Unread(f"its frame {number} would have {held} octets, more than its block: it is damaged")
    its = interfaces[which]
    told = f"frame {number}" + (f" {clock(ticks, its.each, its.offset)}" if ticks is not None else "") + f" {its.name}"
    return Frame(body[at:at + held], its.link, held < length, [told], its.name)


def lines(first, stream):
    """The lines of a text that begins with these octets. A line longer than LONGEST_LINE octets is several."""
    for line in (first + stream.readline(LONGEST_LINE)).splitlines():
        yield line.decode("utf-8", "replace")
    while line := stream.readline(LONGEST_LINE):
        yield line.rstrip(b"\r\n").decode("utf-8", "replace")


def text_frames(first, stream):
    """The frames of a text. Raises Unread where it has no frame."""
    others, digits, count = [], "", 0
    for line in lines(first, stream):
        dump = TCPDUMP.match(line) or TSHARK.match(line)
        if dump and int(dump.group(1), 16) * 2 == len(digits):
            digits += dump.group(2).replace(" ", "")
            continue
        if digits:
            count += 1
            yield Frame(bytes.fromhex(digits), None, False, others)
            others, digits = [], ""
        if dump:
            digits = dump.group(2).replace(" ", "")
        elif line.strip():
            others.append(line.strip())
    if digits:
        yield Frame(bytes.fromhex(digits), None, False, others)
    elif not count:
        raise Unread("it is no capture, and no text of tcpdump -x, tcpdump -xx or tshark -x")


# ---- what a frame is


def found(frame):
    """What a frame is."""
    if frame.link is None:
        return in_text(frame)
    if frame.link not in LINK_TYPES:
        return Found(FOREIGN)
    it = {ETHERNET: in_ethernet, COOKED: in_cooked, COOKED_2: in_cooked_2}[frame.link](frame.octets)
    it.cut = frame.cut
    return it


def heard_at(frame):
    """The interface that heard a frame, where the capture says which."""
    if frame.link == COOKED_2 and len(frame.octets) >= 8:
        return f"{frame.interface}.{int.from_bytes(frame.octets[4:8], 'big')}".lstrip(".")
    return frame.interface


def behind(kind, rest, group, addresses=b""):
    """What a frame to this group is that has this type and these octets behind it, and perhaps two addresses before."""
    vids = []
    while kind in TAG_TYPES and len(rest) >= 4:
        vids.append(int.from_bytes(rest[:2], "big") & 0xFFF)
        kind, rest = int.from_bytes(rest[2:4], "big"), rest[4:]
    if not addresses and rest[2:4] == kind.to_bytes(2, "big") and kind <= LONGEST_LENGTH:
        # of stacked tags `tcpdump -i any` loses the type of the inner one, and has the length both before it and behind it
        vids.append(int.from_bytes(rest[:2], "big") & 0xFFF)
        rest = rest[4:]
    cut = len(rest) < kind <= LONGEST_LENGTH
    if kind > LONGEST_LENGTH:
        return Found(OTHER)
    if rest.startswith(PVST_SNAP):
        return Found(PVST)
    if not rest.startswith(LLC) and not (cut and addresses and LLC.startswith(rest)):
        return Found(OTHER)
    if group == PROVIDER_GROUP:
        return Found(PROVIDER)
    if group not in (BRIDGE_GROUP, None):
        return Found(OTHER)
    header = addresses + kind.to_bytes(2, "big") + rest[:3] if addresses else b""
    return Found(BPDU, rest[3:], header, tuple(vids), cut)


def in_ethernet(octets):
    return behind(int.from_bytes(octets[12:14], "big"), octets[14:], octets[:6], octets[:12]) if len(octets) >= 14 else Found(OTHER)


def in_cooked(octets):
    """Of a cooked frame: a BPDU is to a group, or sent from here, and has the LLC octets 42 42 03."""
    if len(octets) < 16 or octets[0] or octets[1] not in (MULTICAST, OUTGOING):
        return Found(OTHER)
    return behind(int.from_bytes(octets[14:16], "big"), octets[16:], None)


def in_cooked_2(octets):
    if len(octets) < 20 or octets[10] not in (MULTICAST, OUTGOING):
        return Found(OTHER)
    return behind(int.from_bytes(octets[:2], "big"), octets[20:], None)


def in_text(frame):
    """What a frame of a text is, in which nothing tells its link type, nor how many octets of a header are printed."""
    octets, words = frame.octets, " ".join(frame.comments)
    its = in_ethernet(octets)
    if its.kind == OTHER and octets[2:6] == b"\0\x01\0\x06":
        its = in_cooked(octets)
    if its.kind == OTHER and octets[2:4] == b"\0\0" and octets[8:10] == b"\0\x01" and octets[11:12] == b"\x06":
        its = in_cooked_2(octets)
    says = SAYS_STP.search(words)
    if its.kind == OTHER and octets.startswith(LLC):
        its = Found(BPDU, octets[len(LLC):])
    elif its.kind == OTHER and says:
        its = Found(BPDU, octets) if octets.startswith(b"\0\0") else behind(TAG_TYPES[0], octets, None)
    if its.kind == BPDU and not its.header:
        if "PVST" in words or its.bpdu[2:3] < b"\x03" and its.bpdu[PVST_TAIL_AT:].startswith(PVST_TAIL):
            return Found(PVST)
        if "01:80:c2:00:00:08" in words:
            return Found(PROVIDER)
    its.cut = its.cut or bool(SAYS_CUT.search(words)) or bool(says and says.group(1) and len(its.bpdu) < int(says.group(1)))
    return its
