#!/usr/bin/env python3
"""Makes a script of what bridges said in captures: a network whose plan agrees with their BPDUs.

usage: captures.py [--vids VIDS] FILE ...    (- is standard input)

Each file is what was captured on one LAN, in any form that ../captures.py reads (pcap, pcapng, a text of tcpdump or tshark);
where a capture says which interface heard a frame, each interface is a LAN. Files in which one port is heard are of one LAN. A
designated port sends each two seconds, so some seconds of each LAN are enough. For example:

    captures.py uplink.pcap rack-1.pcap > learned.script
    ../captures.py uplink.pcap rack-1.pcap > CAPTURES
    mstplan check learned.script CAPTURES

Each bridge that sent a BPDU becomes a bridge named by its MAC address: of kind mstp where it sent MST BPDUs, else rstp, with its
priorities and, in a region, name, revision and a table that ../digest.py finds for the digest, of VIDS if they are told (in 20
seconds, or a minute for all). Each port that sent one has its number and its priorities, and is in its LAN. The last BPDU of a
port counts.

A cost follows where a root port and its LAN's designated port are both heard: it is the difference of what they say. Where a
bridge's root port isn't heard, its way to the root is one made-up LAN of the cost that it says; a root or a regional root that
isn't heard has a bridge that stands for it. Ports that block get a cost at which they do.

What couldn't be known is told on standard error: bridges that only listen aren't in the script, nor are speeds, VLANs of ports and
ports that are down. A file that can't be read is told there first, with status 1; so it is where no bridge is heard. Wrong words have
status 2.
"""

import argparse
import itertools
import os
import struct
import sys
import time
from dataclasses import dataclass, field

sys.dont_write_bytecode = True
HERE = os.path.dirname(os.path.abspath(__file__))
sys.path.append(os.path.join(HERE, os.pardir))

import digest  # noqa: E402
import frames  # noqa: E402
from network import DEFAULT_MAX_AGE, DEFAULT_PORT_PRIORITY, DEFAULT_PRIORITY, HIGHEST_COST  # noqa: E402
from network import Network, automatic, comment, write  # noqa: E402

ALTERNATE, ROOT, DESIGNATED = 1, 2, 3
WORST_PRIORITY, HIGHEST_PORT = 61440, 4095
# The first of the MAC addresses of bridges that stand for no other one.
MADE_UP_MACS = 0x02FF00000000
SECONDS_EACH, SECONDS_ALL = 20.0, 60.0
STP, RSTP, MSTP = 0, 2, 3
# The flags of a designated port that forwards.
FORWARDING = 0x3C


@dataclass
class Told:
    """What a BPDU says of one tree: its flags, the root in an MSTI and the CIST's regional root, the internal cost, priorities of
    bridge and port."""
    flags: int
    regional: int
    cost: int
    priority: int
    port_priority: int

    @property
    def role(self):
        return self.flags >> 2 & 3


@dataclass
class Said:
    """A BPDU: its version, root, external cost, sender and Max Age in seconds, what it says of each tree, and in version 3 its
    region. Identifiers are numbers."""
    version: int
    root: int
    external: int
    bridge: int
    port: int
    max_age: int
    trees: dict[int, Told]
    region: tuple[bytes, int, bytes] | None = None


def mac(identifier):
    digits = f"{identifier & (1 << 48) - 1:012x}"
    return ":".join(digits[at:at + 2] for at in range(0, 12, 2))


def priority(identifier):
    """The priority of a Bridge Identifier, without the system ID extension."""
    return identifier >> 60 << 12


def said(octets):
    """What a BPDU says, or None for one that `mstplan check` refuses; but one of STP is read, as that of a designated port."""
    if len(octets) < 35 or octets[:2] != b"\0\0" or (octets[2], octets[3]) not in ((STP, 0), (RSTP, 2), (MSTP, 2)):
        return None
    version, flags = octets[2], octets[4]
    root, external, bridge, port, _, max_age = struct.unpack(">QIQHHH", octets[5:31])
    its = Said(version, root, external, bridge, port & 0xFFF, max_age >> 8, {})
    if version == MSTP:
        return said_in_region(octets, its)
    if len(octets) < frames.needed(octets):
        return None
    its.trees[0] = Told(flags if version == RSTP else FORWARDING, bridge, 0, priority(bridge), port >> 12 << 4)
    return its


def said_in_region(octets, its):
    """What an MST BPDU says, of which the first fields are read, or None."""
    length = int.from_bytes(octets[36:38], "big")
    if len(octets) < 102 or octets[35] or length % 16 or not 64 <= length <= min(64 + 1024, len(octets) - 38):
        return None
    regional, port = struct.unpack(">QH", octets[17:27])
    cost, its.bridge = struct.unpack(">IQ", octets[89:101])
    its.trees[0] = Told(octets[4], regional, cost, priority(its.bridge), port >> 12 << 4)
    for at in range(102, 38 + length, 16):
        flags, regional, cost, bridges, ports = struct.unpack_from(">BQIBB", octets, at)
        its.trees.setdefault(regional >> 48 & 0xFFF, Told(flags, regional, cost, bridges >> 4 << 12, ports & 0xF0))
    its.region = octets[39:71].rstrip(b"\0"), int.from_bytes(octets[71:73], "big"), octets[73:89]
    return its


@dataclass(eq=False)
class Port:
    """A port: its LAN, what it said last or None for a made-up one, whether its role is restricted, its external cost, and its
    internal cost by tree."""
    lan: str
    said: Said | None = None
    restricted: bool = False
    external: int | None = None
    costs: dict[int, int] = field(default_factory=dict)

    def role(self, tree):
        return self.said.trees[tree].role if self.said and tree in self.said.trees else None


@dataclass(eq=False)
class Bridge:
    """A bridge: what it said last, or None where it stands for one that wasn't heard; its priority by tree; its region, None for
    kind rstp; its Max Age in seconds; its ports by number; and where it only stands between a region's parts its external cost."""
    name: str
    mac: str
    said: Said | None
    region: tuple[bytes, int, bytes] | None
    priorities: dict[int, int] = field(default_factory=dict)
    max_age: int = DEFAULT_MAX_AGE
    ports: dict[int, Port] = field(default_factory=dict)
    between: int = 0

    def cost(self, tree):
        """Its internal cost in a tree, or its external one for None; 0 where it stands for a root."""
        if not self.said and tree is None:
            return self.between
        if not self.said or tree is not None and tree not in self.said.trees:
            return 0
        return self.said.external if tree is None else self.said.trees[tree].cost

    def root(self, tree):
        """The root that it tells of in a tree, or a number greater than any."""
        if tree and tree not in self.said.trees:
            return 1 << 64
        return self.said.trees[tree].regional if tree else self.said.root

    def free_port(self):
        return next((number for number in range(HIGHEST_PORT, 0, -1) if number not in self.ports), None)


class Heard(Network):
    """The network that BPDUs tell of.

    `heard` has bridges by MAC address, `on` the ports of each LAN, `same` the LAN that one was joined to, `plugged` the bridge
    whose made-up port is the designated one of a LAN, `ways` the port at a made-up LAN from a bridge to a root, `between` the
    bridge between the parts of a root's region, `trees` those of each region, `tables` their VIDs, and `named` are ranges of VIDs
    that may be mapped.
    """

    def __init__(self, named=()):
        super().__init__()
        self.named = named
        self.heard, self.on, self.same, self.plugged = {}, {}, {}, {}
        self.ways, self.between, self.trees, self.tables = {}, {}, {}, {}

    # ---- what was heard

    def listen(self, lan, its):
        """Adds a BPDU that was heard in a LAN."""
        if not its.port:
            self.tell(f"a BPDU of {mac(its.bridge)} has no port number: it is left out")
            return
        where = mac(its.bridge)
        bridge = self.heard.get(where)
        if bridge is None:
            bridge = self.heard[where] = Bridge(self.name("bridge", where.replace(":", "")), where, its, its.region)
        if its.region is None and bridge.region is not None:
            self.tell(f"{bridge.name} sends MST and other BPDUs: those of MSTP count")
            return
        if its.region is not None and bridge.region is None:
            bridge.ports.clear()
        if its.version == STP:
            self.tell(f"{bridge.name} sends BPDUs of STP, which mstplan check refuses: it is taken for one of RSTP")
        port = bridge.ports.setdefault(its.port, Port(lan))
        if self.lan_of(port.lan) != self.lan_of(lan):
            self.tell(f"{lan} and {port.lan} are one LAN, since one port is heard in both")
            self.same[self.lan_of(lan)] = self.lan_of(port.lan)
        if port.said and as_compared(port.said) != as_compared(its):
            self.tell(f"{bridge.name} port {its.port} changed what it says: its last BPDU counts")
        bridge.said, bridge.region, port.said = its, its.region, its

    def lan_of(self, lan):
        """The LAN that this one was joined to, or itself."""
        while lan in self.same:
            lan = self.same[lan]
        return lan

    def end(self):
        """Makes a network of what was heard."""
        heard = list(self.heard.values())
        for bridge in heard:
            bridge.priorities = {tree: its.priority for tree, its in bridge.said.trees.items()}
            self.tell_extension(bridge.said.bridge)
            if bridge.region:
                self.trees.setdefault(bridge.region, set()).update(bridge.said.trees)
            for number, port in bridge.ports.items():
                port.lan = self.lan_of(port.lan)
                self.on.setdefault(port.lan, []).append((bridge, number))
        for step in (self.add_regional_roots, self.add_root, self.add_ways, self.block):
            for bridge in heard:
                step(bridge)
        self.find_tables()
        self.tell("bridges that only listened, ports that are down, speeds and the VLANs of ports aren't told by BPDUs")

    def tell_extension(self, identifier):
        if identifier >> 48 & 0xFFF:
            self.tell(f"{mac(identifier)} has the system ID extension {identifier >> 48 & 0xFFF} in the CIST, which no script can"
                      " write: the plan won't agree")

    # ---- bridges that weren't heard

    def stand_in(self, identifier, tree, region, why):
        """The bridge with an identifier in a tree, which may have to be made up."""
        where = mac(identifier)
        bridge = self.heard.get(where)
        if bridge is None:
            bridge = Bridge(self.name("bridge", where.replace(":", "")), where, None, region)
            self.heard[where] = bridge
            self.tell(f"{bridge.name} wasn't heard: a bridge stands for {why}")
            if tree == 0:
                self.tell_extension(identifier)
        if not bridge.said:
            bridge.priorities[tree] = priority(identifier)
        return bridge

    def add_regional_roots(self, bridge):
        """The regional roots that a bridge tells of."""
        for tree, says in bridge.said.trees.items() if bridge.region else ():
            self.stand_in(says.regional, tree, bridge.region, f"the regional root of {bridge.name} in tree {tree}")

    def add_root(self, bridge):
        """The root that a bridge tells of, and the way there of its regional root, where that one wasn't heard."""
        its = bridge.said
        root = self.stand_in(its.root, 0, None, "the root")
        root.max_age = its.max_age if 6 <= its.max_age <= 40 else DEFAULT_MAX_AGE
        regional = self.heard[mac(its.trees[0].regional)] if bridge.region else bridge
        if not regional.said and regional is not root and not regional.ports:
            self.make_way(regional, self.outside(regional, root), None, its.external)

    def outside(self, bridge, root):
        """A root, or the bridge of another region by which a bridge reaches it, where both are of one region whose parts aren't
        linked inside it."""
        if not self.is_inside(bridge, root):
            return root
        its = self.between.get(root)
        if its is None:
            where = next(it for it in map(mac, itertools.count(MADE_UP_MACS)) if it not in self.heard)
            its = Bridge(self.name("bridge", f"between-{len(self.between) + 1}"), where, None, None, between=1)
            self.between[root] = self.heard[where] = its
            self.tell(f"the region of {root.name} is in parts: {its.name}, of no region, stands between them")
            self.make_way(its, root, None, 1)
        return its

    # ---- ways to roots, and costs

    def add_ways(self, bridge):
        """A way to the root of each tree that a bridge isn't the root of itself."""
        its = bridge.said
        for tree, says in its.trees.items():
            if mac(says.regional) != bridge.mac:
                self.add_way(bridge, self.heard[mac(says.regional)], tree, says.cost)
            elif tree == 0 and its.root != its.bridge:
                self.add_way(bridge, self.outside(bridge, self.heard[mac(its.root)]), None, its.external)

    def add_way(self, bridge, root, tree, cost):
        """A way of this internal cost in a tree, or of an external cost for None, by a root port that was heard or made up."""
        for number, port in bridge.ports.items():
            if port.role(tree or 0) != ROOT:
                continue
            nearer = self.nearer(bridge, port, tree or 0, root)
            step = cost - nearer.cost(tree) if nearer else 0
            if 1 <= step <= HIGHEST_COST and self.is_inside(nearer, bridge) == (tree is not None):
                set_cost(port, tree, step)
                return
            self.tell(f"{bridge.name} port {number} is a root port at no cost that what was heard explains")
        if root is not bridge:
            self.make_way(bridge, root, tree, cost)

    def nearer(self, bridge, port, tree, root):
        """The bridge whose designated port a port hears in a tree; where none was heard, the root, of which one is made up if the
        LAN's ports all hear another one; or None."""
        designated = self.designated(port.lan, tree, bridge)
        if designated:
            return designated
        if tree and self.is_boundary(port, bridge):
            return None
        ports = [it.ports[number].said for it, number in self.on[port.lan]]
        if any(says.role == DESIGNATED for its in ports if its for says in its.trees.values()):
            return None
        if all(it is not root for it, _ in self.on[port.lan]):
            self.tell(f"nothing was heard of the designated port of {port.lan}: a made-up one of {root.name} stands for it")
            self.add_port_of(root, port.lan)
            self.plugged.setdefault(port.lan, root)
        return root

    def is_boundary(self, port, bridge):
        """Whether a port of a bridge is in another region's LAN, as far as the LAN's designated port was heard or made up."""
        designated = self.designated(port.lan, 0, bridge) or self.plugged.get(port.lan)
        return designated is not None and not self.is_inside(designated, bridge)

    @staticmethod
    def is_inside(one, other):
        """Whether two bridges are of one region."""
        return one.region is not None and one.region == other.region

    def designated(self, lan, tree, listener):
        """The bridge with the LAN's designated port in a tree, as far as it was heard and is in the listener's region, if the tree
        isn't the CIST."""
        found = []
        for bridge, number in self.on.get(lan, []):
            its = bridge.ports[number]
            if its.role(tree) == DESIGNATED and (tree == 0 or self.is_inside(bridge, listener)):
                says = its.said
                found.append(((says.root, says.external, says.trees[0].regional) if tree == 0 else (), says.trees[tree].regional,
                              says.trees[tree].cost, bridge.mac, number, bridge))
        if len(found) > 1:
            self.tell(f"in {lan} more than one port says that it is the designated one in tree {tree}")
        return min(found, key=lambda it: it[:-1])[-1] if found else None

    def add_port_of(self, bridge, lan):
        """A made-up port in a LAN, whose costs are the highest in each tree."""
        number = bridge.free_port()
        if number is None:
            self.tell(f"{bridge.name} has no port number left: a made-up port is left out")
            return Port(lan)
        port = bridge.ports[number] = Port(lan)
        port.costs = {tree: HIGHEST_COST for tree in self.trees.get(bridge.region, ())}
        self.on.setdefault(lan, []).append((bridge, number))
        return port

    def make_way(self, bridge, root, tree, cost):
        """A made-up LAN from a bridge to a root, of this cost in the tree, or of an external cost for None."""
        cost -= root.cost(tree)
        if not 1 <= cost <= HIGHEST_COST:
            self.tell(f"{bridge.name} says a cost of {cost}, which no port can have: the plan won't agree")
            cost = max(1, min(cost, HIGHEST_COST))
        port = self.ways.get((bridge, root))
        if port is None:
            lan = self.name("LAN", f"made-up-{len(self.ways) + 1}")
            what = "external" if tree is None else f"internal in tree {tree}"
            self.tell(f"{bridge.name}: its way to {root.name} wasn't heard: {lan} of cost {cost} ({what}) stands for it")
            port = self.ways[bridge, root] = self.add_port_of(bridge, lan)
            self.add_port_of(root, lan)
        set_cost(port, tree, cost)

    def block(self, bridge):
        """Costs at which the ports of a bridge that block do so; a port that hears a better root has a restricted role."""
        for number, port in bridge.ports.items():
            for tree, says in port.said.trees.items() if port.said else ():
                if says.role != ALTERNATE or self.designated(port.lan, tree, bridge) is bridge:
                    continue
                if tree and self.is_boundary(port, bridge):
                    continue
                root = self.heard[mac(bridge.said.trees[tree].regional if tree else bridge.said.root)]
                root = self.outside(bridge, root) if tree == 0 and bridge.said.external else root
                nearer = self.nearer(bridge, port, tree, root)
                if nearer is None or nearer is bridge:
                    self.tell(f"{bridge.name} port {number} blocks, and nothing was heard of why: the plan won't agree")
                    continue
                if nearer.said and nearer.root(tree) < bridge.root(tree):
                    port.restricted = True
                    self.tell(f"{bridge.name} port {number} blocks where it hears a better root: its role is taken for restricted")
                of = tree if self.is_inside(nearer, bridge) else None
                least = bridge.cost(of) - nearer.cost(of) + 1
                if automatic(None) < least:
                    set_cost(port, of, min(least, HIGHEST_COST))

    # ---- regions

    def find_tables(self):
        """The table of each region, as far as a search finds it; else one that has the trees that were heard."""
        regions = dict.fromkeys(bridge.region for bridge in self.heard.values() if bridge.region)
        until = time.monotonic() + SECONDS_ALL
        for count, region in enumerate(regions):
            trees = sorted(self.trees[region] - {0})
            table, _ = digest.find(region[2], trees, self.named, min(SECONDS_EACH, until - time.monotonic()))
            if table is None:
                self.tell(f"no table is found for the digest {region[2].hex()}: made-up VIDs stand for it, and the plan won't agree"
                          " on it")
                table = {tree: [count % 63 * 64 + at] for at, tree in enumerate(trees[:64], start=1)}
            self.tables[region] = table

    def name_of(self, region):
        """The name of a region, as the language takes it."""
        name = "".join(chr(it) if 0x21 <= it <= 0x7E else "_" for it in region[0]) or "_"
        if name.encode() != region[0]:
            self.tell(f"the region's name {region[0].hex() or 'without a letter'} can't be written: {name} stands for it")
        return name

    # ---- the script

    def script(self):
        """The lines of a script that makes the network."""
        yield "mstplan 2"
        for bridge in self.heard.values():
            yield from self.lines_of(bridge)
        for lan, ends in self.on.items():
            yield f"addlan {lan}"
            for bridge, number in ends:
                yield f"plug {bridge.name} {number} {lan}"

    def lines_of(self, bridge):
        """The lines of a bridge."""
        yield from comment("bridge", bridge.mac if bridge.said else f"{bridge.mac} wasn't heard: this bridge stands for it")
        yield f"addbridge {bridge.name} {bridge.mac}"
        if bridge.region:
            yield f"setmstconfid {bridge.name} {bridge.region[1]} {self.name_of(bridge.region)}"
            yield from digest.lines(bridge.name, self.tables[bridge.region])
        else:
            yield f"kind {bridge.name} rstp"
        if bridge.max_age != DEFAULT_MAX_AGE:
            yield f"setmaxage {bridge.name} {bridge.max_age}"
        for tree in sorted(self.trees.get(bridge.region, {0})):
            its = bridge.priorities.get(tree, WORST_PRIORITY)
            if its != DEFAULT_PRIORITY:
                yield f"settreeprio {bridge.name} {tree} {its}"
        for number, port in sorted(bridge.ports.items()):
            yield f"addport {bridge.name} {number}"
            for tree, its in sorted(port.said.trees.items() if port.said else ()):
                if its.port_priority != DEFAULT_PORT_PRIORITY:
                    yield f"settreeportprio {bridge.name} {number} {tree} {its.port_priority}"
            if port.restricted:
                yield f"setportrestrrole {bridge.name} {number} yes"
            if port.external is not None:
                yield f"setportpathcost {bridge.name} {number} {port.external}"
            for tree, cost in sorted(port.costs.items()):
                yield f"settreeportcost {bridge.name} {number} {tree} {cost}"


def set_cost(port, tree, cost):
    if tree is None:
        port.external = cost
    else:
        port.costs[tree] = cost


def as_compared(its):
    """What `mstplan check` compares of a BPDU."""
    trees = {tree: (it.flags & 0x3C, it.regional, it.cost, it.priority, it.port_priority) for tree, it in its.trees.items()}
    return its.version, its.root, its.external, its.bridge, its.region, trees


def listen_to(heard, path, stream):
    """Adds the BPDUs of a file, read from a stream. Raises Unread, or OSError where a read fails."""
    wanted = os.path.splitext(os.path.basename(path))[0] if path != "-" else "LAN"
    lans, refused = {}, 0
    for frame in frames.frames(stream):
        found = frames.found(frame)
        if found.kind != frames.BPDU:
            continue
        its = said(found.bpdu)
        if its is None:
            refused += 1
            continue
        interface = frames.heard_at(frame)
        if interface not in lans:
            lans[interface] = heard.name("LAN", f"{wanted}.{interface}" if lans else wanted)
        heard.listen(lans[interface], its)
        if frame.link == frames.COOKED:
            heard.tell(f"{path}: its cooked frames don't say which interface heard them, so all of them are taken for one LAN's")
    if refused:
        heard.tell(f"{path}: {refused} BPDUs aren't of RSTP or MSTP, or are damaged")
    if not lans:
        heard.tell(f"{path}: no bridge sent a BPDU in it")


def words():
    """The VIDs and the files that the program's words name."""
    parser = argparse.ArgumentParser(prog="captures.py", usage=__doc__.split("\n\n")[1].removeprefix("usage: "), add_help=False)
    parser.add_argument("--vids", type=digest.of_ranges, default=())
    parser.add_argument("files", nargs="+")
    return parser.parse_args()


def main():
    if {"-h", "--help"} & set(sys.argv[1:]):
        print(__doc__.strip())
        sys.exit(0)
    its, unread = words(), []
    heard = Heard(its.vids)
    for path in its.files:
        try:
            if path == "-" and not sys.stdin:
                raise frames.Unread("it is closed")
            with sys.stdin.buffer if path == "-" else open(path, "rb") as stream:
                listen_to(heard, path, stream)
        except (frames.Unread, OSError) as why:
            unread.append(f"{path}: {why.strerror if isinstance(why, OSError) else why}")
    heard.end()
    write(heard, unread)


if __name__ == "__main__":
    try:
        main()
    except KeyboardInterrupt:
        sys.exit(130)
