#!/usr/bin/env python3
"""Makes a script of what Cisco switches with MST (IOS, IOS XE, NX-OS) print of themselves, and compares its plan with their roles.

usage: cisco.py FOLDER    or: cisco.py --check PROGRAM FOLDER

FOLDER has three files for each switch HOST, of which the last one may be either of two:

    show spanning-tree mst              > HOST.mst
    show running-config                 > HOST.config
    show cdp neighbors detail           > HOST.cdp
    show lldp neighbors detail          > HOST.lldp

or one, HOST.log or HOST.txt: the log of a session with these commands behind the switch's prompt (core1# show running-config), in any
order and cut short as they may be typed (sh run), among others. What a terminal was told is carried out; where a pager's mark is left in a
line, or two texts of one command aren't alike, the switch is left out. It is best to begin with `terminal length 0`.

For example: cisco.py examples/import/cisco/campus | mstplan run -

The forms of these texts are those of Cisco's documents; no text of a real switch was at hand, and the samples are made up. So each
line of HOST.mst, HOST.cdp and HOST.lldp that isn't understood is told, and each of HOST.config that is about spanning trees, VLANs
of ports or bundles; other lines of a configuration aren't looked at. What many lines or switches have in common is told once.

Each switch becomes a bridge named by its host, with its region, its priorities, Max Hops and Max Age. Its ports are those of MST0,
with their numbers, priorities and costs as printed; the external cost of a port is taken to be that of MST0. NX-OS numbers its
bundles from 4096 on: another number stands for one, behind those of all other ports. Interfaces that hear of each other are in one
LAN; those of a channel-group are links with the group's number as their key, which count as one. A port that hears of no other
switch gets a LAN of its own. Speeds aren't told: all costs are set. Neighbours that say of themselves that they are phones or
hosts are counted. A switch in mode pvst or rapid-pvst has a tree for each VLAN, which isn't planned: it is refused.

--check runs PROGRAM, an mstplan, on the script, and prints each root and role that a switch prints otherwise than the plan.

CDP and LLDP aren't authenticated: what isn't printable in a neighbour's words is escaped. Where just one of two interfaces hears of
the other, that is told, and where the other and a third one hear of each other, the one's word is left out. Standard error tells
first what leaves a switch, a port, a tree or a link out, with status 1: a switch that is refused, a file or a line of a port that can't
be read, a neighbour without a name or an interface, or whose port no switch prints. Behind it comes what was assumed and which names were
changed, with status 0. --check ends with status 1 where something differs, too. Status 2 stands for wrong words, 3 for a folder or a
program that can't be read or run, and for standard output that can't be written.
"""

import os
import re
import sys
from dataclasses import dataclass, field

sys.dont_write_bytecode = True
sys.path.append(os.path.join(os.path.dirname(os.path.abspath(__file__)), os.pardir))

import mstplan  # noqa: E402
import sessions  # noqa: E402
from network import (  # noqa: E402
    DEFAULT_MAX_AGE, DEFAULT_MAX_HOPS, HIGHEST_COST, HIGHEST_KEY, HIGHEST_PORT, HIGHEST_VID, MOST_NAMED, MOST_TREES, NOTHING_READ, STATUS_FAULT,
    STATUS_UNREAD, STATUS_WORDS, Joined, Network, Port, Region, agreed, called, decoded, files_of, guarded, identifier, listed, put, runs,
    short, vids_of, warn, write,
)

ENDINGS = (".mst", ".config", ".cdp", ".lldp", *sessions.LOGS)
ROLES = {"Root": "Root", "Desg": "Designated", "Altn": "Alternate", "Back": "Backup", "Mstr": "Master", "Disa": "Disabled"}
STATES = {"FWD": True, "BLK": False}
PER_VLAN = ("pvst", "rapid-pvst")
NO_NAME = "no-name"
NUMBER, ADDRESS = "([0-9]{1,9})", "([0-9a-fA-F]{4}[.][0-9a-fA-F]{4}[.][0-9a-fA-F]{4})"
# What stands for a port's number that is above the highest is so much less, or else the next that is free.
NUMBERS_LESS = 2048
# The VLANs that each switch has.
ALWAYS_THERE = {1, 1002, 1003, 1004, 1005}
# Lines that are in any of the texts and tell nothing.
NOTHING = re.compile(r"\s*|[A-Za-z0-9][A-Za-z0-9_.-]*[#>].*|-+( +-+)*\s*|Load for .*|Time source is .*")
INSTANCE = re.compile(rf"#+ MST{NUMBER}\s+vlans mapped:\s*([0-9,-]*|none)\s*")
MORE_VLANS = re.compile(r"\s{10,}([0-9,-]+)\s*")
BRIDGE = re.compile(rf"Bridge\s+address {ADDRESS}\s+priority\s+[0-9]+\s+\({NUMBER} sysid {NUMBER}\)\s*")
ROOT = re.compile(rf"Root\s+address {ADDRESS}\s+priority\s+[0-9]+\s+\({NUMBER} sysid [0-9]+\)\s*")
ROOT_HERE = re.compile(r"Root\s+this switch for .*")
ROOT_COST = re.compile(rf"\s+port\s+\S+\s+(?:path )?cost\s+{NUMBER}(?:\s+rem hops [0-9]+)?\s*")
CONFIGURED = re.compile(rf"Configured\s+hello time.*max age {NUMBER}, max hops\s+{NUMBER}\s*")
PORTS = re.compile(r"Interface\s+Role Sts Cost .*")
# the state's column has three letters and a mark, behind which the cost may stand at once
PORT = re.compile(rf"(\S+)\s+(Root|Desg|Altn|Back|Mstr|Disa)\s+([A-Z]+)(?:\*\s*|\s+){NUMBER}\s+{NUMBER}\.{NUMBER}\s+(.*?)\s*")
OF_MST = re.compile(r"(Regional Root|IST master) .*|\s+(internal|path) cost\s.*|Operational\s.*"
                    r"|Name +\[.*\]|Revision +[0-9]+ +Instances configured.*|Instance +Vlans mapped|[0-9]+ {3,}[0-9,-]+")
PER_VLAN_TREE = re.compile(r"VLAN[0-9]{4}")
OF_CDP = re.compile(
    r"((Entry|Interface|Management|Mgmt) address|\s+IP(v[46])? address|System Name|Platform|Holdtime|advertisement version|Protocol Hello"
    r"|VTP Management Domain|Native VLAN|Duplex|Power|Spare|Unidirectional|MTU|Peer Source MAC|Second Port Status|Technical Support"
    r"|Copyright|Total cdp entries displayed|\s+(OUI|payload|Power)|Physical location|(Local|Remote) Interface MAC)"
    r".*", re.IGNORECASE)
OF_LLDP = re.compile(
    r"(Chassis [Ii][Dd]|Port Description|System Name:?( -)? not advertised|Time remaining|(System|Enabled) Capabilities"
    r"|Management Address|\s+(IP|IPV6|Other)"
    r"|Auto Negotiation|Physical media|\s+[0-9]+base|\s+other|Media Attachment|Vlan ID|Peer Source MAC|PoE|MED|Device type|Power"
    r"|Network Policies|Location|Inventory|Capabilit(ies|y codes)|[HFS]/W|Serial|Manufacturer|Model|Asset|Total entries displayed"
    r"|\s+\([A-Z]\) |Device ID +Local Intf).*")
# Lines of a configuration that are looked at; of these, those that change nothing, and those that do what isn't planned. A banner is
# free text up to its mark.
LOOKED_AT = re.compile(r"\s*(spanning-tree|switchport|channel-group|shutdown|hostname|interface|vlan|vpc)\b.*")
OF_CONFIG = re.compile(
    r"spanning-tree (extend system-id|pathcost method long|logging|etherchannel guard misconfig|portfast (edge )?default"
    r"|mst [0-9,-]+ (priority|root) .*|mst (hello-time|forward-time) .*|mst simulate pvst global|vlan .*|bridge assurance"
    r"|port type (edge|network|normal) default)"
    r"|spanning-tree (portfast( edge| network| trunk| disable)*|port type (edge|network|normal)( trunk)?|link-type .*"
    r"|mst [0-9,-]+ (cost|port-priority) .*|cost .*|port-priority .*|mst simulate pvst( disable)?)"
    r"|switchport|switchport (nonegotiate|trunk (native vlan|encapsulation|pruning) .*|port-security.*|host|block .*)"
    r"|(interface|shutdown|spanning-tree mst configuration|vlan)\b.*")
UNPLANNED = re.compile(r"spanning-tree (bpduguard|bpdufilter|guard loop|loopguard|(portfast|port type) (edge )?(bpduguard|bpdufilter)"
                       r"|backbonefast|uplinkfast|mst pre-standard).*|vpc .*")
# What makes a port one of a router, or one for management.
OF_ROUTER = re.compile(r"\s+(no switchport|ip address|ip unnumbered|ipv6 address|(ip )?vrf (member|forwarding))\b.*")
BANNER = re.compile(r"banner \S+ (\^C|\S)(.*)")


@dataclass
class Form:
    """A text of neighbours: lines that name the device, its interface, the own one or what the device can do, other lines, what begins a
    text that is free and goes up to an empty line, and what ends it besides; and which devices are phones and hosts, by what they can do."""
    named: re.Pattern
    others: re.Pattern
    free: str
    free_to: re.Pattern
    ends: re.Pattern


CDP = Form(
    re.compile(r"Device ID: ?(?P<device>\S+)\s*|Interface: (?P<own>[^,]+), +Port ID \(outgoing port\): (?P<far>.+)"
               r"|Platform: .*, +Capabilities:(?P<can>.*)"),
    OF_CDP, "Version", re.compile(r"(?!)"), re.compile(r"(?!.*Switch).*\S.*"))
# the capabilities are letters: B is a bridge, T a phone, W an access point and S a host
LLDP = Form(
    re.compile(r"System Name: ?(?P<device>\S+)\s*|(Local Intf|Local Port id): (?P<own>.+)|Port id: (?P<far>.+)"
               rf"|Chassis id: (?P<address>{ADDRESS})\s*|(System|Enabled) Capabilities:(?P<can>.*)"),
    OF_LLDP, "System Description", re.compile("Time remaining: [0-9]+ seconds"), re.compile(r".*[TWS].*|(?!.*B).*[A-Z].*"))


@dataclass
class Neighbour:
    """What an interface hears of: the own interface, the device, its interface, its MAC address where that is told, and whether it says that
    it is a phone, a host or another thing that is no switch."""
    own: str
    device: str
    far: str
    address: str | None
    is_end: bool


@dataclass
class Instance:
    """What a switch prints of an instance: the bridge's MAC address and priority, the root's identifier and path cost, and its
    ports by interface as (role, state, cost, priority, number, type)."""
    vids: str
    mac: str | None = None
    priority: int = 0
    root: str | None = None
    root_cost: int | None = None
    ports: dict[str, tuple] = field(default_factory=dict)


@dataclass
class Interface:
    """What a configuration sets of an interface: its mode, its VIDs as an access port and on a trunk (None for all), its bundle's
    number, and whether its role is restricted, or it is no port of a switch at all but one of a router."""
    mode: str | None = None
    access: set[int] = field(default_factory=set)
    vlans: set[int] | None = None
    group: int | None = None
    restricted: bool = False
    routed: bool = False


@dataclass
class Switch:
    """What the files of a switch say. `vlans` are those that it has, None where it doesn't tell."""
    host: str
    instances: dict[int, Instance] = field(default_factory=dict)
    mode: str | None = None
    hostname: str | None = None
    region: Region = field(default_factory=lambda: Region(""))
    interfaces: dict[str, Interface] = field(default_factory=dict)
    max_hops: int = DEFAULT_MAX_HOPS
    max_age: int = DEFAULT_MAX_AGE
    neighbours: list[Neighbour] = field(default_factory=list)
    vlans: set[int] | None = None

    def logical(self, interface):
        """The interface that stands for this one in the tree: the bundle that it is of, or itself."""
        its = self.interfaces.get(interface)
        return f"Po{its.group}" if its and its.group is not None else interface


def mac(text):
    digits = text.replace(".", "").lower()
    return ":".join(digits[at:at + 2] for at in range(0, 12, 2))


def vids(text):
    """The VIDs of a list as a configuration writes it, with spaces or without. Raises ValueError where it is none."""
    text = re.sub(r"\s", "", text)
    return set() if text == "none" else vids_of(text)


def and_more(places):
    """How many more of what is told there are, where there are more."""
    return f" (and {len(places) - 1} more such)" if len(places) > 1 else ""


def alone(places):
    """Ports, each as (switch, interface), by their switches."""
    ports = {}
    for host, interface in places:
        ports.setdefault(host, []).append(interface)
    return listed(f"{host} {' '.join(its) if len(its) <= MOST_NAMED else f'{len(its)} ports'}" for host, its in ports.items())


# What lines, switches and ports have in common, in the order of its weight: how it is told, of what it is and where it is so.
REMARKS = {
    "foreign": lambda device, places: f"{device} is no switch of this folder, and is heard of at {listed(places)}",
    "numbers": lambda _, places: f"{places[0]}{and_more(places)}",
    "states": lambda what, places: f"{what} in {listed(places)}: the plan has it take part, and it isn't compared",
    "bytes": lambda _, places: f"{listed(places)} {'has' if len(places) == 1 else 'have'} bytes that aren't UTF-8: they are replaced",
    "lines": lambda _, places: f"{places[0]}{and_more(places)}",
    "unplanned": lambda line, places: f"{listed(places)}: {line} isn't planned",
    "routed": lambda _, places: f"cables of routers' ports and of those for management are left out: {listed(places)}",
    "vlans": lambda _, places: f"VLANs that a switch hasn't count as carried where its trunks allow them: {listed(places)}",
    "alone": lambda _, places: f"ports that hear of no port of these switches have LANs of their own: {alone(places)}",
    "ends": lambda _, places: f"neighbours that are no switches by their own word are left out: {len(places)}, at {listed(places)}",
}


class Remarks:
    """What is so of many lines, switches or ports, each once."""

    def __init__(self):
        self.found = {kind: {} for kind in REMARKS}

    def add(self, kind, where, what=""):
        self.found[kind].setdefault(what, []).append(where)

    def told(self):
        return [REMARKS[kind](what, places) for kind, its in self.found.items() for what, places in its.items()]


class Reader:
    """Reads what the files of a switch say, line by line: what isn't understood is told."""

    def __init__(self, host, said, network, remarks):
        self.switch, self.said, self.network, self.remarks = Switch(host), said, network, remarks

    def lines(self, ending):
        """The lines of a text, each with where it stands, and without those that tell nothing."""
        its = self.said.get((self.switch.host, ending))
        for number, line in its.lines if its else ():
            yield f"{its.name} line {number}", "" if NOTHING.fullmatch(line) else line

    def not_understood(self, where, line, why=""):
        """Tells of a line, once for all that are the same but for numbers."""
        line = line.strip()
        self.remarks.add("lines", f"{where} isn't understood{why}: {line}", re.sub("[0-9]+", "#", line))

    def read(self):
        self.read_mst()
        self.read_config()
        self.read_neighbours("cdp", CDP)
        self.read_neighbours("lldp", LLDP)
        return self.switch

    def read_mst(self):
        """Instances: a heading begins a table of ports, which goes from its first line up to an empty one."""
        it, is_headed, is_of_ports = None, False, False
        for where, line in self.lines("mst"):
            is_of_ports = bool(line) and (is_headed or is_of_ports)
            is_headed = bool(PORTS.fullmatch(line)) or is_headed and not line
            if found := INSTANCE.fullmatch(line):
                it = self.switch.instances.setdefault(int(found[1]), Instance(found[2]))
            elif PER_VLAN_TREE.fullmatch(line.strip()):
                self.switch.mode = self.switch.mode or PER_VLAN[0]
            elif line and not (it and self.line_of_instance(it, line)) and self.switch.mode is None:
                if is_of_ports:
                    self.network.lose(f"{where} stands among ports, and isn't understood: {line.strip()}")
                else:
                    self.not_understood(where, line)

    def line_of_instance(self, it, line):
        """Takes what a line tells of an instance; whether it is understood."""
        if found := BRIDGE.fullmatch(line):
            it.mac, it.priority = mac(found[1]), int(found[2])
        elif found := ROOT.fullmatch(line):
            it.root = identifier(int(found[2]) & 0xFFFF, mac(found[1]))
        elif ROOT_HERE.fullmatch(line):
            it.root, it.root_cost = it.mac and identifier(it.priority & 0xFFFF, it.mac), 0
        elif found := ROOT_COST.fullmatch(line):
            it.root_cost = int(found[1])
        elif found := CONFIGURED.fullmatch(line):
            self.switch.max_age, self.switch.max_hops = int(found[1]), int(found[2])
        elif found := PORT.fullmatch(line):
            it.ports[short(found[1])] = (found[2], found[3], *map(int, found.group(4, 5, 6)), found[7])
        elif (found := MORE_VLANS.fullmatch(line)) and it.mac is None:
            it.vids += found[1]
        else:
            return OF_MST.fullmatch(line) or PORTS.fullmatch(line)
        return True

    def read_config(self):
        block, interface, banner = None, None, None
        for where, line in self.lines("config"):
            if banner:
                banner = None if banner[1] in line else banner
                continue
            if (found := BANNER.fullmatch(line)) and found[1] not in found[2]:
                banner = where, found[1]
            if line[:1] not in ("", " "):
                block, words = line.strip(), line.split()
                interface = None
                if words[0] == "interface" and len(words) > 1:
                    interface = self.switch.interfaces.setdefault(short(" ".join(words[1:])), Interface())
            try:
                if block == "spanning-tree mst configuration" and line.startswith(" "):
                    is_understood = self.line_of_region(line)
                elif interface and OF_ROUTER.fullmatch(line):
                    interface.routed = is_understood = True
                else:
                    is_understood = not LOOKED_AT.fullmatch(line) or self.line_of_config(line, interface)
                if not is_understood:
                    self.not_understood(where, line)
            except ValueError as why:
                self.not_understood(where, line, f" ({why})")
        if banner:
            self.network.lose(f"{banner[0]} begins a banner without an end: what stands behind it isn't read")

    def line_of_region(self, line):
        """Takes what a line tells of the region; whether it is understood."""
        region = self.switch.region
        if found := re.fullmatch(r"\s+name (\S+)\s*", line):
            region.name = found[1]
        elif (found := re.fullmatch(rf"\s+revision {NUMBER}\s*", line)) and int(found[1]) <= HIGHEST_KEY:
            region.revision = int(found[1])
        elif (found := re.fullmatch(rf"\s+instance {NUMBER} vlan (.*)", line)) and 1 <= int(found[1]) <= HIGHEST_VID:
            its, tree = vids(found[2]), int(found[1])
            for other in region.table:
                region.table[other] -= its
            region.table[tree] = region.table.get(tree, set()) | its
        else:
            return line.strip() in ("", "!", "exit")
        return True

    def line_of_config(self, line, interface):
        """Takes what another line of a configuration tells; whether it is understood."""
        line, switch = line.strip(), self.switch
        if found := re.fullmatch(r"spanning-tree mode (\S+)", line):
            switch.mode = found[1]
        elif found := re.fullmatch(r"hostname (\S+)", line):
            switch.hostname = found[1]
        elif found := re.fullmatch(rf"spanning-tree mst max-hops {NUMBER}", line):
            switch.max_hops = int(found[1])
        elif found := re.fullmatch(rf"spanning-tree mst max-age {NUMBER}", line):
            switch.max_age = int(found[1])
        elif found := re.fullmatch(r"vlan ([0-9,-]+)", line):
            switch.vlans = (switch.vlans or set()) | vids(found[1])
        elif UNPLANNED.fullmatch(line):
            self.remarks.add("unplanned", switch.host, line)
        elif interface is None or not self.line_of_interface(line, interface):
            return OF_CONFIG.fullmatch(line)
        return True

    @staticmethod
    def line_of_interface(line, its):
        """Takes what a line tells of an interface; whether it is understood."""
        if found := re.fullmatch(r"switchport mode (access|trunk|dynamic (?:auto|desirable))", line):
            its.mode = found[1]
        elif found := re.fullmatch(r"switchport (?:access|voice) vlan ([0-9]+)", line):
            its.access |= vids(found[1])
        elif line == "switchport trunk allowed vlan all":
            its.vlans = None
        elif found := re.fullmatch(r"switchport trunk allowed vlan (add )?([0-9].*|none)", line):
            its.vlans = (its.vlans or set() if found[1] else set()) | vids(found[2])
        elif (found := re.fullmatch(rf"channel-group {NUMBER}( force)?( mode (active|passive|on|desirable|auto).*)?", line)) and 1 <= int(found[1]) <= HIGHEST_KEY:
            its.group = int(found[1])
        elif line == "spanning-tree guard root":
            its.restricted = True
        else:
            return line == "spanning-tree guard none"
        return True

    def read_neighbours(self, ending, form):
        """Neighbours: an entry begins where a line tells again what the one before it has told. Text that is free goes up to an empty line."""
        entry, is_free, where = {}, False, ""
        for where, line in self.lines(ending):
            if is_free and line and not form.free_to.fullmatch(line):
                continue
            is_free, found = line.startswith(form.free), form.named.fullmatch(line)
            its = {key: it.strip() for key, it in found.groupdict().items() if it} if found else {}
            if entry.keys() & (its.keys() - {"can"}):
                self.add_neighbour(entry, form, f"{where}: the entry before it")
                entry = {}
            # of LLDP what it can do and what is enabled of that, which may leave out that a router is a switch
            entry |= {**its, "can": entry.get("can", "") + its["can"]} if "can" in its else its
            if line and not found and not is_free and not form.others.fullmatch(line):
                self.not_understood(where, line)
        if entry:
            self.add_neighbour(entry, form, f"{where}: the last entry")

    def add_neighbour(self, entry, form, where):
        is_end, address = bool(form.ends.fullmatch(entry.get("can", ""))), entry.get("address")
        own, device, far = entry.get("own"), entry.get("device") or address, entry.get("far")
        if own and device and far:
            self.switch.neighbours.append(Neighbour(short(own), device, short(far), address and mac(address), is_end))
        elif is_end:
            self.remarks.add("ends", self.switch.host)
        else:
            self.network.lose(f"{where} names no neighbour")


class Switches:
    """Makes a network of what switches say."""

    def __init__(self, files):
        self.network, self.remarks, self.unread, self.switches = Network(), Remarks(), [], {}
        said, whys = sessions.said({name: decoded(data, name, lambda _, it=name: self.remarks.add("bytes", it)) for name, data in files.items()})
        for host in sorted({it.rpartition(".")[0] for it in files}):
            its = Reader(host, said, self.network, self.remarks).read()
            why = whys.get(host) or self.refusal(its, said, files)
            if why:
                self.unread.append(f"{host} is left out: {why}")
            else:
                self.switches[host] = its
        # the bridge and the number of each port, what is in one LAN, and who hears of whom
        self.ports, self.lans, self.far = {}, Joined(), {}

    @staticmethod
    def refusal(its, said, files):
        """Why a switch can't be planned, or None."""
        mst = its.instances.get(0)
        if its.mode in PER_VLAN:
            return f"its mode is {its.mode}, which has a tree for each VLAN, and those aren't planned"
        if its.mode not in (None, "mst"):
            return f"its mode is {its.mode}, which isn't known"
        missing, log = [it for it in ("mst", "config") if (its.host, it) not in said], next((it for it in sessions.LOGS if its.host + it in files), None)
        if missing and log:
            return f"{its.host}{log} has no {' and no '.join(f'`{sessions.COMMANDS[it]}`' for it in missing)} behind a prompt"
        if missing:
            return f"there is no {' and no '.join(f'{its.host}.{it}' for it in missing)}"
        if mst is None or mst.mac is None:
            return f"{said[its.host, 'mst'].name} has no MST0 with a line of its bridge"
        if its.region.name and not re.fullmatch("[!-~]{1,32}", its.region.name):
            return f"its region's name, {its.region.name}, isn't of 1 to 32 letters of ASCII"
        if sum(map(bool, its.region.table.values())) > MOST_TREES:
            return f"it has more than {MOST_TREES} instances"
        return None

    def read(self):
        for its in self.switches.values():
            self.add_switch(its)
        self.join_neighbours()
        self.add_lans()
        for line in self.remarks.told():
            self.network.tell(line)
        if self.network.lans:
            self.network.tell("speeds aren't told: all costs are those that the switches print")
        return self.network, self.unread

    def add_switch(self, its):
        mst = its.instances[0]
        bridge = self.network.add_bridge(its.host, its.host, mst.mac, mst.priority, its.max_age)
        if bridge is None:
            return
        bridge.root, bridge.root_cost = mst.root, mst.root_cost
        bridge.max_hops = self.network.fit(its.host, "Max Hops", its.max_hops, 6, 40)
        table = {tree: it for tree, it in its.region.table.items() if it}
        bridge.region = Region(its.region.name or NO_NAME, its.region.revision, table)
        if not its.region.name:
            self.network.tell(f"{its.host}: its region has no name: {NO_NAME} stands for it")
        for tree, it in its.instances.items():
            if tree and tree not in bridge.region.table:
                self.network.lose(f"{its.host}: MST{tree} is printed, and isn't in the configuration: it is left out")
            elif tree:
                bridge.priorities[tree] = self.network.fit(f"{its.host} MST{tree}", "priority", it.priority, 0, 61440, 4096)
                if it.vids and it.vids != runs(bridge.region.table[tree]):
                    self.network.tell(f"{its.host}: MST{tree} is printed with other VLANs than those in the configuration: these count")
        # those with a number above the highest come last, so that none of theirs is another one's
        for interface, line in sorted(mst.ports.items(), key=lambda it: max(it[1][4] - HIGHEST_PORT, 0)):
            self.add_port(its, bridge, interface, line)
        if its.vlans and any(port.vlans is None or port.vlans - its.vlans - ALWAYS_THERE for port in bridge.ports.values()):
            self.remarks.add("vlans", its.host)

    def number(self, where, bridge, number):
        """The number of a port, or what stands for one above the highest: a free one, behind those of all ports that were added; None where
        it has none."""
        if 1 <= number <= HIGHEST_PORT and number not in bridge.ports:
            return number
        free = range(max([number - NUMBERS_LESS, *(it + 1 for it in bridge.ports)]), HIGHEST_PORT + 1)
        if number > HIGHEST_PORT and free:
            self.remarks.add("numbers", f"{where} has port number {number}, and these end at {HIGHEST_PORT}: {free[0]} stands for it")
            return free[0]
        why = f"the number of {bridge.ports[number].label}" if number in bridge.ports else f"port number {number}"
        self.network.lose(f"{where} has {why}: it is left out")
        return None

    def add_port(self, switch, bridge, interface, line):
        """A port of a line of MST0, and what the other instances print of it."""
        _, _, cost, priority, printed, _ = line
        number = self.number(f"{switch.host} {interface}", bridge, printed)
        if number is None:
            return
        its = switch.interfaces.get(interface, Interface())
        port = Port(interface, priority, cost, its.restricted, its.vlans)
        if its.mode == "access":
            port.vlans = its.access or {1}
        self.network.add_port(bridge, number, port)
        for tree, it in switch.instances.items():
            if interface in it.ports and (not tree or tree in bridge.region.table):
                self.add_tree(port, f"{switch.host} {interface}", tree, it.ports[interface])
        self.ports[switch.host, interface] = bridge, number

    def add_tree(self, port, where, tree, line):
        """What a line of an instance says of a port."""
        role, state, cost, priority, _, kind = line
        if state in STATES:
            port.says[tree] = ROLES[role], STATES[state]
        else:
            self.remarks.add("states", f"MST{tree}", f"{where} is {state} {kind}")
        if "PVST" in kind:
            self.network.tell(f"{where} is {kind}: its neighbour has a tree for each VLAN, and those aren't planned")
        where = f"{where} in MST{tree}"
        port.costs[tree] = self.network.fit(where, "path cost", cost, 1, HIGHEST_COST)
        if tree:
            port.priorities[tree] = self.network.fit(where, "priority", priority, 0, 240, 16)

    def host_of(self, neighbour):
        """The switch that a neighbour's name is, with a domain behind it or a serial number in brackets, or else its MAC address; or None."""
        device = neighbour.device.partition("(")[0]
        for host, its in self.switches.items():
            if any(it and (device == it or device.startswith(it + ".")) for it in (host, its.hostname)):
                return host
        return next((host for host, its in self.switches.items() if its.instances[0].mac == neighbour.address), None)

    def join_neighbours(self):
        pairs = {}
        for host, its in self.switches.items():
            for neighbour in its.neighbours:
                one, other = (host, neighbour.own), (self.host_of(neighbour), neighbour.far)
                if other[0] is None and neighbour.is_end:
                    self.remarks.add("ends", host)
                elif other[0] is None:
                    self.remarks.add("foreign", f"{host} {neighbour.own}", neighbour.device)
                else:
                    ends = [(end[0], self.switches[end[0]].logical(end[1])) for end in (one, other)]
                    if self.is_link(f"{host} {neighbour.own}", f"{neighbour.device} {neighbour.far}", ends):
                        pairs[one, other] = ends
        for one, other in agreed(pairs, self.network):
            self.lans.join(*pairs[one, other])
            self.far.setdefault(one, set()).add(other)
            self.far.setdefault(other, set()).add(one)

    def is_link(self, where, other, ends):
        """Whether what is heard is a link of the spanning tree. Where one end should be a port of it, and isn't, a link is lost."""
        absent = [end for end in ends if end not in self.ports]
        if ends[0] == ends[1]:
            self.network.tell(f"{where} hears of {other}, and both are one: that is left out")
        elif absent and all(self.is_routed(*it) for it in absent):
            self.remarks.add("routed", where)
        elif absent:
            self.network.lose(f"{where} hears of {other}, and {' '.join(absent[0])} isn't in MST0: that is left out")
        return not absent and ends[0] != ends[1]

    def is_routed(self, host, interface):
        its = self.switches[host].interfaces.get(interface)
        return interface.lower().startswith("mgmt") or its is not None and its.routed

    def cables(self, ends):
        """The cables of two bundles of two bridges, each the labels of its ends; None where not each has one end at both."""
        found = set()
        for near, fars in self.far.items():
            its = (near[0], self.switches[near[0]].logical(near[1]))
            if its not in ends:
                continue
            far = next(iter(fars))
            if len(fars) > 1 or its == near or self.far.get(far) != {near}:
                return None
            found.add(tuple(sorted((near, far))))
        return sorted(found) if self.ports[ends[0]][0] is not self.ports[ends[1]][0] else None

    def add_lans(self):
        lans = {}
        for end in self.ports:
            lans.setdefault(self.lans.end(end), []).append(end)
        for ends in lans.values():
            cables = self.cables(sorted(ends)) if len(ends) == 2 else None
            ports = [self.ports[end] for end in (sorted(ends) if cables else ends)]
            if len(ends) == 1:
                self.remarks.add("alone", ends[0])
            if cables:
                for (_, bundle), (bridge, number) in zip(sorted(ends), ports):
                    bridge.ports[number].key = int(bundle.removeprefix("Po"))
                self.network.add_bundle(ports, [([near[1], far[1]], None, None) for near, far in cables])
            else:
                self.network.add_lan(ports, None)


def read_files(files):
    """The network that files, bytes by name, tell of, and lines of what is refused."""
    return Switches(files).read()


def read(folder):
    """The same of the files of a folder."""
    files, unread = files_of(folder, ENDINGS)
    network, others = read_files(files)
    return network, unread + others


def check(program, network, unread):
    """Compares the roots and roles that switches print with a plan, and prints what differs; with status 1 where something does."""
    trees = sorted({0, *(tree for bridge in network.bridges for port in bridge.ports.values() for tree in port.says)})
    script = "".join(f"{line}\n" for line in (*network.script(), *(f"showtree {tree}" for tree in trees)))
    try:
        printed, status = mstplan.Program(program).run("run", "-", given=script.encode())
    except mstplan.Failed as why:
        warn(str(why))
        sys.exit(STATUS_FAULT)
    texts = printed.decode(errors="replace").splitlines()
    others, compared = network.differences(texts)
    refused = [line for line in texts if line.startswith("line ")]
    for line in (*refused, *others, f"{compared} values compared, {len(others)} differ"):
        put(line)
    for line in unread + network.told + [NOTHING_READ] * (not network.bridges):
        warn(line)
    sys.stdout.flush()
    sys.exit(STATUS_UNREAD if others or unread or network.lost or not network.bridges or refused or status else 0)


def main():
    words = called(__doc__, 1, 3)
    if len(words) == 3 and words[0] == "--check":
        check(words[1], *read(words[2]))
    if len(words) > 1:
        warn("usage: cisco.py FOLDER    or: cisco.py --check PROGRAM FOLDER")
        sys.exit(STATUS_WORDS)
    write(*read(words[0]))


if __name__ == "__main__":
    guarded(main)
