#!/usr/bin/env python3
"""Makes a script of what hosts with Linux bridges say of themselves: iproute2's JSON and that of lldpd.

usage: lldp.py FOLDER

FOLDER has two files for each host, and perhaps a third. They are made on the host HOST by

    ip -j -d link > HOST.link
    lldpctl -f json0 > HOST.lldp
    bridge -j vlan > HOST.vlan    (for bridges with vlan_filtering)

For example: lldp.py examples/import/lab | mstplan run -

`lldpctl -f json` is read too; but there a neighbour's name is a key, and keys aren't escaped: a name with a quote in it makes the
file unreadable, and with more in it makes up neighbours.

Each bridge with STP on becomes a bridge of kind rstp, named by its host, and by host and bridge where a host has several such
bridges. A port has the number and priority of its Port Identifier; ports that hear of each other by LLDP are in one LAN. VLAN
interfaces are in one LAN where their VIDs are equal and what they stand on is in one. A bridge with STP off is part of a LAN, since
it passes BPDUs on. Two bonds whose members hear of each other are links with a key, which count as one: the key is the number of the
bond's port, and members but the first get the highest numbers that are free. Any other bond is one port in one LAN, by its active
member alone where it has one. A port that is up and hears of no other one gets a LAN of its own. Speeds are those that LLDP tells,
in kb/s; a cost is set where it isn't the automatic one. No kernel with bonds or VLAN interfaces was at hand: these are read by the
forms of iproute2's source.

LLDP isn't authenticated: what isn't printable in a neighbour's words is escaped. Where just one of two interfaces hears of the
other, that is told, and where the other and a third one hear of each other, the one's word is left out. Standard error tells first
which files can't be read, and what leaves a bridge, a port or a link out, with status 1; behind that what couldn't be told, what was
assumed and which names were changed, with status 0. The status is 1, too, where no bridge is read. Status 2 stands for wrong words, 3
for a folder that can't be read and for standard output that can't be written.
"""

import re
import sys
from dataclasses import dataclass

sys.dont_write_bytecode = True

from network import (  # noqa: E402
    HIGHEST_VID, Joined, Network, Port, agreed, called, decoded, files_of, guarded, identifier, parsed, where_of, write,
)

SPEED = re.compile(r"([0-9]{1,6})(p5)?(G?)(?:ig)?[bB]ase")
STP_OFF, STP_OF_KERNEL, BONDS, VLAN, DEEPEST = 0, 1, ("bond", "team"), "vlan", 4
ENDINGS = (".link", ".lldp", ".vlan")
# What iproute2 says of a link, a bridge and a port, as far as it is needed.
OF_LINK = {"ifname": str, "flags": list}
OF_BRIDGE = {"bridge_id": str, "stp_state": int, "max_age": int, "vlan_filtering": int, "root_port": int, "root_path_cost": int}
OF_PORT = {"id": str, "no": str, "cost": int, "state": str, "bridge_id": str, "root_id": str, "designated_port": int}
IDENTIFIER, NUMBER = re.compile(r"[0-9a-fA-F]{1,4}\.[0-9a-fA-F]{1,2}(:[0-9a-fA-F]{1,2}){5}"), re.compile(r"0x[0-9a-fA-F]{1,4}")
FORMS = {"bridge_id": IDENTIFIER, "root_id": IDENTIFIER, "id": NUMBER, "no": NUMBER}


@dataclass
class Link:
    """A link of iproute2's JSON, as far as it is needed: `says` is what it says as a bridge, a bond or a VLAN interface, `slave`
    what it says as a port of a bridge or a member of a bond, and `lower` the link that a VLAN interface stands on."""
    name: str
    kind: str | None
    master: str | None
    lower: str | None
    flags: list
    addresses: tuple
    says: dict
    slave: dict

    @property
    def is_up(self):
        return "UP" in self.flags and "LOWER_UP" in self.flags


@dataclass
class Neighbour:
    """What LLDP tells of a neighbour: empty texts where it doesn't, its port's speed in kb/s or None."""
    name: str
    chassis: str
    port: str
    description: str
    speed: int | None


def mac(text):
    """A MAC address with two digits an octet: iproute2 leaves out zeros in identifiers."""
    return ":".join(part.zfill(2) for part in text.lower().split(":"))


def bridge_identifier(text):
    """The priority and the MAC address of an identifier as iproute2 prints it."""
    priority, _, address = text.partition(".")
    return int(priority, 16), mac(address)


def typed(said, key, its, otherwise=None):
    """A member of an object, where it is of this type."""
    found = said.get(key) if isinstance(said, dict) else None
    return found if isinstance(found, its) else otherwise


def demand(where, said, wanted):
    """Refuses what lacks one of the wanted members, or has it of another type or form."""
    for key, its in wanted.items():
        if not isinstance(said.get(key), its) or key in FORMS and not FORMS[key].fullmatch(said[key]):
            raise ValueError(f"{where} has no {key}, or none that is understood")


def link_of(it):
    demand("a link", it, OF_LINK)
    info = typed(it, "linkinfo", dict, {})
    slave = typed(info, "info_slave_data", dict, {})
    addresses = (typed(it, "address", str), typed(it, "permaddr", str), typed(slave, "perm_hwaddr", str))
    return Link(it["ifname"], typed(info, "info_kind", str), typed(it, "master", str), typed(it, "link", str), it["flags"],
                tuple(address for address in addresses if address), typed(info, "info_data", dict, {}), slave)


def link_table(text):
    """The links of iproute2's JSON by name. Raises ValueError where it isn't of that form."""
    told = parsed(text)
    if not isinstance(told, list) or not all(isinstance(it, dict) for it in told):
        raise ValueError("it is no list of links")
    # iproute2 prints an empty object for what it leaves out
    links = {it.name: it for it in map(link_of, filter(None, told))}
    for name, it in links.items():
        if it.kind == "bridge":
            demand(name, it.says, OF_BRIDGE)
        if it.master in links and links[it.master].kind == "bridge":
            demand(name, it.slave, OF_PORT)
    return links


def vlan_table(text):
    """The VIDs that each port is a member of, of bridge's JSON. Raises ValueError where it isn't of that form."""
    told, found = parsed(text), {}
    if not isinstance(told, list) or not all(isinstance(typed(it, "ifname", str), str) for it in told):
        raise ValueError("it is no list of ports")
    for it in told:
        its = found.setdefault(it["ifname"], set())
        for of in typed(it, "vlans", list, []):
            first = typed(of, "vlan", int, 0)
            last = typed(of, "vlanEnd", int, first)
            its.update(range(max(1, first), min(last, HIGHEST_VID) + 1))
    return found


def listed(it):
    """What stands in a list, or alone: json0 has lists everywhere, json only of several."""
    return it if isinstance(it, list) else [it]


def value(said, *keys):
    """The text under these keys, in json0, where each has a list and the last an object, or in json; empty where there is none."""
    for key in keys:
        said = next(iter(listed(typed(said, key, (dict, list, str), []))), None)
    said = typed(said, "value", str) if isinstance(said, dict) else said
    return said if isinstance(said, str) else ""


def neighbour_of(said, chassis, name):
    return Neighbour(name, value(chassis, "id"), value(said, "port", "id"), value(said, "port", "descr"),
                     speed(value(said, "port", "auto-negotiation", "current")))


def neighbour_list(text, tell=lambda _: None):
    """The neighbours of lldpctl's JSON, each with its interface. Raises ValueError where it isn't of that form; of json's form,
    where names are keys, it is told."""
    try:
        told, found = parsed(text), []
    except ValueError as why:
        raise ValueError(f"{why} (of lldpctl's JSON that of -f json0 alone has all names escaped)") from None
    if not isinstance(told, dict) or "lldp" not in told:
        raise ValueError("it has no lldp")
    for entry in (it for part in listed(told["lldp"]) for it in listed(typed(part, "interface", (dict, list), []))):
        if typed(entry, "name", str):
            chassis = next(iter(listed(typed(entry, "chassis", (dict, list), []))), None)
            found.append((entry["name"], neighbour_of(entry, chassis, value(chassis, "name"))))
            continue
        tell("is of lldpctl -f json, where a neighbour's name can make up others: -f json0 can't")
        for name in entry if isinstance(entry, dict) else ():
            chassis = typed(entry[name], "chassis", dict, {})
            its = next((it for it in chassis if isinstance(chassis[it], dict)), "") if "id" not in chassis else ""
            found.append((name, neighbour_of(entry[name], chassis.get(its, chassis), its)))
    return found


def speed(current):
    """The speed of an operational MAU type in kb/s, or None."""
    found = SPEED.match(current)
    if not found:
        return None
    return (int(found.group(1)) * 1000 + (500 if found.group(2) else 0)) * (1000 if found.group(3) else 1) or None


class Hosts:
    """What the files say, bytes by name: for each host its links by name, and its neighbours as (interface, neighbour)."""

    def __init__(self, files, network):
        self.unread, self.files, self.tell, self.lose = [], files, network.tell, network.lose
        self.links, self.heard, self.vlans = {}, {}, {}
        for host in sorted({it.rpartition(".")[0] for it in files if it.endswith((".link", ".lldp"))}):
            lldp = f"{host}.lldp"
            self.links[host] = self.read(f"{host}.link", link_table) or {}
            heard = self.read(lldp, lambda text, name=lldp: neighbour_list(text, lambda line: self.tell(f"{name} {line}"))) or []
            self.heard[host] = [it for it in heard if self.has(host, *it)]
            if f"{host}.vlan" in files:
                self.vlans[host] = self.read(f"{host}.vlan", vlan_table)
        self.by_mac = {}
        for host, links in self.links.items():
            for link in links.values():
                for address in link.addresses:
                    self.by_mac.setdefault(address, []).append(host)

    def read(self, name, parse):
        """What a file says, or None where it can't be read."""
        if name not in self.files:
            self.unread.append(f"{name} can't be read: there is none")
            return None
        try:
            return parse(decoded(self.files[name], name, self.tell))
        except ValueError as why:
            self.unread.append(f"{name} can't be read: {why}")
            return None

    def has(self, host, name, neighbour):
        """Whether a host has the interface that heard of a neighbour."""
        if self.links[host] and name not in self.links[host]:
            self.lose(f"{host}.link has no {name}, which is to hear of {neighbour.name or neighbour.chassis}: that is left out")
        return name in self.links[host]

    def interface(self, neighbour):
        """The host and the interface that a neighbour is, or None for one that no file tells of."""
        hosts = set(self.links) & {neighbour.name} or set(self.by_mac.get(neighbour.chassis, []))
        found = [
            (host, name)
            for host in sorted(hosts)
            for name, link in self.links[host].items()
            if link.kind not in ("bridge", VLAN, *BONDS) and neighbour.port in (name, *link.addresses)
        ]
        named = [it for it in found if it[1] in (neighbour.port, neighbour.description)]
        return (named or found or [None])[0]


def role(says, bridge):
    """The role that a port's state and the bridge's root port tell: the kernel has no word for it."""
    own = bridge_identifier(says["bridge_id"]) == bridge_identifier(bridge["bridge_id"])
    if says["state"] == "disabled":
        return "Disabled"
    if int(says["no"], 16) == bridge["root_port"]:
        return "Root"
    if own and says["designated_port"] == int(says["id"], 16):
        return "Designated"
    return "Backup" if own else "Alternate"


class Reader:
    """Makes a network of what hosts say."""

    def __init__(self, files):
        self.network = Network()
        self.hosts = Hosts(files, self.network)
        # the bridge and the number of each port; what is in one LAN, as (host, interface, VIDs); and who hears of whom
        self.ports, self.lans, self.far = {}, Joined(), {}

    def read(self):
        for host, links in self.hosts.links.items():
            bridges = [it for it in links.values() if it.kind == "bridge" and it.says["stp_state"] != STP_OFF]
            if not bridges:
                self.network.tell(f"{host} has no bridge with STP on (in the JSON of ip -j -d link)")
            for link in bridges:
                self.add_bridge(host, link, f".{link.name}" if len(bridges) > 1 else "")
        ports = [(host, it.name) for host, links in self.hosts.links.items() for it in links.values() if it.master]
        self.stacks = {(), *(self.node(*it)[2] for it in ports)}
        self.join_hubs()
        self.join_neighbours()
        bundles = self.bundles()
        self.join_bonds({end for ends in bundles for end in ends})
        self.add_lans(bundles)
        return self.network

    def add_bridge(self, host, link, last):
        says = link.says
        priority, address = bridge_identifier(says["bridge_id"])
        bridge = self.network.add_bridge(host, f"{host} {link.name}", address, priority, says["max_age"] // 100, last)
        if bridge is None:
            return
        bridge.on = "UP" in link.flags
        is_kernels = says["stp_state"] == STP_OF_KERNEL
        if not is_kernels:
            self.network.tell(f"{bridge.label} is run by a daemon: its priorities and costs may be others than the kernel's")
        elif bridge.on:
            bridge.root_cost = says["root_path_cost"]
            # Of a bridge, iproute2 prints the bridge's own identifier as that of its root too.
            bridge.root = identifier(priority, address)
        for it in self.hosts.links[host].values():
            if it.master == link.name:
                self.add_port(host, it, bridge, says, is_kernels)

    def add_port(self, host, link, bridge, of_bridge, is_kernels):
        """A port by its identifier: the kernel has six bits of it for the priority, and four are the standard's."""
        says, name = link.slave, link.name
        number, priority = int(says["id"], 16) & 0xFFF, int(says["id"], 16) >> 12 << 4
        if not number or number in bridge.ports:
            why = f"the number of {bridge.ports[number].label}" if number else "port number 0"
            self.network.lose(f"{bridge.label} {name} has {why}: it is left out")
            return
        if number != int(says["no"], 16):
            self.network.tell(f"{bridge.label} {name} has number {number} and priority {priority}, as its identifier is read")
        port = Port(name, priority, says["cost"], restricted=says.get("root_block") is True)
        if is_kernels:
            port.says[0] = role(says, of_bridge), says["state"] == "forwarding"
            if port.says[0][0] == "Root":
                bridge.root = identifier(*bridge_identifier(says["root_id"]))
        if says.get("guard"):
            self.network.tell(f"{bridge.label} {name} shuts itself where it hears a BPDU: that isn't in the script")
        if of_bridge["vlan_filtering"] and self.hosts.vlans.get(host) is not None:
            port.vlans = self.hosts.vlans[host].get(name, set())
        elif of_bridge["vlan_filtering"]:
            self.network.tell(f"{bridge.label} filters VLANs, and no {host}.vlan tells which")
        self.network.add_port(bridge, number, port)
        self.ports[host, name] = bridge, number

    def node(self, host, name):
        """An interface as its host, the interface without VLANs that it stands on, and its VIDs, the outermost first."""
        links, vids = self.hosts.links[host], ()
        while name in links and links[name].kind == VLAN and len(vids) < DEEPEST:
            vid, lower = typed(links[name].says, "id", int), links[name].lower
            if vid is None or lower not in links:
                self.network.tell(f"{host} {name}: what its VLAN stands on isn't told")
                break
            vids, name = (vid, *vids), lower
        return host, name, vids

    def join(self, one, other):
        """Joins two interfaces, and the VLAN interfaces on them that have equal VIDs."""
        (host, name, vids), (far_host, far_name, far_vids) = self.node(*one), self.node(*other)
        for its in self.stacks:
            self.lans.join((host, name, vids + its), (far_host, far_name, far_vids + its))

    def members(self, host, master):
        """The interfaces of a bond, or of a bridge."""
        return [(host, it.name) for it in self.hosts.links[host].values() if it.master == master]

    def join_hubs(self):
        """The ports of a bridge with STP off are in one LAN."""
        for host, links in self.hosts.links.items():
            for link in links.values():
                if link.kind == "bridge" and link.says["stp_state"] == STP_OFF:
                    for member in self.members(host, link.name):
                        self.join((host, link.name), member)

    def join_bonds(self, bundled):
        """A bond that isn't one of two with links of their own is one port: its interfaces are in one LAN. Of one that has an
        active interface, and so others that wait, it is that one's LAN."""
        for host, links in self.hosts.links.items():
            for link in links.values():
                if link.kind not in BONDS or (host, link.name) in bundled:
                    continue
                active = typed(link.says, "active_slave", str)
                if active:
                    self.network.tell(f"{host} {link.name} uses {active} alone: what its other members reach isn't in the script")
                for member in self.members(host, link.name):
                    if active in (None, member[1]):
                        self.join((host, link.name), member)

    def join_neighbours(self):
        pairs = {}
        for host, heard in self.hosts.heard.items():
            for name, neighbour in heard:
                other = self.hosts.interface(neighbour)
                if other:
                    pairs[(host, name), other] = None
                else:
                    who = neighbour.name or neighbour.chassis
                    port = neighbour.description or neighbour.port
                    self.network.tell(f"{host} {name} hears of {who} {port}, which is no interface of these hosts")
        for one, other in agreed(pairs, self.network):
            self.join(one, other)
            self.far.setdefault(one, set()).add(other)
            self.far.setdefault(other, set()).add(one)

    def cables(self, host, name):
        """The members of a bond that have a link, each with the only one that it hears of; None where one hears of none or two, or
        not all members are in use."""
        links = self.hosts.links[host]
        if links[name].kind not in BONDS or not links[name].is_up or typed(links[name].says, "active_slave", str):
            return None
        ends = [(it, self.far.get(it, set())) for it in self.members(host, name) if links[it[1]].is_up]
        return {it: next(iter(far)) for it, far in ends} if ends and all(len(far) == 1 for _, far in ends) else None

    def bundles(self):
        """Pairs of bonds that are ports of two bridges and whose members hear of each other, and of nobody else: their cables."""
        found = {}
        for one, (bridge, _) in self.ports.items():
            cables = self.cables(*one)
            masters = {(host, self.hosts.links[host][name].master) for host, name in (cables or {}).values()}
            other = masters.pop() if len(masters) == 1 else None
            if other not in self.ports or other < one or self.ports[other][0] is bridge:
                continue
            back = self.cables(*other)
            if back and {far: near for near, far in cables.items()} == back:
                found[one, other] = cables
        return found

    def add_lans(self, bundles):
        lans, speeds = {}, {}
        for host, heard in self.hosts.heard.items():
            for name, neighbour in heard:
                for vids in self.stacks:
                    speeds.setdefault(self.lans.end((host, name, vids)), set()).add(neighbour.speed)
        bundled = {end for ends in bundles for end in ends}
        for end, (bridge, number) in self.ports.items():
            if not self.hosts.links[end[0]][end[1]].is_up:
                self.network.tell(f"{bridge.label} {end[1]} has no link: it is in no LAN")
            elif end not in bundled:
                lans.setdefault(self.lans.end(self.node(*end)), []).append((end, (bridge, number)))
        for node, ports in lans.items():
            self.add_lan(ports, speeds.get(node))
        for ends, cables in bundles.items():
            self.add_bundle([self.ports[end] for end in ends], cables, speeds)

    def add_lan(self, ports, speeds):
        ends = [end for _, end in ports]
        below = [(host, self.node(host, name)[1]) for (host, name), _ in ports]
        bonds = any(self.hosts.links[host][name].kind in BONDS for host, name in below)
        speeds = set(speeds or {None})
        if len(ports) == 1 and speeds == {None}:
            self.network.tell(f"{where_of(ends)} hears of no other bridge: it has a LAN of its own, of unknown speed")
        elif len(speeds) > 1 or None in speeds or bonds:
            self.network.tell(f"{where_of(ends)}: the speed isn't told")
        self.network.add_lan(ends, speeds.pop() if len(speeds) == 1 and not bonds else None)

    def add_bundle(self, ends, cables, speeds):
        told = []
        for near, far in cables.items():
            its = speeds.get(self.lans.end((*near, ())), {None})
            told.append(((near[1], far[1]), next(iter(its)) if len(its) == 1 else None, None))
        if any(speed is None for _, speed, _ in told):
            self.network.tell(f"{where_of(ends)}: the speed of a member isn't told")
        self.network.add_bundle(ends, told)


def read_files(files):
    """The network that files, bytes by name, tell of, and lines of those that can't be read."""
    reader = Reader(files)
    return reader.read(), reader.hosts.unread


def read(folder):
    """The same of the files of a folder."""
    files, unread = files_of(folder, ENDINGS)
    network, others = read_files(files)
    return network, unread + others


def main():
    write(*read(*called(__doc__, 1, 1)))


if __name__ == "__main__":
    guarded(main)
