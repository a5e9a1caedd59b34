#!/usr/bin/env python3
"""Makes a script of Open vSwitch's database: bridges with RSTP or STP enabled, and their cables.

usage: ovs.py FILE ...    (a file of each host; - is standard input)

A file is what one of these prints:

    ovs-vsctl --format=json list bridge -- list port -- list interface
    ovsdb-client dump --format=json

For example: ovs.py examples/import/ovs/rstp | mstplan run -

Each bridge with rstp_enable, or else stp_enable, becomes a bridge of kind rstp, with its settings in other_config (rstp-priority,
rstp-address, rstp-max-age; rstp-port-num, rstp-port-priority, rstp-path-cost of its ports; stp-... alike), and the VLANs of tag,
trunks and vlan_mode. Numbers and identifiers that the database tells in rstp_status or status go before the settings.

Cables aren't in the database but for patch ports (options:peer). So the interfaces whose external_ids:mstplan-lan have one value,
in whichever file, are in the LAN of that name; any other port that is up gets a LAN of its own:

    ovs-vsctl set interface eth1 external_ids:mstplan-lan=CABLE-7

Two bonds whose interfaces have the same cables are links with a key, which count as one; any other bond is one port in one LAN.
Open vSwitch itself runs no spanning tree on a bond, and that is told. A bridge without RSTP and STP is part of a LAN where it
passes BPDUs on (other_config:forward-bpdu), and else left out.

What couldn't be told, what was assumed and which names were changed is told on standard error, with status 0; a file that can't
be read and a bridge that is left out for its MAC address are told there first, with status 1, and so it is where no bridge is read.
Status 2 stands for wrong words, 3 for standard output that can't be written. Speeds are in kb/s, those of the database in b/s.
"""

import json
import os
import re
import sys
from dataclasses import dataclass

sys.dont_write_bytecode = True

from network import (  # noqa: E402
    DEFAULT_MAX_AGE, DEFAULT_PORT_PRIORITY, DEFAULT_PRIORITY, HIGHEST_PORT, Bridge, Joined, Network, Port, called, contents,
    decoded, guarded, identifier, where_of, write,
)

LAN_KEY = "mstplan-lan"
# Columns by which a table is known: ovs-vsctl prints no names of tables.
TABLES = {"bridge": "rstp_enable", "port": "interfaces", "interface": "ofport"}
# The costs that Open vSwitch gives a port of at least so many Mb/s, and one of unknown speed, which it takes for 100 Mb/s.
COSTS = {
    "rstp": [(10_000_000, 2), (1_000_000, 20), (100_000, 200), (10_000, 2000), (1000, 20_000), (100, 200_000), (10, 2_000_000),
             (1, 20_000_000)],
    "stp": [(10_000, 2), (1000, 4), (100, 19), (16, 62), (10, 100), (4, 250), (0, 19)],
}
# The columns in which it says how the spanning tree has settled.
SAYS = {"rstp": "rstp_status", "stp": "status"}
UNKNOWN_SPEED = 100
IDENTIFIER = re.compile(r"[0-9a-fA-F]{1,4}(\.[0-9a-fA-F]{3})?\.[0-9a-fA-F]{12}")


def items(value):
    """What a set has, or the one value that stands for a set of one; of an identifier of a row its text."""
    if not isinstance(value, list):
        return [value]
    kind, body = value if len(value) == 2 else (None, None)
    if kind == "set" and isinstance(body, list):
        return [it[-1] if isinstance(it, list) and it else it for it in body]
    return [body] if kind == "uuid" else []


def texts(value):
    return [it for it in items(value) if isinstance(it, str)]


def numbers(value):
    return [it for it in items(value) if isinstance(it, int) and not isinstance(it, bool)]


def text(value):
    return next(iter(texts(value)), None)


def number(value):
    return next(iter(numbers(value)), None)


def mapping(value):
    """A map's pairs of texts."""
    pairs = value[1] if isinstance(value, list) and len(value) == 2 and isinstance(value[1], list) else []
    pairs = [it for it in pairs if isinstance(it, list) and len(it) == 2]
    return {key: its for key, its in pairs if isinstance(key, str) and isinstance(its, str)}


def is_true(value):
    return value is True


# Of each table the columns that matter, and what makes a value of a column's JSON. One that isn't there is as an empty set.
ITS = {"name": text, "other_config": mapping, "rstp_status": mapping, "status": mapping}
COLUMNS = {
    "bridge": {"ports": texts, "rstp_enable": is_true, "stp_enable": is_true, "datapath_id": text, **ITS},
    "port": {"interfaces": texts, "tag": number, "trunks": numbers, "vlan_mode": text, **ITS},
    "interface": {"type": text, "link_speed": number, "link_state": text, "admin_state": text, "options": mapping,
                  "external_ids": mapping, "name": text},
}


def tables(its):
    """The tables that matter, each as its rows by identifier. Raises ValueError where the text has another form."""
    found, at, decoder = {name: {} for name in TABLES}, 0, json.JSONDecoder(strict=False)
    its = its.strip()
    while at < len(its):
        try:
            table, at = decoder.raw_decode(its, at)
        except RecursionError:
            raise ValueError("it has too many levels") from None
        while at < len(its) and its[at].isspace():
            at += 1
        headings, data = (table.get(it) for it in ("headings", "data")) if isinstance(table, dict) else (None, None)
        if not isinstance(headings, list) or not isinstance(data, list) or not all(isinstance(row, list) for row in data):
            raise ValueError("it is no table of headings and data")
        for name, column in TABLES.items():
            if column in headings and "name" in headings:
                found[name] = rows(COLUMNS[name], headings, data)
    return found


def rows(columns, headings, data):
    """A table's rows by identifier, each with a value of each column; those without an identifier or a name are none."""
    found, empty = {}, ["set", []]
    headings = [it if isinstance(it, str) else None for it in headings]
    for row in (dict(zip(headings, row)) for row in data):
        its = text(row.get("_uuid", empty))
        if its is not None and text(row.get("name", empty)) is not None:
            found[its] = {column: value(row.get(column, empty)) for column, value in columns.items()}
    return found


def mac(digits):
    return ":".join(digits[at:at + 2] for at in range(0, 12, 2)).lower()


def bridge_identifier(its):
    """The priority and the MAC address of an identifier, 8.000.020000000001, or 8000.020000000001 in STP; None of another text."""
    if not IDENTIFIER.fullmatch(its or ""):
        return None
    *priority, address = its.split(".")
    return int("".join(priority), 16), mac(address)


def vlans(port):
    """The VIDs that a port is a member of, or None for all."""
    tag, trunks = port["tag"], port["trunks"]
    mode = port["vlan_mode"] or ("access" if tag is not None and not trunks else "trunk")
    if mode in ("access", "dot1q-tunnel"):
        return {tag} if tag else None
    native = [tag] if mode.startswith("native") and tag else []
    return {*trunks, *native} if trunks else None


def settled(says, protocol):
    """A port's role, and whether it forwards, as far as the database tells. In STP it has no word for Backup."""
    state = says.get("rstp_port_state" if protocol == "rstp" else "stp_state", "").lower()
    role = says.get("rstp_port_role" if protocol == "rstp" else "stp_role", "").capitalize()
    if protocol == "stp":
        role = {"disabled": "Disabled"}.get(state, {"Alternate": None}.get(role, role))
    return role or None, state == "forwarding" if state else None


@dataclass
class End:
    """An interface at a cable: the bridge and the number of its port, its name, its speed in kb/s or None, and whether it is of a
    bond."""
    bridge: Bridge
    number: int
    name: str
    speed: int | None
    is_of_bond: bool

    @property
    def port(self):
        return self.bridge, self.number

    @property
    def its(self):
        return self.bridge.name, self.number


class Reader:
    """Makes a network of databases."""

    def __init__(self):
        self.network = Network()
        # the ends of each cable, by what tells it, and which cables are one LAN
        self.cables, self.lans = {}, Joined()

    def read(self, host, found):
        for row in sorted(found["bridge"].values(), key=lambda row: row["name"]):
            label = f"{host} {row['name']}" if host else row["name"]
            if row["rstp_enable"]:
                self.add_bridge(host, row, label, "rstp", found)
            elif row["stp_enable"]:
                self.add_bridge(host, row, label, "stp", found)
            elif row["other_config"].get("forward-bpdu") == "true":
                self.join_hub(host, row, found)
            else:
                self.network.tell(f"{label} has neither RSTP nor STP enabled: it is left out, and what it joins isn't known")

    def join_hub(self, host, row, found):
        """A bridge that passes BPDUs on makes one LAN of its cables."""
        cables = []
        for port in named(found["port"], row["ports"]):
            for it in named(found["interface"], port["interfaces"]):
                cables.append(cable_of(host, it, (host, row["name"], it["name"])))
        for cable in cables:
            self.lans.join(("hub", host, row["name"]), cable)

    def setting(self, label, settings, key, otherwise):
        """A number that is set; C's ways to write one are the database's too."""
        try:
            return int(settings[key], 0) if key in settings else otherwise
        except ValueError:
            self.network.tell(f"{label} has {key}={settings[key]}, which is no number")
            return otherwise

    def identifier(self, label, row, protocol):
        """A port's priority and number, which is None where nothing tells it. The database has STP's in decimal."""
        told, settings = row[SAYS[protocol]].get(f"{protocol}_port_id", ""), row["other_config"]
        if re.fullmatch("[0-9a-fA-F]{1,4}" if protocol == "rstp" else "[0-9]{1,5}", told):
            whole = int(told, 16 if protocol == "rstp" else 10)
            return whole >> 12 << 4, whole & 0xFFF or None
        label = f"{label} {row['name']}"
        number = self.setting(label, settings, f"{protocol}-port-num", 0)
        priority = self.setting(label, settings, f"{protocol}-port-priority", DEFAULT_PORT_PRIORITY)
        return priority, number if 1 <= number <= HIGHEST_PORT else None

    def add_bridge(self, host, row, label, protocol, found):
        settings, says = row["other_config"], row[SAYS[protocol]]
        priority = self.setting(label, settings, f"{protocol}-priority", DEFAULT_PRIORITY)
        address = settings.get("rstp-address" if protocol == "rstp" else "stp-system-id") or settings.get("hwaddr")
        told = bridge_identifier(says.get(f"{protocol}_bridge_id"))
        if told:
            priority, address = told
        elif not address:
            address = mac((row["datapath_id"] or "0" * 16)[4:])
            self.network.tell(f"{label}: its MAC address is taken from its datapath_id")
        max_age = self.setting(label, settings, f"{protocol}-max-age", DEFAULT_MAX_AGE)
        name, last = (host, f".{row['name']}") if host else (row["name"], "")
        bridge = self.network.add_bridge(name, label, address.lower(), priority, max_age, last)
        if bridge is None:
            return
        root = bridge_identifier(says.get("rstp_root_id" if protocol == "rstp" else "stp_designated_root"))
        if root:
            bridge.root, bridge.root_cost = identifier(*root), self.setting(label, says, f"{protocol}_root_path_cost", None)
        ports = named(found["port"], row["ports"])
        # first those whose number is told, so that an assumed one isn't theirs; last bonds, which have none in Open vSwitch
        untold = {port["name"]: self.identifier(label, port, protocol)[1] is None for port in ports}
        for port in sorted(ports, key=lambda port: (untold[port["name"]], len(port["interfaces"]) > 1, port["name"])):
            self.add_port(host, bridge, port, named(found["interface"], port["interfaces"]), protocol)

    def add_port(self, host, bridge, row, interfaces, protocol):
        label, settings = f"{bridge.label} {row['name']}", row["other_config"]
        if any(it["type"] == "internal" for it in interfaces):
            return
        if not interfaces or settings.get(f"{protocol}-enable") == "false":
            why = f"has {protocol}-enable=false" if interfaces else "has no interface"
            self.network.tell(f"{label} {why}, so it takes no part in the spanning tree: it is left out")
            return
        priority, number = self.identifier(bridge.label, row, protocol)
        if number is None or number in bridge.ports:
            number = next((it for it in range(1, HIGHEST_PORT + 1) if it not in bridge.ports), None)
            self.network.tell(f"{label}: its port number isn't told, and {number or 'none'} is assumed")
        if number is None:
            return
        port = Port(row["name"], priority, vlans=vlans(row))
        port.cost = self.setting(label, settings, f"{protocol}-path-cost", None)
        is_bond = len(interfaces) > 1
        if is_bond:
            self.network.tell(f"{label} is a bond: Open vSwitch runs no spanning tree on it and always forwards there, and the "
                              "plan has it take part")
        else:
            port.says[0] = settled(row[SAYS[protocol]], protocol)
            self.assume_cost(port, interfaces[0]["link_speed"], protocol)
        self.network.add_port(bridge, number, port)
        for it in interfaces:
            self.add_end(host, bridge, number, it, is_bond)

    def assume_cost(self, port, bits, protocol):
        """The cost that Open vSwitch makes of a speed in b/s, where none is set."""
        if port.cost is None:
            megabits = (bits or 0) // 1_000_000 or UNKNOWN_SPEED
            port.cost = next((cost for least, cost in COSTS[protocol] if megabits >= least), None)
            self.network.tell("costs that aren't set are assumed to be those that Open vSwitch makes of speeds")

    def add_end(self, host, bridge, number, interface, is_of_bond):
        """An interface's end of a cable."""
        label = f"{bridge.label} {bridge.ports[number].label}" + (f" {interface['name']}" if is_of_bond else "")
        if "down" in (interface["link_state"], interface["admin_state"]):
            self.network.tell(f"{label} has no link: it is in no LAN")
            return
        speed = (interface["link_speed"] or 0) // 1000 or None
        cable = cable_of(host, interface, (label,))
        self.cables.setdefault(cable, []).append(End(bridge, number, interface["name"], speed, is_of_bond))

    def bundles(self):
        """The cables of each two bonds of two bridges that have all their cables with each other alone."""
        far, cables = {}, {}
        for cable, ends in self.cables.items():
            is_plain = len(ends) == 2 and all(it.is_of_bond for it in ends) and self.lans.end(cable) == cable
            for end, other in zip(ends, reversed(ends)):
                far.setdefault(end.its, set()).add(other.its if is_plain and end.bridge is not other.bridge else None)
            cables.setdefault(tuple(it.its for it in sorted(ends, key=lambda it: it.its)), []).append(cable)
        return [its for pair, its in cables.items() if len(pair) == 2 and [far[it] for it in pair] == [{pair[1]}, {pair[0]}]]

    def add_lans(self):
        bundles = self.bundles()
        for cables in bundles:
            self.add_bundle(cables)
        bundled, lans, bonds = {cable for its in bundles for cable in its}, {}, {}
        for cable, ends in self.cables.items():
            for end in ends:
                if cable not in bundled and end.is_of_bond:
                    self.lans.join(bonds.setdefault(end.its, cable), cable)
        for cable in self.cables:
            if cable not in bundled:
                lans.setdefault(self.lans.end(cable), []).append(cable)
        for cables in lans.values():
            self.add_lan(cables)

    def add_bundle(self, cables):
        ends = [sorted(self.cables[cable], key=lambda it: it.its) for cable in cables]
        told = []
        for cable, its in zip(cables, ends):
            speeds = {it.speed for it in its}
            told.append(([it.name for it in its], speeds.pop() if len(speeds) == 1 else None, wanted(cable)))
        if any(speed is None for _, speed, _ in told):
            self.network.tell(f"{where_of(it.port for it in ends[0])}: the speed of a member isn't told")
        self.network.add_bundle([it.port for it in ends[0]], told)

    def add_lan(self, cables):
        ends = {end.its: end for cable in cables for end in self.cables[cable]}.values()
        speeds, where = {end.speed for end in ends}, where_of(end.port for end in ends)
        is_of_bond = any(end.is_of_bond for end in ends)
        if len(ends) == 1:
            kind, its = cables[0][0], cables[0][-1]
            why = {"patch": "its peer isn't a port of these bridges", "named": f"no other port has {LAN_KEY}={its}"}
            self.network.tell(f"{where}: {why.get(kind, 'no cable is told')}: it has a LAN of its own")
        elif len(speeds) > 1 or None in speeds or is_of_bond:
            self.network.tell(f"{where}: the speed isn't told")
        speed = speeds.pop() if len(speeds) == 1 and not is_of_bond else None
        self.network.add_lan([end.port for end in ends], speed, next(filter(None, map(wanted, cables)), None))


def named(table, its):
    """The rows of a table that have these identifiers."""
    return [table[it] for it in its if it in table]


def cable_of(host, interface, otherwise):
    """What tells an interface's cable: its peer, the LAN that is named, or else itself."""
    peer, its = interface["options"].get("peer"), interface["external_ids"].get(LAN_KEY)
    return ("patch", host, *sorted((interface["name"], peer))) if peer else ("named", its) if its else otherwise


def wanted(cable):
    return cable[1] if cable[0] == "named" else None


def read_files(files):
    """The network that files tell of, bytes by path, and lines of those that can't be read."""
    reader, unread = Reader(), []
    for path, data in files.items():
        host = os.path.basename(path).partition(".")[0] if len(files) > 1 else None
        try:
            found = tables(decoded(data, path, reader.network.tell))
        except ValueError as why:
            unread.append(f"{path} can't be read: {why}")
            continue
        missing = [name for name in TABLES if not found[name]]
        if missing:
            unread.append(f"{path} has no table of {' and '.join(missing)}")
        else:
            reader.read(host, found)
    reader.add_lans()
    return reader.network, unread


def read(paths):
    """The same of the files of these paths."""
    files, unread = {}, []
    for path in paths:
        try:
            files[path] = contents(path)
        except OSError as why:
            unread.append(f"{path} can't be read: {why.strerror}")
    network, others = read_files(files)
    return network, unread + others


def main():
    write(*read(called(__doc__, 1)))


if __name__ == "__main__":
    guarded(main)
