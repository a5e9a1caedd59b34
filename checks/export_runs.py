#!/usr/bin/env python3
"""Commands of devices (tools/export.py), for tools.py: what is typed into a sketch of a switch, and read by the importer, is the network that
was wanted.

usage: export_runs.py PROGRAM [COUNT] [FIRST]    (so many pairs of networks of each kind, or 100; tools.py takes fewer)

Two networks are drawn by a number. The commands of the first one from nothing, and then those from the first to the second, go to
sketches of Cisco's switches and of Open vSwitch's database; these print what tools/import/cisco.py and ovs.py read, and `mstplan edits` has
nothing to set between what they make of it and the second network. So the forms agree with those of the importers; what a real switch
says of them no sketch tells. Numbers of ports, interfaces and bundles of a switch are different ones. A sketch of Linux bridges has the VLANs
and the states of interfaces. In none of them is a VLAN out for a moment that is there before and afterwards, and what is shut are the
interfaces of the cables that are down, one by one. The exit status is 1 where something differs.
"""

import concurrent.futures
import contextlib
import copy
import itertools
import json
import os
import re
import shlex
import subprocess
import sys
from dataclasses import dataclass

TOP = os.path.join(os.path.dirname(os.path.abspath(__file__)), os.pardir)
EXPORT = os.path.join(TOP, "tools", "export.py")
# nothing is to be left beside what is imported
sys.dont_write_bytecode = True
sys.path += [os.path.join(TOP, "tools", "import"), os.path.join(TOP, "tools")]

import cisco  # noqa: E402
import mstplan  # noqa: E402
import ovs  # noqa: E402
import network as importing  # noqa: E402
import sketch  # noqa: E402
from interfaces import Names  # noqa: E402

COUNT, IN_THE_GATE = 100, 12
FULL, SHORT, EVERY = "GigabitEthernet1/0/{}", "Gi1/0/{}", frozenset(range(1, 4095))
OF_IOS = {
    "cost": re.compile(r"spanning-tree mst ([0-9]+) cost ([0-9]+)"), "no cost": re.compile(r"no spanning-tree mst ([0-9]+) cost"),
    "priority": re.compile(r"spanning-tree mst ([0-9]+) port-priority ([0-9]+)"), "of bridge": re.compile(r"spanning-tree mst ([0-9]+) priority ([0-9]+)"),
    "vlans": re.compile(r"switchport trunk allowed vlan (add |remove )?(\S+)"), "instance": re.compile(r"(no )?instance ([0-9]+) vlan (\S+)"),
    "limit": re.compile(r"spanning-tree mst max-(?:age|hops) [0-9]+"),
}
# What is left to hands in a round trip: cables and MAC addresses, of two costs of a port the one that doesn't count, and trees that go.
LEFT = re.compile(r".*: (a cable.*|a new switch: .*|it has one cost in instance 0, and the (in|ex)ternal one counts there|\S+ has no instance [0-9]+, so nothing is set yet)")


# ---- a switch of Cisco's


def interface(vlans=EVERY):
    """What is set of an interface that nothing was typed of."""
    return {"cost": {}, "priority": {}, "vlans": vlans, "guard": False, "group": None, "shut": False}


class Ios:
    """What is set at a switch, by the commands that were typed. What is typed at a bundle goes to its interfaces, too. A bundle that a
    `channel-group` makes has what its first interface has, or nothing: the documents of different releases say either. `out` is what was
    out for a moment. `numbers` tells the number of each interface in the spanning tree."""

    def __init__(self, name, mac, inherits, numbers):
        self.name, self.mac, self.inherits, self.numbers = name, mac, inherits, numbers
        self.priorities, self.limits, self.region, self.table, self.interfaces, self.out = {}, {}, {}, {}, {}, []

    def type(self, commands):
        where, name, before = None, None, {name: its["vlans"] for name, its in self.interfaces.items()}
        least = dict(before)
        for line in commands:
            command = line.strip()
            if not line.startswith(" "):
                where = command if command.startswith(("interface ", "spanning-tree mst configuration")) else None
            if where and command == where:
                name = cisco.short(where.removeprefix("interface "))
                continue
            if where and where.startswith("interface "):
                self.type_interface(name, command)
            elif not where and command != "!":
                self.type_bridge(command)
            elif where and command != "exit":
                self.type_region(command)
            # what comes into a bundle or out of one, or is set back, begins anew
            begins = {name} if "channel-group" in command else set()
            least = {it: vlans & self.interfaces[it]["vlans"] for it, vlans in least.items() if it in self.interfaces.keys() - begins}
        self.out += [f"{self.name} {it} is out" for it, vlans in least.items() if before[it] & self.interfaces[it]["vlans"] - vlans]

    def type_bridge(self, command):
        if found := OF_IOS["of bridge"].fullmatch(command):
            self.priorities[int(found[1])] = int(found[2])
        elif OF_IOS["limit"].fullmatch(command):
            self.limits[command.split()[2]] = command
        elif command.startswith("default interface "):
            self.interfaces.pop(cisco.short(command.removeprefix("default interface ")))
        elif command not in (f"hostname {self.name}", "spanning-tree mode mst"):
            raise ValueError(f"no command: {command}")

    def type_region(self, command):
        if found := OF_IOS["instance"].fullmatch(command):
            its = sketch.numbers_in(found[3])
            for vid in its:
                if not found[1]:
                    self.table[vid] = int(found[2])
                elif self.table.pop(vid) != int(found[2]):
                    raise ValueError(f"not mapped: {command}")
        elif command.split()[0] in ("name", "revision"):
            self.region[command.split()[0]] = command
        else:
            raise ValueError(f"no command: {command}")

    def type_interface(self, name, command):
        its = self.interfaces.setdefault(name, interface())
        word, *rest = command.split()
        if word == "channel-group":
            bundle = f"Po{rest[0]}"
            if its["group"]:
                raise ValueError(f"{name} is in {its['group']}: {command}")
            its["group"] = bundle
            self.interfaces.setdefault(bundle, {**copy.deepcopy(its), "group": None, "shut": False} if self.inherits else interface())
        elif command == "no channel-group":
            its["group"] = None
        elif command in ("shutdown", "no shutdown"):
            its["shut"] = command == "shutdown"
        elif command not in ("switchport mode trunk", "!"):
            for one in (its, *(it for it in self.interfaces.values() if it["group"] == name)):
                self.set(one, command)

    @staticmethod
    def set(its, command):
        if found := OF_IOS["cost"].fullmatch(command):
            its["cost"][int(found[1])] = int(found[2])
        elif found := OF_IOS["no cost"].fullmatch(command):
            its["cost"].pop(int(found[1]), None)
        elif found := OF_IOS["priority"].fullmatch(command):
            its["priority"][int(found[1])] = int(found[2])
        elif found := OF_IOS["vlans"].fullmatch(command):
            vids = EVERY if found[2] == "all" else frozenset() if found[2] == "none" else frozenset(sketch.numbers_in(found[2]))
            its["vlans"] = {"add ": its["vlans"] | vids, "remove ": its["vlans"] - vids}.get(found[1], vids)
        elif command in ("spanning-tree guard root", "spanning-tree guard none"):
            its["guard"] = command.endswith("root")
        else:
            raise ValueError(f"no command: {command}")

    def bundled(self):
        return {it["group"] for it in self.interfaces.values()}

    def shut(self):
        return {name for name, its in self.interfaces.items() if its["shut"]}

    def config(self):
        """What `show running-config` prints, as far as it is about this."""
        yield from (f"hostname {self.name}", "spanning-tree mode mst", *self.limits.values(), "spanning-tree mst configuration")
        yield from (f" {it}" for it in self.region.values())
        for tree in sorted(set(self.table.values())):
            yield f" instance {tree} vlan {sketch.list_of(vid for vid, its in self.table.items() if its == tree)}"
        for name, its in self.interfaces.items():
            yield from ("!", f"interface {name}", " switchport mode trunk")
            if its["vlans"] != EVERY:
                yield f" switchport trunk allowed vlan {sketch.list_of(its['vlans']) if its['vlans'] else 'none'}"
            group = its["group"] and f"channel-group {its['group'].removeprefix('Po')} mode active"
            yield from [f" {it}" for it in (group, "spanning-tree guard root" if its["guard"] else None) if it]

    def mst(self):
        """What `show spanning-tree mst` prints."""
        address = re.sub("(....)(....)(....)", r"\1.\2.\3", self.mac.replace(":", ""))
        for tree in sorted({0, *self.table.values()}):
            priority = self.priorities.get(tree, 32768)
            yield f"##### MST{tree}    vlans mapped:   {sketch.list_of(vid for vid, its in self.table.items() if its == tree) if tree else 'none'}"
            yield f"Bridge        address {address}  priority      {priority + tree} ({priority} sysid {tree})"
            yield "Interface        Role Sts Cost      Prio.Nbr Type"
            for name, its in self.interfaces.items():
                if not its["group"] and (not name.startswith("Po") or name in self.bundled()):
                    yield f"{name}          Desg FWD {its['cost'].get(tree, 20000)}     {its['priority'].get(tree, 128)}.{self.numbers[name]}    P2p"


@dataclass
class Cable:
    """A cable: its LAN, its ends as (switch, number of the port, of the interface), the bundles' numbers at these, or None where it is of
    none, and whether it ever is of one. The first cable of a bundle has its settings."""
    lan: str
    ends: list
    groups: tuple | None = None
    is_bundled: bool = False
    is_first: bool = True


def cisco_network(draws, cables, kept):
    """A network of Cisco's switches over these cables. Costs are those that the importer tells apart. About half of what is set of ports is as it
    was in the network before, which `kept` has by switch, port and tree."""
    regions = [[f"1 {name}", {tree: draws.below(300) + 1 for tree in range(1, 1 + draws.below(4))}] for name in ("hq", "lab")]
    lines, trees = ["mstplan 2"], {}
    for place, bridge in enumerate("abcde"):
        name, table = draws.one_of(regions)
        trees[bridge] = [0, *table]
        lines += [f"addbridge {bridge} 02:00:00:00:00:{place + 1:02x}", f"setmstconfid {bridge} {name}"]
        lines += [f"setvid2mstid {bridge} {tree} {vid * 10}-{vid * 10 + 5},{vid * 10 + 7}" for tree, vid in table.items()]
        lines += [f"settreeprio {bridge} {tree} {draws.below(16) * 4096}" for tree in trees[bridge]]
        lines += [f"setmaxhops {bridge} {6 + draws.below(30)}", f"setmaxage {bridge} {6 + draws.below(30)}"]
    for it in cables:
        lines += [f"addlan {it.lan}"] + [f"lan {it.lan} down"] * (draws.below(3) == 0)
        for at, (bridge, port, _) in enumerate(it.ends):
            lines += [f"addport {bridge} {port}", f"plug {bridge} {port} {it.lan}"]
            lines += [f"setkey {bridge} {port} {it.groups[at]}"] if it.groups else []
            for tree in trees[bridge] if it.is_first else ():
                if (bridge, port, tree) not in kept or draws.below(2):
                    kept[bridge, port, tree] = list(of_port(draws, f"{bridge} {port}", tree, it.is_bundled))
                lines += kept[bridge, port, tree]
    return lines


def of_port(draws, port, tree, is_bundle):
    """What is set of a port in a tree; in tree 0 both of its costs are equal, and its VLANs and its guard are set besides."""
    cost = draws.one_of([7, 3000, 250_000] if is_bundle else [0, 0, 7, 3000, 250_000])
    yield f"settreeportcost {port} {tree} {cost}"
    yield f"settreeportprio {port} {tree} {draws.below(16) * 16}"
    if not tree:
        yield f"setportpathcost {port} {cost}"
        yield f"setportvlans {port} {vlans(draws)}"
        yield f"setportrestrrole {port} {draws.one_of(['no', 'no', 'yes'])}"


def vlans(draws):
    """VLANs of a port, of which most have no room in one line."""
    begin, step = draws.one_of([1001, 1001, 1003]), draws.one_of([2, 2, 3])
    some = ",".join(map(str, range(begin, 1200 + draws.below(3), step)))
    return draws.one_of(["all", "none", "1-9,20", some, some, f"{some},2000-3000"])


def cisco_cables(draws):
    """Two lists of cables between pairs of switches. Between some pairs there are two, which are a bundle; in one of the lists there may be
    only the first of them, by itself."""
    numbers, bundled, found = dict.fromkeys("abcde", 0), set(), ([], [])
    gaps = {it: draws.below(4) for it in numbers}
    for pair in itertools.combinations("abcde", 2):
        if draws.below(3) == 0:
            continue
        is_bundle = draws.one_of([(True, True), (False, True), (True, False)]) if not bundled & {*pair} else (False, False)
        groups = tuple(1 + draws.below(100) for _ in pair)
        ends = []
        for count in range(2):
            for bridge in pair:
                numbers[bridge] += 1
            ends.append([(it, numbers[it] + gaps[it] if not count else 4095, numbers[it]) for it in pair])
        if all(is_bundle):
            ends[0] = [(it, 2088 + group, number) for (it, _, number), group in zip(ends[0], groups)]
        bundled |= {*pair} if any(is_bundle) else set()
        for cables, is_one in zip(found, is_bundle):
            cables.append(Cable("-".join(pair), ends[0], groups if is_one else None, any(is_bundle)))
            cables += [Cable(f"{'-'.join(pair)}.2", ends[1], groups, True, False)] if is_one else []
    return found


def numbers_at(bridge, *lists):
    """The numbers that a switch prints: those of interfaces, and of each bundle that of its first cable's port."""
    found = {}
    for it in (it for cables in lists for it in cables):
        for at, (name, port, number) in enumerate(it.ends):
            if name == bridge and it.is_first:
                found |= {SHORT.format(number): port} | ({f"Po{it.groups[at]}": port} if it.groups else {})
    return found


def cisco_files(switches, cables):
    """The files of the switches, as the importer reads them."""
    files = {}
    for name, its in switches.items():
        heard = [(number, it.ends[1 - at]) for it in cables for at, (bridge, _, number) in enumerate(it.ends) if bridge == name]
        cdp = [f"Device ID: {far}\nInterface: {SHORT.format(number)},  Port ID (outgoing port): {SHORT.format(other)}" for number, (far, _, other) in heard]
        for ending, lines in (("config", its.config()), ("mst", its.mst()), ("cdp", cdp)):
            files[f"{name}.{ending}"] = "".join(f"{line}\n" for line in lines).encode()
    return files


def faults_of_cisco(path, number):
    program, draws = mstplan.Program(path), sketch.Draws(number + 10**6)
    lists, kept = cisco_cables(draws), {}
    first, second, third = (saved(program, cisco_network(draws, cables, kept)) for cables in (*lists, lists[1]))
    names = {f"{bridge} {port} {FULL.format(it)}" for cables in lists for cable in cables for bridge, port, it in cable.ends}
    switches = {it: Ios(it, f"02:00:00:00:00:{place + 1:02x}", draws.below(2), numbers_at(it, *lists)) for place, it in enumerate("abcde")}
    faults = []
    for old, new in ((b"", first), (first, second)):
        printed, told = exported(path, old, new, "cisco", "", names)
        faults += [f"cisco {number}: {it}" for it in told if not LEFT.fullmatch(it)]
        for name, commands in by_device(printed, "! ").items():
            switches[name].type(commands)
    network, unread = cisco.read_files(cisco_files(switches, lists[1]))
    faults += unread + shut_otherwise(f"cisco {number}", switches, lists[1], lans_down(second)) + differing(program, f"cisco {number}", network, all_up(second))
    # what the importer's own script calls ports is enough for what comes behind; that all LANs are up there, no line changes
    printed, told = exported(path, "".join(f"{it}\n" for it in network.script()).encode(), third, "cisco", "", ())
    faults += [f"cisco {number}: {it}" for it in told if not LEFT.fullmatch(it)]
    for name, commands in by_device(printed, "! ").items():
        switches[name].type(commands)
    network, unread = cisco.read_files(cisco_files(switches, lists[1]))
    faults += unread + shut_otherwise(f"cisco {number}", switches, lists[1], lans_down(second) | lans_down(third))
    faults += [f"cisco {number}: {it}" for its in switches.values() for it in its.out]
    return faults + differing(program, f"cisco {number}, imported", network, all_up(third))


def shut_otherwise(what, switches, cables, down):
    """Where other interfaces are shut than those of the cables whose LANs are down."""
    shut = {(bridge, SHORT.format(it)) for cable in cables if cable.lan in down for bridge, _, it in cable.ends}
    told = {(name, it) for name, its in switches.items() for it in its.shut()}
    return [f"{what}: {sorted(told)} are shut in place of {sorted(shut)}"] if told != shut else []


# ---- Linux bridges


class Linux:
    """The VLANs of interfaces and their states, by the commands that were typed; those of bonds are made beforehand."""

    def __init__(self, bonds):
        self.vlans, self.states, self.masters, self.least = dict.fromkeys(bonds, EVERY), {}, {}, {}

    def type(self, commands):
        before = dict(self.vlans)
        self.least = dict(before)
        for command in commands:
            self.type_one(shlex.split(command))
            self.least = {name: its & self.vlans[name] for name, its in self.least.items() if name in self.vlans}
        return [f"{name} is out" for name, its in self.least.items() if before[name] & self.vlans[name] - its]

    def type_one(self, words):
        if words[:2] == ["bridge", "vlan"] and words[3::2] == ["dev", "vid"]:
            vids = frozenset(sketch.numbers_in(words[6]))
            self.vlans[words[4]] = self.vlans[words[4]] | vids if words[2] == "add" else self.vlans[words[4]] - vids
        elif words[:4] == ["ip", "link", "set", "dev"] and words[5] == "master":
            self.masters[words[4]], self.vlans[words[4]] = words[6], frozenset([1])
        elif words[:4] == ["ip", "link", "set", "dev"] and words[5:] == ["nomaster"]:
            del self.masters[words[4]], self.vlans[words[4]]
        elif words[:4] == ["ip", "link", "set", "dev"] and words[5] in ("up", "down"):
            self.states[words[4]] = words[5]
        elif words[:4] != ["ip", "link", "add", "name"] and words[5:6] != ["address"]:
            raise ValueError(f"no command: {words}")


def linux_network(draws, lans):
    """A network of Linux bridges over these LANs, each with its ends as (bridge, port, key): VLANs, and states of the LANs."""
    lines = ["mstplan 2", *(f"addbridge {it} 02:00:00:00:00:{place + 1:02x}" for place, it in enumerate("ABC"))]
    for lan, ends in lans.items():
        lines += [f"addlan {lan}"] + [f"lan {lan} down"] * draws.below(2)
        for bridge, port, key in ends:
            lines += [f"addport {bridge} {port}", f"setkey {bridge} {port} {key}", f"plug {bridge} {port} {lan}"]
            lines += [f"setportvlans {bridge} {port} {vlans(draws)}"] if not key or port % 2 else []
    return lines


def linux_lans(draws):
    """LANs between pairs of bridges; two are a bundle of its odd and its even port."""
    numbers, lans = dict.fromkeys("ABC", 1), {}
    for pair in itertools.combinations("ABC", 2):
        is_bundle = draws.below(2)
        for count in range(1 + is_bundle):
            lans[f"{'-'.join(pair)}.{count}"] = [(it, numbers[it] + count, is_bundle * numbers[it]) for it in pair]
        numbers |= {it: numbers[it] + 2 for it in pair}
    return lans


def faults_of_linux(path, number):
    program, draws = mstplan.Program(path), sketch.Draws(number + 10**8)
    lans = linux_lans(draws)
    names = {(it, port): (f"{it}.{port}", f"{it}.bond{key}" if key else "") for ends in lans.values() for it, port, key in ends}
    told, faults = {" ".join([it, str(port), *words]) for (it, port), words in names.items()}, []
    first, second = (saved(program, linux_network(draws, lans)) for _ in range(2))
    linux, states = Linux({bond for _, bond in names.values() if bond}), {}
    for old, new in ((b"", first), (first, second)):
        printed, _ = exported(path, old, new, "iproute2", "", told)
        faults += [f"linux {number}: {it}" for it in linux.type(it for it in printed if not it.startswith("#"))]
        printed, _ = exported(path, old, new, "ovs", "", told)
        states |= {it.split()[3]: it.split()[4] for it in printed if it.startswith("ovs-ofctl mod-port ")}
    allowed = {tuple(it.split()[1:3]): it.split()[3] for it in second.decode().splitlines() if it.startswith("setportvlans ")}
    wanted = {}
    for bridge, port, key in (it for ends in lans.values() for it in ends):
        its = allowed.get((bridge, str(port)), "all")
        wanted |= {names[bridge, port][bool(key)]: EVERY if its == "all" else frozenset(sketch.numbers_in(its.replace("none", "-")))} if not key or port % 2 else {}
    faults += [f"linux {number}: {it} has other VLANs" for it in wanted.keys() | linux.vlans.keys() if wanted.get(it) != linux.vlans.get(it)]
    down = {names[end[:2]][0] for lan in lans_down(second) for end in lans[lan]}
    for what, its in (("linux", linux.states), ("ovs", states)):
        shut = {name for name, state in its.items() if state == "down"}
        faults += [f"{what} {number}: {sorted(shut)} are down in place of {sorted(down)}"] if shut != down else []
    return faults


# ---- Open vSwitch's database


class Database:
    """Tables of rows by name, by the commands that were typed."""

    def __init__(self):
        self.bridges, self.ports, self.interfaces = {}, {}, {}

    def type(self, command):
        tool, word, *its = shlex.split(command)
        if (tool, word) == ("ovs-vsctl", "add-br"):
            self.bridges[its[0]] = {"ports": [], "other_config": {}, "rstp_enable": False}
        elif word == "add-port":
            self.bridges[its[0]]["ports"].append(its[1])
            self.ports[its[1]], self.interfaces[its[1]] = {"other_config": {}}, {"external_ids": {}}
        elif word == "del-port":
            self.bridges[its[0]]["ports"].remove(its[1])
            del self.ports[its[1]], self.interfaces[its[1]]
        elif word == "set":
            self.set(getattr(self, f"{its[0]}s")[its[1]], its[2:])
        elif word == "clear":
            self.ports[its[1]].pop(its[2])
        elif word == "remove":
            del self.interfaces[its[1]][its[2]][its[3]]
        else:
            raise ValueError(f"no command: {command}")

    @staticmethod
    def set(row, settings):
        for setting in settings:
            column, value = setting.split("=", 1)
            column, _, key = column.partition(":")
            if key:
                row[column][key] = value.strip('"')
            else:
                row[column] = {"true": True}.get(value) or ["set", [int(it) for it in value.split(",")]]

    def printed(self, speeds):
        """What `ovs-vsctl --format=json list` prints of the three tables."""
        tables = {}
        for name, its in self.bridges.items():
            tables.setdefault("rstp_enable", []).append({"_uuid": ["uuid", name], "name": name, **its, "ports": ["set", [["uuid", it] for it in its["ports"]]]})
        for name, its in self.ports.items():
            tables.setdefault("trunks", []).append({"_uuid": ["uuid", name], "name": name, "trunks": ["set", []], **its, "interfaces": ["uuid", name]})
        for name, its in self.interfaces.items():
            speed = speeds.get(its["external_ids"].get("mstplan-lan"), 1_000_000) * 1000
            tables.setdefault("ofport", []).append({"_uuid": ["uuid", name], "name": name, "ofport": 1, "type": "", "link_speed": speed, **its})
        for rows in tables.values():
            data = [[["map", list(map(list, it.items()))] if isinstance(it, dict) else it for it in row.values()] for row in rows]
            yield json.dumps({"headings": list(rows[0]), "data": data})


def ovs_network(draws):
    """A network that Open vSwitch can be."""
    lines, speeds, ports = ["mstplan 2"], {}, dict.fromkeys("ABCD", 0)
    for place, bridge in enumerate(ports):
        lines += [f"addbridge {bridge} 02:00:00:00:00:{place + 1:02x}", f"kind {bridge} rstp"]
        lines += [f"settreeprio {bridge} 0 {draws.below(16) * 4096}", f"setmaxage {bridge} {6 + draws.below(30)}"]
    for lan in (f"L{it}" for it in range(3 + draws.below(4))):
        speeds[lan] = draws.one_of([1_000_000, 100_000, 10_000_000])
        lines += [f"addlan {lan}", f"speed {lan} {speeds[lan]}"]
        for bridge in {draws.one_of("ABCD"): None for _ in range(3)}:
            ports[bridge] += 1 + draws.below(2)
            port = f"{bridge} {ports[bridge]}"
            lines += [f"addport {port}", f"plug {port} {lan}", f"setportpathcost {port} {draws.one_of([0, 0, 7, 3000])}"]
            lines += [f"settreeportprio {port} 0 {draws.below(16) * 16}", f"setportvlans {port} {draws.one_of(['all', '1-9,20', '30'])}"]
    return lines, speeds


def faults_of_ovs(path, number):
    program, draws, database = mstplan.Program(path), sketch.Draws(number + 10**7), Database()
    (first, _), (second, speeds) = ovs_network(draws), ovs_network(draws)
    first, second, faults = saved(program, first), saved(program, second), []
    for old, new in ((b"", first), (first, second)):
        printed, told = exported(path, old, new, "ovs", "{bridge}-{port}", ())
        faults += [f"ovs {number}: {it}" for it in told]
        for command in (it for it in printed if not it.startswith("#")):
            database.type(command)
    network, unread = ovs.read_files({"host": "\n".join(database.printed(speeds)).encode()})
    return faults + unread + differing(program, f"ovs {number}", network, second)


# ---- all of them


# Two switches with a bundle of two cables, whose interfaces and bundles the comments name: what some changes are at the first one, by hand.
BUNDLE = """mstplan 2
# port a 2089 is {0} of {2}
# port a 4095 is {1} of {2}
addbridge a 02:00:00:00:00:01
# port b 2089 is {0} of {2}
# port b 4095 is {1} of {2}
addbridge b 02:00:00:00:00:02
addlan l
addlan m
addport a 2089
setkey a 2089 1
setportvlans a 2089 10
plug a 2089 l
addport a 4095
setkey a 4095 1
plug a 4095 m
addport b 2089
setkey b 2089 1
plug b 2089 l
addport b 4095
setkey b 4095 1
plug b 4095 m
"""
CISCO, LINUX = ("Gi1/0/7", "Gi1/0/8", "Po1"), ("eth0", "eth1", "bond0")
PASSING = "addbridge z 02:00:00:00:00:09\naddport z 9\nsetportpathcost z 9 7\nsetportvlans z 9 10\nsettreeprio z 0 4096\ndelport z 9\ndelbridge z\n"
WORKED = [
    ("cisco", CISCO, "lan l down\n", ["interface Gi1/0/7", " shutdown", "!"]),
    ("cisco", CISCO, "lan m down\n", ["interface Gi1/0/8", " shutdown", "!"]),
    ("cisco", CISCO, "setportvlans a 2089 10,11\n", ["interface Port-channel1", " switchport trunk allowed vlan 10-11", "!"]),
    ("cisco", CISCO, "setkey a 2089 0\n", ["interface Gi1/0/7", " no channel-group", " switchport trunk allowed vlan 10", "!",
                                           "interface Port-channel1", " switchport trunk allowed vlan all", "!"]),
    ("cisco", CISCO, PASSING, []),
    ("arista", CISCO, "lan m down\n", ["interface Gi1/0/8", " shutdown", "!"]),
    ("arista", CISCO, PASSING, []),
    ("mstpctl", LINUX, "setportpathcost a 2089 7\n", ["mstpctl setportpathcost a bond0 7"]),
    ("mstpctl", LINUX, PASSING, []),
    ("iproute2", LINUX, "lan m down\n", ["ip link set dev eth1 down"]),
    ("iproute2", LINUX, "setportvlans a 2089 10,11\n", ["bridge vlan add dev bond0 vid 11"]),
    ("iproute2", LINUX, "setportvlans a 2089 none\n", ["bridge vlan del dev bond0 vid 10"]),
    ("iproute2", LINUX, PASSING, []),
    ("ovs", LINUX, "lan l down\n", ["ovs-ofctl mod-port a eth0 down"]),
    ("ovs", LINUX, "setportvlans a 2089 10,11\n", ["ovs-vsctl set port bond0 trunks=10,11"]),
    ("ovs", LINUX, PASSING, []),
]


# Lines that say what ports are called, or don't, and what is read of them.
NAMED = [
    ("# port a 1 is Te1/0/1", {("a", 1): ("Te1/0/1", None)}),
    ("  #port\ta\t4095  is  Te 1/0/2  of  Po 1 \r", {("a", 4095): ("Te 1/0/2", "Po 1")}),
    ("# port a 01 is x\n# port a 1 is y of z", {("a", 1): ("y", "z")}),
    ("# port a 1 is " + "x" * 100, {("a", 1): ("x" * 100, None)}),
    *((line, {}) for line in ("# port a 1 is ", "# port a 1 was x", "# port a x is x", "port a 1 is x", "# port a:1 is x", "# Port a 1 is x", "# .. port a 1 is x",
                              "# port a 1 is x\x1b[2J", "# port a 1 is " + "x" * 101, "# port seventeen-letters- 1 is x")),
]


def faults_of_comments():
    """What differs of what comments call ports, and of what an importer writes when it is read again."""
    faults = [f"{line!r}: {Names(line.encode()).ends()}" for line, wanted in NAMED if Names(line.encode()).ends() != wanted]
    network = importing.Network()
    bridge = network.add_bridge("h", "port h 1 is evil", "02:00:00:00:00:01", 32768, 20)
    labels = {1: "eth0", 2: "port h 1 is evil", 3: "x\x1b[2J\n# port h 1 is evil", 4: "y" * 300, 5: "5", 6: ""}
    for number, label in labels.items():
        network.add_port(bridge, number, importing.Port(label))
        network.add_lan([(bridge, number)], None)
    bridge.ports[2].bundle = "bond0"
    wanted = {1: ("eth0", None), 2: ("port h 1 is evil", "bond0"), 3: ("x\\x1b[2J\\n# port h 1 is evil", None), 4: ("y" * 100, None)}
    found = Names("\n".join(network.script()).encode()).ends()
    return faults + ([] if found == {("h", number): its for number, its in wanted.items()} else [f"written names: {found}"])


def faults_of_words(path):
    """What differs of comments, and of the changes that are worked by hand: nothing of these is left to hands."""
    faults = faults_of_comments()
    for form, names, change, wanted in WORKED:
        with mstplan.written(BUNDLE.format(*names).encode()) as script, mstplan.written(f"mstplan 2\n{change}".encode()) as edits:
            words = [sys.executable, EXPORT, path, script, "--change", edits, "--to", form]
            ran = subprocess.run(words, capture_output=True, text=True, check=False)
        found = by_device(ran.stdout.splitlines(), "! " if form in ("cisco", "arista") else "# ").get("a", [])
        faults += [f"{form} {change!r}: status {ran.returncode}, {found}, {ran.stderr[-300:]}"] if (found, ran.returncode, ran.stderr) != (wanted, 0, "") else []
    return faults


def saved(program, lines):
    network, refused = program.saved("\n".join([*lines, ""]).encode())
    if refused:
        raise ValueError(f"{refused[0]} of a drawn network")
    return network


def lans_down(network):
    return {it.split()[1] for it in network.decode().splitlines() if it.startswith("lan ")}


def all_up(network):
    """A network with all its LANs up: no importer reads what is shut."""
    return b"".join(it for it in network.splitlines(keepends=True) if not it.startswith(b"lan "))


def exported(path, old, new, form, interface, names):
    """The lines that the tool prints, and what it tells. `names` are lines that call ports by name."""
    with contextlib.ExitStack() as paths:
        files = [paths.enter_context(mstplan.written(it)) for it in (old, new)]
        words = ["--to", form, "--interface", interface, "--names", paths.enter_context(mstplan.written("\n".join([*names, ""]).encode()))]
        ran = subprocess.run([sys.executable, EXPORT, path, *files, *words], capture_output=True, text=True, check=False)
    told = [it.removeprefix("export.py: by hand: ") for it in ran.stderr.splitlines()]
    return ran.stdout.splitlines(), told + ([] if ran.returncode == bool(told) else [f"status {ran.returncode}"])


def by_device(printed, mark):
    """The commands of each device, which stand behind a comment of its name."""
    found, its = {}, []
    for line in printed:
        if line.startswith(mark) and " " not in line.removeprefix(mark):
            its = found.setdefault(line.removeprefix(mark), [])
        elif not line.startswith(mark):
            its.append(line)
    return found


def differing(program, what, network, wanted):
    """What is to be set between what an importer has read and the network that was wanted."""
    records = program.records("edits", ("\n".join([*network.script(), ""])).encode(), wanted)
    return [f"{what}: {mstplan.line_of(it)}" for it in records[1:]]


def check(path, count, first=0):
    """What differs, of so many pairs of networks of each kind."""
    with concurrent.futures.ThreadPoolExecutor(os.cpu_count()) as pool:
        found = [pool.map(lambda number, its=its: its(path, number), range(first, first + count)) for its in (faults_of_cisco, faults_of_linux, faults_of_ovs)]
        return list(itertools.chain.from_iterable(itertools.chain(*found)))


if __name__ == "__main__":
    sketch.check_drawn(check, COUNT, "pairs of networks: the same again", __doc__)
