"""What an edit is as commands of devices, for export.py: what all forms have in common, and those of switches that are typed at a
console (Cisco's IOS and IOS XE, Arista's EOS). They are those of the makers' documents: no switch was at hand."""

import re

from settings import HIGHEST_VID, lists, vids_of

LONGEST_LIST = 180
# Edits of LANs and of bridges, all others being of ports; and those that take something away.
OF_LANS = ("addlan", "dellan", "lan", "speed")
OF_BRIDGES = ("addbridge", "delbridge", "bridge", "kind", "setsyspri", "setmstconfid", "setvid2mstid", "setmaxhops", "setmaxage", "settreeprio")
TAKING = ("delbridge", "delport", "unplug")
# What stands at a port where nothing is set: automatic costs, and all VLANs.
DEFAULTS = {"cost": 0, "port-priority": 128, "vlans": None, "guard": False}
# What an interface and a region may be called, so that no name is a command of its own; and what a bundle of Cisco's is called.
INTERFACE, REGION = re.compile(r"[A-Za-z][A-Za-z-]* ?[0-9][0-9/.:]*"), re.compile(r"[A-Za-z0-9][A-Za-z0-9_.:+/@-]*")
BUNDLE = re.compile(r"po(rt-channel)? ?[0-9]+", re.IGNORECASE)


class Why(Exception):
    """Why an edit has no command."""


class Device:
    """A form of commands. A method of the name of an edit's word puts its commands, by switch and by where in the configuration they
    stand, or raises Why. `before` is the network in front of a step, `now` the one in the midst of it, and `network` that behind it."""
    comment, called = "#", INTERFACE

    def __init__(self, before, now, network, naming):
        self.before, self.now, self.network, self.naming, self.put = before, now, network, naming, {}

    def add(self, bridge, where, *commands):
        """Puts commands behind those that stand there, each once: the last time that it is given counts."""
        its = self.put.setdefault(bridge, {}).setdefault(where, [])
        its[:] = [it for it in its if it not in commands] + list(dict.fromkeys(commands))

    def port(self, bridge, number):
        """A port as it is behind the step, or one that goes."""
        its = self.network.bridges.get(bridge)
        return its and its.ports.get(int(number)) or self.now.bridges[bridge].ports[int(number)]

    def checked(self, name):
        if not self.called.fullmatch(name):
            raise Why(f"{name!r} can't be an interface's name there")
        return name

    def cable(self, bridge, number):
        """What the interface of a port's cable is called."""
        found, _ = self.naming(bridge, int(number))
        if not found:
            raise Why(f"no interface's name is known for {bridge}:{number}; --interface or --names tells it")
        return self.checked(found)

    def bundle(self, bridge, number, key):
        """What the bundle is called that a port is of."""
        raise NotImplementedError

    def at(self, bridge, number):
        """What the settings of a port stand at: its interface, or the bundle that it stands for."""
        key, stands = self.port(bridge, number).key, self.network.stands(bridge, int(number))
        if stands != int(number):
            raise Why(f"{bridge}:{stands} stands for its bundle")
        return self.bundle(bridge, number, key) if key else self.cable(bridge, number)

    @staticmethod
    def spot(network, bridge, number):
        """Where the settings of a port stand in a network, without a name: the port's number or its bundle's key, or None where another
        port stands for that."""
        key = network.bridges[bridge].ports[number].key
        if network.stands(bridge, number) != number:
            return None
        return ("bundle", key) if key else ("port", number)

    def moved(self):
        """The ports that were there, and whose settings come to stand somewhere else, each as (bridge, number)."""
        for name, its in self.network.bridges.items():
            old = self.before.bridges.get(name)
            for number in sorted(its.ports.keys() & old.ports.keys()) if old else ():
                if self.spot(self.network, name, number) not in (None, self.spot(self.before, name, number)):
                    yield name, number

    @staticmethod
    def region_name(name):
        if not REGION.fullmatch(name):
            raise Why("the name has marks that mean something where it is typed")
        return name

    def edit(self, line):
        """Puts the commands of a line. The line isn't made yet. Of what comes and goes within the step there is none."""
        word, *its = line.split()
        method = getattr(self, word, None)
        if word not in OF_LANS and not self.lasts(word, *its[:2]):
            return
        if method is None and word in ("plug", "unplug"):
            raise Why("a cable at this port")
        if method is None:
            raise Why("a cable" if word in ("addlan", "dellan", "speed") else "there is no such command")
        method(*its)

    def lasts(self, word, bridge, number=None):
        """Whether a line is about a bridge or a port that is there behind the step, or takes away what was there before it."""
        networks = (self.network, self.before) if word in TAKING else (self.network,)
        if word in OF_BRIDGES:
            return any(bridge in it.bridges for it in networks)
        return any(bridge in it.bridges and int(number) in it.bridges[bridge].ports for it in networks)

    def trees_of(self, its):
        """The trees of a bridge that something can be set of."""
        return its.trees()

    def trees_that_come(self):
        """What a bridge comes to have, as (its name, itself, the tree)."""
        for name, its in self.network.bridges.items():
            old = self.before.bridges.get(name)
            for tree in sorted(self.trees_of(its) - self.trees_of(old)) if old else ():
                yield name, its, tree

    def finish(self):
        """Puts what a step brings about that none of its lines says: what was set of a tree before a bridge came to have it, and of a port
        whose settings come to stand somewhere else. Lines of what has no command are returned."""
        lines = [line for name, its, tree in self.trees_that_come() for line in (*lines_of_tree(name, its, tree), *lines_of_ports(name, its, tree))]
        for name, number in self.moved():
            lines += lines_of_port(name, number, self.network.bridges[name])
        return [it for it in map(self.tried, dict.fromkeys(lines)) if it]

    def tried(self, line):
        """Why a line has no command, with the line; None where it has."""
        try:
            self.edit(line)
        except Why as why:
            return f"{line}: {why}"
        return None


def lines_of_tree(name, its, tree):
    """The edits that set what stands of a tree at a bridge itself."""
    if tree in its.priorities:
        yield f"settreeprio {name} {tree} {its.priorities[tree]}"


def lines_of_ports(name, its, tree):
    """The edits that set what stands of a tree at the ports of a bridge."""
    for number, port in sorted(its.ports.items()):
        if tree and port.internal.get(tree):
            yield f"settreeportcost {name} {number} {tree} {port.internal[tree]}"
        if tree in port.priorities:
            yield f"settreeportprio {name} {number} {tree} {port.priorities[tree]}"


def lines_of_port(name, number, its):
    """The edits that set what stands at a port, but for its VLANs: costs, priorities, and whether its role is restricted."""
    port = its.ports[number]
    if port.external:
        yield f"setportpathcost {name} {number} {port.external}"
    for tree in sorted(its.trees()):
        if port.internal.get(tree):
            yield f"settreeportcost {name} {number} {tree} {port.internal[tree]}"
        if tree in port.priorities:
            yield f"settreeportprio {name} {number} {tree} {port.priorities[tree]}"
    if port.is_restricted:
        yield f"setportrestrrole {name} {number} yes"


class Cisco(Device):
    """IOS and IOS XE with MST. What is set of a port is put in the end, by what stood at its interface before and what is to stand there."""
    comment, max_age, max_hops, highest_key, mode = "!", "spanning-tree mst max-age", "spanning-tree mst max-hops", 128, "mst"

    def __init__(self, *its):
        super().__init__(*its)
        # the ports of which it is told that their settings have no place, and those whose interfaces are set back
        self.told, self.reset = set(), set()

    def trees_of(self, its):
        return its.trees() if its.kind == "mstp" else set()

    def of_tree(self, bridge, tree):
        its = self.network.bridges[bridge]
        if its.kind != "mstp":
            raise Why("of a switch of kind rstp: it has no MST")
        if int(tree) not in self.instances(bridge):
            raise Why(f"{bridge} has no instance {tree}, so nothing is set yet")

    def instances(self, bridge):
        """The trees of which something is set at a switch: those that it has behind the step, and those that it had before."""
        return {tree for it in (self.before, self.network) if bridge in it.bridges for tree in self.trees_of(it.bridges[bridge])}

    def bundle(self, bridge, number, key):
        own, _ = self.naming(bridge, int(number))
        if own and BUNDLE.fullmatch(own):
            return own
        if key > self.highest_key:
            raise Why(f"bundles have the numbers 1 to {self.highest_key}")
        return f"Port-channel{key}"

    def cable_of_bundle(self, bridge, number):
        """The interface of a port's cable, which isn't the whole bundle."""
        name = self.cable(bridge, number)
        if BUNDLE.fullmatch(name):
            raise Why(f"no interface's name is known for this cable of {name}; --names tells it")
        return name

    def section(self, bridge, number):
        """The part of the configuration that a port's settings stand in, which begins with the first line about it."""
        try:
            where = f"interface {self.at(bridge, number)}"
        except Why:
            self.told.add((bridge, int(number)))
            raise
        self.add(bridge, where)
        return where

    def addbridge(self, bridge, mac):
        self.add(bridge, "", f"hostname {bridge}", f"spanning-tree mode {self.mode}")
        if self.network.bridges[bridge].configuration == ("0", mac):
            self.setmstconfid(bridge, "0", mac)
        raise Why(f"a new switch: its MAC address is to be {mac}, which can't be set")

    def kind(self, bridge, kind):
        if kind != "mstp":
            raise Why("it has no RSTP with one tree (rapid-pvst has a tree for each VLAN)")
        self.add(bridge, "", f"spanning-tree mode {self.mode}")

    def setmstconfid(self, bridge, revision, name):
        self.add(bridge, "spanning-tree mst configuration", f"name {self.region_name(name)}", f"revision {revision}")

    def setvid2mstid(self, bridge, tree, vids):
        vids, table = vids_of(vids), self.now.bridges[bridge].table
        # what goes to tree 0 is taken out of the instances that have it
        sets = {int(tree): vids} if int(tree) else {old: {vid for vid in vids if table.get(vid) == old} for old in sorted(set(table.values()))}
        for its, some in sets.items():
            word = "" if int(tree) else "no "
            self.add(bridge, "spanning-tree mst configuration", *(f"{word}instance {its} vlan {it}" for it in lists(some, LONGEST_LIST) if it))

    def setmaxhops(self, bridge, limit):
        self.add(bridge, "", f"{self.max_hops} {limit}")

    def setmaxage(self, bridge, limit):
        self.add(bridge, "", f"{self.max_age} {limit}")

    def setsyspri(self, bridge, priority):
        self.add(bridge, "", f"lacp system-priority {priority}")

    def settreeprio(self, bridge, tree, priority):
        self.of_tree(bridge, tree)
        self.add(bridge, "", f"spanning-tree mst {tree} priority {priority}")

    def addport(self, bridge, number):
        self.add(bridge, f"interface {self.cable(bridge, number)}", "switchport mode trunk")

    def delport(self, bridge, number):
        self.add(bridge, "", f"default interface {self.cable(bridge, number)}")
        self.reset.add((bridge, int(number)))

    def setkey(self, bridge, number, key):
        where, old = f"interface {self.cable_of_bundle(bridge, number)}", self.now.bridges[bridge].ports[int(number)].key
        if int(key) > self.highest_key:
            raise Why(f"bundles have the numbers 1 to {self.highest_key}")
        self.add(bridge, where, *["no channel-group"] * bool(old), *[f"channel-group {key} mode active"] * bool(int(key)))
        if int(key):
            self.add(bridge, f"interface Port-channel{key}", "switchport mode trunk")

    def cost(self, bridge, number, tree, which):
        self.of_tree(bridge, tree)
        counts = "internal" if int(tree) else self.network.counting(bridge, int(number))[0]
        if counts != which:
            told = f"the {counts} one counts there" if counts else f"{bridge}:{number} leads to no switch, or into its region and another one"
            raise Why(f"it has one cost in instance 0, and {told}")
        self.section(bridge, number)

    def setportpathcost(self, bridge, number, _):
        self.cost(bridge, number, 0, "external")

    def settreeportcost(self, bridge, number, tree, _):
        self.cost(bridge, number, tree, "internal")

    def settreeportprio(self, bridge, number, tree, _):
        self.of_tree(bridge, tree)
        self.section(bridge, number)

    def setportrestrrole(self, bridge, number, _):
        self.section(bridge, number)

    def setportvlans(self, bridge, number, _):
        self.section(bridge, number)

    def lan(self, lan, state):
        for bridge, number in self.network.plugs(lan):
            is_alone = not self.port(bridge, number).key
            name = self.cable(bridge, number) if is_alone else self.cable_of_bundle(bridge, number)
            self.add(bridge, f"interface {name}", "shutdown" if state == "down" else "no shutdown")

    def finish(self):
        """Puts, for all ports, what differs of their settings from what stood where they come to stand. That is so where a line sets them;
        where an interface comes into a bundle or leaves it, or another port stands for the bundle; of a tree that the bridge comes to have; and
        where another cost in instance 0 counts, since regions or cables are others."""
        lines = [line for name, its, tree in self.trees_that_come() for line in lines_of_tree(name, its, tree)]
        left, old = [it for it in map(self.tried, lines) if it], self.standing(self.before)
        for (name, spot), (number, wanted) in self.standing(self.network).items():
            stood = [old[it][1] if it in old else {} for it in self.earlier(name, spot, number)]
            left += self.settled(name, number, wanted, stood or [{}])
        return left

    def earlier(self, bridge, spot, number):
        """Where what may stand at a port's spot has stood before a step, each as in `standing`: there, since a bundle has had it or an
        interface begins with it, and where the port's own settings were. There is none where the switch or the interface is a new one."""
        its, was = self.network.bridges[bridge], self.before.bridges.get(bridge)
        is_reset = (bridge, number) in self.reset
        if was is None or was.mac != its.mac or is_reset and spot == ("port", number):
            return []
        spots = [spot] + [self.spot(self.before, bridge, self.before.stands(bridge, number))] * (number in was.ports and not is_reset)
        return [(bridge, it) for it in dict.fromkeys(spots)]

    def standing(self, network):
        """What stands at the interfaces of a network, or is to stand there, by switch and spot: the port that says it, and its settings."""
        found = {}
        for name, its in network.bridges.items():
            trees = self.instances(name) if network is self.network else self.trees_of(its)
            for number in sorted(its.ports):
                spot = self.spot(network, name, number)
                if spot:
                    found[name, spot] = number, self.settings(network, name, number, trees)
        return found

    @staticmethod
    def settings(network, bridge, number, trees):
        """What stands at a port, by what it sets: `cost` and `port-priority` with the tree behind them, `vlans` and `guard`."""
        port, found = network.bridges[bridge].ports[number], {}
        for tree in sorted(trees):
            cost = port.internal.get(tree, 0) if tree else network.counting(bridge, number)[1]
            found |= {("cost", tree): cost} if cost is not None else {}
            found["port-priority", tree] = port.priorities.get(tree, DEFAULTS["port-priority"])
        return found | {("vlans", None): port.vids, ("guard", None): port.is_restricted}

    def settled(self, bridge, number, wanted, stood):
        """Puts what is wanted at a port, where any of what may stand there is something else; a line where that has no place is returned."""
        commands = []
        for what, value in wanted.items():
            olds = [it.get(what, DEFAULTS[what[0]]) for it in stood]
            commands += self.commands(*what, value, olds) if any(it != value for it in olds) else []
        if not commands or (bridge, number) in self.told:
            return []
        try:
            self.add(bridge, self.section(bridge, number), *commands)
        except Why as why:
            return [f"{bridge}:{number} is to have {'; '.join(commands)}: {why}"]
        return []

    @staticmethod
    def commands(word, tree, value, olds):
        """The commands that set something of a port, where one of these stood."""
        if word == "vlans":
            return vlan_commands(value, olds)
        if word == "guard":
            return [f"spanning-tree guard {'root' if value else 'none'}"]
        return [f"no spanning-tree mst {tree} cost" if word == "cost" and not value else f"spanning-tree mst {tree} {word} {value}"]

    def lines(self):
        """All commands, by switch: those of the whole switch first, then the region, then interfaces."""
        for bridge, its in self.put.items():
            sections = {where: commands for where, commands in its.items() if commands}
            yield from [f"! {bridge}"] * bool(sections)
            for where, commands in sorted(sections.items(), key=lambda it: (it[0] != "", not it[0].startswith("spanning-tree"))):
                yield from [where] * bool(where)
                yield from (" " * bool(where) + it for it in commands)
                yield from [" exit" if where.startswith("spanning-tree") else "!"] * bool(where)


def vlan_commands(vids, olds):
    """The commands that set a trunk's VLANs (None for all), where one of these stood. A list that is one line takes the place of what stands,
    at once; of a longer one what differs is added and removed, so that no VLAN that stays is out in between."""
    word, whole = "switchport trunk allowed vlan", lists(vids or (), LONGEST_LIST)
    if not vids:
        return [f"{word} {'none' if vids is not None else 'all'}"]
    if len(whole) == 1 or any(it != olds[0] for it in olds):
        return [f"{word} {'add ' * bool(at)}{it}" for at, it in enumerate(whole)]
    old = set(range(1, HIGHEST_VID + 1)) if olds[0] is None else olds[0]
    parts = ("add", lists(vids - old, LONGEST_LIST)), ("remove", lists(old - vids, LONGEST_LIST))
    return [f"{word} {how} {it}" for how, its in parts for it in its if it]


class Arista(Cisco):
    """EOS: as IOS, but with a mode for RSTP, and other words for limits."""
    max_age, max_hops, highest_key, mode = "spanning-tree max-age", "spanning-tree max-hops", 2000, "mstp"

    def kind(self, bridge, kind):
        self.add(bridge, "", f"spanning-tree mode {kind}")

    def settreeprio(self, bridge, tree, priority):
        if self.network.bridges[bridge].kind == "rstp" and not int(tree):
            self.add(bridge, "", f"spanning-tree priority {priority}")
        else:
            super().settreeprio(bridge, tree, priority)
