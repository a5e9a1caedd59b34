"""Cables and switches as tables tell of them, for links.py: what words and cells say, what is gathered, and the network of it."""

import collections
import re
from dataclasses import dataclass, field

from network import (
    DEFAULT_MAX_AGE, DEFAULT_PRIORITY, HIGHEST_PORT, HIGHEST_SPEED, MOST_BRIDGES, MOST_LANS, MOST_PORTS, Network, Port, Region, short, vids_of,
)

DIGITS = re.compile("[0-9]{1,15}")
SPEED = re.compile(r"([0-9]{1,9})(?:[.,]([0-9]{1,9}))? ?([kmgt])(b|bit|bits|bps|b/s|bit/s|bits/s|be|e|ige)?", re.IGNORECASE)
UNITS = {"k": 1, "m": 1_000, "g": 1_000_000, "t": 1_000_000_000}
REGION = re.compile("[!-~]{1,32}")
MACS = re.compile("[0-9a-f]{12}|[0-9a-f]{4}([.:-][0-9a-f]{4}){2}|[0-9a-f]{2}([:-][0-9a-f]{2}){5}")


class Unread(Exception):
    """A line that can't be read, and why."""


# ---- what words say


def whole(word, what, low, high):
    """A number in a range. Raises Unread for any other word."""
    if not DIGITS.fullmatch(word) or not low <= int(word) <= high:
        raise Unread(f"{word} is no {what}, {low} to {high}")
    return int(word)


def vids(word):
    """The VIDs of a list, and None for all."""
    if word.lower() in ("all", "none"):
        return None if word.lower() == "all" else set()
    try:
        return vids_of(word)
    except ValueError as why:
        raise Unread(str(why)) from None


def speed(word):
    """A speed in kb/s. A number without a unit is none: it may be kb/s, Mb/s or Gb/s."""
    if DIGITS.fullmatch(word):
        raise Unread(f"{word} is a speed without a unit, which may be kb/s, Mb/s or Gb/s: write {word}k, {word}M or {word}G")
    found = SPEED.fullmatch(word)
    if not found:
        raise Unread(f"{word} is no speed, as 10G, 2.5G, 100M or 64k")
    part = found[2] or ""
    value = int(found[1] + part) * UNITS[found[3].lower()] / 10 ** len(part)
    if value != int(value) or not 1 <= value <= HIGHEST_SPEED:
        raise Unread(f"{word} is no speed of 1 to {HIGHEST_SPEED} whole kb/s")
    return int(value)


def priority(word):
    """The priority of a bridge in a tree."""
    its = whole(word, "priority of a switch: a multiple of 4096 from", 0, 61440)
    if its % 4096:
        raise Unread(f"{word} is no priority of a switch: a multiple of 4096 from 0 to 61440; {its // 4096 * 4096} is the next below")
    return its


def mac(word):
    """A MAC address in any of the forms that devices print: 00:1b:21:aa:00:01, 00-1B-21-AA-00-01, 001b.21aa.0001, 001b21aa0001."""
    if not MACS.fullmatch(word.lower()):
        raise Unread(f"{word} is no MAC address")
    digits = re.sub("[^0-9a-f]", "", word.lower())
    return ":".join(digits[at:at + 2] for at in range(0, 12, 2))


def port_of(word):
    """A port by its number, or by the name of its interface."""
    return str(whole(word, "port's number", 1, HIGHEST_PORT)) if word.isdecimal() else word


# ---- what is gathered


@dataclass
class End:
    """An end of a cable: its switch, the number of its port as a text or the name of its interface, the aggregation key, None where none is
    told, and what the bundle is called, if it is called something."""
    switch: str
    port: str
    key: int | None = None
    bundle: str | None = None

    @property
    def place(self):
        """The port, however its interface's name is written."""
        return self.switch, short(self.port).lower()

    def __str__(self):
        return f"{self.switch}:{self.port}"


@dataclass
class Link:
    """A LAN, its name or None, its ends, its speed in kb/s or None, whether VLANs are told, and these, None for all."""
    lan: str | None
    ends: list[End]
    speed: int | None = None
    has_vlans: bool = False
    vlans: set[int] | None = None


@dataclass
class Switch:
    """What is told of a switch itself: its MAC address and the name of its region, each None where it isn't told, its priorities by tree, and
    where that stands, and the text there."""
    mac: str | None = None
    region: str | None = None
    priorities: dict[int, int] = field(default_factory=dict)
    where: str = ""
    line: str = ""


class Tables:
    """The links, switches and regions of tables, the lines that can't be read, and what else is to be told."""

    def __init__(self):
        self.links, self.switches, self.regions, self.unread, self.told = [], {}, {}, [], []
        # LANs by their names, each port's link, how many ports each switch has, the MAC addresses, and all switches in the order in which they come
        self.lans, self.plugged, self.counts, self.macs, self.bridges = set(), {}, collections.Counter(), set(), {}

    def refuse(self, where, why, line):
        self.unread.append(f"{where}: {why}: {line}")

    def add_region(self, its):
        if its.name in self.regions:
            raise Unread(f"the region {its.name} stands twice")
        self.regions[its.name] = its

    def add_switch(self, name, its):
        if name in self.switches:
            raise Unread(f"the switch {name} has two lines")
        if its.mac in self.macs:
            raise Unread(f"the MAC address {its.mac} stands twice")
        self.hold([name])
        self.macs |= {its.mac} - {None}
        self.switches[name] = its

    def add_link(self, its):
        if its.lan is not None and its.lan in self.lans:
            raise Unread(f"the LAN {its.lan} stands twice")
        places = [end.place for end in its.ends]
        twice = next((end for at, end in enumerate(its.ends) if end.place in self.plugged or end.place in places[:at]), None)
        if twice:
            raise Unread(f"the port {twice} stands twice")
        if len(self.links) == MOST_LANS or len(self.plugged) + len(its.ends) > MOST_PORTS:
            raise Unread(f"the planner has at most {MOST_LANS} LANs and {MOST_PORTS} ports")
        more = collections.Counter(end.switch for end in its.ends)
        if any(self.counts[switch] + count > HIGHEST_PORT for switch, count in more.items()):
            raise Unread(f"a switch has at most {HIGHEST_PORT} ports")
        self.hold([end.switch for end in its.ends])
        self.lans |= {its.lan} - {None}
        self.counts += more
        self.plugged |= dict.fromkeys(places, its)
        self.links.append(its)

    def hold(self, names):
        """Counts these switches among those of the tables."""
        others = dict.fromkeys(it for it in names if it not in self.bridges)
        if len(self.bridges) + len(others) > MOST_BRIDGES:
            raise Unread(f"the planner has at most {MOST_BRIDGES} switches")
        self.bridges |= others

    def close(self):
        """Looks whether each region that a switch names has a line."""
        for its in self.switches.values():
            if its.region is not None and its.region not in self.regions:
                self.refuse(its.where, f"no line has the region {its.region}", its.line)
                its.region = None

    # ---- the network

    def network(self):
        """The network that the tables tell of, with what is assumed."""
        network, bridges, ports = Network(), {}, {}
        macs = (f"02:00:00:00:{count // 256:02x}:{count % 256:02x}" for count in range(1, 2 * MOST_BRIDGES + 1))
        free = (it for it in macs if it not in self.macs)
        ends = {}
        for end in (end for it in self.links for end in it.ends):
            ends.setdefault(end.switch, []).append(end)
        # those of links come first
        for name in dict.fromkeys([*ends, *self.switches]):
            its = self.switches.get(name, Switch())
            address = its.mac or next(free)
            bridge = bridges[name] = network.add_bridge(name, name, address, its.priorities.get(0, DEFAULT_PRIORITY), DEFAULT_MAX_AGE)
            bridge.region = self.regions[its.region] if its.region is not None else Region(address)
            bridge.priorities = {tree: it for tree, it in its.priorities.items() if tree}
            ports |= {end.place: (bridge, number) for end, number in zip(ends.get(name, ()), numbers_of(ends.get(name, ())))}
        for it in self.links:
            for end in it.ends:
                network.add_port(*ports[end.place], Port(end.port, vlans=it.vlans, key=end.key or 0, bundle=end.bundle))
        for it in self.links:
            network.add_lan([ports[end.place] for end in it.ends], it.speed, it.lan)
        for line in (*self.told, *(self.assumed() if bridges else ())):
            network.tell(line)
        return network

    def assumed(self):
        """Lines of what the tables don't tell."""
        its = [self.switches.get(it, Switch()) for it in self.bridges]
        which = ["priorities"] if any(0 not in it.priorities for it in its) else []
        which += ["regions"] if any(it.region is None for it in its) else []
        which += ["VLANs"] if any(not it.has_vlans for it in self.links) else []
        macs = ["MAC addresses, and so who is root where priorities are equal"] if any(it.mac is None for it in its) else []
        if macs or which:
            yield f"assumed: {'; '.join([*macs, *[', '.join(which)] * bool(which)])}"
        if any(it.speed is None for it in self.links):
            yield "assumed: speeds of LANs without one"


def numbers_of(ends):
    """The number of each of a switch's ports: its own; or of an interface the last number in its name, where no port before it has that; or
    else the next one above all of these that is free."""
    found = [int(it.port) if it.port.isdecimal() else None for it in ends]
    taken = set(found)
    for at, it in enumerate(ends):
        last = (re.findall("[0-9]{1,5}", it.port) or ["0"])[-1]
        if found[at] is None and 1 <= int(last) <= HIGHEST_PORT and int(last) not in taken:
            found[at] = int(last)
            taken.add(found[at])
    above = max((it for it in found if it), default=0)
    free = (it for it in [*range(above + 1, HIGHEST_PORT + 1), *range(1, above)] if it not in taken)
    return [next(free) if it is None else it for it in found]
