"""A network as an importer reads it from devices: the script of it, what couldn't be told, and whether a plan fits what the
devices say of themselves. The importers of this folder share it.

What devices say may be a stranger's: neither LLDP nor CDP is authenticated. So all that is printed goes out by `put` and `warn`,
which escape what isn't printable; a device's word stands in a script's command only as a name that `Network.name` has made; and of
two interfaces one's word alone doesn't join them where the other says otherwise (`agreed`).
"""

import collections
import errno
import functools
import itertools
import json
import os
import re
import sys
import textwrap
from dataclasses import dataclass, field

sys.path.append(os.path.join(os.path.dirname(os.path.abspath(__file__)), os.pardir))

from interfaces import line_of  # noqa: E402

DEFAULT_SPEED = 1_000_000
DEFAULT_PRIORITY, DEFAULT_PORT_PRIORITY, DEFAULT_MAX_AGE, DEFAULT_MAX_HOPS = 32768, 128, 20, 20
LONGEST_NAME, LONGEST_END, LONGEST_LIST, HIGHEST_COST, HIGHEST_SPEED = 16, 10, 4000, 200_000_000, 9_999_999_999
HIGHEST_PORT, HIGHEST_KEY, HIGHEST_VID = 4095, 65535, 4094
MOST_BRIDGES, MOST_LANS, MOST_PORTS, MOST_TREES = 1024, 8192, 16384, 64
MAC = re.compile(r"[0-9a-f]{2}(:[0-9a-f]{2}){5}")
# What the texts call an interface in full, and in short.
SHORT = {
    "tengigabitethernet": "Te", "gigabitethernet": "Gi", "fastethernet": "Fa", "twogigabitethernet": "Tw", "twentyfivegige": "Twe",
    "twentyfivegigabitethernet": "Twe", "fivegigabitethernet": "Fi", "fortygigabitethernet": "Fo", "hundredgige": "Hu",
    "hundredgigabitethernet": "Hu", "port-channel": "Po", "ethernet": "Eth",
}
INTERFACE = re.compile(r"([A-Za-z-]+) ?([0-9][0-9/.:]*)")
NOT_IN_NAMES = re.compile(r"[^A-Za-z0-9_.-]")
# How many of what many have in common are named.
MOST_NAMED = 4
STATUS_UNREAD, STATUS_WORDS, STATUS_FAULT, STATUS_INTERRUPTED = 1, 2, 3, 130
NOTHING_READ = "no bridge is read: the network is empty"


def printable(text):
    """A text on one line: ends of lines, control characters and whatever else isn't printable are escaped as Python does it."""
    if text.isprintable():
        return text
    return "".join(it if it.isprintable() else it.encode("unicode_escape").decode("ascii") for it in text)


def put(line):
    """Prints a line. With `warn`, it is the only way out for what devices, files and words say."""
    if sys.stdout is None:
        raise OSError(errno.EBADF, os.strerror(errno.EBADF))
    write_line(line, sys.stdout)


def warn(line):
    """Prints a line to standard error, if there is one."""
    if sys.stderr is not None:
        write_line(line, sys.stderr)


def write_line(line, stream):
    encoding = getattr(stream, "encoding", None) or "utf-8"
    stream.write(printable(line).encode(encoding, "backslashreplace").decode(encoding) + "\n")


def called(page, least, most=None):
    """The words that an importer is called with, `least` or more and at most `most`. `--help` prints its page and ends with 0;
    a wrong number of words prints its usage on standard error and ends with 2."""
    words = sys.argv[1:]
    if any(it in ("--help", "-h") for it in words):
        for line in page.strip().splitlines():
            put(line)
        sys.stdout.flush()
        sys.exit(0)
    if not least <= len(words) <= (len(words) if most is None else most):
        usage = [line for line in page.splitlines() if line.startswith("usage:")]
        warn(f"{usage[0]}    (--help tells more)")
        sys.exit(STATUS_WORDS)
    return words


def guarded(main):
    """Runs an importer's main function. A fault of standard output ends it with 3: quietly where nobody reads any more. Where it is
    interrupted it ends with 130, as a shell has it."""
    try:
        main()
        sys.stdout.flush()
    except OSError as why:
        if not isinstance(why, BrokenPipeError):
            warn(f"standard output can't be written: {why.strerror}")
        if sys.stdout is not None:
            # what is left in the buffer has nowhere to go
            os.dup2(os.open(os.devnull, os.O_WRONLY), sys.stdout.fileno())
        sys.exit(STATUS_FAULT)
    except KeyboardInterrupt:
        sys.exit(STATUS_INTERRUPTED)


def contents(path):
    """The bytes of a file, `-` being standard input. Raises OSError where it can't be read."""
    if path == "-" and sys.stdin is None:
        raise OSError(errno.EBADF, os.strerror(errno.EBADF))
    if path == "-":
        return sys.stdin.buffer.read()
    with open(path, "rb") as file:
        return file.read()


def files_of(folder, endings):
    """The bytes of each file of a folder that has one of these endings, by name, and lines of those that can't be read."""
    found, unread = {}, []
    try:
        names = sorted(it for it in os.listdir(folder) if it.endswith(endings))
    except OSError as why:
        warn(f"{folder} is no folder that can be read: {why.strerror}")
        sys.exit(STATUS_FAULT)
    for name in names:
        try:
            found[name] = contents(os.path.join(folder, name))
        except OSError as why:
            unread.append(f"{name} can't be read: {why.strerror}")
    return found, unread


def decoded(data, where, tell):
    """The text of bytes. Those that aren't UTF-8 are replaced, and that is told."""
    try:
        return data.decode("utf-8-sig")
    except UnicodeDecodeError:
        tell(f"{where} has bytes that aren't UTF-8: they are replaced")
        return data.decode("utf-8-sig", "replace")


def parsed(text):
    """What a text's JSON says. Control characters may stand in its texts, for not every tool escapes them. Raises ValueError where
    it is no JSON, or has more levels than can be read."""
    try:
        return json.loads(text, strict=False)
    except RecursionError:
        raise ValueError("it has too many levels") from None


@dataclass
class Port:
    """A bridge's port by what its device calls its interface, and the bundle that this is of, if it is of one. A cost of None is the
    automatic one, `vlans` is a set of VIDs or None for all, and a key of 0 stands for none. By MSTI, `priorities` and `costs` are
    those that are set. By tree, `says` is what the device says: the role and whether the port forwards, each None where it doesn't."""
    label: str
    priority: int = DEFAULT_PORT_PRIORITY
    cost: int | None = None
    restricted: bool = False
    vlans: set[int] | None = None
    lan: str | None = None
    key: int = 0
    priorities: dict[int, int] = field(default_factory=dict)
    costs: dict[int, int] = field(default_factory=dict)
    says: dict[int, tuple[str | None, bool | None]] = field(default_factory=dict)
    bundle: str | None = None

    @property
    def named(self):
        """What comments call it: the interface, and the bundle behind it."""
        return f"{self.label} of {self.bundle}" if self.bundle else self.label


@dataclass
class Region:
    """An MST configuration: its name, its revision, and the VIDs of each MSTI."""
    name: str
    revision: int = 0
    table: dict[int, set[int]] = field(default_factory=dict)


@dataclass
class Bridge:
    """A bridge, of kind rstp where it has no region. `root` and `root_cost` are what the device says, None where it doesn't;
    `priorities` are those that are set, by MSTI."""
    name: str
    label: str
    mac: str
    priority: int = DEFAULT_PRIORITY
    max_age: int = DEFAULT_MAX_AGE
    on: bool = True
    ports: dict[int, Port] = field(default_factory=dict)
    root: str | None = None
    root_cost: int | None = None
    region: Region | None = None
    max_hops: int = DEFAULT_MAX_HOPS
    priorities: dict[int, int] = field(default_factory=dict)


@dataclass
class Lan:
    """A LAN, its speed in kb/s or None where nothing says it, and its ports as (bridge, number)."""
    name: str
    speed: int | None
    ends: list[tuple[Bridge, int]]


class Joined:
    """Things that are joined: all that are joined to each other have one end."""

    def __init__(self):
        self.next = {}

    def end(self, it):
        while it in self.next:
            on = self.next[it]
            self.next[it] = self.next.get(on, on)
            it = on
        return it

    def join(self, one, other):
        one, other = self.end(one), self.end(other)
        if one != other:
            self.next[other] = one


def agreed(pairs, network):
    """Those of the pairs that are believed, each an interface that hears of another one, both as (host, interface). Where only one
    hears of the other, the network tells that; and where the other and a third one hear of each other, it is left out besides."""
    both, found = {one for one, other in pairs if (other, one) in pairs}, []
    for one, other in pairs:
        where = "{} {} hears of {} {}".format(*one, *other)
        if (other, one) in pairs:
            found.append((one, other))
        elif other in both:
            network.lose(f"{where}, which hears of another one, and that of it: this is left out")
        else:
            network.tell(f"{where}, and not the other way round")
            found.append((one, other))
    return found


def automatic(speed):
    """The automatic path cost in a LAN of this speed."""
    return max(1, min(HIGHEST_COST, 20_000_000_000 // (speed or DEFAULT_SPEED)))


def identifier(priority, mac):
    return f"{priority:04x}.{mac}"


def longest_runs(vids):
    """The VIDs of these numbers as their longest runs, rising: each its first and its last."""
    found = []
    for vid in sorted(it for it in vids if 1 <= it <= HIGHEST_VID):
        if found and found[-1][1] == vid - 1:
            found[-1][1] = vid
        else:
            found.append([vid, vid])
    return found


def runs(vids):
    """A list of VIDs in its longest runs."""
    return ",".join(f"{first}-{last}" if first < last else str(first) for first, last in longest_runs(vids)) or "none"


def vid_lists(vids):
    """Lists of VIDs, each short enough for a line, that together have these."""
    lists = textwrap.wrap(runs(vids).replace(",", " "), LONGEST_LIST, break_on_hyphens=False) if vids else []
    return [it.replace(" ", ",") for it in lists]


def vids_of(text):
    """The VIDs of a list like 10,20-29. Raises ValueError where it is none."""
    found = set()
    for item in text.split(","):
        first, dash, last = item.partition("-")
        if not all(re.fullmatch("[0-9]{1,4}", it) for it in ((first, last) if dash else (first,))):
            raise ValueError(f"{text} is no list of VIDs")
        low, high = int(first), int(last or first)
        if not 1 <= low <= high <= HIGHEST_VID:
            raise ValueError(f"{item} is no VID, or no two with the first one not greater")
        found.update(range(low, high + 1))
    return found


def comment(word, text):
    """A comment's lines, each short enough for the language, whatever the devices' words have in them: none says what a port is called. A
    word with hyphens isn't broken."""
    return textwrap.wrap(printable(text), 120, initial_indent=f"# {word} ", subsequent_indent="# .. ", break_on_hyphens=False)


def short(interface):
    """An interface's name in short: TenGigabitEthernet1/0/1 is Te1/0/1."""
    found = INTERFACE.fullmatch(interface)
    return SHORT.get(found[1].lower(), found[1]) + found[2] if found else interface


def listed(places):
    """A few of these places, and how many more there are."""
    its = list(dict.fromkeys(places))
    return ", ".join(its[:MOST_NAMED]) + (f" and {len(its) - MOST_NAMED} more" if len(its) > MOST_NAMED else "")


@functools.lru_cache
def forms(name):
    """A name, and what may stand for it, each form shorter than the one before: without a letter of its longest run of letters while
    one has two, and without the marks between; last come the ends of what is left."""
    found = [name]
    while runs := list(re.finditer("[A-Za-z]{2,}", found[-1])):
        end = max(runs, key=lambda it: len(it[0])).end()
        found.append(found[-1][:end - 1] + found[-1][end:])
    while mark := re.search("[_.-]", found[-1]):
        found.append(found[-1][:mark.start()] + found[-1][mark.end():])
    return found + [found[-1][at:] for at in range(1, len(found[-1]))]


@functools.lru_cache
def distinct(names):
    """Of each of these names its forms that no other one has."""
    counts = collections.Counter(it for name in set(names) for it in forms(name))
    return {name: [it for it in forms(name) if it == name or counts[it] == 1] for name in names}


def shortened(parts, most):
    """Forms with - between, one of each list, that have so many letters at most: the longest is shortened first. None where there are none."""
    places = [0] * len(parts)
    while len("-".join(its[at] for its, at in zip(parts, places))) > most:
        longest = max((it for it in range(len(parts)) if places[it] + 1 < len(parts[it])), key=lambda it: len(parts[it][places[it]]), default=None)
        if longest is None:
            return None
        places[longest] += 1
    return "-".join(its[at] for its, at in zip(parts, places))


def where_of(ends):
    """These ports, each as (bridge, number), as a line names them."""
    return " and ".join(f"{bridge.label} {bridge.ports[number].named}" for bridge, number in ends)


class Network:
    """The bridges and LANs, and what is to be told of them, each line once: first what is left out."""

    def __init__(self):
        self.bridges, self.lans, self.lines, self.lost = [], [], {}, {}
        # the bridge with a MAC address; of bridges and LANs the names, each with how often it was wanted
        self.macs, self.names = {}, {"bridge": {}, "LAN": {}}

    def tell(self, text):
        """Something that couldn't be told from what was read, or was assumed."""
        self.lines[text] = None

    def lose(self, text):
        """Something that was read, and leaves a bridge, a port or a link out of the network."""
        self.lost[text] = None

    @property
    def told(self):
        return [*self.lost, *self.lines]

    def name(self, kind, wanted, last=""):
        """A name that the language takes and no other bridge or LAN has, as near as may be to the wanted one with `last` behind
        it: that stays where the name is cut, and the number that a second one of a name gets stands before it."""
        plain, last = (NOT_IN_NAMES.sub("-", it) for it in (wanted, last[:LONGEST_END]))
        plain, names = plain.lstrip("_.-") or kind, self.names[kind]
        first = name = plain[:LONGEST_NAME - len(last)] + last
        while name in names:
            names[first] += 1
            mark = f".{names[first]}"
            name = plain[:max(1, LONGEST_NAME - len(mark) - len(last))] + mark + last
        names[name] = 1
        return name

    def fit(self, where, what, value, low, high, step=1):
        """The value that the language takes and that is nearest below this one, or the least."""
        near = max(low, min(high, value // step * step))
        if near != value:
            why = f"is no multiple of {step}" if step > 1 and low <= value <= high else f"isn't from {low} to {high}"
            self.tell(f"{where} has {what} {value}, which {why}: {near} stands for it")
        return near

    def add_bridge(self, wanted, label, mac, priority, max_age, last=""):
        """A new bridge of the wanted name with `last` behind it, or None where another one has its MAC, or there are too many."""
        if not MAC.fullmatch(mac) or mac in self.macs or len(self.bridges) == MOST_BRIDGES:
            why = f"no MAC address, but {mac}"
            if MAC.fullmatch(mac):
                why = f"the MAC address of {self.macs[mac].label}" if mac in self.macs else f"{MOST_BRIDGES} bridges before it"
            self.lose(f"{label} has {why}: it is left out")
            return None
        name = self.name("bridge", wanted, last)
        if name != wanted + last:
            self.tell(f"{label} is named {name}")
        bridge = Bridge(name, label, mac, self.fit(label, "priority", priority, 0, 61440, 4096))
        bridge.max_age = self.fit(label, "Max Age", max_age, 6, 40)
        self.macs[mac] = bridge
        self.bridges.append(bridge)
        return bridge

    def add_port(self, bridge, number, port):
        """A new port; what it has is held in the ranges of the language."""
        where = f"{bridge.label} {port.label}"
        port.priority = self.fit(where, "priority", port.priority, 0, 240, 16)
        if port.cost is not None:
            port.cost = self.fit(where, "path cost", port.cost, 1, HIGHEST_COST)
        if port.vlans is not None and len(runs(port.vlans)) > LONGEST_LIST:
            self.tell(f"{where} is a member of so many VLANs that no line holds them: it has all of them")
            port.vlans = None
        bridge.ports[number] = port

    def add_lan(self, ends, speed, wanted=None):
        """A LAN of these ports. If no name is wanted it is named by its first two bridges, or by its one port."""
        name = self.name("LAN", wanted) if wanted else self.name_by_ends(ends)
        if wanted and name != wanted:
            self.tell(f"LAN {wanted} is named {name}")
        if speed is not None:
            speed = self.fit(f"LAN {name}", "speed", speed, 1, HIGHEST_SPEED)
        for bridge, number in ends:
            bridge.ports[number].lan = name
        self.lans.append(Lan(name, speed, ends))

    def name_by_ends(self, ends):
        """A name of a LAN that no other one has, with forms of the names of its first two bridges, or of its one bridge and port, which
        aren't those of others. Where they have no room it is called lan."""
        its, names = distinct(tuple(it.name for it in self.bridges)), self.names["LAN"]
        parts = [its[name] for name in list(dict.fromkeys(bridge.name for bridge, _ in ends))[:2]]
        if len(ends) == 1:
            labels = [NOT_IN_NAMES.sub("-", it.label) for it in ends[0][0].ports.values()]
            parts.append(distinct(tuple(labels))[NOT_IN_NAMES.sub("-", ends[0][0].ports[ends[0][1]].label)])
        for count in itertools.count(1):
            mark = f".{count}" if count > 1 else ""
            name = (shortened(parts, LONGEST_NAME - len(mark)) or "lan") + mark
            if name not in names:
                names[name] = 1
                return name

    def add_bundle(self, ends, cables):
        """LANs with a key, which count as one link between two ports of different bridges. `ends` are these ports, which are called
        as the bundles are; those without a key get their number for one. A cable is the labels of its two interfaces, its speed, and
        the name that is wanted for it or None. The first cable has the ports themselves; each other one has ports of the highest
        numbers that are free, since the lowest number is the link's."""
        for (bridge, number), label in zip(ends, cables[0][0]):
            port = bridge.ports[number]
            port.bundle, port.label, port.key = port.label, label, port.key or number
        for count, (labels, speed, wanted) in enumerate(cables):
            numbers = [number for _, number in ends]
            if count:
                numbers = [self.add_member(*end, label) for end, label in zip(ends, labels)]
            if None in numbers:
                self.lose(f"{where_of(ends)}: no number is left for {' and '.join(labels)}: the cable is left out")
            else:
                self.add_lan([(bridge, number) for (bridge, _), number in zip(ends, numbers)], speed, wanted)

    @staticmethod
    def add_member(bridge, number, label):
        """Another port of the bundle that this port is of: its number, or None where none is free."""
        spare = next((it for it in range(HIGHEST_PORT, number, -1) if it not in bridge.ports), None)
        if spare is not None:
            bridge.ports[spare] = Port(label, key=bridge.ports[number].key, bundle=bridge.ports[number].bundle)
        return spare

    def script(self):
        """The lines of a script that makes the network."""
        yield "mstplan 2"
        speeds = {lan.name: lan.speed for lan in self.lans}
        for bridge in self.bridges:
            yield from self.bridge_lines(bridge)
            for number, port in sorted(bridge.ports.items()):
                yield from self.port_lines(f"{bridge.name} {number}", port, automatic(speeds.get(port.lan)))
        for lan in self.lans:
            yield from comment("LAN of", where_of(lan.ends))
            yield f"addlan {lan.name}"
            if lan.speed not in (None, DEFAULT_SPEED):
                yield f"speed {lan.name} {lan.speed}"
            for bridge, number in lan.ends:
                yield f"plug {bridge.name} {number} {lan.name}"

    @staticmethod
    def bridge_lines(bridge):
        yield from comment("bridge", bridge.label)
        yield f"addbridge {bridge.name} {bridge.mac}"
        if bridge.region is None:
            yield f"kind {bridge.name} rstp"
        elif bridge.region != Region(bridge.mac):
            # what a new bridge has is no line
            yield from region_lines(bridge.name, bridge.region)
        if not bridge.on:
            yield f"bridge {bridge.name} off"
        for tree, priority in ((0, bridge.priority), *sorted(bridge.priorities.items())):
            if priority != DEFAULT_PRIORITY:
                yield f"settreeprio {bridge.name} {tree} {priority}"
        if bridge.max_hops != DEFAULT_MAX_HOPS:
            yield f"setmaxhops {bridge.name} {bridge.max_hops}"
        if bridge.max_age != DEFAULT_MAX_AGE:
            yield f"setmaxage {bridge.name} {bridge.max_age}"

    @staticmethod
    def port_lines(its, port, cost):
        """The lines of a port, `its` being its bridge and number, and `cost` the automatic one in its LAN alone."""
        bridge, number = its.split()
        if port.named not in ("", number):
            yield line_of(bridge, number, printable(port.named))
        yield f"addport {its}"
        if port.key:
            yield f"setkey {its} {port.key}"
        for tree, priority in ((0, port.priority), *sorted(port.priorities.items())):
            if priority != DEFAULT_PORT_PRIORITY:
                yield f"settreeportprio {its} {tree} {priority}"
        if port.cost is not None and (port.key or port.cost != cost):
            yield f"setportpathcost {its} {port.cost}"
        for tree, internal in sorted(port.costs.items()):
            if port.key or internal != cost:
                yield f"settreeportcost {its} {tree} {internal}"
        if port.restricted:
            yield f"setportrestrrole {its} yes"
        if port.vlans is not None:
            yield f"setportvlans {its} {runs(port.vlans)}"

    def differences(self, texts):
        """What the texts of trees, as lines, say otherwise than the devices; and how much was compared."""
        roots, roles = planned(texts)
        compared, others = 0, []
        for bridge in self.bridges:
            pairs = [(bridge.label, (bridge.root, bridge.root_cost), roots.get(bridge.name, (None, None)))]
            for number, port in sorted(bridge.ports.items()):
                for tree, says in sorted(port.says.items()):
                    role = roles.get((tree, bridge.name, number), "Disabled")
                    where = f"{bridge.label} {port.bundle or port.label}" + (f" in tree {tree}" if tree else "")
                    pairs.append((where, says, (role, role in ("Root", "Designated", "Master"))))
            for where, says, plans in pairs:
                for said, plan in zip(says, plans):
                    compared += said is not None
                    if said is not None and said != plan:
                        others.append(f"{where}: the device says {said}, the plan {plan}")
        return others, compared


def region_lines(name, region):
    """The lines of a bridge's MST configuration."""
    yield f"setmstconfid {name} {region.revision} {region.name}"
    for tree, vids in sorted(region.table.items()):
        yield from (f"setvid2mstid {name} {tree} {it}" for it in vid_lists(vids))


def planned(texts):
    """Each bridge's root and root path cost, and each port's role by tree, bridge and number, of the texts of trees."""
    roots, roles, tree = {}, {}, 0
    for words in map(str.split, texts):
        if words[:1] == ["tree"]:
            tree = int(words[1])
        elif words[:1] == ["bridge"] and len(words) > 6 and not tree:
            roots[words[1]] = words[4], int(words[6])
        elif words[:1] == ["port"]:
            roles[tree, words[1], int(words[2])] = words[-1]
    return roots, roles


def write(network, unread):
    """An importer's end: the script, and on standard error what couldn't be read, what is left out, and what couldn't be told. The status is
    1 where something is left out, or nothing was read."""
    count = 0
    for line in network.script():
        put(line)
        count += line.startswith("addbridge ")
    for line in unread + network.told + [NOTHING_READ] * (not count):
        warn(line)
    if unread or network.lost or not count:
        sys.stdout.flush()
        sys.exit(STATUS_UNREAD)
