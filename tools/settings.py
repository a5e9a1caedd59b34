"""A network by the lines that `mstplan save` prints of it, changed by edits that PROGRAM has accepted."""

from dataclasses import dataclass, field

import mstplan

HIGHEST_VID, HIGHEST_COST = 4094, 200_000_000
# What is set of a bridge and a port by one value that isn't in the way of commands.
SILENT = ("setsyspri", "setmaxhops", "setmaxage")


@dataclass
class Port:
    """A port: its LAN, its costs (0 is automatic) and priorities, by tree those inside, its key, its VIDs (None for all), and whether
    its role is restricted."""
    lan: str | None = None
    external: int = 0
    internal: dict = field(default_factory=dict)
    priorities: dict = field(default_factory=dict)
    key: int = 0
    vids: set | None = None
    is_restricted: bool = False


@dataclass
class Bridge:
    """A bridge: what is set of it, the tree of each VID that isn't in tree 0, and its ports by number."""
    mac: str
    kind: str = "mstp"
    power: str = "on"
    configuration: tuple = ()
    table: dict = field(default_factory=dict)
    priorities: dict = field(default_factory=dict)
    ports: dict = field(default_factory=dict)

    def trees(self):
        return {0, *self.table.values()} if self.kind == "mstp" else {0}


@dataclass
class Lan:
    """A LAN: its state and its speed in kb/s."""
    state: str = "up"
    speed: int = 1_000_000


def vids_of(text):
    """The VIDs of a list."""
    ends = [item.split("-") for item in text.split(",")]
    return {vid for its in ends for vid in range(int(its[0]), int(its[-1]) + 1)}


def lists(vids, longest):
    """Lists of VIDs in their longest runs, none longer than so many letters if it has two, that together have these."""
    runs, found = [], [""]
    for vid in sorted(vids):
        if runs and runs[-1][1] == vid - 1:
            runs[-1][1] = vid
        else:
            runs.append([vid, vid])
    for run in (mstplan.list_of([it]) for it in runs):
        if found[-1] and len(found[-1]) + 1 + len(run) > longest:
            found.append("")
        found[-1] += ("," if found[-1] else "") + run
    return found


def automatic(speed):
    """The automatic cost at a LAN of this speed."""
    return max(1, min(HIGHEST_COST, 20_000_000_000 // speed))


class Network:
    """Bridges and LANs by name."""

    def __init__(self, saved):
        # the ports in each LAN are looked for when they are asked for, and again after an edit
        self.bridges, self.lans, self.ends = {}, {}, None
        for line in mstplan.lines_in(saved):
            edit = mstplan.edit_in(line, 0)
            if edit is not None:
                self.make(edit)

    def make(self, edit):
        """Makes an edit of version 2."""
        word, name, *its = edit.split()
        self.ends = None
        if word in ("addlan", "dellan", "lan", "speed"):
            self.make_lan(word, name, *its)
        elif word == "addbridge":
            self.bridges[name] = Bridge(its[0], configuration=("0", its[0]))
        elif word == "delbridge":
            del self.bridges[name]
        elif word not in SILENT:
            self.make_bridge(self.bridges[name], word, *its)

    def make_bridge(self, bridge, word, *its):
        if word in ("kind", "bridge"):
            setattr(bridge, "kind" if word == "kind" else "power", its[0])
        elif word == "setvid2mstid":
            bridge.table |= dict.fromkeys(vids_of(its[1]), int(its[0]))
            bridge.table = {vid: tree for vid, tree in bridge.table.items() if tree}
        elif word == "setmstconfid":
            bridge.configuration = its
        elif word == "addport":
            bridge.ports[int(its[0])] = Port()
        elif word == "delport":
            del bridge.ports[int(its[0])]
        elif word == "settreeprio":
            bridge.priorities[int(its[0])] = int(its[1])
        else:
            self.make_port(bridge.ports[int(its[0])], word, *its[1:])

    def make_lan(self, word, name, value=None):
        if word == "addlan":
            self.lans[name] = Lan()
        elif word == "dellan":
            del self.lans[name]
        elif word == "lan":
            self.lans[name].state = value
        else:
            self.lans[name].speed = int(value)

    @staticmethod
    def make_port(port, word, *its):
        if word in ("plug", "unplug"):
            port.lan = its[0] if its else None
        elif word == "setkey":
            port.key = int(its[0])
        elif word == "setportpathcost":
            port.external = int(its[0])
        elif word == "settreeportcost":
            port.internal[int(its[0])] = int(its[1])
        elif word == "settreeportprio":
            port.priorities[int(its[0])] = int(its[1])
        elif word == "setportvlans":
            port.vids = None if its[0] == "all" else set() if its[0] == "none" else vids_of(its[0])
        else:
            port.is_restricted = its[0] == "yes"

    def plugs(self, lan):
        """The ports in a LAN, each as (bridge, number)."""
        if self.ends is None:
            self.ends = {}
            for name, bridge in sorted(self.bridges.items()):
                for number, port in sorted(bridge.ports.items()):
                    self.ends.setdefault(port.lan, []).append((name, number))
        return self.ends.get(lan, [])

    def far(self, bridge, number):
        """The names of the other bridges in a port's LAN."""
        lan = self.bridges[bridge].ports[number].lan
        return {name for name, _ in self.plugs(lan) if name != bridge} if lan else set()

    def logical(self, bridge, number):
        """The port that stands for a port: of those with its key to the same bridge the one with the lowest number."""
        ports, far = self.bridges[bridge].ports, self.far(bridge, number)
        if not ports[number].key or len(far) != 1:
            return number
        return min((it for it, port in ports.items() if port.key == ports[number].key and self.far(bridge, it) == far), default=number)

    def stands(self, bridge, number):
        """The port whose settings a port's bundle has, as a device has one: of those with its key the first that is plugged, or else the first. One without a key
        stands for itself."""
        ports = self.bridges[bridge].ports
        bundled = [it for it, port in ports.items() if port.key == ports[number].key] if ports[number].key else [number]
        return min([it for it in bundled if ports[it].lan] or bundled)

    def region(self, bridge):
        """What the bridges of its region have in common."""
        its = self.bridges[bridge]
        return (tuple(its.configuration), tuple(sorted(its.table.items()))) if its.kind == "mstp" else bridge

    def counting(self, bridge, number):
        """Which cost of a port counts in tree 0, `internal` where its LAN leads into its region alone, `external` where to others alone,
        and None; and that cost."""
        port = self.bridges[bridge].ports[number]
        inside = {self.region(it) == self.region(bridge) for it in self.far(bridge, number)}
        if len(inside) != 1:
            return None, None
        return ("internal", port.internal.get(0, 0)) if True in inside else ("external", port.external)
