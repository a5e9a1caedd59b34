"""What an edit is as commands of a shell, for export.py: of mstpd's mstpctl and of iproute2, by their documents and untried, and of Open
vSwitch, whose settings are those that import/ovs.py reads."""

import re

from forms import LONGEST_LIST, Arista, Cisco, Device, Why
from settings import HIGHEST_VID, automatic, lists, vids_of

# What an interface or a bridge may be called in Linux, so that no name is a command of its own.
LINUX = re.compile(r"[A-Za-z0-9][A-Za-z0-9_.-]{0,14}")
EVERY = f"1-{HIGHEST_VID}"


class Shell(Device):
    """Commands of a shell, in the order of the edits. A bundle is made by hand, and has a name of its own."""
    called = LINUX

    def cable(self, bridge, number):
        if self.port(bridge, number).key:
            self.bundle(bridge, number, None)
        return super().cable(bridge, number)

    def bundle(self, bridge, number, key):
        _, found = self.naming(bridge, int(number))
        if not found:
            raise Why(f"it isn't told what {bridge}:{number} and its bundle are called; --names tells both")
        return self.checked(found)

    def of_no_bundle(self, bridge, number):
        if self.port(bridge, number).key:
            raise Why("it comes into a bundle, which is made by hand")

    def run(self, bridge, *commands):
        if not LINUX.fullmatch(bridge):
            raise Why("a bridge's name has at most 15 letters there")
        self.add(bridge, "", *commands)

    def lines(self):
        for bridge, sections in self.put.items():
            yield f"# {bridge}"
            yield from sections[""]


class Mstpctl(Shell):
    """mstpd's mstpctl. A FID is made for each tree, by its number."""

    def same(self, word, bridge, *its):
        self.run(bridge, f"mstpctl {word} {bridge} {' '.join(its)}")

    def of_tree(self, bridge, tree):
        if int(tree) not in self.network.bridges[bridge].trees():
            raise Why(f"{bridge} has no tree {tree}, so nothing is set yet")

    def kind(self, bridge, kind):
        self.same("setforcevers", bridge, kind)

    def setmstconfid(self, bridge, revision, name):
        self.same("setmstconfid", bridge, revision, self.region_name(name))

    def setvid2mstid(self, bridge, tree, vids):
        if int(tree) and int(tree) not in self.now.bridges[bridge].table.values():
            self.same("createtree", bridge, tree)
            self.same("setfid2mstid", bridge, f"{tree}:{tree}")
        for it in lists(vids_of(vids), LONGEST_LIST):
            self.same("setvid2fid", bridge, f"{tree}:{it}")

    def setmaxhops(self, bridge, limit):
        self.same("setmaxhops", bridge, limit)

    def setmaxage(self, bridge, limit):
        self.same("setmaxage", bridge, limit)

    def settreeprio(self, bridge, tree, priority):
        self.of_tree(bridge, tree)
        self.same("settreeprio", bridge, tree, str(int(priority) // 4096))

    def setportpathcost(self, bridge, number, cost):
        self.same("setportpathcost", bridge, self.at(bridge, number), cost)

    def settreeportcost(self, bridge, number, tree, cost):
        self.of_tree(bridge, tree)
        self.same("settreeportcost", bridge, self.at(bridge, number), tree, cost)

    def settreeportprio(self, bridge, number, tree, priority):
        self.of_tree(bridge, tree)
        self.same("settreeportprio", bridge, self.at(bridge, number), tree, str(int(priority) // 16))

    def setportrestrrole(self, bridge, number, restricted):
        self.same("setportrestrrole", bridge, self.at(bridge, number), restricted)


class Iproute2(Shell):
    """Links, VLANs and states, by ip and bridge; the spanning tree is mstpd's."""

    def finish(self):
        """A port that comes out of a bundle, or stands for one, is put into the bridge anew, with its VLANs."""
        left = []
        for bridge, number in self.moved():
            port = self.port(bridge, number)
            is_down = not port.key and port.lan and self.network.lans[port.lan].state == "down"
            try:
                self.enslave(bridge, self.at(bridge, number), port.vids, "down" if is_down else "up")
            except Why as why:
                left.append(f"{bridge}:{number} is to be a port of its bridge, with its VLANs: {why}")
        return left

    def enslave(self, bridge, name, vids, state):
        """Makes an interface a port of a bridge that is a member of these VLANs, None for all."""
        self.run(bridge, f"ip link set dev {name} master {bridge}", f"bridge vlan add dev {name} vid {EVERY}")
        self.run(bridge, *vlan_commands(name, None, vids), f"ip link set dev {name} {state}")

    def addbridge(self, bridge, mac):
        self.run(bridge, f"ip link add name {bridge} type bridge vlan_filtering 1 stp_state 1", f"ip link set dev {bridge} address {mac}",
                 f"ip link set dev {bridge} up")

    def delbridge(self, bridge):
        self.run(bridge, f"ip link del dev {bridge}")

    def bridge(self, bridge, power):
        self.run(bridge, f"ip link set dev {bridge} {'up' if power == 'on' else 'down'}")

    def addport(self, bridge, number):
        self.of_no_bundle(bridge, number)
        self.enslave(bridge, self.cable(bridge, number), None, "up")

    def delport(self, bridge, number):
        self.run(bridge, f"ip link set dev {self.cable(bridge, number)} nomaster")

    def setportvlans(self, bridge, number, vids):
        name, old = self.at(bridge, number), self.now.bridges[bridge].ports[int(number)].vids
        if (bridge, int(number)) not in self.moved():
            self.run(bridge, *vlan_commands(name, old, None if vids == "all" else set() if vids == "none" else vids_of(vids)))

    def lan(self, lan, state):
        for bridge, number in self.network.plugs(lan):
            self.run(bridge, f"ip link set dev {self.cable(bridge, number)} {state}")


def vlan_commands(name, old, new):
    """The commands that make one set of VLANs of another one, None for all. None that stays is out in between."""
    old, new = (set(range(1, HIGHEST_VID + 1)) if it is None else it for it in (old, new))
    for word, some in (("add", new - old), ("del", old - new)):
        yield from (f"bridge vlan {word} dev {name} vid {it}" for it in lists(some, LONGEST_LIST) for it in it.split(",") if it)


class Ovs(Shell):
    """Open vSwitch with RSTP. A cable is named in external_ids:mstplan-lan. Costs are written out: its automatic ones are others. It runs no
    spanning tree on a bond, so nothing is set of one but by a line that says so."""

    def finish(self):
        return []

    def run(self, bridge, *commands):
        super().run(bridge, *(f"ovs-vsctl {it}" for it in commands))

    @staticmethod
    def of_tree(tree):
        if int(tree):
            raise Why("it has one tree")

    def addbridge(self, bridge, mac):
        self.run(bridge, f"add-br {bridge}", f"set bridge {bridge} rstp_enable=true other_config:rstp-address='\"{mac}\"'")
        if self.network.bridges[bridge].kind != "rstp":
            raise Why("it is of kind mstp, and Open vSwitch has RSTP alone")

    def delbridge(self, bridge):
        self.run(bridge, f"del-br {bridge}")

    def kind(self, bridge, kind):
        if kind != "rstp":
            raise Why("it has RSTP alone, and no MST")
        self.run(bridge, f"set bridge {bridge} rstp_enable=true")

    def settreeprio(self, bridge, tree, priority):
        self.of_tree(tree)
        self.run(bridge, f"set bridge {bridge} other_config:rstp-priority={priority}")

    def setmaxage(self, bridge, limit):
        self.run(bridge, f"set bridge {bridge} other_config:rstp-max-age={limit}")

    def addport(self, bridge, number):
        self.of_no_bundle(bridge, number)
        name = self.cable(bridge, number)
        self.run(bridge, f"add-port {bridge} {name}", f"set port {name} other_config:rstp-port-num={number}")

    def delport(self, bridge, number):
        if self.port(bridge, number).key:
            raise Why("it is of a bond, which is taken apart by hand")
        self.run(bridge, f"del-port {bridge} {self.cable(bridge, number)}")

    def plug(self, bridge, number, lan):
        self.run(bridge, f"set interface {self.cable(bridge, number)} external_ids:mstplan-lan={lan}")
        self.automatic(bridge, number)

    def unplug(self, bridge, number):
        self.run(bridge, f"remove interface {self.cable(bridge, number)} external_ids mstplan-lan")

    def automatic(self, bridge, number):
        """The cost of a port, where it is that of its cable's speed."""
        port = self.port(bridge, number)
        if not port.external and port.lan and not port.key:
            self.cost(bridge, number, automatic(self.network.lans[port.lan].speed))

    def cost(self, bridge, number, cost):
        self.run(bridge, f"set port {self.at(bridge, number)} other_config:rstp-path-cost={cost}")

    def addlan(self, lan):
        """A cable is named at its ends alone."""

    dellan = addlan

    def speed(self, lan, _):
        for end in self.network.plugs(lan):
            self.automatic(*end)

    def setportpathcost(self, bridge, number, cost):
        port = self.port(bridge, number)
        if int(cost):
            self.cost(bridge, number, cost)
        elif port.lan:
            self.automatic(bridge, number)
        else:
            raise Why("an automatic cost is that of a cable, and there is none")

    def settreeportprio(self, bridge, number, tree, priority):
        self.of_tree(tree)
        self.run(bridge, f"set port {self.at(bridge, number)} other_config:rstp-port-priority={priority}")

    def setportvlans(self, bridge, number, vids):
        if vids == "none":
            raise Why("a port without VLANs is a port of all VLANs there")
        name = self.at(bridge, number)
        self.run(bridge, f"clear port {name} trunks" if vids == "all" else f"set port {name} trunks={','.join(map(str, sorted(vids_of(vids))))}")

    def lan(self, lan, state):
        for bridge, number in self.network.plugs(lan):
            self.add(bridge, "", f"ovs-ofctl mod-port {bridge} {self.cable(bridge, number)} {state}")


FORMS = {"cisco": Cisco, "arista": Arista, "mstpctl": Mstpctl, "iproute2": Iproute2, "ovs": Ovs}
