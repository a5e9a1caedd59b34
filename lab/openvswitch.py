#!/usr/bin/env python3
"""Makes a small network of Open vSwitch bridges, imports their database, plans it and compares, with RSTP and with STP: README.md.

usage: openvswitch.py PROGRAM [FOLDER]    (as root; FOLDER keeps what was collected, and the scripts)

It needs ip (iproute2), tcpdump and Open vSwitch's ovsdb-server, ovs-vswitchd, ovsdb-tool and ovs-vsctl, which it starts with a
database of its own; no kernel module. All that it makes is in the network namespace mstplan-lab-ovs, which it takes away at its
end. It takes about two minutes, and exits with 1 where a plan and the devices differ.
"""

import contextlib
import os
import shlex
import sys
import time

from lab import TOOLS, inside, ip, main, make_spaces, run, settle, start

import ovs

SPACE, SCHEMA = "ovs", "/usr/share/openvswitch/vswitch.ovsschema"
BRIDGES = {"north": 4096, "east": 8192, "south": 32768, "west": 32768, "edge": 32768}
# The cables: two ports, each as a bridge and a number. The hub is a bridge of the kernel with STP off, and the relay one of Open
# vSwitch without a spanning tree, which passes BPDUs on.
HUB, RELAY = "hub", "relay"
CABLES = [
    ("north", 1, "east", 1),
    ("north", 2, "west", 1),
    ("east", 2, "south", 1),
    ("south", 2, "west", 2),
    ("south", 3, "west", 3),
    ("north", 3, HUB, 1),
    ("east", 3, HUB, 2),
    ("south", 4, HUB, 3),
    ("south", 5, HUB, 4),
    ("west", 4, "west", 5),
    ("east", 4, RELAY, 1),
    ("south", 6, RELAY, 2),
    ("west", 6, RELAY, 3),
    ("south", 7, "edge", 1),
    ("south", 8, "edge", 2),
]
# A bond's two ends, with their cables' numbers. Open vSwitch runs no spanning tree on it: nothing else reaches edge, which so is
# its own root, where the plan has it behind the bond.
BONDS = {"south": (7, 8), "edge": (1, 2)}
APART = "edge"
# The numbers of a bridge's ports. Of two ports that hear one designated port, as south's two at the hub do, Open vSwitch's RSTP
# takes one by the order of their numbers in a table of its own, whatever they cost: with these it takes the cheaper one.
NUMBERS = {2: 1, 6: 2, 5: 3, 3: 4, 4: 5, 1: 6}
# What is set of bridges and ports in other_config, by protocol: STP is to settle as fast as it can.
BRIDGE_SETTINGS = {"rstp": [], "stp": ["stp-forward-delay=4", "stp-hello-time=1", "stp-max-age=6"]}
PORT_SETTINGS = {
    "rstp": [
        ("west", 1, "rstp-path-cost=100000"),
        ("south", 3, "rstp-port-priority=64"),
        ("south", 4, "rstp-path-cost=3000"),
        ("east", 1, "rstp-port-num=9"),
        *(("south", port, f"rstp-port-num={number}") for port, number in NUMBERS.items()),
    ],
    "stp": [("west", 1, "stp-path-cost=20"), ("south", 3, "stp-port-priority=64"), ("south", 4, "stp-path-cost=3")],
}
# What is on its way to forwarding; and what the database counts on in its status.
PASSING, COUNTING = ("Learning", "learning", "listening"), "stp_sec_in_state"
# The ports that go down.
DOWN = [("north", 1), ("south", 3)]
# Ends of cables of which another one of the same LAN is listened to, or that no BPDU is sent on.
NOT_HEARD = ((HUB, 2), (HUB, 3), (HUB, 4), (RELAY, 2), (RELAY, 3), ("edge", 1), ("edge", 2))


def port_name(bridge, number):
    return f"{bridge}-{number}"


def make_cables():
    for one, first, other, second in CABLES:
        ends = port_name(one, first), port_name(other, second)
        ip(SPACE, "link", "add", ends[0], "type", "veth", "peer", "name", ends[1])
        for end in ends:
            ip(SPACE, "link", "set", end, "up")
    ip(SPACE, "link", "add", HUB, "type", "bridge", "stp_state", "0", "ageing_time", "0")
    for _, _, other, second in CABLES:
        if other == HUB:
            ip(SPACE, "link", "set", port_name(HUB, second), "master", HUB)
    ip(SPACE, "link", "set", HUB, "up")


class Switch:
    """An Open vSwitch of our own, in the namespace, whose bridges speak one protocol."""

    def __init__(self, stack, folder, protocol):
        self.folder, self.socket, self.protocol = folder, os.path.join(folder, "db.sock"), protocol
        os.environ.update({f"OVS_{it}": folder for it in ("RUNDIR", "LOGDIR", "DBDIR", "SYSCONFDIR")})
        database = os.path.join(folder, "conf.db")
        run("ovsdb-tool", "create", database, SCHEMA)
        self.start(stack, "ovsdb-server", f"--remote=punix:{self.socket}", database)
        while not os.path.exists(self.socket):
            time.sleep(0.1)
        self.ask("--no-wait", "init")
        self.start(stack, "ovs-vswitchd", "--disable-system", f"unix:{self.socket}")

    def start(self, stack, program, *words):
        start(stack, inside(SPACE, program, *words), os.path.join(self.folder, program + ".log"))

    def ask(self, *words):
        return run("ovs-vsctl", "--timeout=30", f"--db=unix:{self.socket}", *words)

    def make(self):
        """Makes the bridges and their ports."""
        words, protocol = [], self.protocol
        for count, (bridge, priority) in enumerate(BRIDGES.items(), start=1):
            words += ["--", "add-br", bridge, "--", "set", "bridge", bridge, "datapath_type=netdev", f"{protocol}_enable=true"]
            settings = [f"{protocol}-priority={priority}", f"hwaddr=02:00:00:00:01:{count:02x}", *BRIDGE_SETTINGS[protocol]]
            words += ["other_config:" + it for it in settings]
        words += ["--", "add-br", RELAY, "--", "set", "bridge", RELAY, "datapath_type=netdev", "other_config:forward-bpdu=true"]
        for bridge, numbers in BONDS.items():
            words += ["--", "add-bond", bridge, f"{bridge}-bond", *(port_name(bridge, it) for it in numbers), "bond_mode=balance-slb"]
        for one, first, other, second in CABLES:
            lan = HUB if other == HUB else f"{one}-{other}-{first}"
            for bridge, number in ((one, first), (other, second)):
                name = port_name(bridge, number)
                if bridge != HUB and number not in BONDS.get(bridge, ()):
                    words += ["--", "add-port", bridge, name]
                if bridge != HUB:
                    words += ["--", "set", "interface", name, f"external_ids:{ovs.LAN_KEY}={lan}"]
        for bridge, number, setting in PORT_SETTINGS[protocol]:
            words += ["--", "set", "port", port_name(bridge, number), "other_config:" + setting]
        self.ask(*words)

    def dump(self):
        return self.ask("--format=json", "list", "bridge", "--", "list", "port", "--", "list", "interface")

    def states(self):
        found = ovs.tables(self.dump())
        for row in (*found["bridge"].values(), *found["port"].values()):
            says = row[ovs.SAYS[self.protocol]]
            yield says.get("rstp_port_state", says.get("stp_state"))
            yield {key: value for key, value in says.items() if key != COUNTING}

    def collect(self, folder, name):
        """Writes what the importer reads, and reads it."""
        settle(self.states, PASSING)
        path = os.path.join(folder, f"{self.protocol}-{name}")
        with open(path, "w", encoding="utf-8") as file:
            file.write(self.dump())
        return ovs.read([path])


def try_export(lab, switch, network):
    """Types what tools/export.py writes of a few settings, and reads the database again: then nothing is left to be set."""
    ports = {port.label: f"{bridge.name} {number}" for bridge in network.bridges for number, port in bridge.ports.items()}
    edits = ["settreeprio west 0 16384", f"setportpathcost {ports['east-2']} 150000", f"settreeportprio {ports['south-2']} 0 64",
             f"setportvlans {ports['north-1']} 1-9,20"]
    paths = [os.path.join(lab.folder, it) for it in ("now.script", "wanted.script", "again.script")]
    for path, more in zip(paths, ([], edits)):
        with open(path, "w", encoding="utf-8") as file:
            file.write("\n".join([*network.script(), *more, ""]))
    commands = run(sys.executable, os.path.join(TOOLS, "export.py"), lab.program, *paths[:2], "--to", "ovs").splitlines()
    for command in (it for it in commands if not it.startswith("#")):
        switch.ask(*shlex.split(command)[1:])
    with open(paths[2], "w", encoding="utf-8") as file:
        file.write("\n".join([*switch.collect(lab.folder, "exported")[0].script(), ""]))
    status, told = lab.ask(["edits", paths[2], paths[1]], "")
    lab.say(status == 0, f"exported: {len(commands)} lines, {len(told) - 1} settings are left", told[1:])


def try_protocol(lab, stack, folder, protocol):
    """The network with bridges of a protocol as it stands, and then with cables that are down."""
    make_spaces(stack, [SPACE])
    make_cables()
    os.mkdir(os.path.join(folder, protocol))
    switch = Switch(stack, os.path.join(folder, protocol), protocol)
    switch.make()
    network, unread = switch.collect(lab.folder, "before")
    script = lab.imported(network, unread)
    lab.compare(f"{protocol} as it stands", network, script, APART)
    listening = [(SPACE, port_name(*cable[:2])) for cable in CABLES if cable[2:] not in NOT_HEARD]
    lab.check(f"{protocol} as it stands", script, listening)
    lans = {port.label: port.lan for bridge in network.bridges for port in bridge.ports.values()}
    edits = "".join(f"lan {lans[port_name(*port)]} down\n" for port in DOWN)
    lab.changes(script, edits)
    for port in DOWN:
        ip(SPACE, "link", "set", port_name(*port), "down")
    network, _ = switch.collect(lab.folder, "after")
    lab.compare(f"{protocol} with cables down", network, script + edits, APART)
    lab.check(f"{protocol} with cables down", script + edits, listening)
    if protocol == "rstp":
        try_export(lab, switch, network)


def experiment(lab, _, folder):
    for protocol in PORT_SETTINGS:
        with contextlib.ExitStack() as stack:
            try_protocol(lab, stack, folder, protocol)


if __name__ == "__main__":
    main(__doc__, ("ip", "tcpdump", "ovsdb-server", "ovs-vswitchd", "ovsdb-tool", "ovs-vsctl"), experiment)
