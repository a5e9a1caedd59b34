#!/usr/bin/env python3
"""Runs each importer on its samples and the program on what it writes: no line may be refused, what couldn't be told is named,
and a plan is to fit what the sample's devices say of themselves.

usage: importers.py PROGRAM

The samples: campus/ is made up, and so is cisco/, by the documented forms of the texts (nexus/ has two switches with NX-OS); lab/, ovs/rstp and ovs/stp are of the
networks that the scripts of lab/ make; ovs/bonds is of one too, whose bridge behind a bond
is a root that no plan has, and ovs/settings of ovsdb-server alone, whose devices say nothing of a spanning tree. What no lab
has is in a few made-up hosts (strange_hosts). Then each importer reads 2,000 inputs that are no device's (fuzz.py). It takes about
a quarter of a minute.
"""

import json
import os
import re
import shutil
import subprocess
import sys
import tempfile

sys.dont_write_bytecode = True
TOP = os.path.join(os.path.dirname(os.path.abspath(__file__)), os.pardir)
TOOLS, FILES = os.path.join(TOP, "tools", "import"), os.path.join(TOP, "examples", "import")
sys.path.append(TOOLS)

import cisco  # noqa: E402
import fuzz  # noqa: E402
import lldp  # noqa: E402
import ovs  # noqa: E402

# Each sample: its importer, its words, what reads the same network, how much its devices say, and what is told.
SAMPLES = [
    ("links.py", ["campus/links.txt"], None, 0, [
        "assumed: MAC addresses, and so who is root where priorities are equal; priorities, regions, VLANs",
    ]),
    ("links.py", ["campus/switches.txt"], None, 0, [
        "assumed: MAC addresses, and so who is root where priorities are equal; priorities, regions, VLANs",
    ]),
    ("links.py", ["campus/cables.csv", "campus/switches.csv"], None, 0, [
        "switches.csv columns that aren't read: Rack",
        "assumed: revision 0 and no tree besides the CIST in the regions EDGE, HQ",
        "cables that aren't connected by their status are left out: 1 planned",
        "cables to what no table of switches has are left out: 1, to printer-3",
        "rows that tell of a cable again: 1",
        "assumed: MAC addresses, and so who is root where priorities are equal; priorities, VLANs",
    ]),
    ("cisco.py", ["cisco/campus"], cisco.read, 114, [
        "acc1: spanning-tree bpduguard enable isn't planned",
        "core2.cdp line 32 isn't understood: Weather: fair",
        "dist2.config line 6 isn't understood: spanning-tree colour blue",
        "ports that hear of no port of these switches have LANs of their own: acc1 Gi1/0/10",
        "speeds aren't told: all costs are those that the switches print",
    ]),
    ("cisco.py", ["cisco/nexus"], cisco.read, 72, [
        "DIST-2 Gi1/0/7 is P2p Bound(PVST) *PVST_Inc: its neighbour has a tree for each VLAN, and those aren't planned",
        "old-sw is no switch of this folder, and is heard of at DIST-2 Gi1/0/7",
        "CORE-NX-01 Po1 has port number 4096, and these end at 4095: 2048 stands for it (and 1 more such)",
        "DIST-2 Gi1/0/7 is BKN P2p Bound(PVST) *PVST_Inc in MST0, MST1: the plan has it take part, and it isn't compared",
        "CORE-NX-01, CORE-NX-02: spanning-tree port type edge bpduguard default isn't planned",
        "DIST-1, DIST-2: spanning-tree loopguard default isn't planned",
        "cables of routers' ports and of those for management are left out: CORE-NX-01 mgmt0, DIST-1 Gi1/0/5",
        "VLANs that a switch hasn't count as carried where its trunks allow them: CORE-NX-01, CORE-NX-02",
        "ports that hear of no port of these switches have LANs of their own: DIST-1 Gi1/0/5, DIST-2 Gi1/0/7",
        "neighbours that are no switches by their own word are left out: 2, at DIST-1, DIST-2",
        "speeds aren't told: all costs are those that the switches print",
    ]),
    ("lldp.py", ["lab"], lldp.read, 52, [
        "access-north-side-1 br0 is named access-north-sid",
        "access-north-side-1 p4 hears of d\"esk\ufffd\\x1b[2J p1, which is no interface of these hosts",
    ]),
    ("ovs.py", ["ovs/rstp"], lambda path: ovs.read([path]), 40, [
        "costs that aren't set are assumed to be those that Open vSwitch makes of speeds",
    ]),
    ("ovs.py", ["ovs/stp"], lambda path: ovs.read([path]), 34, [
        "costs that aren't set are assumed to be those that Open vSwitch makes of speeds",
    ]),
    ("ovs.py", ["ovs/bonds"], None, 0, [
        "costs that aren't set are assumed to be those that Open vSwitch makes of speeds",
        *(f"{its}-bond is a bond: Open vSwitch runs no spanning tree on it and always forwards there, and the plan has it take part" for its in ("edge edge", "south south")),
        *(f"{its}-bond: its port number isn't told, and {number} is assumed" for its, number in (("edge edge", 1), ("south south", 7))),
    ]),
    ("ovs.py", ["ovs/settings"], lambda path: ovs.read([path]), 0, [
        "core eth5 has rstp-enable=false, so it takes no part in the spanning tree: it is left out",
        "core to-edge: its port number isn't told, and 1 is assumed",
        "costs that aren't set are assumed to be those that Open vSwitch makes of speeds",
        "distribution-north is named distribution-nor",
        "distribution-north has priority 30720, which is no multiple of 4096: 28672 stands for it",
        "distribution-north eth3 has stp-path-cost=low, which is no number",
        "distribution-north eth2: its port number isn't told, and 1 is assumed",
        "edge has Max Age 50, which isn't from 6 to 40: 40 stands for it",
        "edge eth4 has priority 100, which is no multiple of 16: 96 stands for it",
        "edge bond0 is a bond: Open vSwitch runs no spanning tree on it and always forwards there, and the plan has it take part",
        "edge bond0: its port number isn't told, and 4 is assumed",
        "edge bond0: no cable is told: it has a LAN of its own",
        "edge eth4: its port number isn't told, and 1 is assumed",
        "edge to-core: its port number isn't told, and 2 is assumed",
        "edge to-plain: its port number isn't told, and 3 is assumed",
        "plain has neither RSTP nor STP enabled: it is left out, and what it joins isn't known",
        "core eth1 and distribution-north eth2: the speed isn't told",
        "core to-edge and edge to-core: the speed isn't told",
        "distribution-north eth3 and edge eth4: the speed isn't told",
        "LAN rack-4-cable-2-to-edge is named rack-4-cable-2-t",
        "edge to-plain: its peer isn't a port of these bridges: it has a LAN of its own",
    ]),
]


def link(name, address, up=True, master=None, **info):
    """A link as iproute2 has it, as far as the importer reads it."""
    flags = ["UP", "LOWER_UP"] if up else ["UP", "NO-CARRIER"]
    return {"ifname": name, "flags": flags, "address": address, "linkinfo": info, "master": master}


def bridge(identifier, stp_state=1, filtering=0):
    says = {"bridge_id": identifier, "stp_state": stp_state, "max_age": 2000, "vlan_filtering": filtering, "root_port": 0}
    return link("br0", identifier[5:], info_kind="bridge", info_data=says | {"root_path_cost": 0})


def port(name, address, its, up=True, kind="veth", guard=False, **more):
    """A port of br0 that has this identifier."""
    says = {"id": hex(its), "no": hex(its & 0x3FF), "cost": 4, "state": "forwarding", "guard": guard, "root_block": guard}
    says |= {"bridge_id": "8000.2:0:0:0:0:1", "root_id": "8000.2:0:0:0:0:1", "designated_port": its}
    return link(name, address, up, "br0", info_kind=kind, info_slave_kind="bridge", info_slave_data=says, **more)


def heard(name, host, of, mau="1000BaseTFD - Four-pair Category 5 UTP, full duplex mode", description=None):
    """A neighbour as lldpctl -f json0 has it."""
    told = {"id": [{"type": "ifname", "value": of}], "auto-negotiation": [{"current": [{"value": mau}]}]}
    told |= {"descr": [{"value": description}]} if description else {}
    return {"name": name, "chassis": [{"id": [{"type": "local", "value": host}], "name": [{"value": host}]}], "port": [told]}


def heard_by_key(name, host, of):
    """One as lldpctl -f json has it."""
    return {name: {"chassis": {host: {"id": {"type": "local", "value": host}}}, "port": {"id": {"type": "ifname", "value": of}}}}


def vlan_host(octet, far):
    """A host with two bridges, each with a VLAN interface on one cable, and a stranger on another."""
    address = f"02:00:00:00:{octet:02x}:01"
    links = [link("eno1", address), link("eno2", address)]
    for count, vid in enumerate((10, 20)):
        its = bridge(f"8000.2:0:0:{count}:{octet:x}:0") | {"ifname": f"br{vid}"}
        on = port(f"eno1.{vid}", address, 0x8001, kind="vlan", info_data={"protocol": "802.1Q", "id": vid})
        links += [its, on | {"link": "eno1", "master": f"br{vid}"}]
    smuggled = "p1\naddbridge evil 02:00:00:00:ee:ee"
    hostile = heard("eno2", "core\u00e9\"1\x1b[2J", smuggled, description="up\u202e\u2028\x07link\nlan x down")
    return links, [heard("eno1", far, "eno1"), hostile]


def strange_hosts():
    """Links and neighbours of hosts with a bond, a bridge with STP off, VLANs, and what else isn't in a lab."""
    return {
        "a": (
            [bridge("8000.2:0:0:0:0:1", stp_state=2, filtering=1), port("bond0", "02:00:00:00:0a:01", 0x8001, kind="bond")]
            + [link(name, "02:00:00:00:0a:01", master="bond0") for name in ("eth0", "eth1")]
            + [port("eth2", "02:00:00:00:0a:02", 0x8402, guard=True), port("eth3", "02:00:00:00:0a:03", 0x8003, up=False)],
            [heard("eth0", "b", "eth0"), heard("eth1", "b", "eth1"), heard("eth2", "c", "eth0", "2p5GbaseX - 2.5G")],
        ),
        "b": (
            [bridge("9001.2:0:0:0:0:2", filtering=1), port("bond0", "02:00:00:00:0b:01", 0x4001, kind="bond")]
            + [link(name, "02:00:00:00:0b:01", master="bond0") for name in ("eth0", "eth1")]
            + [port("eth2", "02:00:00:00:0b:02", 0x8002), port("eth3", "02:00:00:00:0b:03", 0x8003)],
            [heard("eth0", "a", "eth0"), heard("eth1", "a", "eth1"), heard("eth2", "c", "eth1", "2p5GbaseX - 2.5G")]
            + [heard_by_key("eth2", "c", "eth1"), heard("eth9", "c", "eth1"), heard("eth3", "a", "eth0", "")],
        ),
        "c": (
            [bridge("8000.2:0:0:0:0:3", stp_state=0)]
            + [port(name, f"02:00:00:00:0c:0{name[-1]}", 0x8001) for name in ("eth0", "eth1")],
            [heard("eth0", "a", "eth2", "2p5GbaseX - 2.5G")],
        ),
        "d": ([bridge("8000.2:0:0:0:0:1")], []),
        "distribution-e-1": vlan_host(0xe1, "distribution-e-2"),
        "distribution-e-2": vlan_host(0xe2, "distribution-e-1"),
    }


# What is left out, which is told first, and what else is told.
STRANGE_LOST = [
    "b.link has no eth9, which is to hear of c: that is left out",
    "d br0 has the MAC address of a br0: it is left out",
    "b eth3 hears of a eth0, which hears of another one, and that of it: this is left out",
]
STRANGE_TOLD = [
    "a br0 is run by a daemon: its priorities and costs may be others than the kernel's",
    "a br0 filters VLANs, and no a.vlan tells which",
    "a br0 eth2 has number 1026 and priority 128, as its identifier is read",
    "a br0 eth2 shuts itself where it hears a BPDU: that isn't in the script",
    "b br0 has priority 36865, which is no multiple of 4096: 36864 stands for it",
    "c has no bridge with STP on (in the JSON of ip -j -d link)",
    "b eth2 hears of c eth1, and not the other way round",
    "a br0 eth3 has no link: it is in no LAN",
    "a br0 eth2 and b br0 eth2: the speed isn't told",
    "b.lldp is of lldpctl -f json, where a neighbour's name can make up others: -f json0 can't",
    *(f"distribution-e-{it} br{vid} is named distributio.br{vid}" for it, vid in ((1, 10), (1, 20))),
    *(f"distribution-e-2 br{vid} is named distribut.2.br{vid}" for vid in (10, 20)),
    *(f"distribution-e-{it} eno2 hears of core{letter}\"1\\x1b[2J up\\u202e\\u2028\\x07link\\nlan x down, which is no interface of "
      "these hosts" for it, letter in ((1, "\u00e9"), (2, "\ufffd"))),
    "distribution-e-2.lldp has bytes that aren't UTF-8: they are replaced",
    "b br0 eth3 hears of no other bridge: it has a LAN of its own, of unknown speed",
]
STRANGE_LINES = [
    "settreeprio b 0 36864", "settreeportprio b 1 0 64", "setportvlans b 2 1,10-20", "setportvlans b 3 none",
    "setportrestrrole a 1026 yes", "setportpathcost a 1 4", "plug a 1 a-b.2", "plug b 1 a-b.2",
    "plug a 4095 a-b.3", "plug b 4095 a-b.3", "setkey a 1 1", "setkey a 4095 1", "setkey b 1 1", "setkey b 4095 1",
    "plug a 1026 a-b", "plug b 2 a-b", "plug b 3 b-eth3",
    "plug distributio.br10 1 di.br10-d.2.br10",
    "plug distribut.2.br10 1 di.br10-d.2.br10",
]


def imported(importer, words):
    """What an importer writes and tells, and its status."""
    words = [sys.executable, os.path.join(TOOLS, importer), *words]
    ran = subprocess.run(words, capture_output=True, text=True, cwd=FILES, check=False)
    return ran.stdout, ran.stderr.splitlines(), ran.returncode


def answers(program, script):
    ran = subprocess.run([program, "run", "-"], input=script, capture_output=True, text=True, check=False)
    return ran.stdout.splitlines(), ran.returncode


def check_sample(program, importer, words, read, says, wanted, lost=()):
    """What is wrong with a sample, as a list. What is lost is told first, with status 1."""
    script, told, status = imported(importer, words)
    wrong = [] if status == bool(lost) else [f"status {status}"]
    wrong += [] if told[:len(lost)] == list(lost) else [f"told first: {told[:len(lost)]}"]
    wrong += [f"told, and not wanted: {line}" for line in told[len(lost):] if line not in wanted]
    wrong += [f"wanted, and not told: {line}" for line in wanted if line not in told]
    refused, _ = answers(program, script)
    wrong += refused
    if read:
        tree, _ = answers(program, script + "showtree 0\nshowtree 1\nshowtree 2\n")
        others, compared = read(os.path.join(FILES, *words))[0].differences(tree)
        wrong += others + ([] if compared == says else [f"{compared} values compared, and not {says}"])
    return wrong


def check_strange(program):
    """The made-up hosts, and the same ones with a file missing and one that is no JSON."""
    with tempfile.TemporaryDirectory() as folder:
        for host, (links, neighbours) in strange_hosts().items():
            for end, it in (("link", links), ("lldp", {"lldp": {"interface": neighbours}})):
                # one host's neighbour has a letter in Latin-1, which is no UTF-8
                text = json.dumps(it).encode().replace(b"\\u00e9", b"\xe9" if host.endswith("-2") else b"\\u00e9")
                with open(os.path.join(folder, f"{host}.{end}"), "wb") as file:
                    file.write(text)
        with open(os.path.join(folder, "b.vlan"), "w", encoding="utf-8") as file:
            json.dump([{"ifname": "eth2", "vlans": [{"vlan": 1, "flags": ["PVID"]}, {"vlan": 10, "vlanEnd": 20}]}], file)
        wrong = check_sample(program, "lldp.py", [folder], None, 0, STRANGE_TOLD, STRANGE_LOST)
        lines = imported("lldp.py", [folder])[0].splitlines()
        wrong += [f"not in the script: {line}" for line in STRANGE_LINES if line not in lines]
        os.remove(os.path.join(folder, "a.lldp"))
        with open(os.path.join(folder, "b.lldp"), "w", encoding="utf-8") as file:
            file.write("{")
        script, told, status = imported("lldp.py", [folder])
        unread = [line for line in told if "can't be read" in line]
        wrong += answers(program, script)[0] + ([] if status == 1 and len(unread) == 2 else [f"status {status}, {unread}"])
    return wrong


EMPTY = "no bridge is read: the network is empty"
TABLE = """one a:1 b:Te1/0/1 2.5gb 7 vlans=10,20-29
two a:2 b:4096
three a:2 b:2 1000
four a:2 b:2 1G 65536
five a:2 b:2 vlans=4095
six:1 a:2
seven seventeen-letters:1 a:2
one a:3
eight a:1
nine a:2 b:2 1G 7 colour=blue
switch a mac=001b.21AA.0001 region=HQ priority=4096 priority2=8192
switch b mac=00:1b:21:aa:00:01
switch c mac=00:1b:21:aa:00
switch d region=nowhere
region HQ revision=1 1=10,20 2=30
region HX 1=10 2=10
region HY revision=65536
\x1b[2J
ten a:3 b:Gi1/0/1 10Gbit/s vlans=all
eleven a:4 b:TE1/0/1
switch e priority=4097
"""
TABLE_TOLD = [
    "assumed: MAC addresses, and so who is root where priorities are equal; priorities, regions",
    "line 2: 4096 is no port's number, 1 to 4095: two a:2 b:4096",
    "line 3: 1000 is a speed without a unit, which may be kb/s, Mb/s or Gb/s: write 1000k, 1000M or 1000G: three a:2 b:2 1000",
    "line 4: 65536 is no key, 0 to 65535: four a:2 b:2 1G 65536",
    "line 5: 4095 is no VID, or no two with the first one not greater: five a:2 b:2 vlans=4095",
    "line 6: six:1 is no name of a LAN: 1 to 16 letters, digits, _, - and ., the first a letter or a digit: six:1 a:2",
    "line 7: seventeen-letters is no name of a switch: 1 to 16 letters, digits, _, - and ., the first a letter or a digit: "
    "seven seventeen-letters:1 a:2",
    "line 8: the LAN one stands twice: one a:3",
    "line 9: the port a:1 stands twice: eight a:1",
    "line 10: colour=blue isn't one of vlans=: nine a:2 b:2 1G 7 colour=blue",
    "line 12: the MAC address 00:1b:21:aa:00:01 stands twice: switch b mac=00:1b:21:aa:00:01",
    "line 13: 00:1b:21:aa:00 is no MAC address: switch c mac=00:1b:21:aa:00",
    "line 16: VLAN 10 stands in two trees: region HX 1=10 2=10",
    "line 17: 65536 is no revision, 0 to 65535: region HY revision=65536",
    "line 18: a line has a LAN, and one port A:1 or more: \\x1b[2J",
    "line 20: the port b:TE1/0/1 stands twice: eleven a:4 b:TE1/0/1",
    "line 21: 4097 is no priority of a switch: a multiple of 4096 from 0 to 61440; 4096 is the next below: switch e priority=4097",
    "line 14: no line has the region nowhere: switch d region=nowhere",
]
TABLE_LINES = [
    "mstplan 2",
    "# bridge a", "addbridge a 00:1b:21:aa:00:01", "setmstconfid a 1 HQ", "setvid2mstid a 1 10,20", "setvid2mstid a 2 30", "settreeprio a 0 4096",
    "settreeprio a 2 8192", "addport a 1", "setkey a 1 7", "setportvlans a 1 10,20-29", "addport a 3",
    "# bridge b", "addbridge b 02:00:00:00:00:01", "# port b 1 is Te1/0/1", "addport b 1", "setkey b 1 7", "setportvlans b 1 10,20-29",
    "# port b 2 is Gi1/0/1", "addport b 2", "# bridge d", "addbridge d 02:00:00:00:00:02",
    "# LAN of a 1 and b Te1/0/1", "addlan one", "speed one 2500000", "plug a 1 one", "plug b 1 one",
    "# LAN of a 3 and b Gi1/0/1", "addlan ten", "speed ten 10000000", "plug a 3 ten", "plug b 2 ten",
]
# Tables with headers, of each the lines of cables in the script, and what is told. The first two are as NetBox exports cables, and imports them;
# then LibreNMS' links, which tell of each cable from both ends.
OF_PORTS = re.compile("# port |addlan|speed |plug |setkey|setportvlans")
HEADED = [
    ("""ID,Label,Device A,Termination A,Device B,Termination B,Status,Type,Rack A
1,c1,sw-1.example.net,xe-0/0/7,sw-2.example.net,xe-0/0/48,Connected,SMF,R1
2,,sw-1.example.net,PSU1,pdu-1,4,Connected,Power,R1
3,,sw-1.example.net,"xe-0/0/1,xe-0/0/2",sw-2.example.net,xe-0/0/1,Connected,SMF,
4,,sw-1.example.net,xe-0/0/3,,,Planned,SMF,
""", ["# port sw-1.example.net 7 is xe-0/0/7", "# port sw-2.example.net 48 is xe-0/0/48", "addlan c1", "plug sw-1.example.net 7 c1", "plug sw-2.example.net 48 c1"], [
        "line 4: xe-0/0/1,xe-0/0/2 is more than one port: 3,,sw-1.example.net,xe-0/0/1,xe-0/0/2,sw-2.example.net,xe-0/0/1,Connected,SMF,",
        "columns that aren't read: ID, Rack A", "cables that aren't connected by their status are left out: 1 planned",
        "cables of power, consoles and other things than interfaces are left out: 1"]),
    ("""side_a_device,side_a_type,side_a_name,side_b_device,side_b_type,side_b_name,status,label
a,dcim.interface,Ethernet1/1,b,dcim.interface,Ethernet2/1,connected,c1
a,dcim.consoleport,Console,t,dcim.consoleserverport,p1,connected,
""", ["# port a 1 is Ethernet1/1", "# port b 1 is Ethernet2/1", "addlan c1", "plug a 1 c1", "plug b 1 c1"],
     ["cables of power, consoles and other things than interfaces are left out: 1"]),
    ("""Local Device,Local Port,Remote Device,Remote Port,Protocol
sw1.example.com,Gi1/0/1,SW2,GigabitEthernet1/0/24,cdp
sw2,Gi1/0/24,sw1.example.com,GigabitEthernet1/0/1,cdp
sw1,Gi1/0/2,host,eth0,lldp
""", ["# port sw1 1 is Gi1/0/1", "# port sw1 2 is Gi1/0/2", "# port SW2 24 is GigabitEthernet1/0/24", "# port host 1 is eth0", "addlan sw1-SW2", "plug sw1 1 sw1-SW2",
      "plug SW2 24 sw1-SW2", "addlan sw1-host", "plug sw1 2 sw1-host", "plug host 1 sw1-host"],
     ["columns that aren't read: Protocol", "rows that tell of a cable again: 1"]),
    ("sep=;\r\nFrom;To;Speed (Mb/s);Trunk group;VLANs\r\na:Te1/0/1;b Te2/0/2;40000;ae3;10 20-29\r\na:Te1/0/2;b:3;10G;x;\r\na;b:4;;;\r\n",
     ["# port a 1 is Te1/0/1 of ae3", "setkey a 1 3", "setportvlans a 1 10,20-29", "# port b 2 is Te2/0/2 of ae3", "setkey b 2 3", "setportvlans b 2 10,20-29",
      "addlan a-b", "speed a-b 40000000", "plug a 1 a-b", "plug b 2 a-b"],
     ["line 4: x has no number, which is the key of its links: a:Te1/0/2;b:3;10G;x;", "line 5: no port of a is named: a;b:4;;;"]),
    ("Switch A;Port A;Switch B;Port B;Speed\na;1;b;1;10\na;2;b;2;100Mbps\na;Gi2/0/2;b;Gi0/0/0;\na;1\n",
     ["# port a 3 is Gi2/0/2", "# port b 3 is Gi0/0/0", "addlan a-b", "speed a-b 100000", "plug a 2 a-b", "plug b 2 a-b", "addlan a-b.2", "plug a 3 a-b.2",
      "plug b 3 a-b.2", "addlan a-1", "plug a 1 a-1"],
     ["line 2: 10 is a speed without a unit, which may be kb/s, Mb/s or Gb/s: write 10k, 10M or 10G: a;1;b;1;10"]),
    ("Name,Vendor,Model\nx,y,z\n", [], [
        "line 1: this header has no columns that name two switches and their ports (Switch A, Port A, Switch B, Port B), nor switches with a MAC or a "
        "priority: Name,Vendor,Model", EMPTY]),
]


def imported_table(text):
    """What links.py writes and tells of a table, and its status."""
    ran = subprocess.run([sys.executable, os.path.join(TOOLS, "links.py")], input=text.encode(), capture_output=True, check=False)
    return ran.stdout.decode(), ran.stderr.decode().splitlines(), ran.returncode


def check_headed(program):
    """Tables with headers."""
    wrong = []
    for text, wanted, told in HEADED:
        script, its, status = imported_table(text)
        lines, its = [it for it in script.splitlines() if OF_PORTS.match(it)], [it for it in its if not it.startswith("assumed: ")]
        wrong += [] if (lines, its, status) == (wanted, told, int(any("line " in it for it in told))) else [f"status {status}, {lines}, {its}"]
        wrong += answers(program, script)[0]
    return wrong


def check_table(program):
    """A table with lines that can't be read: each is told with its number and its text, and the others are in the script."""
    script, told, status = imported_table(TABLE)
    wrong = [] if status == 1 else [f"status {status}"]
    wrong += [f"told: {line}" for line in told if line not in TABLE_TOLD]
    wrong += [f"not told: {line}" for line in TABLE_TOLD if line not in told]
    wrong += [] if script.splitlines() == TABLE_LINES else script.splitlines()
    return wrong + answers(program, script)[0]


def check_words(_):
    """What each importer does with --help, with wrong words, and with what can't be read or written."""
    wrong = []
    for importer in fuzz.IMPORTERS:
        script = os.path.join(TOOLS, importer)
        for words, status in ((["--help"], 0), ([os.path.join(FILES, "none")], 1 if importer == "ovs.py" else 3),
                              (["a", "b", "c", "d"] if importer != "ovs.py" else [], 3 if importer == "links.py" else 2)):
            out, told, its = imported(importer, words)
            if its != status or ("usage: " in out) != (status == 0) or any("Traceback" in line for line in told):
                wrong.append(f"{importer} {' '.join(words)}: status {its}, {told[-1:]}")
        with open("/dev/full", "wb") as full:
            ran = subprocess.run([sys.executable, script, "--help"], stdout=full, stderr=subprocess.PIPE, text=True, check=False)
        if ran.returncode != 3 or "standard output can't be written" not in ran.stderr:
            wrong.append(f"{importer} with a full disk: status {ran.returncode}, {ran.stderr}")
    return wrong


def check_bundles(program):
    """The links that count as one, and the one LAN of a bridge that passes BPDUs on."""
    wrong = []
    for words, wanted in (
        (("ovs.py", ["ovs/bonds"]), "lag south-edge-7 8000.02:00:00:00:01:03.0007+8000.02:00:00:00:01:05.0001 speed 20000000 "
                                    "up south-edge-7,south-edge-8 lans south-edge-7,south-edge-8 "
                                    "ports edge:1,edge:4095,south:7,south:4095"),
        (("cisco.py", ["cisco/campus"]), "lag core1-core2 8000.00:1b:21:aa:00:01.0001+8000.00:1b:21:aa:00:02.0001 speed 2000000 "
                                         "up core1-core2,core1-core2.2 lans core1-core2,core1-core2.2 "
                                         "ports core1:2089,core1:4095,core2:2089,core2:4095"),
        (("cisco.py", ["cisco/nexus"]), "lag C-N-01-C-NX-02.2 8000.00:de:fb:10:00:01.0001+8000.00:de:fb:10:00:02.0001 speed 2000000 "
                                        "up C-N-01-C-NX-02.2,C-NX-01-CO-NX-02 lans C-N-01-C-NX-02.2,C-NX-01-CO-NX-02 "
                                        "ports CORE-NX-01:2048,CORE-NX-01:4095,CORE-NX-02:2048,CORE-NX-02:4095"),
    ):
        lines, _ = answers(program, imported(*words)[0] + "showlag\n")
        wrong += [] if lines == [wanted] else lines or [f"no bundle in {words[1][0]}"]
    plugs = [line.split()[-1] for line in imported("ovs.py", ["ovs/bonds"])[0].splitlines() if line.startswith("plug ")]
    ports = sorted(map(plugs.count, set(plugs)))[-2:]
    return wrong + ([] if ports == [3, 4] else [f"the relay and the hub have {ports} ports, and not 3 and 4"])


def check_cisco(program):
    """Roles that the switches print compared with a plan, by the importer itself, as they are and with one changed; and a switch
    with a tree for each VLAN, which is refused by name."""
    wrong = []
    with tempfile.TemporaryDirectory() as folder:
        shutil.copytree(os.path.join(FILES, "cisco", "campus"), folder, dirs_exist_ok=True)
        with open(os.path.join(folder, "acc1.mst"), "r+", encoding="utf-8") as file:
            text = file.read().replace("Gi1/0/2          Altn BLK", "Gi1/0/2          Desg FWD", 1)
            file.seek(0)
            file.write(text)
        other = [f"acc1 Gi1/0/2: the device says {its}" for its in ("Designated, the plan Alternate", "True, the plan False")]
        for where, status, lines in (
            ("cisco/campus", 0, ["114 values compared, 0 differ"]),
            (folder, 1, [*other, "114 values compared, 2 differ"]),
            ("cisco/nexus", 0, ["72 values compared, 0 differ"]),
            ("cisco/per-vlan", 1, ["0 values compared, 0 differ"]),
        ):
            out, told, its = imported("cisco.py", ["--check", program, where])
            if (out.splitlines(), its) != (lines, status):
                wrong.append(f"{where}: status {its}, {out}")
    refused = ["core1 is left out: its mode is rapid-pvst, which has a tree for each VLAN, and those aren't planned", EMPTY]
    return wrong + ([] if told == refused else told)


# Logs of sessions that can't be read, and why.
LOGS = {
    "a.log": ("a#sh run\nhostname a\n --More-- interface x\na#\n", "a.log line 3 has a pager's --More-- in it: log with `terminal length 0`"),
    "b.txt": ("b#sh run\nhostname b\nb#sh ver\nx\nb#sh run\nhostname c\nb#\n", "`show running-config` is in b.txt line 2 and in b.txt line 6, and not alike"),
    "c.log": ("c#sh run\nhostname c\nc#sh run\nhostname c\nc#\nd#sh span mst\nx\n", "c.log has no `show spanning-tree mst` behind a prompt"),
    "d.log": ("d>sh span mst detail\nx\n", "d.log has no `show spanning-tree mst` and no `show running-config` behind a prompt"),
}


def check_sessions(_):
    """The samples of Cisco's switches as logs of sessions, which make the same script; and logs that can't be read."""
    wrong = []
    for sample in ("campus", "nexus"):
        names = sorted(os.listdir(os.path.join(FILES, "cisco", sample)))
        files = fuzz.samples(*(f"cisco/{sample}/{it}" for it in names))
        scripts = ["\n".join(cisco.read_files(its)[0].script()) for its in (files, fuzz.logs(files))]
        wrong += [] if scripts[0] == scripts[1] else [f"{sample} has another script as logs"]
    told = cisco.read_files({name: text.encode() for name, (text, _) in LOGS.items()})[1]
    return wrong + ([] if told == [f"{name[0]} is left out: {why}" for name, (_, why) in LOGS.items()] else told)


# Changes of the sample nexus, each of a file, that leave something out; and what is told first then.
LEFT_OUT = [
    ("DIST-1.mst", "Te1/0/2          Altn BLK 2000 ", "Te1/0/2          Altn 2000 ", [
        "DIST-1.mst line 15 stands among ports, and isn't understood: Te1/0/2          Altn 2000      128.2    P2p",
        "CORE-NX-02 Eth1/11 hears of DIST-1.campus.example Te1/0/2, and DIST-1 Te1/0/2 isn't in MST0: that is left out",
        "DIST-1 Te1/0/2 hears of CORE-NX-02(FDO21410002) Eth1/11, and DIST-1 Te1/0/2 isn't in MST0: that is left out",
    ]),
    ("DIST-2.mst", "128.2    P2p", "128.1    P2p", [
        "DIST-2 Te1/0/2 has the number of Te1/0/1: it is left out",
        "CORE-NX-02 Eth1/12 hears of 7035.0910.0200 Te1/0/2, and DIST-2 Te1/0/2 isn't in MST0: that is left out",
        "DIST-2 Te1/0/2 hears of CORE-NX-02 Eth1/12, and DIST-2 Te1/0/2 isn't in MST0: that is left out",
    ]),
    ("DIST-2.config", " instance 2 vlan 20, 40\n", "", ["DIST-2: MST2 is printed, and isn't in the configuration: it is left out"]),
    ("CORE-NX-02.lldp", "Local Port id: Eth1/49\n", "", ["CORE-NX-02.lldp line 51: the entry before it names no neighbour"]),
    ("DIST-1.mst", "Bridge        address 7035.0910.0100", "Bridge        address 7035.0910.0200", ["DIST-2 has the MAC address of DIST-1: it is left out"]),
    ("DIST-1.mst", "##### MST0", "", ["DIST-1 is left out: DIST-1.mst has no MST0 with a line of its bridge"]),
]


def check_left_out(_):
    """What is told first where the sample of NX-OS is changed, and of nothing at all; and the status, which is 1."""
    wrong = []
    for name, old, new, wanted in LEFT_OUT:
        with tempfile.TemporaryDirectory() as folder:
            shutil.copytree(os.path.join(FILES, "cisco", "nexus"), folder, dirs_exist_ok=True)
            with open(os.path.join(folder, name), "r+", encoding="utf-8") as file:
                text = file.read().replace(old, new, 1)
                file.seek(0)
                file.truncate()
                file.write(text)
            _, told, status = imported("cisco.py", [folder])
            if status != 1 or told[:len(wanted)] != wanted:
                wrong.append(f"{name} without {old!r}: status {status}, {told[:len(wanted)]}")
    with tempfile.TemporaryDirectory() as folder:
        for importer in ("cisco.py", "lldp.py"):
            _, told, status = imported(importer, [folder])
            wrong += [] if (told, status) == ([EMPTY], 1) else [f"{importer} of nothing: status {status}, {told}"]
    _, told, status = imported("links.py", [os.devnull])
    return wrong + ([] if (told, status) == ([EMPTY], 1) else [f"links.py of nothing: status {status}, {told}"])


def check_names(_):
    """In the names of cables between switches stand the numbers of just these switches, and a mark where there are more cables; and each
    cable has another name."""
    wrong = []
    for importer, sample, count in (("lldp.py", "lab", 8), ("cisco.py", "cisco/campus", 10), ("cisco.py", "cisco/nexus", 6)):
        plugs = {}
        for words in map(str.split, imported(importer, [sample])[0].splitlines()):
            if words[0] == "plug":
                plugs.setdefault(words[3], []).append(words[1])
        links = {lan: its for lan, its in plugs.items() if len(its) == 2}
        marked = {lan: re.findall("[0-9]+", re.sub("[.][0-9]$", "", lan)) for lan in links}
        wrong += [f"{lan} joins {its}" for lan, its in links.items() if marked[lan] != re.findall("[0-9]+", " ".join(its))]
        wrong += [] if len(links) == count else [f"{len(links)} cables in {sample}, and not {count}"]
    return wrong


def main():
    if len(sys.argv) != 2:
        sys.exit(__doc__)
    program = os.path.abspath(sys.argv[1])
    checks = [(" ".join([importer, *words]), check_sample(program, importer, words, *more)) for importer, words, *more in SAMPLES]
    others = {"made-up hosts": check_strange, "a table": check_table, "tables with headers": check_headed, "words": check_words, "bundles": check_bundles,
              "Cisco's roles": check_cisco, "logs of sessions": check_sessions, "what is left out": check_left_out, "names of cables": check_names}
    checks += [(name, its(program)) for name, its in others.items()]
    checks += [(f"{fuzz.INPUTS} inputs of {importer}", fuzz.check(program, importer)) for importer in fuzz.IMPORTERS]
    for name, wrong in checks:
        for line in wrong:
            print(f"FAILED {name}: {line}")
    failed = sum(1 for _, wrong in checks if wrong)
    print(f"{len(checks) - failed} passed, {failed} failed")
    sys.exit(1 if failed else 0)


if __name__ == "__main__":
    main()
