#!/usr/bin/env python3
"""Makes a small network of the kernel's bridges, imports what they say of themselves, plans it and compares: README.md.

usage: kernel.py PROGRAM [FOLDER]    (as root; FOLDER keeps what was collected, and the scripts)

It needs ip (iproute2), lldpd with lldpctl, and tcpdump. All that it makes is in network namespaces named mstplan-lab-*, which it
takes away at its end. It takes about a minute, and exits with 1 where a plan and the kernel differ.
"""

import json
import os
import subprocess

from lab import inside, ip, main, make_spaces, run, settle, start

import lldp

TIMES = "forward_delay 400 hello_time 100 max_age 600".split()
# The bridges, each a host, with their priorities. The hub is a bridge with STP off, and the desk no bridge at all.
HOSTS = {"core-1": 4096, "core-2": 8192, "dist-1": 32768, "dist-2": 32768, "access-north-side-1": 32768}
HUB, DESK = "hub", "desk"
# What the desk says it is named: a stranger's octets, no UTF-8 among them.
DESK_NAME = b'd"esk\xe9\x1b[2J'
# The cables: two ports, each as its host and the number in its interface's name.
CABLES = [
    ("core-1", 1, "core-2", 1),
    ("core-1", 2, "dist-1", 1),
    ("core-2", 2, "dist-2", 1),
    ("dist-1", 2, "dist-2", 2),
    ("dist-1", 3, "access-north-side-1", 1),
    ("dist-2", 3, "access-north-side-1", 2),
    ("dist-2", 4, "access-north-side-1", 3),
    ("core-1", 3, HUB, 1),
    ("core-2", 3, HUB, 2),
    ("dist-2", 5, HUB, 3),
    ("dist-2", 6, HUB, 4),
    ("access-north-side-1", 4, DESK, 1),
    ("access-north-side-1", 5, "access-north-side-1", 6),
]
# What is set of ports: path costs, and priorities in the kernel's 64 steps.
SETTINGS = [("dist-1", 1, "cost", 20), ("dist-2", 4, "priority", 16), ("dist-2", 5, "cost", 3)]
# The ports that go down.
DOWN = [("core-1", 1), ("dist-1", 2), ("dist-2", 4)]
# A port in each LAN: tcpdump sees what it sends and what it receives.
LISTENING = [(host, f"p{number}") for host, number, other, _ in CABLES if other != HUB] + [("core-2", "p3")]


def address(host, port):
    return f"02:00:00:00:{list(HOSTS).index(host) + 1:02x}:{port:02x}"


def make_network():
    """Makes bridges, cables between them, and what is set."""
    for host, priority in HOSTS.items():
        ip(host, "link", "add", "br0", "address", address(host, 0), "type", "bridge", "stp_state", "1", *TIMES)
        ip(host, "link", "set", "br0", "type", "bridge", "priority", str(priority))
    # What a hub does: it learns nothing, and passes on BPDUs, and LLDP too.
    ip(HUB, "link", "add", "br0", "type", "bridge", "stp_state", "0", "ageing_time", "0", "group_fwd_mask", "0x4000")
    for one, first, other, second in CABLES:
        near, far = (f"p{first}", "netns", "mstplan-lab-" + one), (f"p{second}", "netns", "mstplan-lab-" + other)
        run("ip", "link", "add", *near, "type", "veth", "peer", "name", *far)
    ends = [cable[:2] for cable in CABLES] + [cable[2:] for cable in CABLES]
    for host, port in ends:
        if host in HOSTS:
            ip(host, "link", "set", f"p{port}", "address", address(host, port))
        if host != DESK:
            ip(host, "link", "set", f"p{port}", "master", "br0")
    for host, port, what, value in SETTINGS:
        ip(host, "link", "set", f"p{port}", "type", "bridge_slave", what, str(value))
    for host, port in ends:
        ip(host, "link", "set", f"p{port}", "up")
    for host in (*HOSTS, HUB):
        ip(host, "link", "set", "br0", "up")


def start_lldpd(stack, folder):
    """An lldpd in each host's namespace, and in that of the desk, which isn't imported; each with a socket of its own."""
    for host in (*HOSTS, DESK):
        path = os.path.join(folder, host)
        name = DESK_NAME if host == DESK else host.encode()
        with open(path + ".conf", "wb") as file:
            file.write(b"configure system hostname '%b'\n" % name)
            file.write(b"configure system description lab\nconfigure lldp tx-interval 1\n")
        start(stack, inside(host, "lldpd", "-d", "-u", path + ".socket", "-O", path + ".conf"), path + ".log")


def links(host):
    return run(*inside(host, "ip", "-j", "-d", "link"))


def states():
    """What the kernel says of ports and bridges, but for its timers."""
    for host in HOSTS:
        for link in json.loads(links(host)):
            for data in link.get("linkinfo", {}).values():
                if isinstance(data, dict):
                    yield data.get("state")
                    yield [data.get(it) for it in ("root_id", "bridge_id", "designated_port", "root_path_cost", "root_port")]


def collect(folder, sockets):
    """Writes what the importer reads, and reads it."""
    settle(states, ("listening", "learning"))
    os.makedirs(folder, exist_ok=True)
    for host in HOSTS:
        with open(os.path.join(folder, f"{host}.lldp"), "wb") as file:
            subprocess.run(("lldpctl", "-u", os.path.join(sockets, host + ".socket"), "-f", "json0"), check=True, stdout=file)
        with open(os.path.join(folder, f"{host}.link"), "w", encoding="utf-8") as file:
            file.write(links(host))
    return lldp.read(folder)


def experiment(lab, stack, folder):
    """The network as it stands, and then with cables that are down."""
    make_spaces(stack, (*HOSTS, HUB, DESK))
    make_network()
    start_lldpd(stack, folder)
    network, unread = collect(os.path.join(lab.folder, "before"), folder)
    script = lab.imported(network, unread)
    lab.compare("as it stands", network, script)
    lab.check("as it stands", script, LISTENING)
    lans = {f"{bridge.label} {port.label}": port.lan for bridge in network.bridges for port in bridge.ports.values()}
    edits = "".join(f"lan {lans[f'{host} br0 p{port}']} down\n" for host, port in DOWN)
    lab.changes(script, edits)
    for host, port in DOWN:
        ip(host, "link", "set", f"p{port}", "down")
    network, _ = collect(os.path.join(lab.folder, "after"), folder)
    lab.compare("with cables down", network, script + edits)
    lab.check("with cables down", script + edits, LISTENING)


if __name__ == "__main__":
    main(__doc__, ("ip", "lldpd", "lldpctl", "tcpdump"), experiment)
