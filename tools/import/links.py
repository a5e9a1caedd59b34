#!/usr/bin/env python3
"""Makes a script of tables of cables: a line for each LAN with the ports on it, or a table with a header, and perhaps what switches are.

usage: links.py [FILE ...]    (standard input if left out, or -)

A table with a header (CSV, with ; , tabs or | between cells) has a row for each cable. Which column is which, the words of its head say, in
any order: a side (A and B, local and remote, from and to) and a switch or device, or a port, interface or termination. So what NetBox
exports of cables is read, its form for imports too, and what LibreNMS has of links:

    Switch A;Port A;Switch B;Port B;Speed;LAG;VLANs          Device A,Termination A,Device B,Termination B,Status
    core1;Te1/0/3;dist1;Te1/0/1;10G;;10,20,30                Local device,Local port,Remote device,Remote port

There may be columns of the cable's name, its speed, its LAG and VLANs. Of a table with the columns Switch (or Name, Device) and MAC, Priority,
Priority TREE or Region each row is a switch; where there is one, cables to other devices are left out, and counted. So are cables that aren't
connected by their status, and those of power and consoles. Columns that aren't read are told. A cable that is told from both ends counts once.

A table without a header has lines:

    LAN A:1 B:1 [SPEED] [KEY] [vlans=VIDS]
    switch A [mac=MAC] [priority=PRIORITY] [priorityTREE=PRIORITY ...] [region=REGION]
    region REGION [revision=REVISION] [TREE=VIDS ...]

LAN is a name, A and B are switches and 1 a port: its number, 1 to 4095, or what its interface is called (core1:Te1/0/1). A line may have more
than two ports, or one. What stands behind # is left out. Lines of all kinds may stand in any order, and several files are one table. For
example:

    core1-dist1 core1:1 dist1:Te1/0/1 10G vlans=10,20,30
    switch core1 mac=00:1b:21:aa:00:01 priority=4096 region=HQ
    switch dist1 mac=001b.21aa.0002 region=HQ
    region HQ revision=1 1=10,20 2=30

and: links.py examples/import/campus/cables.csv examples/import/campus/switches.csv | mstplan run -

SPEED has a unit: 10G, 2.5G, 10GB, 100M or 64k; a LAN without one has the planner's own default. KEY, 0 to 65535, is the aggregation key of all
these ports: links between two switches with one key count as one link. In a LAG's name it is the last number, and ports are of that bundle.
VIDS are like 10,20-29, or all, or none, and all these ports are members of these VLANs alone; without them they are members of all. MAC is in
any form that devices print. PRIORITY is a multiple of 4096, in the CIST or in TREE. A region's line gives its revision, 0 to 65535, and the
VLANs of each tree from 1 to 4094; other VLANs are the CIST's. A switch that is in no region is one of its own.

Ports that are called by a name have the last number in it, or where another port of their switch has that, one above all of these; a comment
in the script says which port is which. Long names of switches are cut. What a table doesn't say is what a new switch has, and switches
without a MAC address get 02:00:00:00:00:01 and on, in the order in which they come. What was assumed is told on standard error. A line that
can't be read or is out of range is told there first, with its number and its text, and left out, with status 1; so it is of a table without a
switch. Status 2 stands for wrong words, 3 for a file that can't be read and for standard output that can't be written.
"""

import os
import re
import sys

sys.dont_write_bytecode = True

from cables import REGION, End, Link, Switch, Tables, Unread, mac, port_of, priority, speed, vids, whole  # noqa: E402
from columns import Rows, is_of_cells  # noqa: E402
from network import HIGHEST_KEY, HIGHEST_VID, MOST_TREES, STATUS_FAULT, Region, called, contents, decoded, guarded, warn, write  # noqa: E402

NAME = re.compile(r"[A-Za-z0-9][A-Za-z0-9_.-]{0,15}")
PORT = re.compile(r"([^:=]*):([^=]+)")
PRIORITY = re.compile("priority([0-9]{0,4})")
NO_HEADER = "this header has no columns that name two switches and their ports (Switch A, Port A, Switch B, Port B), nor switches with a MAC or a priority"


def name_of(word, what):
    if not NAME.fullmatch(word):
        raise Unread(f"{word} is no name of a {what}: 1 to 16 letters, digits, _, - and ., the first a letter or a digit")
    return word


def options(words, keys):
    """The words KEY=VALUE as a dict, the keys being forms. Raises Unread for any other word, and for a key that isn't among these or stands twice."""
    found = {}
    for word in words:
        key, equals, its = word.partition("=")
        if not equals or not any(re.fullmatch(form, key) for form in keys.values()):
            raise Unread(f"{word} isn't one of {', '.join(f'{it}=' for it in keys)}")
        if key in found:
            raise Unread(f"{key}= stands twice")
        found[key] = its
    return found


def link(words):
    """A LAN of a line's words."""
    found = [PORT.fullmatch(word) for word in words[1:]]
    count = next((at for at, it in enumerate(found) if not it), len(found))
    if not count:
        raise Unread("a line has a LAN, and one port A:1 or more")
    ends = [End(name_of(it[1], "switch"), port_of(it[2])) for it in found[:count]]
    its, others = Link(name_of(words[0], "LAN"), ends), words[1 + count:]
    named = options([word for word in others if "=" in word], {"vlans": "vlans"})
    others = [word for word in others if "=" not in word]
    if len(others) > 2:
        raise Unread(f"behind the ports stand a speed, a key and vlans= alone, and not {others[2]}")
    if others:
        its.speed = speed(others[0])
    if len(others) == 2:
        key = whole(others[1], "key", 0, HIGHEST_KEY)
        for end in ends:
            end.key = key
    if "vlans" in named:
        its.has_vlans, its.vlans = True, vids(named["vlans"])
    return its


def switch(words):
    """A switch of the words of its line, behind `switch`."""
    named = options(words[1:], {"mac": "mac", "priority": PRIORITY, "priorityTREE": PRIORITY, "region": "region"})
    its = Switch(mac(named["mac"]) if "mac" in named else None, named.get("region"))
    for key, value in named.items():
        if found := PRIORITY.fullmatch(key):
            its.priorities[whole(found[1] or "0", "tree", 0, HIGHEST_VID)] = priority(value)
    return name_of(words[0], "switch"), its


def region(words):
    """A region of the words of its line, behind `region`."""
    if not REGION.fullmatch(words[0]):
        raise Unread(f"{words[0]} is no name of a region: 1 to 32 letters, digits and other characters of ASCII")
    its, named = Region(words[0]), options(words[1:], {"revision": "revision", "TREE": "[0-9]+"})
    its.revision = whole(named.pop("revision", "0"), "revision", 0, HIGHEST_KEY)
    for tree, value in named.items():
        number, members = whole(tree, "tree", 1, HIGHEST_VID), vids(value)
        if members is None:
            raise Unread(f"{tree}={value}: all VLANs of a region are a list, 1-{HIGHEST_VID}")
        twice = next((vid for vid in sorted(members) if any(vid in other for other in its.table.values())), None)
        if twice:
            raise Unread(f"VLAN {twice} stands in two trees")
        its.table[number] = its.table.get(number, set()) | members
    if len(its.table) > MOST_TREES:
        raise Unread(f"a region has at most {MOST_TREES} trees besides the CIST")
    return its


def add(tables, words, where, line):
    """What a line tells. Raises Unread where it can't be."""
    is_link = len(words) < 2 or PORT.fullmatch(words[1])
    if words[0] == "switch" and not is_link:
        name, its = switch(words[1:])
        its.where, its.line = where, line
        tables.add_switch(name, its)
    elif words[0] == "region" and not is_link:
        tables.add_region(region(words[1:]))
    else:
        tables.add_link(link(words))


def read_lines(tables, text, place):
    """Takes the lines of a table without a header."""
    for number, line in enumerate(text.split("\n"), start=1):
        words, where = line.split("#")[0].split(), f"{place}line {number}"
        try:
            if words:
                add(tables, words, where, line.strip())
        except Unread as why:
            tables.refuse(where, why, line.strip())


def read(texts):
    """The tables of some texts, each with what its lines are called by."""
    tables = Tables()
    rows = Rows(tables)
    for place, text in texts:
        if rows.read(text, place):
            continue
        if is_of_cells(text):
            tables.refuse(f"{place}line 1", NO_HEADER, text.split("\n")[0].strip())
        else:
            read_lines(tables, text, place)
    rows.close()
    tables.close()
    return tables


def read_files(files):
    """The network that files, bytes by name, tell of, and lines of what can't be read."""
    told = []
    tables = read([(f"{os.path.basename(name)} " if len(files) > 1 else "", decoded(data, name, told.append)) for name, data in files.items()])
    tables.told[:0] = told
    return tables.network(), tables.unread


def main():
    files = {}
    for path in called(__doc__, 0) or ["-"]:
        try:
            files[path] = contents(path)
        except OSError as why:
            warn(f"{path} can't be read: {why.strerror}")
            sys.exit(STATUS_FAULT)
    write(*read_files(files))


if __name__ == "__main__":
    guarded(main)
