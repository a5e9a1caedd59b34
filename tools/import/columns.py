"""Tables with a header, as spreadsheets, NetBox and LibreNMS write them, for links.py: a row for each cable, or for each switch.

What a column is the words of its head say, in whatever order and case: a side (A or B) and a switch or a port, or what it is of the whole row.
Rows become the links and switches of `cables.Tables`.
"""

import collections
import csv
import io
import re

from cables import DIGITS, REGION, End, Link, Switch, Unread, mac, port_of, priority, speed, vids, whole
from network import HIGHEST_KEY, HIGHEST_SPEED, HIGHEST_VID, Region, listed, short

MARKS = ";,\t|"
LONGEST_CELL = 200
# The words of a head that say which side it is of, and what it is of a side, of a row that is a cable, and of one that is a switch.
SIDES = {
    "a": "a local from source src near 1 one left".split(),
    "b": "b z remote to target destination dest dst far 2 two right neighbor neighbour peer".split(),
}
SWITCH, KEY = "switch device host hostname node bridge sysname system".split(), "key lag bundle group channel aggregation bond".split()
OF_SIDE = {"switch": SWITCH, "port": "port interface ifname if termination name".split(), "key": KEY, "type": ["type"]}
OF_CABLE = {
    "lan": "cable link lan label name".split(), "speed": "speed bandwidth rate".split(), "key": KEY, "vlans": "vlan vlans vids vid".split(),
    "status": "status active state".split(), "type": ["type"],
}
OF_SWITCH = {"priority": "priority prio".split(), "mac": ["mac"], "region": ["region"], "switch": [*SWITCH, "name"]}
# Identifiers of a database are no names; what else is said of a switch isn't its name; and what may stand beside a side.
NUMBERED, NO_NAMES, BESIDE = {"id", "index"}, {"type", "role", "bay", "model", "status", "ip"}, {"end", "side"}
UNIT = re.compile(r"\b([kmgt])?(?:b|bit|bits|bps|b/s|bit/s|bits/s)\b")
# What a cell says where there is nothing, and of a cable that is plugged; cables that aren't of Ethernet; what an end of one that is may be.
NOTHING, PLUGGED = ("", "-", "\u2014", "n/a", "null", "\\n"), ("", "connected", "active", "up", "1", "true", "yes")
NO_ETHERNET, INTERFACES = re.compile(".*(power|console).*"), ("", "interface", "dcim.interface")


def words_of(head):
    """The words of a head, in small letters, and its numbers: `localPort`, `local_port` and `Local port` are the same."""
    return re.findall("[a-z/]+|[0-9]+", re.sub("([a-z])([A-Z])", r"\1 \2", head).lower())


def kind_of(words, kinds):
    """What a column with these words is: the first of these kinds that has one of them, or None."""
    return next((kind for kind, its in kinds.items() if set(words) & set(its)), None)


class Columns:
    """The columns of a header by what they are: of cables those by side and those of the whole row, of switches those of OF_SWITCH. `unit` is
    that of speeds, where the head tells it."""

    def __init__(self, heads):
        self.heads, self.sides, self.row, self.switch, self.unit = heads, {"a": {}, "b": {}}, {}, {}, None
        alone = {}
        for at, head in enumerate(heads):
            words = words_of(head)
            if not set(words) & NUMBERED:
                self.add_of_cable(at, words, alone)
                self.add_of_switch(at, words)
        # a switch and a port of no side are of the first one, and what is of a side alone is its switch where its port is another column
        self.sides["a"] = {**alone, **self.sides["a"]}
        for its in self.sides.values():
            if "both" in its and "port" in its:
                its.setdefault("switch", its.pop("both"))
        self.is_of_cables = all("switch" in its and "port" in its or "both" in its for its in self.sides.values())
        self.is_of_switches = not self.is_of_cables and "switch" in self.switch and len(self.switch) > 1

    def add_of_cable(self, at, words, alone):
        side = next((side for side, its in SIDES.items() if set(words) & set(its)), None)
        if side is None:
            kind = kind_of(words, OF_CABLE)
            if kind == "speed" and kind not in self.row and (found := UNIT.search(" ".join(words))):
                self.unit = found[1] or ""
            self.put(at, *((self.row, kind) if kind else (alone, kind_of(words, OF_SIDE))))
        else:
            is_whole = set(words) <= {*SIDES[side], *BESIDE}
            self.put(at, self.sides[side], "both" if is_whole else kind_of(words, OF_SIDE))

    def add_of_switch(self, at, words):
        kind = kind_of(words, OF_SWITCH)
        if kind == "priority":
            self.put(at, self.switch, (kind, next((int(it) for it in words if DIGITS.fullmatch(it)), 0)))
        elif kind != "switch" or not set(words) & NO_NAMES:
            self.put(at, self.switch, kind)

    @staticmethod
    def put(at, where, kind):
        """Gives a column its kind, unless it has none or one before it has that."""
        if kind is not None:
            where.setdefault(kind, at)

    def unread(self):
        """The heads of columns that aren't read."""
        its = [at for it in (*self.sides.values(), self.row) for at in it.values()] if self.is_of_cables else self.switch.values()
        return [head for at, head in enumerate(self.heads) if head and at not in its]


def is_row(line):
    return bool(line.strip()) and not line.startswith(("#", "sep="))


def header(text):
    """The mark between cells and the columns of a text whose first line is a header; None where it is none."""
    first, found = next(filter(is_row, text.split("\n")), ""), []
    for mark in MARKS:
        try:
            columns = Columns([it.strip() for it in next(csv.reader([first.rstrip("\r")], delimiter=mark), [])])
        except csv.Error:
            continue
        if columns.is_of_cables or columns.is_of_switches:
            found.append((mark, columns))
    return max(found, key=lambda it: len(it[1].heads), default=None)


def is_of_cells(text):
    """Whether a text begins as a table with a header, understood or not: its first line has cells, and neither ports nor options."""
    first = next(filter(is_row, text.split("\n")), "")
    return not set(":=") & set(first) and (any(mark in first for mark in ";\t|") or first.count(",") > 1)


class Rows:
    """Reads the rows of tables with headers into Tables."""

    def __init__(self, tables):
        self.tables, self.rows = tables, []
        # the switches of tables of switches, rows that aren't links, and devices that no table of switches has
        self.known, self.regions, self.again, self.unplugged, self.others, self.absent = None, set(), 0, collections.Counter(), 0, {}

    def read(self, text, place):
        """Takes a text whose first line is a header; whether it is one."""
        found = header(text)
        if found is None:
            return False
        mark, columns = found
        ignored = columns.unread()
        if ignored:
            self.tables.told.append(f"{place}columns that aren't read: {listed(ignored)}")
        reader, is_first = csv.reader(io.StringIO(text, newline=""), delimiter=mark), True
        while True:
            try:
                cells = next(reader, None)
            except csv.Error as why:
                self.tables.refuse(f"{place}line {reader.line_num}", f"it can't be read ({why})", "the rest is left out")
                return True
            if cells is None:
                return True
            cells = [it.strip() for it in cells]
            if any(cells) and is_row(cells[0] or " x"):
                if not is_first:
                    self.take(cells, columns, f"{place}line {reader.line_num}", mark.join(cells))
                is_first = False

    def take(self, cells, columns, where, line):
        """A row: of a switch at once, of a cable when all switches are known."""
        if columns.is_of_switches:
            try:
                self.known = self.known or {}
                self.add_switch(cells, columns, where, line)
            except Unread as why:
                self.tables.refuse(where, why, line)
        else:
            self.rows.append((cells, columns, where, line))

    @staticmethod
    def cell(cells, at):
        """What a cell says, which is the empty text where there is nothing."""
        its = cells[at] if at is not None and at < len(cells) else ""
        if len(its) > LONGEST_CELL:
            raise Unread(f"a cell of more than {LONGEST_CELL} letters")
        return "" if its.lower() in NOTHING else its

    def add_switch(self, cells, columns, where, line):
        name = self.cell(cells, columns.switch["switch"])
        if not name:
            raise Unread("no switch is named")
        self.known[name.lower()] = name
        its = Switch(where=where, line=line)
        for kind, at in columns.switch.items():
            told = self.cell(cells, at)
            if told and kind == "mac":
                its.mac = mac(told)
            elif told and kind == "region":
                self.add_region(told)
                its.region = told
            elif told and isinstance(kind, tuple):
                its.priorities[whole(str(kind[1]), "tree", 0, HIGHEST_VID)] = priority(told)
        self.tables.add_switch(name, its)

    def add_region(self, name):
        """A region that a cell names: lines of another table may tell more of it."""
        if not REGION.fullmatch(name):
            raise Unread(f"{name} is no name of a region: 1 to 32 letters, digits and other characters of ASCII")
        self.regions.add(name)

    # ---- cables

    def close(self):
        """Makes links of the rows, when all switches are known, and tells what isn't a link."""
        names = self.switches()
        for cells, columns, where, line in self.rows:
            try:
                self.add_cable(cells, columns, names)
            except Unread as why:
                self.tables.refuse(where, why, line)
        tell = self.tables.told.append
        untold = sorted(self.regions - self.tables.regions.keys())
        self.tables.regions |= {it: Region(it) for it in untold}
        if untold:
            tell(f"assumed: revision 0 and no tree besides the CIST in the regions {', '.join(untold)}")
        if self.unplugged:
            tell(f"cables that aren't connected by their status are left out: {', '.join(f'{count} {it}' for it, count in self.unplugged.items())}")
        if self.others:
            tell(f"cables of power, consoles and other things than interfaces are left out: {self.others}")
        if self.absent:
            tell(f"cables to what no table of switches has are left out: {sum(self.absent.values())}, to {listed(self.absent)}")
        if self.again:
            tell(f"rows that tell of a cable again: {self.again}")

    def switches(self):
        """What the switches of the rows are called, by what rows write: letters of either case are the same, and a name with a domain behind it
        is the one without, where that stands somewhere and no other domain stands behind it."""
        names = {}
        for name in (*self.tables.bridges, *self.written()):
            names.setdefault(name.lower(), name)
        fronts = collections.Counter(it.partition(".")[0] for it in names if "." in it)
        return {it: names[front] if (front := it.partition(".")[0]) in names and fronts[front] == 1 else names[it] for it in names}

    def written(self):
        """The switches of the rows, as they are written."""
        for cells, columns, _, _ in self.rows:
            for its in columns.sides.values():
                at = its["switch"] if "switch" in its and "port" in its else its["both"]
                if at < len(cells):
                    yield cells[at] if at == its.get("switch") else parted(cells[at])[0]

    def end(self, cells, columns, side, names):
        """An end of a cable, or None where the row names none."""
        its = columns.sides[side]
        if "switch" in its and "port" in its:
            switch, port = self.cell(cells, its["switch"]), self.cell(cells, its["port"])
        else:
            switch, port = parted(self.cell(cells, its["both"]))
        if not switch and not port:
            return None
        if not switch or not port:
            raise Unread(f"no port of {switch} is named" if switch else f"no switch of the port {port} is named")
        if "," in port:
            raise Unread(f"{port} is more than one port")
        found = End(names[switch.lower()], port_of(port))
        group = self.cell(cells, its.get("key", columns.row.get("key")))
        if group:
            last = re.findall("[0-9]+", group)
            if not last:
                raise Unread(f"{group} has no number, which is the key of its links")
            found.key, found.bundle = whole(last[-1], "key", 0, HIGHEST_KEY), None if DIGITS.fullmatch(group) else short(group)
        return found

    def add_cable(self, cells, columns, names):
        """A link of a row. Raises Unread where there is none to be read of it."""
        row = {kind: self.cell(cells, at) for kind, at in columns.row.items()}
        kinds = [self.cell(cells, its.get("type")).lower() for its in columns.sides.values()]
        status = row.get("status", "").lower()
        if any(it not in INTERFACES for it in kinds) or NO_ETHERNET.fullmatch(row.get("type", "").lower()):
            self.others += 1
        elif status not in PLUGGED:
            self.unplugged[status] += 1
        else:
            self.add_ends([it for it in (self.end(cells, columns, side, names) for side in columns.sides) if it], row, columns.unit)

    def add_ends(self, ends, row, unit):
        if not ends:
            raise Unread("no switch is named")
        absent = [it.switch for it in ends if self.known is not None and it.switch.lower() not in self.known]
        if absent:
            self.absent[absent[0]] = self.absent.get(absent[0], 0) + 1
            return
        links = {id(self.tables.plugged.get(it.place)): self.tables.plugged.get(it.place) for it in ends}
        first = next(iter(links.values()))
        if len(ends) > 1 and len(links) == 1 and first and {it.place for it in first.ends} == {it.place for it in ends}:
            self.again += 1
            return
        told = re.sub(" *[,;] *| +", ",", row.get("vlans", ""))
        name = row.get("lan") or None
        its = Link(None if name in self.tables.lans else name, ends, has_vlans=bool(told), vlans=vids(told) if told else None)
        if row.get("speed"):
            its.speed = speed_of(row["speed"], unit)
        self.tables.add_link(its)


def parted(cell):
    """The switch and the port of a cell that has both: core1:Te1/0/1 or core1 Te1/0/1."""
    switch, _, port = cell.partition(":") if ":" in cell.split(" ")[0] else cell.partition(" ")
    return switch.strip(), port.strip()


def speed_of(told, unit):
    """A speed of a cell; a number alone has the unit that its head has, if it has one."""
    if unit is None or not DIGITS.fullmatch(told):
        return speed(told)
    if unit:
        return speed(f"{told}{unit}")
    return whole(str(int(told) // 1000), "speed in kb/s", 1, HIGHEST_SPEED)
