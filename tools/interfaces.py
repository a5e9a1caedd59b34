"""What ports are called, by lines of a script that are comments to mstplan and that the tools read (docs/RULES.md, "Names of ports"):

    # port core1 1 is Te1/0/1
    # port core1 4095 is Te1/0/2 of Po1

The last line of a port counts. `save` and `edits` print no comments, so names are read from the script itself.
"""

import re

LONGEST_INTERFACE = 100
LINE = re.compile(r"#[ \t]*port[ \t]+([A-Za-z0-9][A-Za-z0-9_.-]{0,15})[ \t]+([0-9]{1,10})[ \t]+is[ \t]+(\S.*?)[ \t]*")
# The words of edits behind which a bridge and the number of a port stand.
OF_PORTS = (
    "addport", "delport", "plug", "unplug", "setkey", "settreeportprio", "setportpathcost", "setportrestrrole", "settreeportcost", "setportvlans",
)


def line_of(bridge, number, interface):
    """The line that says what a port is called: its interface, perhaps with ` of ` and its bundle behind it."""
    return f"# port {bridge} {number} is {interface[:LONGEST_INTERFACE].strip()}"


def names_in(text):
    """What the lines of a script as a text call ports, by (bridge, number). A name that isn't printable or is too long is none."""
    found = {}
    for line in text.split("\n"):
        its = LINE.fullmatch(line.strip(" \t\r"))
        if its and its[3].isprintable() and len(its[3]) <= LONGEST_INTERFACE:
            found[its[1], int(its[2])] = its[3]
    return found


def port_of(edit):
    """The port that an edit is of, as (bridge, number); None where it is of none."""
    word, *its = edit.split()
    return (its[0], int(its[1])) if word in OF_PORTS and its[1:] and its[1].isdecimal() else None


class Names:
    """What some scripts, which are bytes, call ports: what a later one says counts."""

    def __init__(self, *scripts):
        self.found = {}
        for script in scripts:
            self.found |= names_in(script.decode(errors="replace"))

    def ends(self):
        """The interface of each port's cable, and the bundle that this is of or None, by (bridge, number)."""
        parts = {port: name.partition(" of ") for port, name in self.found.items()}
        return {port: (interface.strip(), bundle.strip() or None) for port, (interface, _, bundle) in parts.items()}

    def by_port(self):
        """The names by ports as texts have these, `core1:1`: of each its interface, and behind it the bundle that this is of where it is of one."""
        return {f"{bridge}:{number}": [name for name in names if name] for (bridge, number), names in self.ends().items()}

    def port(self, bridge, number):
        """A port as a person reads of it: behind its number its name in brackets, if it has one."""
        name = self.found.get((bridge, int(number)))
        return f"{bridge}:{int(number)}" + (f" ({name})" if name else "")

    def number(self, bridge, interface):
        """The number of the port of a bridge that has this interface, or None. Letters of either case are the same."""
        wanted = bridge, (interface or "").lower()
        return next((number for (name, number), (its, _) in self.ends().items() if (name, its.lower()) == wanted), None)

    def edit(self, edit):
        """An edit as a person reads of it: behind it in brackets what its port is called, if it is called something."""
        port = port_of(edit)
        return "{} ({}:{} is {})".format(edit, *port, self.found[port]) if port in self.found else edit

    def lines(self, edits):
        """The lines that say what the ports of these edits are called, each once."""
        ports = dict.fromkeys(map(port_of, edits))
        return [line_of(*it, self.found[it]) for it in ports if it in self.found]
