"""What devices show of their ports, beside the plan: for commands that compare the two in the middle of a change."""

import os
import sys

import mstplan

sys.path.append(os.path.join(os.path.dirname(os.path.abspath(__file__)), "import"))

import cisco  # noqa: E402
from network import planned  # noqa: E402


class Shown:
    """The roles that switches show in the files of a folder: `show spanning-tree mst` of each, as cisco.py reads it."""

    def __init__(self, folder):
        self.network, unread = cisco.read(folder)
        self.told = unread + self.network.told
        self.is_whole = not unread and not self.network.lost
        if not self.network.bridges:
            raise mstplan.Failed(f"{folder}: there is no `show spanning-tree mst` to compare")

    def trees(self):
        return sorted({0, *(tree for bridge in self.network.bridges for port in bridge.ports.values() for tree in port.says)})

    def roles(self, names):
        """Each role as (bridge, number, tree, role). The number is that of the port which the plan's script says has this interface, or
        the importer's where no line says so."""
        for bridge in self.network.bridges:
            for number, port in sorted(bridge.ports.items()):
                named = names.number(bridge.name, port.label)
                place = number if named is None else named
                yield from ((bridge.name, place, tree, role) for tree, (role, _) in sorted(port.says.items()) if role is not None)

    def beside(self, program, saved, names):
        """The lines of what the switches show otherwise than a network plans, which is a script of version 2, and of the bridges of
        which nothing is shown."""
        queries = "".join(f"showtree {tree}\n" for tree in self.trees())
        printed, _ = program.run("run", "-", given=saved + queries.encode())
        texts = printed.decode(errors="replace").splitlines()
        _, plan = planned(texts)
        shown = sorted(self.roles(names))
        for bridge, port, tree, role in shown:
            wanted = plan.get((tree, bridge, port), "Disabled")
            if role != wanted:
                yield f"differs {mstplan.port_of({'bridge': bridge, 'port': port}, names)} {tree} plan {wanted} seen {role}"
        seen = {bridge for bridge, _, _, _ in shown}
        others = sorted({bridge for _, bridge, _ in plan if bridge not in seen})
        if others:
            yield f"unseen {','.join(others)}"
