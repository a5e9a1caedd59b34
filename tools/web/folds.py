"""What of a large network stands together in the picture, in boxes that open: switches that are linked to the same others alike, and
parts of the network that hang together below its roots.

A box has rows of names, of switches, LANs and boxes, and so has the picture. Names of boxes have a space, which no name of a switch has.
"""

import math
import re

# From how many switches on there are boxes, how many alike are one, and how many stand beside each other in it.
FROM, LEAST, BESIDE = 60, 4, 6
# So many are seen at first, or fewer: then parts are open, or there are none.
MOST_OPEN, MOST_SEEN = 60, 24
# A part of the network has no more than this, nor than twice the root of how many there are.
SMALL_PART = 24
# The frame's form, width by height; how much room a part takes, closed and open; and what stands above all of them.
FORM = 1.35
SIZE_CLOSED, SIZE_OPEN, HEAD = (210, 116), (340, 280), 170
EMPTY = 0.15


def in_order(name):
    """Names with numbers go by these."""
    return [int(it) if it.isdecimal() else it for it in re.split(r"([0-9]+)", name)]


def rows_of(names, columns):
    return [names[place:place + columns] for place in range(0, len(names), columns)]


def alike(near, rank):
    """The names of switches below the first rank that are linked to the same others, some or more."""
    groups = {}
    for name in sorted(near, key=in_order):
        if rank[name] and near[name] and not name.startswith("lan "):
            groups.setdefault((rank[name], frozenset(near[name])), []).append(name)
    return [names for names in groups.values() if len(names) >= LEAST]


def seen_from_outside(near, inside):
    """Neighbours, where names that are inside of a box are seen as it."""
    seen = {}
    for name, others in near.items():
        own = inside.get(name, name)
        seen.setdefault(own, set()).update(inside.get(other, other) for other in others)
    return {name: others - {name} for name, others in seen.items()}


def parts_below(near, rank, most):
    """Names below the first rank that hang together, at most so many in a part: by their ranks, and then by their names."""
    left = sorted((name for name in near if rank[name]), key=lambda name: (rank[name], in_order(name)))
    taken, parts = set(), []
    for first in left:
        if first in taken:
            continue
        part, front = [], [first]
        while front and len(part) < most:
            name = front.pop(0)
            if name not in taken:
                taken.add(name)
                part.append(name)
                front += sorted((other for other in near[name] - taken if rank[other]), key=in_order)
        parts.append(part)
    return parts


class Folds:
    """The boxes of a picture, and its rows. `near` has the neighbours of each node, `rank` how far it is below the roots."""

    def __init__(self, near, rank):
        self.rank, self.boxes = dict(rank), {}
        inside = {}
        for names in alike(near, rank):
            box = self.box(f"fold {names[0]}", rows_of(names, BESIDE), rank[names[0]])
            inside.update(dict.fromkeys(names, box))
        self.near = seen_from_outside(near, inside)
        tops = [name for name in self.near if not self.rank[name]]
        below = [name for name in self.near if self.rank[name]]
        if len(self.near) > MOST_SEEN:
            below = self.parts()
        self.rows = [sorted(tops, key=in_order), *self.in_form(below)]

    def box(self, name, rows, rank):
        self.boxes[name] = {"rows": rows, "open": False}
        self.rank[name] = rank
        return name

    def ranked(self, names):
        """Names in a row for each rank, or more where they are many."""
        ranks = sorted({self.rank[name] for name in names})
        rows = [sorted((name for name in names if self.rank[name] == depth), key=in_order) for depth in ranks]
        return [part for row in rows for part in rows_of(row, 2 * BESIDE)]

    def parts(self):
        """The parts of the network, of which those of one alone are no box. They are open where not too many are seen then."""
        parts = parts_below(self.near, self.rank, max(SMALL_PART, 2 * math.isqrt(len(self.near))))
        is_open = len(self.near) <= MOST_OPEN
        names = []
        for part in parts:
            names.append(self.box(f"part {part[0]}", self.ranked(part), 1) if len(part) > 1 else part[0])
            if len(part) > 1:
                self.boxes[names[-1]]["open"] = is_open
        return names

    def in_form(self, names):
        """Names in rows: by rank without parts, and else in as many columns as give the picture its form."""
        if not any(name.startswith("part ") for name in names):
            return self.ranked(names)
        is_open = any(self.boxes.get(name, {}).get("open") for name in names)
        width, height = SIZE_OPEN if is_open else SIZE_CLOSED
        count = len(names)
        columns = min(range(1, count + 1), key=lambda it: size_of(count, it, width, height))
        return rows_of(names, columns)


def size_of(count, columns, width, height):
    """How large a picture of so many parts in so many columns is, in the frame's form; what is empty in its last row makes it larger."""
    rows = math.ceil(count / columns)
    return max(columns * width / FORM, rows * height + HEAD) * (1 + EMPTY * (rows * columns - count) / columns)


def folded(near, rank):
    """The boxes by name, and the rows of the picture; nothing of a small network."""
    if sum(not name.startswith("lan ") for name in near) < FROM:
        return {}
    folds = Folds(near, rank)
    return {"boxes": folds.boxes, "rows": folds.rows}
