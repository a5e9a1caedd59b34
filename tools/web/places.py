"""Where the switches stand in the picture, in points: roots above, the others as far below as they are links away.

Switches that are linked to the same others stand together in rows, by their names. Graphviz's `dot` puts all others of a rank in order; without
it they stand by name, too.
"""

import math
import re
import shutil
import subprocess

import folds
from folds import in_order

BOX_HEIGHT, BOX_WIDTH, LAN_WIDTH, END_WIDTH = 54, 116, 90, 26
BESIDE, BELOW, BELOW_RANK = 44, 104, 122
# A name that is long makes its box broader, by the widths of letters.
LETTER, LAN_LETTER, BESIDE_NAME = 9.2, 6.2, 18
# Between two blocks of a rank, in a picture of few nodes and in any other.
BROAD, NARROW, FEW = 210, 110, 14
# In rows of how many alike switches may stand, and the form of the frame, width by height.
FOLDS, FORM = (8, 6, 5, 4, 3, 2), 1.6
# Pictures of which one is larger by no more than this are alike: the one with the longer rows is taken.
CLOSE = 40
# How much broader a picture may be made that is too high for the frame.
BROADER = 1.5
# What of a port's text is its sign: how wide a letter is and what is beside them. A text of two letters is no wider than END_WIDTH.
SIGN_LETTER, BESIDE_SIGN, LEAST_SIGN, MOST_FOR_SIGNS = 6.2, 9, 17, 260
POINTS_OF_AN_INCH = 72
DOT_SECONDS = 60


def lan_node(lan):
    """The name of the node that stands for a LAN which is no cable between two switches. No bridge's name has a space."""
    return f"lan {lan}"


def neighbours_of(network):
    """For each switch, and each LAN that is no cable between two of them, the nodes that it is linked to."""
    near = {bridge: set() for bridge in network["bridges"]}
    for lan, told in network["lans"].items():
        ends = [port.split(":")[0] for port in told["ports"]]
        if len(ends) == 2 and ends[0] != ends[1]:
            near[ends[0]].add(ends[1])
            near[ends[1]].add(ends[0])
        elif len(ends) > 1:
            near[lan_node(lan)] = set(ends)
            for end in ends:
                near[end].add(lan_node(lan))
    return near


def tops_of(network, near):
    """The nodes of the first rank: roots of at least half of the most bridges, and the CIST's next root where it is beside it."""
    roots = [record for record in network["summary"] if record["kind"] == "tree" and record["bridge_count"] > 1]
    most = max((record["bridge_count"] for record in roots), default=0)
    tops = {record["root"] for record in roots if record["bridge_count"] * 2 >= most}
    for record in roots:
        if record["tree"] == 0 and record["bridge_count"] == most and record["next"] in near.get(record["root"], ()):
            tops.add(record["next"])
    return tops & near.keys()


def ranks_of(near, tops):
    """How many links each node is away from the first rank; where none of it can be reached, from its own part's first name."""
    rank, front, left = {}, sorted(tops), sorted(near)
    while left:
        front, depth = front or left[:1], 0
        while front:
            rank.update(dict.fromkeys(front, depth))
            depth += 1
            front = sorted({other for name in front for other in near[name]} - rank.keys())
        left = [name for name in left if name not in rank]
    return rank


def blocks_of(near, rank, fold):
    """Nodes that stand together, by the first name: more of one rank than fit in a row that are linked to the same others."""
    groups = {}
    for name in sorted(near, key=in_order):
        groups.setdefault((rank[name], frozenset(near[name])), []).append(name)
    blocks = {}
    for members in groups.values():
        blocks.update({members[0]: members} if len(members) > fold else {name: [name] for name in members})
    return blocks


def ends_of(network, near, signs):
    """How wide the signs are of the links that end at each node."""
    ends = {name: [] for name in near}
    for told in network["lans"].values():
        for port in told["ports"] if len(told["ports"]) > 1 else []:
            ends[port.split(":")[0]].append(signs[port])
    return ends


def beside_each_other(signs):
    """The width of a box on which these signs stand beside each other, where one of them is long."""
    return math.ceil(sum(signs) + BESIDE_SIGN * len(signs)) + 24 if max(signs, default=0) > LEAST_SIGN else 0


def widths_of(network, near, signs):
    """The width of each node: a switch with many links is broader, so that their ends stay apart, and so is one on which few long signs fit
    beside each other. Others stand upright."""
    ends = ends_of(network, near, signs)
    broad = {name: END_WIDTH * math.ceil(len(its) * 2 / 3) + 16 if len(its) > 6 else 0 for name, its in ends.items()}
    beside = {name: beside_each_other(its) for name, its in ends.items()}
    return {name: max(LAN_WIDTH if name.startswith("lan ") else BOX_WIDTH, broad[name], room_for(name), beside[name] if beside[name] <= MOST_FOR_SIGNS else 0)
            for name in near}


def upright_in(network, near, signs):
    """How long the longest of the signs is that stand upright; as one of two letters where none does."""
    upright = [its for its in ends_of(network, near, signs).values() if beside_each_other(its) > MOST_FOR_SIGNS]
    return max((it for its in upright for it in its), default=LEAST_SIGN)


def signs_of(network):
    """How wide the sign of each port is."""
    texts = {port: network["interfaces"].get(port, [port.split(":")[1]])[-1] for told in network["lans"].values() for port in told["ports"]}
    return {port: SIGN_LETTER * len(text) + BESIDE_SIGN if len(text) > 2 else LEAST_SIGN for port, text in texts.items()}


def room_for(name):
    """The width of a box in which a name fits; that of a LAN is in smaller letters."""
    letter = LAN_LETTER if name.startswith("lan ") else LETTER
    return math.ceil(letter * len(name)) + BESIDE_NAME


class Block:
    """Nodes in rows of at most `fold` and about as many each, one below another, so that cables go straight down between them."""

    def __init__(self, members, widths, fold, below):
        self.members, self.widths, self.below = members, [widths[name] for name in members], below
        self.rows = math.ceil(len(members) / fold)
        self.columns = math.ceil(len(members) / self.rows)
        self.step = max(self.widths) + BESIDE
        self.width = self.columns * self.step - BESIDE + (2 * BESIDE if self.rows > 1 else 0)
        self.height = BOX_HEIGHT + (self.rows - 1) * below

    def spots(self, centre, top):
        """The place of each member: its middle from the left and from above, and its width."""
        for place, (name, width) in enumerate(zip(self.members, self.widths)):
            row, column = divmod(place, self.columns)
            across = (column - (self.columns - 1) / 2) * self.step
            yield name, [centre + across, top + row * self.below, width]


def graph_of(blocks, near, rank, gap):
    """The blocks and what links them, as a text for Graphviz."""
    block_of = {name: first for first, block in blocks.items() for name in block.members}
    lines = ["graph {", "  node [shape=box, fixedsize=true];", f"  nodesep={gap / 2 / POINTS_OF_AN_INCH:.2f};"]
    for depth in sorted(set(rank.values())):
        lines.append("  { rank=same; " + " ".join(f'"{first}";' for first in sorted(blocks, key=in_order) if rank[first] == depth) + " }")
    for first, block in sorted(blocks.items(), key=lambda it: in_order(it[0])):
        size = block.width / POINTS_OF_AN_INCH, block.height / POINTS_OF_AN_INCH
        lines.append(f'  "{first}" [width={size[0]:.2f}, height={size[1]:.2f}];')
    links = {tuple(sorted((block_of[a], block_of[b]), key=lambda it: (rank[it], in_order(it)))) for a in near for b in near[a]}
    sorted_links = sorted(links, key=lambda it: [in_order(name) for name in it])
    lines += [f'  "{a}" -- "{b}" [weight={4 if rank[a] != rank[b] else 1}];' for a, b in sorted_links if a != b]
    return "\n".join([*lines, "}"])


def centres_of(graph):
    """How far from the left `dot` puts each block; none where there is no `dot`, or where it takes too long."""
    if not shutil.which("dot"):
        return {}
    try:
        ran = subprocess.run(["dot", "-Tplain"], input=graph, capture_output=True, text=True, check=False, timeout=DOT_SECONDS)
    except subprocess.TimeoutExpired:
        return {}
    lines = [re.findall(r'"[^"]*"|\S+', line) for line in ran.stdout.splitlines()]
    return {words[1].strip('"'): float(words[2]) * POINTS_OF_AN_INCH for words in lines if words and words[0] == "node"}


class Picture:
    """The nodes of networks, and what their places go by: their neighbours, their ranks, and how wide signs and nodes are."""

    def __init__(self, network, near, rank):
        self.near, self.rank = near, rank
        signs = signs_of(network)
        self.widths = widths_of(network, near, signs)
        # How long the longest sign is, of which two stand in the gap between two nodes.
        self.longest = max(signs.values(), default=LEAST_SIGN)
        # What signs that stand upright take of the room between two rows, at one side.
        self.more = upright_in(network, near, signs) - LEAST_SIGN

    def laid_out(self, fold):
        """The picture with alike switches in rows of at most `fold`: the spots of all nodes, and its size."""
        members = blocks_of(self.near, self.rank, fold)
        blocks = {first: Block(names, self.widths, fold, BELOW + self.more) for first, names in members.items()}
        gap = max(BROAD if len(self.near) <= FEW else NARROW, 2 * self.longest + BESIDE)
        centres = self.by_names(blocks, centres_of(graph_of(blocks, self.near, self.rank, gap)))
        rows, top = [], 0
        for depth in sorted(set(self.rank.values())):
            row = sorted((first for first in blocks if self.rank[first] == depth), key=lambda it: (centres.get(it, 0), in_order(it)))
            spots, right = {}, 0
            for first in row:
                half = blocks[first].width / 2
                centre = max(centres.get(first, 0), right + half)
                right = centre + half + gap / 2 - 1
                spots.update(blocks[first].spots(centre, top))
            rows.append((spots, right))
            top += max(blocks[first].height for first in row) + BELOW_RANK + 2 * self.more
        return self.fitted(rows if centres else middled(rows))

    def by_names(self, blocks, centres):
        """Blocks that are linked alike stand by their names, whatever order `dot` gave them."""
        alike = {}
        for first in centres:
            alike.setdefault((self.rank[first], frozenset(self.near[first]), blocks[first].width), []).append(first)
        return {first: centre for names in alike.values()
                for first, centre in zip(sorted(names, key=in_order), sorted(centres[name] for name in names))}

    def fitted(self, rows):
        """The picture from its left edge on. One that is too wide for the frame gets more room from rank to rank, one that is too high more
        beside each other."""
        spots = {name: spot for row, _ in rows for name, spot in row.items()}
        left = min((x - width / 2 for x, _, width in spots.values()), default=0)
        right = max((x + width / 2 for x, _, width in spots.values()), default=0)
        high = max((y for _, y, _ in spots.values()), default=0) + BOX_HEIGHT
        more = max(0, min(((right - left) / FORM - high) / max(1, len(rows) - 1), 2 * BELOW_RANK))
        broader = min(max(1, high * FORM / max(right - left, 1)), BROADER)
        placed = {name: [round((x - left) * broader), round(y + self.rank[name] * more), width] for name, (x, y, width) in spots.items()}
        height = max((y for _, y, _ in placed.values()), default=0) + BOX_HEIGHT
        return {"spots": placed, "width": round((right - left) * broader), "height": height}


def middled(rows):
    """Rows without an order of their own, each in the middle of the widest."""
    widest = max((right for _, right in rows), default=0)
    return [({name: [x + (widest - right) / 2, y, width] for name, (x, y, width) in spots.items()}, right) for spots, right in rows]


def layout(networks):
    """The places of all nodes of networks, in rows that make letters largest in the frame: a switch stands in each where it stands in the
    others. The first one says which switches stand above."""
    whole = network_of_all(networks)
    near = neighbours_of(whole)
    rank = ranks_of(near, tops_of(whole, near))
    boxes = folds.folded(near, rank)
    if boxes:
        # Where they stand the page works out, by what is open.
        return boxes
    picture = Picture(whole, near, rank)
    tried = [picture.laid_out(fold) for fold in FOLDS]
    best = min(tried, key=lambda it: round(max(it["width"] / FORM, it["height"]) / CLOSE))
    spots = {}
    for name, spot in best["spots"].items():
        spots.setdefault(" ".join(name.split(" ")[:2]), spot)
    return {**best, "spots": spots}


def network_of_all(networks):
    """The switches and LANs of several networks as those of one: a LAN with other ports in another one is one more, named by its number
    behind a space, since no name has one."""
    bridges, lans, interfaces, forms = {}, {}, {}, set()
    for place, network in enumerate(networks):
        bridges, interfaces = {**network["bridges"], **bridges}, {**network["interfaces"], **interfaces}
        for lan, told in network["lans"].items():
            form = lan, tuple(sorted(told["ports"]))
            if form not in forms:
                forms.add(form)
                lans[f"{lan} {place}" if lan in lans else lan] = told
    return {"bridges": bridges, "lans": lans, "interfaces": interfaces, "summary": networks[0]["summary"]}
