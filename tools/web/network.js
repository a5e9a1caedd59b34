// The network that is shown, as the program tells it, and what the page works out itself of roles and memberships.
"use strict";

const FORWARDING = new Set(["Root", "Designated", "Master"]);
const BLOCKING = new Set(["Alternate", "Backup"]);
const CIST = 0;
const LAST_VID = 4094;

const bridgeOf = port => port.slice(0, port.indexOf(":"));
const numberOf = port => port.slice(port.indexOf(":") + 1);
const mapOf = object => new Map(Object.entries(object));
const byOrder = (a, b) => (a < b ? -1 : a > b ? 1 : 0);
/** Names with numbers go by these. */
const byNumbers = new Intl.Collator("en", { numeric: true }).compare;

/** The value that a map has for a key, made and kept where it has none. */
function kept(map, key, make) {
  if (!map.has(key)) map.set(key, make());
  return map.get(key);
}

/** A port by its name, as an answer has another port than its own. */
const portText = ({ bridge, port }) => `${bridge}:${port}`;
/** A list of VIDs by its runs, as an answer has it. */
const listOf = runs => runs.map(([first, last]) => (first === last ? `${first}` : `${first}-${last}`)).join(",");

/** VIDs, from a list as the program writes it, of which nothing is the empty one. */
class Vids {
  constructor(text) {
    this.text = text ?? "";
    const items = this.text ? this.text.split(",") : [];
    this.runs = items.map(item => item.split("-").map(Number)).map(([first, last]) => [first, last ?? first]);
  }
  has(vid) { return this.runs.some(([first, last]) => first <= vid && vid <= last); }
  get count() { return this.runs.reduce((sum, [first, last]) => sum + last - first + 1, 0); }
  get first() { return this.runs[0]?.[0] ?? null; }
  /** The list of all others. */
  without(vid) {
    const cut = ([first, last]) => (vid < first || vid > last ? [[first, last]] : [[first, vid - 1], [vid + 1, last]].filter(([a, b]) => a <= b));
    return listOf(this.runs.flatMap(cut));
  }
}
const vidsRead = new Map();
const vids = text => kept(vidsRead, text ?? "", () => new Vids(text));

/** A single failure: what it cuts, the roles that it changes, the roots, and the costs to them. */
class Failure {
  constructor(told) {
    Object.assign(this, told);
    this.key = `${told.what} ${told.name}`;
  }
  /** The role of each port that gets another one, and the root of each bridge that does, by tree; made when it is asked for. */
  get roleAfter() { return this.rolesMade ??= this.byTree(this.roles); }
  get rootAfter() { return this.rootsMade ??= this.byTree(this.roots.map(([tree, , root, bridges]) => [tree, root, bridges])); }
  get costAfter() { return this.costsMade ??= this.byTree(this.costs.map(([tree, ext, int, bridges]) => [tree, { ext, int }, bridges])); }
  byTree(lists) {
    const made = new Map();
    for (const [tree, value, names] of lists) for (const name of names.split(",")) kept(made, tree, () => new Map()).set(name, value);
    return made;
  }
  takesAway(what, name) { return this.what === what && this.name === name; }
  partsOf(vid) { return this.parts.find(([cut]) => vids(cut).has(vid))?.[1] ?? []; }
}

/** A network. In place of a failure null is the network as it stands. */
class Network {
  constructor(told) {
    Object.assign(this, told);
    this.bridges = mapOf(told.bridges);
    this.lans = mapOf(told.lans);
    this.ports = mapOf(told.ports);
    this.up = mapOf(told.up);
    this.reasons = mapOf(told.reasons);
    this.interfaces = mapOf(told.interfaces ?? {});
    this.trees = new Map();
    this.names = new Map();
    for (const [number, tree] of Object.entries(told.trees)) {
      this.trees.set(Number(number), { bridges: mapOf(tree.bridges), ports: mapOf(tree.ports) });
      for (const [bridge, { bridge_id: id }] of Object.entries(tree.bridges)) if (id) this.names.set(id, bridge);
    }
    // Tree 0 is told of a network without bridges as well.
    this.treeNumbers = [...this.trees.keys()].filter(tree => this.trees.get(tree).bridges.size).sort((a, b) => a - b);
    this.regionAt = new Map(told.regions.flatMap(region => region.bridges.map(bridge => [bridge, region])));
    this.failures = new Map(told.failures.map(it => new Failure(it)).map(it => [it.key, it]));
    this.carriedBy = new Map(told.summary.filter(it => it.kind === "carries").flatMap(it =>
      it.lans ? it.lans.map(lan => [lan, `1-${LAST_VID}`]) : [[it.lan, listOf(it.vids)]]));
    this.joins = new Map();
    this.linksMade = new Map();
    this.portsAt = new Map();
    for (const port of this.ports.keys()) kept(this.portsAt, bridgeOf(port), () => []).push(port);
    this.cutBy = new Map();
  }

  /** The name of the bridge with an identifier, or the identifier where none has it. */
  named(id) { return this.names.get(id) ?? id; }
  isOn(bridge, failure) { return this.bridges.get(bridge).on && !failure?.takesAway("bridge", bridge); }
  bridgeIn(tree, bridge) { return this.trees.get(tree)?.bridges.get(bridge); }
  portsOf(bridge) { return this.portsAt.get(bridge) ?? []; }
  lanOf(port) { return this.trees.get(CIST).ports.get(port).lan; }

  /** A logical LAN is down where no member of it is up, or the one that is left fails. */
  isDown(lan, failure) {
    return !this.lans.get(lan).members.some(member => this.up.get(member) && !failure?.takesAway("lan", member));
  }

  /** A port's role in a tree, or null where the tree hasn't the port. */
  role(tree, port, failure) {
    const after = failure?.roleAfter.get(tree)?.get(port);
    return after !== undefined ? after : this.trees.get(tree)?.ports.get(port)?.role ?? null;
  }

  /** A bridge's root in the CIST, its regional root in an MSTI; null where it is off or hasn't the tree. */
  root(tree, bridge, failure) {
    const told = this.bridgeIn(tree, bridge);
    if (!told || told.power === "off" || !this.isOn(bridge, failure)) return null;
    const root = tree === CIST ? told.root ?? told.root_id : told.regional ?? told.regional_id;
    return failure?.rootAfter.get(tree)?.get(bridge) ?? root;
  }

  /** The cost of a bridge to its root: an external and an internal one in the CIST, else the latter alone. */
  cost(tree, bridge, failure) { return failure?.costAfter.get(tree)?.get(bridge) ?? this.bridgeIn(tree, bridge); }

  /** The roots in a tree by name, each with the bridges that have it, and which of the others comes next. */
  rootsIn(tree, failure) {
    const having = new Map();
    for (const bridge of this.trees.get(tree).bridges.keys()) {
      const root = this.root(tree, bridge, failure);
      if (root !== null) kept(having, root, () => []).push(bridge);
    }
    const identifier = bridge => this.bridgeIn(tree, bridge).bridge_id;
    return [...having].sort(([one], [other]) => byNumbers(one, other)).map(([root, bridges]) => {
      const others = bridges.filter(it => it !== root).sort((a, b) => byOrder(identifier(a), identifier(b)));
      return { root, bridges, next: others[0] ?? null };
    });
  }

  /** The ports that block in a tree. */
  blockedIn(tree, failure) {
    return [...this.trees.get(tree).ports.keys()].filter(port => BLOCKING.has(this.role(tree, port, failure))).sort(byNumbers);
  }

  /** The priority of a bridge in a tree, from 0 to 61440, which its identifier begins with. */
  priority(tree, bridge) {
    const id = this.bridgeIn(tree, bridge)?.bridge_id;
    return id ? parseInt(id.slice(0, 4), 16) & 0xf000 : null;
  }

  treeOf(bridge, vid) {
    const told = this.bridges.get(bridge);
    if (told.kind === "rstp") return CIST;
    const found = Object.entries(told.vids).find(([, mapped]) => vids(mapped).has(vid));
    return found ? Number(found[0]) : CIST;
  }
  isMember(port, vid) { return vids(this.ports.get(port).vlans).has(vid); }
  isActive(port, vid, failure) { return FORWARDING.has(this.role(this.treeOf(bridgeOf(port), vid), port, failure)); }

  /** The members of a VLAN on each LAN, each with its bridge's tree of the VLAN. */
  joinsOf(vid) {
    return kept(this.joins, vid, () => [...this.lans.values()].map(({ ports }) => ports.filter(port => this.isMember(port, vid))
      .map(port => ({ port, bridge: bridgeOf(port), tree: this.treeOf(bridgeOf(port), vid) }))));
  }

  /** Of these the members on LANs that may join some. */
  linksOf(vid) { return kept(this.linksMade, vid, () => this.joinsOf(vid).filter(members => members.length > 1)); }

  /** The bridges that have a port in a VLAN. Any other is an island of its own, which nothing of the VLAN is to reach. */
  having(vid) { return new Set(this.joinsOf(vid).flat().map(({ bridge }) => bridge)); }

  /** The islands of a VLAN that have a port in it. */
  inhabited(vid, failure) {
    const having = this.having(vid);
    return this.islands(vid, failure).filter(([first]) => having.has(first));
  }

  /** The islands of a VLAN's bridges that are on, the largest first: what ports that forward and are members join. */
  islands(vid, failure) {
    const above = new Map();
    const top = bridge => (above.get(bridge) === bridge ? bridge : top(above.get(bridge)));
    for (const bridge of this.bridges.keys()) if (this.isOn(bridge, failure)) above.set(bridge, bridge);
    for (const members of this.linksOf(vid)) {
      const active = members.filter(({ port, tree }) => FORWARDING.has(this.role(tree, port, failure)));
      for (const { bridge } of active.slice(1)) above.set(top(bridge), top(active[0].bridge));
    }
    const islands = new Map();
    for (const bridge of above.keys()) kept(islands, top(bridge), () => []).push(bridge);
    return [...islands.values()].map(island => island.sort()).sort((a, b) => b.length - a.length || byOrder(a[0], b[0]));
  }

  /** Switches that a failure, or none, cuts off from most of those that they reach without it, each with the VLANs in which it does. */
  cutOff(failure) {
    return kept(this.cutBy, failure, () => {
      const found = new Map();
      for (const [cut, parts] of failure?.parts ?? []) {
        const lists = parts.map(part => part.split(","));
        for (const island of this.islands(vids(cut).first, null)) {
          const within = new Set(island), own = lists.filter(([first]) => within.has(first)).sort((a, b) => b.length - a.length);
          for (const bridge of own.slice(1).flat()) found.set(bridge, [found.get(bridge), cut].filter(Boolean).join(","));
        }
      }
      return found;
    });
  }

  /** Whether all bridges are of kind rstp, of which each is a region of its own. */
  get isAllRstp() { return this.regions.length > 0 && this.regions.every(it => it.region_kind === "rstp"); }

  /** Switches and LANs with a text in their names, or in a switch's MAC; of no text all. */
  found(text) {
    const wanted = (text ?? "").trim().toLowerCase(), has = name => name.toLowerCase().includes(wanted);
    return {
      bridges: [...this.bridges].filter(([name, { mac }]) => has(name) || mac.includes(wanted)).map(([name]) => name).sort(byNumbers),
      lans: [...this.lans.keys()].filter(has).sort(byNumbers),
    };
  }

  /** Whether a LAN has ports of two bridges. */
  isBetween(lan) { return new Set(this.lans.get(lan).ports.map(bridgeOf)).size > 1; }

  /** Classes of VIDs that go the same ways in any case. */
  get classes() { return this.classesMade ??= classesOf([this]); }

  /** The VIDs that go over a LAN from bridge to bridge: while all is well as the program tells it, of a LAN that it doesn't tell of none. */
  carried(lan, failure) { return failure ? this.carriedAfter(lan, failure) : vids(this.carriedBy.get(lan) ?? ""); }

  carriedAfter(lan, failure) {
    const going = this.isDown(lan, failure) ? [] : this.classes.filter(({ first }) => this.isGoing(lan, first, failure));
    return vids(listOf(togetherOf(going)));
  }

  /** Whether a VLAN goes over a LAN from bridge to bridge. */
  isGoing(lan, vid, failure) {
    const passing = this.lans.get(lan).ports.filter(port => this.isMember(port, vid) && this.isActive(port, vid, failure));
    return new Set(passing.map(bridgeOf)).size > 1;
  }

  /** VLANs with equal islands, as lists: the program's, or those after a failure. */
  groupsAfter(failure) {
    if (!failure) return this.groups.map(it => it.vids);
    const found = new Map();
    for (const it of this.classes) kept(found, this.islands(it.first, failure).map(island => island.join()).join("|"), () => []).push(it);
    return [...found.values()].map(classes => listOf(togetherOf(classes))).sort((a, b) => vids(a).first - vids(b).first);
  }

  /** The identifier of a bridge's root in the CIST, of its regional root in an MSTI; null where it is off or hasn't the tree. */
  rootId(tree, bridge) {
    const told = this.bridgeIn(tree, bridge);
    return told && told.power !== "off" ? (tree === CIST ? told.root_id : told.regional_id) : null;
  }
}

/** The runs of VIDs of some classes, those that meet as one. */
function togetherOf(classes) {
  const runs = [];
  for (const [first, last] of classes.flatMap(it => it.runs).sort((a, b) => a[0] - b[0])) {
    if (runs.length && runs.at(-1)[1] === first - 1) runs.at(-1)[1] = last;
    else runs.push([first, last]);
  }
  return runs;
}

/** Classes of VIDs that every bridge of these networks has in one tree, and every port is a member of alike: the least VID, how many, and which. */
function classesOf(networks) {
  const ports = networks.flatMap(network => [...network.ports.values()]), bridges = networks.flatMap(network => [...network.bridges.values()]);
  const lists = new Set([...ports.map(port => port.vlans), ...bridges.flatMap(bridge => Object.values(bridge.vids))]);
  const sets = [...lists].map(vids);
  const begins = new Set([1, ...sets.flatMap(set => set.runs.flatMap(([first, last]) => [first, last + 1]))]);
  const sorted = [...begins].filter(vid => vid <= LAST_VID).sort((a, b) => a - b);
  const classes = new Map();
  sorted.forEach((first, i) => {
    const same = kept(classes, sets.map(set => Number(set.has(first))).join(""), () => ({ first, count: 0, runs: [] })), end = sorted[i + 1] ?? LAST_VID + 1;
    same.count += end - first;
    same.runs.push([first, end - 1]);
  });
  return [...classes.values()];
}

/** Of each island before from which two bridges that stay came apart, those that are in one island afterwards. */
function partsOf(before, after) {
  const placeOf = new Map(after.flatMap((island, place) => island.map(bridge => [bridge, place])));
  const parts = [];
  for (const island of before) {
    const pieces = new Map();
    for (const bridge of island.filter(it => placeOf.has(it))) kept(pieces, placeOf.get(bridge), () => []).push(bridge);
    if (pieces.size > 1) parts.push(...pieces.values());
  }
  return parts;
}

/** What the page works out itself beside what the program tells of the same: they must be equal. */
class Tally {
  compared = 0;
  wrong = [];
  every = 1;

  /** Lists are compared as sets of texts. */
  expect(what, own, told) {
    this.compared += 1;
    if ([...own].map(String).sort().join(" ") !== [...told].map(String).sort().join(" ")) this.wrong.push(what);
  }
}

// Of many switches some failures are compared, so that it takes seconds: so many steps from LAN to LAN.
const MOST_WORK = 1e8;

/** A network beside what is told of it and of its failures. */
class Comparison {
  constructor(network, tally) {
    Object.assign(this, { network, tally });
    this.classes = network.classes;
    this.made = new Map();
  }

  islands(vid) { return kept(this.made, vid, () => this.network.islands(vid, null)); }

  /** Of how many failures one is compared. */
  every(count) {
    const { lans, bridges } = this.network, work = count * this.classes.length * (lans.size + bridges.size);
    const every = Math.max(1, Math.ceil(work / MOST_WORK));
    this.tally.every = Math.max(this.tally.every, every);
    return every;
  }

  /** Islands, blocked ports, and what LANs carry; it may be left for a while between. */
  * standing() {
    const { network, tally } = this;
    for (const { first } of this.classes) {
      const group = network.groups.find(it => vids(it.vids).has(first));
      // The page isn't told of bridges that are alone.
      const own = this.islands(first).filter(island => island.length > 1);
      tally.expect(`islands of VLAN ${first}`, own, group.islands.map(island => [...island].sort()));
      yield;
    }
    for (const { tree, ports: blocked } of network.summary.filter(it => it.kind === "blocked")) {
      tally.expect(`blocked ports of tree ${tree}`, network.blockedIn(tree, null), blocked.map(portText));
      const told = network.summary.filter(it => it.kind === "tree" && it.tree === tree).map(it => [it.root, it.bridge_count, it.next]);
      tally.expect(`roots of tree ${tree}`, network.rootsIn(tree, null).map(it => [it.root, it.bridges.length, it.next]), told);
    }
    for (const lan of network.lans.keys()) {
      if (network.isDown(lan, null)) continue;
      tally.expect(`VLANs that LAN ${lan} carries`, [network.carriedAfter(lan, null).text], [network.carried(lan, null).text]);
      yield;
    }
  }

  /** What a failure cuts and changes; it may be left for a while between. */
  * after(failure) {
    const { network, tally } = this;
    let cut = 0;
    for (const { first, count } of this.classes) {
      const parts = partsOf(this.islands(first), network.islands(first, failure)).map(part => part.join(","));
      tally.expect(`${failure.key}, VLAN ${first}`, parts, failure.partsOf(first));
      if (parts.length) cut += count;
      yield;
    }
    tally.expect(`VLANs that ${failure.key} cuts`, [cut], [vids(failure.cut).count]);
    tally.expect(`roots after ${failure.key}`, new Set(failure.roots.map(([tree]) => tree)), failure.trees);
    const isUsed = (tree, port, role) => role !== "Disabled" && network.role(tree, port, null) !== "Disabled";
    const changed = [...failure.roleAfter].flatMap(([tree, roles]) => [...roles].filter(([port, role]) => isUsed(tree, port, role)));
    tally.expect(`roles after ${failure.key}`, [changed.length], [failure.changed]);
  }
}
