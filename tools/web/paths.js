// The way of a VLAN's frames from one switch to another: what the page works out itself, as the program's `path` tells it.
"use strict";

/** The order of ports: by the names of their switches, then by their numbers. */
const byPort = (a, b) => byOrder(bridgeOf(a), bridgeOf(b)) || numberOf(a) - numberOf(b);

/** The paths of a network, or of it after a failure. A hop is from a port over a logical LAN to a port of another switch. */
class Paths {
  constructor(network) { this.network = network; }

  /** The hops that begin at each switch in a VLAN: all its members are on a LAN that forward in the tree which their switch has of it. */
  hops(vid, failure) {
    const { network } = this, hops = new Map(), lans = [...network.lans.keys()];
    network.joinsOf(vid).forEach((members, place) => {
      const active = members.filter(({ bridge, port, tree }) => network.isOn(bridge, failure) && FORWARDING.has(network.role(tree, port, failure)));
      for (const one of active) {
        for (const other of active.filter(it => it.bridge !== one.bridge)) {
          kept(hops, one.bridge, () => []).push({ from: one.port, lan: lans[place], to: other.port });
        }
      }
    });
    return hops;
  }

  /** How many hops each switch is away from one, of those that reach it. Hops go both ways. */
  distances(hops, end) {
    const found = new Map([[end, 0]]);
    // (what is put into a map is gone through as well)
    for (const [bridge, distance] of found) {
      for (const { to } of hops.get(bridge) ?? []) if (!found.has(bridgeOf(to))) found.set(bridgeOf(to), distance + 1);
    }
    return found;
  }

  /** The path with the fewest hops, of several the first by its ports; null where there is none. */
  path(vid, from, to, failure) {
    const { network } = this;
    if (![from, to].every(bridge => network.bridges.has(bridge) && network.isOn(bridge, failure))) return null;
    const hops = this.hops(vid, failure), distances = this.distances(hops, to), path = [];
    if (!distances.has(from)) return null;
    for (let at = from; at !== to; at = bridgeOf(path.at(-1).to)) {
      const nearer = hops.get(at).filter(it => distances.get(bridgeOf(it.to)) === distances.get(at) - 1);
      path.push(nearer.sort((a, b) => byPort(a.to, b.to) || byPort(a.from, b.from))[0]);
    }
    return path;
  }

  /** The failures after which the path is another one or there is none, each with that path. Those of its ends aren't looked at. */
  always(vid, from, to) {
    const told = textOfPath(this.path(vid, from, to, null));
    const looked = [...this.network.failures.values()].filter(it => !it.takesAway("bridge", from) && !it.takesAway("bridge", to));
    const others = looked.map(failure => ({ failure, path: this.path(vid, from, to, failure) })).filter(({ path }) => textOfPath(path) !== told);
    return { count: looked.length, others };
  }
}

const textOfPath = path => (path === null ? "none" : path.map(({ from, lan, to }) => `${from} ${lan} ${to}`).join(", "));
/** The switches of a path, of which the first is `from`. */
const bridgesOf = (from, path) => [from, ...path.map(({ to }) => bridgeOf(to))];

/** What is told of a path that was chosen, of which `path` is the one that is shown, and `before` the one that it is compared with. */
class PathTelling {
  constructor(network, telling) { Object.assign(this, { network, telling, paths: new Paths(network) }); }

  way(from, path) { return path === null ? markup`<span class="warning">none</span>` : bridgesOf(from, path).join(" → "); }

  /** Above the picture: which way frames go, and which way they went before. */
  banner({ from, to, vid, failure, otherTime }, path, before) {
    const isOther = before !== undefined && textOfPath(before) !== textOfPath(path);
    const time = failure ? markup`After ${entityName(failure)} has failed the path` : "The path";
    const was = isOther ? markup`; ${failure ? "before it" : otherTime}: ${this.way(from, before)}` : before === undefined ? "" : ", as before";
    const clear = failure ? markup`<button data-clear="failure">Back to the whole network</button>` : "";
    return [path === null ? "warned" : isOther ? "" : "well", markup`<button data-clear="path">No path</button>${clear}
      ${time} of <b>VLAN ${vid}</b> from <b>${from}</b> to <b>${to}</b>: ${this.way(from, path)}${was}.`];
  }

  panel({ from, to, vid, failure }, path, before) {
    const time = failure ? ` after ${entityName(failure)} has failed` : "", isOther = before !== undefined && textOfPath(before) !== textOfPath(path);
    return markup`<h2>Path of VLAN ${vid}${time}</h2><div class="minor">from ${this.telling.bridgeJump(from)} to ${this.telling.bridgeJump(to)}</div>
      ${this.hops(path)}${isOther ? markup`<h3>Before</h3>${this.hops(before)}` : ""}${this.failures(from, to, vid, failure)}`;
  }

  hops(path) {
    if (path === null) return markup`<div class="warning">There is no path.</div>`;
    if (!path.length) return line("They are one switch: no hop.");
    return table(["#Hop", "Out by", "Over", "In by"], path.map(({ from, lan, to }, i) => [i + 1, portJump(from), lanJump(lan), portJump(to)]));
  }

  /** After which single failures frames go another way. */
  failures(from, to, vid, shown) {
    const { network } = this;
    if (!network.swept || ![from, to].every(bridge => network.bridges.has(bridge))) return "";
    const key = `${vid} ${from} ${to}`;
    if (this.told?.key !== key) this.told = { key, ...this.paths.always(vid, from, to) };
    const { count, others } = this.told, none = others.filter(it => it.path === null).length;
    const rows = others.map(({ failure, path }) => ({ data: { fail: failure.key }, isSelected: failure === shown, cells: [
      markup`${failure.what === "lan" ? "LAN" : "switch"} <b>${failure.name}</b>`, path?.length ?? "", this.way(from, path)] }));
    return markup`<h3>After a single failure</h3><div>After ${others.length - none} of ${counted(count, "failure")} frames go another way, after ${none || "none"} there is no path.
      ${minor("The failures of both ends aren't counted.")}</div>${rows.length ? table(["What fails", "#Hops", "By"], rows) : ""}`;
  }
}
