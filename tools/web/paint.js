// How the picture shows a tree or a VLAN, and a failure or none.
"use strict";

/** A picture with what is shown in it: `shown` is a tree or a VLAN, a failure or none, and what is selected. */
class Painter {
  /** `roleBefore` is what a port's role is compared with, and `paths` a path that is shown and the one that it is compared with, or null. */
  constructor(picture, shown, roleBefore, paths) {
    Object.assign(this, { picture, shown, roleBefore, network: picture.network });
    this.hops = (paths?.path ?? []).map(({ from, to }) => [from, to]);
    this.hopsBefore = (paths?.before ?? []).map(({ from, to }) => [from, to]);
    this.onPath = new Set(paths?.path ? bridgesOf(shown.from, paths.path) : paths ? [shown.from, shown.to] : []);
    const { vid, failure } = shown, { network } = this;
    this.having = vid === null ? network.bridges : network.having(vid);
    const islands = vid === null ? [] : network.inhabited(vid, failure);
    // Switches that aren't in the largest island of the VLAN; of a tree those that a failure cuts off in some VLAN.
    this.apart = new Set(vid === null ? network.cutOff(failure).keys() : islands.slice(1).flat());
  }

  paint() {
    const { picture } = this;
    for (const cable of picture.cables) this.paintCable(cable);
    for (const [port, sign] of picture.signs) this.paintSign(port, sign);
    for (const [name, box] of picture.drawn) {
      if (name.startsWith("lan ")) this.paintLan(name, box);
      else if (picture.boxes.all.has(name)) this.paintClosed(name, box);
      else this.paintSwitch(name, box);
    }
  }

  isSelected(key) { return this.shown.selected === key; }
  mark(drawn, key, kinds, told) {
    drawn.setAttribute("class", `${kinds}${this.isSelected(key) ? " selected" : ""}`);
    drawn.setAttribute("aria-label", told);
  }

  paintLan(name, box) { this.mark(box, name, "node", `LAN ${name.slice(4)}`); }

  treeOf(port) { return this.shown.vid === null ? this.shown.tree : this.network.treeOf(bridgeOf(port), this.shown.vid); }
  role(port) { return this.network.role(this.treeOf(port), port, this.shown.failure); }

  paintCable(cable) {
    const states = cable.links.map(link => this.stateOf(link.lan, link.ports.filter(Boolean)));
    const state = STATES.find(it => states.includes(it)), speeds = cable.links.map(({ lan }) => this.network.lans.get(lan).speed);
    const { speed, told } = { speed: Math.max(...speeds), told: this.toldOfCable(cable, states) };
    const way = this.isOn(this.hops, cable) ? " path" : this.isOn(this.hopsBefore, cable) ? " was" : "";
    this.mark(cable.drawn, cable.key, `cable ${state}${cable.isBundle ? " bundle" : ""}${way}`, told);
    cable.line.style.strokeWidth = state.startsWith("forwards") ? this.breadth(speed) : "";
    cable.drawn.querySelector("title").textContent = told;
    cable.drawn.querySelectorAll(".cross").forEach(line => line.remove());
    if (cable.links.some(({ lan }) => this.isTaken(lan))) drawCross(cable.drawn, 7, cable.middle);
    if (cable.isBundle) for (const end of cable.ends) this.paintSum(end);
  }

  /** Whether one of these hops goes over a cable: all ports of a link are its, which are one where the LAN is a box. */
  isOn(hops, { links }) {
    return hops.length > 0 && links.some(({ ports }) => hops.some(hop => ports.filter(Boolean).every(port => hop.includes(port))));
  }

  /** How broad a cable is that forwards; of many cables less. */
  breadth(speed) { return (speed >= FAST ? 4.2 : speed >= USUAL ? 2.6 : 1.6) * (this.picture.isDense ? 0.7 : 1); }

  isTaken(lan) { return this.network.lans.get(lan).members.some(member => this.shown.failure?.takesAway("lan", member)); }

  toldOfCable({ isBundle, links, lan, ends }, states) {
    if (!isBundle) return `LAN ${lan}, ${speedText(this.network.lans.get(lan).speed)}: ${STATE_NAMES[states[0]]}`;
    const counts = STATES.filter(it => states.includes(it)).map(it => `${states.filter(other => other === it).length} ${STATE_NAMES[it]}`);
    const names = ends.map(({ node }) => this.picture.nameOf(node));
    return `${counted(links.length, "link")} from ${names.join(" to ")}: ${counts.join(", ")}`;
  }

  stateOf(lan, ports) {
    const { network, shown: { vid, failure } } = this, roles = ports.map(port => this.role(port));
    if (network.isDown(lan, failure) || roles.includes("Disabled")) return "down";
    if (vid !== null && !ports.every(port => network.isMember(port, vid))) return "outside";
    if (roles.every(role => FORWARDING.has(role))) return vid === null ? "forwards" : "forwards carries";
    return roles.includes(null) && roles.every(role => role === null || FORWARDING.has(role)) ? "elsewhere" : "blocked";
  }

  drawRole(sign, role, isOther, text) {
    const [draw, ink] = SIGNS[role ?? "none"], told = String(text), width = signWidth(told);
    sign.textContent = "";
    if (isOther) drawRing(sign, width);
    draw(sign, width);
    element("text", { y: 3.4, fill: ink }, sign, told);
  }

  paintSign(port, sign) {
    const role = this.role(port), before = this.roleBefore(this.treeOf(port), port), absent = "not in this tree";
    const told = `${port} ${role ?? absent}${role !== before ? ` (${this.shown.otherTime} ${before ?? absent})` : ""}`;
    this.mark(sign, `port ${port}`, `port${role !== before ? " changed" : ""}`, `Port ${told}`);
    sign.setAttribute("data-role", role ?? "none");
    this.drawRole(sign, role, role !== before, signText(port));
    element("title", {}, sign, told);
  }

  /** At an end of a line that stands for several, the role that most of the ports have there, and how many. */
  paintSum({ ports, sum }) {
    if (!sum) return;
    const counts = new Map();
    for (const port of ports) counts.set(this.role(port), (counts.get(this.role(port)) ?? 0) + 1);
    const sorted = [...counts].sort((a, b) => b[1] - a[1]), [role, count] = sorted[0];
    const isOther = ports.some(port => this.role(port) !== this.roleBefore(this.treeOf(port), port));
    this.drawRole(sum, role, isOther, ports.length > 1 ? count : signText(ports[0]));
    element("title", {}, sum, sorted.map(([it, many]) => `${many} ${it ?? "not in this tree"}`).join(", "));
  }

  paintSwitch(bridge, box) {
    const { network, shown: { vid, failure, tree: shownTree } } = this;
    const tree = vid === null ? shownTree : network.treeOf(bridge, vid), isOn = network.isOn(bridge, failure);
    const hasTree = Boolean(network.bridgeIn(tree, bridge)), isRoot = network.root(tree, bridge, failure) === bridge;
    const state = !isOn ? " off" : !hasTree ? " absent" : isRoot ? " root" : "";
    const relation = !isOn ? "" : !this.having.has(bridge) ? " without" : this.apart.has(bridge) ? " apart" : "";
    const named = tree !== CIST && (isRoot || vid !== null) ? `MST ${tree}` : "";
    const told = [isRoot ? "root" : "", named].filter(Boolean).join(", ");
    const text = [told, network.priority(tree, bridge)].filter(it => it !== "").join(" · ");
    const cut = vid === null && isOn && this.apart.has(bridge) ? `cut off: ${shortened(network.cutOff(failure).get(bridge), 10)}` : "";
    const written = cut || (!isOn ? "off" : !hasTree ? "not in this tree" : text);
    const said = [`Switch ${bridge}`, written, relation === " apart" && !cut ? "apart" : ""].filter(Boolean).join(", ");
    this.mark(box, `bridge ${bridge}`, `node${state}${relation}${this.onPath.has(bridge) ? " path" : ""}`, said);
    box.querySelector(".told").textContent = written;
    this.crossed(box, failure?.takesAway("bridge", bridge));
  }

  crossed(box, isTaken) {
    box.querySelectorAll(".cross").forEach(line => line.remove());
    if (isTaken) drawCross(box, 16);
  }

  /** A closed box tells how many switches it has, and of these how many block, are apart or off. */
  paintClosed(name, box) {
    const { network, picture, shown: { failure, vid } } = this;
    const bridges = picture.boxes.inside(name).filter(it => network.bridges.has(it));
    const apart = bridges.filter(it => this.apart.has(it)).length, off = bridges.filter(it => !network.isOn(it, null)).length;
    const without = bridges.filter(it => !this.having.has(it)).length;
    const told = [counted(bridges.length, "switch", "switches")];
    if (apart) told.push(`${apart} ${vid === null ? "cut off" : "apart"}`);
    else if (off) told.push(`${off} off`);
    else if (without) told.push(`${bridges.length - without} in VLAN ${vid}`);
    else told.push(this.toldOfBlocked(bridges));
    const isTaken = bridges.some(it => failure?.takesAway("bridge", it)) || this.insideTaken(name);
    const isRoot = bridges.some(it => network.root(this.shown.tree, it, failure) === it);
    const kinds = `node closed${apart ? " apart" : without === bridges.length ? " without" : isRoot ? " root" : ""}`;
    this.mark(box, name, kinds, `${picture.boxes.title(name)}: ${told.join(", ")}`);
    box.querySelector(".told").textContent = told.filter(Boolean).join(" · ");
    this.crossed(box, isTaken);
  }

  toldOfBlocked(bridges) {
    const blocked = bridges.flatMap(it => this.network.portsOf(it)).filter(port => BLOCKING.has(this.role(port))).length;
    return blocked ? `${blocked} blocked` : "";
  }

  /** Whether a LAN that has failed is one of those inside of a closed box. */
  insideTaken(name) {
    const { failure } = this.shown, { network, picture } = this;
    if (failure?.what !== "lan") return false;
    return [...network.lans].some(([lan, { ports }]) => this.isTaken(lan) && ports.every(port => picture.boxes.seen(bridgeOf(port)) === name));
  }
}

const STATE_NAMES = {
  "forwards carries": "carries the VLAN", forwards: "forwards", blocked: "blocked at an end", outside: "not in the VLAN",
  elsewhere: "not in this tree", down: "down",
};
