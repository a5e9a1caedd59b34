// The picture: switches as boxes, cables as curves, ports as signs of their roles at the ends of cables.
"use strict";

// Of how many cables on the names of LANs are hidden, and of how many on lines are pale.
const MANY_CABLES = 40;
const HUES = ["#0ea5e9", "#f97316", "#84cc16", "#d946ef", "#14b8a6", "#eab308", "#6366f1", "#f43f5e"];
const NO_HUE = "var(--pale)";
const FAST = 1e7, USUAL = 1e6;
const LABEL_LETTER = 6, LABEL_HEIGHT = 13;
// Of a box the LANs' states that are shown first, where they differ.
const STATES = ["forwards carries", "forwards", "blocked", "outside", "elsewhere", "down"];
const REACHED = { tabindex: 0, role: "button" };

class Picture {
  constructor(network, boxes) {
    Object.assign(this, { network, boxes });
    this.svg = document.getElementById("network");
    this.svg.classList.toggle("large", Boolean(boxes.rows));
    this.draw();
  }

  isCable(lan) {
    const { ports } = this.network.lans.get(lan);
    return ports.length === 2 && bridgeOf(ports[0]) !== bridgeOf(ports[1]);
  }
  isBox(lan) { return this.network.lans.has(lan) && this.network.lans.get(lan).ports.length > 1 && !this.isCable(lan); }

  /** Draws all that is seen with the boxes that are open now. */
  draw() {
    this.svg.replaceChildren();
    const stands = name => (name.startsWith("lan ") ? this.isBox(name.slice(4)) : this.network.bridges.has(name));
    const lines = this.linesSeen();
    this.layout = new Layout(this.boxes, stands, this.endsOf(lines));
    this.spots = this.layout.spots;
    this.cables = lines.map(({ links, nodes, isBundle }) => new Cable(links, nodes, this.spots, isBundle));
    const ways = new Ways(this.layout, this.boxes);
    this.spreadEnds();
    ways.find(this.cables);
    // Now it is known where each end goes at first.
    for (const { ends: [from, to], way } of this.cables.filter(it => it.way.length)) {
      [from.toward, to.toward] = [way[0], way.at(-1)].map(([x, y]) => ({ x, y }));
    }
    this.spreadEnds();
    ways.find(this.cables);
    this.layout.above = this.cables.reduce((high, it) => Math.max(high, -(it.high ?? 0)), 0);
    this.drawAll();
  }

  /** The ends of a LAN's lines: two switches, or each with the box that stands for the LAN. */
  linesOf(lan, ports) {
    if (this.isCable(lan)) return [{ nodes: ports.map(bridgeOf), ports }];
    return this.isBox(lan) ? ports.map(port => ({ nodes: [bridgeOf(port), `lan ${lan}`], ports: [port, null] })) : [];
  }

  /** Lines between what is seen. All that go to one closed box from one node are a single line; those inside of it aren't seen. */
  linesSeen() {
    const lines = [], bundles = new Map();
    for (const [lan, { ports: all }] of this.network.lans) {
      for (const { nodes, ports } of this.linesOf(lan, all)) {
        const seen = nodes.map(node => this.boxes.seen(node));
        if (!seen.some(node => this.boxes.all.has(node))) lines.push({ links: [{ lan, ports }], nodes: seen, isBundle: false });
        else if (seen[0] !== seen[1]) {
          const [first, second] = seen[0] < seen[1] ? [0, 1] : [1, 0];
          const bundle = kept(bundles, `${seen[first]}|${seen[second]}`, () => ({ links: [], nodes: [seen[first], seen[second]], isBundle: true }));
          bundle.links.push({ lan, ports: [ports[first], ports[second]] });
        }
      }
    }
    return [...lines, ...bundles.values()];
  }

  /** How wide the signs are of the lines that end at each node. */
  endsOf(lines) {
    const ends = new Map();
    for (const { nodes, links, isBundle } of lines) {
      nodes.forEach((node, i) => kept(ends, node, () => []).push(signWidth(isBundle ? "" : signTextOf(links, i))));
    }
    return ends;
  }

  /** The ends of cables are spread along the sides of the boxes, in the order of where they go. */
  spreadEnds() {
    const sides = new Map();
    for (const end of this.cables.flatMap(cable => cable.ends)) kept(sides, `${end.node} ${end.side}`, () => []).push(end);
    for (const ends of sides.values()) {
      ends.sort((a, b) => a.toward.x - b.toward.x || b.toward.y - a.toward.y);
      if (OUTWARD[ends[0].side][1]) this.spreadAcross(ends);
      else this.spreadDown(ends);
    }
  }

  /** Ends above or below a box. Long texts that don't fit beside each other stand upright; signs that are too many stand in two rows. */
  spreadAcross(ends) {
    const { spot, side } = ends[0], widths = ends.map(end => signWidth(end.text)), sum = widths.reduce((all, it) => all + it + SIGN_SPACE, 0);
    const isUpright = sum > spot.width - 16 && widths.some(it => it > SIGN_HEIGHT), rows = ends.length > MANY_ENDS && !isUpright ? 2 : 1;
    const taken = isUpright ? ends.map(() => SIGN_HEIGHT + SIGN_SPACE) : widths.map(it => it + SIGN_SPACE), all = taken.reduce((total, it) => total + it, 0);
    const room = Math.min(spot.width - 16, Math.max(all, 64));
    let before = 0;
    ends.forEach((end, i) => {
      const across = ((before + taken[i] / 2) / all - 0.5) * room, deep = isUpright ? widths[i] : SIGN_HEIGHT;
      before += taken[i];
      end.at = [spot.x + across, spot.y + OUTWARD[side][1] * spot.height / 2];
      Object.assign(end, { isUpright, signAt: SIGN_GAP + deep / 2 + (i % rows) * 19, straight: SIGN_GAP + deep + (rows - 1) * 19 + STRAIGHT });
    });
  }

  /** Ends at the left or the right of a box. Signs that would lie on each other stand in more rows. */
  spreadDown(ends) {
    const { spot, side } = ends[0], rows = Math.min(3, Math.ceil((ends.length + 1) * SIGN_HEIGHT / spot.height));
    const wide = Math.max(...ends.map(end => signWidth(end.text)));
    ends.forEach((end, i) => {
      end.at = [spot.x + OUTWARD[side][0] * spot.width / 2, spot.y + ((i + 1) / (ends.length + 1) - 0.5) * spot.height];
      Object.assign(end, { isUpright: false, signAt: SIGN_GAP + wide / 2 + (i % rows) * (wide + 2), straight: 0 });
    });
  }

  drawAll() {
    const isDense = this.cables.length > MANY_CABLES;
    const layer = () => element("g", { class: isDense ? "dense" : "" }, this.svg);
    const [frames, cables, titles, boxes, signs] = [layer(), layer(), layer(), layer(), layer()];
    this.isDense = isDense;
    this.signs = new Map();
    this.drawn = new Map();
    this.labels = new Labels(this.spots.values());
    for (const [name, frame] of this.layout.frames) this.drawFrame(name, frame, frames, titles);
    for (const cable of this.cables) this.drawCable(cable, cables, signs);
    if (!isDense) for (const cable of this.cables) this.nameCable(cable);
    for (const [name, spot] of this.spots) this.drawn.set(name, this.drawBox(name, spot, boxes));
  }

  /** An open box, with what closes it, which is above the cables. */
  drawFrame(name, { x, y, width, height }, layer, titles) {
    const [left, top] = [x - width / 2, y - height / 2], text = `− ${this.boxes.title(name)}`;
    element("rect", { class: "frame", x: left, y: top, width, height, rx: 14 }, layer);
    const closing = element("g", { ...REACHED, class: "closing", "data-fold": name, "aria-expanded": true,
      "aria-label": `${this.boxes.title(name)}: close`, transform: `translate(${left + 8} ${top + 7})` }, titles);
    element("rect", { class: "handle", width: text.length * LETTER + 8, height: 22, rx: 7 }, closing);
    element("text", { class: "title", x: 7, y: 16 }, closing, text);
    element("title", {}, closing, "close");
  }

  drawCable(cable, layer, signs) {
    const path = cable.path();
    const data = cable.isBundle ? { "data-links": cable.key.slice(6) } : { "data-lan": cable.lan };
    cable.drawn = element("g", { ...data, ...REACHED }, layer);
    element("path", { class: "near", d: path }, cable.drawn);
    cable.line = element("path", { class: "line", d: path }, cable.drawn);
    element("title", {}, cable.drawn);
    for (const end of cable.ends.filter(it => it.ports.length)) {
      const at = end.at.map((it, axis) => it + OUTWARD[end.side][axis] * end.signAt), wide = signWidth(end.text) + 1;
      this.labels.take(at, ...(end.isUpright ? [18, wide] : [wide, 18]));
      const place = { transform: `translate(${textOfPoint(at)})${end.isUpright ? " rotate(-90)" : ""}` };
      if (cable.isBundle) end.sum = element("g", { class: "sum", ...place }, signs);
      else this.signs.set(end.ports[0], element("g", { ...REACHED, "data-port": end.ports[0], ...place }, signs));
    }
  }

  /** A cable's name, where it lies on nothing else. It is seen at any rate where the cable is selected. */
  nameCable(cable) {
    const { members } = this.network.lans.get(cable.lan);
    if (!cable.isBundle && !this.isCable(cable.lan)) return;
    const count = cable.links.length, alone = members.length > 1 ? `${cable.lan} ×${members.length}` : cable.lan;
    const name = count > 1 ? `×${count}` : alone;
    const points = cable.labelSpots(), free = this.labels.place(points, name.length * LABEL_LETTER + 4, LABEL_HEIGHT);
    const [x, y] = free ?? points[0];
    element("text", { class: free ? "name" : "name hidden", x, y: y + 3 }, cable.drawn, name);
  }

  drawBox(name, { x, y, width, height }, layer) {
    const isLan = name.startsWith("lan "), isClosed = this.boxes.all.has(name);
    const data = isLan ? { "data-lan": name.slice(4) } : isClosed ? { "data-fold": name, "aria-expanded": false } : { "data-bridge": name };
    const box = element("g", { transform: `translate(${x} ${y})`, ...data, ...REACHED }, layer);
    if (isClosed) for (const step of [6, 3]) this.drawSheet(box, step, width, height);
    element("rect", { class: "box", x: -width / 2, y: -height / 2, width, height, rx: isLan ? 4 : 10 }, box);
    if (isLan) element("text", { class: "told", y: 4 }, box, name);
    else {
      const hue = this.hue(isClosed ? this.boxes.inside(name).find(it => this.network.bridges.has(it)) : name);
      element("rect", { x: 7 - width / 2, y: height / 2 - 5, width: width - 14, height: 3, rx: 1.5, fill: hue }, box);
      const text = isClosed ? `+ ${this.boxes.title(name)}` : name;
      const written = element("text", { class: "name", y: -3 }, box, text);
      // A name of many broad letters is made narrower.
      if (text.length > 9 && written.getComputedTextLength() > width - 12) {
        for (const [key, value] of [["textLength", width - 12], ["lengthAdjust", "spacingAndGlyphs"]]) written.setAttribute(key, value);
      }
      element("text", { class: "told", y: 12 }, box, "");
    }
    element("title", {}, box, isLan || isClosed ? name : `${name} ${this.network.bridges.get(name).mac}`);
    return box;
  }

  /** A box behind a closed one, which shows that there are more. */
  drawSheet(box, step, width, height) {
    element("rect", { class: "box", x: step - width / 2, y: -step - height / 2, width, height, rx: 10 }, box);
  }

  /** The colour of a bridge's region; a bridge of kind rstp has none. */
  hue(bridge) {
    this.coloured ??= this.network.regions.filter(it => it.region_kind === "mstp");
    const place = this.coloured.indexOf(this.network.regionAt.get(bridge));
    return place < 0 ? NO_HUE : HUES[place % HUES.length];
  }

  /** What a node is called. */
  nameOf(node) { return this.boxes.all.has(node) ? this.boxes.title(node) : node.replace(/^lan /, "LAN "); }

  /** The middle of what is seen of a port, a LAN, a switch or a box. */
  middleOf(selected) {
    const [what, ...rest] = selected.split(" "), name = rest.join(" ");
    if (what === "lan" || what === "links") {
      const cable = this.cables.find(it => it.key === selected);
      return cable ? { x: cable.middle[0], y: cable.middle[1] } : this.spots.get(selected) ?? null;
    }
    const node = what === "port" ? bridgeOf(name) : what === "bridge" ? name : selected;
    return this.spots.get(this.boxes.seen(node)) ?? null;
  }

  /** The picture as a file of its own. */
  save(name, frame) {
    const copy = this.svg.cloneNode(true), rules = [...document.styleSheets[0].cssRules].map(rule => rule.cssText);
    const style = element("style", {}, null, rules.filter(rule => !rule.startsWith("@")).join("\n"));
    copy.insertBefore(style, copy.firstChild);
    for (const [key, value] of Object.entries({ xmlns: SVG, width: frame.width, height: frame.height, viewBox: textOf(frame) })) {
      copy.setAttribute(key, value);
    }
    const link = document.createElement("a");
    link.href = URL.createObjectURL(new Blob([copy.outerHTML], { type: "image/svg+xml" }));
    link.download = name;
    link.click();
  }
}
