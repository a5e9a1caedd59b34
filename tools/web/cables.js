// What the picture is drawn of: signs of roles, and cables as curves. Lengths are in points.
"use strict";

const SVG = "http://www.w3.org/2000/svg";
const LEVEL = 4;
// Of a port's sign: how high it is, how wide one letter of a long text makes it and what is beside them, how far it is from its switch and from the
// next one, and what of the cable is straight behind it. Two letters are as in a disc.
const SIGN_HEIGHT = 17, SIGN_LETTER = 6.2, BESIDE_LETTERS = 9, SIGN_GAP = 6, SIGN_SPACE = 9, STRAIGHT = 4;
const OUTWARD = { bottom: [0, 1], top: [0, -1], left: [-1, 0], right: [1, 0] };

function element(name, attributes, parent, text) {
  const made = document.createElementNS(SVG, name);
  for (const [key, value] of Object.entries(attributes)) made.setAttribute(key, value);
  if (text !== undefined) made.textContent = text;
  parent?.appendChild(made);
  return made;
}

/** What stands in the sign at an end of a line: nothing where no port is there. */
const signTextOf = ([{ ports }], end) => (ports[end] ? signText(ports[end]) : "");
/** How wide the sign with a text is. */
const signWidth = text => (text.length > 2 ? SIGN_LETTER * text.length + BESIDE_LETTERS : SIGN_HEIGHT);

/** A sign of such a height, with round ends or corners; it is as much wider than high as a text makes it. */
const plate = (height, rx, attributes) => (sign, wide = SIGN_HEIGHT) => {
  const width = wide - SIGN_HEIGHT + height;
  element("rect", { class: "shape", x: -width / 2, y: -height / 2, width, height, rx, ...attributes }, sign);
};
const pointed = attributes => (sign, wide = SIGN_HEIGHT) => {
  const end = wide / 2 + 1.5, flat = Math.max(0, end - 10);
  const points = [[-end, 0], [-flat, -10], [flat, -10], [end, 0], [flat, 10], [-flat, 10]];
  element("polygon", { class: "shape", points: points.map(it => it.join()).join(" "), ...attributes }, sign);
};
const EDGE = { stroke: "var(--box)", "stroke-width": 1.2 };
/** The sign of each role, and the colour of the text in it. */
const SIGNS = {
  Root: [plate(17, 8.5, { fill: "var(--root)", ...EDGE }), "#fff"],
  Designated: [plate(16, 8, { fill: "var(--box)", stroke: "var(--designated)", "stroke-width": 2 }), "var(--designated)"],
  Alternate: [plate(16, 2, { fill: "var(--blocks)", ...EDGE }), "#fff"],
  Backup: [plate(16, 2, { fill: "var(--blocks)", ...EDGE }), "#fff"],
  Master: [pointed({ fill: "var(--master)", ...EDGE }), "#fff"],
  Disabled: [plate(15, 7.5, { fill: "var(--rule)", stroke: "var(--faint)", "stroke-dasharray": "2 2" }), "var(--soft)"],
  none: [plate(14, 7, { fill: "var(--ground)", stroke: "var(--pale)" }), "var(--faint)"],
};
const drawRing = plate(25, 12.5, { class: "ring" });

function drawCross(parent, half, [x, y] = [0, 0]) {
  for (const slope of [1, -1]) {
    element("line", { class: "cross", x1: x - half, y1: y - slope * half, x2: x + half, y2: y + slope * half }, parent);
  }
}

/** A point of a cubic Bezier curve, which is four points, at a time from 0 to 1. */
function pointOf(curve, time) {
  const rest = 1 - time, weights = [rest ** 3, 3 * rest ** 2 * time, 3 * rest * time ** 2, time ** 3];
  return [0, 1].map(axis => weights.reduce((sum, weight, i) => sum + weight * curve[i][axis], 0));
}

/** Where names may stand: places that are taken, and none that lies on another. */
class Labels {
  constructor(spots) {
    this.taken = [...spots].map(({ x, y, width, height }) => [x - width / 2, y - height / 2, x + width / 2, y + height / 2]);
  }

  take([x, y], width, height) {
    this.taken.push([x - width / 2, y - height / 2, x + width / 2, y + height / 2]);
  }

  isFree([x, y], width, height) {
    const left = x - width / 2, right = x + width / 2, top = y - height / 2, bottom = y + height / 2;
    return !this.taken.some(it => left < it[2] && it[0] < right && top < it[3] && it[1] < bottom);
  }

  /** The first of these points at which a name of this size is free, which it takes then; null where there is none. */
  place(points, width, height) {
    const found = points.find(point => this.isFree(point, width, height)) ?? null;
    if (found) this.take(found, width, height);
    return found;
  }
}

/** A line from one node to another: a LAN between two switches, one of the lines of a LAN that is a box of its own, or all that goes to a
 *  closed box. `links` are its LANs, each with the port or none at each end. */
class Cable {
  constructor(links, nodes, spots, isBundle) {
    Object.assign(this, { links, isBundle, lan: links[0].lan });
    const ends = nodes.map((node, i) => ({ node, spot: spots.get(node), ports: links.map(it => it.ports[i]).filter(Boolean) }));
    this.ends = ends.sort((a, b) => a.spot.y - b.spot.y || a.spot.x - b.spot.x);
    const [from, to] = this.ends;
    this.isLevel = Math.abs(from.spot.y - to.spot.y) < LEVEL;
    // A cable to a switch of the same rank goes above what stands between.
    this.isArch = this.isLevel && [...spots.values()].some(({ x, y }) =>
      Math.abs(y - from.spot.y) < LEVEL && (x - from.spot.x) * (x - to.spot.x) < 0);
    const sides = this.isArch ? ["top", "top"] : this.isLevel ? ["right", "left"] : ["bottom", "top"];
    this.ends.forEach((end, i) => {
      end.side = sides[i];
      end.toward = this.ends[1 - i].spot;
      end.text = isBundle ? "" : signTextOf(links, nodes.indexOf(end.node));
    });
  }

  /** What a click on it selects. */
  get key() { return this.isBundle ? `links ${this.ends.map(end => end.node).sort().join("|")}` : `lan ${this.lan}`; }
  get ports() { return this.ends.flatMap(end => end.ports); }

  /** Its points from one end to the other, of which those of a curve are marked: [x, y, "C"] are the curve's middles and its end. `way` has
   *  where it goes down between others, as [x, top, bottom] each, and of an arch how high it is. */
  points() {
    const [from, to] = this.ends.map(({ at, side, straight }) => [at, OUTWARD[side].map((step, axis) => at[axis] + step * straight)]);
    if (this.isArch) return this.arch(from, to);
    if (this.isLevel) return [from[0], from[1], ...this.curve(from[1], to[1], 0), to[0]];
    const points = [from[0], from[1]];
    let last = from[1];
    for (const [x, top, bottom] of this.way ?? []) {
      points.push(...this.curve(last, [x, top], 1), [x, bottom]);
      last = [x, bottom];
    }
    return [...points, ...this.curve(last, to[1], 1), to[0]];
  }

  /** A curve that begins and ends along an axis, and is nowhere beyond its ends there. */
  curve(from, to, axis) {
    const half = (to[axis] - from[axis]) / 2, middles = [from, to].map((point, i) => point.map((it, at) => (at === axis ? it + half * (i ? -1 : 1) : it)));
    return [...middles, to].map(([x, y]) => [x, y, "C"]);
  }

  arch([from], [to]) {
    const high = this.high, round = Math.min(22, Math.abs(to[0] - from[0]) / 2, from[1] - high), turn = to[0] > from[0] ? round : -round;
    const corner = (x, y, other) => [[x, y, "C"], [x, y, "C"], [...other, "C"]];
    return [from, [from[0], high + round], ...corner(from[0], high, [from[0] + turn, high]), [to[0] - turn, high], ...corner(to[0], high, [to[0], high + round]), to];
  }

  /** How it is drawn, as a path. Its longest piece and the middle of that are found by the way. */
  path() {
    const points = this.points(), told = [`M${textOfPoint(points[0])}`];
    let longest = -1;
    for (let i = 1; i < points.length; i += points[i][2] ? 3 : 1) {
      const isCurve = Boolean(points[i][2]), piece = isCurve ? points.slice(i - 1, i + 3) : [points[i - 1], points[i - 1], points[i], points[i]];
      const length = Math.hypot(piece[0][0] - piece[3][0], piece[0][1] - piece[3][1]);
      told.push(`${isCurve ? "C" : "L"}${(isCurve ? piece.slice(1) : [points[i]]).map(textOfPoint).join(" ")}`);
      if (length > longest) [longest, this.curved] = [length, piece];
    }
    this.middle = pointOf(this.curved, 0.5);
    return told.join(" ");
  }

  /** Where the LAN's name may stand, best first: off the crossings in the middle, and beside a level cable. */
  labelSpots() {
    const curve = this.curved, isFlat = Math.abs(curve[0][1] - curve[3][1]) < LEVEL;
    const isSteep = !isFlat && Math.abs(curve[0][0] - curve[3][0]) <= 40;
    const times = isSteep || isFlat ? [0.5, 0.4, 0.6, 0.32, 0.68, 0.25, 0.75] : [0.33, 0.4, 0.27, 0.6, 0.67, 0.5, 0.22, 0.74];
    const beside = this.ends[0].at[1] <= this.ends[0].spot.y ? [-13, -24] : [14, 25];
    return times.flatMap(time => {
      const [x, y] = pointOf(curve, time);
      return isFlat ? beside.map(step => [x, y + step]) : [[x, y]];
    });
  }
}
const textOfPoint = ([x, y]) => `${x.toFixed(1)} ${y.toFixed(1)}`;
