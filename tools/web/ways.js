// Where cables go, so that none passes behind a box: through the gaps between the boxes that stand between its ends, row by row.
"use strict";

// What stays free beside a box, above a row for its ports' signs, and below it; and how far a cable may go around the outermost boxes.
const BESIDE_BOX = 7, ABOVE_ROW = 27, BELOW_ROW = 5, AROUND = 46;
// An arch is so far above what stands below it, and the next one so much farther.
const ABOVE_ARCH = 33, NEXT_ARCH = 7, MOST_ARCHES = 6;

const edgesOf = ({ x, y, width, height }) => ({ left: x - width / 2, right: x + width / 2, top: y - height / 2, bottom: y + height / 2 });

class Ways {
  /** `layout` has the spots of what is seen and the frames of open boxes, `boxes` which box a name is in. */
  constructor(layout, boxes) {
    Object.assign(this, { layout, boxes });
    this.inside = new Map();
    for (const name of [...layout.spots.keys(), ...layout.frames.keys()]) kept(this.inside, boxes.boxOf.get(name) ?? null, () => []).push(name);
    this.edges = new Map([...layout.spots, ...layout.frames].map(([name, spot]) => [name, edgesOf(spot)]));
    const all = [...this.edges.values()], least = (side, end) => all.reduce((found, it) => Math.min(found, it[side]), end);
    this.around = { left: least("left", 0) - AROUND, right: all.reduce((found, it) => Math.max(found, it.right), layout.width) + AROUND };
    this.obstaclesMade = new Map();
  }

  /** The frames that a name is in, the innermost first. */
  framesOf(name) {
    const found = [];
    for (let box = this.boxes.boxOf.get(name); box; box = this.boxes.boxOf.get(box)) found.push(box);
    return found;
  }

  /** What stands in a cable's way, and between which sides the cable stays: a frame that an end is in is no obstacle, what is in it is one. */
  obstacles(cable) {
    const frames = cable.ends.map(({ node }) => this.framesOf(node)), zone = frames[0].find(it => frames[1].includes(it)) ?? null;
    const open = new Set(frames.flat());
    return kept(this.obstaclesMade, [...open, "", zone].join("|"), () => {
      const within = name => (open.has(name) ? (this.inside.get(name) ?? []).flatMap(within) : [name]);
      const found = (this.inside.get(zone) ?? []).flatMap(within).map(name => ({ name, ...this.edges.get(name) }));
      return { found: found.sort((a, b) => a.top - b.top), sides: zone ? this.edges.get(zone) : this.around };
    });
  }

  /** Finds the ways of all cables. Those that go through one gap lie beside each other there. */
  find(cables) {
    const channels = new Map();
    for (const cable of cables) {
      cable.way = [];
      if (cable.isLevel) continue;
      for (const { gap, aim, top, bottom } of this.through(cable)) {
        const at = cable.way.push([aim, top, bottom]) - 1, key = `${Math.round(gap[0])} ${Math.round(gap[1])}`;
        // In a wide gap it goes straight to its end.
        if (gap[1] - gap[0] > AROUND + 1) continue;
        const channel = kept(channels, key, () => ({ gap, uses: new Map() }));
        kept(channel.uses, cable, () => []).push(at);
      }
    }
    for (const channel of channels.values()) this.spread(channel);
    this.raise(cables.filter(it => it.isArch));
  }

  /** The rows between a cable's ends that it goes through, each with the gap that it takes: the one nearest to where it goes, from the lowest row on. */
  through(cable) {
    const [from, to] = cable.ends, high = from.at[1] + from.straight, low = to.at[1] - to.straight;
    const { found, sides } = this.obstacles(cable);
    const between = found.filter(it => it.bottom > high && it.top < low && it.name !== from.node && it.name !== to.node);
    const ways = [];
    let aim = to.at[0];
    for (const row of rowsOf(between).reverse()) {
      const gaps = gapsOf(row.boxes, sides), far = ([left, right]) => Math.max(left - aim, aim - right, 0);
      const gap = gaps.reduce((best, it) => (far(it) < far(best) || (far(it) === far(best) && away(it, from) < away(best, from)) ? it : best));
      aim = Math.min(Math.max(aim, gap[0]), gap[1]);
      ways.unshift({ gap, aim, top: Math.max(row.top - ABOVE_ROW, high), bottom: Math.min(row.bottom + BELOW_ROW, low) });
    }
    return ways;
  }

  /** Beside each other the cables that turn to the left stand on the left, those that turn first outermost. */
  spread({ gap: [left, right], uses }) {
    const middle = (left + right) / 2, order = [...uses.keys()].sort((a, b) => {
      const [one, other] = [a, b].map(it => it.ends[1]), isRight = [one, other].map(it => Number(it.at[0] > middle));
      return isRight[0] - isRight[1] || (isRight[0] ? other.at[1] - one.at[1] : one.at[1] - other.at[1]) || one.at[0] - other.at[0] || a.ends[0].at[0] - b.ends[0].at[0];
    });
    order.forEach((cable, i) => {
      const x = left + (i + 1) / (order.length + 1) * (right - left);
      for (const at of uses.get(cable)) cable.way[at][0] = x;
    });
  }

  /** An arch is above all that stands between its ends, and above shorter ones beside it. */
  raise(arches) {
    const count = new Map();
    const length = ({ ends: [from, to] }) => Math.abs(from.at[0] - to.at[0]);
    for (const cable of arches.sort((a, b) => length(a) - length(b))) {
      const [from, to] = cable.ends, [left, right] = [from.at[0], to.at[0]].sort((a, b) => a - b);
      const tops = this.obstacles(cable).found.filter(it => it.right > left && it.left < right && it.top <= from.at[1] && it.bottom >= from.at[1]).map(it => it.top);
      const top = Math.min(from.at[1], to.at[1], ...tops), number = count.get(top) ?? 0;
      count.set(top, number + 1);
      cable.high = top - ABOVE_ARCH - number % MOST_ARCHES * NEXT_ARCH;
    }
  }
}

const away = ([left, right], { at: [x] }) => Math.abs((left + right) / 2 - x);

/** Boxes in rows: those that are beside each other, from above. They are in order by their upper edges. */
function rowsOf(boxes) {
  const rows = [];
  for (const box of boxes) {
    const row = rows.at(-1);
    if (row && box.top < row.bottom + 1) {
      row.boxes.push(box);
      row.bottom = Math.max(row.bottom, box.bottom);
    } else rows.push({ top: box.top, bottom: box.bottom, boxes: [box] });
  }
  return rows;
}

/** The gaps between the boxes of a row, and at its sides: where each begins and ends. */
function gapsOf(boxes, { left, right }) {
  const gaps = [];
  let at = left;
  for (const box of [...boxes].sort((a, b) => a.left - b.left)) {
    if (box.left - BESIDE_BOX > at) gaps.push([at, box.left - BESIDE_BOX]);
    at = Math.max(at, box.right + BESIDE_BOX);
  }
  if (right > at || !gaps.length) gaps.push([at, Math.max(right, at + 1)]);
  return gaps.flatMap(partsOfGap);
}

/** Of a wide gap the parts at its ends are gaps of their own: there cables lie beside each other. */
function partsOfGap([from, to]) {
  if (to - from <= AROUND) return [[from, to]];
  if (to - from <= 2 * AROUND) return [[from, (from + to) / 2], [(from + to) / 2, to]];
  return [[from, from + AROUND], [from + AROUND, to - AROUND], [to - AROUND, to]];
}
