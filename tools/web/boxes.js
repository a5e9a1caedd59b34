// Where all stands in the picture. Of a small network the page's maker says it; of a large one this works it out, by the boxes that are open.
"use strict";

const SWITCH_HEIGHT = 46, LAN_HEIGHT = 26;
// The room inside of an open box, that of its title above it, and that between its rows and in them: of the picture, its roots, a part, a fold.
const INSIDE = 16, TITLE_HEIGHT = 38;
const GAPS = { "": [46, 70], top: [46, 70], part: [30, 66], fold: [18, 36] }, BELOW_ROOTS = 110;
// How broad a node is: that of a name's letters, and what each end of a cable needs of many.
const LETTER = 9.2, LAN_LETTER = 6.2, BESIDE_NAME = 18, LEAST_WIDTH = 116, END_WIDTH = 19, BESIDE_ENDS = 24;
// Of more than so many ends on a side the signs stand in two rows, with less room.
const MANY_ENDS = 24, CLOSE_ENDS = 11.5;

// So wide a box may be for signs that stand beside each other.
const MOST_FOR_SIGNS = 260;
const besideEachOther = signs => (signs.some(it => it > SIGN_HEIGHT) ? signs.reduce((sum, it) => sum + it + SIGN_SPACE, 24) : 0);

/** The boxes of a large network, and which of them are open: all that are so at first, but for those that were changed over. */
class Boxes {
  constructor(places) {
    this.places = places;
    this.rows = places.rows ?? null;
    this.all = mapOf(places.boxes ?? {});
    this.changed = new Set();
    this.boxOf = new Map();
    for (const [name, { rows }] of this.all) for (const inner of rows.flat()) this.boxOf.set(inner, name);
  }

  isOpen(name) { return this.all.get(name).open !== this.changed.has(name); }

  changeOver(name) {
    if (!this.changed.delete(name)) this.changed.add(name);
  }

  /** Opens the boxes that a name is in. Whether one was closed. */
  reveal(name) {
    let isNew = false;
    for (let box = this.boxOf.get(name); box; box = this.boxOf.get(box)) {
      if (this.isOpen(box)) continue;
      this.changeOver(box);
      isNew = true;
    }
    return isNew;
  }

  /** The outermost box that a name is in, or itself; and the outermost closed one. */
  outermost(name) {
    const box = this.boxOf.get(name);
    return box ? this.outermost(box) : name;
  }
  seen(name) {
    let seen = name;
    for (let box = this.boxOf.get(name); box; box = this.boxOf.get(box)) if (!this.isOpen(box)) seen = box;
    return seen;
  }

  /** Opens all, or closes them. */
  makeAll(isOpen) { this.changed = new Set([...this.all].filter(([, box]) => box.open !== isOpen).map(([name]) => name)); }
  get isAnyClosed() { return [...this.all.keys()].some(name => !this.isOpen(name)); }

  /** The switches and LANs in a box, in its order, and those of boxes in it. */
  inside(name) {
    return this.all.get(name).rows.flat().flatMap(inner => (this.all.has(inner) ? this.inside(inner) : [inner]));
  }

  /** What a box is called: by its first and last switch, or by those in its first row. */
  title(name) {
    const names = this.inside(name).filter(it => !it.startsWith("lan "));
    const first = this.all.get(name).rows[0].filter(it => !this.all.has(it) && !it.startsWith("lan "));
    if (name.startsWith("fold ") || first.length === 0 || first.length > 2) return `${names[0]} … ${names.at(-1)}`;
    return first.join(", ");
  }
}

/** The spots of all that is seen, and the frames of open boxes. */
class Layout {
  /** `stands` is whether a switch or a LAN is in the network that is shown, and `ends` has of each that is seen how wide the signs of its ends are. */
  constructor(boxes, stands, ends) {
    Object.assign(this, { boxes, stands, ends });
    // What signs that stand upright take of the room between two rows: those that are long, and too many to be beside each other.
    const upright = [...ends.values()].filter(signs => besideEachOther(signs) > MOST_FOR_SIGNS).flat();
    this.more = Math.max(0, ...upright.map(it => it - SIGN_HEIGHT));
    // And what long signs take of that between two roots, one at each.
    this.wider = 2 * Math.max(0, ...[...ends.values()].flat().map(it => it - SIGN_HEIGHT));
    this.spots = new Map();
    this.frames = new Map();
    if (boxes.rows) this.layRows();
    else this.take(boxes.places);
  }

  heightOf(name) { return name.startsWith("lan ") ? LAN_HEIGHT : SWITCH_HEIGHT; }

  /** Of the places of the page's maker those of this network. Its first row is at 0, in the middle of the boxes. */
  take({ spots, width }) {
    const down = SWITCH_HEIGHT / 2, lowest = Object.values(spots).reduce((low, [, y]) => Math.max(low, y), 0);
    Object.assign(this, { width, height: lowest + SWITCH_HEIGHT });
    for (const [name, [x, y, wide]] of Object.entries(spots)) {
      if (this.stands(name)) this.spots.set(name, { x, y: y + down, width: wide, height: this.heightOf(name) });
    }
  }

  /** The roots stand above, and all below them in columns. */
  layRows() {
    this.sizes = new Map();
    const [tops, ...rows] = this.boxes.rows.map(row => this.standing(row)), [beside, below] = this.gapsOf("");
    const columns = [];
    for (const row of rows) row.forEach((name, i) => { columns[i] = Math.max(columns[i] ?? 0, this.sizeOf(name).width); });
    const head = this.sizeOfRows([tops], "top"), room = columns.reduce((sum, it) => sum + it + beside, -beside);
    this.width = Math.max(head.width, room, 0);
    this.putRows([tops], "top", 0, 0, this.width);
    let top = head.height + BELOW_ROOTS + this.more;
    for (const row of rows.filter(it => it.length)) {
      let left = (this.width - room) / 2;
      row.forEach((name, i) => {
        const size = this.sizeOf(name);
        this.put(name, left + (columns[i] - size.width) / 2, top, size);
        left += columns[i] + beside;
      });
      top += this.sizeOfRow(row, this.gapsOf("")).height + below;
    }
    this.height = top - below;
  }

  /** Names of a row that stand in the network. A box does where one of its own does. */
  standing(row) { return row.filter(name => (this.boxes.all.has(name) ? this.boxes.inside(name).some(this.stands) : this.stands(name))); }
  isFrame(name) { return this.boxes.all.has(name) && this.boxes.isOpen(name); }

  sizeOf(name) {
    return kept(this.sizes, name, () => {
      if (!this.boxes.all.has(name)) return { width: this.widthOf(name, name.startsWith("lan ") ? LAN_LETTER : LETTER), height: this.heightOf(name) };
      const titled = this.boxes.title(name).length * LETTER + BESIDE_NAME;
      if (!this.boxes.isOpen(name)) return { width: Math.max(this.widthOf(name, 0), titled + 20, 150), height: SWITCH_HEIGHT };
      const { width, height } = this.sizeOfRows(this.boxes.all.get(name).rows, name.split(" ")[0]);
      return { width: Math.max(width, titled + 20) + 2 * INSIDE, height: height + 2 * INSIDE + TITLE_HEIGHT };
    });
  }

  /** The room from one node to the next one, beside and below. */
  gapsOf(kind) {
    const [beside, below] = GAPS[kind];
    return [beside + (kind === "top" ? this.wider : 0), below + this.more];
  }

  widthOf(name, letter) {
    const signs = this.ends.get(name) ?? [], ends = signs.length, beside = besideEachOther(signs), room = ends > MANY_ENDS ? CLOSE_ENDS : END_WIDTH;
    const broad = ends > 5 ? room * ends + BESIDE_ENDS : 0;
    return Math.max(LEAST_WIDTH, name.length * letter + BESIDE_NAME, broad, beside <= MOST_FOR_SIGNS ? beside : 0);
  }

  sizeOfRow(names, [beside]) {
    const sizes = names.map(name => this.sizeOf(name));
    return { width: sizes.reduce((sum, it) => sum + it.width + beside, -beside), height: Math.max(...sizes.map(it => it.height)) };
  }

  sizeOfRows(rows, kind) {
    const sizes = rows.map(row => this.standing(row)).filter(row => row.length).map(row => this.sizeOfRow(row, this.gapsOf(kind)));
    const below = this.gapsOf(kind)[1];
    return { width: Math.max(0, ...sizes.map(it => it.width)), height: sizes.reduce((sum, it) => sum + it.height + below, sizes.length ? -below : 0) };
  }

  putRows(rows, kind, left, top, room) {
    const [beside, below] = this.gapsOf(kind);
    for (const row of rows.map(it => this.standing(it)).filter(it => it.length)) {
      const { width, height } = this.sizeOfRow(row, this.gapsOf(kind));
      let at = left + (room - width) / 2;
      for (const name of row) {
        const size = this.sizeOf(name);
        this.put(name, at, top, size);
        at += size.width + beside;
      }
      top += height + below;
    }
  }

  put(name, left, top, { width, height }) {
    const spot = { x: left + width / 2, y: top + height / 2, width, height };
    if (!this.isFrame(name)) {
      this.spots.set(name, spot);
      return;
    }
    this.frames.set(name, spot);
    this.putRows(this.boxes.all.get(name).rows, name.split(" ")[0], left + INSIDE, top + INSIDE + TITLE_HEIGHT, width - 2 * INSIDE);
  }
}
