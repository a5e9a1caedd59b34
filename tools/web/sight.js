// The part of the picture that is seen: it is dragged, made larger and smaller, and goes to what has the focus.
"use strict";

const MARGIN = 46;
const textOf = frame => [frame.x, frame.y, frame.width, frame.height].join(" ");

class Sight {
  constructor(svg) {
    this.svg = svg;
    this.hasMoved = false;
    // Where fingers are, or the mouse's button is held: one moves the picture, two make it larger and smaller.
    this.fingers = new Map();
    svg.addEventListener("wheel", event => {
      event.preventDefault();
      const point = new DOMPoint(event.clientX, event.clientY);
      this.scale(event.deltaY > 0 ? 1.12 : 0.89, point.matrixTransform(svg.getScreenCTM().inverse()));
    }, { passive: false });
    svg.addEventListener("pointerdown", event => this.grip(event));
    addEventListener("pointermove", event => this.drag(event));
    for (const end of ["pointerup", "pointercancel"]) addEventListener(end, event => this.loosen(event));
  }

  /** The picture has another size, which the frame takes the form of. Where all of it was seen, all is seen again. */
  resize({ width, height, above }) {
    const wasWhole = !this.whole || textOf(this.whole) === textOf(this.frame);
    const over = Math.max(MARGIN, above + MARGIN / 2);
    this.whole = { x: -MARGIN, y: -over, width: Math.max(width, 120) + 2 * MARGIN, height: height + over + MARGIN - 6 };
    this.svg.style.aspectRatio = `${this.whole.width} / ${this.whole.height}`;
    if (wasWhole) this.see(this.whole);
  }

  see(frame) {
    this.frame = { ...frame };
    this.svg.setAttribute("viewBox", textOf(frame));
    // While all of it is seen a finger moves the page past it.
    this.svg.style.touchAction = frame.width < this.whole.width * 0.98 ? "none" : "";
  }

  scale(factor, point = { x: this.frame.x + this.frame.width / 2, y: this.frame.y + this.frame.height / 2 }) {
    const width = Math.min(Math.max(this.frame.width * factor, 160), this.whole.width * 3), grown = width / this.frame.width;
    const { x, y, height } = this.frame;
    this.see({ x: point.x - (point.x - x) * grown, y: point.y - (point.y - y) * grown, width, height: height * grown });
  }

  sees({ x, y }) {
    const { frame } = this;
    return x > frame.x && x < frame.x + frame.width && y > frame.y && y < frame.y + frame.height;
  }

  /** Goes to a spot that isn't seen, or is seen too small to be read. */
  goTo({ x, y }) {
    const { frame } = this, readable = Math.max(this.svg.clientWidth / 0.6, 1);
    if (this.sees({ x, y }) && frame.width <= readable) return;
    const shrunk = Math.min(1, readable / frame.width), width = frame.width * shrunk, height = frame.height * shrunk;
    this.see({ x: x - width / 2, y: y - height / 2, width, height });
  }

  grip(event) {
    this.fingers.set(event.pointerId, new DOMPoint(event.clientX, event.clientY));
    this.held = { x: event.clientX, y: event.clientY, frame: this.frame, scale: this.svg.getScreenCTM().a };
    this.hasMoved = false;
  }

  /** A click comes after this, and is to know whether the picture was dragged. */
  loosen(event) {
    this.fingers.delete(event.pointerId);
    this.held = null;
    setTimeout(() => { this.hasMoved = false; }, 0);
  }

  /** Two fingers went from one distance to another. */
  pinch(event) {
    const distance = () => {
      const [one, other] = this.fingers.values();
      return Math.max(Math.hypot(one.x - other.x, one.y - other.y), 1);
    };
    const before = distance();
    this.fingers.set(event.pointerId, new DOMPoint(event.clientX, event.clientY));
    const [one, other] = this.fingers.values(), middle = new DOMPoint((one.x + other.x) / 2, (one.y + other.y) / 2);
    this.hasMoved = true;
    this.scale(before / distance(), middle.matrixTransform(this.svg.getScreenCTM().inverse()));
  }

  drag(event) {
    if (this.fingers.size === 2 && this.fingers.has(event.pointerId)) {
      this.pinch(event);
      return;
    }
    if (!this.held) return;
    const { x, y, frame, scale } = this.held, right = event.clientX - x, down = event.clientY - y;
    this.hasMoved ||= Math.hypot(right, down) > 4;
    if (this.hasMoved) this.see({ ...frame, x: frame.x - right / scale, y: frame.y - down / scale });
  }
}
