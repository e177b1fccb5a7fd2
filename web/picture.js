// A picture of cells, with its legend and the value under the pointer; and a window on a coverage that moves and zooms.

import { coloured } from "./colours.js";
import { make } from "./dom.js";
import { ask, itemsOf } from "./server.js";

const MOST = 512;
const LEAST_SIDE = 8;
const ENDS = ["pointerup", "pointercancel"];
const ARROWS = { ArrowUp: [-1, 0], ArrowDown: [1, 0], ArrowLeft: [0, -1], ArrowRight: [0, 1] };

// Cells drawn as dots, in colours of the kind that a function gives. `where` has the names of the two axes, the first
// coordinates and the step between two cells.
export class Picture {
  constructor(figure, label, kind) {
    this.kind = kind;
    this.canvas = make("canvas", { tabIndex: 0, data: { role: "img", "aria-label": label } });
    this.cursor = make("div", { className: "cursor", hidden: true });
    this.frame = make("div", { className: "frame" }, this.canvas, this.cursor);
    this.caption = make("figcaption", { data: { "aria-live": "polite" } });
    this.legend = make("div", { className: "legend" });
    this.label = label;
    figure.replaceChildren(this.frame, this.caption, this.legend);
    this.figure = figure;
    this.canvas.addEventListener("pointermove", event => this.point(this.cellAt(event)));
    this.canvas.addEventListener("keydown", event => this.key(event));
    new ResizeObserver(() => this.fit()).observe(figure);
  }

  // How cells are to be coloured.
  colours() {
    return this.kind();
  }

  draw(rows, where) {
    Object.assign(this, { rows, where, mark: null });
    this.cursor.hidden = true;
    const { of, legend } = coloured(rows.flat(), this.colours()), height = rows.length, width = rows[0].length;
    Object.assign(this.canvas, { width, height });
    const context = this.canvas.getContext("2d"), image = context.createImageData(width, height);
    of.forEach(([red, green, blue], k) => {
      image.data[4 * k] = red;
      image.data[4 * k + 1] = green;
      image.data[4 * k + 2] = blue;
      image.data[4 * k + 3] = 255;
    });
    context.putImageData(image, 0, 0);
    this.canvas.style.transform = "";
    this.showLegend(legend);
    this.fit();
  }

  redraw() {
    if (this.rows) this.draw(this.rows, this.where);
  }

  // As large as the column, and no higher than most of the window; a strip keeps a height that can be seen.
  fit() {
    if (!this.rows) return;
    const ratio = this.rows.length / this.rows[0].length;
    const width = Math.min(this.figure.clientWidth - 2, Math.max(200, window.innerHeight * 0.72) / ratio);
    Object.assign(this.canvas.style, { width: `${Math.max(1, width)}px`, height: `${Math.max(28, width * ratio)}px` });
    this.showMark();
  }

  showLegend(legend) {
    if (legend.kind === "classes") {
      this.legend.replaceChildren(...legend.classes.map(it => {
        const swatch = make("i");
        swatch.style.background = it.colour;
        return make("span", {}, swatch, it.text);
      }));
      return;
    }
    const bar = make("span", { className: "ramp" });
    bar.style.background = `linear-gradient(90deg, ${legend.stops})`;
    this.legend.replaceChildren(legend.low, bar, legend.high);
  }

  cellAt(event) {
    const box = this.canvas.getBoundingClientRect();
    const height = this.rows?.length ?? 0, width = this.rows?.[0].length ?? 0;
    const down = (event.clientY - box.top) / box.height, across = (event.clientX - box.left) / box.width;
    return { row: Math.floor(down * height), column: Math.floor(across * width) };
  }

  point(cell) {
    this.tell(cell);
    this.onpoint?.(cell);
  }

  tell({ row, column }) {
    const value = this.rows?.[row]?.[column];
    if (value === undefined) return;
    const { names, top, left, step } = this.where;
    const down = names[0] === null ? "" : `${names[0]} ${top + row * step}, `;
    this.caption.textContent = `${down}${names[1]} ${left + column * step}: ${value}`;
  }

  // The mark that arrows move.
  key(event) {
    const step = ARROWS[event.key];
    if (!step || !this.rows || event.ctrlKey || event.metaKey || event.altKey) return;
    event.preventDefault();
    if (event.shiftKey) return this.onshift?.(step);
    const within = (at, size) => Math.max(0, Math.min(size - 1, at));
    const height = this.rows.length, width = this.rows[0].length;
    this.mark ??= { row: Math.floor(height / 2), column: Math.floor(width / 2) };
    this.mark = { row: within(this.mark.row + step[0], height), column: within(this.mark.column + step[1], width) };
    this.showMark();
    this.point(this.mark);
  }

  showMark() {
    this.cursor.hidden = !this.mark;
    if (!this.mark) return;
    const wide = this.canvas.clientWidth / this.rows[0].length, high = this.canvas.clientHeight / this.rows.length;
    const size = Math.max(10, wide), middle = (at, side) => `${(at + 0.5) * side - size / 2}px`;
    const left = middle(this.mark.column, wide), top = middle(this.mark.row, high);
    Object.assign(this.cursor.style, { width: `${size}px`, height: `${size}px`, left, top });
  }

  fail(text) {
    Object.assign(this, { rows: null, mark: null });
    this.canvas.width = this.canvas.height = 0;
    this.cursor.hidden = true;
    this.legend.replaceChildren();
    this.caption.replaceChildren(make("span", { className: "bad" }, text));
  }
}

// A layer is a coverage and one of its fields.
export function nameOf({ coverage, field }) {
  return coverage.fields.length > 1 ? `${coverage.name}.${field}` : coverage.name;
}

// The axes that a picture of a coverage goes down and across; a coverage with one axis is a strip.
export function planeOf(coverage) {
  const [down, across] = coverage.axes.length > 1 ? coverage.axes.slice(-2) : [null, coverage.axes[0]];
  return { down, across, fixed: coverage.axes.slice(0, -2) };
}

export function wholeOf(coverage) {
  const { down, across } = planeOf(coverage);
  const height = down ? down.high - down.low + 1 : 1, width = across.high - across.low + 1;
  return { top: down?.low ?? 0, left: across.low, height, width };
}

// The query for each n-th cell of a window: of a layer, or of a layer less another one.
export function sampling(layers, view, positions) {
  const step = Math.max(1, Math.ceil(Math.max(view.height, view.width) / MOST));
  const rows = Math.ceil(view.height / step), columns = Math.ceil(view.width / step);
  const at = (low, variable) => step === 1 ? `${low} + ${variable}` : `${low} + ${variable} * ${step}`;
  const cell = ({ coverage, field }, variable) => {
    const { down, across, fixed } = planeOf(coverage);
    const slices = [...fixed.map((axis, k) => `${axis.name}(${positions[k] ?? axis.low})`),
      ...(down ? [`${down.name}(${at(view.top, "$i")})`] : []), `${across.name}(${at(view.left, "$j")})`];
    return `${variable}${coverage.fields.length > 1 ? `.${field}` : ""}[${slices.join(", ")}]`;
  };
  const names = layers.map((it, k) => `${"cd"[k]} in (${it.coverage.name})`).join(", ");
  const body = layers.map((it, k) => cell(it, "cd"[k])).join(" - ");
  const over = `$i y(0:${rows - 1}), $j x(0:${columns - 1})`;
  return { step, query: `for ${names} return encode(coverage v over ${over} values ${body}, csv)` };
}

// How far two pointers are apart, where they began or where they are.
function distance(held, when) {
  const [one, other] = held.map(it => it[when]);
  return Math.hypot(one.clientX - other.clientX, one.clientY - other.clientY);
}

// A picture of a coverage that one looks around in: of one layer or, for a difference, of two. `onmove` is told each
// view.
export class Look extends Picture {
  constructor(figure, label, kind) {
    super(figure, label, kind);
    Object.assign(this, { asked: 0, view: null, held: [] });
    this.canvas.setAttribute("role", "application");
    this.canvas.addEventListener("pointerdown", event => this.grab(event));
    this.canvas.addEventListener("wheel", event => this.wheel(event), { passive: false });
    const quarter = side => Math.ceil(side / 4);
    this.onshift = ([down, across]) => this.shift(down * quarter(this.view.height), across * quarter(this.view.width));
  }

  shift(down, across) {
    this.move({ ...this.view, top: this.view.top + down, left: this.view.left + across });
  }

  async show(layers, view, positions = []) {
    Object.assign(this, { layers, view, positions });
    const mine = ++this.asked, { step, query } = sampling(layers, view, positions), began = performance.now();
    this.frame.classList.add("busy");
    try {
      const csv = await ask(query);
      if (mine !== this.asked) return;
      const { down, across } = planeOf(layers[0].coverage), names = [down?.name ?? null, across.name];
      const rows = itemsOf(csv)[0].map(row => row.map(cell => cell[0]));
      this.draw(rows, { names, top: view.top, left: view.left, step });
      const each = step === 1 ? "each cell" : `one cell in ${step} on each axis`;
      this.canvas.setAttribute("aria-label", `${this.label}: ${this.title()}`);
      this.caption.textContent = `${this.title()}: ${each}, ${Math.round(performance.now() - began)} ms`;
    } catch (wrong) {
      if (mine === this.asked) this.fail(wrong.message);
    }
    if (mine === this.asked) this.frame.classList.remove("busy");
  }

  // A difference has two sides.
  colours() {
    return this.layers.length > 1 && this.kind() === "auto" ? "sides" : this.kind();
  }

  title() {
    return this.layers.map(nameOf).join(" less ");
  }

  // A view inside the coverage, as like the wanted one as can be.
  move(wanted) {
    const whole = wholeOf(this.layers[0].coverage);
    const size = (side, most) => Math.max(Math.min(LEAST_SIDE, most), Math.min(side, most));
    const within = (at, low, side, most) => Math.max(low, Math.min(at, low + most - side));
    const height = size(wanted.height, whole.height), width = size(wanted.width, whole.width);
    const top = within(wanted.top, whole.top, height, whole.height);
    const left = within(wanted.left, whole.left, width, whole.width);
    const view = { top, left, height, width };
    this.show(this.layers, view, this.positions);
    this.onmove?.(view);
  }

  // Zooms about a part of the picture, its middle where none is given.
  zoom(factor, down = 0.5, across = 0.5) {
    const { top, left, height, width } = this.view, whole = wholeOf(this.layers[0].coverage);
    const zoomed = (side, most) => Math.min(most, Math.max(1, Math.round(side * factor)));
    const high = zoomed(height, whole.height), wide = zoomed(width, whole.width);
    const from = { top: Math.round(top + (height - high) * down), left: Math.round(left + (width - wide) * across) };
    this.move({ ...from, height: high, width: wide });
  }

  wheel(event) {
    if (!this.rows) return;
    event.preventDefault();
    const box = this.canvas.getBoundingClientRect();
    const down = (event.clientY - box.top) / box.height, across = (event.clientX - box.left) / box.width;
    if (event.deltaY) this.zoom(event.deltaY < 0 ? 0.5 : 2, down, across);
  }

  // One pointer drags and two pinch, until one of them is lifted.
  grab(event) {
    if (!this.rows || event.button !== 0 || this.held.length === 2) return;
    this.canvas.setPointerCapture(event.pointerId);
    this.held.push({ id: event.pointerId, from: event, to: event });
    if (this.held.length > 1) return;
    const follow = it => {
      const one = this.held.find(held => held.id === it.pointerId);
      if (one) one.to = it;
      this.canvas.style.transform = this.transform();
    };
    const drop = it => {
      this.canvas.removeEventListener("pointermove", follow);
      for (const end of ENDS) this.canvas.removeEventListener(end, drop);
      const held = this.held.splice(0);
      this.canvas.style.transform = "";
      if (it.type === "pointerup") this.release(held);
    };
    this.canvas.addEventListener("pointermove", follow);
    for (const end of ENDS) this.canvas.addEventListener(end, drop);
  }

  // What is seen while pointers are held.
  transform() {
    const [{ from, to }] = this.held;
    if (this.held.length === 1) return `translate(${to.clientX - from.clientX}px, ${to.clientY - from.clientY}px)`;
    return `scale(${distance(this.held, "to") / distance(this.held, "from")})`;
  }

  // What follows when they are let go.
  release(held) {
    const box = this.canvas.getBoundingClientRect(), [{ from, to }] = held;
    if (held.length === 1) {
      const down = Math.round((from.clientY - to.clientY) / box.height * this.view.height);
      const across = Math.round((from.clientX - to.clientX) / box.width * this.view.width);
      if (down || across) this.shift(down, across);
      return;
    }
    const middle = side => (held[0].from[side] + held[1].from[side]) / 2;
    const down = (middle("clientY") - box.top) / box.height, across = (middle("clientX") - box.left) / box.width;
    this.zoom(distance(held, "from") / Math.max(1, distance(held, "to")), down, across);
  }

  key(event) {
    const zoom = { "+": 0.5, "=": 0.5, "-": 2 }[event.key];
    if (event.ctrlKey || event.metaKey || !this.rows) return;
    if (zoom) this.zoom(zoom);
    else if (event.key === "0") this.move(wholeOf(this.layers[0].coverage));
    else super.key(event);
  }
}
