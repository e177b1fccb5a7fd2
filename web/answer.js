// An answer as a number, a table, a picture or its text.

import { bars } from "./bars.js";
import { make } from "./dom.js";
import { axesOf, fieldsOf } from "./names.js";
import { Picture } from "./picture.js";
import { itemsOf } from "./server.js";
import { Fault, parsed } from "./syntax.js";

const MOST_LINES = 200;
const MOST_COLUMNS = 60;
const MOST_TEXT = 100000;

// The coverages of each item, where no condition leaves some out: the first variable is outermost.
function titlesOf([first, ...rest]) {
  const names = first.names.map(it => it.value);
  return rest.length ? names.flatMap(name => titlesOf(rest).map(title => `${name}, ${title}`)) : names;
}

// The axes and the fields of the answer to a query, as far as its text says them.
function read(text, coverages) {
  try {
    const query = parsed(text), titles = query.where ? [] : titlesOf(query.binds);
    return { axes: axesOf(query.item, query, coverages), names: fieldsOf(query.item, query, coverages), titles };
  } catch (fault) {
    if (fault instanceof Fault) return {};
    throw fault;
  }
}

const product = numbers => numbers.reduce((a, b) => a * b, 1);

// The heads of an item's lines and columns, by the axes of the query where they fit the cells, else by counting.
function heads(item, axes) {
  const sizes = axes?.map(it => it.high - it.low + 1) ?? [];
  const fits = axes?.length && sizes.at(-1) === item[0].length && product(sizes.slice(0, -1)) === item.length;
  if (!fits) return { corner: "", lines: String, columns: String, names: ["line", "column"], top: 0, left: 0 };
  const across = axes.at(-1), rest = axes.slice(0, -1), isPlane = rest.length === 1;
  const place = (k, n) => rest[n].low + Math.floor(k / product(sizes.slice(n + 1, -1))) % sizes[n];
  return {
    corner: [rest.map(it => it.name).join(", "), across.name].filter(Boolean).join(" \\ "),
    lines: k => rest.map((_, n) => place(k, n)).join(", "),
    columns: k => String(across.low + k),
    names: [isPlane ? rest[0].name : "line", across.name],
    top: isPlane ? rest[0].low : 0,
    left: across.low,
  };
}

// What is said above a table: what its cells are, and what it leaves out.
function notesOf(item, names, lines, columns) {
  const found = [], fields = item[0][0].length;
  if (fields > 1) found.push(`Each cell: ${names?.join(" · ") ?? `${fields} fields`}`);
  if (item.length > lines || item[0].length > columns) {
    const part = `${lines} of ${item.length} lines and ${columns} of ${item[0].length} columns`;
    found.push(`The first ${part}; Save as CSV has all.`);
  }
  return found;
}

function tableOf(item, { axes, names }) {
  if (item.length === 1 && item[0].length === 1) return recordOf(item[0][0], names);
  const { corner, lines, columns } = heads(item, axes);
  const high = Math.min(item.length, MOST_LINES), wide = Math.min(item[0].length, MOST_COLUMNS);
  const head = [corner, ...Array.from({ length: wide }, (_, k) => columns(k))].map(it => make("th", {}, it));
  const cells = line => line.slice(0, wide).map(cell => make("td", {}, cell.join(" · ")));
  const body = item.slice(0, high).map((line, k) => make("tr", {}, make("th", {}, lines(k)), ...cells(line)));
  const notes = notesOf(item, names, high, wide);
  const parts = [make("thead", {}, make("tr", {}, ...head)), make("tbody", {}, ...body)];
  if (notes.length) parts.unshift(make("caption", {}, notes.join(" ")));
  return make("table", { className: "cells" }, ...parts);
}

function recordOf(cell, names) {
  const line = (text, k) => make("tr", {}, make("th", {}, names?.[k] ?? `field ${k + 1}`), make("td", {}, text));
  return make("table", { className: "cells" }, make("tbody", {}, ...cell.map(line)));
}

const shortened = text => text.length > MOST_TEXT ? `${text.slice(0, MOST_TEXT)}\n..` : text;

export class Answer {
  constructor(box, views, colours) {
    Object.assign(this, { box, views, colours, csv: "" });
  }

  // What is shown of an answer to a query; gives how many items and cells there are.
  show(csv, text, coverages) {
    Object.assign(this, { csv, items: itemsOf(csv), query: read(text, coverages) });
    const [item] = this.items, isOne = this.items.length === 1, size = item ? item.length * item[0].length : 0;
    const kinds = [];
    if (isOne && size === 1 && item[0][0].length === 1) kinds.push("Number");
    if (item) kinds.push("Table");
    if (isOne && item[0][0].length === 1 && size > 1) kinds.push("Picture");
    if (item) kinds.push("Text");
    this.views.hidden = kinds.length < 2;
    const button = kind => make("button", { type: "button", onclick: () => this.as(kind) }, kind);
    this.views.replaceChildren(...kinds.map(button));
    const isLarge = size >= 256 || item?.length === 1 && item[0].length > 8;
    this.as(kinds.includes("Picture") && isLarge ? "Picture" : kinds[0]);
    return { items: this.items.length, cells: this.items.reduce((sum, it) => sum + it.length * it[0].length, 0) };
  }

  as(kind) {
    this.picture = null;
    for (const button of this.views.children) button.setAttribute("aria-pressed", String(button.textContent === kind));
    if (kind === undefined) this.box.replaceChildren(make("p", {}, "No item: the condition was true nowhere."));
    else if (kind === "Number") this.box.replaceChildren(make("p", { className: "number" }, this.items[0][0][0][0]));
    else if (kind === "Table") this.box.replaceChildren(...this.items.flatMap((it, k) => this.titled(it, k)));
    else if (kind === "Text") this.box.replaceChildren(make("p", { className: "plain" }, shortened(this.csv)));
    else this.draw();
  }

  // A table, below its coverages where there are several items.
  titled(item, k) {
    const found = tableOf(item, this.query), { titles } = this.query;
    if (this.items.length === 1) return [found];
    return [make("h3", {}, titles?.length === this.items.length ? titles[k] : `item ${k + 1}`), found];
  }

  // Cells on two axes as dots, those of one line as bars.
  draw() {
    const [item] = this.items, { names, columns, top, left } = heads(item, this.query.axes), figure = make("figure");
    this.box.replaceChildren(figure);
    if (item.length === 1) return bars(figure, item[0].map(cell => cell[0]), k => `${names[1]} ${columns(k)}`);
    this.picture = new Picture(figure, "The answer", this.colours);
    this.picture.draw(item.map(line => line.map(cell => cell[0])), { names, top, left, step: 1 });
    this.picture.caption.textContent = "Point at a cell for its value.";
  }

  clear() {
    this.picture = null;
    this.views.hidden = true;
    this.box.replaceChildren();
  }

  save() {
    const url = URL.createObjectURL(new Blob([this.csv], { type: "text/csv" }));
    make("a", { href: url, download: "answer.csv" }).click();
    setTimeout(() => URL.revokeObjectURL(url), 1000);
  }
}
