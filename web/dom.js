// The document's elements, by name, and new ones.

export const $ = id => document.getElementById(id);

// An element with properties and children; texts stay texts.
export function make(tag, properties = {}, ...children) {
  const { data, ...plain } = properties, made = Object.assign(document.createElement(tag), plain);
  for (const [name, value] of Object.entries(data ?? {})) made.setAttribute(name, value);
  made.append(...children);
  return made;
}

// A table with a heading line; cells are texts.
export function table(heads, lines, properties = {}) {
  const line = (tag, cells) => make("tr", {}, ...cells.map(cell => make(tag, {}, cell)));
  const body = make("tbody", {}, ...lines.map(it => line("td", it)));
  return make("table", properties, make("thead", {}, line("th", heads)), body);
}

// The options of a select: texts, or pairs of a text and a value.
export function options(select, texts) {
  select.replaceChildren(...texts.map(it => Array.isArray(it) ? new Option(...it) : new Option(it)));
}
