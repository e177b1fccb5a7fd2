// One line of cells as bars that stand on 0, with the value under the pointer.

import { make } from "./dom.js";

const MOST = 1024;

export function bars(figure, texts, nameOf) {
  const numbers = texts.slice(0, MOST).map(it => it === "true" ? 1 : it === "false" ? 0 : Number(it));
  const low = Math.min(0, ...numbers), range = Math.max(0, ...numbers) - low || 1, wide = 100 / numbers.length;
  const percent = part => `${part * 100}%`;
  const bar = (it, k) => {
    const made = make("i"), bottom = percent((Math.min(it, 0) - low) / range), height = percent(Math.abs(it) / range);
    Object.assign(made.style, { left: `${k * wide}%`, width: `${wide * 0.86}%`, bottom, height });
    return made;
  };
  const told = { role: "img", "aria-label": `${texts.length} cells as bars` };
  const box = make("div", { className: "bars", data: told }, ...numbers.map(bar));
  const hint = texts.length > MOST ? `The first ${MOST} of ${texts.length} cells.` : "Point at a bar for its value.";
  const caption = make("figcaption", {}, hint);
  box.onpointermove = event => {
    const { left, width } = box.getBoundingClientRect(), part = (event.clientX - left) / width;
    const k = Math.min(numbers.length - 1, Math.max(0, Math.floor(part * numbers.length)));
    caption.textContent = `${nameOf(k)}: ${texts[k]}`;
  };
  figure.replaceChildren(box, caption);
}
