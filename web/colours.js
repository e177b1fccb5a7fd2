// Colours for cells. Cells are texts; those past 2^53 are compared as whole numbers of any size, none rounded.

const RAMPS = {
  viridis: [[68, 1, 84], [72, 40, 120], [62, 74, 137], [49, 104, 142], [38, 130, 142],
    [31, 158, 137], [53, 183, 121], [110, 206, 88], [181, 222, 43], [253, 231, 37]],
  grey: [[20, 20, 20], [250, 250, 250]],
  terrain: [[40, 90, 160], [90, 150, 190], [80, 140, 80], [150, 180, 100],
    [220, 200, 130], [170, 120, 80], [245, 245, 245]],
  sides: [[33, 80, 160], [120, 165, 215], [245, 245, 245], [230, 150, 110], [165, 40, 30]],
};
const CLASSES = [[225, 225, 225], [90, 140, 200], [235, 215, 130], [70, 130, 70], [190, 60, 50], [130, 125, 120],
  [150, 100, 180], [240, 150, 60], [90, 180, 170], [220, 130, 170], [120, 160, 60], [60, 70, 120]];
const MOST_CLASSES = 12;
const LONGEST_SAFE = 15;
const STOPS = [0, 0.25, 0.5, 0.75, 1];

const css = ([red, green, blue]) => `rgb(${red},${green},${blue})`;

function between(colours, part) {
  const at = part * (colours.length - 1), k = Math.min(colours.length - 2, Math.floor(at)), t = at - k;
  return colours[k].map((it, i) => Math.round(it + (colours[k + 1][i] - it) * t));
}

function numbersOf(texts) {
  const number = text => text === "true" ? 1 : text === "false" ? 0 : Number(text);
  if (texts.every(it => it.length <= LONGEST_SAFE)) return texts.map(number);
  return texts.map(it => BigInt(it === "true" ? 1 : it === "false" ? 0 : it));
}

// The least and the greatest, of numbers of either kind.
function bounds(numbers) {
  let low = numbers[0], high = numbers[0];
  for (const it of numbers) {
    if (it < low) low = it;
    if (it > high) high = it;
  }
  return [low, high];
}

// How far a number lies between two others, 0 to 1.
const partOf = (it, low, high) => high > low ? Number(it - low) / Number(high - low) : 0.5;

function classed(texts, numbers) {
  const values = new Map(numbers.map((it, k) => [String(it), { text: texts[k], number: it }]));
  const listed = [...values.values()].sort((a, b) => a.number < b.number ? -1 : 1);
  const isSmall = listed.every(it => it.number >= 0 && it.number < MOST_CLASSES);
  const colourAt = (it, k) => CLASSES[isSmall ? Number(it.number) : k % MOST_CLASSES];
  const colours = new Map(listed.map((it, k) => [String(it.number), colourAt(it, k)]));
  const classes = listed.map(it => ({ text: it.text, colour: css(colours.get(String(it.number))) }));
  return { of: numbers.map(it => colours.get(String(it))), legend: { kind: "classes", classes } };
}

function ramped(texts, numbers, name) {
  let [low, high] = bounds(numbers);
  const ends = [low, high].map(end => texts[numbers.indexOf(end)]);
  if (name === "sides") {
    // As far on one side of 0 as on the other.
    const size = it => it < 0 ? -it : it, most = size(low) > size(high) ? size(low) : size(high);
    [low, high] = [-most, most];
    ends.splice(0, 2, String(low), String(high));
  }
  const colours = RAMPS[name], table = Array.from({ length: 256 }, (_, k) => between(colours, k / 255));
  return {
    of: numbers.map(it => table[Math.round(partOf(it, low, high) * 255)]),
    legend: { kind: "ramp", low: ends[0], high: ends[1], stops: STOPS.map(part => css(between(colours, part))) },
  };
}

function fewValues(numbers) {
  const seen = new Set();
  for (const it of numbers) if (seen.add(it).size > MOST_CLASSES) return false;
  return true;
}

// A colour for each cell, and the legend: `auto` takes classes where there are few values.
export function coloured(texts, kind) {
  const numbers = numbersOf(texts), isFew = (kind === "auto" || kind === "classes") && fewValues(numbers);
  if (isFew) return classed(texts, numbers);
  return ramped(texts, numbers, kind === "auto" || kind === "classes" ? "viridis" : kind);
}
