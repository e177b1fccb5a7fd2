// Queries that fit a coverage: each a title and what gives the text, after asking for bounds where the text needs them.

import { ask, itemsOf } from "./server.js";

const CLASSES = 16;
const MOST_ZONES = 64n;
const SIDE = 512;

const fieldOf = (variable, coverage, field) => coverage.fields.length > 1 ? `${variable}.${field}` : variable;
const sizeOf = axis => axis.high - axis.low + 1;
const haveSameBounds = (one, other) => one.low === other.low && one.high === other.high;

export function areAlike(one, two) {
  return one.axes.length === two.axes.length && one.axes.every((it, k) => haveSameBounds(it, two.axes[k]));
}

function areSame(one, two) {
  return areAlike(one, two) && one.axes.every((it, k) => it.name === two.axes[k].name);
}

// The least and the greatest cell, as whole numbers of any size.
async function boundsOf(name, variable, cells) {
  const csv = await ask(`for ${variable} in (${name}) return encode({a: min(${cells}); b: max(${cells})}, csv)`);
  return itemsOf(csv)[0][0][0].map(BigInt);
}

function ofBooleans(name, cells) {
  return [
    ["how many are true", () => `for c in (${name})\nreturn count(${cells})`],
    ["whether some are, and whether all", () => `for c in (${name})
return encode({any: some(${cells}); every: all(${cells})}, csv)`],
  ];
}

// A reduction inside an operation would count as work at each cell, so the mean is asked first.
async function aboveTheMean(name, cells) {
  const mean = (await ask(`for c in (${name}) return avg(${cells})`)).trim();
  return `for c in (${name})\nreturn count(${cells} > ${mean})`;
}

async function histogram(name, cells) {
  const [least, most] = await boundsOf(name, "c", cells);
  if (most - least >= 2n ** 63n) {
    // what is between them has more than 63 bits, so classes are those of a quotient
    return `for c in (${name})
return encode(coverage h over $k class(-8:7)
  values count(${cells} / ${2n ** 60n} = $k), csv)`;
  }
  if (most - least < BigInt(CLASSES) && least >= -(2n ** 31n) && most < 2n ** 31n) {
    return `for c in (${name})
return encode(coverage h over $k class(${least}:${most})
  values count(${cells} = $k), csv)`;
  }
  const wide = (most - least) / BigInt(CLASSES) + 1n;
  const away = least === -(2n ** 63n) ? `+ ${2n ** 63n - 1n} + 1` : least < 0n ? `+ ${-least}` : `- ${least}`;
  const moved = least === 0n ? cells : `(${cells} ${away})`;
  return `for c in (${name})
return encode(coverage h over $k class(0:${CLASSES - 1})
  values count(${moved} / ${wide} = $k), csv)`;
}

function ofNumbers(name, cells) {
  return [
    ["least, greatest, mean", () => `for c in (${name})
return encode({least: min(${cells}); greatest: max(${cells}); mean: avg(${cells})}, csv)`],
    ["how many cells are above the mean", () => aboveTheMean(name, cells)],
    [`a histogram of at most ${CLASSES} classes`, () => histogram(name, cells)],
  ];
}

function onTwoAxes(name, cells, [y, x]) {
  const found = [["mean of each row", () => `for c in (${name})
return encode(coverage m over $p ${y.name}(${y.low}:${y.high})
  values avg(${cells}[${y.name}($p)]), csv)`]];
  if (Math.min(sizeOf(y), sizeOf(x)) < 3) return found;
  const inner = axis => `${axis.name}(${axis.low + 1}:${Math.min(axis.high - 1, axis.low + SIDE)})`;
  const around = `$u ${y.name}(-1:1), $v ${x.name}(-1:1)`;
  const there = `${cells}[${y.name}($p + $u), ${x.name}($q + $v)]`, here = `${cells}[${y.name}($p), ${x.name}($q)]`;
  return [
    ...found,
    ["mean of 3 x 3 cells", () => `for c in (${name})
return encode(coverage s over $p ${inner(y)}, $q ${inner(x)}
  values (condense + over ${around}
  using ${there}) / 9, csv)`],
    ["steepest step to a neighbour", () => `for c in (${name})
return encode(coverage s over $p ${inner(y)}, $q ${inner(x)}
  values condense max over ${around}
  using abs(${there} - ${here}), csv)`],
  ];
}

async function zonalSum(name, cells, other, zones) {
  const [least, most] = await boundsOf(other, "d", zones);
  const last = most - least < MOST_ZONES ? most : least + MOST_ZONES - 1n;
  return `for c in (${name}), d in (${other})
return encode(coverage s over $k zone(${least}:${last})
  values add(${cells} * (${zones} = $k)), csv)`;
}

function withOther(name, cells, other) {
  const zone = other.fields.find(it => it.kind !== "bool");
  if (!zone) return [];
  const zones = fieldOf("d", other, zone.name);
  return [[`sum by the zones of ${other.name}`, () => zonalSum(name, cells, other.name, zones)]];
}

export function examples(coverage, field, coverages) {
  const cells = fieldOf("c", coverage, field), kind = coverage.fields.find(it => it.name === field).kind;
  const box = coverage.axes.map(it => `${it.name}(${it.low}:${Math.min(it.high, it.low + 7)})`).join(", ");
  const found = [["a window of cells", () => `for c in (${coverage.name})\nreturn encode(${cells}[${box}], csv)`]];
  if (kind === "bool") return [...found, ...ofBooleans(coverage.name, cells)];
  found.push(...ofNumbers(coverage.name, cells));
  if (coverage.axes.length === 2) found.push(...onTwoAxes(coverage.name, cells, coverage.axes));
  const other = coverages.find(it => it !== coverage && areSame(it, coverage));
  return other ? [...found, ...withOther(coverage.name, cells, other)] : found;
}
