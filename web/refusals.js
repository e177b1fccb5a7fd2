// What a refusal says to a person: what is wrong, what to change, and where.

import { placeOf } from "./names.js";
import { NoAnswer, Refused } from "./server.js";
import { Fault, parsed } from "./syntax.js";

// As docs/REFUSALS.md says it.
const ADVICE = {
  14: "A value is not spelled as its key asks; a query has at most 65,536 bytes.",
  20: "No coverage has this name; names are case-sensitive.",
  30: "Here stands something that begins no word of the language.",
  31: "A number is above 9223372036854775807.",
  32: "The words spell no query.",
  33: "More than 512 brackets open at once, more than 256 words `condense` and `coverage`, or a tree "
    + "higher than 64: ask a simpler query, or two.",
  40: "A variable that neither `for` nor `over` binds.",
  41: "A variable, or a part of {..}, that is bound already.",
  42: "The value has no such field. The result of an operation has one field, without a name.",
  43: "The value has no such axis.",
  44: "An axis is named twice.",
  45: "Two operands have unlike domains: trim both to the same box.",
  46: "A trim does not lie inside its axis.",
  47: "A value with axes stands where a single one must.",
  48: "An integer stands where a Boolean must: compare it, as c != 0.",
  49: "A Boolean stands where an integer must: write +b.",
  50: "A value with several fields stands where one must: select one, as c.field.",
  51: "The value list has another number of items than its box has points.",
  52: "A result with axes has to be encoded.",
  53: "A lower bound above its upper one, a bound beyond 32 bits, more than 6 iterators, "
    + "or a box of more than 16,777,216 points.",
  54: "Too much work: ask for a smaller box, or for fewer points in a condenser.",
  55: "More than 1,048,576 cells in the answer: ask for a part, or for every n-th cell.",
  56: "More than 64 combinations of the listed coverages.",
  60: "A result leaves 64 bits.",
  61: "A divisor is 0.",
  62: "The position of a slice lies outside its axis.",
  63: "max or min over no points.",
  64: "A bit's place is outside 0 to 63.",
  70: "There is no such job: the server's run has ended, and its jobs with it. Ask again.",
  72: "64 jobs are held: wait until others are done.",
  80: "There is no such template.",
  81: "The layers or the radius do not fit the template: zones need the same domain, a focal layer two axes.",
  90: "The server found no memory: ask for less.",
  91: "The disk refused.",
  92: "The file has too few free blocks: delete coverages, or wait until jobs are done.",
  93: "The file is damaged: go back to a copy.",
};

function lineAndColumn(text, at) {
  const before = text.slice(0, at).split("\n");
  return `line ${before.length}, column ${before.at(-1).length + 1}`;
}

function placed(number, text, coverages) {
  try {
    return placeOf(number, parsed(text), coverages);
  } catch (fault) {
    if (fault instanceof Fault) return fault;
    // too deep to be read here
    if (fault instanceof RangeError) return undefined;
    throw fault;
  }
}

// { text, from, to }: the words, and the place in the query's text where there is one.
export function explained(wrong, text, coverages) {
  if (wrong instanceof NoAnswer) return { text: `${wrong.message}\nIs the server there? Ask again when it is.` };
  if (!(wrong instanceof Refused)) throw wrong;
  const advice = ADVICE[wrong.number] ?? "docs/REFUSALS.md says what to change.";
  const place = text === undefined ? undefined : placed(wrong.number, text, coverages);
  const where = place ? `\nAt ${lineAndColumn(text, place.from)}: ${place.message}` : "";
  return { text: `${wrong.message}\n${advice}${where}`, from: place?.from, to: place?.to };
}
