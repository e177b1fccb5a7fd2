// The query language, read on this side: where a text stops being a query, and which names stand where.
//
// The grammar needs at most three tokens of foresight, so the first token that does not fit is the first at which no
// query begins with what stands before it.

const REDUCTIONS = "count some all add avg min max".split(" ");
const KEYWORDS = new Set([..."for in where return encode csv coverage over values value list condense using".split(" "),
  ..."and or xor not abs bit true false imagecrsdomain".split(" "), ...REDUCTIONS]);
const LEVELS = { "*": 4, "/": 4, "+": 3, "-": 3, and: 1, or: 0, xor: 0 };
for (const comparison of ["<", "<=", ">", ">=", "=", "!="]) LEVELS[comparison] = 2;
const SPACE = /[ \t\r\n]*/y;
const TOKEN = /\$?[A-Za-z_][A-Za-z0-9_]*|[0-9]+|"[ !#-~]*"|<=|>=|!=|[()[\]{},;:.<>=+\-*/]/y;

// What people write who know another language.
const INSTEAD = { sum: "add", mean: "avg", average: "avg", any: "some", every: "all", maximum: "max", minimum: "min" };
const SIGNS = {
  "!": "Write `not`, or `!=` between two values.",
  "&": "Write `and`.",
  "|": "Write `or`.",
  "%": "There is no remainder: a - a / b * b is one.",
  "'": "The format is written as csv or \"csv\".",
  "#": "There are no comments.",
  "^": "There is no power: c * c is one.",
  "\"": "The string does not end.",
};
const FUNCTIONS = "abs, bit, count, some, all, add, avg, min, max";
const MOST_NUMBER = 9223372036854775807n;
const MOST_NAME = 64;

export class Fault extends Error {
  constructor(text, from, to) {
    super(text);
    Object.assign(this, { from, to: Math.max(to, from) });
  }
}

function matched(pattern, text, at) {
  pattern.lastIndex = at;
  return pattern.exec(text);
}

function kindOf(text) {
  if (text[0] === "$") return "variable";
  if (/[A-Za-z_]/.test(text[0])) return KEYWORDS.has(text.toLowerCase()) ? "keyword" : "word";
  return /[0-9]/.test(text[0]) ? "number" : text[0] === "\"" ? "string" : "symbol";
}

function tokensOf(text) {
  const found = [];
  let at = matched(SPACE, text, 0)[0].length;
  while (at < text.length) {
    const match = matched(TOKEN, text, at);
    if (!match) throw new Fault(SIGNS[text[at]] ?? `\`${text[at]}\` begins nothing in this language.`, at, at + 1);
    const kind = kindOf(match[0]), from = at, to = at + match[0].length;
    found.push({ kind, from, to, value: kind === "keyword" ? match[0].toLowerCase() : match[0] });
    if (kind === "number" && BigInt(match[0]) > MOST_NUMBER) {
      throw new Fault(`A number is at most ${MOST_NUMBER}: compute it, as -${MOST_NUMBER} - 1.`, from, to);
    }
    if (to - from > MOST_NAME && /[$\w]/.test(match[0][0]) && kind !== "number") {
      throw new Fault(`A name has at most ${MOST_NAME} bytes.`, from, to);
    }
    at = to + matched(SPACE, text, to)[0].length;
  }
  return found;
}

// Reads tokens from the left into nodes: each has its form, its parts, and the token by which it is pointed at.
class Parser {
  constructor(tokens, end) {
    Object.assign(this, { tokens, end, at: 0 });
  }

  get next() {
    return this.tokens[this.at];
  }

  sees(...values) {
    return this.seesAt(0, ...values);
  }

  seesAt(ahead, ...values) {
    const token = this.tokens[this.at + ahead];
    return token !== undefined && (token.kind === "symbol" || token.kind === "keyword") && values.includes(token.value);
  }

  takes(...values) {
    return this.sees(...values) ? this.tokens[this.at++] : undefined;
  }

  fails(wanted) {
    const token = this.next, isFunction = wanted === "an expression" || wanted.startsWith("one of the functions");
    const instead = isFunction && token?.kind === "word" && INSTEAD[token.value.toLowerCase()];
    const found = token ? `\`${token.value}\` does not fit here` : "The text ends too early";
    const advice = instead ? `write ${instead}.` : `${wanted} is wanted.`;
    throw new Fault(`${found}: ${advice}`, token?.from ?? this.end, token?.to ?? this.end);
  }

  needs(...values) {
    return this.takes(...values) ?? this.fails(values.map(it => `\`${it}\``).join(" or "));
  }

  ofKind(wanted, ...kinds) {
    return this.next && kinds.includes(this.next.kind) ? this.tokens[this.at++] : this.fails(wanted);
  }

  separated(symbol, read) {
    const found = [read()];
    while (this.takes(symbol)) found.push(read());
    return found;
  }

  query() {
    this.needs("for");
    const binds = this.separated(",", () => this.bind());
    const where = this.takes("where") && this.expression(0)[0];
    const give = this.needs("return"), encode = this.takes("encode");
    if (encode) this.needs("(");
    const item = this.expression(0)[0];
    if (encode) {
      this.needs(",");
      this.format();
      this.needs(")");
    }
    if (this.next) this.fails("the end, or an operator,");
    return { binds, where, item, encode, give };
  }

  bind() {
    const variable = this.ofKind("a variable", "word", "variable");
    this.needs("in");
    this.needs("(");
    const names = this.separated(",", () => this.ofKind("the name of a coverage", "word"));
    this.needs(")");
    return { variable, names };
  }

  format() {
    if (this.takes("csv")) return;
    const token = this.next;
    const isFormat = token?.kind === "string" && ["\"csv\"", "\"text/csv\""].includes(token.value.toLowerCase());
    if (!isFormat) this.fails("`csv`, the only format,");
    this.at++;
  }

  // An expression of at least this level, and whether it is open: then nothing can follow it.
  expression(level) {
    let [left, isOpen] = this.unary();
    while (!isOpen && this.sees(...Object.keys(LEVELS)) && LEVELS[this.next.value] >= level) {
      const token = this.tokens[this.at++];
      let right;
      [right, isOpen] = this.expression(LEVELS[token.value] + 1);
      left = { form: "operation", token, parts: [left, right] };
    }
    return [left, isOpen];
  }

  unary() {
    const token = this.takes("-", "+", "not");
    if (token) {
      const [operand, isOpen] = this.unary();
      return [{ form: "operation", token, parts: [operand] }, isOpen];
    }
    if (this.sees("condense")) return [this.condense(), true];
    if (!this.sees("coverage")) return [this.postfix(this.primary()), false];
    const [made, isOpen] = this.array();
    return isOpen ? [made, true] : [this.postfix(made), false];
  }

  postfix(value) {
    for (;;) {
      if (this.takes(".")) value = { form: "field", token: this.ofKind("a field", "word"), parts: [value] };
      else if (this.sees("[")) {
        const token = this.tokens[this.at++], subs = this.separated(",", () => this.sub());
        this.needs("]");
        value = { form: "bracket", token, subs, parts: [value, ...subs.flatMap(it => it.inner ?? [])] };
      } else return value;
    }
  }

  primary() {
    const token = this.next, text = token?.kind;
    if (text === "number" || text === "word" || text === "variable") {
      if (text === "word" && this.seesAt(1, "(")) this.fails(`one of the functions ${FUNCTIONS}`);
      this.at++;
      return { form: text === "number" ? "number" : "variable", token, parts: [] };
    }
    if (this.takes("true", "false")) return { form: "boolean", token, parts: [] };
    if (this.takes("(")) return this.closed(")", this.expression(0)[0]);
    if (this.takes("{")) {
      const named = this.separated(";", () => this.part());
      const names = named.map(it => it.name), parts = named.map(it => it.value);
      return this.closed("}", { form: "record", token, names, parts });
    }
    return this.call();
  }

  closed(symbol, value) {
    this.needs(symbol);
    return value;
  }

  part() {
    const name = this.ofKind("the name of a part", "word");
    this.needs(":");
    return { name, value: this.expression(0)[0] };
  }

  call() {
    const token = this.takes("abs", "bit", ...REDUCTIONS) ?? this.fails("an expression");
    this.needs("(");
    const parts = [this.expression(0)[0]];
    if (token.value === "bit") {
      this.needs(",");
      parts.push(this.expression(0)[0]);
    }
    return this.closed(")", { form: REDUCTIONS.includes(token.value) ? "reduction" : "operation", token, parts });
  }

  signed() {
    const sign = this.takes("+", "-"), token = this.ofKind("a whole number", "number");
    return { token, value: sign?.value === "-" ? -Number(token.value) : Number(token.value) };
  }

  isInterval() {
    const sign = this.sees("+", "-") ? 1 : 0;
    return this.tokens[this.at + sign]?.kind === "number" && this.seesAt(sign + 1, ":");
  }

  // { low, high }, or { of, inner } for imageCrsDomain.
  interval() {
    if (this.takes("imagecrsdomain")) {
      this.needs("(");
      const inner = this.expression(0)[0];
      this.needs(",");
      return this.closed(")", { of: this.ofKind("an axis", "word"), inner });
    }
    const low = this.signed();
    this.needs(":");
    return { low: low.value, high: this.signed().value };
  }

  sub() {
    const axis = this.ofKind("an axis", "word");
    this.needs("(");
    const trim = this.sees("imagecrsdomain") || this.isInterval();
    const found = trim ? this.interval() : { inner: this.expression(0)[0] };
    return this.closed(")", { axis, trim, ...found });
  }

  iterators() {
    this.needs("over");
    return this.separated(",", () => {
      const variable = this.ofKind("a variable", "word", "variable");
      const axis = this.ofKind("an axis", "word");
      this.needs("(");
      return this.closed(")", { variable, axis, ...this.interval() });
    });
  }

  condense() {
    const token = this.needs("condense");
    this.needs("+", "*", "max", "min", "and", "or");
    const over = this.iterators(), where = this.takes("where") && this.expression(0)[0];
    this.needs("using");
    return { form: "condense", token, over, parts: [...(where ? [where] : []), this.expression(0)[0]] };
  }

  // An array, and whether it is by an expression, which is open.
  array() {
    const token = this.needs("coverage");
    this.ofKind("a name", "word");
    const over = this.iterators();
    if (this.takes("values")) return [{ form: "array", token, over, parts: [this.expression(0)[0]] }, true];
    if (!this.takes("value")) this.fails("`values` or `value list`");
    this.needs("list");
    this.needs("<");
    this.separated(";", () => this.takes("true", "false") ?? this.signed());
    this.needs(">");
    return [{ form: "array", token, over, parts: [] }, false];
  }
}

// The query that a text spells; throws a Fault, which has its place, where it spells none.
export function parsed(text) {
  return new Parser(tokensOf(text), text.length).query();
}
