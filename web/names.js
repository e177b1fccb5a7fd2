// What the names in a query stand for: the place of the first that stands for nothing, and the axes of an answer.

import { Fault } from "./syntax.js";

// The coverages of each variable of the `for` list, as far as they are known.
function bound(query, coverages) {
  const known = names => coverages.filter(it => names.some(name => name.value === it.name));
  return new Map(query.binds.map(it => [it.variable.value, known(it.names)]));
}

// What the coverages of a variable have alike; undefined where they differ, or none is known.
const alike = (them, key) =>
  them?.every(it => JSON.stringify(it[key]) === JSON.stringify(them[0][key])) ? them[0]?.[key] : undefined;

// The axes of an expression's value, each { name, low, high }; undefined where this side does not know.
export function axesOf(node, query, coverages) {
  const variables = bound(query, coverages);

  // An axis with the bounds of an interval, which are written or those of another value's axis.
  function within(interval, name) {
    if (interval.low !== undefined) return { name, low: interval.low, high: interval.high };
    const axis = axes(interval.inner)?.find(it => it?.name === interval.of.value);
    return axis && { ...axis, name };
  }

  function bracket(it) {
    return axes(it.parts[0])?.flatMap(axis => {
      const sub = it.subs.find(sub => sub.axis.value === axis?.name);
      if (!sub) return [axis];
      return sub.trim ? [within(sub, axis.name)] : [];
    });
  }

  function axes(it) {
    switch (it.form) {
      case "variable": return variables.has(it.token.value) ? alike(variables.get(it.token.value), "axes") : [];
      case "bracket": return bracket(it);
      case "array": return it.over.map(over => within(over, over.axis.value));
      case "field": return axes(it.parts[0]);
      case "operation":
      case "record": return it.parts.map(axes).find(found => found?.length) ?? [];
      default: return [];
    }
  }

  const found = axes(node);
  return found?.every(Boolean) ? found : undefined;
}

// The names of the fields of an expression's value, where it has several.
export function fieldsOf(node, query, coverages) {
  if (node.form === "record") return node.names.map(it => it.value);
  if (node.form === "bracket") return fieldsOf(node.parts[0], query, coverages);
  if (node.form !== "variable") return undefined;
  return alike(bound(query, coverages).get(node.token.value), "fields")?.map(it => it.name);
}

// Walks over all nodes with the variables that are bound around each.
function walk(node, scope, visit) {
  visit(node, scope);
  const inner = node.over ? [...scope, ...node.over.map(it => it.variable.value)] : scope;
  for (const over of node.over ?? []) if (over.inner) walk(over.inner, scope, visit);
  for (const part of node.parts) walk(part, inner, visit);
}

const at = (token, text) => new Fault(text, token.from, token.to);
const namesOf = them => them.map(it => it.name).join(", ");
const axisOf = (coverage, sub) => coverage.axes.find(it => it.name === sub.axis.value);
const spelled = axes => axes.map(it => `${it.name}(${it.low}:${it.high})`).join(", ");

// Whether a position is a number that lies inside its axis.
const isInside = ({ form, token }, axis) =>
  form === "number" && axis?.low <= token.value && token.value <= axis?.high;

// For each refusal that names alone place, what tells it of a node: a fault, or something that is none.
function checks(query, coverages) {
  const variables = bound(query, coverages);

  // What tells it of the coverages that a node is about, and of the parts of its bracket.
  const ofCoverages = (node, tell) => variables.get(node.parts[0]?.token.value)?.map(tell).find(Boolean);
  const ofSubs = tell => node => node.form === "bracket" && node.parts[0].form === "variable"
    && ofCoverages(node, it => node.subs.map(sub => tell(it, sub, axisOf(it, sub))).find(Boolean));

  return {
    40: (node, scope) => node.form === "variable" && !scope.includes(node.token.value)
      && at(node.token, `\`${node.token.value}\` is no variable here; there are ${scope.join(", ")}.`),
    41: (node, scope) => {
      const again = node.over?.map(it => it.variable).find(it => scope.includes(it.value));
      return again && at(again, `\`${again.value}\` is bound already.`);
    },
    42: node => node.form === "field" && node.parts[0].form === "variable"
      && ofCoverages(node, it => !it.fields.some(field => field.name === node.token.value)
        && at(node.token, `${it.name} has the fields ${namesOf(it.fields)}.`)),
    43: ofSubs((it, sub, axis) => !axis && at(sub.axis, `${it.name} has the axes ${namesOf(it.axes)}.`)),
    45: node => {
      if (node.form !== "operation" || node.parts.length !== 2) return false;
      const [left, right] = node.parts.map(it => axesOf(it, query, coverages));
      const isUnlike = left?.length && right?.length && spelled(left) !== spelled(right);
      return isUnlike && at(node.token, `Left ${spelled(left)}, right ${spelled(right)}.`);
    },
    46: ofSubs((it, sub, axis) => axis && (sub.low < axis.low || sub.high > axis.high)
      && at(sub.axis, `${it.name} has ${spelled(it.axes)}.`)),
    53: node => {
      const wrong = [...node.subs ?? [], ...node.over ?? []].find(it => it.low > it.high);
      return wrong && at(wrong.axis, "The first bound is above the second.");
    },
    61: node => node.token?.value === "/" && at(node.token, "This divisor may be the one, if there are several."),
    62: ofSubs((it, sub, axis) => !sub.trim && !isInside(sub.inner, axis) && at(sub.axis, `${it.name} has ${spelled(it.axes)}.`)),
  };
}

// The place and the words for a refusal with a number, or undefined where names do not tell it.
export function placeOf(number, query, coverages) {
  if (number === 20) {
    const wrong = query.binds.flatMap(it => it.names).find(it => !coverages.some(known => known.name === it.value));
    return wrong && at(wrong, `There are ${namesOf(coverages) || "none"}.`);
  }
  if (number === 52) return at(query.give, "Write encode( .. , csv) around it.");
  const check = checks(query, coverages)[number], scope = query.binds.map(it => it.variable.value), found = [];
  if (!check) return undefined;
  for (const node of [query.where, query.item]) {
    if (node) walk(node, scope, (it, inner) => found.push(check(it, inner)));
  }
  return found.find(it => it instanceof Fault);
}
