// The page: what is chosen, what is asked, and where answers go.

import { Answer } from "./answer.js";
import { $, make, options, table } from "./dom.js";
import { areAlike, examples } from "./examples.js";
import { Look, nameOf, planeOf, wholeOf } from "./picture.js";
import { explained } from "./refusals.js";
import { ask, coverages as listed, expand, Job, template } from "./server.js";

const TEMPLATES = {
  Local: ["LocalSum", "LocalDifference", "LocalProduct", "LocalMaximum", "LocalMinimum"],
  Focal: ["FocalSum", "FocalMaximum", "FocalMinimum"],
  Zonal: ["ZonalSum", "ZonalMaximum", "ZonalMinimum"],
};

const colours = () => $("colours").value;
const answer = new Answer($("answer"), $("views"), colours);
const first = new Look($("first"), "Picture of the coverage", colours);
const beside = new Look($("beside"), "Second picture", colours);
let coverages = [], chosen = null, job = null, others = new Map(), looks = 0;

// What happens is told in one place, and a refusal points at its place in the text.

function tell(text) {
  $("told").textContent = text;
  $("told").className = "";
}

function complain(wrong, text) {
  const found = explained(wrong, text, coverages);
  $("told").textContent = found.text;
  $("told").className = "bad";
  if (found.from === undefined || $("text").value !== text) return;
  $("text").focus({ preventScroll: true });
  $("text").setSelectionRange(found.from, found.to);
}

// Coverages

// A line of the list: a name, and how many cells its axes have.
function lineOf(coverage) {
  const sizes = coverage.axes.map(it => it.high - it.low + 1).join(" × ");
  const press = { type: "button", value: coverage.name, onclick: () => choose(coverage) };
  return make("li", {}, make("button", press, make("b", {}, coverage.name), make("span", {}, sizes)));
}

async function reload() {
  $("waiting").hidden = false;
  try {
    coverages = await listed();
  } catch (wrong) {
    $("waiting").hidden = true;
    $("trouble").textContent = explained(wrong).text;
    $("trouble").hidden = false;
    $("none").hidden = true;
    return;
  }
  const isEmpty = coverages.length === 0;
  $("trouble").hidden = $("waiting").hidden = true;
  $("none").hidden = !isEmpty;
  document.body.classList.toggle("empty", isEmpty);
  for (const id of ["shape", "templates", "query", "look"]) $(id).hidden = isEmpty;
  $("list").replaceChildren(...coverages.map(lineOf));
  const layers = coverages.flatMap(layersOf).map(nameOf);
  for (const id of ["layer", "second"]) options($(id), layers);
  const [name, text] = asked();
  if (text) $("text").value = text;
  const next = coverages.find(it => it.name === (chosen?.name ?? name)) ?? coverages[0];
  if (next) await choose(next);
}

// What the address asks for: #coverage, or #coverage|query.
function asked() {
  try {
    return location.hash.slice(1).split("|").map(decodeURIComponent);
  } catch {
    return [];
  }
}

const layersOf = coverage => coverage.fields.map(field => ({ coverage, field: field.name }));

const axisLine = it => [it.name, it.low, it.high, it.high - it.low + 1].map(String);

async function choose(coverage) {
  chosen = coverage;
  history.replaceState(null, "", `#${encodeURIComponent(coverage.name)}`);
  for (const button of $("list").querySelectorAll("button")) {
    if (button.value === coverage.name) button.setAttribute("aria-current", "true");
    else button.removeAttribute("aria-current");
  }
  $("shape-head").textContent = coverage.name;
  $("shape-tables").replaceChildren(
    table(["axis", "from", "to", "cells"], coverage.axes.map(axisLine), { className: "numbers" }),
    table(["field", "type"], coverage.fields.map(it => [it.name, it.kind])));
  options($("field"), coverage.fields.map(it => it.name));
  $("layer").value = nameOf(layersOf(coverage)[0]);
  showSliders();
  showOthers();
  suggest();
  await look();
}

function suggest() {
  const found = examples(chosen, $("field").value, coverages);
  options($("examples"), [["choose one", ""], ...found.map(([title], k) => [title, k])]);
  $("examples").onchange = async () => {
    const picked = $("examples").value, text = found[picked]?.[1];
    try {
      const made = text && await text();
      if (made && $("examples").value === picked) $("text").value = made;
    } catch (wrong) {
      complain(wrong);
    }
  };
  if (!$("text").value) $("text").value = found[0][1]();
}

// Pictures

function showSliders() {
  $("sliders").replaceChildren(...planeOf(chosen).fixed.map(axis => {
    const output = make("output", {}, String(axis.low));
    const input = make("input", { type: "range", min: axis.low, max: axis.high, value: axis.low });
    input.oninput = () => { output.textContent = input.value; };
    input.onchange = () => look(first.view);
    return make("label", { className: "slider" }, axis.name, input, output);
  }));
}

const positions = () => [...$("sliders").querySelectorAll("input")].map(it => it.value);

// Others to compare with: all layers; a difference is there where the two have the same bounds.
function showOthers() {
  const layers = coverages.flatMap(layersOf).filter(it => it.coverage !== chosen || chosen.fields.length > 1);
  others = new Map(layers.map(it => [nameOf(it), it]));
  options($("other"), [["nothing", ""], ...others.keys()]);
}

async function look(view = wholeOf(chosen)) {
  const layer = { coverage: chosen, field: $("field").value }, second = others.get($("other").value);
  const isAlike = second && areAlike(second.coverage, chosen);
  $("how-label").hidden = !isAlike;
  const isDifference = isAlike && $("how").value === "less", isBeside = Boolean(second) && !isDifference;
  $("beside").hidden = !isBeside;
  $("pictures").classList.toggle("two", isBeside);
  for (const [it, one, layers] of [[first, beside, [second]], [beside, first, [layer]]]) {
    it.onmove = isBeside && isAlike ? moved => one.show(layers, moved, positions()) : null;
    it.onpoint = isBeside && isAlike ? cell => one.tell(cell) : null;
  }
  const mine = ++looks;
  await first.show(isDifference ? [layer, second] : [layer], view, positions());
  if (!isBeside || mine !== looks) return;
  if (isAlike) await beside.show([second], first.view, positions());
  else await beside.show([second], wholeOf(second.coverage));
}

function recolour() {
  for (const it of [first, beside, answer.picture]) it?.redraw();
}

// Queries

const BUTTONS = ["ask", "job", "use"];

const counted = (count, word) => `${count.toLocaleString("en")} ${word}${count === 1 ? "" : "s"}`;

// Runs what gives the answer to a text, and shows it; null is an answer that was given up.
async function timed(text, work) {
  const began = performance.now();
  for (const id of BUTTONS) $(id).disabled = true;
  tell("Asked ..");
  const hint = setTimeout(() => {
    if (!job) tell("Asked .. A long query is better asked as a job: others are served meanwhile.");
  }, 3000);
  try {
    const csv = await work();
    if (csv === null) tell("The job is cancelled.");
    else {
      const { items, cells } = answer.show(csv, text, coverages);
      const took = Math.round(performance.now() - began).toLocaleString("en");
      tell(`${counted(items, "item")}, ${counted(cells, "cell")}, ${took} ms`);
      $("save").hidden = false;
    }
  } catch (wrong) {
    answer.clear();
    $("save").hidden = true;
    complain(wrong, text);
  } finally {
    clearTimeout(hint);
    for (const id of BUTTONS) $(id).disabled = false;
  }
}

async function runJob(text) {
  job = new Job(text);
  $("cancel").hidden = $("progress").hidden = false;
  const began = performance.now();
  try {
    return await job.run((done, whole) => {
      Object.assign($("progress"), { max: whole, value: done });
      const left = (performance.now() - began) / 1000 * (whole - done) / done;
      const units = `${done.toLocaleString("en")} of ${whole.toLocaleString("en")} units`;
      tell(`Job ${job.number}: ${units}, some ${Math.ceil(left)} s left`);
    });
  } catch (wrong) {
    // After a refusal for want of memory, disk or room the job is there, and would hold its place until the server's
    // run ends. After any other, or where no answer came, the number may be another client's.
    if (wrong.number >= 90) job.abandon();
    throw wrong;
  } finally {
    $("cancel").hidden = $("progress").hidden = true;
    $("progress").value = 0;
    job = null;
  }
}

// Templates

const isFocal = () => TEMPLATES.Focal.includes($("template").value);

function templateKeys() {
  const last = isFocal() ? { radius: $("radius").value } : { second: $("second").value };
  return { template: $("template").value, layer: $("layer").value, ...last };
}

function fitTemplate() {
  $("second-label").hidden = isFocal();
  $("radius-label").hidden = !isFocal();
  $("radius").disabled = !isFocal();
}

async function useTemplate() {
  $("text").value = await expand(templateKeys());
  $("examples").value = "";
}

function beginTemplates() {
  const group = ([label, names]) => make("optgroup", { label }, ...names.map(it => new Option(it)));
  $("template").replaceChildren(...Object.entries(TEMPLATES).map(group));
  fitTemplate();
  $("template").onchange = fitTemplate;
  $("template-form").onsubmit = async event => {
    event.preventDefault();
    const keys = templateKeys();
    try {
      await useTemplate();
    } catch (wrong) {
      return complain(wrong);
    }
    return timed($("text").value, () => template(keys));
  };
  $("expand").onclick = () => useTemplate().then(() => tell("The query of the template."), complain);
}

function beginQueries() {
  $("ask").onclick = () => timed($("text").value, () => ask($("text").value));
  $("job").onclick = () => timed($("text").value, () => runJob($("text").value));
  $("cancel").onclick = () => { if (job) job.stopped = true; };
  $("save").onclick = () => answer.save();
  $("text").oninput = () => { $("examples").value = ""; };
  $("text").onkeydown = event => {
    if ((event.ctrlKey || event.metaKey) && event.key === "Enter" && !$("ask").disabled) $("ask").click();
  };
}

function beginPictures() {
  $("field").onchange = () => { suggest(); look(first.view); };
  $("other").onchange = $("how").onchange = () => look(first.view);
  $("colours").onchange = recolour;
  $("closer").onclick = () => first.zoom(0.5);
  $("farther").onclick = () => first.zoom(2);
  $("whole").onclick = () => first.move(wholeOf(chosen));
}

function begin() {
  $("host").textContent = location.host;
  beginTemplates();
  beginQueries();
  beginPictures();
  $("reload").onclick = reload;
  // A page that is left in the middle of a job takes the job along: else the server keeps what it reads until its run ends.
  // So it does where it is left while the number of the job is still on its way, if the browser lets that come.
  addEventListener("pagehide", () => job?.abandon());
  return reload();
}

begin();
