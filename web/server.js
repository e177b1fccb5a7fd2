// Requests, and what the server answers.

// Queries go to `ows`. Jobs live in one server, so that their requests go to a path that leads to one alone.
const PATH = "ows";
const JOB_PATH = "job/ows";

export class Refused extends Error {
  constructor(number, name) {
    super(`refused ${number} ${name}`);
    this.number = number;
  }
}

export class NoAnswer extends Error {}

const pause = milliseconds => new Promise(done => setTimeout(done, milliseconds));

async function sent(path, keys) {
  try {
    const reply = await fetch(path, { method: "POST", body: new URLSearchParams(keys) });
    return [reply, await reply.text()];
  } catch {
    throw new NoAnswer(`No answer from ${location.host}.`);
  }
}

// A proxy answers 502 while the server behind it closes its file and opens it again. A request that names no job may be
// done twice, and is sent again. One that names a job is not: the job has ended with the run, and the next run numbers
// its own jobs from 1 on, so that the number may be another client's by now.
async function request(path, keys, tries = keys.job ? 1 : 8) {
  const [reply, text] = await sent(path, keys);
  if (reply.ok) return text;
  const [, number, name] = /^refused (\d+) (\w+)/.exec(text) ?? [];
  if (number) throw new Refused(Number(number), name);
  if (reply.status === 502 && tries > 1) {
    await pause(250);
    return request(path, keys, tries - 1);
  }
  if (reply.status === 502 && keys.job) throw new NoAnswer(`The server's run has ended, and job ${keys.job} with it.`);
  throw new NoAnswer(`${location.host} answers HTTP ${reply.status} in place of the server.`);
}

export const ask = query => request(PATH, { request: "ProcessCoverages", query });
export const template = keys => request(PATH, { request: "ProcessTemplate", ...keys });
export const expand = async keys => (await request(PATH, { request: "ExpandTemplate", ...keys })).trim();

// Each coverage with its axes and fields.
export async function coverages() {
  const names = (await request(PATH, { request: "ListCoverages" })).split("\n").filter(Boolean);
  return Promise.all(names.map(describe));
}

async function describe(name) {
  const text = await request(PATH, { request: "DescribeCoverage", coverage: name });
  const lines = word => text.trim().split("\n").map(it => it.split(" ")).filter(it => it[0] === word);
  return {
    name,
    axes: lines("axis").map(([, axis, low, high]) => ({ name: axis, low: Number(low), high: Number(high) })),
    fields: lines("field").map(([, field, kind]) => ({ name: field, kind })),
  };
}

// The items of an answer: lines of cells of fields. They stay texts, since a cell may have 64 bits.
export function itemsOf(csv) {
  if (csv === "") return [];
  const lineOf = line => line.split(",").map(cell => cell.split(" "));
  return csv.replace(/\n$/, "").split("\n\n").map(item => item.split("\n").map(lineOf));
}

// A job of a query: `run` steps it to its end and answers its text, or null where it was cancelled.
export class Job {
  constructor(query) {
    Object.assign(this, { query, number: undefined, stopped: false, isLeft: false });
  }

  keys(name) {
    return { request: name, job: this.number };
  }

  // Its number and its units.
  async submit() {
    const words = (await request(JOB_PATH, { request: "SubmitQuery", query: this.query })).trim().split(" ");
    this.number = words[1];
    if (this.isLeft) this.abandon();
    return Number(words[3]);
  }

  // Steps of some 100 ms, so that others are served between them. What is left after one tells whether it was of this
  // job: another number is that of another client's job in another run.
  async run(progress) {
    const whole = await this.submit();
    let left = whole, units = 1;
    while (left > 0 && !this.stopped) {
      const began = performance.now(), due = Math.max(0, left - units);
      left = Number((await request(JOB_PATH, { ...this.keys("StepJob"), units })).split(" ")[1]);
      if (left !== due) throw new NoAnswer(`Job ${this.number} is another one now: the server's run has ended.`);
      progress(whole - left, whole);
      units = Math.max(1, Math.min(1000, Math.round(units * 100 / Math.max(5, performance.now() - began))));
    }
    if (!this.stopped) return request(JOB_PATH, this.keys("FetchJob"));
    if (!this.isLeft) await request(JOB_PATH, this.keys("CancelJob"));
    return null;
  }

  // Cancels it without waiting for an answer, as a page that is being left has to; before it has a number, once it has.
  abandon() {
    this.stopped = this.isLeft = true;
    if (this.number) navigator.sendBeacon(JOB_PATH, new URLSearchParams(this.keys("CancelJob")));
  }
}
