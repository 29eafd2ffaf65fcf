"use strict";
/* A load that goes on while the schema changes: what it says, and its charts. */
const GUTTER = 66;
let load = null, source = null, run = null;

const time = (us) => (us < 1000 ? `${us.toFixed(0)} µs` : us < 1e6 ? `${(us / 1000).toFixed(us < 1e4 ? 1 : 0)} ms` : `${(us / 1e6).toFixed(2)} s`);
const number = (n) => n.toLocaleString("en");
const stage = (text) => { $("stage").textContent = text; };

function begun(asked) {
  run = { asked, samples: [], marks: [], fills: [], from: null, to: null, audit: null, fault: null };
  stage(asked.rate ? "The servers insert rows; the index enters when a quarter of them are due." : "The servers insert rows, and the index enters at once.");
  drawCharts();
}

/** What is done with each kind of line that a load says. */
const HEARD = {
  sample: (it) => {
    const last = run.samples.at(-1)?.at || 0, passed = it.at - last;
    run.samples.push({ ...it, rate: passed >= 0.05 || !last ? Math.round(it.rows / passed) : null }); // the last one may be too short for a rate
  },
  version: (it) => {
    run.from ??= it.at;
    if (it.state === "public") run.to = it.at;
    run.marks.push(it);
    stage(`Version ${it.version}: the index is ${WORDS[it.state]}.`);
  },
  begin: (it) => {
    run.fills.push({ from: it.at, to: it.at });
    stage("The index is filled; the servers go on.");
  },
  filled: (it) => { run.fills.at(-1).to = it.at; },
  fault: (it) => {
    run.fault = it.text;
    stage(`Ended: ${it.text}`);
  },
  audit: (it) => {
    run.audit = it;
    stage(`Finished. Audit: ${number(it.rows)} rows, ${it.missing} pairs missing, ${it.extra} extra; receipts against the log: counts ${it.counts}, receipts ${it.receipts}.`);
    drawSummary();
  },
};

function heard(it) {
  HEARD[it.kind]?.(it);
  drawCharts();
}

/** A row of the table of runs. */
function drawSummary() {
  const inChange = (it) => run.from !== null && it.at >= run.from && it.at <= (run.to ?? Infinity) + 0.1;
  const timed = run.samples.filter((it) => it.rows), inside = timed.filter(inChange), outside = timed.filter((it) => !inChange(it));
  const most = (list, what) => (list.length ? time(Math.max(...list.map((it) => it[what] || 0))) : "–");
  const middle = (list, what) => (list.length ? time(list.map((it) => it[what]).sort((a, b) => a - b)[list.length >> 1]) : "–");
  const { asked, audit } = run, isGood = !audit.missing && !audit.extra && audit.counts === "equal" && audit.receipts === "ok";
  const cells = [`${asked.servers} servers, ${number(asked.rows)} rows, ${asked.rate ? `${number(asked.rate)} a second` : "as many as they can"}`,
    run.to === null ? "–" : time((run.to - run.from) * 1e6), middle(inside, "median_us"), most(inside, "longest_us"), middle(outside, "median_us"), most(outside, "longest_us"), most(run.samples, "machine_us")];
  const verdict = make("td", { class: isGood ? "good" : "wrong" }, isGood ? "no difference" : `${audit.missing} missing, ${audit.extra} extra, counts ${audit.counts}, receipts ${audit.receipts}`);
  $("runs").hidden = false;
  $("runs").querySelector("tbody").prepend(make("tr", {}, cells.map((text) => make("td", {}, text)), verdict));
}

/** A line through points; a point that is null breaks it. */
function trace(points, kind) {
  let path = "", isBroken = true;
  for (const point of points) {
    if (point) path += `${isBroken ? "M" : "L"}${point[0].toFixed(1)} ${point[1].toFixed(1)}`;
    isBroken = !point;
  }
  return make("path", { d: path || "M0 0", class: `trace ${kind}` });
}

/** How many seconds a chart has: those that the rows take at their rate, or those that there are. */
function secondsShown() {
  const asked = run?.asked, due = asked?.rate ? asked.rows / asked.rate : 0;
  return Math.max(1, due, run?.samples.at(-1)?.at || 0, run?.marks.at(-1)?.at || 0) * 1.03;
}

/** A chart: its seconds from left to right, and the fill behind all else. */
function chart(height, name, top) {
  const samples = run?.samples || [], width = Math.max(280, $("rate").clientWidth), right = width - 12, end = secondsShown();
  const x = (at) => GUTTER + (right - GUTTER) * at / end;
  const svg = make("svg", { viewBox: `0 0 ${width} ${height}`, height, role: "img", "aria-label": name });
  for (const fill of run?.fills || []) {
    const box = { x: x(fill.from), y: top, width: Math.max(2, x(fill.to) - x(fill.from)), height: height - 20 - top };
    svg.append(make("rect", { ...box, class: "fill-span" }, make("title", {}, "the fill of the index")));
  }
  return { svg, x, right, end, height, samples };
}

function drawSeconds({ svg, x, end, height }) {
  const every = 10 ** Math.floor(Math.log10(end)) / (end / 10 ** Math.floor(Math.log10(end)) > 4 ? 1 : 5);
  for (let k = 0; k * every <= end / 1.02; k++) svg.append(make("text", { x: x(k * every), y: height - 4, "text-anchor": "middle", class: "faint" }, k ? `${+(k * every).toFixed(1)}` : "0 s"));
}

/** A line across a chart, with what it stands for at its left. */
function drawLevel({ svg, right }, y, label) {
  svg.append(make("line", { x1: GUTTER, x2: right, y1: y, y2: y, class: "grid" }), make("text", { x: GUTTER - 6, y: y + 4, "text-anchor": "end", class: "faint" }, label));
}

/** The versions, each at its time; with names, in the highest of three rows that has room. */
function drawMarks({ svg, x, right, height }, areNamed) {
  const free = [0, 0, 0];
  for (const mark of run?.marks || []) {
    const at = x(mark.at);
    svg.append(make("line", { x1: at, x2: at, y1: 6, y2: height - 20, class: "mark" }));
    if (!areNamed) continue;
    const short = `v${mark.version}`, shown = fitting([`${short} ${WORDS[mark.state]}`], right + 8 - at) || short, row = Math.max(0, free.findIndex((end) => end <= at));
    const isLeft = at + 3 + widthOf(shown) > right + 10;
    svg.append(make("text", { x: isLeft ? at - 3 : at + 3, y: 10 + 13 * row, class: "soft", "text-anchor": isLeft ? "end" : "start" }, shown, make("title", {}, `moment ${mark.moment}`)));
    free[row] = at + widthOf(shown) + 6;
  }
}

function drawRate() {
  const it = chart(151, "Rows a second", 39), { svg, x, height, samples } = it;
  const most = Math.max(1, ...samples.map((sample) => sample.rate)), unit = 10 ** Math.floor(Math.log10(most));
  const top = [1, 1.5, 2, 3, 5, 7.5, 10].map((k) => k * unit).find((level) => level >= most * 1.04) || unit * 20, y = (rate) => height - 20 - (height - 61) * rate / top;
  for (const part of [0, 0.5, 1]) drawLevel(it, y(top * part), samples.length ? number(Math.round(top * part)) : "");
  svg.append(trace(samples.map((sample) => (sample.rate === null ? null : [x(sample.at), y(sample.rate)])), "s0"));
  drawMarks(it, true);
  drawSeconds(it);
  $("rate").replaceChildren(svg);
}

/** How long writes took, by a logarithmic scale. */
function drawLatency() {
  const it = chart(186, "Time of a write", 6), { svg, x, height, samples } = it, timed = samples.filter((sample) => sample.rows);
  const high = Math.max(4, ...timed.map((sample) => Math.log10(Math.max(1, sample.longest_us)) + 0.1)), y = (us) => height - 20 - (height - 28) * Math.log10(Math.max(1, us)) / high;
  for (let k = 0; k <= high; k++) drawLevel(it, y(10 ** k), time(10 ** k));
  drawMarks(it, false);
  svg.append(trace(samples.map((sample) => (sample.machine_us ? [x(sample.at), y(sample.machine_us)] : null)), "idle"));
  for (const sample of timed) svg.append(make("circle", { cx: x(sample.at).toFixed(1), cy: y(sample.longest_us).toFixed(1), r: 2.2, class: "dot" }));
  for (const [what, kind] of [["p999_us", "s2"], ["median_us", "s1"]]) svg.append(trace(samples.map((sample) => (sample.rows ? [x(sample.at), y(sample[what])] : null)), kind));
  drawSeconds(it);
  $("latency").replaceChildren(svg);
}

function drawCharts() {
  if ($("view-load").hidden) return;
  drawRate();
  drawLatency();
}

/** What the sample below the pointer says. */
function pointed(event) {
  const box = $("rate").getBoundingClientRect(), samples = run?.samples || [], tip = $("tip");
  const end = secondsShown(), at = (event.clientX - box.left - GUTTER) / (box.width - GUTTER - 12) * end;
  const it = samples.reduce((best, one) => (!best || Math.abs(one.at - at) < Math.abs(best.at - at) ? one : best), null);
  tip.hidden = !it || at < 0;
  if (tip.hidden) return;
  const times = it.rows ? `, median ${time(it.median_us)}, 99.9 of 100 ${time(it.p999_us)}, longest ${time(it.longest_us)}` : ", no write ended";
  tip.textContent = `${it.at.toFixed(1)} s: ${it.rate === null ? "" : `${number(it.rate)} rows/s, `}${number(it.rows)} rows${times}${it.machine_us ? `; the computer's own delay ${time(it.machine_us)}` : ""}`;
  const card = $("rate").parentElement.getBoundingClientRect();
  tip.style.left = `${Math.max(0, Math.min(event.clientX - card.left + 12, card.width - tip.offsetWidth - 8))}px`;
  tip.style.top = `${event.clientY - card.top + 14}px`;
}

/** Starts a load, or stops the one that runs. A double click does one of them. */
async function startLoad(event) {
  event.preventDefault();
  if (source) {
    await call(`api/load/${load}/stop`).catch(() => 0);
    return;
  }
  const form = new FormData($("load")), asked = {};
  for (const name of ["servers", "rows", "rate", "pieces", "workers", "limit"]) asked[name] = Number(form.get(name));
  try {
    load = (await call("api/load", asked)).load;
  } catch (error) {
    fault(error.message);
    return;
  }
  fault();
  begun(asked);
  listen();
}

function listen() {
  $("start").textContent = "Stop";
  source = new EventSource(`api/load/${load}/events`);
  source.onmessage = (message) => heard(JSON.parse(message.data));
  const over = (why) => {
    source?.close();
    source = null;
    $("start").textContent = "Start";
    if (!run.audit && !run.fault) stage(why);
  };
  source.addEventListener("over", () => over("Stopped."));
  source.onerror = () => over(ENDED);
}
