"use strict";
/* The page of a store: it asks for the facts, and draws them. What a program named is shown as text. */
const $ = (id) => document.getElementById(id);
const SVG = "http://www.w3.org/2000/svg";
const number = (n) => Math.round(n).toLocaleString("en");

function row(...cells) {
  const made = document.createElement("tr");
  for (const [text, kind] of cells) {
    const cell = document.createElement("td");
    cell.textContent = text;
    if (kind) cell.className = kind;
    made.append(cell);
  }
  return made;
}

/** What is left of a fill or a clear: rows or pairs, or of a store that someone else runs, pieces. */
function workOf(work) {
  if (work?.pieces) return `${number(work.pieces.filter((it) => !it.is_ended).length)} of ${number(work.pieces.length)} pieces`;
  return work ? `${number(work.left)} of ${number(work.all)}` : "";
}

function drawElements(elements) {
  const state = (it) => [it.state.replace("_", "-") + (it.is_dropped ? ", dropping" : it.state === "public" ? "" : ", adding"), it.state];
  $("elements").replaceChildren(...elements.map((it) => row([it.table], [it.name], [it.kind], state(it), [workOf(it.work)])));
}

/** The begin of a key, in hexadecimal. */
const keyOf = (hex) => (hex.length > 32 ? `${hex.slice(0, 32)}…` : hex);

function drawPieces(elements) {
  const worked = elements.filter((it) => it.work?.pieces);
  const rows = worked.flatMap((it) => it.work.pieces.map((piece, i) => row([it.table], [it.name], [`${i + 1}`], [keyOf(piece.low)], piece.is_ended ? ["its end", "public"] : [keyOf(piece.cursor)], [keyOf(piece.high)])));
  $("pieces-section").hidden = !rows.length;
  $("pieces").replaceChildren(...rows);
}

function drawServers(servers) {
  $("servers-section").hidden = !servers.length;
  $("servers").replaceChildren(...servers.map((it) => row([it.name], [it.version ?? "no lease"], [it.until ?? "", it.is_ended ? "ended" : ""])));
}

/** Entries a second between each two samples, and where a version was published. */
function drawChart(samples) {
  const rates = samples.slice(1).map(([at, log], i) => [at, (log - samples[i][1]) / Math.max(at - samples[i][0], 0.001)]);
  const from = samples[0]?.[0] ?? 0, to = Math.max(samples.at(-1)?.[0] ?? 1, from + 1), most = Math.max(1, ...rates.map(([, rate]) => rate));
  const x = (at) => (720 * (at - from)) / (to - from);
  $("trace").setAttribute("d", rates.map(([at, rate], i) => `${i ? "L" : "M"}${x(at).toFixed(1)} ${(155 - (150 * rate) / most).toFixed(1)}`).join("") || "M0 0");
  const published = samples.filter(([, , version], i) => i && version !== samples[i - 1][2]);
  $("marks").replaceChildren(...published.map(([at, , version]) => mark(x(at), version)));
  $("rate").textContent = rates.length ? `${number(rates.at(-1)[1])} now, ${number(most)} at most` : "";
  $("span").textContent = `The last ${number(to - from)} seconds; a dashed line is a new version.`;
}

function mark(x, version) {
  const made = document.createElementNS(SVG, "line"), title = document.createElementNS(SVG, "title");
  for (const [name, value] of Object.entries({ x1: x, x2: x, y1: 0, y2: 160 })) made.setAttribute(name, value);
  title.textContent = `version ${version}`;
  made.append(title);
  return made;
}

/** How the store stands, in words. */
function wordsOf(facts) {
  const usable = (facts.usable ?? []).join(" and ");
  if (facts.log === null) return facts.fault ?? `version ${facts.version}, open ${usable}; ${number(facts.records)} control records, not counting marks of transactions`;
  return `version ${facts.version}, in use ${usable}; moment ${number(facts.moment)}; ${number(facts.log)} log entries`;
}

function draw(facts) {
  $("stands").textContent = facts.over ?? wordsOf(facts);
  $("stands").className = facts.over || facts.fault ? "over" : "";
  $("note").hidden = facts.log !== null;
  $("rate-section").hidden = facts.log === null;
  drawElements(facts.elements ?? []);
  drawPieces(facts.elements ?? []);
  drawServers(facts.servers ?? []);
  if (facts.log !== null) drawChart(facts.samples);
}

async function look() {
  try {
    draw(await (await fetch("facts")).json());
  } catch {
    $("stands").textContent = "The program has ended, or no longer shows this page.";
    $("stands").className = "over";
  }
  setTimeout(look, 500);
}

look();
