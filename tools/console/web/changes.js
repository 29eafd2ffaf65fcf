"use strict";
/* The changes of the schema, as a database's page of jobs has them. */

/** What an element that is being added or dropped waits for. */
function waiting(waits) {
  if (!waits) return "";
  if (waits.for === "publication") return `its next state may be published at ${waits.from}`;
  if (waits.for === "begin") {
    const reads = waits.reads === undefined ? "" : `, and would read ${plural(waits.reads, "row")}`;
    return `its ${waits.work} may begin${waits.from === undefined ? "" : ` at ${waits.from}`}${reads}`;
  }
  const passed = waits.rows === undefined ? `${plural(waits.left, "pair")} left` : `${waits.passed} of ${waits.rows} rows passed`;
  return `the end of its ${waits.work}: ${waits.ended} of ${waits.pieces} pieces ended, ${passed}`;
}

/** The pieces of a fill or a clear, each with how much of it is left. */
function drawPieces(job) {
  if (!job.pieces) return "";
  const piece = ({ number, ended, left, all }) => {
    const kind = ended ? "done" : left < all ? "part" : "todo";
    return make("i", { class: kind, title: `piece ${number}: ${ended ? "ended" : `${left} of ${all} left`}` });
  };
  return make("div", { class: `pieces ${job.waits.work}`, role: "img", "aria-label": waiting(job.waits) }, job.pieces.map(piece));
}

const whatOf = (job) => `${job.adds ? "add" : "drop"} ${job.kind} ${job.name}`.replace("  ", " ");

/** How a change stands: of one that has ended what came of it, of another the state of its element. */
function standing(job) {
  if (job.ended !== null) return !job.adds ? "dropped" : job.taken_back === null ? "public" : "taken back";
  const way = job.way === "adding" ? "being added" : job.taken_back === null ? "being dropped" : "being taken back";
  return [make("span", { class: `badge ${job.state}${job.way === "dropping" ? " dropping" : ""}` }, WORDS[job.state]), ` ${way}`];
}

/** The lines that turn an add back: a plan, and its first step at the moment from which on it may be published. */
const linesBack = (state, job) => [`plan: abandon ${job.name}`, `next at ${Math.max(state.moment, state.earliest)}`];

/** Turns an add back. If the plan is refused nothing more is sent: `next` would go on with the plan before. */
async function takeBack([plan, next]) {
  if (busy) return;
  unsaved += await send([plan]);
  if (newest()?.line === plan && newest().reply.at(-1)?.startsWith("ok plan")) unsaved += await send([next]);
}

/** The button that turns an add back, which is there in the newest state until the index or the column is public. */
function buttonBack(state, job) {
  const lines = linesBack(state, job);
  const button = make("button", { class: "quiet", title: `Sends ${lines.join(", then ")}`, "aria-label": `Take back: ${whatOf(job)}`, "data-focus": `back ${job.number}` }, "Take back");
  button.onclick = once(() => takeBack(lines));
  return button;
}

function drawJob(state, job, isNewest) {
  const done = job.all === null ? "" : `${job.done} of ${job.all}`, canTurn = isNewest && job.adds && job.ended === null && job.taken_back === null;
  const cells = [standing(job), [done, drawPieces(job)], job.begun, job.ended ?? "", waiting(job.waits), canTurn ? buttonBack(state, job) : ""];
  return make("tr", { "data-job": job.number }, make("th", { scope: "row" }, whatOf(job)), cells.map((inside) => make("td", {}, inside)));
}

/** The table of changes, the last one first. */
function drawJobs(state, isNewest) {
  const heads = ["Change", "State", "Done of all", "Begun", "Ended", "Waits for", ""].map((text) => (text ? make("th", { scope: "col" }, text) : make("td", {})));
  const table = make("table", {}, make("thead", {}, make("tr", {}, heads)), make("tbody", {}, state.jobs.map((job) => drawJob(state, job, isNewest))));
  return [table, state.jobs_left ? make("p", { class: "empty" }, `${plural(state.jobs_left, "change")} that ended before these are not shown.`) : ""].filter(Boolean);
}
