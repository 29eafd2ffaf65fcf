"use strict";
/* The state after a line: the picture, what is under way, and the rows beside their pairs. */
const CASE = { absent: "does not know it", delete_only: "removes its pairs, but puts none", write_only: "puts and removes its pairs, but does not read them", public: "puts, removes and reads its pairs" };

/** A state with the versions, leases and writes that there were then. */
function seenThen(state) {
  const then = Object.fromEntries(Object.keys(past).map((name) => [name, past[name].slice(0, state.counts[name])]));
  const keyOf = (it) => [it.server, it.version, it.from, it.until].join(" "), heldThen = new Map(state.held.map((it) => [keyOf(it), it]));
  const leases = then.leases.map((it) => {
    const held = heldThen.get(keyOf(it));
    return { ...it, in_force: Boolean(held?.in_force), standing: held?.standing || "no longer held", held: Boolean(held) };
  });
  return { ...state, ...then, leases };
}

function drawState() {
  const chosenLine = chosen >= 0 ? sent[chosen] : null, isOpen = Boolean(chosenLine?.state?.open);
  const it = isOpen ? { ...chosenLine, state: seenThen(chosenLine.state) } : chosenLine, state = it?.state, audit = state?.audit;
  $("audit").textContent = audit ? `${plural(audit.rows, "row")}; pairs: ${audit.missing} missing, ${audit.extra} extra` : "";
  $("audit").className = audit && audit.missing + audit.extra ? "wrong" : "";
  $("changes").hidden = !isOpen || !state.jobs.length;
  if (!isOpen) {
    $("picture").replaceChildren(make("p", { class: "empty" }, "Nothing is open yet. The picture begins with the line open."));
    $("tables").replaceChildren(make("p", { class: "empty" }, "No rows yet."));
    $("did").replaceChildren();
    return;
  }
  $("picture").replaceChildren(picture(state, $("picture").clientWidth || 640, it.number), make("p", { class: "used" }, used(state)));
  redraw($("jobs"), drawJobs(state, chosenLine === newest()));
  $("did").replaceChildren(...did(it));
  redraw($("tables"), ...state.tables.flatMap((table) => drawTable(it, table)));
}

/** All pairs that a line put and removed on the pages. */
const moves = (it) => Object.values(it.changed).flat().flatMap((row) => row.moves);

/** How many pairs of an element were put and how many removed. */
function numbersOf(it, number) {
  const own = moves(it).filter((move) => move.element === number);
  return `${own.filter((move) => move.put !== null).length} put, ${own.filter((move) => move.removed !== null).length} removed`;
}

/** What a line did, in words: above all what its server's version has it do. */
function did(it) {
  const write = it.state.writes.find((w) => w.number === it.number && w.kind === "txn");
  if (write?.ok) return wrote(it, write);
  if (write) return ["The line was refused: nothing changed."];
  const put = moves(it).filter((move) => move.put !== null), removed = moves(it).filter((move) => move.removed !== null);
  const names = [...new Set(moves(it).map((move) => it.state.names[move.element].split(".")[1]))].join(", ");
  if (!put.length && !removed.length) return ["The last line changed no pair of the rows that are shown."];
  return [make("b", {}, [put.length ? `${plural(put.length, "pair")} put` : "", removed.length ? `${plural(removed.length, "pair")} removed` : ""].filter(Boolean).join(", ")), ` of ${names}, by the work in the background.`];
}

/** What a server's transaction did to the elements that are on their way, by the version of its lease. */
function wrote(it, write) {
  const { state } = it, states = state.versions.find((v) => v.version === write.version)?.states || {}, newestStates = state.versions.at(-1).states;
  const out = [make("b", {}, `Server ${write.server} wrote under version ${write.version}.`), " "];
  for (const [n, name] of Object.entries(state.names)) {
    const now = newestStates[n]?.state || "absent", is = states[n]?.state || "absent", isOfTable = name.split(".")[0] in it.changed;
    if (!isOfTable || (now === is && (now === "public" || now === "absent"))) continue;
    out.push(make("b", {}, name), ` is ${WORDS[is]} there, so ${write.server} ${CASE[is]}: `, make("b", {}, numbersOf(it, +n)), ". ");
  }
  return out;
}

/** The elements of a table, and those that have left it but of which the line removed something. */
function shownElements(it, table) {
  const elements = [...table.elements], known = new Set(elements.map((e) => e.number));
  for (const move of (it.changed[table.name] || []).flatMap((row) => row.moves)) {
    if (known.has(move.element)) continue;
    known.add(move.element);
    elements.push({ name: it.state.names[move.element].split(".")[1], number: move.element, kind: move.kind === "pair" ? "index" : "column", state: "absent", way: "dropping", columns: [] });
  }
  return elements;
}

function heading(element) {
  const isIndex = element.kind === "index", isPlain = element.state === "public" && !element.way;
  const badge = isPlain ? "" : make("span", { class: `badge ${element.state}${element.way === "dropping" ? " dropping" : ""}` }, WORDS[element.state]);
  const columns = element.columns?.length ? ` (${element.columns.join(", ")})` : "";
  const about = isIndex ? `pairs of the index${columns}` : element.default === undefined ? element.type : `${element.type} default ${element.default}`;
  return make("th", { class: isIndex ? "pairs" : "", scope: "col" }, element.name, " ", badge, make("small", {}, about));
}

const noPair = (element) => make("span", { class: `lack${element.state === "public" ? " wrong" : ""}` }, "no pair");

/** The cell of a column in a row: its value, and what it was if the line changed it. */
function cellOf(element, row, move) {
  const value = row.cells[element.number], kind = element.state === "public" ? "" : `pair ${element.state}`, out = [];
  if (value !== undefined) out.push(make("span", { class: `${kind} ${move ? "added" : ""}` }, value));
  if (move?.removed) out.push(make("span", { class: "removed" }, move.removed));
  if (!out.length && row.here) out.push(element.default === undefined ? make("span", { class: "none" }, "–") : noPair(element));
  return make("td", {}, out);
}

/** The pair of an index for a row, and what it was if the line changed it. */
function pairOf(element, row, move) {
  const values = row.pairs[element.number], out = [];
  if (values) out.push(make("span", { class: `pair ${element.state} ${move ? "added" : ""}` }, values.join(", ")));
  if (move?.removed) out.push(make("span", { class: "pair removed" }, move.removed.join(", ")));
  if (row.here && !values) out.push(noPair(element));
  return make("td", { class: "pairs" }, out);
}

function drawRow(elements, row, change) {
  const how = change?.row === "put" ? "added" : change?.row === "removed" ? "removed" : row.here ? "" : "none";
  const keys = row.key.map((value) => make("td", {}, make("span", { class: how, title: change?.row === "removed" ? "this row is gone" : null }, value)));
  return make("tr", {}, keys, elements.map((element) => {
    const move = change?.moves.find((it) => it.element === element.number);
    return element.kind === "index" ? pairOf(element, row, move) : cellOf(element, row, move);
  }));
}

/** Where the value of a key is before another one: numbers by their size, and texts by their letters. */
function compareKeys(a, b) {
  for (let k = 0; k < a.length; k++) {
    const areNumbers = /^-?\d+$/.test(a[k]) && /^-?\d+$/.test(b[k]);
    const x = areNumbers ? BigInt(a[k]) : a[k], y = areNumbers ? BigInt(b[k]) : b[k];
    if (x !== y) return x < y ? -1 : 1;
  }
  return 0;
}

/** The rows of a page, and those that the line removed from it. */
function shownRows(page, changed) {
  const gone = changed.filter((it) => it.row === "removed").map((it) => ({ key: it.key, here: false, cells: {}, pairs: {} }));
  return [...page.rows.map((row) => ({ ...row, here: true })), ...gone].sort((a, b) => compareKeys(a.key, b.key));
}

function drawTable(it, table) {
  const page = it.state.pages[table.name], changed = it.changed[table.name] || [], elements = shownElements(it, table), rows = shownRows(page, changed);
  const keys = table.key.map((k) => make("th", { scope: "col" }, k.name, make("small", {}, `${k.type} key`)));
  const changeOf = (row) => changed.find((change) => compareKeys(change.key, row.key) === 0);
  const body = make("tbody", {}, rows.map((row) => drawRow(elements, row, changeOf(row))));
  const grid = make("table", {}, make("caption", {}, table.name), make("thead", {}, make("tr", {}, keys, elements.map(heading))), body);
  const empty = rows.length ? "" : make("p", { class: "empty" }, "No rows.");
  const region = { class: "scroll", tabindex: 0, role: "region", "aria-label": `Rows of ${table.name}`, "data-focus": table.name };
  return [make("div", region, grid), empty, pagerOf(it, table, page)];
}

/** The buttons that go to the next rows of a table and back to the first ones. */
function pagerOf(it, table, page) {
  if (it.number !== newest().number || (!page.next && !page.from)) return "";
  const button = (text, isOff, from) => {
    const made = make("button", { class: "quiet", "aria-disabled": String(isOff), "data-focus": `${table.name} ${text}` }, text);
    made.onclick = () => { if (!isOff) turn(table.name, from); };
    return made;
  };
  return make("p", { class: "pager" }, button("First rows", !page.from, null), " ", button("Next rows", !page.next, page.next));
}

async function turn(table, from) {
  const it = newest();
  try {
    const page = await call(`api/session/${session}/page`, { table, from });
    it.state = { ...it.state, pages: { ...it.state.pages, [table]: page } };
    drawState();
  } catch (error) {
    fault(error.message);
  }
}
