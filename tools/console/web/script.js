"use strict";
/* The lines that were sent, with their answers, and those that are still to be sent. `past` has what grows from line to line: the versions, the leases
   and the writes; a state has how many of each there were. */
const MOST_LINES = 500, MOST_CHARACTERS = 200000, SOME_LINES = 20;
let session = null, sent = [], todo = [], chosen = -1, busy = false, isStopped = false, running = Promise.resolve(), examples = [], recall = 0, unsaved = 0;
let past = { versions: [], leases: [], writes: [] };

const newest = () => sent.findLast((it) => it.note === undefined);
const newestAt = () => sent.findLastIndex((it) => it.note === undefined);
const isNote = (line) => line[0] === "#";
const isLine = (line) => line.trim() !== "" && !isNote(line);

/** Shows the state after a line. That of one which was sent with others is asked for now. */
async function choose(at) {
  const it = sent[at];
  chosen = at;
  $("past").hidden = at === newestAt() || at < 0;
  if (at >= 0) $("past").querySelector("b").textContent = it.number;
  drawLines();
  if (it && !it.state) {
    $("state").setAttribute("aria-busy", true);
    try {
      Object.assign(it, await call(`api/session/${session}/state`, { number: it.number }));
    } catch (error) {
      fault(error.message);
    }
    $("state").removeAttribute("aria-busy");
  }
  if (sent[chosen] === it) drawState();
}

/** The next lines that are sent at once: how far they go, and those among them that are no remarks. */
function nextPart(lines, from) {
  const part = [];
  let at = from, characters = 0;
  while (at < lines.length && part.length < MOST_LINES) {
    characters += lines[at].length;
    if (lines[at].length > MOST_CHARACTERS) {
      if (part.length) break;
      throw new Error("No line of the language has more than 65,536 bytes, and this one is too long to be sent.");
    }
    if (isLine(lines[at]) && part.length && characters > MOST_CHARACTERS) break;
    if (isLine(lines[at])) part.push(lines[at]);
    at++;
  }
  return { at, part };
}

/** What the server says is new, in the state after the last of these lines. */
function learn({ answers, state, grown, since, changed }) {
  const before = newest()?.state;
  for (const name of Object.keys(past)) {
    past[name].length = since[name];
    past[name].push(...grown[name]);
  }
  return [...answers.slice(0, -1), { ...answers.at(-1), changed, state: { ...before, ...state, pages: { ...before?.pages, ...state.pages } } }];
}

/** Sends the next part of lines, and how far it came. */
async function sendPart(lines, from) {
  const { at, part } = nextPart(lines, from);
  let answers = [];
  if (part.length) {
    if (!session) session = (await call("api/session")).session;
    answers = learn(await call(`api/session/${session}/lines`, { lines: part, has: newest()?.number || 0 }));
  }
  let next = from;
  for (; next < at && (answers.length || !isLine(lines[next])); next++) {
    if (isNote(lines[next])) sent.push({ note: lines[next].replace(/^# ?/, "") });
    else if (isLine(lines[next])) sent.push(answers.shift());
  }
  return next;
}

/** Sends lines until all are sent, one fails, or Stop is pressed; and how many were sent. `went` is told how many after each part. */
function send(lines, went = () => 0) {
  running = sendAll(lines, went);
  return running;
}

async function sendAll(lines, went) {
  let done = 0;
  busy = true;
  isStopped = false;
  fault();
  try {
    while (done < lines.length && !isStopped) {
      const follows = !done || chosen === newestAt();
      drawSending(done, lines.length);
      done = await sendPart(lines, done);
      went(done);
      if (follows) await choose(newestAt());
      else drawLines();
    }
  } catch (error) {
    fault(error.message);
  }
  busy = false;
  drawSending();
  drawLines();
  const last = newest();
  $("said").textContent = last ? [...last.reply, ...last.remarks].slice(0, 20).join(". ") : "";
  return done;
}

/** How many of many lines are sent, with a button that stops; or nothing. */
function drawSending(done = 0, all = 0) {
  if (all <= SOME_LINES && $("sending").contains(document.activeElement)) $("line").focus();
  $("sending").hidden = all <= SOME_LINES;
  $("sending").querySelector("progress").max = all || 1;
  $("sending").querySelector("progress").value = done;
  $("sending").querySelector("span").textContent = `${done.toLocaleString("en")} of ${all.toLocaleString("en")} lines`;
  document.body.dataset.busy = busy;
}

/** Sends so many of the lines that wait. */
async function take(count) {
  if (busy || !count) return;
  const lines = todo.slice(0, count), rest = todo.slice(count);
  await send(lines, (done) => { todo = [...lines.slice(done), ...rest]; });
}

/** Sends the next line of an example, with the remarks before it. */
const step = () => take((todo.findIndex(isLine) + 1) || todo.length);

/** Whether the lines that were typed may be lost: who typed them is asked, if there are any that were not saved. */
const mayLose = () => !unsaved || confirm(`${plural(unsaved, "line")} that you typed will be lost. Save writes the lines as a script. Go on without?`);

/** Begins a new session, with these lines to be sent. */
async function again(lines = []) {
  isStopped = true;
  await running;
  if (session) call(`api/session/${session}/end`).catch(() => 0);
  session = null;
  sent = [];
  past = { versions: [], leases: [], writes: [] };
  todo = lines;
  chosen = -1;
  recall = unsaved = 0;
  $("past").hidden = true;
  fault();
  clearLines();
  drawLines();
  drawState();
}

/** The lines so far as a script. */
function save() {
  const text = sent.map((it) => (it.note !== undefined ? `# ${it.note}` : it.line) + "\n").join("");
  const link = make("a", { href: URL.createObjectURL(new Blob([text], { type: "text/plain" })), download: "console.script" });
  link.click();
  URL.revokeObjectURL(link.href);
  unsaved = 0;
}
