"use strict";
/* The list of lines: each is drawn once, and the list is one stop of the Tab key, in which arrow keys go from line to line. */
const MOST_WAITING = 40;
let items = [], drawnChosen = null, stop = null;

/** Where in a line, in units of UTF-16, its character of this number from 1 is. */
const unitsBefore = (line, column) => [...line].slice(0, column - 1).join("").length;

/** A line in parts: its first word, its texts in quotes, and the rest. */
function words(line, begins) {
  const out = [];
  for (const part of line.split(/('(?:[^']|'')*')/)) {
    const word = begins && /^\s*\w+/.exec(part);
    if (part[0] === "'") out.push(make("span", { class: "text" }, part));
    else if (word) out.push(make("span", { class: "word" }, word[0]), part.slice(word[0].length));
    else out.push(part);
    begins = false;
  }
  return out;
}

/** A line in parts, with a mark where it is wrong. */
function painted(it) {
  if (!it.column) return words(it.line, true);
  const from = unitsBefore(it.line, it.column);
  const wrong = /^(\w+|'(?:[^']|'')*'?|.)?/su.exec(it.line.slice(from))[0];
  return [...words(it.line.slice(0, from), true), make("mark", { title: "here" }, wrong || "\u2038"), ...words(it.line.slice(from + wrong.length), false)];
}

/** The remarks on a line. One that begins with the column is shown without it: the place is marked. */
function remarksOf(it) {
  const remarks = it.column ? it.remarks.map((remark, k) => (k ? remark : remark.replace(/^\d+: /, ""))) : it.remarks;
  const isTable = remarks.length > 3 || remarks.some((line) => /\S {2,}\S/.test(line));
  return remarks.length ? make("div", { class: `remark${isTable ? " mono" : ""}` }, remarks.join("\n")) : "";
}

function replyOf(line) {
  const kind = line === "bad line" ? " bad" : /^(ok )?refused/.test(line) ? " no" : "";
  return make("div", { class: `reply${kind}` }, line);
}

/** The lines of a reply. Of a long one the part that was sent is drawn, and how much is left out is said before its last line. */
function repliesOf(it) {
  const out = it.reply.map(replyOf);
  if (it.reply_left) out.splice(-1, 0, leftOut(it.reply_left));
  return out;
}

const leftOut = (count) => make("div", { class: "left" }, `${count.toLocaleString("en")} more ${count === 1 ? "line is" : "lines are"} not shown`);

function shownLine(it, at) {
  const line = make("button", { class: "line", title: "Show the state after this line", tabindex: -1 }, painted(it));
  line.onclick = () => choose(at);
  return make("li", { class: "sent", "data-n": it.number }, line, repliesOf(it), remarksOf(it), it.remarks_left ? leftOut(it.remarks_left) : "");
}

/** Takes all lines out of the list. */
function clearLines() {
  items = [];
  drawnChosen = stop = null;
  $("lines").replaceChildren();
}

/** Draws what is new: the lines that came, those that wait, and which line is chosen. */
function drawLines() {
  const list = $("lines");
  for (const it of list.querySelectorAll(":scope > .todo, :scope > .hello")) it.remove();
  for (let at = items.length; at < sent.length; at++) items.push(sent[at].note !== undefined ? make("li", { class: "note" }, sent[at].note) : shownLine(sent[at], at));
  list.append(...items.slice(list.childElementCount), ...waitingLines());
  markChosen();
  if (chosen < 0 || chosen === newestAt()) reveal(list, list.querySelector("li.next + li") || list.querySelector("li.next") || list.lastElementChild);
  reveal(list, drawnChosen);
  for (const it of ["step", "all"]) $(it).setAttribute("aria-disabled", !todo.length || busy);
  document.body.dataset.busy = busy;
  document.body.dataset.sent = sent.length;
  const state = newest()?.state;
  $("prompt").textContent = state?.open ? `v${state.version} @${state.moment}` : "not open";
}

/** The lines that wait to be sent, up to a number of them; or what to do if there is nothing yet. */
function waitingLines() {
  if (!sent.length && !todo.length) {
    return [make("li", { class: "note hello" }, "Choose an example and step through it, or type a script: first tables, then open. help lists the commands.")];
  }
  const shown = todo.slice(0, MOST_WAITING).map((line, k) => make("li", { class: `${isNote(line) ? "note todo" : "todo"}${k === 0 ? " next" : ""}` }, line.replace(/^# ?/, "")));
  return todo.length > MOST_WAITING ? [...shown, make("li", { class: "note todo" }, `and ${plural(todo.length - MOST_WAITING, "more line")}`)] : shown;
}

/** Marks the chosen line, at which the Tab key stops unless another has the focus. */
function markChosen() {
  const item = chosen >= 0 ? items[chosen] : null;
  if (item !== drawnChosen) {
    drawnChosen?.classList.remove("chosen");
    drawnChosen?.removeAttribute("aria-current");
    item?.classList.add("chosen");
    item?.setAttribute("aria-current", "step");
    drawnChosen = item;
  }
  if (item && !$("lines").contains(document.activeElement)) stopAt(item);
}

/** Has the Tab key stop at this line of the list, and at no other. */
function stopAt(item) {
  if (stop) stop.firstElementChild.tabIndex = -1;
  stop = item;
  stop.firstElementChild.tabIndex = 0;
}

/** Goes from line to line by the arrow keys, Home and End. */
function goInLines(event) {
  const from = event.target.closest("li.sent"), all = items.filter((it) => it.classList.contains("sent")), at = all.indexOf(from);
  const to = { ArrowUp: at - 1, ArrowDown: at + 1, Home: 0, End: all.length - 1 }[event.key];
  if (at < 0 || to === undefined || event.altKey || event.ctrlKey || event.metaKey) return;
  event.preventDefault();
  const item = all[Math.max(0, Math.min(all.length - 1, to))];
  stopAt(item);
  item.firstElementChild.focus({ preventScroll: true });
  reveal($("lines"), item);
}

/** Scrolls a list, and nothing around it, so that an item is in it: smoothly, unless it is far. */
function reveal(list, item) {
  if (!item) return;
  const { scrollTop, clientHeight } = list, below = item.offsetTop + item.offsetHeight;
  const top = below > scrollTop + clientHeight ? below - clientHeight + 6 : item.offsetTop < scrollTop ? item.offsetTop - 6 : scrollTop;
  if (top !== scrollTop) list.scrollTo({ top, behavior: Math.abs(top - scrollTop) > clientHeight ? "instant" : "auto" });
}
