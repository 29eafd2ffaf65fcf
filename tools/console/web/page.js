"use strict";
/* The page: its two views, its buttons and its keys. */
function view(name) {
  for (const it of ["script", "load"]) {
    $(`view-${it}`).hidden = it !== name;
    $(`tab-${it}`).setAttribute("aria-selected", it === name);
    $(`tab-${it}`).tabIndex = it === name ? 0 : -1;
  }
  if (name === "load") drawCharts();
  else drawState();
  history.replaceState(null, "", `#${name}`);
}

function useTheme(theme) {
  if (theme) document.documentElement.dataset.theme = theme;
  else delete document.documentElement.dataset.theme;
  $("theme").textContent = theme ? theme[0].toUpperCase() + theme.slice(1) : "Theme";
}

/** The system's theme, dark, light, in turn. */
function nextTheme() {
  const next = { dark: "light", light: "" }[localStorage.getItem("theme")] ?? "dark";
  if (next) localStorage.setItem("theme", next);
  else localStorage.removeItem("theme");
  useTheme(next);
}

function useTabs() {
  for (const it of ["script", "load"]) $(`tab-${it}`).onclick = () => view(it);
  document.querySelector("nav").onkeydown = (event) => {
    if (!/Arrow(Left|Right)/.test(event.key)) return;
    const to = $("view-load").hidden ? "load" : "script";
    view(to);
    $(`tab-${to}`).focus();
  };
}

/** Begins the chosen example, or a script of one's own, unless lines would be lost that someone keeps. */
let picked = "";
function startAnew() {
  if (!mayLose()) {
    $("example").value = picked;
    return;
  }
  picked = $("example").value;
  again(examples.find((it) => it.name === picked)?.text.replace(/\n$/, "").split("\n") || []);
}

/** What a click does; the further ones of a double click do nothing. */
const once = (act) => (event) => { if (event.detail < 2) act(); };

function useButtons() {
  $("theme").onclick = nextTheme;
  $("step").onclick = once(step);
  $("all").onclick = once(() => take(todo.length));
  $("save").onclick = save;
  $("again").onclick = startAnew;
  $("example").onchange = startAnew;
  $("now").onclick = async () => {
    await choose(newestAt());
    stopAt(items[chosen]);
    items[chosen].firstElementChild.focus({ preventScroll: true });
  };
  $("stop").onclick = () => { isStopped = true; };
  $("lines").onkeydown = goInLines;
}

/** Has the box for lines as high as what is in it, up to six rows. */
const fitLine = () => { $("line").rows = Math.min(6, $("line").value.split("\n").length); };

/** Sends what was typed. What was not sent, since something failed or was stopped, is in the box again. */
async function sendTyped(event) {
  event.preventDefault();
  if (busy) return;
  const line = $("line"), lines = line.value.split(/\r?\n/);
  line.value = "";
  recall = 0;
  fitLine();
  const done = await send(lines);
  unsaved += lines.slice(0, done).filter(isLine).length;
  if (done < lines.length) line.value = [...lines.slice(done), ...(line.value ? [line.value] : [])].join("\n");
  fitLine();
  line.focus();
}

/** Enter sends; Up and Down go through the lines that were sent, and back to what was being typed. */
let draft = "";
function typed(event) {
  const line = $("line");
  if (event.key === "Enter" && !event.shiftKey) {
    event.preventDefault();
    $("ask").requestSubmit();
  }
  if (/Arrow(Up|Down)/.test(event.key) && !line.value.includes("\n")) {
    const mine = sent.filter((it) => it.note === undefined);
    if (!recall) draft = line.value;
    recall = Math.max(0, Math.min(mine.length, recall + (event.key === "ArrowUp" ? 1 : -1)));
    line.value = recall ? mine.at(-recall).line : draft;
    event.preventDefault();
  }
}

function useForms() {
  $("ask").onsubmit = sendTyped;
  $("line").onkeydown = typed;
  $("line").oninput = fitLine;
  $("load").onsubmit = startLoad;
  $("start").onclick = (event) => { if (event.detail > 1) event.preventDefault(); };
  document.querySelector(".charts").onpointermove = pointed;
  document.querySelector(".charts").onpointerleave = () => { $("tip").hidden = true; };
}

/** Draws again what depends on the width. */
function watchWidth() {
  let drawn = 0;
  new ResizeObserver(() => {
    if (innerWidth === drawn) return;
    drawn = innerWidth;
    drawState();
    drawCharts();
  }).observe(document.body);
}

async function begin() {
  useTheme(localStorage.getItem("theme"));
  useTabs();
  useButtons();
  useForms();
  watchWidth();
  addEventListener("beforeunload", (event) => { if (unsaved || busy || $("line").value.trim()) event.preventDefault(); });
  addEventListener("pagehide", () => session && navigator.sendBeacon(`api/session/${session}/end`, new Blob(["{}"], { type: "application/json" })));
  view(location.hash === "#load" ? "load" : "script");
  try {
    const about = await (await fetch("api/about")).json();
    examples = about.examples;
    $("example").append(...examples.map((it) => make("option", { value: it.name }, it.name.replaceAll("_", " "))));
  } catch (error) {
    fault(error.message);
  }
  await again();
  drawCharts();
  document.body.dataset.ready = true;
}
begin();
