"use strict";
const $ = (id) => document.getElementById(id);
const WORDS = { absent: "absent", delete_only: "delete-only", write_only: "write-only", public: "public" };
const SVG = /^(svg|g|rect|line|path|circle|text|title|defs|pattern)$/;
const ENDED = "The console's server has ended, or cannot be reached. Start it again (python3 tools/console) and open the address that it writes. What you typed is still here, and Save writes the lines that were sent.";
const STRANGE = "Another console was started in the place of this page's: open the address that it wrote. What you typed is still here, and Save writes the lines that were sent.";

const plural = (n, word) => `${n} ${word}${n === 1 ? "" : "s"}`;

/** An element of HTML or SVG: its attributes, and what is in it. Texts are put in as texts, never as HTML. */
function make(name, attributes = {}, ...inside) {
  const it = SVG.test(name) ? document.createElementNS("http://www.w3.org/2000/svg", name) : document.createElement(name);
  for (const [key, value] of Object.entries(attributes)) if (value !== null && value !== undefined && value !== false) it.setAttribute(key, value);
  it.append(...inside.flat().filter((part) => part !== null && part !== undefined && part !== ""));
  return it;
}

/** What the server answers to an object. Paths begin where the page is, so each has the secret of its address. */
async function call(path, asked = {}) {
  let answer;
  try {
    answer = await fetch(path, { method: "POST", headers: { "Content-Type": "application/json" }, body: JSON.stringify(asked) });
  } catch {
    throw new Error(ENDED);
  }
  if (answer.status === 403) throw new Error(STRANGE);
  const body = await answer.json();
  if (!answer.ok) throw new Error(body.fault || answer.statusText);
  return body;
}

/** Shows what went wrong, or nothing. */
function fault(text) {
  $("fault").textContent = text || "";
  $("fault").hidden = !text;
}

/** Draws what is in an element anew, and gives the focus back to what had it: what has the same name of `data-focus`; if that is gone, the element. */
function redraw(element, ...inside) {
  const had = element.contains(document.activeElement) && document.activeElement.dataset.focus;
  element.replaceChildren(...inside.flat());
  if (had) (element.querySelector(`[data-focus="${CSS.escape(had)}"]`) || element).focus({ preventScroll: true });
}
