"use strict";
/* The picture of a state: versions, the states of elements in them, and leases, on a line of moments. */
const HEAD = 30, LANE = 27;

const DOT = 7, MOST_LANES = 30;
const ruler = document.createElement("canvas").getContext("2d");

const widths = new Map();

/** How wide a text of the picture is. */
function widthOf(text, kind = "") {
  const name = `${kind} ${text}`;
  if (!widths.has(name)) {
    if (widths.size > 10000) widths.clear();
    const mono = getComputedStyle(document.documentElement).getPropertyValue("--mono");
    ruler.font = `${kind === "bold" ? "600 " : ""}11.5px ${kind === "mono" ? mono : 'system-ui, "DejaVu Sans", sans-serif'}`;
    widths.set(name, ruler.measureText(text).width);
  }
  return widths.get(name);
}

/** The first of some texts that fits into so much room, or none. */
const fitting = (texts, room, kind) => texts.find((text) => widthOf(text, kind) <= room) || "";

/** A text, cut so that it fits. */
function cut(text, room, kind) {
  let end = text.length;
  while (end > 1 && widthOf(end < text.length ? `${text.slice(0, end)}…` : text, kind) > room) end--;
  return end < text.length ? `${text.slice(0, end)}…` : text;
}

/** Where moments are on the picture: to scale, but a long gap is cut. */
function scale(moments, length, from, to) {
  const sorted = [...new Set(moments)].sort((a, b) => a - b), sums = [0];
  for (let k = 1; k < sorted.length; k++) sums.push(sums[k - 1] + Math.min(sorted[k] - sorted[k - 1], 2.5 * length));
  const total = sums.at(-1) || 1;
  const place = (moment) => {
    let k = 0, after = sorted.length; // sorted[k] is the last that is not later
    while (after - k > 1) {
      const middle = (k + after) >> 1;
      if (sorted[middle] <= moment) k = middle;
      else after = middle;
    }
    if (moment < sorted[0]) return from;
    if (k === sorted.length - 1) return to;
    const part = (moment - sorted[k]) / (sorted[k + 1] - sorted[k]);
    return from + (to - from) * (sums[k] + part * (sums[k + 1] - sums[k])) / total;
  };
  return { place, sorted };
}

/** The elements that change at some time; the first six if none does. */
function changing(state) {
  const numbers = Object.keys(state.names).map(Number);
  const first = state.versions[0]?.states || {}, isSame = (a, b) => a?.state === b?.state && a?.way === b?.way;
  const found = numbers.filter((n) => state.versions.some((version) => !isSame(first[n], version.states[n])));
  return found.length ? found : numbers.slice(0, 6);
}

/** The latest of a moment that each of a list has. */
const latest = (list, momentOf) => list.reduce((most, it) => Math.max(most, momentOf(it)), 0);

/** What all parts of a picture need: where things are, and to what they are added. `late` is drawn last, above all else. */
function frame(state, width, number) {
  const gutter = width < 520 ? 74 : 118, right = width - 14, { leases, writes } = state;
  const servers = [...new Set(leases.map((it) => it.server))], lanes = changing(state);
  const end = Math.max(state.moment + Math.ceil(state.length / 4), state.length, latest(leases, (it) => it.until), latest(writes, (it) => it.at + 1));
  const moments = [0, end, state.moment, ...state.versions.map((it) => it.at), ...leases.flatMap((it) => [it.from, it.until])];
  const rows = (list) => Math.min(list.length, MOST_LANES + 1);
  const base = HEAD + rows(lanes) * LANE + 10, height = base + 4 + rows(servers) * LANE + 26;
  const svg = make("svg", { viewBox: `0 0 ${width} ${height}`, height, role: "img", "aria-label": `Version ${state.version} at moment ${state.moment}. ${used(state)}` });
  svg.append(make("defs", {}, make("pattern", { id: "hatch", width: 7, height: 7, patternUnits: "userSpaceOnUse", patternTransform: "rotate(45)" }, make("line", { x1: 0, y1: 0, x2: 0, y2: 7, class: "hatch" }))));
  return { state, number, gutter, right, width, servers, lanes, base, height, svg, late: [], ...scale(moments, state.length, gutter, right) };
}

/** Draws the last of a list by rows from `top` on, and how many are left out. */
function drawRows(pic, list, top, draw) {
  const shown = list.slice(-MOST_LANES);
  shown.forEach((it, row) => draw(it, top + row * LANE));
  if (shown.length < list.length) put(pic, 0, top + MOST_LANES * LANE + 17, `+${list.length - shown.length} earlier`, "soft");
}

/** Each version with where it begins and ends; those that no one would see are left out. */
function spans(pic) {
  return pic.state.versions.map((version, k, all) => ({ version, x: pic.place(version.at), to: all[k + 1] ? pic.place(all[k + 1].at) : pic.right })).filter((it) => it.to - it.x >= 1);
}

const put = (pic, x, y, text, kind = "", anchor = "start") => pic.svg.append(make("text", { x, y, class: kind, "text-anchor": anchor }, text));

function drawVersions(pic) {
  put(pic, 0, 18, "version", "soft");
  for (const { version, x, to } of spans(pic)) {
    const isUsed = pic.state.usable.includes(version.version), isNewest = version.version === pic.state.version;
    const kind = isNewest ? "newest" : isUsed ? "in-use" : "past", room = to - x;
    const title = `version ${version.version}, the newest from moment ${version.at}${version.moves.length ? `: ${version.moves.join(", ")}` : ""}${isUsed ? "; may be in use" : ""}`;
    pic.svg.append(make("rect", { x: x + 1, y: 3, width: Math.max(1, room - 2), height: 21, rx: 5, class: `version ${kind}` }, make("title", {}, title)));
    const word = isNewest ? "newest" : "in use", name = `v${version.version}`;
    const label = fitting(kind === "past" ? [name] : [`${name}, ${word}`, name], room - 8, isNewest ? "bold" : "");
    pic.late.push(make("text", { x: (x + to) / 2, y: 18, "text-anchor": "middle", class: `halo name ${kind}` }, label));
  }
}

function drawElement(pic, n, y) {
  const [table, name] = pic.state.names[n].split("."), all = pic.state.names[n];
  pic.svg.append(make("text", { x: 0, y: y + 17, class: "mono" }, cut(pic.state.tables.length > 1 ? `${table}.${name}` : name, pic.gutter - 6, "mono"), make("title", {}, all)));
  for (const { version, x, to } of spans(pic)) {
    const { state: is, way } = version.states[n] || { state: "absent", way: "" }, isDropped = way === "dropping" && is !== "absent";
    const box = { x: x + 1, y: y + 2, width: Math.max(1, to - x - 2), height: LANE - 6, rx: 4 };
    pic.svg.append(make("rect", { ...box, class: is }, make("title", {}, `${all} in version ${version.version}: ${WORDS[is]}${isDropped ? ", being dropped" : ""}`)));
    if (isDropped) pic.svg.append(make("rect", { ...box, fill: "url(#hatch)" }));
    const word = fitting([WORDS[is], WORDS[is][0].toUpperCase()], to - x - 8, "bold");
    pic.late.push(make("text", { x: (x + to) / 2, y: y + 17, "text-anchor": "middle", class: `halo over-${is} ${is === "absent" ? "faint" : "on"}` }, word));
  }
}

/** A server's leases. One that was renewed before its end is drawn up to the next one. `dots` are where its writes are drawn. */
function drawLeases(pic, server, y, dots) {
  const own = pic.state.leases.filter((it) => it.server === server);
  own.forEach((it, k) => {
    const next = own[k + 1], x = pic.place(it.from), to = pic.place(next && next.from > it.from ? Math.min(it.until, next.from) : it.until), inForce = it.held && it.in_force;
    if (to - x < 1 && next) return; // no one would see it
    const wide = Math.max(2, to - x);
    pic.svg.append(make("rect", { x: Math.min(x, pic.right - wide), y: y + 3, width: wide, height: LANE - 9, rx: 9, class: `lease ${inForce ? "in-force" : "over"}` },
      make("title", {}, `server ${server}: a lease on version ${it.version} from ${it.from} until ${it.until}, ${it.standing}`)));
    const label = `v${it.version}`, room = widthOf(label), isFree = (from, until) => !dots.some((dot) => dot > from - 5 && dot < until + 5);
    const left = [to - 7 - room, x + 8, (x + to - room) / 2].find((from) => from >= x + 4 && from + room <= to - 3 && isFree(from, from + room));
    if (left !== undefined) put(pic, left, y + 16, label, inForce ? "" : "faint");
  });
}

/** The writes of a server in groups of those that would lie on each other, each with where it begins and how many dots have room up to the next group,
 * or to the end of the moments. */
function groupsOf(pic, server) {
  const groups = [];
  for (const it of pic.state.writes.filter((write) => write.server === server).sort((a, b) => a.at - b.at)) {
    const x = Math.min(pic.place(it.at) + 6, pic.right - 6), last = groups.at(-1);
    if (last && x < last.x + DOT) last.writes.push(it);
    else groups.push({ x, writes: [it] });
  }
  groups.forEach((group, k) => {
    const next = groups[k + 1];
    group.room = next ? Math.floor((next.x - group.x) / DOT) : 1 + Math.floor((pic.right - 6 - group.x) / DOT);
  });
  return groups;
}

/** The writes of a group that have room, each with its place; and how many others there are, for which room is left if there is enough. */
function dotsOf(pic, { x, writes, room }) {
  const wanted = Math.ceil((widthOf(`+${writes.length}`) + 6) / DOT), isCut = writes.length > room, isCounted = isCut && room > wanted;
  const count = isCounted ? room - wanted : Math.min(room, writes.length), last = writes.findLastIndex((it) => it.number === pic.number);
  const shown = writes.slice(0, count);
  if (isCut && last >= count) shown[count - 1] = writes[last];
  return { dots: shown.map((write, k) => ({ write, x: x + k * DOT })), more: writes.length - count, after: isCounted ? x + count * DOT : null };
}

/** A dot for each transaction of a server, a ring for each query, a cross for what was refused. */
function drawWrites(pic, server, y, { dots, more, after }) {
  const cy = y + 12;
  dots.forEach(({ write: it, x }, k) => {
    const isLast = it.number === pic.number, others = more && k === dots.length - 1 ? `; ${more} more at about this moment are not drawn` : "";
    const title = make("title", {}, `line ${it.number}: ${it.kind} by ${server} at ${it.at}${it.version ? ` under version ${it.version}` : ""}${it.ok ? "" : ", refused"}${others}`);
    if (!it.ok) pic.svg.append(make("path", { d: `M${x - 3} ${cy - 3}l6 6m0 -6l-6 6`, class: "refused" }, title));
    else pic.svg.append(make("circle", { cx: x, cy, r: isLast ? 4.5 : 3, class: `write ${it.kind}${isLast ? " last" : ""}` }, title));
  });
  if (after !== null) put(pic, after - 1, y + 16, `+${more}`, "soft");
}

function drawServer(pic, server, y) {
  const drawn = groupsOf(pic, server).map((group) => dotsOf(pic, group));
  put(pic, 0, y + 17, cut(`server ${server}`, pic.gutter - 6), "soft");
  // a number of writes takes as much room as dots would
  const places = ({ dots, more, after }) => [...dots.map((dot) => dot.x), ...(after === null ? [] : [...`+${more}`].map((_, k) => after + 3 + k * DOT))];
  drawLeases(pic, server, y, drawn.flatMap(places));
  for (const it of drawn) drawWrites(pic, server, y, it);
}

function drawServers(pic) {
  if (pic.servers.length) pic.svg.append(make("line", { x1: 0, x2: pic.right, y1: pic.base - 4, y2: pic.base - 4, class: "grid" }));
  drawRows(pic, pic.servers, pic.base, (server, y) => drawServer(pic, server, y));
}

/** The line of moments, and where it is now. */
function drawMoments(pic) {
  const foot = pic.height - 20, now = pic.state.moment, nowX = pic.place(now), shown = `now ${now}`, nowHalf = widthOf(shown) / 2 + 2;
  const nowAt = Math.min(nowX, pic.width - nowHalf);
  pic.svg.append(make("line", { x1: pic.gutter, x2: pic.right, y1: foot, y2: foot, class: "grid" }));
  let free = -Infinity;
  for (const moment of pic.sorted) {
    const half = widthOf(String(moment)) / 2 + 3, x = Math.min(pic.place(moment), pic.width - half);
    if (moment === now || x - half < free || Math.abs(x - nowAt) < half + nowHalf) continue;
    free = x + half;
    put(pic, x, pic.height - 5, String(moment), "faint", "middle");
  }
  pic.svg.append(make("line", { x1: nowX, x2: nowX, y1: 0, y2: foot + 3, class: "now" }), ...pic.late);
  put(pic, nowAt, pic.height - 5, shown, "", "middle");
}

function picture(state, width, number) {
  const pic = frame(state, width, number);
  drawVersions(pic);
  drawRows(pic, pic.lanes, HEAD, (n, y) => drawElement(pic, n, y));
  drawServers(pic);
  drawMoments(pic);
  return pic.svg;
}

/** Which versions may be in use, and by whom. */
function used(state) {
  return state.usable.map((version) => {
    const by = state.leases.filter((it) => it.version === version && it.held && it.in_force).map((it) => `${it.server} until ${it.until}`);
    return `Version ${version}: ${by.length ? `used by ${by.join(", ")}` : "no lease is in force"}.`;
  }).join(" ");
}
