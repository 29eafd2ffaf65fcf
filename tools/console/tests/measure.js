/* What a test of the page measures: contrasts, places and sizes. It is put into the page by test_access.py, and is no part of it. */
function channels(color) {
  const it = /color\(srgb ([\d. e-]+)(?: \/ ([\d.e-]+))?\)/.exec(color);
  if (it) return [...it[1].split(" ").map((part) => part * 255), it[2] === undefined ? 1 : +it[2]];
  const parts = (color.match(/[\d.]+/g) || []).map(Number);
  return parts.length < 3 ? null : [parts[0], parts[1], parts[2], parts[3] ?? 1];
}

const over = (top, below) => [0, 1, 2].map((k) => top[k] * top[3] + below[k] * (1 - top[3])).concat(1);

function light([r, g, b]) {
  const [x, y, z] = [r, g, b].map((it) => it / 255).map((it) => (it <= 0.03928 ? it / 12.92 : ((it + 0.055) / 1.055) ** 2.4));
  return 0.2126 * x + 0.7152 * y + 0.0722 * z;
}

function contrast(one, other) {
  const [low, high] = [light(one), light(other)].sort((a, b) => a - b);
  return (high + 0.05) / (low + 0.05);
}

/** What is behind an element of HTML, itself included. */
function ground(element) {
  const layers = [];
  for (let it = element; it; it = it.parentElement) layers.push(channels(getComputedStyle(it).backgroundColor) || [0, 0, 0, 0]);
  return layers.reverse().reduce((below, top) => over(top, below), [255, 255, 255, 1]);
}

/** How much of an element is to be seen, by its own opacity and that of those around it. */
const opacity = (element) => { let all = 1; for (let it = element; it; it = it.parentElement) all *= +getComputedStyle(it).opacity; return all; };

/** What a shape of a picture is filled or drawn with, if it is. */
function paint(shape) {
  const style = getComputedStyle(shape), fill = channels(style.fill), stroke = channels(style.stroke);
  return fill && style.fill !== "none" ? fill : stroke && style.stroke !== "none" ? stroke : null;
}

/** The fill that lies behind the middle of a text of a picture, or what is behind the picture. */
function groundOfText(text) {
  const box = text.getBoundingClientRect(), x = box.x + box.width / 2, y = box.y + box.height / 2, svg = text.ownerSVGElement;
  const below = [...svg.querySelectorAll("rect")].filter((it) => {
    const own = it.getBoundingClientRect(), fill = getComputedStyle(it).fill;
    return own.left <= x && own.right >= x && own.top <= y && own.bottom >= y && fill !== "none" && !fill.startsWith("url");
  });
  return below.reduce((behind, it) => { const fill = channels(getComputedStyle(it).fill); return fill ? over(fill, behind) : behind; }, ground(svg));
}

const isShown = (it) => it.checkVisibility({ checkOpacity: true, checkVisibilityCSS: true }) && it.getBoundingClientRect().width > 1 && !it.closest(".unseen, option");
const nameOf = (it) => `${it.tagName} ${it.id} ${it.getAttribute("class") || ""} '${it.textContent.trim().slice(0, 30)}'`;

/** The texts that are shown, each with its contrast. */
function textContrasts() {
  const found = [];
  for (const it of document.querySelectorAll("body *")) {
    const isText = [...it.childNodes].some((part) => part.nodeType === 3 && part.textContent.trim());
    if (!isText || !isShown(it) || it.tagName === "title" || it.tagName === "OPTION") continue;
    const isDrawn = it instanceof SVGElement, style = getComputedStyle(it), behind = isDrawn ? groundOfText(it) : ground(it);
    const ink = channels(isDrawn ? style.fill : style.color), seen = over([ink[0], ink[1], ink[2], ink[3] * opacity(it)], behind);
    found.push([nameOf(it), contrast(seen, behind)]);
    if (isDrawn && it.classList.contains("halo") && style.stroke !== "none") found.push([`${nameOf(it)} on its halo`, contrast(seen, over(channels(style.stroke), behind))]);
  }
  for (const it of document.querySelectorAll("input, select, textarea")) {
    if (!isShown(it)) continue;
    found.push([nameOf(it), contrast(channels(getComputedStyle(it).color), ground(it))]);
    if (it.placeholder) found.push([`${nameOf(it)} placeholder`, contrast(over(channels(getComputedStyle(it, "::placeholder").color), ground(it)), ground(it))]);
  }
  return found;
}

/** The shapes that say something, and the edges of controls, each with its contrast to what is around it: by fill, or by stroke or border. */
function shapeContrasts() {
  const found = [];
  const against = (it, colors, behind) => found.push([nameOf(it), Math.max(...colors.filter(Boolean).map((color) => contrast(over(color, behind), behind)), 0)]);
  for (const it of document.querySelectorAll("svg rect, svg circle, svg path, line.now, line.mark")) {
    if (!isShown(it) && it.tagName !== "path") continue;
    const style = getComputedStyle(it);
    if (style.fill.startsWith("url") || it.closest("defs") || it.getAttribute("d") === "M0 0") continue;
    against(it, [style.fill, style.stroke].map((color) => (color === "none" ? null : channels(color))), ground(it.ownerSVGElement));
  }
  for (const it of document.querySelectorAll("input, select, textarea, button:not(nav button, .link, .line), .chip:not(.hatched), .pieces i, .keys i, .pair, .lack")) {
    if (!isShown(it)) continue;
    const style = getComputedStyle(it), behind = ground(it.parentElement);
    against(it, [channels(style.backgroundColor), parseFloat(style.borderTopWidth) ? channels(style.borderTopColor) : null], behind);
  }
  return found;
}

/** What of a picture lies outside of it, and which shapes and words of its rows lie outside of the moments. */
function outside(svg, gutter) {
  const whole = svg.viewBox.baseVal, right = whole.width - 14, found = [];
  for (const it of svg.querySelectorAll("rect, circle, path, text, line")) {
    if (it.closest("defs") || (it.tagName === "text" && !it.textContent)) continue;
    const box = it.getBBox(), isName = it.tagName === "text" && box.x < 1, isMoment = it.tagName === "text" && box.y > whole.height - 20, isGrid = it.classList.contains("grid");
    const low = isName || isMoment || isGrid ? -0.5 : gutter - 1, high = isName ? gutter : isMoment ? whole.width + 0.5 : right + 1;
    if (box.x < low || box.x + box.width > high || box.y < -1 || box.y + box.height > whole.height + 1) found.push([nameOf(it), box.x, box.x + box.width, box.y]);
  }
  return found;
}

/** What a pointer can hit that is less than so many pixels wide or high. */
function smallTargets(least) {
  const all = [...document.querySelectorAll("a, button, input, select, textarea, [tabindex='0']")].filter(isShown);
  return all.map((it) => [nameOf(it), it.getBoundingClientRect().width, it.getBoundingClientRect().height]).filter(([, width, height]) => width < least || height < least);
}

/** The system's words that have the colours of a button's ground and text: in forced colours a text has a plate of the ground's colour behind it. */
function buttonWords(button) {
  const probe = document.body.appendChild(document.createElement("i")), style = getComputedStyle(button);
  const words = ["ButtonFace", "ButtonText"].map((word, k) => { probe.style.color = word; return getComputedStyle(probe).color === [style.backgroundColor, style.color][k] ? word : style.cssText; });
  probe.remove();
  return words;
}

/** The texts of a picture that lie on each other. */
function overlaps(svg) {
  const texts = [...svg.querySelectorAll("text")].filter((it) => it.textContent).map((it) => [it, it.getBBox()]);
  const isOver = (a, b) => a.x + 1 < b.x + b.width && b.x + 1 < a.x + a.width && a.y + 4 < b.y + b.height && b.y + 4 < a.y + a.height;
  return texts.flatMap(([it, box], k) => texts.slice(k + 1).filter(([, other]) => isOver(box, other)).map(([other]) => `${it.textContent} on ${other.textContent}`));
}
