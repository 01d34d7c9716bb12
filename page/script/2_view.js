// ---- what is in view
// A record has a column px wide, and its line is at the column's middle. first is the record at the left edge,
// which may be broken.

const LANE = 46, NUMBERS = 22, OUTSIDE = 30, STRIP = 22, CONSOLE_LANE = 26;
const READABLE = 28, WIDEST = 120;  // pixels of a column
const DENSE = 3;  // below this a column is too narrow for a bar of its own
const strip = tail.sweep ? STRIP : 0, outsideMiddle = NUMBERS + strip + 15;
const TALL = NUMBERS + strip + OUTSIDE + N * LANE + CONSOLE_LANE;
let selected = base, px = READABLE, first = 0, width = 800;
let focus = -1;  // the slot whose records are gone through, or -1 for all
let hits = null, hitSet = null;  // what a search has found, or nothing was searched

const laneTop = slot => NUMBERS + strip + OUTSIDE + slot * LANE, laneMiddle = slot => laneTop(slot) + 17;
const leftOf = k => (k - first) * px, middleOf = k => leftOf(k) + px / 2;

function svg(name, attributes, content) {
  const made = document.createElementNS("http://www.w3.org/2000/svg", name);
  for (const it in attributes) made.setAttribute(it, attributes[it]);
  if (content !== undefined) made.textContent = content;
  return made;
}
function html(name, cls, content) {
  const made = document.createElement(name);
  if (cls) made.className = cls;
  if (content !== undefined) made.textContent = content;
  return made;
}
function tall(name, cls, height, ...inside) {
  const made = html(name, cls);
  made.style.height = height + "px";
  made.append(...inside);
  return made;
}
const isDark = () => {
  const chosen = document.documentElement.dataset.theme;
  return chosen ? chosen === "dark" : matchMedia("(prefers-color-scheme: dark)").matches;
};
const ink = name => getComputedStyle(document.documentElement).getPropertyValue(name).trim();
// A canvas's pen, for a canvas of so many pixels of the page.
function penOf(canvas, wide, high) {
  const ratio = devicePixelRatio || 1;
  canvas.width = wide * ratio;
  canvas.height = high * ratio;
  const pen = canvas.getContext("2d");
  pen.scale(ratio, ratio);
  return pen;
}
