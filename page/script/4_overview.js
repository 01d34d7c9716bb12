// ---- the overview: the whole run in forty pixels, and which part of it is in view
// Messages are a profile, the console stands below it, then come deaths, respawns and hits as strokes.

const OVERVIEW = 40;
const ground = document.createElement("canvas");  // all but what is in view
let shownGround = "";

// One stroke for each pixel that has a record of these.
function drawStrokes(pen, colour, count, recordAt, xOf, y, wide, high) {
  pen.fillStyle = colour;
  for (let i = 0, last = -1; i < count; i++) {
    const x = xOf(recordAt(i)) | 0;
    if (x !== last) pen.fillRect(x, y, wide, high);
    last = x;
  }
}
function drawProfile(pen, xOf, wide) {
  const messages = new Uint32Array(wide + 1);
  for (let i = 0; i < arrows.length; i++) messages[xOf(arrows.at(i, 0)) | 0]++;
  const most = messages.reduce((x, y) => Math.max(x, y), 1);
  pen.fillStyle = ink("--receiving");
  messages.forEach((count, x) => pen.fillRect(x, 24 - 16 * count / most, 1, 16 * count / most));
}
function recordsWith(flag, without = 0) {
  const found = [];
  for (let k = base + 1; k <= loaded; k++)
    if (flags[k] & flag && !(flags[k] & without)) found.push(k);
  return found;
}
function drawGround(xOf, wide) {
  const pen = penOf(ground, wide, OVERVIEW), deaths = recordsWith(DEATH), respawns = recordsWith(RESPAWN, DEATH);
  drawProfile(pen, xOf, wide);
  drawStrokes(pen, ink("--out"), bytes.length, i => bytes.at(i, 0), xOf, 26, 1.5, 4);
  drawStrokes(pen, ink("--respawn"), respawns.length, i => respawns[i], xOf, 12, 1.5, 13);
  drawStrokes(pen, ink("--death"), deaths.length, i => deaths[i], xOf, 0, 2.5, 25);
  if (hits) drawStrokes(pen, ink("--hit"), hits.length, i => hits[i], xOf, 32, 2, 8);
}
function overview() {
  const canvas = $("overview"), wide = canvas.clientWidth;
  if (!wide) return;
  const xOf = k => (k - base) / Math.max(1, total - base) * (wide - 2) + 1;
  const asked = [wide, devicePixelRatio, loaded, isDark(), hits && hits.length, searched].join();
  if (asked !== shownGround) drawGround(xOf, wide);
  shownGround = asked;
  const pen = penOf(canvas, wide, OVERVIEW), last = Math.min(total, first + width / px);
  pen.fillStyle = ink("--mark");
  pen.fillRect(xOf(first), 0, Math.max(3, xOf(last) - xOf(first)), OVERVIEW);
  pen.drawImage(ground, 0, 0, wide, OVERVIEW);
  pen.fillStyle = ink("--ink");
  pen.fillRect(xOf(selected) - 1, 0, 2, OVERVIEW);
}
const recordInOverview = x =>
    Math.round((x - 1) / ($("overview").clientWidth - 2) * (total - base)) + base;
