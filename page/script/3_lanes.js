// ---- the lanes: what is seen of the records from a to b
// What a bar is shows without its colour: its height and its strokes tell the state too.

const NUMBER_STEPS = [1, 2, 5].flatMap(n => [n, 10 * n, 100 * n, 1e3 * n, 1e4 * n, 1e5 * n]).sort((x, y) => x - y);

function barHeight(state) {
  if (isOut(state)) return 20;
  return state === State.RECEIVING ? 4 : 10;
}
// Strokes of those that wait for a process: up for one that awaits an answer, down for one that sends.
function strokes(state, from, to, y) {
  let path = "";
  for (let x = from; x < to; x += 7)
    path += state === State.AWAITING ? `M${x} ${y + 5}l5 -10` : `M${x} ${y - 5}l5 10`;
  return path;
}
// Whether words fit into so many pixels.
const fits = (words, wide) => words.length * 6.1 <= wide;
const hasStrokes = state => state === State.SENDING || state === State.CALLING || state === State.AWAITING;

function drawBar(into, slot, from, to, {state, partner}) {
  const y = laneMiddle(slot), wide = Math.max(0.5, to - from), high = barHeight(state);
  if (isDown(state)) {
    const words = doing({state, partner});
    if (fits(words, wide - 16)) into.append(svg("text", {x: from + 12, y: y + 4, class: "num"}, words));
    return;
  }
  into.append(svg("rect", {x: from, y: y - high / 2, width: wide, height: high, class: "s" + state}));
  if (state === State.CALLING) into.append(svg("rect", {x: from, y, width: wide, height: high / 2, class: "s4b"}));
  const path = hasStrokes(state) && px >= 4 ? strokes(state, from + 4, to - 2, y) : "";
  if (path) into.append(svg("path", {d: path, class: "hatch"}));
  if (isOut(state) && wide >= 12)
    into.append(svg("text", {x: from + wide / 2, y: y + 4, "text-anchor": "middle", class: "in1"}, partner));
}

// A service's bars, one for changes in a row that look alike.
function drawBars(into, slot, a, b, wide) {
  const lane = lanes[slot];
  for (let i = Math.max(0, lane.upTo(a - 1)), next; i < lane.length && lane.at(i, 0) <= b; i = next) {
    next = i + 1;
    while (next < lane.length && lane.at(next, 0) <= b + 1 && lane.isAlike(i, next)) next++;
    const from = Math.max(-2, middleOf(lane.at(i, 0)));
    const to = next < lane.length ? Math.min(wide + 2, middleOf(lane.at(next, 0))) :
                                    Math.min(wide, middleOf(loaded) + px / 2);
    drawBar(into, slot, from, to, lane.change(i));
  }
}

function drawArrow(into, i) {
  const [k, kind, from, to, type] = arrows.row(i), x = middleOf(k);
  if (from === to) return;
  const y0 = from < 0 ? outsideMiddle : laneMiddle(from), y1 = laneMiddle(to);
  const down = y1 >= y0 ? 1 : -1, tip = y1 - down * 10, isMessage = kind === ArrowKind.MESSAGE;
  into.append(
      svg("line", {x1: x, y1: y0, x2: x, y2: tip, class: isMessage ? "msg" : "msg note"}),
      svg("circle", {cx: x, cy: y0, r: 3, class: "head"}));
  if (kind === ArrowKind.WAITING) into.append(svg("circle", {cx: x, cy: y1 - down * 6, r: 4, class: "open"}));
  else {
    const d = `M${x - 5} ${tip - down * 2}L${x} ${y1 - down}L${x + 5} ${tip - down * 2}`;
    into.append(svg("path", {d, class: isMessage ? "head" : "open"}));
  }
  if (type && isMessage && px >= 16)
    into.append(svg("text", {x: x + 5, y: (down > 0 ? y1 : y0) - 12, class: "halo"}, type >>> 0));
}

// A death, whose cause is written where it has room until the service's next change.
function drawDeath(into, k, slot, state, cause, room) {
  const x = middleOf(k), y = laneMiddle(slot), r = px < 8 ? 4 : 8, killer = subjects[k];
  const y0 = events[k] === EventKind.KILL ? outsideMiddle : killer >= 0 ? laneMiddle(killer) : y;
  if (y0 !== y) into.append(svg("line", {x1: x, x2: x, y1: y0, y2: y, class: "death"}));
  into.append(svg(
      "path", {d: `M${x - r} ${y - r}l${2 * r} ${2 * r}M${x - r} ${y + r}l${2 * r} ${-2 * r}`, class: "death"}));
  const words = {[State.EXITED]: "exit", [State.KILLED]: "kill", [State.FAULTED]: "fault " + cause}[state];
  if (fits(words, room)) into.append(svg("text", {x: x + 10, y: y - 8, class: "bad halo"}, words));
}
function drawRespawn(into, k, slot, endpoint) {
  const x = middleOf(k), y = laneMiddle(slot), r = px < 8 ? 4 : 8;
  into.append(
      svg("line", {x1: x, x2: x, y1: outsideMiddle, y2: y - r, class: "respawn"}),
      svg("path", {d: `M${x} ${y - r}L${x + r} ${y}L${x} ${y + r}L${x - r} ${y}Z`, class: "respawnmark"}));
  if (px >= 16) into.append(svg("text", {x: x + 10, y: y - 10, class: "good halo"}, endpoint));
}
function drawLives(into, k) {
  lanes.forEach((lane, slot) => {
    const i = lane.upTo(k);
    if (i === 0 || lane.at(i, 0) !== k) return;
    const now = lane.change(i), before = lane.change(i - 1), isLast = i + 1 === lane.length;
    const room = px < 16 ? 0 : isLast ? Infinity : (lane.at(i + 1, 0) - k) * px;
    if (isDown(now.state) && !isDown(before.state)) drawDeath(into, k, slot, now.state, now.partner, room);
    if (now.endpoint !== before.endpoint) drawRespawn(into, k, slot, now.endpoint);
  });
}

// Under a lane, what a return did. A word that would reach into the last one is left out if columns are narrow.
function drawLabel(into, k, usedTo) {
  const slot = subjects[k], isWrong = flags[k] & WRONG && events[k] === EventKind.BACK;
  if (!labels[k] || px < 14 || slot < 0) return;
  const x = middleOf(k), word = (isWrong ? "! " : "") + labelWords.word(labels[k]);
  if (!fits(word, x - usedTo[slot] - 4) && px < 56) return;
  const y = laneTop(slot) + LANE - 6;
  into.append(svg("text", {x: x - 2, y, "text-anchor": "end", class: flags[k] & WRONG ? "bad" : "num"}, word));
  usedTo[slot] = x;
}

// In the lane of what comes from outside, an interrupt, a tick, a kill or a respawn.
function drawOutside(into, k) {
  const x = middleOf(k), y = outsideMiddle, event = events[k];
  if (event < EventKind.LINE || px < 5) return;
  if (event === EventKind.LINE) into.append(svg("path", {d: `M${x - 5} ${y - 6}h10l-5 9z`, class: "head"}));
  else if (event === EventKind.TICK) into.append(svg("line", {x1: x, x2: x, y1: y - 8, y2: y + 6, class: "msg"}));
  else into.append(svg("circle", {cx: x, cy: y, r: 3, class: event === EventKind.KILL ? "death" : "respawnmark"}));
  if (px >= 16 && (event === EventKind.LINE || event === EventKind.TICK))
    into.append(svg("text", {x: x + 6, y: y + 4, class: "num halo"}, EVENT_WORDS[event]));
}

// A record's column, with its trace for a pointer that rests there.
function drawColumn(into, k) {
  const cell = svg("rect", {x: leftOf(k), y: 0, width: px, height: TALL, class: "cell"});
  if (px >= 14) cell.append(svg("title", {}, traceOf(k)));
  into.append(cell);
}

function drawNumbers(into, a, b) {
  const every = NUMBER_STEPS.find(n => n * px >= 46) || 1e6;
  for (let k = Math.ceil(a / every) * every; k <= b; k += every)
    into.append(svg("text", {x: middleOf(k), y: 14, "text-anchor": "middle", class: "num"}, k));
}
const isPrintable = byte => byte > 32 && byte < 127;
function drawBytes(into, a, b) {
  for (let i = bytes.upTo(a - 1) + 1; i < bytes.length && bytes.at(i, 0) <= b; i++) {
    const byte = bytes.at(i, 1);
    const shown = isPrintable(byte) ? String.fromCharCode(byte) : byte.toString(16).toUpperCase().padStart(2, "0");
    into.append(svg("text", {x: middleOf(bytes.at(i, 0)), y: laneTop(N) + 17, "text-anchor": "middle"}, shown));
  }
}
function drawRecords(into, a, b, isOnPaper) {
  const usedTo = new Array(N).fill(-Infinity);
  for (let k = Math.max(base + 1, a); k <= b; k++) {
    if (flags[k] & (DEATH | RESPAWN)) drawLives(into, k);
    drawLabel(into, k, usedTo);
    drawOutside(into, k);
    if (hitSet && hitSet.has(k)) into.append(svg("path", {d: `M${middleOf(k) - 4} 17h8l-4 5z`, class: "hitmark"}));
    if (px >= 6 && !isOnPaper) drawColumn(into, k);
  }
}
function drawSelection(into, cls, inset) {
  const y = inset, height = TALL - 2 * inset;
  into.append(svg("rect", {x: leftOf(selected), y, width: Math.max(px, 3), height, class: cls}));
}

function draw(picture, a, b, wide, isOnPaper) {
  const into = document.createDocumentFragment();
  if (!isOnPaper) drawSelection(into, "sel", 0);
  drawNumbers(into, a, b);
  for (let slot = 0; slot <= N; slot++)
    into.append(svg("line", {x1: 0, x2: wide, y1: laneTop(slot), y2: laneTop(slot), class: "rule"}));
  if (strip) drawSweep(into, a, b, wide);
  if (px >= DENSE) {
    for (let slot = 0; slot < N; slot++) drawBars(into, slot, a, b, wide);
    for (let i = arrows.upTo(a - 1) + 1; i < arrows.length && arrows.at(i, 0) <= b; i++) drawArrow(into, i);
    drawRecords(into, a, b, isOnPaper);
  }
  if (px >= 7) drawBytes(into, a, b);
  if (!isOnPaper) drawSelection(into, "selline", 0.75);
  picture.replaceChildren(into);
}

// ---- the lanes zoomed out: for each pixel a service's share of each state, in the records of that pixel
const SHARES = [
  [State.OUT, "--out"], [State.DOOMED, "--doomed"], [State.READY, "--ready"], [State.SENDING, "--sending"],
  [State.CALLING, "--sending"], [State.AWAITING, "--awaiting"], [State.RECEIVING, "--receiving"]
];

// The shares of the states of a lane from place a to b, which is part of [a, b); i is the lane's row at a.
// Returns the row at b, and whether the service died on the way.
function addShares(share, lane, i, a, b) {
  let from = a, hasDied = false;
  for (; i + 1 < lane.length && lane.at(i + 1, 0) < b; i++) {
    share[lane.at(i, 2)] += Math.max(0, lane.at(i + 1, 0) - from);
    from = Math.max(from, lane.at(i + 1, 0));
    hasDied ||= isDown(lane.at(i + 1, 2));
  }
  share[lane.at(i, 2)] += Math.max(0, b - from);
  return [i, hasDied];
}
function drawShares(pen, slot, wide, inks, red) {
  const lane = lanes[slot], top = laneTop(slot) + 4, high = LANE - 8, share = new Float64Array(10);
  let i = Math.max(0, lane.upTo(first)), hasDied;
  for (let x = 0; x < wide; x++) {
    const a = first + x / px, b = Math.min(first + (x + 1) / px, total + 1);
    if (a > loaded) return;
    share.fill(0);
    [i, hasDied] = addShares(share, lane, i, a, b);
    let y = top + high;
    for (const [state, colour] of inks) {
      const part = high * share[state] / (b - a);
      if (!part) continue;
      y -= part;
      pen.fillStyle = colour;
      pen.fillRect(x, y, 1, part);
    }
    if (!hasDied) continue;
    pen.fillStyle = red;
    pen.fillRect(x - 1, top - 3, 3, high + 6);
  }
}
let shownShares = "";  // what the canvas shows now, so that it is drawn again only if that has changed
function drawDense(wide) {
  const canvas = $("dense");
  canvas.hidden = $("shares").hidden = px >= DENSE;
  const asked = [first, px, wide, devicePixelRatio, loaded, isDark()].join();
  if (canvas.hidden || asked === shownShares) return;
  shownShares = asked;
  const pen = penOf(canvas, wide, TALL), inks = SHARES.map(([state, name]) => [state, ink(name)]);
  for (let slot = 0; slot < N; slot++) drawShares(pen, slot, wide, inks, ink("--death"));
}
