// ---- paper: what is in view, in strips of forty records, at most 400

const ON_A_STRIP = 40, ON_PAPER = 400, LEFT_OF_STRIP = 120;
function paperStrip(a, to) {
  const wide = ON_A_STRIP * px, named = (y, words) => svg("text", {x: -8, y, "text-anchor": "end"}, words);
  const whole = svg("svg", {viewBox: `${-LEFT_OF_STRIP} 0 ${wide + LEFT_OF_STRIP + 10} ${TALL}`});
  const inner = svg("svg", {x: 0, y: 0, width: wide, height: TALL});
  first = a;
  draw(inner, a, Math.min(a + ON_A_STRIP - 1, to), wide, true);
  whole.append(inner, named(outsideMiddle + 4, "outside"), named(laneTop(N) + 17, "console"));
  head.services.forEach((service, slot) => {
    const {endpoint} = lanes[slot].after(Math.max(base, a - 1));
    whole.append(named(laneMiddle(slot) + 4, `${service.name} ${endpoint}`));
  });
  return whole;
}
addEventListener("beforeprint", () => {
  const view = [px, first], from = Math.max(base, Math.floor(first));
  const to = Math.min(total, from + Math.min(ON_PAPER, Math.ceil(width / px)));
  const parts = [html("p", "", `${head.config}, records ${from} to ${to} of ${total}`)];
  px = READABLE;
  for (let a = from; a < to; a += ON_A_STRIP) parts.push(paperStrip(a, to));
  [px, first] = view;
  $("paper").replaceChildren(...parts);
});
addEventListener("afterprint", () => $("paper").replaceChildren());

// ---- the legend and the help

function legendLine(words, ...shapes) {
  const line = html("li");
  if (shapes.length) {
    const small = svg("svg", {width: 30, height: 22, viewBox: "0 0 30 22"});
    small.append(...shapes);
    line.append(small);
  }
  line.append(words);
  return line;
}
function legendBar([state, words]) {
  const high = isOut(state) ? 18 : barHeight(state), shapes = [];
  shapes.push(svg("rect", {x: 0, y: 11 - high / 2, width: 30, height: high, class: "s" + state}));
  if (state === State.CALLING) shapes.push(svg("rect", {x: 0, y: 11, width: 30, height: 5, class: "s4b"}));
  if (hasStrokes(state)) shapes.push(svg("path", {d: strokes(state, 3, 28, 11), class: "hatch"}));
  if (isOut(state)) shapes.push(svg("text", {x: 15, y: 15, "text-anchor": "middle", class: "in1"}, "0"));
  return legendLine(words, ...shapes);
}
function legendArrow([kind, words]) {
  const isMessage = kind === ArrowKind.MESSAGE;
  return legendLine(
      words, svg("line", {x1: 2, y1: 11, x2: 22, y2: 11, class: isMessage ? "msg" : "msg note"}),
      svg("circle", {cx: 3, cy: 11, r: 3, class: "head"}),
      kind === ArrowKind.WAITING ? svg("circle", {cx: 25, cy: 11, r: 3.5, class: "open"}) :
                                   svg("path", {d: "M20 6L28 11L20 16", class: isMessage ? "head" : "open"}));
}
function legend() {
  const bars = [
    [State.OUT, "out: on that processor"], [State.DOOMED, "out, and killed there"], [State.READY, "ready"],
    [State.SENDING, "sending"], [State.CALLING, "calling"], [State.AWAITING, "awaiting an answer"],
    [State.RECEIVING, "receiving"]
  ];
  const kinds = [
    [ArrowKind.MESSAGE, "message, with its type"], [ArrowKind.NOTIFICATION, "notification"],
    [ArrowKind.WAITING, "notification that waits"]
  ];
  const whole = "on top, the whole run: messages grey, deaths red from the top, respawns green, console bytes " +
      "blue below; what is in view yellow";
  const sweep = "sweep: a letter for each way to end; coloured and ticked: otherwise than without the fault; " +
      "grey: as without";
  const shares = legendLine(
      "zoomed out: of each column, from below: out, ready, sending, calling, awaiting, receiving; red: a death");
  shares.id = "shares";
  $("legend").replaceChildren(
      ...bars.map(legendBar), ...kinds.map(legendArrow),
      legendLine("death", svg("path", {d: "M7 3l16 16M7 19l16 -16", class: "death"})),
      legendLine("respawn, new endpoint", svg("path", {d: "M15 3L23 11L15 19L7 11Z", class: "respawnmark"})),
      legendLine(whole), ...(strip ? [legendLine(sweep)] : []), shares);
}

const SEARCH_HELP = [
  ["Enter", "next hit; with Shift the one before"], ["Escape", "from the field back to the lanes"],
  ["disk", "records whose trace has this word"], ["service:disk", "records about this service"],
  ["from:ann to:disk", "messages and notifications from one to the other"], ["type:3", "messages of this type"],
  ["call:DEVIO", "traps and kernel calls of this name"],
  ["is:error", "also " + [...Object.keys(KINDS), ...EVENT_WORDS.filter(word => !KINDS[word])]
                   .filter(word => word !== "error").map(word => "is:" + word).join(" ")]
];
function helpRow(name, key, words) {
  const row = html("tr"), cell = html("td");
  cell.append(html(name, "", key));
  row.append(cell, html("td", "", words));
  return row;
}
function help() {
  for (const [key, words] of Object.values(ACTS).filter(it => strip || it !== ACTS.block))
    $("keys").tBodies[0].append(helpRow("kbd", key.replace("Arrow", "arrow "), words));
  for (const [query, words] of SEARCH_HELP) $("words").tBodies[0].append(helpRow("code", query, words));
}

// ---- the beginning: what is read in the first moment is shown, and the rest is read in pieces

const FIRST_MOMENT = 60, PIECE = 40;  // milliseconds
function summary() {
  const count = number => number.toLocaleString("en");
  const processors = head.cpus === 1 ? "1 processor" : head.cpus + " processors";
  const parts = [`${N} services, ${processors}, ${count(total - base)} records`];
  if (base) parts.push(` from record ${count(base + 1)} on`);
  if (loaded < total) parts.push(`, ${count(loaded)} read`);
  if (tail.refused) parts.push("; " + tail.refused);
  $("summary").textContent = parts.join("");
}
function begin() {
  const wanted = Number(location.hash.slice(1)) || base, isAll = load(FIRST_MOMENT);
  $("title").textContent = document.title = "Run of " + head.config;
  $("total").textContent = total;
  if (!strip) $("listpanel").classList.add("wide");
  legend();
  help();
  width = $("stage").clientWidth;
  if ((total - base + 1) * px < width) px = Math.min(60, width / (total - base + 1));
  selected = Math.min(Math.max(base, wanted), loaded);
  first = selected - width / px / 2;
  summary();
  paintNow(true);
  window.firstPaint = performance.now();
  readOn(isAll, wanted);
}
function readOn(isAll, wanted) {
  if (!isAll) return setTimeout(() => {
    const isAllNow = load(PIECE);
    summary();
    readOn(isAllNow, wanted);
  });
  window.allRead = performance.now();
  if (wanted > selected) select(wanted);
  summary();
  paint();
}
begin();
