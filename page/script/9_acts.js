// ---- what a person does

// Selects record k, or the nearest that is read; keepsView leaves what is in view as it is.
function select(k, keepsView) {
  selected = Math.min(Math.max(base, k | 0), loaded);
  const room = width / px;
  if (!keepsView && selected < first + 0.1 * room) first = selected - 0.3 * room;
  else if (!keepsView && selected > first + 0.9 * room) first = selected - 0.7 * room;
  history.replaceState(null, "", "#" + selected);
  paint();
}
// Makes columns larger; what is at x stays where it is, or else the selected record, if it is in view.
function zoom(factor, x) {
  const middle = middleOf(selected), isInView = middle >= 0 && middle <= width;
  const anchor = x ?? (isInView ? middle : width / 2), k = first + anchor / px;
  px = Math.min(WIDEST, Math.max(Math.min(1, width / (total - base + 1)), px * factor));
  first = k - anchor / px;
  paint(false);
}
function show(columns, from) {
  px = columns;
  first = from();
  paint(false);
}
function say(words) { $("found").textContent = words; }

// The next record for which a test holds, on or back; what there is none of is said.
function goTo(step, test, what) {
  for (let k = selected + step; k > base && k <= loaded; k += step)
    if (test(k)) return select(k);
  say(step > 0 ? `no further ${what} there` : `no ${what} above there`);
}
const goToFlag = (step, flag, what) => goTo(step, k => flags[k] & flag, what);
const isOfFocus = k => focus < 0 || subjects[k] === focus || lanes[focus].at(lanes[focus].upTo(k), 0) === k;
const screenful = () => Math.max(1, Math.floor(width / px * 0.8));

// The next message of the pair of the arrow at the selected record, else of the one before it.
function goToPair(step) {
  const i = arrows.upTo(selected);
  if (!arrows.length || i < 0 && step < 0) return say("no message there");
  if (i < 0) return select(arrows.at(0, 0));
  const [record, , a, b] = arrows.row(i), those = nameOf(a) + " and " + nameOf(b);
  if (record !== selected && step < 0) return select(record);
  for (let j = i + step; j >= 0 && j < arrows.length; j += step) {
    const [k, , from, to] = arrows.row(j);
    if (k === selected || !(from === a && to === b || from === b && to === a)) continue;
    say(those);
    return select(k);
  }
  say("no further message of " + those);
}
function chooseLane(slot) {
  focus = Math.min(N - 1, Math.max(-1, slot));
  say(focus < 0 ? "all services" : "service " + nameOf(focus));
  paint(false);
}
function goToBlock() {
  const next = blocks.find(block => block.from > selected);
  if (next) select(next.from);
  else if (strip) say("no further block there");
}
function startSearch() {
  $("query").focus();
  $("query").select();
}

// Each act by its name: a key for it, what the help says, and what is done. A button names its act by data-do.
const ACTS = {
  before: ["ArrowLeft", "record before", () => select(selected - 1)],
  after: ["ArrowRight", "next record", () => select(selected + 1)],
  pageback: ["PageUp", "a screen back", () => select(selected - screenful())],
  pagenext: ["PageDown", "a screen on", () => select(selected + screenful())],
  first: ["Home", "before the first record", () => select(base)],
  last: ["End", "the last record", () => select(loaded)],
  laneup: ["ArrowUp", "service above (or all)", () => chooseLane(focus - 1)],
  lanedown: ["ArrowDown", "service below", () => chooseLane(focus + 1)],
  ownnext: [".", "next record of the chosen service", () => goTo(1, isOfFocus, "record of it")],
  ownback: [",", "record before of it", () => goTo(-1, isOfFocus, "record of it")],
  pairnext: ["n", "next message of this pair", () => goToPair(1)],
  pairback: ["p", "message before of this pair", () => goToPair(-1)],
  death: ["d", "next death", () => goToFlag(1, DEATH, "death")],
  deathback: ["D", "death before", () => goToFlag(-1, DEATH, "death")],
  error: ["e", "next error", () => goToFlag(1, WRONG, "error")],
  errorback: ["E", "error before", () => goToFlag(-1, WRONG, "error")],
  console: ["c", "next console byte", () => goToFlag(1, CONSOLE, "console byte")],
  consoleback: ["C", "console byte before", () => goToFlag(-1, CONSOLE, "console byte")],
  block: ["b", "next block of the sweep", goToBlock],
  in: ["+", "larger", () => zoom(1.5)],
  out: ["-", "smaller", () => zoom(1 / 1.5)],
  fit: ["0", "the whole run", () => show(width / (total - base + 1), () => base)],
  read: ["1", "readable size", () => show(READABLE, () => selected - width / px / 2)],
  search: ["/", "search", startSearch],
  help: ["?", "this help", () => $("help").showModal()]
};
const act = name => ACTS[name][2]();
const goInList = step => listed() ? goToHit(step) : select(selected + step);

function onKey(event) {
  const at = event.target, isTyping = at.matches("input:not([type=range]):not([type=checkbox]), textarea");
  if (event.key === "Escape" && isTyping) return $("stage").focus();
  if (event.ctrlKey || event.altKey || event.metaKey || isTyping || $("help").open) return;
  if (event.key.length === 1 && !$("single").checked) return;
  if (at.matches("button") && (event.key === " " || event.key === "Enter")) return;
  if (at.id === "console" && /^(Arrow(Up|Down)|Page|Home|End)/.test(event.key)) return;
  const inList = at.id === "list" && {ArrowUp: -1, ArrowDown: 1}[event.key];
  const found = Object.keys(ACTS).find(name => ACTS[name][0] === event.key);
  if (!inList && !found) return;
  event.preventDefault();
  if (inList) goInList(inList);
  else act(found);
}
addEventListener("keydown", onKey);
addEventListener("click", event => {
  const button = event.target.closest("[data-do]");
  if (button) act(button.dataset.do);
});
addEventListener("resize", () => paint(false));
addEventListener("hashchange", () => select(Number(location.hash.slice(1)) || base));
matchMedia("(prefers-color-scheme: dark)").addEventListener("change", () => paint(false));
$("theme").addEventListener("click", () => {
  document.documentElement.dataset.theme = isDark() ? "light" : "dark";
  paint(false);
});

$("search").addEventListener("submit", event => {
  event.preventDefault();
  goToHit(1);
});
$("hitback").addEventListener("click", () => goToHit(-1));
$("query").addEventListener("keydown", event => {
  if (event.key !== "Enter" || !event.shiftKey) return;
  event.preventDefault();
  goToHit(-1);
});
$("onlyhits").addEventListener("change", () => {
  search();
  $("list").scrollTop = 0;
  showList(true);
});
for (const [id, kind] of [["slider", "input"], ["number", "change"]])
  $(id).addEventListener(kind, event => select(Number(event.target.value)));
$("list").addEventListener("scroll", () => showList(false));
$("list").addEventListener("click", event => {
  const row = event.target.closest(".row");
  if (row) select(Number(row.dataset.k));
});
$("names").addEventListener("click", event => {
  const row = event.target.closest("[data-slot]");
  if (row) chooseLane(focus === Number(row.dataset.slot) ? -1 : Number(row.dataset.slot));
});

$("overview").addEventListener("pointerdown", event => {
  $("overview").setPointerCapture(event.pointerId);
  select(recordInOverview(event.offsetX));
});
$("overview").addEventListener("pointermove", event => {
  if (event.buttons) select(recordInOverview(event.offsetX));
});
// On the lanes a pointer that moves takes the view with it, and one that doesn't selects a record.
let drag = null;
const xInStage = event => event.clientX - $("stage").getBoundingClientRect().left;
$("stage").addEventListener("pointerdown", event => { drag = {x: event.clientX, first, hasMoved: false}; });
$("stage").addEventListener("pointermove", event => {
  if (!drag || !event.buttons) return;
  drag.hasMoved ||= Math.abs(event.clientX - drag.x) > 4;
  if (!drag.hasMoved) return;
  first = drag.first - (event.clientX - drag.x) / px;
  paint(false);
});
addEventListener("pointerup", event => {
  if (drag && !drag.hasMoved && $("stage").contains(event.target))
    select(Math.floor(first + xInStage(event) / px), true);
  drag = null;
});
$("stage").addEventListener("wheel", event => {
  event.preventDefault();
  if (event.ctrlKey || event.metaKey) return zoom(Math.exp(-event.deltaY / 300), xInStage(event));
  first += (event.deltaX || event.deltaY) / px;
  paint(false);
}, {passive: false});
