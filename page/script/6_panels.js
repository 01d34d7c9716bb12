// ---- the names beside the lanes, and the panels: all about the state after the selected record

function nameRow(service, slot) {
  const state = lanes[slot].after(selected);
  const made = tall("div", "lane" + (slot === focus ? " focus" : ""), LANE);
  made.dataset.slot = slot;
  made.append(html("b", "", service.name), " ", String(state.endpoint), html("small", "", doing(state)));
  const {endpoint, level, ticks} = state;
  made.title = `${service.name} ${endpoint}: ${doing(state)}, level ${level}, ${ticks} ticks left`;
  return made;
}
function names() {
  const small = words => html("small", "", words);
  $("names").replaceChildren(
      tall("div", "", NUMBERS, small("record")), ...(strip ? [tall("div", "", strip, small("sweep"))] : []),
      tall("div", "", OUTSIDE, small("outside")), ...head.services.map(nameRow),
      tall("div", "lane", CONSOLE_LANE, small("console")));
}

// A record's own line in a sentence, from the row's numbers.
function sentenceOf(k) {
  if (k === base)
    return base ? `The page begins after record ${base}.` : "The machine has booted: all services are ready.";
  const row = rowOf(k), who = row.s === undefined ? "" : nameOf(row.s);
  const actor = row.a < head.cpus ? "Processor " + row.a : "Actor " + row.a;
  switch (row.e) {
    case EventKind.TAKE: return `${actor} takes ${who}, which may make ${row.n} steps.`;
    case EventKind.BACK: return `${actor} gives ${who} back after ${row.n} steps.`;
    case EventKind.LINE: return `An interrupt comes at line ${row.n}, which is ${who}'s.`;
    case EventKind.TICK: return `The clock ticks: uptime ${row.n}.`;
    case EventKind.KILL: return `${who} is killed from outside.`;
    default: return `${who} is started again, as a new process.`;
  }
}
const BAD_LINE = /result -|answer -|down (kill|fault)|: no process may|is past the/;
function showDeed(k) {
  $("gloss").textContent = sentenceOf(k);
  for (const it of document.querySelectorAll(".k")) it.textContent = k;
  $("did").replaceChildren(...traceOf(k).split("\n").map((line, i) => {
    const cls = (i ? "rest" : "first") + (BAD_LINE.test(line) ? " bad" : "");
    return html("p", cls, i ? line.replace(/^\d+ {3}/, "") : line);
  }));
}

function showProcesses(k) {
  const changes = k > base ? rowOf(k).c || [] : [], changed = new Set(changes.map(([slot]) => slot));
  $("processes").tBodies[0].replaceChildren(...head.services.map((service, slot) => {
    const state = lanes[slot].after(k), row = html("tr", changed.has(slot) ? "changed" : "");
    const name = html("th", "", service.name);
    name.scope = "row";
    row.append(html("td", "", slot), name);
    for (const it of [state.endpoint, doing(state), state.level, state.ticks]) row.append(html("td", "", it));
    return row;
  }));
}

// Who waits for whom, up to one who waits for nobody in particular.
function chainFrom(slot, k) {
  const seen = new Set(), parts = [];
  for (;;) {
    const state = lanes[slot].after(k), name = nameOf(slot) + " " + state.endpoint;
    if (seen.has(slot)) return [...parts, name + " (a ring)"];
    if (!waitsForOne(state)) return [...parts, `${name} (${doing(state)})`];
    seen.add(slot);
    parts.push(name + " " + STATE_WORDS[state.state]);
    slot = slotOf(state.partner);
  }
}
function readyLine(queue, k) {
  if (!queue.length) return "Nobody is ready.";
  const levels = new Map();
  for (const slot of queue) {
    const {level} = lanes[slot].after(k);
    levels.set(level, [...levels.get(level) || [], nameOf(slot)]);
  }
  const parts = [...levels].map(([level, those]) => `${those.join(", ")} (level ${level})`);
  return "Ready, the next one first: " + parts.join("; ");
}
function showQueues(k) {
  const queueAt = queueChanges.at(queueChanges.upTo(k), 0), waitAt = waitChanges.at(waitChanges.upTo(k), 0);
  const queue = queueAt > base ? rowOf(queueAt).q : head.queue, wait = waitAt > base ? rowOf(waitAt).w : head.wait;
  const lines = [html("p", "", readyLine(queue, k))];
  if (wait.length) {
    const parts = wait.map(slot => nameOf(slot) + " to " + partnerName(lanes[slot].after(k).partner));
    lines.push(html("p", "", "Wait to send, in order: " + parts.join(", ")));
  }
  const waiting = head.services.map((_, slot) => slot).filter(slot => waitsForOne(lanes[slot].after(k)));
  if (waiting.length) {
    const list = html("ul");
    list.append(...waiting.map(slot => html("li", "", chainFrom(slot, k).join(" \u2192 "))));
    lines.push(html("p", "", "Who waits for whom:"), list);
  } else lines.push(html("p", "", "Nobody waits for one other process."));
  $("queues").replaceChildren(...lines);
}

// The last 4,096 bytes; what has no character is shown by its number, and a byte of this record is marked.
const LAST_BYTES = 4096;
function consoleByte(byte, isNew) {
  const isPlain = byte === 10 || byte === 32 || isPrintable(byte);
  if (isPlain && !isNew) return String.fromCharCode(byte);
  const shown = byte === 10 ? "\u23ce\n" : isPlain ? String.fromCharCode(byte) :
                                                     "\\x" + byte.toString(16).padStart(2, "0");
  return html("span", (isNew ? "new" : "") + (isPlain ? "" : " odd"), shown);
}
function showConsole(k) {
  const box = $("console"), last = bytes.upTo(k), parts = [];
  for (let i = Math.max(0, last - LAST_BYTES + 1); i <= last; i++)
    parts.push(consoleByte(bytes.at(i, 1), bytes.at(i, 0) === k));
  if (last < 0) parts.push(html("span", "small", base ? "nothing since record " + base : "nothing yet"));
  box.replaceChildren(...parts);
  box.normalize();
  box.scrollTop = box.scrollHeight;
}

function panels() {
  showDeed(selected);
  showProcesses(selected);
  showQueues(selected);
  showConsole(selected);
  if (strip) showSweep();
}

// ---- the list of records, of which only the rows in view exist
// A browser has no box higher than some 30 million pixels: beyond MOST the list is scaled.
const LINE = 20, MOST = 8e6;
const listed = () => $("onlyhits").checked && hits ? hits : null;

function listRow(k, i, count, top) {
  const made = html("div", "row" + (hitSet && hitSet.has(k) ? " hit" : ""), k <= loaded ? ownLine(k) : "");
  made.style.top = top + "px";
  made.id = "r" + k;
  made.dataset.k = k;
  made.setAttribute("role", "option");
  made.setAttribute("aria-selected", k === selected);
  made.setAttribute("aria-setsize", count);
  made.setAttribute("aria-posinset", i + 1);
  return made;
}
function showList(isFollowing) {
  const box = $("list"), only = listed(), count = only ? only.length : total - base;
  const high = Math.min(MOST, count * LINE), scale = Math.max(1, count * LINE / MOST);
  $("spacer").style.height = high + "px";
  if (isFollowing) {
    const i = only ? Math.max(0, countUpTo(count, j => only[j], selected) - 1) : selected - base - 1;
    const y = i * LINE / scale;
    if (y < box.scrollTop || y > box.scrollTop + box.clientHeight - LINE)
      box.scrollTop = Math.max(0, y - box.clientHeight / 2);
  }
  const from = Math.max(0, Math.floor(box.scrollTop * scale / LINE)), rows = [];
  for (let i = from; i < Math.min(count, from + Math.ceil(box.clientHeight / LINE) + 1); i++) {
    const top = scale === 1 ? i * LINE : box.scrollTop + (i - from) * LINE;
    rows.push(listRow(only ? only[i] : base + i + 1, i, count, top));
  }
  for (const row of box.querySelectorAll(".row")) row.remove();
  box.append(...rows);
  if ($("r" + selected)) box.setAttribute("aria-activedescendant", "r" + selected);
  else box.removeAttribute("aria-activedescendant");
}
