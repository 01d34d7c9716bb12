// The script of a page of a run: see the README beside this folder. It reads the data part once, draws what is in
// view, and writes text only by textContent: nothing of the data can become markup.

const $ = id => document.getElementById(id);

// ---- the data
// The first line is for the run, the last one for how it ends, and each line between them is a record's row; below the
// rows there may be lines for ranges of positions of a sweep.
// A row is parsed once while the page is read, for what is drawn of all records; what the panels show of one
// record is parsed again when it is asked for. So the memory of a page is the text and some bytes a record.

const State = {
  READY: 0, OUT: 1, DOOMED: 2, SENDING: 3, CALLING: 4, RECEIVING: 5, AWAITING: 6, EXITED: 7, KILLED: 8, FAULTED: 9
};
const STATE_WORDS = [
  "ready", "out", "doomed", "sending", "calling", "receiving", "awaiting", "down exit", "down kill", "down fault"
];
const EventKind = {TAKE: 0, BACK: 1, LINE: 2, TICK: 3, KILL: 4, RESPAWN: 5};
const EVENT_WORDS = ["take", "back", "line", "tick", "kill", "respawn"];
const ArrowKind = {MESSAGE: 0, NOTIFICATION: 1, WAITING: 2};
// A record's flags.
const DEATH = 1, RESPAWN = 2, WRONG = 4, CONSOLE = 8, MESSAGE = 16, PENDING = 32;
const ANY = 31438, SLOT_BITS = 1023;
const SOURCES = {HARDWARE: -1, SYSTEM: -2, CLOCK: -3};

const isDown = state => state >= State.EXITED;
const isOut = state => state === State.OUT || state === State.DOOMED;
const slotOf = endpoint => endpoint & SLOT_BITS;

// How many of count rising numbers, at(0), at(1), .., are not above x: the place behind the last of them.
function countUpTo(count, at, x) {
  let low = 0, high = count;
  while (low < high) {
    const middle = (low + high) >> 1;
    if (at(middle) <= x) low = middle + 1;
    else high = middle;
  }
  return low;
}

// A list of rows of numbers, by their first one, which rises: 4 bytes a number, and room for twice as many.
class Rows {
  constructor(wide) {
    this.wide = wide;
    this.length = 0;
    this.numbers = new Int32Array(wide * 64);
  }
  push(...row) {
    const from = this.length * this.wide;
    if (from + this.wide > this.numbers.length) {
      const more = new Int32Array(this.numbers.length * 2);
      more.set(this.numbers);
      this.numbers = more;
    }
    this.numbers.set(row, from);
    this.length++;
  }
  at(i, column) { return this.numbers[i * this.wide + column]; }
  row(i) { return this.numbers.subarray(i * this.wide, (i + 1) * this.wide); }
  // The last row whose first number is not above x, or -1.
  upTo(x) { return countUpTo(this.length, i => this.at(i, 0), x) - 1; }
}

// The states of a service: a row for each record that changed one, the first for the state before all.
class Lane extends Rows {
  constructor() { super(6); }
  change(i) {
    const [record, endpoint, state, partner, level, ticks] = this.row(i);
    return {record, endpoint, state, partner, level, ticks};
  }
  // The state after record k.
  after(k) { return this.change(this.upTo(k)); }
  // Whether rows i and j look alike in a lane.
  isAlike(i, j) { return [1, 2, 3].every(column => this.at(i, column) === this.at(j, column)); }
}

// Words, each once, by a number from 1 on. 0 is no word.
class Words {
  constructor() {
    this.words = [""];
    this.numbers = new Map();
  }
  number(word) {
    if (!this.numbers.has(word)) this.numbers.set(word, this.words.push(word) - 1);
    return this.numbers.get(word);
  }
  word(number) { return this.words[number]; }
}

const text = $("data").textContent;
const firstRow = text.indexOf("\n") + 1, lastLine = text.lastIndexOf("\n", text.length - 2) + 1;
const head = JSON.parse(text.slice(0, firstRow)), tail = JSON.parse(text.slice(lastLine));
// Where the rows end: between them and the last line stands a line for each range of a sweep, if the page has one.
let rowsEnd = lastLine;
for (let above = lineAbove(rowsEnd); text.startsWith('{"same"', above); above = lineAbove(above)) rowsEnd = above;
function lineAbove(at) { return text.lastIndexOf("\n", at - 2) + 1; }
// How many records come before the first row, how many there are with these, and how many services.
const base = head.first, total = base + tail.records, N = head.services.length;

const starts = new Uint32Array(total + 2);  // where the row of record k begins in the text
const flags = new Uint8Array(total + 2), events = new Uint8Array(total + 2);
const subjects = new Int8Array(total + 2).fill(-1);  // the slot that a record is about
const labels = new Uint16Array(total + 2), labelWords = new Words();  // of a return, what it did
const arrows = new Rows(5);  // record, kind, slot of the sender or -1, slot of the receiver, type
const bytes = new Rows(2);   // record, byte for the console
const queueChanges = new Rows(1), waitChanges = new Rows(1);
const lanes = head.start.map(state => {
  const lane = new Lane();
  lane.push(base, ...state.slice(1, 6));
  return lane;
});
queueChanges.push(base);
waitChanges.push(base);
let loaded = base, readTo = firstRow;  // up to which record, and up to where in the text, rows were read

// What a process did before it came back, by the record's own line: the word of its trap or kernel call, in
// brackets if it was killed before that was done; or how its steps ended.
function deedOf(line) {
  const [what, ...more] = line.slice(line.indexOf(": ") + 2).split(", ");
  const [, , ended, ...call] = what.split(" ");
  if (ended !== "trap") return [ended, ...call].join(" ");
  const isDoomed = more.at(-1) === "doomed", asked = isDoomed ? more.slice(0, -1) : more;
  const word = asked.length ? asked[0].split(" ", 1)[0] : call[0];
  return isDoomed ? `(${word})` : word;
}

// Notes a service's change of state, and returns what it shows: a death, a new process.
function noteChange(k, [slot, ...state]) {
  const lane = lanes[slot], before = lane.change(lane.length - 1);
  lane.push(k, ...state.slice(0, 5));
  const after = lane.change(lane.length - 1);
  return (isDown(after.state) && !isDown(before.state) ? DEATH : 0) |
      (after.endpoint !== before.endpoint ? RESPAWN : 0);
}

function noteRow(k, row) {
  events[k] = row.e;
  if (row.s !== undefined) subjects[k] = row.s;
  if (row.e === EventKind.BACK) labels[k] = labelWords.number(deedOf(row.t.split("\n", 1)[0]));
  let shown = row.x ? WRONG : 0;
  for (const change of row.c || []) shown |= noteChange(k, change);
  for (const [kind, from, to, type] of row.d || []) {
    shown |= kind === ArrowKind.WAITING ? PENDING : MESSAGE;
    arrows.push(k, kind, from, to, type);
  }
  if (row.q) queueChanges.push(k);
  if (row.w) waitChanges.push(k);
  if (row.b !== undefined) {
    shown |= CONSOLE;
    bytes.push(k, row.b);
  }
  flags[k] = shown;
}

// Reads rows for at most so many milliseconds. Returns whether all are read.
function load(limit) {
  const until = performance.now() + limit;
  while (readTo < rowsEnd) {
    const end = text.indexOf("\n", readTo), k = ++loaded;
    starts[k] = readTo;
    noteRow(k, JSON.parse(text.slice(readTo, end)));
    starts[k + 1] = readTo = end + 1;
    if (k % 256 === 0 && performance.now() > until) return false;
  }
  return true;
}

const rowOf = k => JSON.parse(text.slice(starts[k], starts[k + 1]));
const ownLine = k => traceOf(k).split("\n", 1)[0];
function traceOf(k) {
  if (k === base) return base ? "after record " + base : "boot";
  return k > loaded ? "" : rowOf(k).t;
}

// ---- in words
const sourceName = number => Object.keys(SOURCES).find(name => SOURCES[name] === number);
const nameOf = slot => sourceName(slot) || (head.services[slot] ? head.services[slot].name : "slot " + slot);
const partnerName = endpoint =>
    endpoint === ANY ? "any" : sourceName(endpoint) || nameOf(slotOf(endpoint)) + " " + endpoint;
function doing({state, partner}) {
  switch (state) {
    case State.OUT:
    case State.DOOMED: return STATE_WORDS[state] + " on processor " + partner;
    case State.FAULTED: return STATE_WORDS[state] + " " + partner;
    case State.SENDING: return "sending to " + partnerName(partner);
    case State.RECEIVING: return "receiving from " + partnerName(partner);
    case State.CALLING:
    case State.AWAITING: return STATE_WORDS[state] + " " + partnerName(partner);
    default: return STATE_WORDS[state];
  }
}
// Whether a process waits for one other process.
const waitsForOne = ({state, partner}) => state === State.SENDING || state === State.CALLING ||
    state === State.AWAITING || state === State.RECEIVING && partner !== ANY && partner >= 0;
