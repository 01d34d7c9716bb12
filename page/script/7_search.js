// ---- search: words that all have to fit; a record is found if it fits each

const KINDS = {death: DEATH, respawn: RESPAWN, error: WRONG, console: CONSOLE, message: MESSAGE, pending: PENDING};
let searched = null, lowered = "";  // the words of the last search; the text up to readTo in small letters

// Which records have a word in their trace: the whole text is looked through, and a row is parsed only where the
// word stands in it, to be sure that it stands in its trace.
function markRecordsWith(word) {
  if (lowered.length !== readTo) lowered = text.slice(0, readTo).toLowerCase();
  const marks = new Uint8Array(loaded + 2), written = JSON.stringify(word).slice(1, -1).replace(/</g, "\\u003c");
  let at = lowered.indexOf(written, firstRow);
  while (at >= 0) {
    const k = base + countUpTo(loaded - base, i => starts[base + 1 + i], at);
    if (traceOf(k).toLowerCase().includes(word)) marks[k] = 1;
    if (k === loaded) break;
    at = lowered.indexOf(written, starts[k + 1]);
  }
  return marks;
}
function hasArrow(k, column, wanted) {
  for (let i = arrows.upTo(k); i >= 0 && arrows.at(i, 0) === k; i--)
    if (arrows.at(i, column) === wanted) return true;
  return false;
}
const isOfKind = word => KINDS[word] ? k => flags[k] & KINDS[word] : k => EVENT_WORDS[events[k]] === word;
function isOfCall(word) {
  const wanted = word.toLowerCase();
  return k => labels[k] && labelWords.word(labels[k]).replace(/[()]/g, "").toLowerCase() === wanted;
}
// What a word of a search asks of a record.
function testOf(word) {
  const [, what, value] = /^(is|from|to|type|service|call):(.+)$/.exec(word) || [];
  const slot = head.services.findIndex(service => service.name === value), place = SOURCES[value] ?? slot;
  switch (what) {
    case "is": return isOfKind(value);
    case "service": return k => slot >= 0 && subjects[k] === slot;
    case "call": return isOfCall(value);
    case "from": return k => hasArrow(k, 2, place);
    case "to": return k => hasArrow(k, 3, place);
    case "type": return k => hasArrow(k, 4, Number(value) | 0);
  }
  const marks = markRecordsWith(word.toLowerCase());
  return k => marks[k] === 1;
}
// The records that were found, or null if no word was given.
function find(query) {
  const tests = query.split(/\s+/).filter(Boolean).map(testOf), found = [];
  if (!tests.length) return null;
  for (let k = base + 1; k <= loaded; k++)
    if (tests.every(test => test(k))) found.push(k);
  return found;
}
function search() {
  const query = $("query").value, began = performance.now();
  if (searched === query) return;
  searched = query;
  hits = find(query);
  hitSet = hits && new Set(hits);
  window.searchTook = performance.now() - began;
}
// To the next hit, or with -1 to the one before; behind the last one comes the first.
function goToHit(step) {
  search();
  if (!hits || !hits.length) {
    say(hits ? "none" : "");
    return paint();
  }
  const count = hits.length, upTo = countUpTo(count, i => hits[i], step > 0 ? selected : selected - 1);
  const i = (step > 0 ? upTo : upTo - 1 + count) % count;
  say(`hit ${i + 1} of ${count}`);
  select(hits[i]);
}
