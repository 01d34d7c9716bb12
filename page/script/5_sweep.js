// ---- the sweep: a strip of positions, if the page has one
// Position K is the one after record K, and stands in K's column. Each way to end has a letter; a position that
// ends otherwise than without the fault is filled and ticked.

const blocks = readBlocks(), ends = [...new Set(blocks.map(block => block.text))];
// Positions in a row with the same end are a block. Its ranges are of positions that all end as without the fault, or all
// otherwise; a line has one of them, up to the next line's first position.
function readBlocks() {
  const lines = text.slice(rowsEnd, lastLine).split("\n").slice(0, -1).map(line => JSON.parse(line)), made = [];
  lines.forEach(({from, same, t}, i) => {
    if (t !== undefined) made.push({from, text: t, ranges: []});
    const next = i + 1 < lines.length ? lines[i + 1].from : tail.sweep.from + tail.sweep.positions;
    const block = made.at(-1);
    block.to = next - 1;
    block.ranges.push({from, to: block.to, same});
  });
  return made;
}
const endOf = block => ends.indexOf(block.text);
const blockOf = k => blocks.find(block => block.from <= k && k <= block.to);
const letterOf = end => end < 26 ? String.fromCharCode(65 + end) : String(end + 1);

function drawPositions(into, from, until, isSame, end, wide) {
  const x = leftOf(from), width = Math.max(0.5, (until - from) * px), y = NUMBERS;
  into.append(svg("rect", {x, y: y + 2, width, height: 17, class: isSame ? "same" : "other t" + end % 4}));
  if (isSame || px < DENSE) return;
  let path = "";
  for (let at = Math.max(0, x) + 3; at < Math.min(wide, leftOf(until)) - 2; at += 6) path += `M${at} ${y + 19}l4 -4`;
  into.append(svg("path", {d: path, class: "tick"}));
}
function drawBlock(into, block, a, b, wide) {
  const end = endOf(block);
  for (const range of block.ranges) {
    const from = Math.max(range.from, Math.floor(a)), until = Math.floor(Math.min(range.to, b)) + 1;
    if (from < until) drawPositions(into, from, until, range.same, end, wide);
  }
  const left = leftOf(block.from), from = Math.max(0, left), until = leftOf(block.to + 1), y = NUMBERS;
  if (block.from && until - from > 5)
    into.append(svg("line", {x1: left, x2: left, y1: y, y2: y + 21, class: "selline"}));
  if (until - from <= 12) return;
  const x = (from + Math.min(wide, until)) / 2;
  into.append(svg("text", {x, y: y + 14, "text-anchor": "middle", class: "in"}, letterOf(end)));
}
function drawSweep(into, a, b, wide) {
  for (const block of blocks)
    if (block.to >= a - 1 && block.from <= b + 1) drawBlock(into, block, a, b, wide);
}

function rangeOf({from, to}) { return from === to ? "position " + from : "the positions " + from + " to " + to; }
function showSweep() {
  const block = blockOf(selected), box = $("sweep");
  $("sweeppanel").hidden = false;
  if (!block) return box.replaceChildren(html("p", "", "no position here"));
  const range = block.ranges.find(it => selected <= it.to);
  const how = range.same ? "as without the fault." : "OTHERWISE than without the fault.";
  const others = blocks.filter(it => it.text === block.text && it !== block).map(it => it.from + " to " + it.to);
  const alike = blocks.flatMap(it => it.ranges).filter(it => it.same), {fault, positions} = tail.sweep;
  const same = alike.reduce((sum, it) => sum + it.to - it.from + 1, 0);
  const lines = [
    html("p", "", `fault: ${fault}. At position ${selected} (after record ${selected}) it ends ${how}`),
    html("p", "", `End ${letterOf(endOf(block))}, of ${rangeOf(block)}:`),
    html("pre", "", block.text)
  ];
  if (others.length) lines.push(html("p", "small", "The same end at positions " + others.join(", ")));
  lines.push(html("p", "small", `${same} of ${positions} positions end as without the fault.`));
  box.replaceChildren(...lines);
}
