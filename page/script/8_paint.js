// ---- painting: at most once a frame

let asked = null;  // what the next frame paints: {isFollowing}, or nothing
function paint(isFollowing = true) {
  const isFirst = !asked;
  asked = {isFollowing: isFollowing || asked !== null && asked.isFollowing};
  if (isFirst) requestAnimationFrame(() => {
    const now = asked;
    asked = null;
    paintNow(now.isFollowing);
  });
}
// With isFollowing the list of records goes to the selected one.
function paintNow(isFollowing) {
  const picture = $("picture");
  width = $("stage").clientWidth;
  first = Math.min(Math.max(base, first), Math.max(base, total + 1 - width / px));
  picture.setAttribute("height", TALL);
  picture.setAttribute("viewBox", `0 0 ${width} ${TALL}`);
  drawDense(width);
  draw(picture, Math.floor(first), Math.min(loaded, Math.ceil(first + width / px)), width, false);
  names();
  overview();
  panels();
  showList(isFollowing);
  tellPlace();
}
// The selected record in the fields, and for a screen reader.
function tellPlace() {
  const stage = $("stage"), slider = $("slider"), last = Math.min(total, Math.ceil(first + width / px));
  for (const it of [slider, $("number")]) Object.assign(it, {min: base, max: total, value: selected});
  const words = selected > base ? "record " + ownLine(selected) : "before the first record";
  slider.setAttribute("aria-valuetext", words);
  stage.setAttribute("aria-valuetext", words);
  stage.setAttribute("aria-valuemin", base);
  stage.setAttribute("aria-valuemax", total);
  stage.setAttribute("aria-valuenow", selected);
  stage.setAttribute("aria-label", `Lanes of ${N} services, records ${Math.floor(first)} to ${last}`);
  $("said").textContent = traceOf(selected).replace(/\n\d+ {3}/g, ". ");
}
