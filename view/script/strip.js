// The strip above the list: all rows of the journals in order, a lane for each journal, with arcs from commands to
// their completions. A click goes to a row; the wheel and buttons zoom.

const strip = byId("strip");
const LANE = 14; // pixels
const ARCS = 24; // pixels above the first lane, and below the second
const EDGE = 4; // pixels at each end
const MOST_ARCS = 1500; // that are drawn: the longest
const LEAST_ARC = 3; // pixels; a shorter one is not seen
const LEAST_ROWS = 8; // that fill the strip
const DRAG = 4; // pixels from which on a press is no click

// What a lane has at a row, the more important the higher; and the colors, by the names of page.css.
const CODES = {
  other: 1, notification: 2, command: 3, same: 4, ids: 5, beyond: 6, unseen: 6, removed: 7, inserted: 7, changed: 8,
  replaced: 8, problem: 9,
};
const COLORS = [
  "", "--core", "--notification", "--command", "--good", "--custom", "--rest", "--moved", "--bad", "--bad",
];
// next to another journal the colors are of how commands belong together
if (isPair) COLORS.fill("--low", CODES.other, CODES.command);

function codeOf(item, kind) {
  if (!item) return 0;
  if (!isPair && isProblem(item)) return CODES.problem;
  if (item.command !== null) return CODES[kind ?? "command"];
  return CODES[item.direction] ?? CODES.other;
}

/** The codes of each lane by rows. */
const laneCodes = journals.map((_, side) => Uint8Array.from(rows, (row, place) => codeOf(row[side], kindOfRow(place))));

/** The rows of each command and its completion, one after the other, of each journal. */
const arcRows = journals.map(({ items }) => {
  const found = [];
  for (const item of items) {
    for (const { key, role } of item.parts) {
      const [command] = role === "completes" ? threadOf(item, key).requests : [];
      if (command && rowOf.get(command) < rowOf.get(item)) found.push(rowOf.get(command), rowOf.get(item));
    }
  }
  return Int32Array.from(found);
});

// the rows that are in sight in the strip: from the first up to another, which may be parts of rows
const view = { from: 0, to: Math.max(1, rows.length) };
let isDrawing = false;
// the width between the edges, which is asked of the page once for a drawing
let laneWidth = 1;

const laneTop = (side) => ARCS + side * (LANE + 2);
const stripHeight = laneTop(journals.length - 1) + LANE + (isPair ? ARCS : 4);
const placeToX = (place) => EDGE + ((place - view.from) * laneWidth) / (view.to - view.from);
const xToPlace = (x) => view.from + ((x - EDGE) * (view.to - view.from)) / laneWidth;

/** Draws the strip, at the next frame. */
function drawStrip() {
  if (isDrawing) return;
  isDrawing = true;
  requestAnimationFrame(() => {
    isDrawing = false;
    drawNow();
  });
}

function drawNow() {
  const ratio = devicePixelRatio || 1;
  const width = strip.clientWidth;
  if (width === 0) return;
  laneWidth = Math.max(1, width - 2 * EDGE);
  strip.width = Math.round(width * ratio);
  strip.height = Math.round(stripHeight * ratio);
  const context = strip.getContext("2d");
  context.scale(ratio, ratio);
  const style = getComputedStyle(strip);
  const colors = COLORS.map((name) => name && style.getPropertyValue(name));
  const isFiltered = shown.length < rows.length;
  journals.forEach((_, side) => {
    drawLane(context, side, colors, isFiltered);
    drawArcs(context, side, style);
  });
  drawSelected(context, style);
}

/** Calls this for each column of pixels, or each row where these are wider: its left and right side, and its rows. */
function eachColumn(act) {
  const scale = (view.to - view.from) / laneWidth;
  if (scale <= 1) {
    for (let place = Math.floor(view.from); place < view.to; place++) {
      const width = 1 / scale;
      act(placeToX(place), width > 4 ? width - 1 : width, place, place + 1);
    }
    return;
  }
  for (let x = EDGE; x < EDGE + laneWidth; x++) {
    const first = Math.floor(xToPlace(x));
    act(x, 1, first, Math.max(first + 1, Math.floor(xToPlace(x + 1))));
  }
}

/** The place of the most important row of a lane between two places; of those that are equal the first. */
function topPlace(codes, first, end) {
  let top = first;
  for (let place = first; place < Math.min(end, codes.length); place++) if (codes[place] > codes[top]) top = place;
  return top;
}

/** Draws a lane: commands are high, other items low, and where a lane has no command of a pair there is a gap. */
function drawLane(context, side, colors, isFiltered) {
  const top = laneTop(side);
  const codes = laneCodes[side];
  eachColumn((x, width, first, end) => {
    const code = codes[topPlace(codes, first, end)];
    if (!code) return;
    const isHigh = code >= CODES.command;
    context.globalAlpha = isFiltered && !hasShown(first, end) ? 0.2 : 1;
    context.fillStyle = colors[code];
    context.fillRect(x, isHigh ? top : top + LANE / 2, width, isHigh ? LANE : LANE / 2);
  });
  context.globalAlpha = 1;
}

function hasShown(first, end) {
  for (let place = first; place < Math.min(end, rows.length); place++) if (isIn(place)) return true;
  return false;
}

/** Draws the arcs of a journal, above its lane or below it; those of the selected items in another color. */
function drawArcs(context, side, style) {
  const found = [];
  const known = new Set();
  const ends = arcRows[side];
  for (let place = 0; place < ends.length; place += 2) {
    if (ends[place + 1] < view.from || ends[place] > view.to) continue;
    const [from, to] = [placeToX(ends[place] + 0.5), placeToX(ends[place + 1] + 0.5)];
    const isSelected = ends[place] === selected || ends[place + 1] === selected;
    const key = Math.round(from) * 100_000 + Math.round(to);
    if (!isSelected && (to - from < LEAST_ARC || known.has(key))) continue;
    known.add(key);
    found.push({ from, to, isSelected });
  }
  found.sort((one, other) => other.to - other.from - (one.to - one.from));
  const drawn = [
    ...found.slice(0, MOST_ARCS).filter((arc) => !arc.isSelected),
    ...found.filter((arc) => arc.isSelected),
  ];
  const edge = side === 0 ? laneTop(0) - 1 : laneTop(side) + LANE + 1;
  for (const { from, to, isSelected } of drawn) {
    const height = Math.min(ARCS - 3, 3 + (to - from) / 4) * (side === 0 ? -1 : 1);
    context.beginPath();
    context.moveTo(from, edge);
    context.bezierCurveTo(from, edge + 1.3 * height, to, edge + 1.3 * height, to, edge);
    context.strokeStyle = style.getPropertyValue(isSelected ? "--focus" : "--notification");
    context.globalAlpha = isSelected ? 1 : 0.4;
    context.lineWidth = isSelected ? 2 : 1;
    context.stroke();
  }
  context.globalAlpha = 1;
}

function drawSelected(context, style) {
  if (rows.length === 0) return;
  const [left, right] = [placeToX(selected), placeToX(selected + 1)];
  const [width, middle] = [Math.max(2, right - left), (left + right) / 2];
  context.strokeStyle = context.fillStyle = style.getPropertyValue("--focus");
  context.lineWidth = 2;
  const height = laneTop(journals.length - 1) + LANE - laneTop(0);
  context.strokeRect(middle - width / 2 - 1, laneTop(0) - 2, width + 2, height + 4);
}

/** Shows these rows in the strip: as many as there may be, and none before the first or after the last. */
function showRows(from, to) {
  const amount = Math.min(Math.max(1, rows.length), Math.max(to - from, Math.min(LEAST_ROWS, rows.length)));
  view.from = Math.max(0, Math.min((from + to - amount) / 2, rows.length - amount));
  view.to = view.from + amount;
  byId("whole").disabled = byId("farther").disabled = amount >= rows.length;
  drawStrip();
}

/** Zooms in or out by a factor, so that the row at this place stays where it is. */
function zoom(factor, place = selected) {
  const part = (place - view.from) / (view.to - view.from);
  const amount = Math.min(rows.length, Math.max(LEAST_ROWS, (view.to - view.from) * factor));
  const from = place - part * amount;
  showRows(from, from + amount);
}

/** Zooms at the selected row, which is in the middle then where it was not in sight. */
function zoomAtSelected(factor) {
  const half = (view.to - view.from) / 2;
  if (selected < view.from || selected > view.to) showRows(selected - half, selected + half);
  zoom(factor, selected + 0.5);
}

/** Moves the strip so that the selected row is in it. */
function keepInStrip() {
  const amount = view.to - view.from;
  if (selected < view.from || selected + 1 > view.to) showRows(selected - amount / 2, selected + amount / 2);
}

/** The row at a place of the pointer: of those of a column of pixels the most important one. */
function rowAt(event) {
  const x = event.clientX - strip.getBoundingClientRect().left;
  const first = Math.max(0, Math.min(rows.length - 1, Math.floor(xToPlace(x))));
  const end = Math.max(first + 1, Math.min(rows.length, Math.floor(xToPlace(x + 1))));
  const tops = laneCodes.map((codes) => topPlace(codes, first, end));
  return tops.reduce((best, place, side) => (laneCodes[side][place] > laneCodes[0][best] ? place : best));
}

/** What the strip says of a row. */
function stripText(place) {
  const kind = kindOfRow(place);
  const [item] = itemsOf(place);
  const index = item.command === null ? `#${number(item.number)}` : `command ${number(item.command)}`;
  const pieces = attempt(() => piecesOf(item).map(pieceText).join(" · "), () => "");
  const moved = kind && kind !== "same" ? SIGNS[kind][1] : "";
  return [index, typeOf(item), pieces.slice(0, 80), moved].filter(Boolean).join(", ");
}

function listenToStrip() {
  let press = null;
  strip.addEventListener("pointerdown", (event) => {
    press = { x: event.clientX, from: view.from, to: view.to, isDrag: false };
    strip.setPointerCapture(event.pointerId);
  });
  strip.addEventListener("pointermove", (event) => {
    if (rows.length === 0) return;
    fill(byId("strip-says"), visible(stripText(rowAt(event)), HIDDEN_IN_ROW));
    if (!press) return;
    press.isDrag ||= Math.abs(event.clientX - press.x) > DRAG;
    const by = ((press.x - event.clientX) * (press.to - press.from)) / laneWidth;
    if (press.isDrag) showRows(press.from + by, press.to + by);
  });
  strip.addEventListener("pointerup", (event) => {
    if (press && !press.isDrag && rows.length > 0) go(rowAt(event));
    press = null;
    list.focus({ preventScroll: true });
  });
  strip.addEventListener("pointercancel", () => { press = null; });
  strip.addEventListener("wheel", (event) => {
    event.preventDefault();
    const amount = view.to - view.from;
    const isPan = event.shiftKey || Math.abs(event.deltaX) > Math.abs(event.deltaY);
    const by = ((event.deltaX || event.deltaY) * amount) / laneWidth;
    if (isPan) showRows(view.from + by, view.to + by);
    else zoom(1.002 ** event.deltaY, xToPlace(event.clientX - strip.getBoundingClientRect().left));
  }, { passive: false });
  byId("nearer").addEventListener("click", KEYS["+"]);
  byId("farther").addEventListener("click", KEYS["-"]);
  byId("whole").addEventListener("click", KEYS["0"]);
  matchMedia("(prefers-color-scheme: dark)").addEventListener("change", drawStrip);
}

/** What is in the strip, in words: how many commands belong together in which way. */
function drawLegend() {
  strip.style.height = `${stripHeight}px`;
  const kinds = Map.groupBy(alignment.steps, ({ kind }) => kind);
  const parts = Object.keys(SIGNS).filter((kind) => kinds.has(kind)).map((kind) => {
    const [sign, meaning] = SIGNS[kind];
    return [element("span", `kind ${kind}`, element("b", "", sign), ` ${number(kinds.get(kind).length)} ${meaning}`)];
  });
  fill(byId("legend"), parts);
  const what = isPair ? byId("legend").textContent : counted(rows.length, "row");
  strip.setAttribute("aria-label", `Overview of all rows in order: ${what}`);
  showRows(0, rows.length);
}
