// The list, in which only the rows in sight are elements, and the selected row.

const list = byId("list");
const canvas = byId("rows");
const painted = new Map();
let shown = [...rows.keys()];
// where each row is among those that are shown, or -1
let positions = Int32Array.from(shown);
let selected = 0;
let rowHeight = 30;

const TALLEST = 8_000_000; // pixels of the list: of more a browser places rows inexactly, and at last none
// how far rows are moved up: of a list that would be taller rows go by faster than it is scrolled
let shift = 0;

/** How high all rows are, and how much of that is scrolled for a pixel of the list. */
function heights() {
  const rowsHeight = shown.length * rowHeight;
  const height = Math.min(rowsHeight, TALLEST);
  const room = height - list.clientHeight;
  return { height, pace: room > 0 ? (rowsHeight - list.clientHeight) / room : 1 };
}

const isIn = (place) => positions[place] >= 0;

function linkNode(item) {
  const text = linkText(item);
  const follow = text && followed(item);
  const node = element("span", `link${text.includes("open") ? " open" : ""}`, text);
  if (follow) node.dataset.place = placeOf(follow);
  return node;
}

function typeNode(item) {
  const name = element("span", "", breakable(typeOf(item)));
  return element("span", `type ${item.direction}`, element("span", "dot"), name);
}

function singleCells([item]) {
  return [
    element("span", "number", item.direction === "rest" ? "" : `#${item.number}`),
    element("span", "offset", `@ ${number(item.dump.offset)}`),
    typeNode(item),
    element("span", "index", item.command === null ? "" : `cmd ${number(item.command)}`),
    element("span", "text", pieceNodes(item)),
    linkNode(item),
    element("span", "size", shortSize(item.size)),
  ];
}

const ABSENT = { removed: "not in the replay", inserted: "not recorded", beyond: "past the items of this page" };

function pairCell(item, kind) {
  if (!item) return element("span", "cell absent", ABSENT[kind] ?? "—");
  const place = element("span", "number", item.direction === "rest" ? "" : `#${item.number}`);
  return element("span", "cell",
    element("span", "line", typeNode(item), linkNode(item), place, element("span", "size", shortSize(item.size))),
    element("span", "text", pieceNodes(item)));
}

// how two commands belong together: a sign, and what it means
const SIGNS = {
  same: ["=", "the same"],
  ids: ["≈", "the same but for ids"],
  changed: ["≠", "changed"],
  replaced: ["≠", "another type"],
  removed: ["−", "removed"],
  inserted: ["+", "inserted"],
  unseen: ["?", "of one type, without payloads"],
  beyond: ["·", "not compared"],
};

/** The mark between two commands: how they belong together, and their indices. */
function markOf(place) {
  const kind = kindOfRow(place);
  if (!kind) return element("span", "mark");
  const [sign, meaning] = SIGNS[kind];
  const indices = new Set(itemsOf(place).map(({ command }) => number(command)));
  const mark = element("span", "mark", element("b", "", sign), element("small", "", [...indices].join("|")));
  mark.title = meaning;
  return mark;
}

function rowNode(place) {
  const row = rows[place];
  const kind = kindOfRow(place);
  const cells = attempt(
    () => (isPair ? [pairCell(row[0], kind), markOf(place), pairCell(row[1], kind)] : singleCells(row)),
    () => [
      element("span", "type", itemsOf(place).map(typeOf).join(", ")),
      element("span", "text", "cannot be laid out"),
    ]);
  const node = element("div", "row", cells);
  node.id = `row-${place}`;
  node.dataset.row = place;
  node.setAttribute("role", "option");
  if (kind) node.classList.add(kind);
  node.classList.toggle("difference", DIFFERENCES.has(kind));
  node.classList.toggle("problem", itemsOf(place).some(isProblem));
  return node;
}

/** The items that the selected ones are joined to. */
function relatedItems() {
  const related = new Set();
  for (const item of itemsOf(selected)) {
    for (const { key } of item.parts) {
      for (const others of Object.values(threadOf(item, key))) others.forEach((other) => related.add(other));
    }
  }
  return related;
}

/** Makes the rows that are in sight, and drops all others; with `all` those that fit on paper. */
function paint(all = false) {
  const { height, pace } = heights();
  const top = list.scrollTop * pace;
  shift = top - list.scrollTop;
  const first = all ? 0 : Math.max(0, Math.floor(top / rowHeight) - 10);
  const last = all ? PRINTED : first + Math.ceil(list.clientHeight / rowHeight) + 20;
  canvas.style.height = `${height}px`;
  const wanted = new Set(shown.slice(first, last));
  // the selected row is what a screen reader is at
  if (isIn(selected)) wanted.add(selected);
  for (const [place, node] of painted) {
    if (wanted.has(place)) continue;
    node.remove();
    painted.delete(place);
  }
  const related = shown.length > 0 ? relatedItems() : new Set();
  for (const place of wanted) {
    if (!painted.has(place)) painted.set(place, rowNode(place));
    const node = painted.get(place);
    const position = positions[place];
    // the selected row may be far below those in sight, and the list ends where it does
    node.style.top = `${Math.min(position * rowHeight - shift, height - rowHeight)}px`;
    node.setAttribute("aria-selected", place === selected);
    node.setAttribute("aria-posinset", position + 1);
    node.setAttribute("aria-setsize", shown.length);
    node.classList.toggle("related", place !== selected && itemsOf(place).some((item) => related.has(item)));
  }
  paintSpans(shown[first] ?? 0, shown[Math.min(last, shown.length) - 1] ?? -1);
  // in order, for a reader of the document
  if (canvas.childElementCount !== painted.size || all) {
    const places = [...painted.keys()].sort((one, other) => positions[one] - positions[other]);
    for (const place of places) canvas.append(painted.get(place));
  }
  list.setAttribute("aria-activedescendant", shown.length > 0 ? `row-${selected}` : "");
}

function measure() {
  rowHeight = parseFloat(getComputedStyle(list).getPropertyValue("--row")) || rowHeight;
  paint();
}

/** Scrolls a row into sight: to the middle of the list, or by as little as it takes. */
function reveal(place, toMiddle) {
  const top = positions[place] * rowHeight;
  const height = list.clientHeight;
  const { pace } = heights();
  const least = Math.max(Math.min(list.scrollTop * pace, top), top + rowHeight - height);
  list.scrollTop = (toMiddle ? top - height / 2 + rowHeight / 2 : least) / pace;
}

/** Selects a row, shows its items, and scrolls to it. What cannot be laid out is shown as it is. */
function select(place, toMiddle = false) {
  if (!isIn(place)) return;
  selected = place;
  reveal(place, toMiddle);
  paint();
  fill(byId("detail"), attempt(() => detailOf(place), (error) => failedDetail(place, error)));
  keepInStrip();
  drawStrip();
  keepPlace();
}

/** Selects the row that is a number of rows away. */
function move(by) {
  if (shown.length === 0) return;
  const position = Math.min(shown.length - 1, Math.max(0, positions[selected] + by));
  select(shown[position]);
}

/** Selects the next or the previous problem, or difference, from the other end where there is none. */
function moveToProblem(by) {
  if (problems.length === 0) return;
  const next = by > 0 ? problems.find((place) => place > selected) : problems.findLast((place) => place < selected);
  go(next ?? problems.at(by > 0 ? 0 : -1));
}

/** Selects a row, also where the filter hides it. */
function go(place) {
  if (!isIn(place)) byId("filter").reset();
  select(place, true);
}

const placeOf = (item) => `${SIDES[item.side]}-${item.number}`;

/** The item of a place in the page, as item-12, or undefined. */
function itemAt(name) {
  const [, word, digits] = name.match(/^(\w+)-(\d+)$/) ?? [];
  const side = SIDES.indexOf(word);
  return journals[side]?.items[Number(digits) - about.journals[side].firstItem];
}
