// The filter, and the counts that are its boxes.

/** The values of the boxes of this name that are checked. */
function checkedValues(name) {
  const boxes = document.querySelectorAll(`input[name=${name}]:checked`);
  return new Set(Array.from(boxes, ({ value }) => value));
}

/** Shows the rows of which an item has every word and is of a checked direction and type, where some are checked. */
function filter() {
  const words = wordsOf(byId("text").value);
  const wrong = words.find((word) => word.wrong)?.wrong;
  const [directions, states, types] = ["direction", "state", "type"].map(checkedValues);
  const isShown = (item) =>
    (directions.size === 0 || directions.has(item.direction)) &&
    (types.size === 0 || types.has(groupOf(item))) &&
    [...states].every((state) => STATES[state](item)) &&
    words.every(({ test, isWithout }) => !test || test(item) !== isWithout);
  const isFiltered = words.length + directions.size + states.size + types.size > 0;
  shown = [...rows.keys()];
  if (isFiltered) shown = shown.filter((place) => itemsOf(place).some(isShown));
  positions = new Int32Array(rows.length).fill(-1);
  shown.forEach((place, position) => { positions[place] = position; });
  const matches = (isFiltered ? `${number(shown.length)} of ` : "") + counted(rows.length, "row");
  byId("matches").textContent = wrong ?? matches;
  byId("matches").classList.toggle("failure", wrong !== undefined);
  list.classList.toggle("empty", shown.length === 0);
  drawStrip();
  keepPlace();
  if (shown.length === 0) {
    paint();
    return;
  }
  const nearest = isIn(selected) ? selected : (shown.find((place) => place > selected) ?? shown.at(-1));
  select(nearest);
}

/** A bar for each journal, as long as its part of the most bytes that a type has. */
function barNode(amounts, most) {
  const svg = document.createElementNS("http://www.w3.org/2000/svg", "svg");
  svg.setAttribute("viewBox", `0 0 100 ${amounts.length * 3}`);
  svg.setAttribute("preserveAspectRatio", "none");
  svg.setAttribute("aria-hidden", "true");
  amounts.forEach((amount, side) => {
    const bar = document.createElementNS(svg.namespaceURI, "rect");
    const parts = { y: side * 3, height: 2, width: (100 * amount) / most, class: `side-${side}` };
    Object.entries(parts).forEach(([name, value]) => bar.setAttribute(name, value));
    svg.append(bar);
  });
  return svg;
}

function checkbox(name, value, ...children) {
  const box = Object.assign(document.createElement("input"), { type: "checkbox", name, value });
  return element("label", "", box, children);
}

/** A box for items of a direction or in a state, with how many there are; none where there are none. */
function addBox(name, value, label, amount) {
  if (amount === 0) return;
  const dot = element("span", `dot ${value}`);
  const count = element("span", "amount", number(amount));
  byId("directions").append(checkbox(name, value, dot, element("span", "name", label), count));
}

/** The groups of items of one type, those of the most bytes first. */
function groupsByBytes(items) {
  const groups = [...Map.groupBy(items, groupOf)].map(([name, found]) => {
    const bytes = journals.map((_, side) =>
      found.reduce((sum, item) => sum + (item.side === side ? item.size : 0), 0));
    const total = bytes.reduce((sum, one) => sum + one, 0);
    return { name, direction: found[0].direction, count: found.length, bytes, total };
  });
  return groups.sort((one, other) => other.total - one.total);
}

/** The counts of items by direction, state and type, each of which filters. */
function drawCounts() {
  const items = journals.flatMap((journal) => journal.items);
  for (const [direction, label] of Object.entries(DIRECTIONS)) {
    addBox("direction", direction, label, items.filter((item) => item.direction === direction).length);
  }
  addBox("state", "failure", "Failures", items.filter(STATES.failure).length);
  addBox("state", "malformed", "Malformed", items.filter(STATES.malformed).length);
  addBox("state", "open", "Open: not completed", items.filter(STATES.open).length);
  const groups = groupsByBytes(items);
  const most = Math.max(1, ...groups.flatMap(({ bytes }) => bytes));
  for (const { name, direction, count, bytes, total } of groups) {
    const amount = element("span", "amount", `${number(count)} × · ${shortSize(total)}`);
    const label = checkbox("type", name, element("span", "name", breakable(name)), amount, barNode(bytes, most));
    label.classList.add("bar", direction);
    byId("types").append(label);
  }
}
