// The lines next to the list of one journal, each from a command to its completion.

const LANES = 6; // lines side by side; what needs more has none
const LANE_WIDTH = 7;

/**
 * The spans of rows from a command to what completes it, in lanes: those of a lane are in order and share no row. An
 * inner span ends earlier, so it is placed earlier, in a lane nearer to the rows.
 */
function spansInLanes() {
  const lanes = Array.from({ length: LANES }, () => []);
  for (const item of journals[0].items) {
    for (const { key, role } of item.parts) {
      const [command] = role === "completes" ? threadOf(item, key).requests : [];
      if (!command || command.number >= item.number) continue;
      lanes.find((spans) => !(spans.at(-1)?.to >= command.number))?.push({ from: command.number, to: item.number });
    }
  }
  return lanes.filter((spans) => spans.length > 0);
}

const lanes = isPair ? [] : spansInLanes();

/** The place of the first span that ends at a row or after it. */
function firstSpanTo(spans, row) {
  let [low, high] = [0, spans.length];
  while (low < high) {
    const middle = (low + high) >> 1;
    if (spans[middle].to < row) low = middle + 1;
    else high = middle;
  }
  return low;
}

/** The line of a span, or null where the filter hides an end of it. */
function spanNode({ from, to }, lane) {
  if (!isIn(from) || !isIn(to)) return null;
  const node = element("div", "span");
  node.classList.toggle("selected", from === selected || to === selected);
  node.style.left = `${(lanes.length - 1 - lane) * LANE_WIDTH + 4}px`;
  node.style.width = `${(lane + 1) * LANE_WIDTH}px`;
  node.style.top = `${(positions[from] + 0.5) * rowHeight - shift}px`;
  node.style.height = `${(positions[to] - positions[from]) * rowHeight}px`;
  return node;
}

/** Draws the spans that have a row between these two. */
function paintSpans(firstRow, lastRow) {
  const nodes = lanes.flatMap((spans, lane) => {
    const found = [];
    for (let place = firstSpanTo(spans, firstRow); spans[place]?.from <= lastRow; place++) {
      found.push(spanNode(spans[place], lane));
    }
    return found.filter(Boolean);
  });
  byId("spans").replaceChildren(...nodes);
}
