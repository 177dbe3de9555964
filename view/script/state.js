// The state after an item: what the journal's own commands leave of it, from what its start has on.

const STATE_ROWS = 200; // keys that are shown

/** What an item does to the state: entries of a key and its value, null where cleared; `all` clears the others. */
function stateChange(item) {
  const { type, message } = item.dump;
  if (message === undefined) return null;
  const { key = "" } = message;
  switch (type) {
    case "Start":
      return { entries: (message.stateMap ?? []).map((entry) => [entry.key ?? "", entry.value ?? ""]) };
    case "SetStateCommand":
      return { entries: [[key, message.value?.content ?? ""]] };
    case "ClearStateCommand":
      return { entries: [[key, null]] };
    case "ClearAllStateCommand":
      return { entries: [], isAll: true };
    default:
      return null;
  }
}

const changesOf = journals.map(() => null);
// `set` has the keys with a value, so that a key is cleared no more often than it is set
const noState = () => ({ next: 0, state: new Map(), set: new Set() });
const statesAt = journals.map(noState);

/** The state after an item of a number: a map from keys to a value and the item that left it. */
function stateAfter(side, number) {
  changesOf[side] ??= journals[side].items
    .map((item) => ({ item, change: stateChange(item) }))
    .filter(({ change }) => change);
  const changes = changesOf[side];
  // from what was made last, if that is not later
  if (changes[statesAt[side].next - 1]?.item.number > number) statesAt[side] = noState();
  const at = statesAt[side];
  for (; changes[at.next]?.item.number <= number; at.next++) {
    const { item, change } = changes[at.next];
    const cleared = change.isAll ? Array.from(at.set, (key) => [key, null]) : [];
    for (const [key, value] of [...cleared, ...change.entries]) {
      at.state.set(key, { value, item });
      if (value === null) at.set.delete(key);
      else at.set.add(key);
    }
  }
  return at.state;
}

/** The last item of a journal that is in a row, or in one before it. */
function itemUpTo(place, side) {
  for (let row = place; row >= 0; row--) if (rows[row][side]) return rows[row][side];
  return null;
}

/** What is known of a key in a state. */
function stateCell(entry) {
  if (!entry) return element("span", "form", "—");
  const { value, item } = entry;
  const shown = value === null ? element("span", "form", "cleared") : element("span", "text", inRow(preview(value)));
  return element("span", "", shown, " ", linkTo(item, `#${item.number}`));
}

/** The table of the state after a row, side by side. */
function stateTable(place) {
  const states = journals.map((_, side) => {
    const item = itemUpTo(place, side);
    return item ? stateAfter(side, item.number) : new Map();
  });
  const keys = [...new Set(states.flatMap((state) => [...state.keys()]))];
  const isLater = about.journals.some(({ firstItem }) => firstItem > 0);
  const note = isLater ? element("p", "form", "What was done before the first item that is shown is not known.") : null;
  if (keys.length === 0) return note ?? element("p", "form", "No state is known here.");
  const differs = (key) => isPair && states[0].get(key)?.value !== states[1].get(key)?.value;
  const sorted = isPair ? [...keys.filter(differs), ...keys.filter((key) => !differs(key))] : keys;
  const lines = sorted.slice(0, STATE_ROWS).map((key) => tableRow(
    inRow(preview(key)), states.map((state) => stateCell(state.get(key))), differs(key) ? "differs" : ""));
  const rest = number(keys.length - STATE_ROWS);
  const more = keys.length > STATE_ROWS ? element("p", "form", `and ${rest} more keys`) : null;
  return element("div", "", note, element("table", isPair ? "pair" : "single", isPair ? sidesHead() : null,
    element("tbody", "", lines)), more);
}

let isStateOpen = false;

/** The state after a row, which is made where it is unfolded. */
function stateNode(place) {
  const body = element("div");
  const details = element("details", "state", element("summary", "", "State after this item"), body);
  const draw = () => fill(body, details.open ? stateTable(place) : []);
  details.open = isStateOpen;
  draw();
  details.addEventListener("toggle", () => {
    isStateOpen = details.open;
    draw();
  });
  return details;
}
