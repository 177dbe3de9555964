// The address: it follows the selected item and the filter, so that a copy of it leads here.

const KEPT_AFTER = 300; // milliseconds, since browsers slow down a page that changes its address often

const BOXES = ["direction", "state", "type"];

/** What comes after the page's own address: #item-12, and what is filtered after a question mark. */
function addressNow() {
  const words = new URLSearchParams();
  if (byId("text").value) words.set("filter", byId("text").value);
  for (const name of BOXES) for (const value of checkedValues(name)) words.append(name, value);
  const [item] = rows.length > 0 ? itemsOf(selected) : [];
  const query = words.toString();
  return `#${item ? placeOf(item) : ""}${query ? `?${query}` : ""}`;
}

let keeping = 0;

/** Puts the selected item and the filter into the address. */
function keepPlaceNow() {
  clearTimeout(keeping);
  // a page that is shown within another may not
  attempt(() => history.replaceState(null, "", addressNow()), () => null);
}

/** The same, a little later. */
function keepPlace() {
  clearTimeout(keeping);
  keeping = setTimeout(keepPlaceNow, KEPT_AFTER);
}

// an address that someone goes to stays: what was to be kept is of the item that was selected before
addEventListener("popstate", () => clearTimeout(keeping));

/** Filters as an address says, where it says something. */
function filterByAddress(query) {
  const words = new URLSearchParams(query);
  byId("text").value = words.get("filter") ?? "";
  for (const box of document.querySelectorAll("#filter input[type=checkbox]")) {
    box.checked = words.getAll(box.name).includes(box.value);
  }
  filter();
}

/** Goes where the address leads; false where that is nowhere. */
function goToAddress() {
  const [place, query] = location.hash.slice(1).split("?");
  if (query !== undefined) filterByAddress(query);
  const item = itemAt(place);
  if (item) go(rowOf.get(item));
  return item !== undefined;
}

/** Follows a link to an item, as a step that the browser's button takes back. */
function follow(place) {
  keepPlaceNow();
  const [, query] = location.hash.split("?");
  location.hash = query === undefined ? place : `${place}?${query}`;
}
