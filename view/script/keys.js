// Keys and clicks, and the start.

const KEYS = {
  j: () => move(1),
  k: () => move(-1),
  ArrowDown: () => move(1),
  ArrowUp: () => move(-1),
  PageDown: () => move(Math.floor(list.clientHeight / rowHeight) - 1),
  PageUp: () => move(1 - Math.floor(list.clientHeight / rowHeight)),
  g: () => move(-rows.length),
  Home: () => move(-rows.length),
  G: () => move(rows.length),
  End: () => move(rows.length),
  n: () => moveToProblem(1),
  p: () => moveToProblem(-1),
  Enter: () => {
    const next = rows[selected]?.filter(Boolean).map(followed).find(Boolean);
    if (next) follow(placeOf(next));
  },
  "+": () => zoomAtSelected(0.5),
  "-": () => zoomAtSelected(2),
  0: () => showRows(0, rows.length),
  "/": () => {
    byId("filters").open = true;
    byId("text").select();
    byId("text").focus();
  },
  "?": () => byId("help").showModal(),
  Escape: () => byId("filter").reset(),
};

const OF_THE_LIST = new Set(["ArrowDown", "ArrowUp", "PageDown", "PageUp", "Home", "End", "Enter"]);

function press(event) {
  if (event.ctrlKey || event.metaKey || event.altKey || byId("help").open) return;
  const isText = event.target === byId("text");
  if (isText && (event.key === "Escape" || event.key === "Enter")) {
    event.preventDefault();
    filter();
    list.focus();
    return;
  }
  // keys that an element in focus takes by itself stay its own
  const isElsewhere = event.target !== list && event.target !== document.body;
  if (isText || !Object.hasOwn(KEYS, event.key) || (isElsewhere && OF_THE_LIST.has(event.key))) return;
  event.preventDefault();
  KEYS[event.key]();
}

const COLUMNS = {
  number: "item",
  offset: "offset",
  type: "type",
  index: "cmd",
  text: "says",
  link: "joined",
  size: "size",
};
const PAIR_COLUMNS = { "side-0": "recorded", mark: "", "side-1": "replayed" };

/** The widths of the columns that hold numbers, and of the lines next to the list. */
function setWidths() {
  const longest = (values) => Math.max(0, ...values).toLocaleString("en").length;
  const style = document.querySelector("main").style;
  style.setProperty("--first", `${longest(journals.map(({ items }) => items.length)) + 5}ch`);
  style.setProperty("--last", `${Math.max(7, longest(about.journals.map(({ bytes }) => bytes)) + 3)}ch`);
  style.setProperty("--gutter", `${lanes.length > 0 ? lanes.length * LANE_WIDTH + 4 : 0}px`);
}

function start() {
  drawTop();
  drawCounts();
  if (matchMedia("(max-width: 60rem)").matches) byId("filters").open = false;
  for (const [name, text] of Object.entries(isPair ? PAIR_COLUMNS : COLUMNS)) {
    byId("columns").append(element("span", name, text));
  }
  setWidths();
  drawLegend();
  measure();
  filter();
  let timer = 0;
  byId("text").addEventListener("input", () => {
    clearTimeout(timer);
    timer = setTimeout(filter, 120);
  });
  byId("filter").addEventListener("change", filter);
  byId("filter").addEventListener("submit", (event) => event.preventDefault());
  // the fields are emptied after the event
  byId("filter").addEventListener("reset", () => {
    byId("filter").querySelectorAll("input").forEach((input) => {
      input.checked = false;
      if (input.type === "search") input.value = "";
    });
    filter();
  });
  byId("help-button").addEventListener("click", KEYS["?"]);
  list.addEventListener("scroll", () => paint(), { passive: true });
  list.addEventListener("click", ({ target }) => {
    const link = target.closest("[data-place]");
    const row = target.closest("[data-row]");
    if (link) follow(link.dataset.place);
    else if (row) select(Number(row.dataset.row));
  });
  byId("detail").addEventListener("click", (event) => {
    const link = event.target.closest("a");
    if (!link || event.ctrlKey || event.metaKey || event.shiftKey) return;
    event.preventDefault();
    follow(link.hash.slice(1));
  });
  listenToStrip();
  addEventListener("keydown", press);
  addEventListener("hashchange", goToAddress);
  addEventListener("resize", () => {
    measure();
    drawStrip();
  });
  addEventListener("beforeprint", () => paint(true));
  // on the next frame, since Firefox lays the page out for paper until then
  addEventListener("afterprint", () => requestAnimationFrame(() => paint()));
  if (!goToAddress()) go(Math.max(0, difference));
  list.focus({ preventScroll: true });
  document.body.dataset.ready = "true";
}

start();
