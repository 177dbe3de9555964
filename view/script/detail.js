// What is shown of the selected row.

function linkTo(item, text) {
  const link = element("a", "", text ?? `#${item.number} ${typeOf(item)}`);
  link.href = `#${placeOf(item)}`;
  return link;
}

const joined = (nodes) => nodes.flatMap((node, place) => (place === 0 ? [node] : [", ", node]));

const ROLES = {
  requests: "requested by",
  proposes: "proposed by",
  acknowledges: "acknowledged by",
  completes: "completed by",
  awaits: "awaited by",
};

const isCut = about.journals.some(({ shown: first, items }) => first < items);
const NOT_COMPLETED = `not completed in ${isCut ? "the items of this page" : "this journal"}`;

/** What became of a key: who requested it, who completed it, who awaits it. */
function threadNodes(thread, item) {
  const sentences = Object.entries(ROLES).flatMap(([role, text]) => {
    const others = thread[role].filter((other) => other !== item);
    if (others.length === 0) return [];
    const more = others.length > 8 ? [` and ${number(others.length - 8)} more`] : [];
    return [element("span", "role", `${text} `, joined(others.slice(0, 8).map((other) => linkTo(other))), more)];
  });
  if (thread.completes.length === 0) sentences.push(element("span", "role open", NOT_COMPLETED));
  return sentences;
}

/** What an item is joined to by its ids. */
function joinedNode(item) {
  const parts = item.parts.filter(({ role }) => role !== "awaits");
  if (parts.length === 0) return null;
  return element("ul", "joined", parts.map(({ key }) =>
    element("li", "", element("b", "", visible(keyText(key))), threadNodes(threadOf(item, key), item))));
}

const AWAITED = 1000; // what is shown of a tree of futures at most
const LEVELS = 8; // of a tree that are indented; further ones say which they are

/** A future, or those that are each the one thing that the one above awaits: the last, their number, their forms. */
function innermost(future) {
  const forms = new Set();
  for (let amount = 1; ; amount++) {
    if (future.combinatorType !== undefined) forms.add(future.combinatorType);
    const [inner, ...others] = future.nestedFutures ?? [];
    if (!inner || others.length > 0 || awaitedBy(future).length > 0) return { last: future, amount, forms: [...forms] };
    future = inner;
  }
}

/** The tree of what a future awaits, as far as there is room. */
function futureNode(outer, item, room = { left: AWAITED }, level = 1) {
  const { last: future, amount, forms } = innermost(outer);
  let more = 0;
  const nodes = (list, nodeOf) => list.flatMap((one) => {
    if (room.left-- > 0) return [nodeOf(one)];
    more++;
    return [];
  });
  const leaves = nodes(awaitedBy(future), (key) => {
    const thread = threadOf(item, key);
    const [command] = thread.requests;
    const [completion] = thread.completes;
    return element("li", completion ? "" : "open", element("b", "", visible(keyText(key))),
      command ? [" of ", linkTo(command)] : null,
      completion ? [", completed by ", linkTo(completion)] : ", open");
  });
  const nested = nodes(future.nestedFutures ?? [], (inner) =>
    element("li", "", futureNode(inner, item, room, level + amount)));
  const combinator = forms.length === 0 ? "" : `, combinator ${forms.join(", ")}`;
  const depth = amount > 1 ? `, of levels ${level} to ${level + amount - 1}` : level > LEVELS ? `, level ${level}` : "";
  const list = element("ul", level > LEVELS ? "flat" : "", leaves, nested,
    more > 0 ? element("li", "form", `and ${number(more)} more`) : null);
  return element("div", "future", element("span", "form", `future${amount > 1 ? "s" : ""}${combinator}${depth}`), list);
}

/** What is known of an item from its header. */
function factsOf(item) {
  const { dump } = item;
  const code = dump.code === undefined ? null : `0x${dump.code.toString(16).padStart(4, "0").toUpperCase()}`;
  return [
    ["type", element("span", "", typeNode(item), code ? element("span", "form", ` ${code}`) : null)],
    ["place", element("span", "", item.direction === "rest" ? "after the last item" : `item ${number(item.number)}`,
      item.command === null ? null : `, command ${number(item.command)}`)],
    ["bytes", element("span", "", `${number(item.size)} from offset ${number(dump.offset)}`)],
    ...(dump.requestedAck ? [["flag", element("span", "", "an acknowledgement is requested")]] : []),
  ];
}

/** The values of an item by their paths. */
const valuesByPath = (item) => new Map(item ? itemValues(item).map((value) => [value.path, value]) : []);

function tableRow(label, cells, className = "", note = "") {
  const head = element("th", "", label, note ? element("small", "", note) : null);
  head.scope = "row";
  return element("tr", className, head, cells.map((cell) => element("td", "", cell ?? element("span", "form", "—"))));
}

const hasTwoTypes = (row) => row.every(Boolean) && new Set(row.map(typeOf)).size === 2;

/** How two values of a path are laid out, and the parts in which they differ. */
function layoutsOf(pair, differs) {
  const layouts = pair.map((value) => value && layoutOf(value));
  if (!differs || !layouts.every(Boolean)) return layouts;
  const trees = layouts.map(({ tree }) => tree);
  const marks = trees.every(Boolean) ? treeMarks(trees) : null;
  if (marks?.size > 0) return layouts.map((layout) => ({ ...layout, marks }));
  // JSON that differs only in its blanks, or in the order of members, is shown as it is
  const [one, other] = trees.some(Boolean) ? pair.map((value) => layoutOf(value, true)) : layouts;
  const parts = differingParts(one.text, other.text);
  return [{ ...one, part: parts[0] }, { ...other, part: parts[1] }];
}

const FIELDS = 300; // of a message that are shown at first, and further ones at a time

/** The fields of the messages of a row: those that differ between two of one type first. */
function fieldsOfRow(row) {
  const isComparable = isPair && row.every((item) => item && !lacksPayload(item)) && !hasTwoTypes(row);
  const values = row.map(valuesByPath);
  const paths = [...new Set(values.flatMap((one) => [...one.keys()]))];
  const textOf = (value) => value && JSON.stringify([value.value, value.cut?.sha256]);
  const fields = paths.map((path) => {
    const pair = values.map((one) => one.get(path));
    const isCompared = pair.every((value) => value?.compared !== false);
    return { path, pair, isCompared, differs: isComparable && textOf(pair[0]) !== textOf(pair[1]) };
  });
  return [true, false].map((differs) => fields.filter((field) => field.differs === differs));
}

/** The row of a field; a field that differs is marked. */
function fieldRow({ path, pair, isCompared, differs }, row) {
  const note = differs ? (isCompared ? "differs" : "differs, not compared") : "";
  const layouts = layoutsOf(pair, differs);
  const nodes = pair.map((value, side) => value && valueNode(value, row[side], layouts[side]));
  return tableRow(breakable(path.replace(/\.content$/, "")), nodes, differs && isCompared ? "differs" : "", note);
}

/** The rows of fields as a part of the table; those that are too many come when they are wanted. */
function fieldRows(fields, row) {
  const body = element("tbody", "", fields.slice(0, FIELDS).map((field) => fieldRow(field, row)));
  let made = FIELDS;
  if (fields.length <= made) return body;
  const button = buttonNode("more", () => {
    const next = fields.slice(made, made + FIELDS);
    made += next.length;
    last.before(...next.map((field) => fieldRow(field, row)));
    label();
  });
  const last = element("tr", "", Object.assign(element("td", "", button), { colSpan: 3 }));
  const label = () => {
    const rest = number(fields.length - made);
    button.textContent = `Show more: of ${counted(fields.length, "field")} ${rest} are not shown`;
    last.hidden = made >= fields.length;
  };
  label();
  body.append(last);
  return body;
}

function factRows(row) {
  const facts = row.map((item) => new Map(item ? factsOf(item) : []));
  const labels = new Set(facts.flatMap((one) => [...one.keys()]));
  return [...labels].map((label) => {
    const nodes = facts.map((one) => one.get(label) ?? null);
    return tableRow(label, nodes, label === "type" && hasTwoTypes(row) ? "differs" : "");
  });
}

/** What is wrong with a payload, where something is. */
function noteOf(item) {
  const { dump } = item;
  if (dump.malformed) return element("p", "failure", "The payload is not well-formed: these are its bytes.");
  if (lacksPayload(item)) return element("p", "", "The dump has no payloads.");
  return dump.leftOut ? element("p", "", "The payload is too long for this page.") : null;
}

const columnHead = (name) => Object.assign(element("th", "", name), { scope: "col" });
const sidesHead = () => element("thead", "", element("tr", "", element("td"), SIDES.map(columnHead)));

/** What is shown of a row: its items side by side. */
function detailOf(place) {
  const row = rows[place];
  const failures = row.map((item) => item?.failure && element("p", "failure", visible(failureText(item.failure))));
  const joins = row.map((item) => item && joinedNode(item));
  const notes = row.map((item) => item && noteOf(item));
  const [differing, others] = fieldsOfRow(row);
  const table = element("table", isPair ? "pair" : "single",
    isPair ? sidesHead() : null,
    fieldRows(differing, row),
    element("tbody", "",
      factRows(row),
      failures.some(Boolean) ? tableRow("failure", failures) : null,
      notes.some(Boolean) ? tableRow("note", notes) : null,
      joins.some(Boolean) ? tableRow("joined", joins) : null),
    fieldRows(others, row));
  return element("div", "", titleNode(row), table, stateNode(place), linesNode(row));
}

/** The lines of journal dump of a row, each with a button that copies it. */
function linesNode(row) {
  const summary = element("summary", "", `The line of journal dump${about.schema === undefined ? "" : " --schema"}`);
  const details = element("details", "", summary);
  details.addEventListener("toggle", () => {
    if (details.childElementCount > 1) return;
    const lines = row.filter(Boolean).map((item) =>
      element("div", "payload", copyButton("line", () => item.line), foldedNode(indented(item.line), "json")));
    for (const line of lines) details.append(line);
  });
  return details;
}

function titleNode(row) {
  const [item] = row.filter(Boolean);
  const isCommand = isPair && item.command !== null;
  const text = !isPair || !isCommand ? typeOf(item) : `Command ${commandNumbers(row)}`;
  const copies = row.filter(Boolean).map((one) => {
    const whole = one.dump.cut || one.dump.leftOut ? "shortened line" : "line";
    return copyButton(`copy the ${isPair ? `${SIDES[one.side]} ` : ""}${whole}`, () => one.line);
  });
  return element("h2", "", text, " ", copies);
}

/** The indices of the commands of a row, once where they are one. */
function commandNumbers(row) {
  const [one, other] = row.map((item) => item && number(item.command));
  if (!one || !other) return `${one ?? other} ${one ? "of the recorded journal" : "of the replayed journal"}`;
  return one === other ? one : `${one} of the recorded journal, ${other} of the replayed one`;
}

/** What is shown of a row that cannot be laid out: why, and its lines as they are. */
function failedDetail(place, error) {
  const lines = itemsOf(place).map((item) => foldedNode(item.line, "text"));
  return element("div", "", element("h2", "", itemsOf(place).map(typeOf).join(", ")),
    element("p", "failure", `This item cannot be laid out (${error}). It is, as journal dump prints it:`), lines);
}
