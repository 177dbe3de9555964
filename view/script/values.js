// How a value is shown: bytes as text, as JSON or in hex, a long one folded, and marked where it differs from another.

const CONTEXT = 200; // characters beside what is marked

/** How many bytes, or characters of a text, a value has; of one that is cut also how many are here. */
function sizeText({ kind, cut }, length) {
  const noun = kind === "bytes" ? "byte" : "character";
  if (!cut) return counted(length, noun);
  const whole = kind === "bytes" ? (cut.characters / 4) * 3 - cut.padding : cut.characters;
  return `the first ${number(length)} of ${counted(whole, noun)}`;
}

/** A text, or bytes, as they are laid out; `isRaw` leaves JSON as it is. Null for any other value. */
function layoutOf(value, isRaw = false) {
  if (value.kind === "text") {
    const form = value.cut ? sizeText(value, value.value.length) : undefined;
    return { text: value.value, className: "string", form };
  }
  if (value.kind !== "bytes") return null;
  const bytes = bytesOf(value.value);
  const text = textOf(bytes, value.cut !== undefined);
  const size = sizeText(value, bytes.length);
  if (text === null) return { text: hexDump(bytes), className: "hex", form: `hex, ${size}` };
  if (!isRaw && !value.cut && isJson(text)) {
    return { text, className: "json", form: `JSON, ${size}`, tree: treeOf(text) };
  }
  return { text, className: "text", form: bytes.length === 0 ? size : `text, ${size}` };
}

const isSecondUnit = (unit) => /[\udc00-\udfff]/.test(unit ?? "");

/** From the first to the last character in which two texts differ, in each of them. */
function differingParts(one, other) {
  const most = Math.min(one.length, other.length);
  let start = 0;
  while (start < most && one[start] === other[start]) start++;
  // a character of two units stays whole
  if (isSecondUnit(one[start]) || isSecondUnit(other[start])) start = Math.max(0, start - 1);
  let tail = 0;
  while (tail < most - start && one[one.length - 1 - tail] === other[other.length - 1 - tail]) tail++;
  if (isSecondUnit(one[one.length - tail])) tail--;
  return [one, other].map((text) => ({ start, end: text.length - tail }));
}

/** How many characters of a text are shown before it is unfolded. */
function foldedLength(text) {
  const start = text.split("\n", FOLDED.lines).join("\n").length;
  const length = Math.min(FOLDED.characters, start);
  return text.length - length < FOLDED.least ? text.length : length;
}

/** What is shown of a text at first: its start, or what is marked with some characters around it. */
function foldedPart(text, part) {
  const end = foldedLength(text);
  if (part.start === part.end) return { start: 0, end };
  const least = Math.min(part.end, part.start + FOLDED.characters) + CONTEXT;
  return {
    start: part.start > end ? Math.max(0, part.start - CONTEXT) : 0,
    end: Math.min(text.length, Math.max(end, least)),
  };
}

/** A part of a text, in which another part is marked. */
function markedNodes(text, { start, end }, part) {
  const within = (place) => Math.min(end, Math.max(start, place));
  const slice = (first, last) => visible(text.slice(within(first), within(last)));
  const marked = part.start < part.end ? [element("mark", "", slice(part.start, part.end))] : [];
  return [...slice(start, part.start), ...marked, ...slice(part.end, end)];
}

/** A text of which a long one is folded: a button shows more. A part of it may be marked. */
function foldedNode(text, className, part = { start: 0, end: 0 }, name = "pre") {
  let { start, end } = foldedPart(text, part);
  const block = element(name, className);
  const button = buttonNode("more", () => {
    start = Math.max(0, start - UNFOLDED);
    end = Math.min(text.length, end + UNFOLDED);
    draw();
  });
  const draw = () => {
    const before = start > 0 ? element("span", "form", `(${number(start)} characters before)\n`) : null;
    fill(block, before, markedNodes(text, { start, end }, part));
    const folded = start + text.length - end;
    button.textContent = `Show more: ${number(folded)} characters are folded`;
    button.hidden = folded === 0;
  };
  draw();
  return button.hidden ? block : element(name === "pre" ? "div" : "span", "folded", block, button);
}

/** Bytes as they are laid out, with what they are, and JSON as a tree or as it is written. */
function payloadNode({ text, className, form, tree, part, marks }, path) {
  const head = element("span", "form", form);
  if (!tree) return element("div", "payload", head, text === "" ? null : foldedNode(text, className, part));
  // of a message jq has the bytes in base64
  const asTree = () => treeNode(tree, `${path} | @base64d | fromjson`, marks);
  const body = element("div", "", attempt(asTree, () => foldedNode(text, className)));
  const button = buttonNode("copy", () => {
    const isTree = button.textContent === "as text";
    fill(body, isTree ? foldedNode(text, className) : asTree());
    button.textContent = isTree ? "as a tree" : "as text";
  }, "as text");
  return element("div", "payload", head, " ", button, body);
}

/** The path of a value in the line of its item, as jq takes it. */
const lineOf = ({ path }, item) =>
  `.${item.dump.message === undefined || awaitsInLists(item) ? "" : "message."}${path}`;

/** What is copied of a value: its text, or bytes that are none in hex. */
function copyText({ kind, value }) {
  if (kind === "bytes") return textOf(bytesOf(value)) ?? hexOf(bytesOf(value)).replaceAll(" ", "");
  return typeof value === "object" ? JSON.stringify(value) : String(value);
}

/** A value as it is shown, by its layout where it has one, with buttons that copy it and its path. */
function valueNode(value, item, layout) {
  const path = copyButton("path", () => lineOf(value, item));
  const copy = copyButton(value.cut ? "beginning" : "value", () => copyText(value));
  return [path, copy, shownValue(value, item, layout)];
}

function shownValue(value, item, layout) {
  const { path, kind, value: own } = value;
  if (layout?.form) return payloadNode(layout, lineOf(value, item));
  if (layout?.text === "") return element("span", "form", "an empty text");
  if (layout) return foldedNode(layout.text, layout.className, layout.part);
  if (kind === "Future") return futureNode(own, item);
  if (typeof own === "object") return element("span", "form", kind === "Void" ? "void" : "present, without a field");
  if (path === "relatedCommandIndex" && relatedCommand(item)) {
    return element("span", "", `${own}: `, linkTo(relatedCommand(item)));
  }
  if (TIMES.test(path)) return element("span", "", own, element("span", "form", ` ${timeText(Number(own))}`));
  return element("span", "", String(own));
}
