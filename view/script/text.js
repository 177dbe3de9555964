// The page's script: it lists the lines of journal dump that are in the page, joins them by their ids, and shows one.
// A text of a journal becomes a text node and nothing else; the page's policy forbids all other ways.
"use strict";

const byId = (id) => document.getElementById(id);
const about = JSON.parse(byId("about").textContent);
const isPair = about.journals.length === 2;

const HEADER = 8; // bytes of a frame's header
const FOLDED = { characters: 1200, lines: 16, least: 200 }; // what is shown of a long text; fewer are not folded
const UNFOLDED = 50_000; // characters that are shown more at a time
const PRINTED = 3000; // rows on paper at most

const SIDES = isPair ? ["recorded", "replayed"] : ["item"];
const DIRECTIONS = {
  command: "Commands",
  notification: "Notifications",
  core: "Core messages",
  custom: "Custom entries",
  unknown: "Unknown codes",
  skipped: "Skipped messages",
  rest: "Bytes in no item",
};

const number = (value) => value.toLocaleString("en");
const counted = (value, noun) => `${number(value)} ${noun}${value === 1 ? "" : "s"}`;

/** A number of bytes in few characters. */
function shortSize(bytes) {
  if (bytes < 1000) return `${bytes} B`;
  const [value, unit] = bytes < 1e6 ? [bytes / 1e3, "kB"] : bytes < 1e9 ? [bytes / 1e6, "MB"] : [bytes / 1e9, "GB"];
  return `${value.toFixed(value < 10 ? 1 : 0)} ${unit}`;
}

/** Puts children into an element, one by one, since there may be more than a call takes; a text becomes a text node. */
function fill(node, ...children) {
  node.replaceChildren();
  for (const child of children.flat(Infinity)) if (child !== null && child !== undefined) node.append(child);
  return node;
}

/** An element with a class and its children. */
function element(name, className, ...children) {
  const made = document.createElement(name);
  if (className) made.className = className;
  return fill(made, ...children);
}

/** A button that does this. */
function buttonNode(className, act, ...children) {
  const button = Object.assign(element("button", className, ...children), { type: "button" });
  button.addEventListener("click", act);
  return button;
}

/** What a function makes; where it fails, what another makes of the error. */
function attempt(make, otherwise) {
  try {
    return make();
  } catch (error) {
    return otherwise(error);
  }
}

// Characters that nothing is seen of, that look like a space, that turn the direction of a text, or that no font has,
// except spaces, tabs and line feeds: controls, formats such as U+202E, separators, unassigned and private characters,
// halves of a character, what fonts leave out, and the empty pattern of braille.
const HIDDEN = /((?:(?![\t\n ])[\p{C}\p{Z}\p{Default_Ignorable_Code_Point}\u2800])+)/u;
// in a row also tabs, line feeds, and spaces at an end
const HIDDEN_IN_ROW = /((?:(?! )[\p{C}\p{Z}\p{Default_Ignorable_Code_Point}\u2800]|^ +| +$)+)/u;

/** A hidden character by its number. */
function numbered(character) {
  const digits = character.codePointAt(0).toString(16);
  return digits.length > 4 ? `\\u{${digits}}` : `\\u${digits.padStart(4, "0")}`;
}

/** A text with its hidden characters made visible. */
function visible(text, hidden = HIDDEN) {
  return text.split(hidden).map((part, place) =>
    place % 2 === 0 ? part : element("span", "control", Array.from(part, numbered).join("")));
}

/** A name in camel case or with dots, which may be broken before each of its words. */
function breakable(name) {
  return name.split(/(?<=[a-z.\]])(?=[A-Z])|(?<=\.)/).flatMap((word) => [document.createElement("wbr"), word]);
}
