// The top of the page: what is in the journals, and where two of them part.

/** What a command says in a sentence: its type, and what it says first. */
const commandText = (item) => [typeOf(item), ...piecesOf(item).map(pieceText).slice(0, 1)].join(" ");

/** What two commands of one type say in a sentence: the first thing that differs. */
function differingTexts(pair) {
  if (typeOf(pair[0]) !== typeOf(pair[1])) return pair.map(commandText);
  const texts = pair.map((item) => piecesOf(item).map(pieceText));
  return texts.map((own, side) => own.find((text, place) => text !== texts[1 - side][place]) ?? "nothing more");
}

const quoted = (text, side) => element("q", `side-${side}`, inRow(text.slice(0, 120)));
const amountOf = (amount) => (amount === 1 ? "one" : number(amount));

/** The commands of a side of some steps, quoted: the first and the last. */
function quotedRun(steps, side) {
  const items = steps.map(({ pair }) => pair[side]);
  const ends = items.length === 1 ? items : [items[0], items.at(-1)];
  const between = items.length === 2 ? " and " : " to ";
  return ends.flatMap((item, place) => [place === 0 ? "" : between, quoted(commandText(item), side)]);
}

/** How the journals part, by the steps of a difference: pairs, or commands that only one journal has. */
function partingOf({ steps, end }) {
  const amount = steps.length;
  const [{ kind, pair }] = steps;
  if (kind === "inserted" || kind === "removed") return partingAlone(steps, end, kind === "inserted" ? 1 : 0);
  const at = number(pair[0].command);
  const others = amount === 1 ? "" : `, and the ${amountOf(amount - 1)} after it differ too`;
  if (kind === "ids") {
    const command = quoted(commandText(pair[0]), 0);
    return [`The journals part at command ${at}, `, command, ", which differs in its ids alone", others];
  }
  const [recorded, replayed] = differingTexts(pair);
  // what differs may be past what is said of them
  if (recorded === replayed) {
    return [`The journals part at command ${at}, `, quoted(commandText(pair[0]), 0), ", which differs", others];
  }
  const type = kind === "changed" ? `, ${typeOf(pair[0])}` : "";
  return [`The journals part at command ${at}${type}: recorded is `, quoted(recorded, 0), ", replayed is ",
    quoted(replayed, 1), others];
}

/** How the journals part at commands that only one of them has: at its end, or before commands of both. */
function partingAlone(steps, end, side) {
  const amount = steps.length;
  const first = steps[0].pair[side].command;
  if (end === alignment.steps.length) {
    const more = amount === 1 ? "" : ` and ${number(amount - 1)} more`;
    return [`The ${SIDES[1 - side]} journal ends before command ${number(first)}, where the ${SIDES[side]} one has `,
      quoted(commandText(steps[0].pair[side]), side), more];
  }
  const noun = amount === 1 ? "command" : "commands";
  if (side === 0) {
    const last = number(first + amount - 1);
    const which = amount === 1 ? `is command ${last}` : `are the commands ${number(first)} to ${last}`;
    const lacks = `The replay lacks ${amountOf(amount)} ${noun}, `;
    return [lacks, quotedRun(steps, 0), `, which ${which} of the recorded journal`];
  }
  const next = alignment.steps[end].pair[0].command;
  return [`The replay has ${amountOf(amount)} ${noun} more, `, quotedRun(steps, 1), `, before command ${number(next)}`];
}

/** The journal that has nothing at a difference at the end, since it ends there; null of another difference. */
function endedSide({ steps, end }) {
  if (end < alignment.steps.length) return null;
  const side = [0, 1].find((one) => steps.every(({ pair }) => pair[one] === null));
  return side ?? null;
}

/** What is said of the commands after the first difference. */
function afterText({ end }) {
  const after = alignment.steps.slice(end).filter(({ kind }) => kind !== "beyond");
  if (after.length === 0) return "";
  const kinds = Map.groupBy(after, ({ kind }) => kind);
  const [same, ids, unseen] = ["same", "ids", "unseen"].map((kind) => kinds.get(kind)?.length ?? 0);
  const isOne = after.length === 1;
  if (same === after.length) return `; the ${amountOf(after.length)} after it ${isOne ? "is" : "are"} the same`;
  if (ids === after.length) {
    return `; the ${amountOf(after.length)} after it ${isOne ? "differs in its ids" : "differ in their ids"} alone`;
  }
  const parts = [[same, "the same"], [ids, "the same but for ids"], [unseen, "of one type"]]
    .filter(([amount]) => amount > 0);
  const said = parts.map(([amount, what]) => `${amountOf(amount)} ${amount === 1 ? "is" : "are"} ${what}`);
  const last = differences.at(-1);
  const side = endedSide(last);
  const more = differences.length - (side === null ? 1 : 2);
  if (more > 0) said.push(`there ${more === 1 ? "is one more difference" : `are ${number(more)} more differences`}`);
  if (side !== null) {
    const next = last.steps[0].pair[1 - side].command;
    said.push(`the ${SIDES[side]} journal ends before command ${number(next)}`);
  }
  return `; after it ${said.join(", ").replace(/, (?=[^,]*$)/, said.length > 2 ? ", and " : " and ")}`;
}

/** The sentence on two journals: what was inserted, removed or changed first, and what is after it. */
function sentenceOf(verdict) {
  if (verdict?.kind.endsWith("malformed")) {
    return [`There is no verdict: ${verdict.text.replace(/^journal diff: /, "")}.`];
  }
  if (differences.length > 0) return [...partingOf(differences[0]), afterText(differences[0]), "."];
  if (!hasPayloads) return [`The types of the commands are the same: ${counted(alignment.steps.length, "command")}.`];
  if (!verdict || verdict.kind === "same") {
    const amount = verdict?.index ?? alignment.steps.length;
    return [`The journals are the same: ${counted(amount, "command")}.`];
  }
  const how = verdict.kind === "differs"
    ? "The journals part at"
    : `The ${verdict.kind.split(" ")[0]} journal ends before`;
  return [`${how} command ${number(verdict.index)}, which is past the items of this page.`];
}

// by what the commands are aligned, in words
const ALIGNED_BY = {
  proved: "Which commands are the same is what journal diff says; which of the others belong together is this page's " +
    "own reading of the dump, and not proved",
  own: "Which commands belong together is this page's own reading of the dump, and not proved",
  index: "The commands are side by side by their indices, since too many have no equal",
  disagree: "The commands are side by side by their indices: the page's own reading does not agree with journal diff",
};

/** How far what the page says of two journals is proved. */
function noteOnAlignment(verdict) {
  const text = ALIGNED_BY[alignment.by];
  const isLacking = (item) => item && (lacksPayload(item) || item.dump.leftOut);
  const lacking = alignment.steps.filter(({ pair }) => pair.some(isLacking));
  const parts = [verdict ? "" : "; there is no verdict of journal diff, which compares streams"];
  if (lacking.length > 0) parts.push(`; of ${counted(lacking.length, "command")} the payload is not here`);
  return `${text}${parts.join("")}.`;
}

function drawTop() {
  const schema = about.schema === undefined ? null : fact(["schema ", visible(about.schema)]);
  const version = element("span", "journal", fact(`protocol version ${about.version}`), schema);
  byId("facts").append(element("span", "", about.journals.map(factsNode), version));
  const cut = about.journals.filter((journal) => journal.shown < journal.items);
  const notices = [
    ...cut.map(partText),
    ...about.journals.flatMap(({ name, dump }) => dumpNotices(name, dump)),
  ];
  byId("notice").hidden = notices.length === 0;
  fill(byId("notice"), visible(notices.join(" ")));
  if (!isPair) return;
  document.body.classList.add("pair");
  const { verdict } = about;
  const section = byId("verdict");
  section.hidden = false;
  const isSame = differences.length === 0 && hasPayloads && (!verdict || verdict.kind === "same");
  section.classList.add(isSame ? "same" : "different");
  fill(byId("sentence"), sentenceOf(verdict));
  if (difference >= 0) {
    byId("sentence").append(" ", buttonNode("", () => moveToProblem(1), "Next ", element("kbd", "", "n")));
  }
  byId("reading").textContent = noteOnAlignment(verdict);
  if (verdict?.kind === "differs") {
    byId("printed").hidden = false;
    byId("printed").open = matchMedia("(min-height: 56rem)").matches;
    byId("printed").append(foldedNode(verdict.text, "printed"));
  }
  byId("help-next").textContent = "the next and the previous difference";
}

/** Which items of a journal are shown, of one that is longer. */
function partText({ name, firstItem, firstCommand, shown, items }) {
  const part = firstItem === 0
    ? `the first ${number(shown)} of ${number(items)} items`
    : `${number(shown)} of ${number(items)} items, those from item ${number(firstItem)} and command ` +
      `${number(firstCommand)} on,`;
  return `Of ${name} ${part} are shown and joined.`;
}

/** What a dump from a file does not have. */
function dumpNotices(name, dump) {
  if (!dump) return [];
  const notices = [];
  if (!dump.isWhole) {
    notices.push(`The dump ${name} has no last line, of the rest: it may end before its journal does.`);
  }
  if (dump.gaps > 0) notices.push(`The dump ${name} leaves items out: an index counts the commands that are there.`);
  return notices;
}

const fact = (text, className = "") => element("span", `fact ${className}`, text);

/** How much is in a journal, and in the part of it that is shown. */
function factsNode(journal, side) {
  const { items } = journals[side];
  const failures = items.filter(STATES.failure).length;
  const open = items.filter(isOpen).length;
  return element("span", `journal side-${side}`,
    isPair ? [element("b", "", `${SIDES[side]}: `), ...visible(journal.name)] : null,
    fact(counted(journal.bytes, "byte")),
    fact(counted(journal.items, "item")),
    fact(counted(journal.commands, "command")),
    journal.shown < journal.items ? fact(`${number(journal.shown)} shown`) : null,
    open > 0 ? fact(`${number(open)} open`) : null,
    failures > 0 ? fact(counted(failures, "failure"), "failure") : null);
}
