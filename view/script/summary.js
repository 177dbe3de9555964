// What a row says of an item, in few words.

const TIMES = /^(wakeUpTime|invokeTime)$/;

/** Milliseconds since the epoch as a time, where they are one. */
function timeText(milliseconds) {
  const time = new Date(milliseconds);
  return Number.isNaN(time.getTime()) ? "" : time.toISOString();
}

/** What a field of a message says, in few words, with its label; null where the row says it elsewhere. */
function fieldPiece(name, value, kind) {
  if (ID_FIELDS.has(name)) return null;
  if (kind === "Failure") return { failure: failureText(value) };
  if (kind === "Future") return { label: "awaits", text: awaitedText(value) };
  if (kind === "Value") return { label: name, text: preview(value.content ?? "") };
  if (kind === "Void") return { text: "void" };
  if (Array.isArray(value)) return { label: name, text: number(value.length) };
  if (kind === "bytes") return { label: name, text: preview(value) };
  if (kind in about.messages) {
    const texts = Array.from(valuesOf(value, kind), (one) => (one.kind === "bytes" ? preview(one.value) : one.value));
    return { label: name, text: texts.join(" / ") };
  }
  return { label: /name$/i.test(name) ? null : name, text: TIMES.test(name) ? timeText(Number(value)) : String(value) };
}

function awaitedText(future) {
  const keys = allAwaitedBy(future);
  return keys.slice(0, 6).map(keyText).join(", ") + (keys.length > 6 ? " and more" : "");
}

/** What an item says, in few words. */
function piecesOf(item) {
  const { dump, direction } = item;
  if (direction === "rest") return [{ text: `${counted(dump.rest, "byte")} at the end that are in no item` }];
  if (direction === "unknown") return [{ text: "the code is of no type" }];
  if (dump.leftOut) return [{ text: "the payload is too long for this page" }];
  if (lacksPayload(item)) return [{ text: "the dump has no payloads" }];
  const pieces = dump.malformed ? [{ failure: "the payload is not well-formed" }] : [];
  if (dump.bytes) pieces.push({ label: "bytes", text: preview(dump.bytes) });
  if (dump.message === undefined) return pieces;
  if (awaitsInLists(item)) return [{ label: "awaits", text: awaitedText(dump.message) }];
  if (dump.type === "Error") return [{ failure: failureText(dump.message) }];
  const { serviceName, handlerName, name: ownName, ...others } = dump.message;
  if (serviceName ?? handlerName) pieces.push({ text: `${serviceName ?? ""}/${handlerName ?? ""}` });
  if (ownName !== undefined) pieces.push({ text: ownName });
  const fields = fieldsOf(schemaOf(item));
  const further = Object.entries(others).map(([name, value]) => fieldPiece(name, value, fields[name]?.kind));
  return [...pieces, ...further.filter(Boolean)];
}

const inRow = (text) => visible(text.slice(0, 200), HIDDEN_IN_ROW);

function pieceNodes(item) {
  return piecesOf(item).map(({ label, text, failure }) =>
    failure === undefined
      ? element("span", "piece", label ? element("span", "label", label, " ") : null, inRow(text))
      : element("span", "piece failure", inRow(failure)));
}

const pieceText = ({ label, text, failure }) => failure ?? (label ? `${label} ${text}` : text);

/** What joins an item to others, in few words. */
function linkText(item) {
  const texts = item.parts.map(({ key, role }) => {
    const thread = threadOf(item, key);
    if (role === "awaits") return null;
    if (role === "requests") {
      if (isWaiting(item, key)) return "open";
      return thread.completes.length > 0 ? `→ #${thread.completes[0].number}` : null;
    }
    const [command] = thread.requests;
    if (command) return command.command === null ? `← #${command.number}` : `← command ${command.command}`;
    return thread.awaits.length > 0 ? `← #${thread.awaits[0].number}` : "no command";
  });
  return texts.filter(Boolean).join(", ");
}
