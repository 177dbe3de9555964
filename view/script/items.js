// The items of the journals, and what joins them: their ids.

const ID_FIELDS = new Set(["completionId", "resultCompletionId", "invocationIdNotificationIdx"]);
const NAME_PATH = /(name|Name|key|Key|keys)(\[\d+\])?$/;

const fieldsOf = (schema) => about.messages[schema] ?? {};
const typeOf = ({ dump, direction }) =>
  dump.type ?? (direction === "rest" ? "rest" : `${direction} 0x${dump.code.toString(16)}`);
const groupOf = (item) => (about.types[item.dump.type] ? item.dump.type : DIRECTIONS[item.direction]);
const schemaOf = (item) => about.types[item.dump.type]?.message;

/** Whether an item's message is a future by itself: before version 7 a suspension has the lists of one. */
const awaitsInLists = (item) => schemaOf(item) === "SuspensionMessageV6";

function directionOf(dump) {
  if ("rest" in dump) return "rest";
  if (dump.unknown) return "unknown";
  return dump.skipped ? "skipped" : (about.types[dump.type]?.direction ?? "custom");
}

/** Whether journal diff compares a field of a command, by what the page knows of it. */
const isCompared = (field) => field?.compared !== false && !(field?.payload && about.ignoresPayloads);

/**
 * The values in a message, each with its path, its kind, and whether journal diff compares it. A future is one value,
 * and so is a message without fields.
 */
function* valuesOf(message, schema, path = "", compared = true) {
  for (const [name, value] of Object.entries(message)) {
    const field = fieldsOf(schema)[name] ?? { kind: "text" };
    const isHere = compared && isCompared(field);
    const list = Array.isArray(value);
    for (const [place, one] of (list ? value : [value]).entries()) {
      const at = path + name + (list ? `[${place}]` : "");
      const isNested = field.kind in about.messages && field.kind !== "Future" && Object.keys(one).length > 0;
      if (isNested) yield* valuesOf(one, field.kind, `${at}.`, isHere);
      else yield { path: at, kind: field.kind, value: one, compared: isHere };
    }
  }
}

/** The values of an item, at last those that only a schema has. */
function itemValues(item) {
  const own = ownValues(item);
  if (item.bySchema === undefined) return own;
  const { message, bytes } = item.bySchema;
  if (message !== undefined) return [...own, ...othersOf(message, item.dump.message)];
  return [...own, { path: "bytes", kind: "bytes", value: bytes, compared: false }];
}

/** The values in a message by a schema that another lacks: numbers, flags and texts, as which bytes are shown too. */
function* othersOf(message, other, start = "") {
  for (const [name, value] of Object.entries(message)) {
    const path = Array.isArray(message) ? `${start}[${name}]` : `${start && `${start}.`}${name}`;
    const own = Object.hasOwn(other ?? {}, name) ? other[name] : undefined;
    const kind = { string: "text", boolean: "bool" }[typeof value] ?? "number";
    if (typeof value === "object" && Object.keys(value).length > 0) yield* othersOf(value, own, path);
    else if (own === undefined) yield { path, kind, value, compared: false };
  }
}

/** The values that the protocol has of an item; `cut` is what is known of one that is cut. */
function ownValues(item) {
  const { message, bytes, cut = {} } = item.dump;
  if (message === undefined) {
    return bytes === undefined ? [] : [{ path: "bytes", kind: "bytes", value: bytes, compared: false, cut: cut.bytes }];
  }
  if (awaitsInLists(item)) return [{ path: "waiting", kind: "Future", value: message, compared: false }];
  const values = Array.from(valuesOf(message, schemaOf(item), "", item.direction === "command"));
  for (const value of values) value.cut = cut[value.path];
  return values;
}

/** Whether nothing is known of an item's payload, since a dump leaves it out. */
const lacksPayload = ({ dump, direction }) =>
  dump.message === undefined && dump.bytes === undefined && !dump.leftOut && !["rest", "unknown"].includes(direction);

/** The keys of what a future awaits by itself: c3 is completion 3, s17 is signal 17, n and a name is a named signal. */
function awaitedBy(future) {
  return [
    ...(future.waitingCompletions ?? []).map((id) => `c${id}`),
    ...(future.waitingSignals ?? []).map((id) => `s${id}`),
    ...(future.waitingNamedSignals ?? []).map((name) => `n${name}`),
  ];
}

/** The keys of all that a future awaits. */
function allAwaitedBy(future) {
  return [...awaitedBy(future), ...(future.nestedFutures ?? []).flatMap(allAwaitedBy)];
}

/** The key of an id as one reads it. */
function keyText(key) {
  const kind = { c: "completion", e: "ephemeral state", s: "signal", n: "signal" }[key[0]];
  return `${kind} ${key.slice(1)}`;
}

/** The keys of all that the futures of an item await. */
function awaitedKeys(item) {
  if (awaitsInLists(item)) return allAwaitedBy(item.dump.message);
  const fields = fieldsOf(schemaOf(item));
  const futures = Object.entries(item.dump.message).filter(([name]) => fields[name]?.kind === "Future");
  return futures.flatMap(([, future]) => allAwaitedBy(future));
}

/**
 * What an item has to do with ids: each key, and the role of the item, which requests, proposes, acknowledges,
 * completes or awaits it.
 */
function partsOf(item) {
  const { type, message } = item.dump;
  if (message === undefined || schemaOf(item) === undefined) return [];
  // an id may be there any number of times
  const awaited = new Set(awaitedKeys(item));
  if (awaited.size > 0) return Array.from(awaited, (key) => ({ key, role: "awaits" }));
  if (type === "SignalNotification") {
    if (message.name !== undefined) return [{ key: `n${message.name}`, role: "completes" }];
    return message.idx === undefined ? [] : [{ key: `s${message.idx}`, role: "completes" }];
  }
  const letter = type.startsWith("GetStateEphemeral") ? "e" : "c";
  const ids = Object.keys(fieldsOf(schemaOf(item))).filter((name) => ID_FIELDS.has(name));
  // a number that is 0 is left out of JSON
  return ids.map((name) => ({ key: `${letter}${message[name] ?? 0}`, role: roleOf(item) }));
}

/** What an item does with its ids. */
function roleOf({ dump, direction }) {
  if (dump.type === "ProposeRunCompletion") return "proposes";
  if (dump.type === "ProposeRunCompletionAck") return "acknowledges";
  return direction === "notification" || dump.type === "GetStateEphemeralNotification" ? "completes" : "requests";
}

/** The failure that an item carries: its code and its text. */
function failureOf({ dump }) {
  if (dump.message === undefined) return null;
  if (dump.type === "Error") return dump.message;
  return dump.message.failure ?? dump.message.completionFailure ?? null;
}

const failureText = (failure) => `${failure.code ?? 0}: ${failure.message ?? ""}`;

/** The items of a key, by their roles. */
const emptyThread = () => ({ requests: [], proposes: [], acknowledges: [], completes: [], awaits: [] });

/**
 * The thread of a key that an item joins, of the last one of each key. As journal show --open has them, a command and a
 * notification of a completion are joined, whichever comes first, and the next one of either uses the id again.
 */
function joinThread(threads, item, { key, role }) {
  const isHalf = key[0] === "c" && ["requests", "completes"].includes(role);
  const isUsedAgain = isHalf && threads.get(key)?.[role].some((other) => other !== item);
  if (isUsedAgain || !threads.has(key)) threads.set(key, emptyThread());
  threads.get(key)[role].push(item);
  return threads.get(key);
}

/**
 * The items of a journal in order, last the rest; and what joins them: the items of each key by their roles, where an
 * id is used again those of its last use. An item has its own threads, its number in the journal, as the page may begin
 * later, and its place here.
 */
function readJournal(side) {
  const lines = byId(`journal-${side}`).textContent.trim().split("\n");
  const { firstItem, firstCommand } = about.journals[side];
  const threads = new Map();
  const commands = [];
  const items = lines.map((text, place) => {
    // after a tab it is there again by a schema, which has more of it
    const [own, line = own] = text.split("\t");
    const [dump, bySchema] = [JSON.parse(own), line === own ? undefined : JSON.parse(line)];
    if (bySchema?.malformed) dump.malformed = true;
    const item = { dump, bySchema, line, side, place, number: firstItem + place, command: null };
    item.direction = directionOf(dump);
    item.size = dump.rest ?? HEADER + (dump.length ?? 0);
    item.failure = failureOf(item);
    item.parts = partsOf(item);
    if (item.direction === "command") item.command = firstCommand + commands.push(item) - 1;
    item.threads = new Map(item.parts.map((part) => [part.key, joinThread(threads, item, part)]));
    return item;
  });
  if (items.at(-1).size === 0) items.pop();
  return { items, threads, commands };
}

const journals = about.journals.map((_, side) => readJournal(side));
const threadOf = (item, key) => item.threads.get(key);
const isLast = (item, key) => journals[item.side].threads.get(key) === threadOf(item, key);
// a payload does not have an id that is 0
const isWaiting = (item, key) =>
  item.command !== null && key !== "c0" && isLast(item, key) && threadOf(item, key).completes.length === 0;
const isOpen = (item) => item.parts.some(({ key }) => isWaiting(item, key));
const isProblem = (item) =>
  item.failure !== null || item.dump.malformed || ["unknown", "rest"].includes(item.direction);

/** The command that an error belongs to, or undefined. */
function relatedCommand({ dump, side }) {
  if (dump.type !== "Error") return undefined;
  return journals[side].commands[dump.message?.relatedCommandIndex - about.journals[side].firstCommand];
}

/** Where one goes from an item: to the completion of a command, to the command of a completion or of an error. */
function followed(item) {
  if (relatedCommand(item)) return relatedCommand(item);
  for (const { key, role } of item.parts) {
    const thread = threadOf(item, key);
    const [first, second] = role === "requests" ? ["completes", "proposes"] : ["requests", "awaits"];
    const other = [...thread[first], ...thread[second]].find((candidate) => candidate !== item);
    if (other) return other;
  }
  return null;
}
