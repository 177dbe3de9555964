// The worker of the page that opens journals: the lines that journal dump prints of their items, and the verdict on
// two. It reads files part by part, so that memory does not grow with them. With a schema, a descriptor set, payloads
// are at its field numbers, and read at the protocol's. `CALLS` are those of the package for Node, over the module;
// `ITEM`, `VERDICT` and `REPLAY` are where the numbers of their structs are, `ERRORS` their errors.

const MOST_ITEMS = 200_000;
const BEFORE = 1_000;
const LINE_CHARACTERS = 4 << 20;
const JOURNAL_CHARACTERS = 64 << 20;
// How many bytes are read of a file at once, and in how many of them items are looked for, except a longer item.
const READ_AT_ONCE = 1 << 22;
const PART = 1 << 18;
const NO_LIMIT = 0xffffffff;
const HEADER = 8;
const HALVES = 2 * ITEM_NUMBERS;
const ACK_BIT = 1n << 47n;
// How much is read of a set, where the library says that this is too long; for how many fields its table has room.
const READ_OF_SET = (1 << 24) + 1;
const FIELDS = 256;

const KINDS = ["message", "unknown", "skipped"];
// By the kind of a verdict: its name in the page, and what journal diff prints of it first.
const VERDICTS = [
  ["same", (index) => `same, ${index} command${index === 1 ? "" : "s"}`],
  ["recorded ends", (index) => `recorded ends at command ${index}`],
  ["replayed ends", (index) => `replayed ends at command ${index}`],
  ["differs", (index, text) => `command ${index}: ${text}`],
  ["differs", (index, text) => `command ${index}: ${text}`],
  ["recorded malformed", (index) => `journal diff: the recorded command ${index} is malformed`],
  ["replayed malformed", (index) => `journal diff: the replayed command ${index} is malformed`],
];

const decoder = new TextDecoder("utf-8", { ignoreBOM: true });
const reader = new FileReaderSync();
const nothing = new Uint8Array(0);

/** Why there is no page. */
class Refused extends Error {}

function checked(returned, what) {
  if (returned < 0) throw new Refused(`${what} cannot be read: the error ${returned} of the library`);
  return returned;
}

/** The bytes that a call writes into this room, or into as much as it needs; undefined of what is malformed. */
function bytesWritten(call, room, what) {
  let length = call(room);
  if (length < 0 && ERRORS.get(length)?.[0] === "Malformed") return undefined;
  while (checked(length, what) > room.length) {
    room = new Uint8Array(2 * length);
    length = call(room);
  }
  return room.subarray(0, length);
}

let scratch = new Uint8Array(1 << 16);

/** The text that a call writes, likewise. */
function written(call, what) {
  const bytes = bytesWritten(call, scratch, what);
  if (bytes === undefined) return undefined;
  if (bytes.length > scratch.length) scratch = new Uint8Array(bytes.buffer);
  return decoder.decode(bytes);
}

function base64(bytes) {
  let text = "";
  for (let begin = 0; begin < bytes.length; begin += 8192) {
    text += String.fromCharCode.apply(null, bytes.subarray(begin, begin + 8192));
  }
  return btoa(text);
}

/** The field numbers of a descriptor set in a file; the renames of its messages are one per line. */
class Numbering {
  constructor(file, renames) {
    const lines = new TextEncoder().encode(renames);
    const set = new Uint8Array(reader.readAsArrayBuffer(file.slice(0, READ_OF_SET)));
    const kind = new BigUint64Array(LIST_NUMBERS);
    const text = written((out) => CALLS.numberingText(set, lines, kind, out), file.name);
    const found = LIST_KINDS[Number(kind[0])];
    if (found !== "listed") throw new Refused(found === "noSet" ? `${file.name}: ${text}` : text);
    const reading = NUMBERING_DIRECTIONS.indexOf("reading");
    const tableOf = (table) => checked(CALLS.numbering(reading, set, lines, table), file.name);
    let table = new BigUint64Array(RENUMBERING_NUMBERS * FIELDS);
    const count = tableOf(table);
    if (count > FIELDS) tableOf((table = new BigUint64Array(RENUMBERING_NUMBERS * count)));
    Object.assign(this, { set, lines, table: table.subarray(0, RENUMBERING_NUMBERS * count) });
  }

  /** A payload at the protocol's numbers; undefined if it is malformed at those of the set. */
  payload(schema, payload, what) {
    const call = (out) => CALLS.renumber(schema, this.table, payload, out);
    return bytesWritten(call, new Uint8Array(payload.length), what);
  }

  /** Whole items at the protocol's numbers; undefined if the payload of one is malformed at those of the set. */
  items(version, items, what) {
    const call = (out) => CALLS.renumberStream(version, this.table, items, out);
    return bytesWritten(call, new Uint8Array(items.length), what);
  }

  /** The lines of items by all fields of the set, as journal dump --schema prints them. */
  linesOf(version, items, what) {
    return written((out) => CALLS.numberingDump(version, this.set, this.lines, items, out), what).split("\n");
  }
}

/** Arrays of bytes as one. */
function joined(arrays) {
  const all = new Uint8Array(arrays.reduce((sum, { length }) => sum + length, 0));
  let at = 0;
  for (const bytes of arrays) {
    all.set(bytes, at);
    at += bytes.length;
  }
  return all;
}

/** An item of the type of another, with a payload that is malformed at all numbers: a record of no wire type. */
const malformedAs = ([high, low]) => Uint8Array.of(high, low, 0, 0, 0, 0, 0, 1, 7);

/** A journal in a file. It holds a part at a time: some whole items. Those before `place` are taken. */
class Journal {
  constructor(file, { version, types, numbering }) {
    Object.assign(this, { file, name: file.name, size: file.size, version, types, numbering, known: new Map() });
    this.held = nothing;
    this.heldAt = 0;
    // the part: where it begins, its bytes, how many items are in it, and the numbers of each as two halves
    this.at = 0;
    this.bytes = nothing;
    this.count = 0;
    this.numbers = new BigUint64Array((ITEM_NUMBERS * PART) / HEADER);
    this.halves = new Uint32Array(this.numbers.buffer);
    // of the item that comes next: its place in the part, and its offset there; how many commands come from it on
    this.place = 0;
    this.begin = 0;
    this.left = 0;
    // how many items and commands are in all parts so far, and where each part begins, with these numbers before it
    this.items = 0;
    this.commands = 0;
    this.marks = [];
  }

  type(code) {
    let found = this.known.get(code);
    if (found === undefined) {
      const name = written((out) => CALLS.typeName(code, out), "a type");
      found = { name, schema: CALLS.schema(this.version, code), isCommand: this.types[name]?.direction === "command" };
      this.known.set(code, found);
    }
    return found;
  }

  /** So many bytes of the file from an offset on, or as many as there are. */
  read(at, size) {
    const end = Math.min(at + size, this.size);
    if (at < this.heldAt || end > this.heldAt + this.held.length) {
      this.held = nothing;
      this.held = new Uint8Array(reader.readAsArrayBuffer(this.file.slice(at, at + Math.max(size, READ_AT_ONCE))));
      this.heldAt = at;
    }
    return this.held.subarray(at - this.heldAt, end - this.heldAt);
  }

  /** Takes the part that begins at an offset; whether a whole item is there. */
  load(at) {
    Object.assign(this, { at, count: 0, place: 0, begin: 0 });
    for (let size = PART; at < this.size;) {
      this.bytes = this.read(at, size);
      this.count = checked(CALLS.items(this.version, NO_LIMIT, this.bytes, this.numbers), this.name);
      if (this.count > 0) return true;
      size = this.bytes.length + checked(CALLS.next(this.version, this.bytes, this.numbers), this.name);
      if (at + size > this.size) break;
    }
    this.bytes = nothing;
    return false;
  }

  /** Takes the part after all that were taken; whether there is one. */
  advance() {
    this.skip(this.count);
    const mark = { at: this.at + this.begin, item: this.items, command: this.commands };
    if (!this.load(mark.at)) return false;
    this.marks.push(mark);
    this.items += this.count;
    this.left = 0;
    for (let place = 0; place < this.count; place += 1) this.left += this.isCommand(place);
    this.commands += this.left;
    return true;
  }

  /** 1 of a command, 0 of another item. */
  isCommand(place) {
    const at = HALVES * place;
    return this.halves[at + 2 * ITEM.kind] === 0 && this.type(this.halves[at + 2 * ITEM.code]).isCommand ? 1 : 0;
  }

  /** The size of an item, which is below 2^33. */
  sizeOf(place) {
    const at = HALVES * place + 2 * ITEM.size;
    return this.halves[at] + this.halves[at + 1] * 2 ** 32;
  }

  /** Takes the items of the part before a place. */
  skip(place) {
    for (; this.place < place; this.place += 1) this.begin += this.sizeOf(this.place);
  }

  /** How many commands the part has that are not taken; where there is none, that of the next part that has some. */
  ahead() {
    while (this.left === 0 && this.advance());
    return this.left;
  }

  /** The place after an amount of commands, which the part has: as `place` and `begin`. */
  after(amount) {
    let { place, begin } = this;
    for (let found = 0; found < amount; place += 1) {
      found += this.isCommand(place);
      begin += this.sizeOf(place);
    }
    return { place, begin };
  }

  /** The items of the part up to a place that come next, at the protocol's numbers; one that is malformed stays so. */
  until({ place, begin }) {
    const { numbering, version, name } = this;
    const bytes = this.bytes.subarray(this.begin, begin);
    const read = (items) => (numbering ? numbering.items(version, items, name) : items);
    const whole = read(bytes);
    if (whole !== undefined) return whole;
    const items = [];
    for (let at = this.place, start = 0; at < place; at += 1) {
      const item = bytes.subarray(start, (start += this.sizeOf(at)));
      items.push(read(item) ?? malformedAs(item));
    }
    return joined(items);
  }

  /** The command that comes after so many, likewise; all before it are taken. */
  command(amount) {
    const end = this.after(amount + 1);
    this.skip(end.place - 1);
    return this.until(end);
  }

  /** The first place, from one on, with so many commands before it, or with no more than so many items from it on. */
  reach(from, command, most) {
    const found = { ...from };
    const isBefore = ({ item, command: commands }) => item + most < this.items && commands < command;
    while (isBefore(found) && this.load(found.at)) {
      while (isBefore(found) && this.place < this.count) {
        found.item += 1;
        found.command += this.isCommand(this.place);
        this.skip(this.place + 1);
      }
      found.at = this.at + this.begin;
    }
    return found;
  }

  /** The line of the item that comes next. */
  line() {
    const { at, begin, bytes, halves } = this;
    const numbers = HALVES * this.place;
    const size = this.sizeOf(this.place);
    const kind = KINDS[halves[numbers + 2 * ITEM.kind]];
    const code = halves[numbers + 2 * ITEM.code];
    const word = this.numbers[numbers / 2 + ITEM.word];
    const payload = bytes.subarray(begin + HEADER, begin + size);
    const head = (as) => (as === word ? "" : `,"header":"${base64(bytes.subarray(begin, begin + HEADER))}"`);
    const top = BigInt(code) << 48n;
    const offset = at + begin;
    if (kind === "unknown") return `{"offset":${offset},"unknown":true,"code":${code}${head(top)}}`;
    const { length } = payload;
    if (kind === "skipped") {
      const members = `${head(top + BigInt(length))},"bytes":"${base64(payload)}"`;
      return `{"offset":${offset},"skipped":true,"code":${code},"length":${length}${members}}`;
    }
    const { name, schema } = this.type(code);
    const ack = halves[numbers + 2 * ITEM.requestedAck] === 1;
    // the one type whose header has the flag
    const flag = name === "ProposeRunCompletion" ? `,"requestedAck":${ack}` : "";
    const members = `${flag}${head(top + BigInt(length) + (ack ? ACK_BIT : 0n))}`;
    const start = `{"offset":${offset},"type":${JSON.stringify(name)},"code":${code},"length":${length}`;
    // joined, since an engine keeps a text that is added up as its parts
    return [start, members, membersOf(schema, payload, this.numbering), "}"].join("");
  }

  /** The same, without its payload if it is too long for a page. */
  shortened() {
    const size = this.sizeOf(this.place);
    const line = size > LINE_CHARACTERS ? undefined : this.line();
    if (line !== undefined && line.length <= LINE_CHARACTERS) return line;
    const numbers = HALVES * this.place;
    const [kind, code] = [ITEM.kind, ITEM.code].map((number) => this.halves[numbers + 2 * number]);
    const offset = this.at + this.begin;
    const type = kind === 0 ? `"type":${JSON.stringify(this.type(code).name)}` : `"${KINDS[kind]}":true`;
    return `{"offset":${offset},${type},"code":${code},"length":${size - HEADER},"leftOut":"item ${offset}"}`;
  }

  /** The lines of the part by all fields of the set, if there is one; none of an item that is too long for a page. */
  linesBySet() {
    if (!this.numbering || this.bytes.length > LINE_CHARACTERS) return [];
    const lines = this.numbering.linesOf(this.version, this.bytes, this.name);
    const moved = (_, offset) => `{"offset":${this.at + Number(offset)},`;
    return lines.map((line) => line.replace(/^\{"offset":(\d+),/, moved));
  }

  /** The lines from a place on, at most so many; after a tab that of an item by the set, if this has more of it. */
  lines(from, most) {
    const lines = [];
    let characters = 0;
    for (let { at } = from; this.load(at); at = this.at + this.begin) {
      const bySet = this.linesBySet();
      for (; this.place < this.count; this.skip(this.place + 1)) {
        if (lines.length === most) return lines;
        const own = this.shortened();
        const other = bySet[this.place] ?? own;
        const isShort = other !== own && other.length <= LINE_CHARACTERS;
        const line = isShort && hasMore(JSON.parse(other), JSON.parse(own)) ? `${own}\t${other}` : own;
        characters += line.length;
        if (characters > JOURNAL_CHARACTERS) return lines;
        lines.push(line);
      }
    }
    return lines;
  }

  /** The line of what is in no item, from an offset on. */
  restLine(at) {
    const size = this.size - at;
    const shown = size > 0 && size < LINE_CHARACTERS / 2 ? `,"bytes":"${base64(this.read(at, size))}"` : "";
    return `{"offset":${at},"rest":${size}${shown}}`;
  }
}

/** Whether a value of JSON has a member, at any level, that another lacks. */
const hasMore = (value, other) =>
  other === undefined ||
  (typeof value === "object" &&
    Object.entries(value).some(([name, one]) => hasMore(one, Object.hasOwn(other, name) ? other[name] : undefined)));

/** The members of a payload, which is at the numbers of a set, if there is one. A custom entry has no schema. */
function membersOf(schema, payload, numbering) {
  const what = "a payload";
  const own = schema < 0 || !numbering ? payload : numbering.payload(schema, payload, what);
  const json = schema < 0 || !own ? undefined : written((out) => CALLS.json(schema, own, out), what);
  if (json !== undefined) return `,"message":${json}`;
  return `${schema < 0 ? "" : ',"malformed":true'},"bytes":"${base64(payload)}"`;
}

/** Says how far journals are read, each time that is a percent more. */
function progressOf(journals) {
  const total = journals.reduce((sum, { size }) => sum + size, 0);
  let said = 0;
  return () => {
    const read = journals.reduce((sum, { at, begin }) => sum + at + begin, 0);
    const percent = Math.floor((100 * read) / total);
    if (percent > said) postMessage({ progress: `Reading .. ${percent} %` });
    said = percent;
  };
}

/** The text of two commands that differ at an index: that of a replay which has reached it. */
function mismatchAt(index, [recorded, replayed], version, ignoresPayloads) {
  const numbers = new BigUint64Array(REPLAY_NUMBERS);
  numbers[REPLAY.version] = BigInt(version);
  numbers[REPLAY.options] = ignoresPayloads ? 1n : 0n;
  numbers[REPLAY.index] = BigInt(index);
  // the one before it in the recording was the same, and may be any
  const recording = new Uint8Array(2 * recorded.length);
  recording.set(recorded);
  recording.set(recorded, recorded.length);
  const [code, payload] = [256 * replayed[0] + replayed[1], replayed.subarray(HEADER)];
  return written((out) => CALLS.replayText(code, recording, payload, numbers, out), "the journals");
}

/** The verdict on two journals, part by part: each command is compared with the other's at its index, and no more. */
function verdictOn(journals, version, ignoresPayloads, say) {
  const numbers = new BigUint64Array(VERDICT_NUMBERS);
  for (let before = 0; ; say()) {
    const amounts = journals.map((journal) => journal.ahead());
    // where one has ended, the first command of the other one is beyond its end
    const amount = Math.min(...amounts) || Math.max(...amounts);
    const ends = journals.map((journal) => journal.after(Math.min(amount, journal.left)));
    const [one, other] = journals.map((journal, side) => journal.until(ends[side]));
    const call = (out) => CALLS.verdict(version, one, other, ignoresPayloads, numbers, out);
    const said = written(call, "the journals");
    const [kind, here] = [VERDICT.kind, VERDICT.index].map((number) => Number(numbers[number]));
    const [name, printed] = VERDICTS[kind];
    if (name !== "same" || amount === 0) {
      const index = before + here;
      const isMismatch = before > 0 && name === "differs";
      const commands = isMismatch ? journals.map((journal) => journal.command(here)) : [];
      const text = isMismatch ? mismatchAt(index, commands, version, ignoresPayloads) : said;
      return { kind: name, index, text: printed(index, text) };
    }
    journals.forEach((journal, side) => Object.assign(journal, ends[side], { left: journal.left - amount }));
    before += amount;
  }
}

/** What is said of a verdict before the page is there. */
function beginningOf({ kind, index }) {
  return kind === "same" ? "The journals are the same. " : `The journals part at command ${index}. `;
}

/** What makes the page: the facts of the journals, their lines, and the verdict on two. */
function read(journals, version, ignoresPayloads) {
  const most = Math.floor(MOST_ITEMS / journals.length);
  const say = progressOf(journals);
  let verdict = null;
  let start = 0;
  if (journals.length === 2) {
    verdict = verdictOn(journals, version, ignoresPayloads, say);
    const { kind, index } = verdict;
    start = kind === "same" ? 0 : Math.max(0, index - Math.min(BEFORE, Math.floor(most / 10)));
  }
  const ends = journals.map((journal) => {
    while (journal.advance()) say();
    if (journal.items === 0 && journal.size > 0) {
      throw new Refused(`${journal.name}: no message in it; is it a journal of version ${version}?`);
    }
    return journal.at;
  });
  postMessage({ progress: `${verdict === null ? "" : beginningOf(verdict)}Decoding ..` });
  const firsts = journals.map((journal) => {
    // the last part that begins before the place
    const isBefore = ({ item, command }) => item + most < journal.items && command < start;
    return journal.reach(journal.marks.findLast(isBefore) ?? { at: 0, item: 0, command: 0 }, start, most);
  });
  const command = Math.max(...firsts.map((first) => first.command));
  const shown = journals.map((journal, side) => {
    const first = journal.reach(firsts[side], command, 0);
    return { first, lines: journal.lines(first, most) };
  });
  const facts = journals.map(({ name, items, commands, size }, side) => {
    const { first, lines } = shown[side];
    const [firstItem, firstCommand] = [first.item, first.command];
    return { name, items, commands, shown: lines.length, firstItem, firstCommand, bytes: size };
  });
  const lines = journals.map((journal, side) => [...shown[side].lines, journal.restLine(ends[side])].join("\n"));
  return { about: { verdict, journals: facts }, lines };
}

onmessage = async ({ data: { module, files, schema, renames, version, ignoresPayloads, types } }) => {
  try {
    const compiled = await WebAssembly.compile(module);
    useInstances(() => new WebAssembly.Instance(compiled).exports);
    const numbering = schema && new Numbering(schema, renames);
    const journals = files.map((file) => new Journal(file, { version, types, numbering }));
    postMessage(read(journals, version, ignoresPayloads));
  } catch (error) {
    postMessage({ refused: error instanceof Refused ? error.message : `It cannot be read: ${error.message}` });
  }
};
