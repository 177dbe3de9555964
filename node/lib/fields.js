// Records and the table of fields: a record is read from the fields that the library finds in a payload, and written as
// those of which the library makes one. Nothing is known here of how a payload is encoded.

import { canonical, checked } from './calls.js';
import { FIELD, FIELD_KINDS, FIELD_NUMBERS, UNKNOWN_SCHEMA, WRITINGS } from './declared.js';
import { NOT_CANONICAL, fieldError, notKnown, wrongField, wrongKind } from './errors.js';
import { copiedFrom, lengthOf } from './pool.js';
import { RECORDS } from './records.js';
import { FIRST, Room } from './room.js';
import { schemaNumber } from './schemas.js';
import { isText, texts } from './text.js';

// The kinds of fields that are told apart here, by the numbers of the library.
const U32 = FIELD_KINDS.indexOf('fieldUint32');
const U64 = FIELD_KINDS.indexOf('fieldUint64');
const BOOL = FIELD_KINDS.indexOf('fieldBool');
const ENUM = FIELD_KINDS.indexOf('fieldEnum');
const TEXT = FIELD_KINDS.indexOf('fieldString');
const BYTES = FIELD_KINDS.indexOf('fieldBytes');
const MESSAGE = FIELD_KINDS.indexOf('fieldMessage');

const MOST_U32 = 0xffff_ffff;

// The method itself, since V8 looks one up at each access.
const { set } = Uint8Array.prototype;

// Where the lower half of each number of an entry is.
const LEVEL = 2 * FIELD.level;
const NUMBER = 2 * FIELD.number;
const KIND = 2 * FIELD.kind;
const VALUE = 2 * FIELD.value;
const OFFSET = 2 * FIELD.offset;
const LENGTH = 2 * FIELD.length;
const HALVES = 2 * FIELD_NUMBERS;

// How many entries there is room for at first in what is read, and how many entries and bytes in what is written.
const READ_ENTRIES = 512;
const WRITTEN_ENTRIES = 16;
const WRITTEN_BYTES = 1024;

// Up to how many bytes a payload is made a text at once, and up to how many units a text is looked through here: of
// what is short the calls are most of the time.
const SHORT_PAYLOAD = 1024;
const SHORT_TEXT = 128;

// Up to how many bytes a payload that no one else has is copied for the call, and up to how many of them a loop copies.
const SHORT_BYTES = 128;
const FEW_BYTES = 12;

// The room for what is read, once it was needed and while no record is read.
let reading;

/** A field of a record, or a member of a oneof; the fields of a oneof are one, with its members as its cases. */
class Row {
  constructor([name, number, kind, shape, holds, member]) {
    this.name = name;
    this.number = number;
    this.kind = kind;
    this.shape = shape;
    this.holds = holds;
    this.member = member;
    // whether it is left out where it is empty or 0, and whether it has one value of one kind
    this.isPlain = shape === 'plain';
    this.isOne = shape === 'plain' || shape === 'optional';
    this.cases = undefined;
  }
}

/** A record. All have the same class, and so V8 finds what they have at the same places. */
class Schema {
  constructor({ name, make, rows }) {
    this.name = name;
    this.make = make;
    this.byNumber = [];
    this.members = new Map();
    for (const fields of rows) {
      this.add(new Row(fields), new Row(fields));
    }
    this.entries = [...this.members.values()];
  }

  /** Adds a row, and a second one for its oneof if it is the first member of that. */
  add(row, first) {
    this.byNumber[row.number] = row;
    if (row.shape !== 'member') {
      this.members.set(row.name, row);
      return;
    }
    if (!this.members.has(row.name)) {
      first.cases = [];
      this.members.set(row.name, first);
    }
    this.members.get(row.name).cases.push(row);
  }
}

const SCHEMAS = RECORDS.map((record) => new Schema(record));

/**
 * The record that a payload means, in any encoding, for a call. Bytes in it are parts of the payload, or of its
 * canonical one. One that `isOwn` is an array that a stream has made.
 */
export function recordOf(call, schema, payload, isOwn = false) {
  const room = reading ?? new Room(READ_ENTRIES, SHORT_BYTES);
  // a class of arrays may have methods of its own, which may come here again
  reading = undefined;
  try {
    return recordBy(room, { call, schema, payload }, isOwn);
  } finally {
    reading = room;
  }
}

/** The same by a room, or by a larger one if it has too few entries. */
function recordBy(first, given, isOwn) {
  const { call, schema, payload } = given;
  let room = first;
  let data = payload;
  let count = isOwn && isShort(payload) ? readCopy(room, schema, payload) : room.read(schema, payload);
  if (count === NOT_CANONICAL) {
    data = canonical(schema, payload);
    count = room.read(schema, data);
  }
  if (checked(count, given) > room.entries) {
    room = new Room(count, 0);
    checked(room.read(schema, data), given);
  }
  if (schema >= SCHEMAS.length) {
    throw notKnown(call, 'schema', schema);
  }
  return new Reader(call, room, count, data).record(SCHEMAS[schema], 0);
}

/** Whether a payload is short, and not that of a detached buffer, which seems to be empty. */
function isShort({ length }) {
  return length > 0 && length <= SHORT_BYTES;
}

/** Reads a copy of a payload. */
function readCopy(room, schema, payload) {
  const { bytes } = room;
  const { length } = payload;
  if (length > FEW_BYTES) {
    set.call(bytes, payload);
  } else {
    for (let at = 0; at < length; at += 1) {
      bytes[at] = payload[at];
    }
  }
  return room.readOwn(schema, length);
}

class Reader {
  constructor(call, room, count, data) {
    this.call = call;
    this.room = room;
    this.end = FIRST + HALVES * count;
    this.data = data;
    // each byte of a short payload as a unit, once a text is read
    this.units = undefined;
    this.at = FIRST;
  }

  /** The record of the entries of a level, from the next one on. */
  record(record, level) {
    const found = record.make();
    const { halves } = this.room;
    while (this.at < this.end && halves[this.at + LEVEL] === level) {
      const { at } = this;
      const row = record.byNumber[halves[at + NUMBER]];
      if (row === undefined) {
        throw notKnown(this.call, 'field', `${halves[at + NUMBER]} of ${record.name}`);
      }
      this.at += HALVES;
      const value = this.value(row, halves, at, level);
      if (row.shape === 'member') {
        found[row.name] = { case: row.member, value };
      } else if (row.shape === 'repeated') {
        found[row.name].push(value);
      } else {
        found[row.name] = value;
      }
    }
    return found;
  }

  bytes(begin, end) {
    return this.data.subarray(begin, end);
  }

  text(begin, end) {
    const { data } = this;
    if (data.length > SHORT_PAYLOAD || !areAscii(data, begin, end)) {
      return texts.utf8(data, begin, end);
    }
    this.units ??= texts.latin1(data);
    return this.units.slice(begin, end);
  }

  value({ kind, holds }, halves, at, level) {
    switch (kind) {
      case BYTES:
        return this.bytes(halves[at + OFFSET], halves[at + OFFSET] + halves[at + LENGTH]);
      case TEXT:
        return this.text(halves[at + OFFSET], halves[at + OFFSET] + halves[at + LENGTH]);
      case MESSAGE:
        return this.record(SCHEMAS[holds], level + 1);
      case BOOL:
        return halves[at + VALUE] !== 0;
      case ENUM:
        return halves[at + VALUE] | 0;
      case U64:
        return this.room.numbers[(at + VALUE) / 2];
      default:
        return halves[at + VALUE];
    }
  }
}

/** Whether all bytes from one to an end are ASCII. */
function areAscii(data, begin, end) {
  for (let at = begin; at < end; at += 1) {
    if (data[at] > 0x7f) {
      return false;
    }
  }
  return true;
}

/** The canonical payload of a record. */
export function payloadOf(schema, value) {
  const writer = spare ?? new Writer();
  // a value may have getters, which may come here again
  spare = undefined;
  try {
    return writer.payload(schema, value);
  } finally {
    // one that a long record made large is not kept
    spare = writer.bytes.length <= 65536 && writer.room.entries <= 1024 ? writer : undefined;
  }
}

/** What writes the next record, if it is not in use. */
let spare;

// The row of a record that is in no other one.
const ROOT = { name: 'record', member: undefined };

export function readRecord(schema, payload) {
  return recordOf('readRecord', known(schema, 'readRecord'), payload);
}

export function writeRecord(schema, record) {
  return payloadOf(known(schema, 'writeRecord'), record);
}

/** The number of a schema that is given by its number or its name. */
function known(schema, call) {
  if (typeof schema !== 'string' && typeof schema !== 'number') {
    throw wrongKind('schema', schema, 'a number or a name');
  }
  const number = schemaNumber(schema);
  return SCHEMAS[number] === undefined ? checked(UNKNOWN_SCHEMA, { call, schema }) : number;
}

class Writer {
  schema = 0;
  room = new Room(WRITTEN_ENTRIES, WRITTEN_BYTES);
  // those of the room
  halves = this.room.halves;
  bytes = this.room.bytes;
  count = 0;
  size = 0;

  payload(schema, value) {
    this.schema = schema;
    this.count = 0;
    this.size = 0;
    this.record(SCHEMAS[schema], value, 0, ROOT);
    const { room } = this;
    const length = checked(room.write(schema, this.count, this.size), { call: 'payload', schema });
    if (room.kind !== 0) {
      throw rejected(SCHEMAS[schema], room, room.index, room.kind);
    }
    return copiedFrom(room.out, length);
  }

  /** Appends the entries of a record, which is the value of a row. */
  record(record, values, level, row) {
    if (typeof values !== 'object' || values === null) {
      throw notRecord(record, values, row);
    }
    const { entries } = record;
    let next = 0;
    // the names of a record that was read are those of its fields, in their order
    for (const name in values) {
      const entry = entries[next];
      if (entry === undefined || entry.name !== name) {
        next = this.passed(record, values, name, next, level, row);
      } else {
        next += 1;
        const value = values[name];
        if (value === undefined) {
          continue;
        }
        if (entry.isOne) {
          this.value(entry, value, level);
        } else {
          this.several(entry, value, level);
        }
      }
    }
    // only what does not begin with its first field is looked at, so that a whole record takes no longer
    if (next === 0 && !mayBeRecord(record, values)) {
      throw notRecord(record, values, row);
    }
    if (next < entries.length) {
      this.fields(entries, next, entries.length, values, level);
    }
  }

  /** Appends the entries of the fields up to that of a name, which is not next, and returns which one is. */
  passed(record, values, name, next, level, row) {
    const { entries } = record;
    const entry = record.members.get(name);
    const isUnknown = entry === undefined && Object.hasOwn(values, name);
    if ((isUnknown || next === 0) && !mayBeRecord(record, values)) {
      throw notRecord(record, values, row);
    }
    if (isUnknown) {
      throw wrongField(name, values[name], `a field of ${record.name}, which has none of this name`);
    }
    const end = entry === undefined ? next : Math.max(next, entries.indexOf(entry) + 1);
    this.fields(entries, next, end, values, level);
    return end;
  }

  /** Appends the entries of the fields from one on to an end. */
  fields(entries, begin, end, values, level) {
    for (let index = begin; index < end; index += 1) {
      const entry = entries[index];
      const value = values[entry.name];
      if (value !== undefined) {
        if (entry.isOne) {
          this.value(entry, value, level);
        } else {
          this.several(entry, value, level);
        }
      }
    }
  }

  /** Appends the entries of a field that may have several, or of one of several kinds. */
  several(row, value, level) {
    if (row.shape === 'member') {
      const chosen = caseOf(row.cases, value?.case);
      if (chosen === undefined) {
        throw wrongField(row.name, value, `{ case, value } of ${row.cases.map(({ member }) => member).join(', ')}`);
      }
      this.value(chosen, value.value, level);
      return;
    }
    if (!Array.isArray(value)) {
      throw wrongField(row.name, value, 'an array');
    }
    for (const element of value) {
      this.value(row, element, level);
    }
  }

  value(row, value, level) {
    switch (row.kind) {
      case BYTES:
        if (!(value instanceof Uint8Array)) {
          throw notOf(row, value, 'a Uint8Array');
        }
        this.entry(row, level, 0, this.put(value));
        break;
      case TEXT:
        if (typeof value !== 'string') {
          throw notOf(row, value, 'a string');
        }
        if (value !== '' || !row.isPlain) {
          this.entry(row, level, 0, this.text(value));
        }
        break;
      case MESSAGE:
        this.entry(row, level, row.holds, 0);
        this.record(SCHEMAS[row.holds], value, level + 1, row);
        break;
      case U32:
        this.whole(row, value, level);
        break;
      default:
        this.number(row, value, level);
    }
  }

  /** Appends the entry of a number of 32 bits, if it is one that has an entry; most are. */
  whole(row, value, level) {
    if (typeof value === 'number' && value > 0 && value <= MOST_U32 && Number.isInteger(value)) {
      this.entry(row, level, value, 0);
    } else {
      this.number(row, value, level);
    }
  }

  /** Appends the entry of a number or a boolean. */
  number(row, value, level) {
    switch (row.kind) {
      case BOOL:
        if (typeof value !== 'boolean') {
          throw notOf(row, value, 'a boolean');
        }
        this.entry(row, level, value ? 1 : 0, 0);
        break;
      case U64:
        if (typeof value !== 'bigint') {
          throw notOf(row, value, 'a bigint');
        }
        this.entry(row, level, 0, 0);
        if (value !== BigInt.asUintN(64, value)) {
          throw fieldError(pathOf(SCHEMAS[this.schema], this.room, this.count - 1), 'outOfRange');
        }
        this.room.numbers[(this.last + VALUE) / 2] = value;
        break;
      default:
        if (typeof value !== 'number') {
          throw notOf(row, value, 'a number');
        }
        if (!Number.isSafeInteger(value)) {
          throw notOf(row, value, 'a whole number');
        }
        if (value !== 0 || !row.isPlain) {
          // which the library rejects if its kind cannot have it
          this.entry(row, level, value, 0);
          if (value < 0 || value > MOST_U32) {
            this.halves[this.last + VALUE + 1] = Math.floor(value / 0x1_0000_0000);
          }
        }
    }
  }

  /** Where the last entry is. */
  get last() {
    return FIRST + HALVES * (this.count - 1);
  }

  /** Appends an entry with a value below 2^32, and with so many of the bytes that were written. */
  entry({ number, kind }, level, value, length) {
    if (this.count === this.room.entries) {
      this.grow(2 * this.count, this.bytes.length);
    }
    const { halves } = this;
    const at = FIRST + HALVES * this.count;
    halves[at + LEVEL] = level;
    halves[at + NUMBER] = number;
    halves[at + KIND] = kind;
    halves[at + VALUE] = value;
    // the room had other entries before; the upper halves of their places are never set
    halves[at + VALUE + 1] = 0;
    halves[at + OFFSET] = this.size;
    halves[at + LENGTH] = length;
    this.size += length;
    this.count += 1;
  }

  /** Writes bytes after those that have an entry, and returns how many. */
  put(value) {
    const length = lengthOf(value);
    if (length > this.bytes.length - this.size) {
      this.reserve(length);
    }
    const { bytes, size } = this;
    // a view on a detached buffer seems to be empty; the call throws then
    if (length === 0 || length > FEW_BYTES) {
      set.call(bytes, value, size);
      return length;
    }
    for (let at = 0; at < length; at += 1) {
      bytes[size + at] = value[at];
    }
    return length;
  }

  /** Writes a text after the bytes that have an entry, and returns how many bytes it has. */
  text(value) {
    const most = 3 * value.length + 1;
    if (most > this.bytes.length - this.size) {
      this.reserve(most);
    }
    if (value.length <= SHORT_TEXT && this.ascii(value)) {
      return value.length;
    }
    const written = texts.writeUtf8(this.bytes, value, this.size);
    if (!isText(value)) {
      // half a surrogate is in no text; the library says so of a byte that is in none
      this.bytes[this.size] = 0xff;
    }
    return written;
  }

  /** Writes a text after the bytes, and returns whether all of it is ASCII. */
  ascii(text) {
    const { bytes, size } = this;
    for (let at = 0; at < text.length; at += 1) {
      const unit = text.charCodeAt(at);
      if (unit > 0x7f) {
        return false;
      }
      bytes[size + at] = unit;
    }
    return true;
  }

  /** Makes room for more bytes. */
  reserve(count) {
    // a multiple of 8
    this.grow(this.room.entries, 16 * Math.ceil((this.size + count) / 8));
  }

  /** Takes a larger room, with what is in this one. */
  grow(entries, size) {
    const room = new Room(entries, size);
    room.halves.set(this.halves.subarray(FIRST), FIRST);
    // also those that have no entry yet
    room.bytes.set(this.bytes);
    this.room = room;
    this.halves = room.halves;
    this.bytes = room.bytes;
  }
}

/**
 * Whether an object may be a record: not an array or bytes, nor an object of a class without any of the fields. The
 * prototype of one that is of no class has none itself, in any realm.
 */
function mayBeRecord({ entries }, values) {
  if (Array.isArray(values) || ArrayBuffer.isView(values)) {
    return false;
  }
  const prototype = Object.getPrototypeOf(values);
  const isOfNoClass = prototype === null || Object.getPrototypeOf(prototype) === null;
  return isOfNoClass || entries.length === 0 || entries.some(({ name }) => name in values);
}

/** The row of a member among those of its oneof. */
function caseOf(rows, member) {
  for (let index = 0; index < rows.length; index += 1) {
    if (rows[index].member === member) {
      return rows[index];
    }
  }
  return undefined;
}

/** The error that a value is of another kind than its row. */
function notOf(row, value, wanted) {
  return wrongField(row.member ?? row.name, value, wanted);
}

/** The error that the value of a row is not a record. */
function notRecord(record, values, row) {
  return notOf(row, values, `an object of ${record.name}`);
}

/** The error that a field cannot be encoded, with the path that leads to it. */
function rejected(record, room, index, kind) {
  return kind < WRITINGS.length
    ? fieldError(pathOf(record, room, index), WRITINGS[kind])
    : notKnown('payload', 'kind of table', kind);
}

/** What leads to an entry of a room, as 'headers[2].key'. */
function pathOf(record, { halves }, index) {
  const records = [record];
  const counts = [new Map()];
  const names = [];
  for (let at = FIRST; at <= FIRST + HALVES * index; at += HALVES) {
    const level = halves[at + LEVEL];
    const row = records[level].byNumber[halves[at + NUMBER]];
    records.length = level + 1;
    counts.length = level + 1;
    names.length = level;
    let name = row.member ?? row.name;
    if (row.shape === 'repeated') {
      const count = (counts[level].get(row.number) ?? -1) + 1;
      counts[level].set(row.number, count);
      name = `${name}[${count}]`;
    }
    names.push(name);
    if (row.kind === MESSAGE) {
      records.push(SCHEMAS[row.holds]);
      counts.push(new Map());
    }
  }
  return names.join('.');
}
