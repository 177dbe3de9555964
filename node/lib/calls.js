// The calls over numbers, names and payloads.

import { addon } from './addon.js';
import {
  FIRST_VERSION,
  ID_KINDS,
  LAST_VERSION,
  NOTIFICATION_NUMBERS,
  READING,
  READINGS,
  READ_NUMBERS,
  RESULT_KINDS,
  UNKNOWN_SCHEMA,
  VERDICT_KINDS,
  VERDICT_NUMBERS,
} from './declared.js';
import { Unknown, codeText, notKnown, notTaken, refusal, wrongKind } from './errors.js';
import { optionsOf } from './options.js';
import { Scratch, copied, copiedFrom } from './pool.js';
import { schemaNumber } from './schemas.js';
import { isText, texts } from './text.js';

export { FIRST_VERSION, LAST_VERSION };

const encoder = new TextEncoder();

// What calls write to, and read of texts that are short. No JavaScript of others runs between a call and the reading of
// it.
const scratch = new Scratch(new ArrayBuffer(65536));
const head = new Uint8Array(8);
const SHORT_TEXT = 4096;
let scratchText;
const readNumbers = new BigUint64Array(READ_NUMBERS);
const notificationNumbers = new BigUint64Array(NOTIFICATION_NUMBERS);
const verdictNumbers = new BigUint64Array(VERDICT_NUMBERS);

export function libraryVersion() {
  return filled((out) => addon.libraryVersion(out), { call: 'libraryVersion' }, textOf);
}

// What the library returned of types, and would return again: of named ones by version and code or name, and the names
// and the codes of the first so many, since custom entries have some sixty thousand.
const typesOf = [];
const namedOf = [];
const namesOf = new Map();
const codesOf = new Map();
const MOST_REMEMBERED = 256;
// The greatest length of a payload.
const MOST_LENGTH = 0xffffffff;

/** What a map has of a key, or what a call returns, which is then in the map. */
function remembered(map, key, call) {
  const found = map.get(key);
  if (found !== undefined) {
    return found;
  }
  const value = call();
  if (map.size < MOST_REMEMBERED) {
    map.set(key, value);
  }
  return value;
}

/** What is remembered of a named type at a version, for a call, which an error names. */
function typeOf(version, code, call) {
  const found = foundIn(typesOf, version, code);
  if (found !== undefined) {
    return found;
  }
  const number = checked(addon.schema(version, code), { call, version, code });
  return remember(typesOf, version, code, { code, schema: number, high: undefined });
}

/** The same of a type by its name, or by its code. */
export function typeNamed(version, name, call) {
  if (typeof name !== 'string') {
    return typeOf(version, name, call);
  }
  const found = foundIn(namedOf, version, name);
  return found ?? remember(namedOf, version, name, typeOf(version, codeNamed(name, call), call));
}

/** What is remembered of a key at a version, which is a number. */
function foundIn(types, version, key) {
  return typeof version === 'number' ? types[version]?.get(key) : undefined;
}

/** Remembers a type by a key at a version that there is. */
function remember(types, version, key, type) {
  types[version] ??= new Map();
  types[version].set(key, type);
  return type;
}

export function schema(version, code) {
  return typeOf(version, code, 'schema').schema;
}

/** The upper half of the header of a named type at a version. The lower one is the length of the payload. */
export function highOf(version, type) {
  type.high ??= highIn(headOf(version, type.code, 0));
  return type.high;
}

/** The same of any type by its code, for a payload of a length, and for a call, which an error names. */
export function highFor(version, code, payloadLength, call) {
  const type = foundIn(typesOf, version, code);
  // the library rejects any other length
  const isKnown = type !== undefined && payloadLength <= MOST_LENGTH;
  return isKnown ? highOf(version, type) : highIn(headOf(version, code, payloadLength, call));
}

/** Whether a header requests an acknowledgement, by its upper half. */
export function requestsAck(high) {
  return (high & 0x8000) !== 0;
}

/** The upper half of the bytes of a header, with the sign of its first bit, so that V8 needs no memory for it. */
function highIn([first, second, third, fourth]) {
  return (first << 24) | (second << 16) | (third << 8) | fourth;
}

export function typeName(code) {
  const call = (out) => addon.typeName(code, out);
  return remembered(namesOf, code, () => filled(call, { call: 'typeName', code }, textOf));
}

export function typeCode(name) {
  if (typeof name !== 'string') {
    throw wrongKind('name', name, 'a string');
  }
  return codeNamed(name, 'typeCode');
}

/** The code of a type by its name, for a call, which an error names. */
function codeNamed(name, call) {
  return remembered(codesOf, name, () => checked(addon.typeCode(encoder.encode(name)), { call, name }));
}

/** The name of a type, or its code where a message was made with one that no type has. */
export function nameOf(code) {
  return nameIfAny(code) ?? `code ${codeText(code)}`;
}

/** The name of a type, or undefined of a code that no type has. */
export function nameIfAny(code) {
  try {
    return typeName(code);
  } catch (error) {
    if (error instanceof Unknown) {
      return undefined;
    }
    throw error;
  }
}

/** The number of the schema of a message, or undefined of a custom entry, which has none. */
export function schemaOf(version, code) {
  try {
    return schema(version, code);
  } catch (error) {
    if (!(error instanceof Unknown)) {
      throw error;
    }
    // what has a header and no schema is a custom entry; this throws if there is no such version or type
    header(version, code, 0);
    return undefined;
  }
}

export function header(version, code, payloadLength) {
  return copied(headOf(version, code, payloadLength), 0, head.length);
}

/** A header, in bytes that the next one is written to. */
function headOf(version, code, payloadLength, call = 'header') {
  checked(addon.header(version, code, payloadLength, head), { call, version, code, payloadLength });
  return head;
}

export function frame(version, code, payload, call = 'frame') {
  const given = { call, version, code, payload };
  return filled((out) => addon.frame(version, code, payload, out), given, bytesOf);
}

export function frameInto(version, code, payload, out) {
  if (out instanceof Uint8Array && payload?.buffer === out.buffer) {
    // the library does not take what it writes to as what it reads
    const found = frame(version, code, payload, 'frameInto');
    if (found.length <= out.length) {
      out.set(found);
    }
    return found.length;
  }
  return checked(addon.frame(version, code, payload, out), { call: 'frameInto', version, code, payload });
}

export function isWellFormed(schema, payload) {
  const given = { call: 'isWellFormed', schema, payload };
  return checked(addon.isWellFormed(known(schema, given), payload), given) === 1;
}

export function canonical(schema, payload) {
  const given = { call: 'canonical', schema, payload };
  const number = known(schema, given);
  return filled((out) => addon.canonical(number, payload, out), given, bytesOf);
}

export function merge(schema, first, second) {
  const given = { call: 'merge', schema, first, second };
  const number = known(schema, given);
  return filled((out) => addon.merge(number, first, second, out), given, bytesOf);
}

export function toJson(schema, payload) {
  const given = { call: 'toJson', schema, payload };
  const number = known(schema, given);
  return filled((out) => addon.json(number, payload, out), given, textOf);
}

export function fromJson(schema, json) {
  return payloadOfJson('fromJson', schema, json);
}

/** The same for a call, which an error names. */
export function payloadOfJson(name, schema, json) {
  const given = { call: name, schema, json };
  const number = known(schema, given);
  const utf8 = typeof json === 'string' ? utf8Of(json) : json;
  const call = (out) => addon.payloadOfJson(number, utf8, readNumbers, out);
  return filled(call, given, (out, length) => {
    const reading = kindOf(READINGS, Number(readNumbers[READING.kind]), given, 'kind of JSON text');
    if (reading === 'read') {
      return bytesOf(out, length);
    }
    const offset = reading === 'notJson' ? Number(readNumbers[READING.offset]) : undefined;
    throw notTaken(given, { reason: reading, offset, path: textOf(out, length) });
  });
}

export function notification(code, payload) {
  const given = { call: 'notification', code, payload };
  const found = written((out) => addon.notification(code, payload, notificationNumbers, out), given);
  const [idNumber, number, nameLength, resultNumber] = Array.from(notificationNumbers, Number);
  const idKind = kindOf(ID_KINDS, idNumber, given, 'kind of id');
  const resultKind = kindOf(RESULT_KINDS, resultNumber, given, 'kind of result');
  const id = idKind === 'signalName' ? text(found.subarray(0, nameLength)) : number;
  return { idKind, id, resultKind, result: copied(found, nameLength, found.length) };
}

export function headerEq(code, first, second, options) {
  const { ignorePayloads = false } = optionsOf(options, ['ignorePayloads']);
  return checked(addon.headerEq(code, first, second, ignorePayloads), { call: 'headerEq', code, first, second }) === 1;
}

export function difference(code, first, second) {
  const given = { call: 'difference', code, first, second };
  return filled((out) => addon.difference(code, first, second, out), given, textOf);
}

export function compareJournals(version, recorded, replayed, options) {
  const { ignorePayloads = false } = optionsOf(options, ['ignorePayloads']);
  const given = { call: 'compareJournals', version };
  const found = written(
    (out) => addon.verdict(version, recorded, replayed, ignorePayloads, verdictNumbers, out),
    given,
  );
  const [kind, index] = Array.from(verdictNumbers, Number);
  return { kind: kindOf(VERDICT_KINDS, kind, given, 'kind of verdict'), index, text: text(found) };
}

/** What a call returned, which is not an error. `given` has its name and its arguments. */
export function checked(returned, given) {
  if (returned < 0) {
    throw refusal(returned, given);
  }
  return returned;
}

/**
 * What is taken of what a call writes into room that is enough: of `scratch`, which the next call writes to, or of an
 * array for it, up to a length.
 */
function filled(call, given, take) {
  let out = scratch.bytes;
  for (;;) {
    const needed = checked(call(out), given);
    if (needed <= out.length) {
      return take(out, needed);
    }
    out = new Uint8Array(needed);
  }
}

/** The bytes that a call writes, which are only there until the next call. */
export function written(call, given) {
  return filled(call, given, (out, length) => out.subarray(0, length));
}

/** The same, which are the caller's. */
export function bytesWritten(call, given) {
  return filled(call, given, bytesOf);
}

/** Bytes that were written, which are the caller's. */
function bytesOf(out, length) {
  return out === scratch.bytes ? copiedFrom(scratch, length) : out.subarray(0, length);
}

function textOf(out, length) {
  return texts.utf8(out, 0, length);
}

/** Bytes that were written, as a text. */
export function text(found) {
  return texts.utf8(found, 0, found.length);
}

/**
 * A text as UTF-8, which is only there until the next one. Half a surrogate, which has none, becomes a byte that is in
 * no text; nothing after it matters.
 */
function utf8Of(json) {
  if (isText(json)) {
    return encoded(json);
  }
  const end = json.search(/\p{Surrogate}/u);
  const before = encoded(json.slice(0, end));
  const bytes = new Uint8Array(before.length + 1).fill(0xff);
  bytes.set(before);
  return bytes;
}

/** The same of a text without half a surrogate. The encoder makes an array each time, which takes longest of it. */
function encoded(text) {
  if (text.length > SHORT_TEXT) {
    return encoder.encode(text);
  }
  scratchText ??= texts.unwritten(3 * SHORT_TEXT);
  return scratchText.subarray(0, texts.writeUtf8(scratchText, text, 0));
}

/** The number of a schema. What is neither a number nor a name, the addon does not take. */
export function known(schema, given) {
  const isUnknownName = typeof schema === 'string' && schemaNumber(schema) === undefined;
  return isUnknownName ? checked(UNKNOWN_SCHEMA, given) : schemaNumber(schema);
}

export function kindOf(kinds, number, given, what) {
  if (number >= kinds.length) {
    throw notKnown(given.call, what, number);
  }
  return kinds[number];
}
