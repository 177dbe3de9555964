// The items of a stream.

import { addon } from './addon.js';
import {
  LAST_VERSION,
  canonical,
  checked,
  frame,
  frameInto,
  highFor,
  highOf,
  nameOf,
  notification,
  payloadOfJson,
  requestsAck,
  schema,
  schemaOf,
  toJson,
  typeName,
  typeNamed,
} from './calls.js';
import { Unknown, notKnown, ofMessage, recordMeant, wrongKind } from './errors.js';
import { payloadOf, recordOf } from './fields.js';
import { frameAt, into } from './frames.js';
import { bytesIn } from './module_memory.js';
import { headed } from './pool.js';
import { isCommandCode, isNotificationCode } from './protocol.js';
import { RECORDS } from './records.js';
import { numberingOf } from './renumber.js';
import { schemaNumber } from './schemas.js';
import { texts } from './text.js';

const NOTHING = new Uint8Array(0);

// What says that a constructor is given the flag, as of what came; no caller has it.
const FLAGGED = Symbol('flagged');

// The items of a stream, each with the offset at which it begins there. One class for what they share would make each
// seven times as slow to construct.
export let messageThatCame;
export let unknownCodeThatCame;
export let skippedThatCame;

/** How many bytes the payload of a message has as received. */
export let receivedLength;

/** A message of a stream. */
export class Message {
  // the word in halves, each with the sign of its first bit, of a message of a stream
  #high;
  #low;
  #offset;
  // the payload as received, which a numbering has read or a caller has replaced since
  #received;
  // the payload that the stream has made, which a caller may have replaced since
  #own;
  kind = 'message';

  static {
    messageThatCame = (offset, high, low, version, code, payload, requestedAck, read) => {
      const message = new Message(version, code, read ?? payload, FLAGGED, requestedAck);
      message.#high = high;
      message.#low = low;
      message.#offset = offset;
      message.#received = payload;
      message.#own = message.payload;
      return message;
    };
    receivedLength = (message) => (message.#received ?? message.payload).length;
  }

  constructor(version, code, payload, flagged, requestedAck) {
    this.version = version;
    this.code = code;
    this.payload = payload;
    this.requestedAck = flagged === FLAGGED ? requestedAck : flagFor(version, code, payload);
  }

  static of(type, record, version = 8) {
    const found = typeNamed(version, type, 'Message.of');
    if (found.schema >= RECORDS.length) {
      throw notKnown('Message.of', 'schema', found.schema);
    }
    return made(version, found, payloadOf(found.schema, record));
  }

  static fromJson(type, json, version = 8) {
    const found = typeNamed(version, type, 'Message.fromJson');
    const text = isPlainObject(json) ? JSON.stringify(json) : json;
    return made(version, found, payloadOfJson('Message.fromJson', found.schema, text));
  }

  get word() {
    return this.#high === undefined ? undefined : wordOf(this.#high, this.#low);
  }

  get offset() {
    return this.#offset;
  }

  get bytes() {
    if (this.#received !== undefined) {
      return headed(this.#high, this.#low, this.#received);
    }
    // what came in no stream has the header of its type
    const { version, code, payload } = this;
    return headed(highFor(version, code, payload.length), payload.length, payload);
  }

  get type() {
    return typeName(this.code);
  }

  get message() {
    try {
      const number = schemaOf(this.version, this.code);
      return number === undefined ? undefined : this.#record(number);
    } catch (error) {
      throw this.#ofThis(error);
    }
  }

  record(name) {
    const wanted = messageSchema(name);
    if (this.code !== RECORDS[wanted].code || this.schema !== wanted) {
      return undefined;
    }
    try {
      return this.#record(wanted);
    } catch (error) {
      throw this.#ofThis(error);
    }
  }

  get schema() {
    try {
      return schema(this.version, this.code);
    } catch (error) {
      throw this.#ofThis(error);
    }
  }

  get isCommand() {
    return isCommandCode(this.code);
  }

  get isNotification() {
    return isNotificationCode(this.code);
  }

  json() {
    return JSON.parse(this.#read(() => toJson(schema(this.version, this.code), this.payload)));
  }

  canonical() {
    return this.#read(() => canonical(schema(this.version, this.code), this.payload));
  }

  frame(version = this.version, options) {
    return this.#frame('frame', version, options);
  }

  frameInto(out, version = this.version, options) {
    const earlier = earlierSchema(this.version, this.code);
    if (earlier === undefined && numberingOf(options) === undefined) {
      return this.#read(() => frameInto(version, this.code, this.payload, out));
    }
    return into(out, () => this.#frame('frameInto', version, options));
  }

  #frame(call, version, options) {
    const numbering = numberingOf(options);
    const earlier = earlierSchema(this.version, this.code);
    const found = this.#read(() =>
      earlier === undefined
        ? frame(version, this.code, this.payload, call)
        : earlierFrame(call, version, this.code, earlier, this.payload),
    );
    return numbering === undefined ? found : frameAt(numbering, call, version, found);
  }

  notification() {
    return this.#read(() => notification(this.code, this.payload));
  }

  /** What reads the message. */
  #read(read) {
    try {
      return read();
    } catch (error) {
      throw this.#ofThis(error);
    }
  }

  /** An error, which says of which message it is. */
  #ofThis(error) {
    return ofMessage(error, this.code, nameOf(this.code), this.#offset);
  }

  /** The record of the payload, by the number of its schema. */
  #record(number) {
    return recordOf('message', number, this.payload, this.payload === this.#own);
  }

  toString() {
    return `${nameOf(this.code)} ${this.payload.length}${this.requestedAck ? ' ack' : ''}`;
  }

  toJSON() {
    const { kind, version, code, requestedAck } = this;
    return { kind, version, code, type: nameOf(code), requestedAck, payload: texts.base64(this.payload) };
  }
}

/** The number of the schema of a message's record, by the name of the record. */
function messageSchema(name) {
  const number = typeof name === 'string' ? schemaNumber(name) : undefined;
  if (RECORDS[number]?.code === undefined) {
    const meant = typeof name === 'string' ? recordMeant(name) : '';
    throw wrongKind('name', name, `the name of a message's record${meant}`);
  }
  return number;
}

/** Whether the header of a new message requests an acknowledgement, by its version and its type. */
function flagFor(version, code, payload) {
  return requestsAck(highFor(version, code, bytesIn('payload', payload), 'Message'));
}

/** A message of a type that is remembered. */
function made(version, type, payload) {
  return new Message(version, type.code, payload, FLAGGED, requestsAck(highOf(version, type)));
}

/** The codes of types that have another schema at earlier versions. */
const EARLIER = new Set(RECORDS.filter((record) => record.beforeVersion !== undefined).map((record) => record.code));

/** The schema of a type at a version, if the type has another one since. What is not a version has none. */
function earlierSchema(version, code) {
  if (!EARLIER.has(code)) {
    return undefined;
  }
  const found = addon.schema(version, code);
  return found < 0 || found === schema(LAST_VERSION, code) ? undefined : found;
}

/** The frame of a payload whose schema its type has at earlier versions only; `frame` reads it by the later one. */
function earlierFrame(call, version, code, earlier, payload) {
  if (checked(addon.schema(version, code), { call, version, code }) !== earlier) {
    throw new Unknown(`${call}: protocol version ${version} has no ${RECORDS[earlier].name}`, { call });
  }
  const found = canonical(earlier, payload);
  return headed(highFor(version, code, found.length), found.length, found);
}

function hexOf(code) {
  return `0x${code.toString(16)}`;
}

/** The word of two halves of 32 bits, with a sign or without. */
export function wordOf(high, low) {
  return (BigInt(high >>> 0) << 32n) | BigInt(low >>> 0);
}

/** The eight bytes of a word, and after them a payload. */
function wordAnd(word, payload) {
  return headed(Number(BigInt.asUintN(32, word >> 32n)), Number(BigInt.asUintN(32, word)), payload);
}

/** Whether a value is an object as JSON has them, and of no class. */
function isPlainObject(value) {
  return typeof value === 'object' && value !== null && [Object.prototype, null].includes(Object.getPrototypeOf(value));
}

/** Eight bytes with an unassigned code, before version 9. */
export class UnknownCode {
  #offset;
  kind = 'unknownCode';

  static {
    unknownCodeThatCame = (offset, ...fields) => {
      const unknown = new UnknownCode(...fields);
      unknown.#offset = offset;
      return unknown;
    };
  }

  constructor(version, code, word) {
    this.version = version;
    this.code = code;
    this.word = word;
  }

  get offset() {
    return this.#offset;
  }

  record(name) {
    messageSchema(name);
    return undefined;
  }

  get bytes() {
    return wordAnd(this.word, NOTHING);
  }

  toString() {
    return `unknown ${hexOf(this.code)}`;
  }

  toJSON() {
    const { kind, version, code, word } = this;
    return { kind, version, code, word: word.toString() };
  }
}

/** A message of an unknown type, which is skipped with its payload from version 9 on. */
export class Skipped {
  #offset;
  // the payload as received
  #received;
  kind = 'skipped';

  static {
    skippedThatCame = (offset, ...fields) => {
      const skipped = new Skipped(...fields);
      skipped.#offset = offset;
      skipped.#received = skipped.payload;
      return skipped;
    };
  }

  constructor(version, code, word, payload) {
    this.version = version;
    this.code = code;
    this.word = word;
    this.payload = payload;
  }

  get offset() {
    return this.#offset;
  }

  record(name) {
    messageSchema(name);
    return undefined;
  }

  get bytes() {
    return wordAnd(this.word, this.#received ?? this.payload);
  }

  toString() {
    return `skipped ${hexOf(this.code)} ${this.payload.length}`;
  }

  toJSON() {
    const { kind, version, code, word } = this;
    return { kind, version, code, word: word.toString(), payload: texts.base64(this.payload) };
  }
}
