// The errors, and which of them a negative number of the library is.

import { ERRORS, FIRST_VERSION, LAST_VERSION } from './declared.js';
import { kindOf } from './module_memory.js';
import { SCHEMA_NAMES } from './protocol.js';
import { texts } from './text.js';

/** A call failed. */
export class JournalError extends Error {
  static {
    identify(this, 'JOURNAL_ERROR');
  }

  constructor(message, { call, argument, value } = {}) {
    super(message);
    this.call = call;
    this.argument = argument;
    hide(this, 'value', value);
  }
}

/** Gives an error a property that neither console.log nor JSON.stringify shows: it may hold secrets. */
function hide(error, name, value) {
  Object.defineProperty(error, name, { value, configurable: true, writable: true });
}

/** What errors of payloads have: the code of the type of the message, and where the message begins. */
class PayloadError extends JournalError {
  constructor(message, { typeCode, offset, ...details } = {}) {
    super(message, details);
    this.typeCode = typeCode;
    this.offset = offset;
  }
}

/** A payload is not well-formed for its schema. */
export class Malformed extends PayloadError {
  static {
    identify(this, 'JOURNAL_MALFORMED');
  }
}

/** An allocation of the library failed. */
export class OutOfMemory extends JournalError {
  static {
    identify(this, 'JOURNAL_OUT_OF_MEMORY');
  }
}

/** An array for numbers was too short, which this module never passes. */
export class NoRoom extends JournalError {
  static {
    identify(this, 'JOURNAL_NO_ROOM');
  }
}

/** A payload has, or would have, more than 4,294,967,295 bytes. */
export class TooLong extends JournalError {
  static {
    identify(this, 'JOURNAL_TOO_LONG');
  }
}

/** A message of a stream is longer than the limit of the stream. */
export class MessageTooLong extends TooLong {
  static {
    identify(this, 'JOURNAL_TOO_LONG');
  }

  constructor(message, { typeCode, length, limit, offset, trailing, ...details } = {}) {
    super(message, details);
    this.typeCode = typeCode;
    this.length = length;
    this.limit = limit;
    this.offset = offset;
    hide(this, 'trailing', trailing);
  }
}

/** A number or a name does not exist, or is not of the kind that the call is for. */
export class Unknown extends JournalError {
  static {
    identify(this, 'JOURNAL_UNKNOWN');
  }
}

/** A notification has no id. */
export class NoId extends PayloadError {
  static {
    identify(this, 'JOURNAL_NO_ID');
  }
}

/** A notification has an id, and no result. */
export class NoResult extends PayloadError {
  static {
    identify(this, 'JOURNAL_NO_RESULT');
  }
}

/** A payload is well-formed for its schema, and not canonical. */
export class NotCanonical extends JournalError {
  static {
    identify(this, 'JOURNAL_NOT_CANONICAL');
  }
}

/** A JSON text means no value of its schema. */
export class JsonError extends JournalError {
  static {
    identify(this, 'JOURNAL_JSON_ERROR');
  }

  constructor(message, { reason, offset, path, ...details } = {}) {
    super(message, details);
    this.reason = reason;
    this.offset = offset;
    this.path = path;
  }
}

/** A field of a record cannot be encoded. */
export class FieldError extends JournalError {
  static {
    identify(this, 'JOURNAL_FIELD_ERROR');
  }

  constructor(message, { reason, path, ...details } = {}) {
    super(message, details);
    this.reason = reason;
    this.path = path;
  }
}

/** No numbering comes of a descriptor set. */
export class NumberingError extends JournalError {
  static {
    identify(this, 'JOURNAL_NUMBERING_ERROR');
  }

  constructor(message, { reason, text, ...details } = {}) {
    super(message, details);
    this.reason = reason;
    this.text = text;
  }
}

/** The WebAssembly module stopped in a call. */
export class Trapped extends JournalError {
  static {
    identify(this, 'JOURNAL_TRAPPED');
  }

  constructor(message, { cause, ...details } = {}) {
    super(message, details);
    this.cause = cause;
  }
}

/** A stream ended within an item. */
export class Incomplete extends JournalError {
  static {
    identify(this, 'JOURNAL_INCOMPLETE');
  }

  constructor(message, { typeCode, offset, trailing, ...details } = {}) {
    super(message, details);
    this.typeCode = typeCode;
    this.offset = offset;
    this.rest = trailing?.length;
    hide(this, 'trailing', trailing);
  }
}

/** Gives a class its name and its code, which its instances inherit. */
function identify(ErrorClass, code) {
  Object.defineProperties(ErrorClass.prototype, {
    name: { value: ErrorClass.name, configurable: true, writable: true },
    code: { value: code, configurable: true, writable: true },
  });
}

/** The number of the error that a payload is not canonical. */
export const NOT_CANONICAL = [...ERRORS].find(([, [kind]]) => kind === 'NotCanonical')[0];

// Why a JSON text or a field of a record is rejected.
const REASONS = {
  notJson: 'not JSON',
  unknownMember: 'unknown member',
  repeatedMember: 'repeated member',
  severalMembers: 'several members of a oneof',
  wrongKind: 'wrong kind of value',
  outOfRange: 'out of range',
  notBase64: 'not base64',
  unknownField: 'unknown field',
  outOfOrder: 'out of order',
  notUtf8: 'not UTF-8',
  outOfBounds: 'out of bounds',
  wrongLevel: 'wrong level',
  tooDeep: 'too deep',
};

const NOT_MEANT = ', or not of the kind that the call is for';

// The kinds of errors by their names, with what is wrong with a payload or a call.
const KINDS = {
  Malformed: [Malformed, 'is malformed'],
  OutOfMemory: [OutOfMemory, 'out of memory'],
  NoRoom: [NoRoom, 'not enough room'],
  TooLong: [TooLong, 'is too long: more than 4,294,967,295 bytes'],
  Unknown: [Unknown, `unknown${NOT_MEANT}`],
  NoId: [NoId, 'has no id'],
  NoResult: [NoResult, 'has an id, and no result'],
  NotCanonical: [NotCanonical, 'is not canonical'],
};

// The kinds of errors that are not about a payload.
const OF_CALL = ['OutOfMemory', 'NoRoom', 'Unknown'];

// What is too long, or becomes so: the library does not say which argument that is of.
const LONG = ['payloadLength', 'maxMessageSize', 'json', 'payload', 'first', 'stream'];

// How a text has what is too long, by the argument that says its length, and a payload by the argument that it is.
const LENGTHS = {
  payloadLength: (length) => `payload of ${length} bytes`,
  maxMessageSize: (size) => `maxMessageSize ${size}`,
};
const PAYLOADS = { payload: 'payload', first: 'first payload', second: 'second payload' };

// What is said of each argument that can be unknown.
const UNKNOWN = {
  version: (value) => `protocol version ${shown(value)} (${FIRST_VERSION} to ${LAST_VERSION})`,
  schema: (value) => `schema ${shown(value)}${typeof value === 'string' ? recordMeant(value) : NUMBERS}`,
  code: (value) => `code ${codeText(value)}${NOT_MEANT}`,
  name: (value) => `type ${shown(value)}${typeMeant(value)}`,
};
const NUMBERS = ` (0 to ${SCHEMA_NAMES.length - 1})`;

// What ends a line, a terminal takes as a command, or turns the text after it around; and what is in no UTF-8.
const CONTROLS = /[\u0000-\u001f\u007f-\u009f\u2028-\u202e\u2066-\u2069]|\p{Surrogate}/gu;

// How many units of a name are shown.
const MOST_SHOWN = 64;

/** A text from outside, as messages have it: on one line, and with no command for a terminal. */
function escaped(text) {
  return text.replace(CONTROLS, (control) => `\\u${control.charCodeAt(0).toString(16).padStart(4, '0')}`);
}

/** A name from outside, in quotes, of a long one its beginning. */
export function quoted(name) {
  return `"${escaped(name.slice(0, MOST_SHOWN))}"${name.length > MOST_SHOWN ? '..' : ''}`;
}

/** Whether a call is for a frame, and takes the version of that. */
function isFrame(call) {
  return call === 'frame' || call === 'frameInto';
}

/** The question whether a type was meant by the name of its record; nothing if it is of none. */
function typeMeant(name) {
  const type = name.split('Message', 1)[0];
  return type !== name && SCHEMA_NAMES.includes(name) ? didYouMean(type) : '';
}

/** The question whether a record was meant by the name of its type; nothing if it is of none. */
export function recordMeant(name) {
  const record = `${name}Message`;
  return SCHEMA_NAMES.includes(record) ? didYouMean(record) : '';
}

function didYouMean(name) {
  return `; did you mean ${quoted(name)}?`;
}

/** The error that a negative number is, of a call: its name and its arguments, by their names. */
export function refusal(number, given) {
  if (!ERRORS.has(number)) {
    return notKnown(given.call, 'error', number);
  }
  const [kind, names] = ERRORS.get(number);
  const [ErrorClass] = KINDS[kind];
  const { call } = given;
  const argument = (kind === 'TooLong' ? LONG : names).find((name) => name in given);
  const message = `${call}: ${saidOf(kind, argument, given[argument])}`;
  return new ErrorClass(message, argument === undefined ? { call } : { call, argument, value: given[argument] });
}

/** What a kind of errors says of an argument with a value, or of none. */
function saidOf(kind, argument, value) {
  const [, reason] = KINDS[kind];
  if (kind === 'Unknown' && argument !== undefined) {
    return `unknown ${UNKNOWN[argument](value)}`;
  }
  if (OF_CALL.includes(kind)) {
    return reason;
  }
  if (kind === 'TooLong') {
    return `${LENGTHS[argument]?.(value) ?? 'payload'} ${reason}`;
  }
  return argument === undefined ? `payload ${reason}` : `${PAYLOADS[argument]} ${shown(value)} ${reason}`;
}

/** The error that the library returned the number of an error, or of a kind, which only a later one has. */
export function notKnown(call, what, number) {
  const message = `the library returned the ${what} ${number}, which this package does not know`;
  return new JournalError(message, { call });
}

/** The error of a rejected JSON text: the reason, the offset, and the path to the rejected value. */
export function notTaken({ call, json }, { reason, offset, path }) {
  const where = offset === undefined ? '' : ` at byte ${offset}`;
  const why = `${path === '' ? '' : `${escaped(path)}: `}${REASONS[reason]}${where}`;
  const details = { call, argument: 'json', value: json, reason, offset, path };
  return new JsonError(`${call}: JSON ${sizeOf(json)}: ${why}`, details);
}

/** The error that no numbering comes of a descriptor set: the reason, and the fault. */
export function noNumbering({ call, set }, { reason, text }) {
  const details = reason === 'noRename' ? { argument: 'renames' } : { argument: 'set', value: set };
  const said = reason === 'noRename' ? 'renames' : 'descriptor set';
  return new NumberingError(`${call}: ${said}: ${escaped(text)}`, { call, ...details, reason, text });
}

/** The error of a message that is longer than the limit of its stream: what its header says, its offset, what came. */
export function messageTooLong({ call, maxMessageSize: limit }, { name, typeCode, length, offset }, trailing) {
  const type = name === undefined ? codeText(typeCode) : `${name} (${codeText(typeCode)})`;
  const what = `a message of type ${type} at offset ${offset} has ${length} bytes`;
  return new MessageTooLong(`${what}, more than the limit of ${limit}`, {
    call,
    argument: 'maxMessageSize',
    value: limit,
    typeCode,
    length,
    limit,
    offset,
    trailing,
  });
}

/** The error that a field cannot be encoded: what leads to it, and why. */
export function fieldError(path, reason) {
  return new FieldError(`field ${path}: ${REASONS[reason]}`, { call: 'payload', reason, path });
}

/**
 * An error of what a message has, without the name of a call: one of its payload with its type and its
 * offset in its stream, and one of its code or its version. Any other error as it is.
 */
export function ofMessage(error, typeCode, name, offset) {
  const { call, argument, value, message } = error;
  if (error instanceof PayloadError) {
    const where = offset === undefined ? '' : ` at offset ${offset}`;
    const text = `${name}${where}${message.slice(call.length)}`;
    return new error.constructor(text, { call, argument, value, typeCode, offset });
  }
  if (error instanceof Unknown && (argument === 'code' || !isFrame(call))) {
    return new Unknown(message.slice(`${call}: `.length), { call, argument, value });
  }
  return error;
}

/** The error that a stream ended within an item: its name or "an item", its type, its offset, and what came of it. */
export function incomplete(call, { name, typeCode, offset, trailing }) {
  const came = byteCount(trailing.length);
  const message = `the stream ended within ${name} at offset ${offset}, after ${came} of it`;
  return new Incomplete(message, { call, typeCode, offset, trailing });
}

/** The error that an argument is of another kind than it has to be. */
export function wrongKind(argument, value, wanted) {
  return invalid(`${escaped(argument)} is ${shown(value)}, and has to be ${wanted}`);
}

/** The same of what is in a record. Only its kind is told, since it may be secret. */
export function wrongField(name, value, wanted) {
  return invalid(`${escaped(name)} is ${heldKind(value)}, and has to be ${wanted}`);
}

/** The error that options have a name which is not one of theirs. */
export function unknownOption(name, names) {
  return invalid(`options has ${shown(name)}, and may only have ${names.map(shown).join(' and ')}`);
}

function invalid(message) {
  return Object.assign(new TypeError(message), { code: 'ERR_INVALID_ARG_TYPE' });
}

/** The kind of a value of a record, and of bytes their number. */
function heldKind(value) {
  if (ArrayBuffer.isView(value)) {
    return shown(value);
  }
  return Array.isArray(value) ? 'an array' : kindOf(value);
}

/** A value within a message: bytes by their number, all else on a line. */
function shown(value) {
  if (ArrayBuffer.isView(value)) {
    return `of ${byteCount(value.byteLength)}`;
  }
  return typeof value === 'string' ? quoted(value) : escaped(texts.shown(value));
}

/** The length of a JSON text within a message, in bytes of its UTF-8: what it holds may be secret. */
function sizeOf(json) {
  return `of ${byteCount((typeof json === 'string' ? new TextEncoder().encode(json) : json).byteLength)}`;
}

/** The code of a type as a text, as 0x0400; what is not a code, as it is. */
export function codeText(code) {
  return Number.isInteger(code) && code >= 0 ? `0x${code.toString(16).padStart(4, '0')}` : shown(code);
}

function byteCount(count) {
  return count === 1 ? '1 byte' : `${count} bytes`;
}
