/**
 * The journal wire protocol of the Restate SDKs: the items of a stream, frames, payloads and their JSON, notifications,
 * and commands and journals compared.
 *
 * ```ts
 * for await (const item of items(createReadStream('journal'), 8)) {
 *   if (item.kind === 'message' && item.type === 'SetStateCommand') {
 *     console.log(item.offset, item.message.value?.content);
 *   }
 * }
 * ```
 *
 * Bytes are a `Uint8Array` (a `Buffer` is one). One over a `SharedArrayBuffer`, which another thread may change
 * meanwhile, or whose buffer is detached, is a `TypeError`, as is any value of another kind than is declared here.
 *
 * What is returned is the caller's: it is never written to again, and shares none of its bytes with another result.
 * Only the bytes in a record are parts of its payload. Any other array of less than 4,096 bytes is a part of a block of
 * 8,192 with other results, as Node has its Buffers in a pool: `buffer` is the block, `byteOffset` where the part
 * begins in it. A part that is kept keeps its block. Nothing is to transfer a block: `bytes.slice()` and
 * `Uint8Array.from(bytes)` have memory of their own.
 *
 * Options are an object. A name in it that the call does not take is a `TypeError`, so that no misspelled option is
 * ignored.
 */

import type { MessageRecords, Records } from './messages.js';
import type { NamedType, SchemaName } from './names.js';

export * from './messages.js';
export type { NamedType, SchemaName };

/** What a record is made of: a field that is left out is absent, or what it is by default. */
export type Init<R> = R extends Uint8Array | bigint | string | number | boolean | undefined
  ? R
  : R extends readonly (infer E)[]
  ? readonly Init<E>[]
  : R extends { readonly case: infer C; readonly value: infer V }
  ? { readonly case: C; readonly value: Init<V> }
  : { readonly [K in keyof R]?: Init<R[K]> | undefined };

/** The first protocol version that is spoken. */
export const FIRST_VERSION: number;

/** The last protocol version that is spoken. */
export const LAST_VERSION: number;

/** The names of the schemas, each at its number. */
export const schemaNames: readonly SchemaName[];

/** A schema, by its number or its name. */
export type Schema = number | SchemaName;

/** The name of a type, as `'SleepCommand'`, or `'CustomEntry(64513)'` of a custom entry. */
export type TypeName = NamedType | `CustomEntry(${number})`;

/** The name of the record of a message, as `'SetStateCommandMessage'`. */
export type MessageName = Extract<SchemaName, `${string}Message` | 'SuspensionMessageV6'>;

/** A value of JSON. */
export type JsonValue = null | boolean | number | string | JsonValue[] | JsonObject;

/** An object of JSON. */
export interface JsonObject {
  [name: string]: JsonValue;
}

// Streams.

/** An item of a stream; `kind` tells which one, and `type` of a message which record its `message` is. */
export type Item = AnyTyped | UnknownCode | Skipped;

/** A message of any type. */
export type AnyTyped = { [T in NamedType]: Message<T> }[NamedType] | Message<`CustomEntry(${number})`>;

/**
 * A message of a stream.
 *
 * A custom entry is a message of any code that no named type has, with one of its upper six bits set, 0x0400 and above.
 * It has no record, no JSON and no frame of its own. By its code it may count as a command or a notification; a replay
 * does not compare it.
 */
export class Message<T extends TypeName = TypeName> {
  /**
   * The message of a type with a payload, which is taken as it is: `frame` rejects one that is malformed. It requests
   * an acknowledgement if the header of its type does at the version.
   * @throws {TooLong} the payload has more than 4,294,967,295 bytes
   * @throws {TypeError} an argument is of another kind
   * @throws {Unknown} the version is none, or no type has the code
   */
  constructor(version: number, code: number, payload: Uint8Array);

  /**
   * The message of a type that a record is of. It requests an acknowledgement if the header of its type does at the
   * version.
   * @param version the protocol version, by default 8
   * @throws {FieldError} a field cannot be encoded
   * @throws {TypeError} a value is of another kind than its field, or no field has the name
   * @throws {Unknown} the version is none, or no named type has the name
   */
  static of<T extends NamedType>(type: T, record: Init<MessageRecords[T]>, version?: number): Message<T>;

  /**
   * The message of a type that JSON means: a text in protobuf's form, its UTF-8, or the object that `json` returns. Its
   * payload is canonical, and it requests an acknowledgement if the header of its type does at the version.
   * @param version the protocol version, by default 8
   * @throws {JsonError} it means no such message
   * @throws {Unknown} the version is none, or no named type has the code or the name
   */
  static fromJson<T extends NamedType>(
    type: T,
    json: string | Uint8Array | JsonObject,
    version?: number,
  ): Message<T>;

  /** The same of a type by its code or its name. */
  static fromJson(type: number | NamedType, json: string | Uint8Array | JsonObject, version?: number): Message;

  readonly kind: 'message';

  /** The protocol version of its stream. */
  readonly version: number;

  /** The code of its type. */
  readonly code: number;

  /**
   * Its payload, in any encoding, as received; of a stream with a `Numbering` at the numbers of the protocol. Only the
   * types make it readonly: JavaScript can put another one in its place, which `bytes` ignores if it came in a stream.
   */
  readonly payload: Uint8Array;

  /** Whether its header requests an acknowledgement. */
  readonly requestedAck: boolean;

  /** The eight bytes of its header as one big-endian number, where it came in a stream, and otherwise undefined. */
  get word(): bigint | undefined;

  /** Where it begins in its stream, in bytes; undefined if it came in no stream. */
  get offset(): number | undefined;

  /**
   * The message as received, byte for byte, a copy at each access: what a proxy passes on if it does not change it. If
   * it came in no stream, its payload as it is after the header of its type.
   */
  get bytes(): Uint8Array;

  /** The name of its type. */
  get type(): T;

  /**
   * The record that its payload means, which is decoded at each access; undefined of a custom entry, which has no
   * record. Bytes in it are parts of the payload, or of its canonical encoding.
   * @throws {Malformed} the payload is not well-formed for its schema
   */
  get message(): T extends NamedType ? MessageRecords[T] : undefined;

  /**
   * The record that its payload means, if it is of this name, as `'SetStateCommandMessage'`; otherwise undefined, and
   * nothing is decoded.
   * @throws {Malformed} the payload is not well-formed for its schema
   * @throws {TypeError} no message has a record of this name
   */
  record<N extends MessageName>(name: N): Records[N] | undefined;

  /**
   * The number of the schema of its payload.
   * @throws {Unknown} a custom entry has none
   */
  get schema(): number;

  /**
   * Whether it is a command, by its code. So may be a custom entry: a message of any code that no named type has, with
   * one of its upper six bits set, 0x0400 and above. A replay does not compare it.
   */
  get isCommand(): boolean;

  /** Whether it is a notification, by its code. So may be a custom entry, as of `isCommand`. */
  get isNotification(): boolean;

  /**
   * What its payload means, as the object that protobuf's JSON form of it is: 64-bit numbers are texts, bytes are
   * base64.
   * @throws {Malformed} a payload is not well-formed for its schema
   * @throws {Unknown} a custom entry has no schema
   */
  json(): JsonObject;

  /**
   * The canonical encoding of its payload.
   * @throws {Malformed} a payload is not well-formed for its schema
   * @throws {Unknown} a custom entry has no schema
   */
  canonical(): Uint8Array;

  /**
   * Its frame at a version, by default its own: a header, and after it the canonical payload. It is for a message that
   * is made or changed: unknown fields of the payload and ignored bits of the header are lost. `bytes` is what came.
   * @throws {Malformed} a payload is not well-formed for its schema
   * @throws {Unknown} a custom entry has no frame of its own; the version cannot have the payload: a suspension before
   *   version 7 has no frame from 7 on, and one since then has a frame at each
   */
  frame(version?: number, options?: FrameOptions): Uint8Array;

  /**
   * Writes its frame, at a version, by default its own, to the front of an array, as the function `frameInto`.
   * @returns its length; if that is more than the length of the array, nothing is written
   * @throws {Malformed} a payload is not well-formed for its schema
   * @throws {Unknown} a custom entry has no frame of its own
   */
  frameInto(out: Uint8Array, version?: number, options?: FrameOptions): number;

  /**
   * Its id and its result.
   * @throws {Unknown} it is not a notification
   * @throws {Malformed} a payload is not well-formed for its schema
   * @throws {NoId} it has no id
   * @throws {NoResult} it has an id and no result
   */
  notification(): Notification;

  /** A line of a listing: the name of its type and the length of its payload, as `'InputCommand 9'`. */
  toString(): string;

  /** What `JSON.stringify` writes: its fields, with the name of its type, and its payload in base64. */
  toJSON(): JsonObject;
}

/**
 * A header with an unassigned code, before version 9: eight bytes, an item of its own, which is skipped. The programs
 * call it an unknown header.
 */
export class UnknownCode {
  constructor(version: number, code: number, word: bigint);

  readonly kind: 'unknownCode';

  /** The protocol version of its stream. */
  readonly version: number;

  /** The unknown code. */
  readonly code: number;

  /** The eight bytes as one big-endian number. */
  readonly word: bigint;

  /** Where they begin in their stream, in bytes; undefined if they came in no stream. */
  get offset(): number | undefined;

  /** Undefined: it is not a message. */
  record<N extends MessageName>(name: N): Records[N] | undefined;

  /** The eight bytes as received. */
  get bytes(): Uint8Array;

  /** A line of a listing, as `'unknown 0x8'`. */
  toString(): string;

  /** What `JSON.stringify` writes: its fields, with the word as a text. */
  toJSON(): JsonObject;
}

/** A message of an unknown type, which is skipped with its payload from version 9 on. */
export class Skipped {
  constructor(version: number, code: number, word: bigint, payload: Uint8Array);

  readonly kind: 'skipped';

  /** The protocol version of its stream. */
  readonly version: number;

  /** The unknown code. */
  readonly code: number;

  /** The eight bytes of its header as one big-endian number. */
  readonly word: bigint;

  /** Its payload, as received. */
  readonly payload: Uint8Array;

  /** Where it begins in its stream, in bytes; undefined if it came in no stream. */
  get offset(): number | undefined;

  /** Undefined: no record is known of its type. */
  record<N extends MessageName>(name: N): Records[N] | undefined;

  /** The message as received, byte for byte, a copy at each access. */
  get bytes(): Uint8Array;

  /** A line of a listing, as `'skipped 0x8 2'`. */
  toString(): string;

  /** What `JSON.stringify` writes: its fields, with the word as a text, and its payload in base64. */
  toJSON(): JsonObject;
}

/** What a stream takes. Any other name is a `TypeError`. */
export interface StreamOptions {
  /**
   * The greatest size of a payload in bytes; without it there is no limit. The 8 bytes of a header do not count. A
   * message with a larger payload is a `MessageTooLong` as soon as its header came, and ends the stream: from then on
   * each loop, `feed` and `finish` throw that error, and `trailing` has what was received of the message and after it.
   */
  maxMessageSize?: number | undefined;

  /**
   * By which payloads are read that are at other field numbers; without it they are at those of the protocol. A payload
   * that cannot be read is `Malformed`, with the type and the offset of its message; the next loop goes on after it.
   */
  numbering?: Numbering | undefined;
}

/** What a loop over a source takes. Any other name is a `TypeError`. */
export interface SourceOptions extends StreamOptions {
  /**
   * Whether it is an error, `Incomplete`, if the source ends within an item; by default it is. With `false` the loop
   * ends there after all whole items, which suits a file that is still being written. The bytes of that item are left
   * out.
   */
  strict?: boolean | undefined;
}

/** What a frame is written by. Any other name is a `TypeError`. */
export interface FrameOptions {
  /** By which a payload is written at other field numbers; without it it is at those of the protocol. */
  numbering?: Numbering | undefined;
}

/**
 * A stream that comes in chunks of any size. It iterates over the items that are there as a whole: each loop continues
 * where the one before stopped, and ends when no whole item is left; a chunk may be fed meanwhile.
 *
 * A chunk is copied as it is fed, and a payload as it is taken, so that neither changes with the other, and a chunk may
 * be transferred to a worker then. The memory of a stream is proportional to the pending bytes.
 */
export class Stream implements Iterable<Item> {
  /**
   * @param version the protocol version, by default 8
   * @param options the limit of a stream, by default none
   * @throws {Unknown} it is not a protocol version
   */
  constructor(version?: number, options?: StreamOptions);

  /** The protocol version. */
  get version(): number;

  /** The number of pending bytes: those received that no item has yet. */
  get rest(): number;

  /**
   * A copy of the pending bytes. Once the whole items are taken, they are the beginning of the next one. At the end of
   * a stream a proxy passes them on after the last item: `finish` leaves them. After a `MessageTooLong` they begin with
   * the header of that message.
   */
  get trailing(): Uint8Array;

  /**
   * Appends a chunk to what came. If an allocation fails, the stream is unchanged.
   * @throws {RangeError} an allocation failed
   */
  feed(chunk: Uint8Array): void;

  /**
   * Says that the stream ended. Its items have to be taken before. It changes nothing.
   * @throws {Incomplete} bytes are in no item
   */
  finish(): void;

  [Symbol.iterator](): Generator<Item, void, undefined>;
}

/**
 * Decodes chunks into items: a readable and a writable stream, for `pipeThrough`. An error comes after all items before
 * it. The transformed stream fails with `Incomplete` if it ends within an item, unless the options have
 * `strict: false`.
 * @param version the protocol version, by default 8
 * @throws {Unknown} it is not a protocol version
 */
export function decode(version?: number, options?: SourceOptions): TransformStream<Uint8Array, Item>;

/**
 * The items of the chunks of a source: a readable stream of Node or of the web, or anything else that can be iterated.
 * A synchronous one, as `[bytes]`, is for what is there as a whole; a `Stream` gives its items without `await`.
 * It throws `Incomplete` if the source ends within an item, unless the options have `strict: false`, and whatever the
 * source throws. A loop that ends early closes the source.
 * @param version the protocol version, by default 8
 * @throws {Unknown} it is not a protocol version
 */
export function items(
  source: AsyncIterable<Uint8Array> | Iterable<Uint8Array>,
  version?: number,
  options?: SourceOptions,
): AsyncGenerator<Item, void, undefined>;

// Names and numbers.

/** The version of the library, as `'0.3.0'`. */
export function libraryVersion(): string;

/**
 * The number of the schema that payloads of a type have at a version. A suspension has another one before version 7
 * than later.
 * @throws {Unknown} the version is none, or no named type has the code
 */
export function schema(version: number, code: number): number;

/**
 * The name of the type that has a code.
 * @throws {Unknown} no type has it
 */
export function typeName(code: number): TypeName;

/**
 * The code of the named type that has a name.
 * @throws {Unknown} none has it
 */
export function typeCode(name: string): number;

/**
 * The eight bytes before the payload of a message, by the length of the payload in bytes.
 * @throws {Unknown} the version is none, or no type has the code; a custom entry has a header
 * @throws {TooLong} the length is above 4,294,967,295
 * @throws {RangeError} the length is negative, or not whole
 */
export function header(version: number, code: number, payloadLength: number): Uint8Array;

/**
 * The frame of a message of a named type at a version: its header, and the canonical payload of what `payload` means. A
 * suspension is read by its schema from version 7 on, and written by that of the version.
 * @throws {Unknown} the version is none, or no named type has the code
 * @throws {Malformed} a payload is not well-formed for its schema
 * @throws {TooLong} a payload would have more than 4,294,967,295 bytes
 */
export function frame(version: number, code: number, payload: Uint8Array, options?: FrameOptions): Uint8Array;

/**
 * Writes the frame that `frame` returns to the front of an array; one in a greater memory is a part of it by
 * `subarray`.
 * @returns its length; if that is more than the length of the array, nothing is written
 * @throws {Unknown} the version is none, or no named type has the code
 * @throws {Malformed} a payload is not well-formed for its schema
 * @throws {TooLong} a payload would have more than 4,294,967,295 bytes
 */
export function frameInto(
  version: number,
  code: number,
  payload: Uint8Array,
  out: Uint8Array,
  options?: FrameOptions,
): number;

// Payloads, by their schemas. All throw `Unknown` if there is no such schema.

/** Whether a payload is well-formed for a schema. */
export function isWellFormed(schema: Schema, payload: Uint8Array): boolean;

/**
 * The canonical payload of what a payload means.
 * @throws {Malformed} a payload is not well-formed for its schema
 * @throws {TooLong} a payload would have more than 4,294,967,295 bytes
 */
export function canonical(schema: Schema, payload: Uint8Array): Uint8Array;

/**
 * The canonical payload of the result of merging the second payload into the first, as protobuf merges messages.
 * @throws {Malformed} one of the two is not well-formed by itself
 * @throws {TooLong} a payload would have more than 4,294,967,295 bytes
 */
export function merge(schema: Schema, first: Uint8Array, second: Uint8Array): Uint8Array;

/**
 * What a payload means, as a text in protobuf's JSON form.
 * @throws {Malformed} a payload is not well-formed for its schema
 * @throws {TooLong} a payload would have more than 4,294,967,295 bytes
 */
export function toJson(schema: Schema, payload: Uint8Array): string;

/**
 * The canonical payload of what a JSON text means, which is in protobuf's own form: a text, or its UTF-8.
 * @throws {JsonError} it means no value of the schema
 * @throws {TooLong} a payload would have more than 4,294,967,295 bytes
 */
export function fromJson(schema: Schema, json: string | Uint8Array): Uint8Array;

/**
 * The record that a payload means.
 * @throws {Malformed} a payload is not well-formed for its schema
 */
export function readRecord<N extends SchemaName>(schema: N, payload: Uint8Array): Records[N];

/**
 * The canonical payload of a record.
 * @throws {FieldError} a field cannot be encoded
 * @throws {TypeError} a value is of another kind than its field, or no field has the name
 */
export function writeRecord<N extends SchemaName>(schema: N, record: Init<Records[N]>): Uint8Array;

// Other field numbers.

/** What a numbering is made of, besides a descriptor set. Any other name is a `TypeError`. */
export interface NumberingOptions {
  /** The names that messages have in the set, each with its name in the protocol; by default none. */
  readonly renames?: Readonly<Record<string, string>> | undefined;
}

/**
 * The field numbers of a runtime whose .proto has the messages of the protocol with other numbers. It is made of the
 * descriptor set that protoc or buf writes of that .proto, and finds messages and fields by their names.
 *
 * By it a payload is read, from their numbers to those of the protocol, and written back. All other calls take payloads
 * at the numbers of the protocol. A field that only the set has is left out of what is read, and one that only the
 * protocol has is left out of what is written.
 */
export class Numbering {
  /**
   * @param set the descriptor set
   * @throws {NumberingError} the set or a rename has a fault
   */
  constructor(set: Uint8Array, options?: NumberingOptions);

  /**
   * The numbering of a descriptor set in a file; in Node only.
   * @throws {NumberingError} the set or a rename has a fault
   * @throws {Error} the file cannot be read
   */
  static load(path: string | URL, options?: NumberingOptions): Numbering;

  /** The list of fields, one per line: which are the same, renumbered, or only on one side. */
  toString(): string;

  /**
   * A payload, from the numbers of the set to those of the protocol.
   * @throws {Malformed} it is not a list of fields, or a message in it is not one
   * @throws {Unknown} there is no such schema
   */
  readPayload(schema: Schema, payload: Uint8Array): Uint8Array;

  /**
   * A payload, from the numbers of the protocol to those of the set. A canonical one becomes a canonical one.
   * @throws {Malformed} it is not a list of fields, or a message in it is not one
   * @throws {Unknown} there is no such schema
   */
  writePayload(schema: Schema, payload: Uint8Array): Uint8Array;

  /**
   * A stream, from the numbers of the set to those of the protocol. A custom entry, and what is of no type, is copied
   * as it is, and so are trailing bytes.
   * @throws {Malformed} a payload cannot be read: `typeCode` and `offset` say of which message
   * @throws {Unknown} there is no such version
   */
  readStream(version: number, stream: Uint8Array): Uint8Array;

  /**
   * A stream, from the numbers of the protocol to those of the set, as `readStream`.
   * @throws {Malformed} a payload cannot be written: `typeCode` and `offset` say of which message
   * @throws {Unknown} there is no such version
   */
  writeStream(version: number, stream: Uint8Array): Uint8Array;

  /**
   * The JSON of a stream at the numbers of the set, as `journal dump --schema` prints it. It has one item per line,
   * with all fields that the set has, and a last line of the trailing bytes.
   * @throws {Unknown} there is no such version
   */
  dump(version: number, stream: Uint8Array): string;
}

// Notifications.

/** The id and the result of a notification. */
export type Notification = NotificationId & NotificationResult;

/** What a notification is about: a completion or a signal by its number, or a signal by its name. */
export type NotificationId =
  | { readonly idKind: 'completionId' | 'signalId'; readonly id: number }
  | { readonly idKind: 'signalName'; readonly id: string };

/** The result of a notification. */
export interface NotificationResult {
  readonly resultKind: 'void' | 'value' | 'failure' | 'invocationId' | 'stateKeys';

  /**
   * The canonical payload of a `Value`, a `Failure` or `StateKeys`, the text of an invocation id in UTF-8, or of a void
   * nothing.
   */
  readonly result: Uint8Array;
}

/**
 * The id and the result of a notification of any type.
 * @throws {Unknown} no notification has the code
 * @throws {Malformed} a payload is not well-formed for its schema
 * @throws {NoId} it has no id
 * @throws {NoResult} it has an id and no result
 */
export function notification(code: number, payload: Uint8Array): Notification;

// Commands and journals compared.

/** How commands and journals are compared. Any other name is a `TypeError`, also `ignoreIds` of a replay. */
export interface CompareOptions {
  /**
   * Whether the content of user data (values, parameters) is left out of the comparison, but not that of a signal; by
   * default it is not.
   */
  readonly ignorePayloads?: boolean | undefined;
}

/** How a replay is checked. Any other name is a `TypeError`. */
export interface ReplayOptions extends CompareOptions {
  /**
   * Whether completion ids are left out of the comparison, which shift after an inserted command; by default they are
   * not.
   */
  readonly ignoreIds?: boolean | undefined;
}

/**
 * Whether two commands of a type are the same for a replay.
 * @throws {Unknown} no command has the code
 * @throws {Malformed} a payload is not well-formed for its schema
 */
export function headerEq(code: number, first: Uint8Array, second: Uint8Array, options?: CompareOptions): boolean;

/**
 * A line for each printed field in which two commands of a type differ, each after a line feed and three spaces; an
 * empty text if they differ in none.
 * @throws {Unknown} no command has the code
 * @throws {Malformed} a payload is not well-formed for its schema
 */
export function difference(code: number, first: Uint8Array, second: Uint8Array): string;

/** How two journals compare. */
export interface Verdict {
  /**
   * - `same`: each command is the same as the other's at its index
   * - `recordedEnded`, `replayedEnded`: the other journal has a command more, at the index
   * - `typeMismatch`, `headerMismatch`: the commands at the index are of two types, or of one type and differ
   * - `badRecorded`, `badReplayed`: the command at the index is malformed
   */
  readonly kind:
    | 'same'
    | 'recordedEnded'
    | 'replayedEnded'
    | 'typeMismatch'
    | 'headerMismatch'
    | 'badRecorded'
    | 'badReplayed';

  /** The index of that command among the commands of its journal, or the number of commands if all are the same. */
  readonly index: number;

  /** The text of a mismatch, for a reader; otherwise empty. */
  readonly text: string;
}

/**
 * Compares a recorded journal with a replayed one, command by command. Other items, and trailing bytes, are skipped.
 * @throws {Unknown} the version is none
 */
export function compareJournals(
  version: number,
  recorded: Uint8Array,
  replayed: Uint8Array,
  options?: CompareOptions,
): Verdict;

/**
 * A field in which two commands differ, as the text of their mismatch prints it. A text is as it is in the journal, of
 * any length and with any control characters; bytes are quoted. Escape them before you print them in a line.
 */
export interface ChangedField {
  /** The name of the field in the .proto, as `'handler_name'`. */
  readonly name: string;

  /** What the recorded command has. */
  readonly recorded: string;

  /** What the replayed command has. */
  readonly replayed: string;
}

/** Where a replay leaves its recording: all commands before this one are the same. */
export interface Mismatch {
  /** Which verdict it is. */
  readonly kind: Exclude<Verdict['kind'], 'same'>;

  /** The index of the command, from 0. */
  readonly index: number;

  /**
   * Where the recorded command begins in the recording, in bytes. If the recording has ended, where its last command
   * begins, or undefined if it has none.
   */
  readonly recordedOffset: number | undefined;

  /** Where the replayed command begins in the replay, in bytes, or where the replay ends. */
  readonly replayedOffset: number;

  /** The text of a mismatch of two commands, as the SDKs report it; otherwise empty. */
  readonly text: string;

  /**
   * The printed fields in which two commands of one type differ. Empty if the commands differ only in what is not
   * printed, such as the name of most commands.
   */
  readonly fields: readonly ChangedField[];
}

/** A replay that is checked by its recording, item by item as it comes. It keeps nothing of the replay. */
export class Replay {
  /**
   * @param version the protocol version of both
   * @param recorded the recording, a whole journal, which is not copied and must not change meanwhile;
   *   `recordedRest` tells whether it is whole
   * @param options what is not compared, by default nothing
   * @throws {Unknown} the version is none
   */
  constructor(version: number, recorded: Uint8Array, options?: ReplayOptions);

  /** The protocol version. */
  get version(): number;

  /** How many commands were the same, which is the index of the one that comes next. */
  get index(): number;

  /**
   * How many bytes of the recording follow its last whole item, which are not compared: 0 of a whole one. It walks over
   * the recording, and changes nothing.
   */
  get recordedRest(): number;

  /**
   * Checks the next item of the replay by the command that comes next in the recording. A mismatch is reported once:
   * afterwards nothing is compared. `compareJournals` of the recording and of all items so far has the same `kind`,
   * `index` and `text`.
   * @returns undefined if there is nothing to report: the commands are the same, or the item is not a command
   * @throws {OutOfMemory} an allocation failed; nothing is changed, and the call can be repeated
   */
  check(item: Item | Message): Mismatch | undefined;

  /**
   * The command that comes next in the recording, which is not taken: its `offset` is that in the recording, and its
   * `message` has the name or the key of a command that has one. After a mismatch it is the command at the index of
   * that.
   * @returns undefined if there is none
   */
  expected(): AnyTyped | undefined;

  /**
   * Says that the replay ended. It changes nothing.
   * @returns undefined if nothing is left of the recording, or a mismatch was reported; otherwise the mismatch of the
   *   command that comes next, whose kind is `'replayedEnded'`
   */
  finish(): Mismatch | undefined;
}

// Errors.

/**
 * A call failed. The message names the call, the argument that it failed for, and its value; no call if what is wrong
 * is not an argument, as the payload of an item. Of this class itself is the error that the library returned a number
 * which this package does not know, as a later one may.
 */
export class JournalError extends Error {
  constructor(message?: string, details?: { call?: string; argument?: string; value?: unknown });

  /** What is wrong: one text for each class. */
  readonly code: string;

  /** The name of the function or the class that was called. */
  readonly call: string | undefined;

  /** The name of the argument, if the error is about one. */
  readonly argument: string | undefined;

  /** The value of that argument. It is not enumerable, so that no log shows it: it may hold secrets. */
  readonly value: unknown;
}

/** A payload is not well-formed for its schema. */
export class Malformed extends JournalError {
  readonly code: 'JOURNAL_MALFORMED';

  /** The code of the type of its message, if it is the error of a message; otherwise undefined. */
  readonly typeCode: number | undefined;

  /** Where that message begins in its stream, in bytes; undefined if it came in no stream. */
  readonly offset: number | undefined;
}

/** An allocation of the library failed; the call can be repeated. */
export class OutOfMemory extends JournalError {
  readonly code: 'JOURNAL_OUT_OF_MEMORY';
}

/** An array for numbers was too short, which this module never passes. */
export class NoRoom extends JournalError {
  readonly code: 'JOURNAL_NO_ROOM';
}

/** A payload has, or would have, more than 4,294,967,295 bytes; or a message is longer than the limit of its stream. */
export class TooLong extends JournalError {
  readonly code: 'JOURNAL_TOO_LONG';
}

/** The payload of a message has more bytes than the limit of its stream. The 8 bytes of its header do not count. */
export class MessageTooLong extends TooLong {
  /** The code of its type. */
  readonly typeCode: number;

  /** The size of its payload in bytes, by its header. */
  readonly length: number;

  /** The greatest size of a payload that the stream takes, in bytes. */
  readonly limit: number;

  /** Where its header begins in the stream, in bytes. */
  readonly offset: number;

  /** What was received from its header on, not enumerable. */
  readonly trailing: Uint8Array;
}

/** A number or a name does not exist, or is not of the kind that the call is for. */
export class Unknown extends JournalError {
  readonly code: 'JOURNAL_UNKNOWN';
}

/** A notification has no id. */
export class NoId extends JournalError {
  readonly code: 'JOURNAL_NO_ID';

  /** The code of the type of its message, if it is the error of a message; otherwise undefined. */
  readonly typeCode: number | undefined;

  /** Where that message begins in its stream, in bytes; undefined if it came in no stream. */
  readonly offset: number | undefined;
}

/** A notification has an id, and no result. */
export class NoResult extends JournalError {
  readonly code: 'JOURNAL_NO_RESULT';

  /** The code of the type of its message, if it is the error of a message; otherwise undefined. */
  readonly typeCode: number | undefined;

  /** Where that message begins in its stream, in bytes; undefined if it came in no stream. */
  readonly offset: number | undefined;
}

/** A payload is well-formed for its schema, and not canonical. */
export class NotCanonical extends JournalError {
  readonly code: 'JOURNAL_NOT_CANONICAL';
}

/** A JSON text means no value of its schema. */
export class JsonError extends JournalError {
  readonly code: 'JOURNAL_JSON_ERROR';

  /** Why. */
  readonly reason:
    | 'notJson'
    | 'unknownMember'
    | 'repeatedMember'
    | 'severalMembers'
    | 'wrongKind'
    | 'outOfRange'
    | 'notBase64'
    | 'tooDeep';

  /** Where the text stops being JSON, in bytes of its UTF-8, or undefined if it is JSON. */
  readonly offset: number | undefined;

  /**
   * What leads to the rejected value, as `'headers[2].key'`; empty if the text is not JSON. Names of members are as in
   * the text. The message of the error has their control characters escaped.
   */
  readonly path: string;
}

/** A field of a record cannot be encoded. */
export class FieldError extends JournalError {
  readonly code: 'JOURNAL_FIELD_ERROR';

  /** Why. */
  readonly reason:
    | 'unknownField'
    | 'outOfOrder'
    | 'severalMembers'
    | 'wrongKind'
    | 'outOfRange'
    | 'notUtf8'
    | 'outOfBounds'
    | 'wrongLevel'
    | 'tooDeep';

  /** What leads to the field, as `'headers[2].key'`. */
  readonly path: string;
}

/** No numbering comes of a descriptor set and renames. */
export class NumberingError extends JournalError {
  readonly code: 'JOURNAL_NUMBERING_ERROR';

  /** Which of the two has a fault. */
  readonly reason: 'noSet' | 'noRename';

  /** The fault, as `'a.proto: b.Message.field: number of a later field'`. */
  readonly text: string;
}

/**
 * The WebAssembly module stopped in a call, as where the stack of the engine ends; the cause tells why. Nothing was
 * written, and the next call has a new module. A call of the addon never throws it.
 */
export class Trapped extends JournalError {
  readonly code: 'JOURNAL_TRAPPED';
  readonly cause: unknown;
}

/** A source, or a stream that `finish` was called of, ended within an item. */
export class Incomplete extends JournalError {
  readonly code: 'JOURNAL_INCOMPLETE';

  /** How many bytes of that item came. */
  readonly rest: number;

  /** These bytes, not enumerable either. */
  readonly trailing: Uint8Array;

  /** Where that item begins in the stream, in bytes. */
  readonly offset: number;

  /** The code of its type, which is its first two bytes; undefined if only one came. */
  readonly typeCode: number | undefined;
}
