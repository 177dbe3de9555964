// The journal protocol of the Restate SDKs. index.d.ts tells what each name is; node.js and browser.js, from which it
// is imported, say where the calls come from.

export {
  FIRST_VERSION,
  LAST_VERSION,
  canonical,
  compareJournals,
  difference,
  fromJson,
  header,
  headerEq,
  isWellFormed,
  libraryVersion,
  merge,
  notification,
  schema,
  toJson,
  typeCode,
  typeName,
} from './lib/calls.js';
export {
  FieldError,
  Incomplete,
  JournalError,
  JsonError,
  Malformed,
  MessageTooLong,
  NoId,
  NoResult,
  NoRoom,
  NotCanonical,
  NumberingError,
  OutOfMemory,
  TooLong,
  Trapped,
  Unknown,
} from './lib/errors.js';
export { frame, frameInto } from './lib/frames.js';
export { Message, Skipped, UnknownCode } from './lib/items.js';
export { Numbering } from './lib/numbering.js';
export { CombinatorType, ErrorBehavior } from './lib/records.js';
export { readRecord, writeRecord } from './lib/fields.js';
export { Replay } from './lib/replay.js';
export { schemaNames } from './lib/schemas.js';
export { Stream, decode, items } from './lib/stream.js';
