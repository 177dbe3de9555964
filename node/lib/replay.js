// Replays that are checked by their recording, item by item.

import { addon } from './addon.js';
import { checked, kindOf, text, written } from './calls.js';
import {
  CHANGED_FIELD_NUMBERS,
  COMMAND,
  COMMAND_NUMBERS,
  MISMATCH_NUMBERS,
  REPLAY,
  REPLAY_NUMBERS,
  REPLAY_OPTIONS,
  VERDICT_KINDS,
  VERDICT_NUMBERS,
} from './declared.js';
import { wrongKind } from './errors.js';
import { Message, Skipped, UnknownCode, receivedLength } from './items.js';
import { optionsOf } from './options.js';
import { itemAt, restOf } from './stream.js';

const NOTHING = new Uint8Array(0);
const HEADER_SIZE = 8;

// How many bytes of the recording the next command is looked for in first; then in twice as many.
const FIRST_LOOK = 1024;

// What calls write to. No JavaScript runs between a call and the reading of it.
const mismatchNumbers = new BigUint64Array(MISMATCH_NUMBERS);
const commandNumbers = new BigUint64Array(COMMAND_NUMBERS);
const fieldNumbers = new BigUint64Array(CHANGED_FIELD_NUMBERS);

/** The number of the options that are set. Each is a bit, by its place in the list, which begins with none. */
function bitsOf(ignored) {
  let options = 0;
  for (const [name, value] of Object.entries(ignored)) {
    options += value ? 2 ** (REPLAY_OPTIONS.indexOf(name) - 1) : 0;
  }
  return BigInt(options);
}

/** A replay that is checked by its recording. */
export class Replay {
  #version;
  #recorded;
  // the addon is given the whole recording. The module copies what it is given: what it reads of that, from the last
  // command that was the same on, or from the beginning. Its numbers are of a recording that begins there
  #numbers = new BigUint64Array(REPLAY_NUMBERS);
  #copy = new BigUint64Array(REPLAY_NUMBERS);
  #begin = 0;
  // the size of that command, and where the next one is: its offset and its size, or null if there is none; undefined
  // before it is looked for
  #size = 0;
  #next;

  constructor(version, recorded, options) {
    const { ignorePayloads = false, ignoreIds = false } = optionsOf(options, ['ignorePayloads', 'ignoreIds']);
    const ignored = { ignorePayloads, ignoreIds };
    for (const [name, value] of Object.entries(ignored)) {
      if (typeof value !== 'boolean') {
        throw wrongKind(name, value, 'a boolean');
      }
    }
    // a wrong recording or version is reported before an item comes
    const none = recorded instanceof Uint8Array ? recorded.subarray(0, 0) : recorded;
    const numbers = new BigUint64Array(VERDICT_NUMBERS);
    checked(addon.verdict(version, none, NOTHING, false, numbers, NOTHING), { call: 'Replay', version });
    this.#version = version;
    this.#recorded = recorded;
    this.#numbers[REPLAY.version] = BigInt(version);
    this.#numbers[REPLAY.options] = bitsOf(ignored);
  }

  get version() {
    return this.#version;
  }

  get index() {
    return Number(this.#numbers[REPLAY.index]);
  }

  get recordedRest() {
    // an item begins with the last command that was the same, or with the recording
    const begin = this.#begin + Number(this.#numbers[REPLAY.recordedOffset]);
    return restOf(this.#version, this.#recorded.subarray(begin));
  }

  check(item) {
    const { code, payload } = partsOf(item);
    const given = { call: 'check', code, payload };
    const recorded = this.#given('check');
    // the replay goes on by its copy once all of the mismatch is there
    const before = this.#numbers;
    const numbers = this.#copy;
    numbers.set(before);
    const said = checked(addon.replayCheck(code, recorded, payload, numbers, mismatchNumbers), given);
    const mismatch = said === 0 ? undefined : this.#mismatch(given, recorded);
    if (numbers[REPLAY.index] !== before[REPLAY.index]) {
      if (addon.copies) {
        this.#begin += Number(numbers[REPLAY.recordedOffset]);
        this.#size = this.#next.size;
        numbers[REPLAY.recordedOffset] = 0n;
      }
      this.#next = undefined;
    }
    // the library counts the bytes of the payload, which are others than those received if a numbering read it
    if (item instanceof Message && numbers[REPLAY.replayedOffset] !== before[REPLAY.replayedOffset]) {
      numbers[REPLAY.replayedOffset] += BigInt(receivedLength(item) - payload.length);
    }
    this.#numbers = numbers;
    this.#copy = before;
    return mismatch;
  }

  expected() {
    const next = this.#found('expected');
    if (next === null) {
      return undefined;
    }
    const bytes = this.#recorded.subarray(next.offset, next.offset + next.size);
    return itemAt(this.#version, bytes, next.offset);
  }

  finish() {
    const given = { call: 'finish', code: 0, payload: NOTHING };
    const recorded = this.#given('finish');
    const left = checked(addon.replayFinish(recorded, this.#numbers, mismatchNumbers), given);
    return left === 0 ? undefined : this.#mismatch(given, recorded);
  }

  /** Where the next command of the recording is, or null. */
  #found(call) {
    if (this.#next === undefined) {
      this.#next = this.#look({ call, version: this.#version });
    }
    return this.#next;
  }

  /** Looks for the next command in the recording, where it is copied in ever more of it. */
  #look(given) {
    for (let size = addon.copies ? FIRST_LOOK + this.#size : this.#recorded.length; ; size *= 2) {
      const bytes = this.#recorded.subarray(this.#begin, this.#begin + size);
      if (checked(addon.replayExpected(bytes, this.#numbers, commandNumbers), given) === 1) {
        const offset = this.#begin + Number(commandNumbers[COMMAND.offset]);
        return { offset, size: Number(commandNumbers[COMMAND.size]) };
      }
      if (this.#begin + size >= this.#recorded.length) {
        return null;
      }
    }
  }

  /** The recording, or where it is copied the part from the last command that was the same to the end of the next. */
  #given(call) {
    if (!addon.copies) {
      return this.#recorded;
    }
    const next = this.#found(call);
    const end = next === null ? this.#begin + this.#size : next.offset + next.size;
    return this.#recorded.subarray(this.#begin, end);
  }

  /** The mismatch that the library said of an item, by a part of the recording. */
  #mismatch(given, recorded) {
    const [number, index, replayedOffset, recordedOffset, , size] = Array.from(mismatchNumbers, Number);
    const kind = kindOf(VERDICT_KINDS, number, given, 'kind of verdict');
    const { code, payload } = given;
    const isOfTwo = kind === 'typeMismatch' || kind === 'headerMismatch';
    const command = recorded.subarray(recordedOffset + HEADER_SIZE, recordedOffset + size);
    return {
      kind,
      index,
      recordedOffset: size === 0 ? undefined : this.#begin + recordedOffset,
      replayedOffset,
      text: isOfTwo
        ? text(written((out) => addon.replayText(code, recorded, payload, this.#numbers, out), given))
        : '',
      fields: kind === 'headerMismatch' ? [...changedFields(code, command, payload)] : [],
    };
  }
}

/** The printed fields in which two commands of a type differ. */
function* changedFields(code, first, second) {
  const given = { call: 'check', code, first, second };
  for (let index = 0; ; index += 1) {
    const found = written((out) => addon.changedField(code, index, first, second, fieldNumbers, out), given);
    if (found.length === 0) {
      return;
    }
    const [nameLength, firstLength] = Array.from(fieldNumbers, Number);
    const end = nameLength + firstLength;
    yield {
      name: text(found.subarray(0, nameLength)),
      recorded: text(found.subarray(nameLength, end)),
      replayed: text(found.subarray(end)),
    };
  }
}

/** The code and the payload of an item. */
function partsOf(item) {
  if (item instanceof UnknownCode) {
    return { code: item.code, payload: NOTHING };
  }
  if (item instanceof Message || item instanceof Skipped) {
    return item;
  }
  throw wrongKind('item', item, 'an item of a stream');
}
