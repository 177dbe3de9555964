// The memory of the WebAssembly module, and the arguments of its calls: checked as src/arguments.c checks those of the
// addon, with the same errors; of an array of numbers that looks only at the size. module_calls.js has the calls.

import { TOO_LONG, UNKNOWN_CODE, UNKNOWN_SCHEMA, UNKNOWN_VERSION } from './declared.js';

// An instance whose memory became larger is dropped after the call, since no memory of a module shrinks.
const MOST_KEPT = 2 ** 23;
// The room that is made at least, so that most calls find it.
const LEAST_ROOM = 2 ** 18;

/** What the instance exports: the calls, and its memory. */
export let instance;

let make;
// views of all its memory, which are renewed once that grows
let bytes;
let words;
// where the room is, and its size in bytes
let base = 0;
let room = 0;

/** Takes instances that a function makes, from now on. */
export function useInstances(makeInstance) {
  make = makeInstance;
  renew();
}

/** Takes a new instance. That of a call that trapped is of no use, and its memory is half written. */
export function renew() {
  instance = make();
  base = 0;
  room = 0;
  look();
}

function look() {
  const { buffer } = instance.memory;
  bytes = new Uint8Array(buffer);
  words = new BigUint64Array(buffer);
}

/** A size up to the next multiple of 16. */
export function aligned(size) {
  return size + 15 - ((size + 15) % 16);
}

/** Where there is room for a number of bytes; 0 if there is no memory for it. */
export function reserve(size) {
  if (size > room || base === 0) {
    const wanted = Math.max(size, LEAST_ROOM);
    // an older instance may have no room in one piece
    base = Number(instance.pendratsoa_room(BigInt(wanted)));
    room = base === 0 ? 0 : wanted;
    look();
  }
  return base;
}

/** The first of up to three numbers that is not 0. */
export function firstOf(one, other, third = 0) {
  return one || other || third;
}

// Up to how many bytes or numbers a loop is faster than a call that copies them, and than one that needs a view too.
const FEW_BYTES = 8;
const FEW_BYTES_VIEWED = 24;
const FEW_NUMBERS = 16;

export function putBytes(value, length, at) {
  if (length <= FEW_BYTES) {
    for (let index = 0; index < length; index += 1) {
      bytes[at + index] = value[index];
    }
  } else {
    set(bytes, value, at);
  }
}

export function putNumbers(numbers, count, at) {
  if (count <= FEW_NUMBERS) {
    for (let index = 0; index < count; index += 1) {
      words[at / 8 + index] = numbers[index];
    }
  } else {
    set(words, numbers, at / 8);
  }
}

/** Takes the bytes that a call wrote: as many as it returned, if there was room for them. */
export function takeBytes(returned, out, length, at) {
  if (returned > 0 && returned <= length) {
    renewViews();
    if (returned <= FEW_BYTES_VIEWED) {
      for (let index = 0; index < returned; index += 1) {
        out[index] = bytes[at + index];
      }
    } else {
      set(out, bytes.subarray(at, at + returned));
    }
  }
}

export function takeNumbers(numbers, count, at) {
  if (count > 0) {
    renewViews();
    if (count <= FEW_NUMBERS) {
      for (let index = 0; index < count; index += 1) {
        numbers[index] = words[at / 8 + index];
      }
    } else {
      set(numbers, words.subarray(at / 8, at / 8 + count));
    }
  }
}

/** Views of a memory that grew are of no length. */
function renewViews() {
  if (bytes.length === 0) {
    look();
  }
}

/** What a call returned, after which an instance with much memory is dropped, unless something is left in it. */
export function finished(returned) {
  renewViews();
  if (bytes.length > MOST_KEPT && instance.pendratsoa_blocks() === 0n) {
    renew();
  }
  return returned;
}

// The own properties of typed arrays, whatever a class below them says.
const arrays = Object.getPrototypeOf(Uint8Array.prototype);
const bufferOf = getterOf('buffer');
const tagOf = getterOf(Symbol.toStringTag);
const lengthOf = getterOf('length');
const set = Function.prototype.call.bind(arrays.set);
const { SharedArrayBuffer: SharedBuffer } = globalThis;

function getterOf(name) {
  return Function.prototype.call.bind(Object.getOwnPropertyDescriptor(arrays, name).get);
}

export function bytesIn(name, value) {
  return lengthIn(name, value, 'Uint8Array', name === 'json' ? 'a string or a Uint8Array' : 'a Uint8Array');
}

export function numbersIn(name, value) {
  return lengthIn(name, value, 'BigUint64Array', 'a BigUint64Array');
}

/** How many elements a typed array of a kind has. */
function lengthIn(name, value, kind, hasToBe) {
  const found = typeof value === 'object' && value !== null ? tagOf(value) : undefined;
  if (found !== kind) {
    throw wrongKind(name, found === undefined ? kindOf(value) : 'another typed array', hasToBe);
  }
  const buffer = bufferOf(value);
  if (SharedBuffer !== undefined && buffer instanceof SharedBuffer) {
    throw wrongKind(name, 'a view on shared memory', 'a copy of it');
  }
  const length = lengthOf(value);
  if (length === 0 && isDetached(buffer)) {
    throw wrongKind(name, 'a view on a detached buffer', hasToBe);
  }
  return length;
}

function isDetached(buffer) {
  try {
    return buffer.byteLength === 0 && new Uint8Array(buffer) === undefined;
  } catch {
    return true;
  }
}

export function versionIn(value) {
  return identifierIn('version', value, 0xffffffff, UNKNOWN_VERSION);
}

export function schemaIn(value) {
  return identifierIn('schema', value, 0xffffffff, UNKNOWN_SCHEMA);
}

export function codeIn(value) {
  return identifierIn('code', value, 0xffff, UNKNOWN_CODE);
}

/** 0 of a whole number up to the greatest; what is none is that of no version, schema or code, which is the error. */
function identifierIn(name, value, greatest, unknown) {
  if (typeof value !== 'number') {
    throw wrongKind(name, kindOf(value), 'a number');
  }
  return value >= 0 && value <= greatest && Math.floor(value) === value ? 0 : unknown;
}

/** The same of a size in bytes. */
export function sizeIn(name, value) {
  if (typeof value !== 'number') {
    throw wrongKind(name, kindOf(value), 'a number');
  }
  if (value > 0xffffffff) {
    return TOO_LONG;
  }
  if (value >= 0 && Math.floor(value) === value) {
    return 0;
  }
  throw Object.assign(new RangeError(`${name} is negative, or no whole number of bytes`), { code: 'ERR_OUT_OF_RANGE' });
}

export function flagIn(name, value) {
  if (typeof value !== 'boolean') {
    throw wrongKind(name, kindOf(value), 'a boolean');
  }
}

/** The kind of a value within a message. */
export function kindOf(value) {
  if (value === undefined || value === null) {
    return String(value);
  }
  return typeof value === 'object' ? 'an object' : `a ${typeof value}`;
}

function wrongKind(name, is, hasToBe) {
  const error = new TypeError(`${name} is ${is}, and has to be ${hasToBe}`);
  return Object.assign(error, { code: 'ERR_INVALID_ARG_TYPE' });
}
