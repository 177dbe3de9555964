// The memory of the bytes that calls return. Those of less than half a block are parts of one, next to each other, as
// the parts of Node's own pool: memory of its own takes V8 longer than all else of a call. A block is all zeros at
// first, and no part of it is given again, so only its owner writes to a part.

const BLOCK = 8192;
export const LONG = BLOCK / 2;
const HEADER_SIZE = 8;

// The method itself, since V8 looks one up at each access, and the length of an array, whatever a class of a caller
// says.
const { set } = Uint8Array.prototype;
const lengthGetter = Object.getOwnPropertyDescriptor(Object.getPrototypeOf(Uint8Array.prototype), 'length').get;

// Up to how many bytes or words a loop is faster than a call that copies them, which takes a view.
const FEW = 12;
const FEW_WORDS = 64;

/** What makes a block: node.js has what makes one that a message to a worker copies, and does not move. */
export const blocks = { make: (size) => new ArrayBuffer(size) };

// The block of which parts are given now, from a place on. It is empty at first, and if someone has transferred it.
let buffer = new ArrayBuffer(0);
let bytes = new Uint8Array(buffer);
let words = new Uint32Array(buffer);
let next = 0;

/** Bytes to be copied as a whole, from their first one on, which are also words of four bytes. */
export class Scratch {
  constructor(buffer, at = 0, size = buffer.byteLength - at) {
    this.bytes = new Uint8Array(buffer, at, size);
    this.words = new Uint32Array(buffer, at, Math.floor(size / 4));
  }
}

/** Takes a new block. */
function renew() {
  const made = blocks.make(BLOCK);
  buffer = made;
  bytes = new Uint8Array(made);
  words = new Uint32Array(made);
  next = 0;
}

/** How many elements an array has. What is not one is a TypeError. */
export function lengthOf(array) {
  return lengthGetter.call(array);
}

/** Takes the place of a part of a size, which is less than that of a long one. */
function placeOf(size) {
  // not even an empty part is given of a block that someone has transferred
  if (size > bytes.length - next || bytes.length === 0) {
    renew();
  }
  const at = next;
  // at a multiple of 8, as the parts of Node's pool
  next = (at + size + 7) & ~7;
  return at;
}

/** A copy of the first bytes of what a call wrote to. */
export function copiedFrom(scratch, length) {
  if (length >= LONG) {
    return scratch.bytes.slice(0, length);
  }
  const at = placeOf(length);
  const count = (length + 3) >>> 2;
  if (count <= FEW_WORDS && count <= scratch.words.length) {
    const from = scratch.words;
    const into = words;
    const first = at >>> 2;
    for (let index = 0; index < count; index += 1) {
      into[first + index] = from[index];
    }
  } else {
    bytes.set(scratch.bytes.subarray(0, length), at);
  }
  return new Uint8Array(buffer, at, length);
}

/** A copy of the bytes from one on to an end. */
export function copied(source, begin, end) {
  const length = end - begin;
  if (length >= LONG) {
    return new Uint8Array(source.subarray(begin, end));
  }
  // before the place is taken, since a class may have a method of its own
  const part = source.subarray(begin, end);
  const at = placeOf(length);
  put(part, length, at);
  return new Uint8Array(buffer, at, length);
}

/** How many bytes the block has room for, which are at least so many: less than those of a long part. */
export function roomFor(size) {
  if (size > bytes.length - next) {
    renew();
  }
  return bytes.length - next;
}

/** A copy of the bytes from one on to an end. Each part of it is to be given once. */
export class Run {
  #block;
  #buffer;
  #shift;
  #end;

  constructor(source, begin, end) {
    const at = placeOf(end - begin);
    bytes.set(source.subarray(begin, end), at);
    this.#block = bytes;
    this.#buffer = buffer;
    this.#shift = at - begin;
    this.#end = end;
  }

  /** Where what is there ends: nothing is, once someone has transferred the block. */
  get end() {
    return this.#block.length === 0 ? 0 : this.#end;
  }

  /** The part from a byte of the source on to an end. */
  part(begin, end) {
    return new Uint8Array(this.#buffer, begin + this.#shift, end - begin);
  }
}

/** A header, by its halves, and after it a payload. */
export function headed(high, low, payload) {
  // what a caller has put in the place of a payload may be no array
  const size = lengthOf(payload);
  const length = HEADER_SIZE + size;
  if (length >= LONG) {
    const whole = new Uint8Array(length);
    const view = new DataView(whole.buffer);
    view.setUint32(0, high);
    view.setUint32(4, low);
    whole.set(payload, HEADER_SIZE);
    return whole;
  }
  const at = placeOf(length);
  words[at >>> 2] = swapped(high);
  words[(at >>> 2) + 1] = swapped(low);
  put(payload, size, at + HEADER_SIZE);
  return new Uint8Array(buffer, at, length);
}

/** A number of 32 bits with its bytes in the other order. */
function swapped(number) {
  return (number << 24) | ((number & 0xff00) << 8) | ((number >>> 8) & 0xff00) | (number >>> 24);
}

/** Copies bytes into the block. */
function put(source, length, at) {
  const into = bytes;
  // an array whose buffer is detached seems to be empty; the call throws then
  if (length === 0 || length > FEW) {
    set.call(into, source, at);
    return;
  }
  for (let index = 0; index < length; index += 1) {
    into[at + index] = source[index];
  }
}
