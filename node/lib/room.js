// The room of a record: one memory with what the two calls that read and write records are given and return. They take
// no more than what is in it, since each argument takes Node-API longer than an entry of a record takes the library.

import { addon } from './addon.js';
import { FIELD_NUMBERS } from './declared.js';
import { Scratch } from './pool.js';

// Where the numbers of the head are, in halves of 64 bits; src/room.c has the same. Then come the entries, the bytes
// that they have or a payload to be read, and the payload that is written.
export const SCHEMA = 0;
export const COUNT = 1;
export const SIZE = 2;
export const RETURNED = 6;
export const KIND = 8;
const INDEX = 10;
export const HEAD_SIZE = 48;
const ENTRY_SIZE = 8 * FIELD_NUMBERS;

// At most how many bytes the key of an entry takes in a payload, with its number or its length.
const MOST_BYTES = 16;

/** The half with which the first entry begins. */
export const FIRST = HEAD_SIZE / 4;

/** The room for a number of entries, and for a number of bytes that they have, a multiple of 8. */
export class Room {
  constructor(entries, size) {
    const bytesAt = HEAD_SIZE + ENTRY_SIZE * entries;
    const outAt = bytesAt + size;
    const outSize = size + MOST_BYTES * entries;
    const buffer = new ArrayBuffer(outAt + outSize);
    this.entries = entries;
    this.halves = new Uint32Array(buffer, 0, bytesAt / 4);
    this.numbers = new BigUint64Array(buffer, 0, bytesAt / 8);
    this.bytes = new Uint8Array(buffer, bytesAt, size);
    this.out = new Scratch(buffer, outAt, outSize);
    this.calls = addon.room(buffer, entries, size);
  }

  /** Reads a payload, and returns how many entries it has, or the number of an error. */
  read(schema, payload) {
    this.halves[SCHEMA] = schema;
    this.calls.read(payload);
    return this.returned();
  }

  /** The same of a payload that is in the bytes of the room. */
  readOwn(schema, length) {
    this.halves[SCHEMA] = schema;
    this.halves[SIZE] = length;
    this.calls.readOwn();
    return this.returned();
  }

  /** Writes the payload of the first so many entries and bytes, and returns its length, or the number of an error. */
  write(schema, count, size) {
    this.halves[SCHEMA] = schema;
    this.halves[COUNT] = count;
    this.halves[SIZE] = size;
    this.calls.write();
    return this.returned();
  }

  /** What a call returned: a count below 2^32, or the number of an error, whose upper half is not 0. */
  returned() {
    const number = this.halves[RETURNED];
    return this.halves[RETURNED + 1] === 0 ? number : number | 0;
  }

  /** What kind of a result it was when a payload was written, and which entry it is of. */
  get kind() {
    return this.halves[KIND];
  }

  get index() {
    return this.halves[INDEX];
  }
}
