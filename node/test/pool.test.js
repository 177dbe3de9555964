// The memory of what calls return: parts of blocks, each of which is its caller's.

import assert from 'node:assert/strict';
import test from 'node:test';

import {
  Message,
  Skipped,
  Stream,
  UnknownCode,
  canonical,
  frame,
  fromJson,
  header,
  merge,
  notification,
  writeRecord,
} from 'pendratsoa';

import { blocks } from '../lib/pool.js';
import { bytesOf, hex, joined } from './support.js';

const BLOCK = 8192;
const VALUE = 1;
const RECORDED = bytesOf('examples/streams/recorded');

/** The payload of a value whose content has a number of bytes, which are all the same. */
function valueOf(size, byte) {
  return writeRecord('Value', { content: new Uint8Array(size).fill(byte) });
}

/** The items of a stream that comes in two chunks. */
function itemsOf(bytes, version = 8) {
  const stream = new Stream(version);
  const found = [];
  for (const chunk of [bytes.subarray(0, 11), bytes.subarray(11)]) {
    stream.feed(chunk);
    found.push(...stream);
  }
  return found;
}

/** What each call returns that returns bytes. */
function* results(size, byte) {
  const payload = valueOf(size, byte);
  yield payload;
  yield canonical(VALUE, payload);
  yield merge(VALUE, payload, payload);
  yield fromJson(VALUE, JSON.stringify({ content: Buffer.from(payload).toString('base64') }));
  yield header(8, 0x0400, size);
  yield notification(0xfbff, joined(hex('1a0473746f702a030a01'), Uint8Array.of(byte))).result;
  const message = Message.of('SetStateCommand', { key: payload });
  yield message.payload;
  yield message.bytes;
  yield message.canonical();
  yield message.frame();
  yield frame(8, message.code, message.payload);
  yield new UnknownCode(8, 8, BigInt(byte)).bytes;
  yield new Skipped(9, 8, BigInt(byte), payload).bytes;
  for (const item of itemsOf(joined(RECORDED, message.bytes, message.bytes, hex('0400')))) {
    yield item.payload;
    yield item.bytes;
  }
  const stream = new Stream();
  stream.feed(message.bytes.subarray(1));
  yield stream.trailing;
}

test('what is returned is the caller\'s', () => {
  const found = [];
  const copies = [];
  for (let round = 0; round < 60; round += 1) {
    // of each length near where a loop copies, and where an array has memory of its own
    for (const size of [round, 4 * round, 4000 + 4 * round]) {
      for (const result of results(size, round)) {
        found.push(result);
        copies.push(Buffer.from(result));
      }
    }
  }
  for (const [index, result] of found.entries()) {
    assert.ok(copies[index].equals(result));
    // the mark of another one would be seen
    result.fill(index & 255);
    result.fill(index >> 8, 0, 1);
  }
  for (const [index, result] of found.entries()) {
    assert.ok(result.every((byte, at) => byte === (at === 0 ? index >> 8 : index & 255)));
  }
});

test('short results are parts of a block, and long ones have memory of their own', () => {
  for (const size of [0, 1, 64, 65, 1000, 4000, 4090]) {
    for (const result of results(size, 7)) {
      assert.ok(Object.getPrototypeOf(result) === Uint8Array.prototype);
      assert.equal(result.buffer.byteLength, result.length < BLOCK / 2 ? BLOCK : result.length);
    }
  }
  const payload = valueOf(20, 7);
  for (const own of [payload.slice(), Uint8Array.from(payload), new Uint8Array(payload)]) {
    assert.deepEqual(own, payload);
    assert.equal(own.buffer.byteLength, payload.length);
  }
});

test('a block has nothing but results, and zeros', () => {
  let first = valueOf(3000, 0xa5);
  while (first.byteOffset !== 0) {
    first = valueOf(3000, 0xa5);
  }
  const rest = new Uint8Array(first.buffer, first.length);
  assert.ok(rest.length > 5000);
  assert.ok(rest.every((byte) => byte === 0));
});

test('items that are longer than the rest of a block, and than a block', () => {
  const messages = [1, 100, 4070, 3000, 3000, 3000, 4080, 4084, 4088, 4100, 9000, 1, 100000, 2].map((size, index) =>
    Message.of('SetStateCommand', { key: new Uint8Array(size).fill(index) }),
  );
  const stream = joined(...messages.map(({ bytes }) => bytes));
  for (const size of [1000, 5000, 50_000, stream.length]) {
    const whole = new Stream();
    const found = [];
    for (let begin = 0; begin < stream.length; begin += size) {
      whole.feed(stream.subarray(begin, begin + size));
      for (const item of whole) {
        found.push(item);
      }
    }
    assert.deepEqual(found.map(({ payload }) => payload), messages.map(({ payload }) => payload));
  }
});

test('a part that is passed to a worker is copied, and stays', () => {
  const payload = valueOf(20, 7);
  const before = payload.slice();
  assert.deepEqual(structuredClone(payload), before);
  try {
    assert.deepEqual(structuredClone(payload, { transfer: [payload.buffer] }), before);
  } catch (error) {
    // later versions of Node do not take it
    assert.equal(error.name, 'DataCloneError');
  }
  assert.deepEqual(payload, before);
});

test('a block that was transferred is not used again', () => {
  const { make } = blocks;
  // as in a browser, where each buffer can be transferred
  blocks.make = (size) => new ArrayBuffer(size);
  try {
    for (let count = 0; count < 3; count += 1) {
      valueOf(3000, 1);
    }
    const stream = new Stream();
    const message = Message.of('SetStateCommand', { key: hex('61') });
    stream.feed(joined(message.bytes, message.bytes, message.bytes));
    for (const item of stream) {
      assert.deepEqual(item.message.key, hex('61'));
      structuredClone(item.payload, { transfer: [item.payload.buffer] });
      assert.equal(item.payload.length, 0);
      assert.throws(() => item.bytes, TypeError);
    }
    const payload = valueOf(1, 1);
    structuredClone(payload, { transfer: [payload.buffer] });
    assert.equal(payload.length, 0);
    assert.deepEqual(valueOf(1, 2), hex('0a0102'));
    assert.deepEqual(new Message(8, 0x0403, hex('0a0161')).bytes, hex('0403000000000003 0a0161'));
  } finally {
    blocks.make = make;
  }
});

test('without memory for a block nothing is taken', () => {
  const { make } = blocks;
  const message = Message.of('SetStateCommand', { key: new Uint8Array(3000) });
  const stream = new Stream();
  const whole = joined(message.bytes, message.bytes);
  stream.feed(whole);
  blocks.make = () => {
    throw new RangeError('no memory');
  };
  try {
    // until the block is full
    assert.throws(() => {
      for (let count = 0; count < 3; count += 1) {
        valueOf(3000, 1);
      }
    }, RangeError);
    for (let count = 0; count < 2; count += 1) {
      assert.throws(() => [...stream], RangeError);
    }
    assert.equal(stream.rest, whole.length);
  } finally {
    blocks.make = make;
  }
  assert.deepEqual(Array.from(stream, ({ payload }) => payload), [message.payload, message.payload]);
});

test('a payload that a caller has replaced', () => {
  const { payload, bytes } = Message.of('SetStateCommand', { key: hex('61') });
  const unknown = hex('0008000000000001 ff');
  const [item, skipped] = itemsOf(joined(bytes, unknown, hex('0400')), 9);
  for (const other of [{}, [], { length: -100 }, { length: 'x' }, { length: 'e2' }, undefined]) {
    const message = Object.assign(new Message(8, 0x0403, payload), { payload: other });
    assert.throws(() => message.bytes, TypeError);
    item.payload = other;
    skipped.payload = other;
    assert.deepEqual([item.bytes, skipped.bytes], [bytes, unknown]);
  }
  // nothing is written to what was given before
  assert.deepEqual(payload, hex('0a0161'));
  assert.deepEqual(bytes, hex('0403000000000003 0a0161'));
});
