// Items as received and as texts, frames with a destination, and the end of a stream.

import assert from 'node:assert/strict';
import test from 'node:test';

import { Incomplete, Malformed, Message, Skipped, Stream, Unknown, UnknownCode, frameInto, items } from 'pendratsoa';

import { chunksOf, hex, joined } from './support.js';

// Flags that no encoder sets, long lengths of fields, a custom entry, and what is of no type.
const FAITHFUL = [
  [
    8,
    '0400123400000009 72070a05696e707574 040300000000000b 0a81000a1a050a82007879 fc01ffff00000001ff' +
      '0008a5a500000000 0003000000000000',
  ],
  [9, '0008a5a500000002 0003 fc01000000000000'],
];

const FRAME = hex('0400000000000009 72070a05696e707574');
const PAYLOAD = FRAME.slice(8);

test('items are copied as they came', async () => {
  for (const [version, digits] of FAITHFUL) {
    const stream = hex(digits);
    for (const size of [1, 7, stream.length]) {
      const copied = [];
      for await (const item of items(chunksOf(stream, size), version)) {
        copied.push(item.bytes);
        item.bytes.fill(0);
      }
      assert.deepEqual(joined(...copied), stream);
    }
  }
});

test('a message that is made has the header of its type', () => {
  const message = new Message(8, 0x0005, hex('088100'));
  assert.deepEqual(message.bytes, hex('0005800000000003 088100'));
  assert.equal(message.word, undefined);
  const stream = new Stream();
  stream.feed(message.bytes);
  const [came] = stream;
  assert.equal(came.word, 0x0005800000000003n);
  assert.deepEqual(new UnknownCode(8, 8, 2n).bytes, hex('0000000000000002'));
  assert.deepEqual(new Skipped(9, 8, 1n, hex('ff')).bytes, hex('0000000000000001 ff'));
});

test('a frame over its own payload', () => {
  for (let at = 0; at < 12; at += 1) {
    const out = new Uint8Array(64);
    out.set(PAYLOAD, at);
    const size = frameInto(8, 0x0400, out.subarray(at, at + PAYLOAD.length), out);
    assert.deepEqual(out.slice(0, size), FRAME, `at ${at}`);
  }
});

test('frames with a destination', () => {
  const message = new Message(8, 0x0400, PAYLOAD);
  const size = FRAME.length;
  for (const room of [0, size - 1, size, 2 * size]) {
    const out = new Uint8Array(room).fill(7);
    assert.equal(message.frameInto(out), size);
    assert.equal(frameInto(9, 0x0400, PAYLOAD, out), size);
    const wanted = room < size ? new Uint8Array(room).fill(7) : joined(FRAME, new Uint8Array(room - size).fill(7));
    assert.deepEqual(out, wanted);
  }
  assert.throws(() => frameInto(8, 0x0400, PAYLOAD.slice(0, 3), new Uint8Array(30)), Malformed);
  assert.throws(() => message.frameInto([]), TypeError);
});

// Suspensions received at a version, and their frames at another: the digits, or the error that it has none.
const V6 = '08010a0202030804';
const V7 = '22120a010122080a010222030a010122030a0103';
const SUSPENSIONS = [
  [6, V6, 6, '0001000000000006 0a0401020304'],
  [6, V6, 5, '0001000000000006 0a0401020304'],
  [5, V6, 6, '0001000000000006 0a0401020304'],
  [6, V6, 7, Unknown],
  [5, V6, 9, Unknown],
  [6, V6, 10, Unknown],
  [6, '0a04', 6, Malformed],
  [7, V7, 7, `0001000000000014 ${V7}`],
  [9, V7, 8, `0001000000000014 ${V7}`],
  [9, V7, 6, '0001000000000006 0a0401020103'],
  [7, V7, 5, '0001000000000006 0a0401020103'],
];

test('suspensions of each version', () => {
  for (const [came, payload, version, wanted] of SUSPENSIONS) {
    const message = new Message(came, 1, hex(payload));
    const out = new Uint8Array(30).fill(7);
    if (typeof wanted === 'function') {
      assert.throws(() => message.frame(version), wanted);
      assert.throws(() => message.frameInto(out, version), wanted);
      assert.deepEqual(out, new Uint8Array(30).fill(7));
    } else {
      const frame = hex(wanted);
      assert.deepEqual(message.frame(version), frame);
      assert.equal(message.frameInto(out, version), frame.length);
      assert.deepEqual(out, joined(frame, new Uint8Array(30 - frame.length).fill(7)));
      assert.equal(message.frameInto(out.subarray(0, 13), version), frame.length);
    }
  }
  const message = new Message(6, 1, hex(''));
  assert.throws(() => message.frame(8), { message: 'frame: protocol version 8 has no SuspensionMessageV6' });
  assert.throws(() => message.frameInto([]), TypeError);
});

test('items as texts and as JSON', () => {
  const stream = new Stream(8);
  stream.feed(hex(FAITHFUL[0][1]));
  const made = [new Skipped(9, 8, 3n, hex('00ff')), new Message(8, 5, hex(''))];
  const found = [...stream, ...made];
  const [input, set] = found.map((item) => item.payload?.length);
  const lines = [`InputCommand ${input}`, `SetStateCommand ${set}`, 'CustomEntry(64513) 1', 'unknown 0x8', 'End 0'];
  assert.deepEqual(found.map(String), [...lines, 'skipped 0x8 2', 'ProposeRunCompletion 0 ack']);
  const json = JSON.parse(JSON.stringify(found));
  const fields = { kind: 'message', version: 8, requestedAck: false, payload: '/w==' };
  assert.deepEqual(json[2], { ...fields, code: 0xfc01, type: 'CustomEntry(64513)' });
  assert.deepEqual(json[3], { kind: 'unknownCode', version: 8, code: 8, word: String(0x0008a5a500000000n) });
  assert.deepEqual(json[5], { kind: 'skipped', version: 9, code: 8, word: '3', payload: 'AP8=' });
});

test('the end of a stream', () => {
  const stream = new Stream();
  stream.feed(FRAME);
  assert.equal([...stream].length, 1);
  stream.finish();
  stream.feed(hex('04'));
  assert.throws(() => stream.finish(), (error) => {
    assert.ok(error instanceof Incomplete);
    const text = `the stream ended within an item at offset ${FRAME.length}, after 1 byte of it`;
    assert.equal(error.message, text);
    assert.deepEqual([error.call, error.rest, error.offset, error.typeCode], ['finish', 1, FRAME.length, undefined]);
    assert.deepEqual(error.trailing, hex('04'));
    return true;
  });
});

test('a stream that ends within an item is copied with its trailing bytes', () => {
  for (const [version, digits] of FAITHFUL) {
    const bytes = hex(digits);
    for (let end = 0; end <= bytes.length; end += 1) {
      const stream = new Stream(version);
      const copied = [];
      for (let begin = 0; begin < end; begin += 3) {
        const before = stream.trailing;
        const chunk = bytes.slice(begin, Math.min(begin + 3, end));
        stream.feed(chunk);
        // what is in whole items counts until they are taken
        assert.deepEqual(stream.trailing, joined(before, chunk));
        copied.push(...Array.from(stream, (item) => item.bytes));
      }
      if (stream.rest > 0) {
        assert.throws(() => stream.finish(), ({ trailing }) => trailing.length === stream.rest);
      }
      assert.deepEqual(joined(...copied, stream.trailing), bytes.slice(0, end));
    }
  }
});

test('trailing bytes are in memory of their own', () => {
  const stream = new Stream();
  stream.feed(FRAME.subarray(0, 10));
  stream.trailing.fill(7);
  assert.deepEqual(stream.trailing, FRAME.slice(0, 10));
  stream.feed(FRAME.subarray(10));
  const [item] = stream;
  assert.deepEqual(item.bytes, FRAME);
  assert.deepEqual(stream.trailing, hex(''));
});
