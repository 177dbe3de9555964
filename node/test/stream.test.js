// Streams, in chunks of any size and from any source.

import assert from 'node:assert/strict';
import { Readable } from 'node:stream';
import test from 'node:test';
import { MessageChannel } from 'node:worker_threads';

import { Message, Skipped, Stream, TooLong, UnknownCode, decode, items } from 'pendratsoa';

import { bytesOf, chunksOf, hex, joined, listed, textOf } from './support.js';

// An input with the value "input", eight bytes of code 8, and a message of 20 bytes that is not all there.
const INPUT = hex('0400000000000009 72070a05696e707574');
const WORD = '0008000000000002';
const STREAM = joined(INPUT, hex(WORD), hex('0400000000000014'));
const ITEMS = [new Message(8, 0x0400, INPUT.slice(8)), new UnknownCode(8, 8, BigInt(`0x${WORD}`))];

// Whole items only.
const REPLAY = bytesOf('examples/streams/replay');

/** A source of chunks, which records whether it was closed. */
class Source {
  isClosed = false;

  constructor(...chunks) {
    this.chunks = chunks;
  }

  async *[Symbol.asyncIterator]() {
    try {
      for (const chunk of this.chunks) {
        if (chunk instanceof Error) {
          throw chunk;
        }
        yield chunk;
      }
    } finally {
      this.isClosed = true;
    }
  }
}

/** A stream of the web over a source. Node's own may fail once it is cancelled. */
function webStream(source) {
  const chunks = source[Symbol.asyncIterator]();
  return new ReadableStream({
    async pull(controller) {
      const { done, value } = await chunks.next();
      if (done) {
        controller.close();
      } else {
        controller.enqueue(value);
      }
    },
    cancel: () => chunks.return(),
  });
}

/** Whether a source is closed, which a chain of streams does some turns later. */
async function isClosedSoon(source) {
  for (let turn = 0; turn < 1000 && !source.isClosed; turn += 1) {
    await new Promise(setImmediate);
  }
  return source.isClosed;
}

async function collect(source) {
  const found = [];
  for await (const item of source) {
    found.push(item);
  }
  return found;
}

/** The items of a whole stream. */
function itemsAtOnce(bytes, version = 8) {
  const stream = new Stream(version);
  stream.feed(bytes);
  return [...stream];
}

/** Takes the memory of bytes away, as a transfer to another thread does. */
function detach(bytes) {
  const { port1, port2 } = new MessageChannel();
  port1.postMessage(bytes, [bytes.buffer]);
  port1.close();
  port2.close();
  assert.equal(bytes.length, 0);
}

test('items are the same however the stream is split', () => {
  for (let size = 1; size <= STREAM.length; size += 1) {
    const stream = new Stream();
    const found = [];
    for (const chunk of chunksOf(STREAM, size)) {
      stream.feed(chunk);
      found.push(...stream);
    }
    assert.deepEqual(found, ITEMS);
    assert.equal(stream.rest, 8);
  }
});

test('chunks that are all fed before the first item is taken', () => {
  const stream = new Stream();
  chunksOf(STREAM, 3).forEach((chunk) => stream.feed(chunk));
  assert.equal(stream.rest, STREAM.length);
  assert.deepEqual([...stream], ITEMS);
  assert.equal(stream.rest, 8);
});

test('empty chunks change nothing', () => {
  const stream = new Stream(8);
  stream.feed(new Uint8Array(0));
  assert.deepEqual([...stream], []);
  stream.feed(STREAM);
  stream.feed(new Uint8Array(0));
  assert.deepEqual([...stream], ITEMS);
  stream.feed(new Uint8Array(0));
  assert.deepEqual([[...stream], stream.rest], [[], 8]);
});

test('the version', () => {
  assert.equal(new Stream().version, 8);
  assert.equal(new Stream(9).version, 9);
  assert.throws(() => {
    new Stream(9).version = 8;
  }, TypeError);
});

test('version 9 skips a message with its payload', () => {
  const bytes = hex('0008000000000002 0003 0003000000000000 00');
  const stream = new Stream(9);
  stream.feed(bytes);
  const found = [...stream];
  assert.deepEqual(found, [new Skipped(9, 8, 0x0008000000000002n, hex('0003')), new Message(9, 3, hex(''))]);
  assert.deepEqual(found.map(({ kind }) => kind), ['skipped', 'message']);
  assert.equal(stream.rest, 1);
});

test('the word of an item has all 64 bits', () => {
  const [item] = itemsAtOnce(hex('03ffffffffffffff'));
  assert.deepEqual(item, new UnknownCode(8, 0x03ff, 0x03ffffffffffffffn));
});

test('an acknowledgement', () => {
  const found = itemsAtOnce(hex('0005800000000005 0801720178 0005000000000000'));
  assert.deepEqual(found.map(({ requestedAck }) => requestedAck), [true, false]);
});

test('a loop continues where the one before ended', () => {
  const stream = new Stream();
  stream.feed(STREAM);
  for (const item of stream) {
    assert.deepEqual(item, ITEMS[0]);
    break;
  }
  assert.equal(stream.rest, STREAM.length - INPUT.length);
  assert.deepEqual([...stream], ITEMS.slice(1));
});

test('a chunk may be fed while the items are iterated', () => {
  const stream = new Stream();
  const found = [];
  stream.feed(REPLAY);
  for (const item of stream) {
    found.push(item);
    if (found.length === 1) {
      chunksOf(REPLAY, 5).forEach((chunk) => stream.feed(chunk));
    }
  }
  assert.deepEqual(found, [...itemsAtOnce(REPLAY), ...itemsAtOnce(REPLAY)]);
});

test('two loops at once take each item once', () => {
  const stream = new Stream();
  stream.feed(REPLAY);
  const [first, second] = [stream[Symbol.iterator](), stream[Symbol.iterator]()];
  const found = [];
  for (let step = first.next(); !step.done; step = (found.length % 2 === 0 ? first : second).next()) {
    found.push(step.value);
  }
  assert.deepEqual(found, itemsAtOnce(REPLAY));
});

test('a chunk that is changed or transferred after it was fed', () => {
  const stream = new Stream();
  const changed = STREAM.slice(0, 12);
  const transferred = STREAM.slice(12);
  stream.feed(changed);
  changed.fill(0xff);
  stream.feed(transferred);
  detach(transferred);
  assert.deepEqual([...stream], ITEMS);
});

test('a payload that is changed, and a copy of one that is transferred', () => {
  const stream = new Stream();
  stream.feed(joined(INPUT, INPUT, INPUT));
  const [first, second, third] = stream;
  first.payload.fill(0xff);
  detach(second.payload.slice());
  assert.deepEqual(second, ITEMS[0]);
  assert.deepEqual(third, ITEMS[0]);
  stream.feed(INPUT);
  assert.deepEqual([...stream], [ITEMS[0]]);
});

test('a rejected chunk leaves the stream unchanged', () => {
  const stream = new Stream();
  stream.feed(STREAM.subarray(0, 10));
  const detached = STREAM.slice(10);
  detach(detached);
  for (const chunk of [detached, new Uint8Array(new SharedArrayBuffer(8)), 'text', undefined]) {
    assert.throws(() => stream.feed(chunk), { name: 'TypeError', code: 'ERR_INVALID_ARG_TYPE' });
  }
  assert.equal(stream.rest, 10);
  stream.feed(STREAM.subarray(10));
  assert.deepEqual([...stream], ITEMS);
});

test('a class below Uint8Array that lies about its length', () => {
  class Lying extends Uint8Array {
    get length() {
      return 2 ** 32;
    }

    get byteLength() {
      return 0;
    }

    get buffer() {
      return new ArrayBuffer(3);
    }
  }
  const stream = new Stream();
  stream.feed(new Lying(STREAM));
  assert.deepEqual([...stream], ITEMS);
  assert.equal(stream.rest, 8);
});

test('a header that promises 4 GiB allocates only for what comes', () => {
  const before = process.memoryUsage().arrayBuffers;
  const stream = new Stream();
  stream.feed(hex('04000000ffffffff'));
  for (let i = 0; i < 64; i += 1) {
    stream.feed(new Uint8Array(16_384));
    assert.deepEqual([...stream], []);
  }
  assert.equal(stream.rest, 8 + 2 ** 20);
  assert.ok(process.memoryUsage().arrayBuffers - before < 2 ** 26);
});

test('a payload that comes one byte at a time', () => {
  const payload = new Uint8Array(10_000).fill(1);
  const stream = new Stream();
  let found = [];
  for (const chunk of chunksOf(joined(hex('fc01000000002710'), payload), 1)) {
    assert.equal(found.length, 0);
    stream.feed(chunk);
    found = [...stream];
  }
  assert.deepEqual(found, [new Message(8, 0xfc01, payload)]);
});

test('a payload in many chunks takes linear time', { timeout: 60_000 }, async () => {
  const size = 2 ** 23;
  const chunk = new Uint8Array(64);
  const stream = new Stream();
  stream.feed(hex('fc01000000800000'));
  for (let fed = 0; fed < size; fed += chunk.length) {
    for (const { payload } of stream) {
      assert.fail(`a payload of ${payload.length} bytes`);
    }
    stream.feed(chunk);
    // so that the time can run out
    if (fed % 2 ** 16 === 0) {
      await new Promise(setImmediate);
    }
  }
  const [{ payload }] = stream;
  assert.equal(payload.length, size);
});

test('the items of sources of every sort', async () => {
  const expected = itemsAtOnce(REPLAY);
  const chunks = chunksOf(REPLAY, 7);
  for (const source of [
    chunks,
    new Source(...chunks),
    Readable.from(chunks),
    Readable.toWeb(Readable.from(chunks.map((chunk) => Buffer.from(chunk)))),
    new Set(chunks),
  ]) {
    assert.deepEqual(await collect(items(source)), expected);
  }
  assert.deepEqual(await collect(items([], 9)), []);
});

test('a source that ends within an item', async () => {
  const found = [];
  await assert.rejects(
    async () => {
      for await (const item of items(new Source(STREAM))) {
        found.push(item);
      }
    },
    {
      name: 'Incomplete',
      code: 'JOURNAL_INCOMPLETE',
      rest: 8,
      trailing: STREAM.slice(-8),
      call: 'items',
      offset: 25,
      typeCode: 0x0400,
      message: 'the stream ended within InputCommand at offset 25, after 8 bytes of it',
    },
  );
  assert.deepEqual(found, ITEMS);
});

test('a source that may end within an item', async () => {
  const options = { strict: false };
  for (const size of [1, 7, STREAM.length]) {
    const source = new Source(...chunksOf(STREAM, size));
    assert.deepEqual(await collect(items(source, 8, options)), ITEMS);
    const chunks = Readable.toWeb(Readable.from(chunksOf(STREAM, size)));
    assert.deepEqual(await collect(chunks.pipeThrough(decode(8, options))), ITEMS);
  }
  // any other error is thrown as before
  const failure = new Error('the source failed');
  await assert.rejects(collect(items(new Source(STREAM, failure), 8, options)), failure);
  const limited = { ...options, maxMessageSize: INPUT.length - 9 };
  await assert.rejects(collect(items([STREAM], 8, limited)), { name: 'MessageTooLong', offset: 0 });
});

test('a stream that ends within the header of an item', () => {
  for (const [rest, typeCode, name, came] of [
    ['04', undefined, 'an item', '1 byte'],
    ['0403', 0x0403, 'SetStateCommand', '2 bytes'],
    ['040300', 0x0403, 'SetStateCommand', '3 bytes'],
    ['00080000000000', 8, 'code 0x0008', '7 bytes'],
  ]) {
    const stream = new Stream();
    stream.feed(joined(INPUT, hex(rest)));
    assert.equal([...stream].length, 1);
    assert.throws(() => stream.finish(), {
      name: 'Incomplete',
      trailing: hex(rest),
      offset: 17,
      typeCode,
      message: `the stream ended within ${name} at offset 17, after ${came} of it`,
    });
  }
});

test('a source that fails, and one of wrong chunks', async () => {
  const failure = new Error('the source failed');
  const source = new Source(REPLAY, failure);
  await assert.rejects(collect(items(source)), failure);
  assert.ok(source.isClosed);
  const wrong = new Source(REPLAY, 'text');
  await assert.rejects(collect(items(wrong)), { name: 'TypeError', code: 'ERR_INVALID_ARG_TYPE' });
  assert.ok(wrong.isClosed);
  for (const nothing of [undefined, null, 5, {}]) {
    await assert.rejects(collect(items(nothing)), TypeError);
  }
});

test('a loop that ends early closes its source', async () => {
  const source = new Source(REPLAY);
  for await (const item of items(source)) {
    assert.equal(item.kind, 'message');
    break;
  }
  assert.ok(source.isClosed);
});

test('a transform stream', async () => {
  const chunks = Readable.toWeb(Readable.from(chunksOf(REPLAY, 7)));
  assert.deepEqual(await collect(chunks.pipeThrough(decode(8))), itemsAtOnce(REPLAY));
});

test('a transform stream that ends within an item', async () => {
  const chunks = Readable.toWeb(Readable.from([STREAM]));
  const reader = chunks.pipeThrough(decode()).getReader();
  assert.deepEqual((await reader.read()).value, ITEMS[0]);
  assert.deepEqual((await reader.read()).value, ITEMS[1]);
  await assert.rejects(reader.read(), { name: 'Incomplete', call: 'decode' });
});

test('a transform stream has all items before an error, also where they are read late', async () => {
  for (const [name, options] of [
    ['Incomplete', {}],
    ['MessageTooLong', { maxMessageSize: INPUT.length - 8 }],
  ]) {
    const found = [];
    const source = new Source(STREAM);
    const read = async () => {
      for await (const item of webStream(source).pipeThrough(decode(8, options))) {
        found.push(item);
        await new Promise(setImmediate);
      }
    };
    await assert.rejects(read, { name, offset: INPUT.length + 8, trailing: STREAM.slice(-8) });
    assert.deepEqual(found, ITEMS);
    assert.ok(await isClosedSoon(source));
  }
});

test('a transform stream that is read no further closes its source', async () => {
  const source = new Source(REPLAY, REPLAY, REPLAY);
  for await (const item of webStream(source).pipeThrough(decode())) {
    assert.equal(item.type, 'Start');
    break;
  }
  assert.ok(await isClosedSoon(source));
});

test('a transform stream with a wrong chunk', async () => {
  const { readable, writable } = decode(8);
  const writer = writable.getWriter();
  const writing = assert.rejects(writer.write('text'), { code: 'ERR_INVALID_ARG_TYPE' });
  await assert.rejects(collect(readable), { code: 'ERR_INVALID_ARG_TYPE' });
  await writing;
});

test('the examples are listed as their listings are', () => {
  for (const name of ['cut_short', 'recorded', 'replay', 'three_unknown_types']) {
    const stream = new Stream(8);
    stream.feed(bytesOf(`examples/streams/${name}`));
    const lines = [...listed(stream), `rest ${stream.rest}`];
    assert.equal(lines.map((line) => `${line}\n`).join(''), textOf(`examples/streams/${name}.stdout`));
  }
});

test('a message that is longer than the limit ends the stream', async () => {
  const endless = hex('04030000ffffffff 010203');
  const limit = INPUT.length - 8;
  const stream = new Stream(8, { maxMessageSize: limit });
  stream.feed(joined(INPUT, endless));
  const found = [];
  const error = {
    name: 'MessageTooLong',
    code: 'JOURNAL_TOO_LONG',
    argument: 'maxMessageSize',
    typeCode: 0x0403,
    length: 2 ** 32 - 1,
    limit,
    offset: INPUT.length,
    trailing: endless,
    message:
      `a message of type SetStateCommand (0x0403) at offset ${INPUT.length} has 4294967295 bytes, ` +
      `more than the limit of ${limit}`,
  };
  for (let i = 0; i < 2; i += 1) {
    assert.throws(() => {
      for (const item of stream) {
        found.push(item);
      }
    }, error);
    assert.deepEqual([stream.rest, stream.trailing], [endless.length, endless]);
  }
  assert.deepEqual(found, ITEMS.slice(0, 1));
  assert.throws(() => stream.feed(INPUT), error);
  assert.throws(() => stream.finish(), error);
  await assert.rejects(collect(items([INPUT], 8, { maxMessageSize: limit - 1 })), (ended) => {
    assert.ok(ended instanceof TooLong);
    assert.deepEqual(ended.trailing, INPUT);
    return true;
  });
  const open = new Stream();
  open.feed(endless);
  assert.deepEqual([...open], []);
  assert.throws(() => new Stream(8, { maxMessageSize: -1 }), RangeError);
  assert.throws(() => new Stream(8, { maxMessageSize: 2 ** 32 }), TooLong);
});
