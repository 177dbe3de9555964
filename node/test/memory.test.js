// A loop of calls keeps no memory.

import assert from 'node:assert/strict';
import test from 'node:test';
import { setFlagsFromString } from 'node:v8';
import { runInNewContext } from 'node:vm';

import {
  JournalError,
  Stream,
  canonical,
  compareJournals,
  frame,
  fromJson,
  notification,
  toJson,
  typeCode,
} from 'pendratsoa';

import { bytesOf, hex, joined } from './support.js';

setFlagsFromString('--expose-gc');
const collectGarbage = runInNewContext('gc');

// As many rounds as PENDRATSOA_ROUNDS says; each makes some twenty calls and fails in five.
const ROUNDS = Number(process.env.PENDRATSOA_ROUNDS ?? 2000);
// What is allowed to be more afterwards, of what is counted and of what the process takes.
const GROWTH = 2 ** 20;
const LIMITS = { heapUsed: GROWTH, external: GROWTH, arrayBuffers: GROWTH, rss: 2 ** 24 };
// What is never freed grows each time. Other threads of V8 compile what is called often, on a slow machine late, and
// malloc keeps what they took: so the least growth of several times counts.
const TIMES = 6;

const RECORDED = bytesOf('examples/streams/recorded');
const LONG = joined(hex('12808008'), new Uint8Array(2 ** 17).fill(0x61));
const ERROR_MESSAGE = 13;

function round(index) {
  const stream = new Stream();
  stream.feed(RECORDED);
  for (const message of stream) {
    message.json();
    message.frame();
  }
  compareJournals(8, RECORDED, RECORDED);
  fromJson(ERROR_MESSAGE, '{"message":"text"}');
  notification(0xfbff, hex('1a0473746f702a030a0178'));
  frame(8, 1, hex('22120a010122080a010222030a010122030a0103'));
  for (const call of [
    () => canonical(ERROR_MESSAGE, hex('12')),
    () => canonical(ERROR_MESSAGE, 'text'),
    () => typeCode('none'),
    () => fromJson(ERROR_MESSAGE, '{"message":"text","code":"one"}'),
    () => new Stream().feed(undefined),
  ]) {
    assert.throws(call, (error) => error instanceof JournalError || error instanceof TypeError);
  }
  // longer than the room that the calls have at first
  if (index % 50 === 0) {
    canonical(ERROR_MESSAGE, LONG);
    toJson(ERROR_MESSAGE, LONG);
  }
}

/** What the process holds after a collection of garbage. */
async function held() {
  // array buffers are freed after the collection that finds them
  for (let i = 0; i < 3; i += 1) {
    collectGarbage();
    await new Promise(setImmediate);
  }
  const { heapUsed, external, arrayBuffers, rss } = process.memoryUsage();
  return { heapUsed, external, arrayBuffers, rss };
}

/** By how many bytes each kind of memory grows in the rounds. */
async function growth() {
  const before = await held();
  for (let i = 0; i < ROUNDS; i += 1) {
    round(i);
  }
  const after = await held();
  return Object.fromEntries(Object.keys(LIMITS).map((kind) => [kind, after[kind] - before[kind]]));
}

test(`${ROUNDS} rounds of calls keep no memory`, async () => {
  for (let i = 0; i < 500; i += 1) {
    round(i);
  }
  const least = {};
  const tooMuch = () => Object.keys(LIMITS).filter((kind) => !(least[kind] < LIMITS[kind]));
  for (let time = 0; time < TIMES && tooMuch().length > 0; time += 1) {
    for (const [kind, grown] of Object.entries(await growth())) {
      least[kind] = Math.min(grown, least[kind] ?? Infinity);
    }
  }
  assert.deepEqual(tooMuch(), [], JSON.stringify(least));
});

test('a stream holds what is in no item, and no more', async () => {
  const size = 2 ** 22;
  const message = new Uint8Array(size);
  message.set(hex('fc010000003ffff8'));
  const half = size / 2;
  const before = await held();
  const stream = new Stream();
  for (let i = 0; i < 4; i += 1) {
    stream.feed(message.subarray(0, half));
    assert.deepEqual([...stream], []);
    stream.feed(message.subarray(half));
    assert.deepEqual(Array.from(stream, ({ payload }) => payload.length), [size - 8]);
  }
  const after = await held();
  assert.ok(after.arrayBuffers - before.arrayBuffers < GROWTH, `${before.arrayBuffers} to ${after.arrayBuffers}`);
  assert.equal(stream.rest, 0);
});
