// Arguments of the wrong kind, detached and shared memory: the error of the language, and never a crash.

import assert from 'node:assert/strict';
import { spawnSync } from 'node:child_process';
import { mkdtempSync, rmSync, writeFileSync } from 'node:fs';
import { tmpdir } from 'node:os';
import { join } from 'node:path';
import test, { after } from 'node:test';
import { runInNewContext } from 'node:vm';
import { MessageChannel } from 'node:worker_threads';

import * as pendratsoa from 'pendratsoa';

import { addon } from '../lib/addon.js';
import { hex } from './support.js';

const { JournalError } = pendratsoa;

/** A view whose buffer was transferred. */
function detached() {
  const bytes = new Uint8Array(8);
  const { port1, port2 } = new MessageChannel();
  port1.postMessage(bytes, [bytes.buffer]);
  port1.close();
  port2.close();
  return bytes;
}

// Values that are not numbers, and values that are not bytes.
const NO_NUMBERS = [undefined, null, true, '8', 8n, Symbol('8'), {}, [8], () => 8, { valueOf: () => 8 }, new Number(8)];
const NO_BYTES = [
  undefined,
  null,
  5,
  'bytes',
  5n,
  Symbol('bytes'),
  {},
  [1, 2],
  { length: 1, 0: 1 },
  new ArrayBuffer(8),
  new SharedArrayBuffer(8),
  new DataView(new ArrayBuffer(8)),
  new Int8Array(8),
  new Uint8ClampedArray(8),
  new Uint16Array(8),
  new BigUint64Array(8),
  new Float64Array(8),
  Object.create(Uint8Array.prototype),
  new Proxy(new Uint8Array(8), {}),
  new Uint8Array(new SharedArrayBuffer(8)),
  new Uint8Array(new SharedArrayBuffer(8), 4, 0),
  detached(),
];

const NONE = hex('');

/** A descriptor set with the message Value and its field. */
const SET = hex('0a2b0a07612e70726f746f22180a0556616c7565120f0a07636f6e74656e7418012001280c620670726f746f33');

const FOLDER = mkdtempSync(join(tmpdir(), 'arguments-'));
const SET_FILE = join(FOLDER, 'set.binpb');
writeFileSync(SET_FILE, SET);
after(() => rmSync(FOLDER, { recursive: true }));

// For each call the names of its arguments and good ones.
const CALLS = {
  schema: { version: 8, code: 0 },
  typeName: { code: 0 },
  header: { version: 8, code: 0, payloadLength: 0 },
  frame: { version: 8, code: 0, payload: NONE },
  isWellFormed: { schema: 0, payload: NONE },
  canonical: { schema: 0, payload: NONE },
  merge: { schema: 0, first: NONE, second: NONE },
  toJson: { schema: 0, payload: NONE },
  fromJson: { schema: 0, json: Buffer.from('{}') },
  notification: { code: 0xfbff, payload: hex('10112200') },
  headerEq: { code: 0x0400, first: NONE, second: NONE },
  difference: { code: 0x0400, first: NONE, second: NONE },
  compareJournals: { version: 8, recorded: NONE, replayed: NONE },
};

// The numbers of a replay that has not begun.
const BEGUN = BigUint64Array.of(8n, 0n, 0n, 0n, 0n, 0n);

// The calls as the addon and the module have them.
const ADDON_CALLS = {
  libraryVersion: [new Uint8Array(8)],
  schema: [8, 0],
  typeName: [0, new Uint8Array(8)],
  typeCode: [Buffer.from('Start')],
  chunkLength: [NONE],
  next: [8, NONE, new BigUint64Array(6)],
  nextWithin: [8, 9, NONE, new BigUint64Array(6)],
  items: [8, 9, NONE, new BigUint64Array(12)],
  header: [8, 0, 0, new Uint8Array(8)],
  frame: [8, 0, NONE, new Uint8Array(8)],
  isWellFormed: [0, NONE],
  canonical: [0, NONE, new Uint8Array(8)],
  merge: [0, NONE, NONE, new Uint8Array(8)],
  json: [0, NONE, new Uint8Array(8)],
  payloadOfJson: [0, NONE, new BigUint64Array(2), new Uint8Array(8)],
  fields: [0, NONE, new BigUint64Array(6)],
  payloadOfFields: [0, new BigUint64Array(0), NONE, new BigUint64Array(2), new Uint8Array(8)],
  notification: [0xfbff, hex('10112200'), new BigUint64Array(4), new Uint8Array(8)],
  headerEq: [0x0400, NONE, NONE, false],
  difference: [0x0400, NONE, NONE, new Uint8Array(8)],
  changedField: [0x0400, 0, NONE, NONE, new BigUint64Array(3), new Uint8Array(8)],
  verdict: [8, NONE, NONE, false, new BigUint64Array(2), new Uint8Array(8)],
  replayCheck: [0x0400, NONE, NONE, BEGUN.slice(), new BigUint64Array(6)],
  replayText: [0x0400, NONE, NONE, BEGUN, new Uint8Array(8)],
  replayExpected: [NONE, BEGUN, new BigUint64Array(3)],
  replayFinish: [NONE, BEGUN, new BigUint64Array(6)],
  numbering: [0, SET, NONE, new BigUint64Array(5)],
  numberingText: [NONE, NONE, new BigUint64Array(1), new Uint8Array(8)],
  renumber: [0, new BigUint64Array(5), NONE, new Uint8Array(8)],
  renumberStream: [8, new BigUint64Array(5), NONE, new Uint8Array(8)],
  numberingDump: [8, NONE, NONE, NONE, new Uint8Array(8)],
};

for (const [name, given] of Object.entries(CALLS)) {
  test(`${name}: arguments of the wrong kind`, () => {
    pendratsoa[name](...Object.values(given));
    for (const [argument, value] of Object.entries(given)) {
      for (const wrong of typeof value === 'number' ? NO_NUMBERS : NO_BYTES) {
        // a schema may be a name, and JSON a text
        const isText = ['schema', 'json'].includes(argument) && typeof wrong === 'string';
        const otherwise = argument === 'json' ? pendratsoa.JsonError : pendratsoa.Unknown;
        const expected = { name: 'TypeError', code: 'ERR_INVALID_ARG_TYPE', message: mentions(argument) };
        const call = () => pendratsoa[name](...Object.values({ ...given, [argument]: wrong }));
        assert.throws(call, isText ? otherwise : expected);
      }
    }
    assert.throws(() => pendratsoa[name](), TypeError);
  });
}

test('the text of an error of the wrong kind', () => {
  for (const [payload, is, hasToBe] of [
    ['text', 'a string', 'a Uint8Array'],
    [undefined, 'undefined', 'a Uint8Array'],
    [[1], 'an object', 'a Uint8Array'],
    [new Uint16Array(1), 'another typed array', 'a Uint8Array'],
    [new Uint8Array(new SharedArrayBuffer(1)), 'a view on shared memory', 'a copy of it'],
    [detached(), 'a view on a detached buffer', 'a Uint8Array'],
  ]) {
    assert.throws(() => pendratsoa.canonical(0, payload), { message: `payload is ${is}, and has to be ${hasToBe}` });
  }
  assert.throws(() => pendratsoa.typeName(1n), { message: 'code is a bigint, and has to be a number' });
  assert.throws(() => pendratsoa.typeCode(1), { message: 'name is 1, and has to be a string' });
});

test('names of types and options of the wrong kind', () => {
  for (const name of [...NO_NUMBERS.filter((value) => typeof value !== 'string'), 5, NONE, new String('Start')]) {
    assert.throws(() => pendratsoa.typeCode(name), { name: 'TypeError', code: 'ERR_INVALID_ARG_TYPE' });
  }
  for (const ignorePayloads of [0, 1, 'yes', null, {}, 1n]) {
    const wrong = { name: 'TypeError', code: 'ERR_INVALID_ARG_TYPE', message: mentions('ignorePayloads') };
    assert.throws(() => pendratsoa.headerEq(0x0400, NONE, NONE, { ignorePayloads }), wrong);
    assert.throws(() => pendratsoa.compareJournals(8, NONE, NONE, { ignorePayloads }), wrong);
  }
  for (const strict of [0, 1, 'no', null, {}, 1n]) {
    const wrong = { name: 'TypeError', code: 'ERR_INVALID_ARG_TYPE', message: mentions('strict') };
    assert.throws(() => pendratsoa.items([], 8, { strict }), wrong);
    assert.throws(() => pendratsoa.decode(8, { strict }), wrong);
  }
  assert.throws(() => pendratsoa.headerEq(0x0400, NONE, NONE, null), TypeError);
});

// Each call that takes options, with a function of them and their names.
const WITH_OPTIONS = [
  [(options) => new pendratsoa.Stream(8, options), ['maxMessageSize', 'numbering']],
  [(options) => pendratsoa.decode(8, options), ['maxMessageSize', 'numbering', 'strict']],
  [(options) => pendratsoa.items([], 8, options), ['maxMessageSize', 'numbering', 'strict']],
  [(options) => pendratsoa.frame(8, 0x0400, NONE, options), ['numbering']],
  [(options) => pendratsoa.frameInto(8, 0x0400, NONE, new Uint8Array(8), options), ['numbering']],
  [(options) => new pendratsoa.Message(8, 0x0400, NONE).frame(8, options), ['numbering']],
  [(options) => new pendratsoa.Message(8, 0x0400, NONE).frameInto(new Uint8Array(8), 8, options), ['numbering']],
  [(options) => new pendratsoa.Message(6, 0x0001, NONE).frameInto(new Uint8Array(8), 6, options), ['numbering']],
  [(options) => new pendratsoa.Numbering(SET, options), ['renames']],
  [(options) => pendratsoa.Numbering.load(SET_FILE, options), ['renames']],
  [(options) => pendratsoa.headerEq(0x0400, NONE, NONE, options), ['ignorePayloads']],
  [(options) => pendratsoa.compareJournals(8, NONE, NONE, options), ['ignorePayloads']],
  [(options) => new pendratsoa.Replay(8, NONE, options), ['ignorePayloads', 'ignoreIds']],
];

test('options of the wrong kind, and unknown names in them', () => {
  class Options {}
  const wrong = [null, 1 << 20, '', 'bytes', true, 5n, Symbol('8'), () => 8, [], [8], new Map(), NONE, new Options()];
  for (const [call, names] of WITH_OPTIONS) {
    const given = Object.fromEntries(names.map((name) => [name, undefined]));
    for (const options of [undefined, {}, given, Object.assign(Object.create(null), given)]) {
      call(options);
    }
    call(Object.assign(new Options(), given));
    call(runInNewContext('({})'));
    for (const options of wrong) {
      assert.throws(() => call(options), {
        name: 'TypeError',
        code: 'ERR_INVALID_ARG_TYPE',
        message: /^options is .*, and has to be an object of options$/,
      });
    }
    for (const options of [{ max_message_size: 5 }, { ...given, max_message_size: undefined }]) {
      assert.throws(() => call(options), {
        name: 'TypeError',
        code: 'ERR_INVALID_ARG_TYPE',
        message: `options has "max_message_size", and may only have ${names.map((name) => `"${name}"`).join(' and ')}`,
      });
    }
  }
  assert.throws(() => pendratsoa.compareJournals(8, NONE, NONE, { ignoreIds: true }), TypeError);
});

test('PENDRATSOA_CALLS', () => {
  const ran = (value) => {
    const program = "import { libraryVersion } from 'pendratsoa'; console.log(libraryVersion())";
    const env = { ...process.env, PENDRATSOA_CALLS: value };
    return spawnSync(process.execPath, ['--input-type=module', '-e', program], { encoding: 'utf8', env });
  };
  for (const value of ['', process.env.PENDRATSOA_CALLS]) {
    assert.equal(ran(value).stdout, `${pendratsoa.libraryVersion()}\n`);
  }
  for (const value of ['nonsense', 'Addon', ' module']) {
    const { status, stderr } = ran(value);
    assert.equal(status, 1);
    assert.ok(stderr.includes(`Error: PENDRATSOA_CALLS is '${value}', and has to be 'addon' or 'module'`), stderr);
  }
});

test('a new message of what is of the wrong kind', () => {
  const given = { version: 8, code: 0, payload: NONE };
  assert.equal(new pendratsoa.Message(...Object.values(given)).type, 'Start');
  for (const [argument, value] of Object.entries(given)) {
    for (const wrong of typeof value === 'number' ? NO_NUMBERS : NO_BYTES) {
      assert.throws(() => new pendratsoa.Message(...Object.values({ ...given, [argument]: wrong })), {
        name: 'TypeError',
        code: 'ERR_INVALID_ARG_TYPE',
        message: mentions(argument),
      });
    }
  }
});

test('streams of the wrong kind', () => {
  for (const version of NO_NUMBERS.filter((value) => value !== undefined)) {
    assert.throws(() => new pendratsoa.Stream(version), { name: 'TypeError', message: mentions('version') });
    assert.throws(() => pendratsoa.decode(version), { name: 'TypeError', message: mentions('version') });
    assert.throws(() => pendratsoa.items([], version), { name: 'TypeError', message: mentions('version') });
  }
  for (const chunk of NO_BYTES) {
    const stream = new pendratsoa.Stream();
    assert.throws(() => stream.feed(chunk), { name: 'TypeError', message: mentions('chunk') });
    assert.equal(stream.rest, 0);
  }
  const { feed } = pendratsoa.Stream.prototype;
  assert.throws(() => feed.call({}, NONE), TypeError);
  assert.throws(() => [...pendratsoa.Stream.prototype], TypeError);
});

test('a view that is out of the bounds of its buffer is empty', { skip: !('resize' in ArrayBuffer.prototype) }, () => {
  const buffer = new ArrayBuffer(8, { maxByteLength: 16 });
  const views = [new Uint8Array(buffer), new Uint8Array(buffer, 4), new Uint8Array(buffer, 4, 4)];
  buffer.resize(2);
  assert.deepEqual(views.map((view) => addon.chunkLength(view)), [2, 0, 0]);
  buffer.resize(16);
  assert.deepEqual(views.map((view) => addon.chunkLength(view)), [16, 12, 4]);
});

test('the calls themselves take any values', () => {
  assert.deepEqual(
    Object.keys(addon).filter((name) => typeof addon[name] === 'function' && name !== 'room').sort(),
    Object.keys(ADDON_CALLS).sort(),
  );
  const values = [...NO_NUMBERS, ...NO_BYTES, 0, 8, -1, 2 ** 16, 2 ** 32, NaN, NONE, new BigUint64Array(6), false];
  for (const [name, given] of Object.entries(ADDON_CALLS)) {
    assert.ok(addon[name](...given) >= 0, name);
    assert.throws(() => addon[name](), TypeError);
    for (let at = 0; at < given.length; at += 1) {
      for (const value of values) {
        const changed = given.map((old, index) => (index === at ? value : old));
        try {
          assert.equal(typeof addon[name](...changed), 'number');
        } catch (error) {
          assert.ok(error instanceof TypeError || error instanceof RangeError, error);
        }
      }
    }
    // what is given beyond the parameters is not looked at
    assert.ok(addon[name](...given, ...values) >= 0, name);
    assert.throws(() => new addon[name](), TypeError);
  }
});

test('a room has what fits into it', () => {
  const values = [...NO_NUMBERS, ...NO_BYTES, 0, -1, 2 ** 16, 2 ** 32, NaN, NONE];
  const given = [new ArrayBuffer(48 + 2 * 48 + 16 + 8), 2, 16];
  assert.deepEqual(Object.keys(addon.room(...given)).sort(), ['read', 'readOwn', 'write']);
  if (addon.copies) {
    return;
  }
  for (const [entries, size] of [[3, 16], [2, 32], [2 ** 31, 0], [0, 2 ** 32 - 1]]) {
    assert.throws(() => addon.room(given[0], entries, size), RangeError);
  }
  for (const value of values) {
    assert.throws(() => addon.room(value, 2, 16), Error);
  }
  const { read } = addon.room(...given);
  for (const value of NO_BYTES) {
    assert.throws(() => read(value), TypeError);
  }
});

test('any arguments in any order', () => {
  const values = [...NO_NUMBERS, ...NO_BYTES, 0, 5, 8, 13, 0x0403, 0xfbff, 53, -1, 2 ** 32, 0.5, NaN, NONE, hex('12')];
  let seed = 1;
  const next = (count) => {
    seed = (seed * 48_271) % 2_147_483_647;
    return seed % count;
  };
  const names = Object.keys(CALLS);
  for (let i = 0; i < 20_000; i += 1) {
    const name = names[next(names.length)];
    const given = Array.from({ length: next(5) }, () => values[next(values.length)]);
    try {
      pendratsoa[name](...given);
    } catch (error) {
      assert.ok(error instanceof JournalError || error instanceof TypeError || error instanceof RangeError, error);
    }
  }
});

/** A pattern of a message that begins with the name of an argument. */
function mentions(argument) {
  return new RegExp(`^${argument} is .*, and has to be `);
}
