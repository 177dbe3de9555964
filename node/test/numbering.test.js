// Payloads at other field numbers, by descriptor sets that are made here.

import assert from 'node:assert/strict';
import { mkdtempSync, rmSync, writeFileSync } from 'node:fs';
import { tmpdir } from 'node:os';
import { join } from 'node:path';
import test from 'node:test';
import { pathToFileURL } from 'node:url';

import {
  JournalError,
  Message,
  Numbering,
  NumberingError,
  Replay,
  Stream,
  Unknown,
  decode,
  frame,
  frameInto,
  items,
  schemaNames,
} from 'pendratsoa';

import { chunksOf, hex, joined, listed } from './support.js';

// The types of fields in descriptors.
const [STRING, MESSAGE, BYTES, UINT32] = [9, 11, 12, 13];

/** A record of a length. */
function block(number, content) {
  const bytes = typeof content === 'string' ? Buffer.from(content) : content;
  const length = [];
  let rest = bytes.length;
  for (; rest > 127; rest = Math.floor(rest / 128)) {
    length.push((rest % 128) + 128);
  }
  return joined(Uint8Array.of(number * 8 + 2, ...length, rest), bytes);
}

/** A field: its name, its number, its type, and the name of its message. Its name in JSON is that of protoc. */
function field(name, number, type, of) {
  const named = of === undefined ? [] : [block(6, `.${of}`)];
  named.push(block(10, name.replace(/_./g, (letter) => letter[1].toUpperCase())));
  return block(2, joined(block(1, name), Uint8Array.of(0x18, number, 0x20, 1, 0x28, type), ...named));
}

function message(name, ...fields) {
  return block(4, joined(block(1, name), ...fields));
}

/** A descriptor set of one file. */
function setOf(...messages) {
  return block(1, joined(block(1, 'a.proto'), ...messages, block(12, 'proto3')));
}

// A set whose messages have other numbers, and a field that only they have.
const SET = setOf(
  message('Value', field('content_type', 2, STRING), field('content', 14, BYTES)),
  message(
    'SetStateCommandMessage',
    field('key', 3, BYTES),
    field('name', 12, STRING),
    field('value', 30, MESSAGE, 'Value'),
  ),
  message('Pause', field('result_completion_id', 4, UINT32)),
);

const numbering = new Numbering(SET);

// A command at the numbers of the protocol, and at those of the set.
const OURS = hex('0a0161 1a030a0131 62016e');
const THEIRS = hex('1a0161 62016e f20103720131');

/** A stream at either numbers: commands, one with flags that no encoder sets, a custom entry, what is of no type. */
function streamOf(payload) {
  const others = hex('fc01ffff000000020a01 0008a5a500000000 0003000000000000');
  const messageOf = (head) => joined(hex(head), Uint8Array.of(payload.length), payload);
  return joined(messageOf('04030000000000'), others, messageOf('04031234000000'), hex('040300'));
}

test('payloads are read and written', () => {
  assert.deepEqual(numbering.readPayload('SetStateCommandMessage', THEIRS), OURS);
  assert.deepEqual(numbering.writePayload('SetStateCommandMessage', OURS), THEIRS);
  assert.deepEqual(numbering.readPayload(schemaNames.indexOf('SetStateCommandMessage'), THEIRS), OURS);
  // a field that only the set has, one that only the protocol has, and what is in no message of the set
  assert.deepEqual(numbering.readPayload('Value', hex('120174 720178')), hex('0a0178'));
  assert.deepEqual(numbering.readPayload('Value', hex('0a0178')), hex(''));
  assert.deepEqual(numbering.writePayload('SleepCommandMessage', hex('0805')), hex(''));
  for (const digits of ['1a', '1a0261', 'f2010172', 'f00101', '00']) {
    const error = { name: 'Malformed', code: 'JOURNAL_MALFORMED', call: 'readPayload', argument: 'payload' };
    assert.throws(() => numbering.readPayload('SetStateCommandMessage', hex(digits)), error);
  }
  for (const schema of [-1, 0.5, schemaNames.length, 2 ** 32, 'Values']) {
    assert.throws(() => numbering.readPayload(schema, OURS), { name: 'Unknown', call: 'readPayload' });
    assert.throws(() => numbering.writePayload(schema, OURS), { name: 'Unknown', call: 'writePayload' });
  }
});

test('streams are read and written', () => {
  assert.deepEqual(numbering.readStream(8, streamOf(THEIRS)), streamOf(OURS));
  assert.deepEqual(numbering.writeStream(8, streamOf(OURS)), streamOf(THEIRS));
  for (const digits of ['', '00080000000000020a01']) {
    assert.deepEqual(numbering.readStream(9, hex(digits)), hex(digits));
  }
  for (const version of [4, 10, -1, 2 ** 32]) {
    assert.throws(() => numbering.writeStream(version, OURS), { name: 'Unknown', call: 'writeStream' });
  }
  const cut = joined(hex('0003000000000000'), streamOf(hex('1a')));
  assert.throws(() => numbering.readStream(8, cut), {
    name: 'Malformed',
    typeCode: 0x0403,
    offset: 8,
    message: 'SetStateCommand at offset 8: payload of 1 byte is malformed',
  });
});

test('a stream is dumped with all fields of the set', () => {
  const value = '{"contentType":"t","content":"MQ=="}';
  for (const [digits, ...wanted] of [
    ['0403000000000009 f20106 120174 720131 04', `"message":{"value":${value}}`, '"rest":1'],
    // what is malformed by the set is said of its item
    ['0403000000000001 1a', '"malformed":true', '"rest":0'],
  ]) {
    const lines = numbering.dump(8, hex(digits)).trimEnd().split('\n');
    assert.equal(lines.length, wanted.length);
    lines.forEach((line, index) => {
      assert.ok(JSON.parse(line) && line.includes(wanted[index]), line);
    });
  }
  for (const version of [4, 10, -1]) {
    assert.throws(() => numbering.dump(version, OURS), { name: 'Unknown', call: 'dump' });
  }
  assert.throws(() => numbering.dump(8, 'text'), TypeError);
  // a numbering does not change with the bytes that it was made of
  const set = SET.slice();
  const kept = new Numbering(set);
  set.fill(0);
  assert.equal(kept.dump(8, hex('04')), numbering.dump(8, hex('04')));
});

test('frames are written', () => {
  const wanted = joined(hex('040300000000000c'), THEIRS);
  const record = { key: hex('61'), value: { content: hex('31') }, name: 'n' };
  const command = Message.of('SetStateCommand', record);
  assert.deepEqual(command.frame(8, { numbering }), wanted);
  assert.deepEqual(command.frame(undefined, { numbering }), wanted);
  assert.deepEqual(numbering.writeStream(8, command.frame()), wanted);
  // the second one is not canonical
  for (const payload of [OURS, hex('62016e 0a0161 1a030a0131')]) {
    assert.deepEqual(frame(8, 0x0403, payload, { numbering }), wanted);
    for (const size of [0, 19, 20, 30]) {
      const [out, other] = [new Uint8Array(size).fill(7), new Uint8Array(size).fill(7)];
      assert.equal(frameInto(8, 0x0403, payload, out, { numbering }), 20);
      assert.equal(new Message(8, 0x0403, payload).frameInto(other, 8, { numbering }), 20);
      const expected = size < 20 ? new Uint8Array(size).fill(7) : joined(wanted, new Uint8Array(size - 20).fill(7));
      assert.deepEqual([out, other], [expected, expected]);
    }
  }
  assert.deepEqual(frame(8, 0x0403, OURS, {}), frame(8, 0x0403, OURS));
  const earlier = new Message(6, 1, hex('0a0107'));
  assert.deepEqual(earlier.frame(6, { numbering }), hex('0001000000000000'));
  assert.throws(() => earlier.frame(8, { numbering }), { name: 'Unknown', call: 'frame' });
  assert.throws(() => frame(8, 0xfc01, OURS, { numbering }), Unknown);
  assert.throws(() => frame(8, 0x0403, hex('0a'), { numbering }), { name: 'Malformed', call: 'frame' });
  assert.throws(() => frameInto(8, 0x0403, OURS, [], { numbering }), TypeError);
});

test('a stream is read by a numbering', async () => {
  const [ours, theirs] = [streamOf(OURS), streamOf(THEIRS)];
  const own = new Stream();
  own.feed(ours);
  const expected = [...own];
  for (let size = 1; size <= theirs.length; size += 1) {
    const stream = new Stream(8, { numbering });
    const found = [];
    for (const chunk of chunksOf(theirs, size)) {
      stream.feed(chunk);
      found.push(...stream);
    }
    assert.deepEqual(listed(found), listed(expected));
    assert.deepEqual(joined(...found.map((item) => item.bytes), stream.trailing), theirs);
    let offset = 0;
    for (const [index, item] of found.entries()) {
      assert.equal(item.offset, offset);
      offset += item.bytes.length;
      if (item.kind === 'message') {
        assert.deepEqual([item.payload, item.message], [expected[index].payload, expected[index].message]);
      }
    }
    assert.equal(found[0].word, 0x040300000000000cn);
    assert.deepEqual(found[0].json(), { key: 'YQ==', value: { content: 'MQ==' }, name: 'n' });
    assert.deepEqual(found[0].frame(8, { numbering }), found[0].bytes);
  }
  const whole = theirs.subarray(0, -3);
  const found = [];
  for await (const item of items(chunksOf(whole, 7), 8, { numbering })) {
    found.push(item);
  }
  assert.deepEqual(listed(found), listed(expected));
  const transform = decode(8, { numbering });
  const writer = transform.writable.getWriter();
  writer.write(whole);
  writer.close();
  const decoded = [];
  for await (const item of transform.readable) {
    decoded.push(item);
  }
  assert.deepEqual(listed(decoded), listed(expected));
});

test('a loop goes on after a payload that cannot be read', () => {
  const end = hex('0003000000000000');
  const bad = hex('0403000000000001 1a');
  const stream = new Stream(8, { numbering });
  stream.feed(joined(end, bad, end));
  const found = [];
  assert.throws(
    () => {
      for (const item of stream) {
        found.push(item);
      }
    },
    { name: 'Malformed', call: 'Stream', typeCode: 0x0403, offset: 8 },
  );
  assert.deepEqual(stream.trailing, end);
  found.push(...stream);
  assert.deepEqual(found.map((item) => [String(item), item.offset]), [
    ['End 0', 0],
    ['End 0', 17],
  ]);
  stream.finish();
});

test('a limit is one on what is received', () => {
  for (const [maxMessageSize, isTaken] of [
    [11, false],
    [12, true],
  ]) {
    const stream = new Stream(8, { maxMessageSize, numbering });
    stream.feed(streamOf(THEIRS));
    if (isTaken) {
      assert.equal([...stream].length, 5);
    } else {
      assert.throws(() => [...stream], { name: 'MessageTooLong', length: 12 });
    }
  }
});

test('a replay has the offsets of what is received', () => {
  const one = joined(hex('040300000000000c'), THEIRS);
  const recorded = numbering.readStream(8, joined(one, one, one));
  for (const [replayed, kind, index] of [
    [joined(one, hex('04030000000000031a0162'), one), 'headerMismatch', 1],
    [joined(one, one), 'replayedEnded', 2],
  ]) {
    const replay = new Replay(8, recorded);
    const stream = new Stream(8, { numbering });
    stream.feed(replayed);
    const found = Array.from(stream, (item) => replay.check(item)).filter((mismatch) => mismatch !== undefined);
    const [mismatch = replay.finish()] = found;
    assert.deepEqual([mismatch.kind, mismatch.index, mismatch.replayedOffset], [kind, index, index * one.length]);
  }
});

test('renames, and what no numbering comes of', () => {
  const renamed = new Numbering(SET, { renames: { Pause: 'SleepCommandMessage' } });
  assert.deepEqual(renamed.readPayload('SleepCommandMessage', hex('2007')), hex('5807'));
  assert.deepEqual(renamed.writePayload('SleepCommandMessage', hex('5807')), hex('2007'));
  assert.match(String(renamed), /renumbered/);
  assert.match(`${numbering}`, /the same/);
  const twice = setOf(message('SetStateCommandMessage', field('key', 3, BYTES), field('name', 3, STRING)));
  for (const [set, renames, reason] of [
    [twice, {}, 'noSet'],
    [hex('0a0261'), {}, 'noSet'],
    [new Uint8Array(Buffer.from('syntax = "proto3";')), {}, 'noSet'],
    [SET, { Paus: 'SleepCommandMessage' }, 'noRename'],
    [SET, { Pause: 'SlepCommandMessage' }, 'noRename'],
    [SET, { Pause: '' }, 'noRename'],
    [SET, { '': '' }, 'noRename'],
    [SET, { Pause: 'SleepCommandMessage\n' }, 'noRename'],
    [SET, { 'Pause=SleepCommandMessage\nPause': 'SleepCommandMessage' }, 'noRename'],
    [SET, { '\ud800': 'Value' }, 'noRename'],
  ]) {
    assert.throws(
      () => new Numbering(set, { renames }),
      (error) => {
        assert.ok(error instanceof NumberingError && error instanceof JournalError);
        assert.deepEqual([error.reason, error.code, error.call], [reason, 'JOURNAL_NUMBERING_ERROR', 'Numbering']);
        assert.equal(error.argument, reason === 'noSet' ? 'set' : 'renames');
        assert.ok(error.text !== '' && error.message.endsWith(error.text));
        return true;
      },
    );
  }
});

test('an empty set has no field', () => {
  const wanted = { name: 'NumberingError', reason: 'noSet', text: "no field of the protocol's messages" };
  assert.throws(() => new Numbering(new Uint8Array(0)), wanted);
});

test('any bytes as a set or as a payload', () => {
  let state = 1;
  const random = (below) => {
    state = Math.imul(state, 48_271) >>> 1;
    return state % below;
  };
  for (let i = 0; i < 300; i += 1) {
    const set = SET.slice(0, 1 + random(SET.length));
    for (let j = random(3); j >= 0; j -= 1) {
      set[random(set.length)] = random(256);
    }
    let found;
    try {
      found = new Numbering(set);
    } catch (error) {
      assert.equal(error.reason, 'noSet', error.stack);
      continue;
    }
    for (const schema of schemaNames) {
      for (const name of ['readPayload', 'writePayload']) {
        try {
          found[name](schema, set);
        } catch (error) {
          assert.equal(error.name, 'Malformed', error.stack);
        }
      }
    }
  }
});

test('a numbering of a file', () => {
  const folder = mkdtempSync(join(tmpdir(), 'numbering-'));
  try {
    const path = join(folder, 'set.binpb');
    writeFileSync(path, SET);
    for (const place of [path, pathToFileURL(path)]) {
      assert.deepEqual(Numbering.load(place).readPayload('SetStateCommandMessage', THEIRS), OURS);
    }
    const renames = { Pause: 'SleepCommandMessage' };
    assert.deepEqual(Numbering.load(path, { renames }).readPayload('SleepCommandMessage', hex('2007')), hex('5807'));
    assert.throws(() => Numbering.load(join(folder, 'none')), { code: 'ENOENT' });
  } finally {
    rmSync(folder, { recursive: true });
  }
});

test('arguments of wrong kinds', () => {
  const wrong = { name: 'TypeError', code: 'ERR_INVALID_ARG_TYPE' };
  for (const set of [undefined, null, 'set', 5, {}, new ArrayBuffer(8), new Uint8Array(new SharedArrayBuffer(8))]) {
    assert.throws(() => new Numbering(set), wrong);
  }
  for (const renames of [null, 5, 'a=b', { a: 5 }, { a: undefined }, new Map([['a', 'b']]), ['a=b']]) {
    assert.throws(() => new Numbering(SET, { renames }), wrong);
  }
  for (const other of [null, 5, {}, SET, Object.create(Numbering.prototype)]) {
    assert.throws(() => new Stream(8, { numbering: other }), wrong);
    assert.throws(() => decode(8, { numbering: other }), wrong);
    assert.throws(() => frame(8, 0x0403, OURS, { numbering: other }), wrong);
    assert.throws(() => frameInto(8, 0x0403, OURS, new Uint8Array(9), { numbering: other }), wrong);
    assert.throws(() => new Message(8, 0x0403, OURS).frame(8, { numbering: other }), wrong);
  }
  for (const bytes of [undefined, null, 'text', 5, [1]]) {
    assert.throws(() => numbering.readPayload('Value', bytes), wrong);
    assert.throws(() => numbering.readStream(8, bytes), wrong);
  }
  for (const schema of [undefined, null, {}, 5n]) {
    assert.throws(() => numbering.readPayload(schema, OURS), wrong);
    assert.throws(() => numbering.readStream(schema, OURS), wrong);
  }
});
