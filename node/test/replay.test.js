// Replays that are checked item by item: the lines of conformance/replays, which its README specifies. What is said of
// each is the verdict of both journals as a whole.

import assert from 'node:assert/strict';
import test from 'node:test';

import { Message, Replay, Stream, Unknown, compareJournals, difference } from 'pendratsoa';

import { bytesOf, hex, joined, textOf } from './support.js';

const LINES = textOf('conformance/replays/worked.txt')
  .split('\n')
  .filter((line) => line !== '' && !line.startsWith('#'));

/** The bytes of a word. */
function bytesOfWord(word) {
  return word === '-' ? new Uint8Array(0) : hex(word);
}

/** The whole items of a stream. */
function itemsOf(version, bytes) {
  const stream = new Stream(version);
  stream.feed(bytes);
  return [...stream];
}

/** How many bytes of a stream follow its last whole item. */
function restOf(version, bytes) {
  return bytes.length - joined(...itemsOf(version, bytes).map((item) => item.bytes)).length;
}

/** The commands of a stream that are compared. */
function commandsOf(version, bytes) {
  return itemsOf(version, bytes).filter((item) => item.isCommand && !item.type.startsWith('CustomEntry'));
}

/** What two messages have of each other, or undefined. */
function partsOf(message) {
  return message === undefined ? undefined : [message.offset, message.bytes, message.requestedAck];
}

/** What is said of a replay, in the words of the vectors. */
function said(version, recorded, replayed, ignorePayloads) {
  const items = itemsOf(version, replayed);
  const commands = commandsOf(version, recorded);
  const replay = new Replay(version, recorded, { ignorePayloads });
  const rest = restOf(version, recorded);
  assert.equal(replay.recordedRest, rest);
  let index = 0;
  let count = 0;
  let mismatch;
  while (mismatch === undefined && count < items.length) {
    assert.deepEqual(partsOf(replay.expected()), partsOf(commands[index]));
    mismatch = replay.check(items[count]);
    if (mismatch === undefined) {
      index += commandsOf(version, items[count].bytes).length;
      count += 1;
    }
  }
  if (mismatch === undefined) {
    mismatch = replay.finish();
    assert.deepEqual(replay.finish(), mismatch);
  } else {
    assert.deepEqual(partsOf(replay.expected()), partsOf(commands[mismatch.index]));
    // it is said once
    assert.ok(items.every((item) => replay.check(item) === undefined));
    assert.equal(replay.finish(), undefined);
  }
  assert.equal(replay.recordedRest, rest);
  const verdict = compareJournals(version, recorded, replayed, { ignorePayloads });
  assert.equal(replay.index, verdict.index);
  if (mismatch === undefined) {
    assert.equal(verdict.kind, 'same');
    return `same ${verdict.index}`;
  }
  const { kind, text } = mismatch;
  assert.deepEqual({ kind, index: mismatch.index, text }, verdict);
  const lines = mismatch.fields.map((field) => `\n   ${field.name}: ${field.recorded} != ${field.replayed}`).join('');
  const command = commands[mismatch.index];
  const other = kind === 'headerMismatch' ? difference(command.code, command.payload, items[count].payload) : '';
  assert.equal(lines, other);
  return words(mismatch, count);
}

/** A mismatch after this many items, in the words of the vectors. */
function words({ kind, index, recordedOffset, replayedOffset }, items) {
  const places = `${index} ${items} ${recordedOffset ?? '-'} ${replayedOffset}`;
  return {
    recordedEnded: `recorded_ended ${places}`,
    replayedEnded: `replayed_ended ${index}`,
    typeMismatch: `other_type ${places}`,
    headerMismatch: `other_command ${places}`,
    badRecorded: `malformed recorded ${index} ${items}`,
    badReplayed: `malformed replayed ${index} ${items}`,
  }[kind];
}

test('the vectors', () => {
  assert.ok(LINES.length > 20);
  for (const line of LINES) {
    const [question, expected] = line.split(' = ');
    const [, version, payloads, recorded, ...chunks] = question.split(' ');
    const replayed = joined(...chunks.map(bytesOfWord));
    assert.equal(said(Number(version), bytesOfWord(recorded), replayed, payloads === 'ignored'), expected, line);
  }
});

test('journals that are cut short', () => {
  const recorded = bytesOf('examples/streams/recorded');
  const other = bytesOf('examples/streams/replayed_other_payload');
  for (const ignorePayloads of [false, true]) {
    for (let end = 0; end <= other.length; end += 1) {
      said(8, recorded, other.subarray(0, end), ignorePayloads);
    }
    for (let end = 0; end <= recorded.length; end += 1) {
      said(8, recorded.subarray(0, end), other, ignorePayloads);
    }
  }
});

test('commands far apart in the recording', () => {
  // a command after many notifications, and one that is longer than what is looked at first
  const notification = new Message(8, 0x800c, hex('0801')).bytes;
  const between = joined(...Array(1000).fill(notification));
  const long = new Message(8, 0x0405, new Uint8Array(0)).bytes;
  const entry = new Message(8, 0x0403, joined(hex('0a01611a88200a8520'), new Uint8Array(4101))).bytes;
  const recorded = joined(between, entry, between, long, between, entry);
  assert.equal(said(8, recorded, joined(entry, long, entry), false), 'same 3');
  assert.equal(said(8, recorded, joined(between, entry, long), false), 'replayed_ended 2');
  const offset = recorded.length - entry.length;
  const { length } = joined(entry, long);
  assert.equal(said(8, recorded, joined(entry, long, entry, notification, entry), false),
    `recorded_ended 3 4 ${offset} ${length + entry.length + notification.length}`);
  assert.equal(said(8, recorded, joined(entry, long, long), false), `other_type 2 2 ${offset} ${length}`);
});

test('bytes after the last whole item of a recording', () => {
  const short = new Message(8, 0x800c, hex('0801')).bytes;
  const long = joined(hex('fc01000000011170'), new Uint8Array(70000));
  for (const items of [[], [short], [long, short], [short, ...Array(9000).fill(short), long, short, long]]) {
    const whole = joined(...items);
    for (const rest of [hex(''), hex('04'), hex('0403'), hex('0403000000000003'), long.subarray(0, 69999)]) {
      const recorded = joined(hex('ffff'), whole, rest).subarray(2);
      const replay = new Replay(8, recorded);
      assert.equal(replay.recordedRest, rest.length);
      assert.equal(replay.finish(), undefined);
    }
  }
  // a code that is unknown is an item of eight bytes before version 9, and then one with its payload
  const unknown = hex('0008000000000002 01');
  assert.deepEqual([8, 9].map((version) => new Replay(version, unknown).recordedRest), [1, 9]);
});

test('the rest of a recording while it is checked', () => {
  const recorded = joined(bytesOf('examples/streams/recorded'), hex('040300'));
  const replay = new Replay(8, recorded);
  for (const item of itemsOf(8, recorded)) {
    assert.equal(replay.check(item), undefined);
    assert.equal(replay.recordedRest, 3);
  }
  assert.equal(replay.index, 4);
  assert.throws(() => {
    replay.recordedRest = 0;
  }, TypeError);
});

test('a mismatch', () => {
  const replay = new Replay(8, bytesOf('examples/streams/recorded'));
  const found = itemsOf(8, bytesOf('examples/streams/replayed_other_payload')).map((item) => replay.check(item));
  const [mismatch] = found.filter((one) => one !== undefined);
  assert.equal(mismatch.kind, 'headerMismatch');
  assert.deepEqual([mismatch.index, mismatch.recordedOffset, mismatch.replayedOffset], [1, 17, 17]);
  assert.deepEqual(mismatch.fields, [{ name: 'value', recorded: "'1'", replayed: "'2'" }]);
  assert.equal(replay.expected().type, 'SetStateCommand');
});

test('arguments', () => {
  for (const version of [0, 4, 10, -1, 8.5, 2 ** 32, Number.NaN]) {
    assert.throws(() => new Replay(version, new Uint8Array(0)), Unknown);
  }
  assert.throws(() => new Replay('8', new Uint8Array(0)), TypeError);
  assert.throws(() => new Replay(8, 'recorded'), TypeError);
  assert.throws(() => new Replay(8, new Uint8Array(0), { ignorePayloads: 1 }), TypeError);
  assert.throws(() => new Replay(8, new Uint8Array(0), { ignoreIds: 'yes' }), TypeError);
  const replay = new Replay(7, new Uint8Array(0));
  assert.equal(replay.version, 7);
  for (const item of [undefined, null, 7, {}, new Uint8Array(8)]) {
    assert.throws(() => replay.check(item), TypeError);
  }
  const message = new Message(7, 0, new Uint8Array(0));
  assert.throws(() => replay.check(Object.assign(message, { code: 65536 })), Unknown);
});
