// What a later library may return, and what the proved one hardly ever returns: node --test later_library.js
//
// It needs an addon that is built with later_library.c in place of the library; scripts/checks/node.sh builds it.

import assert from 'node:assert/strict';
import test from 'node:test';

import * as pendratsoa from 'pendratsoa';

import { hex } from './support.js';

const { JournalError, Stream } = pendratsoa;
const NONE = hex('');

/** The error of a number that this package does not know: of no class below JournalError. */
function notKnown(call, what) {
  return (error) => {
    assert.equal(Object.getPrototypeOf(error), JournalError.prototype);
    assert.equal(error.code, 'JOURNAL_ERROR');
    assert.equal(error.message, `the library returned the ${what}, which this package does not know`);
    assert.equal(error.call, call);
    return true;
  };
}

test('the library is not the proved one', () => {
  assert.equal(pendratsoa.libraryVersion(), '0.9.0');
});

test('errors of other numbers', () => {
  for (const number of [9, 12, 65_535]) {
    assert.throws(() => pendratsoa.schema(8, number), notKnown('schema', `error -${number}`));
  }
});

test('errors that need little memory, or much', () => {
  const outOfMemory = { name: 'OutOfMemory', code: 'JOURNAL_OUT_OF_MEMORY', message: /^\w+: out of memory$/ };
  assert.throws(() => pendratsoa.typeCode('Start'), outOfMemory);
  assert.throws(() => pendratsoa.isWellFormed(0, NONE), outOfMemory);
  assert.throws(() => pendratsoa.toJson(0, NONE), outOfMemory);
  assert.throws(() => pendratsoa.headerEq(0x0400, NONE, NONE), outOfMemory);
  assert.throws(() => pendratsoa.difference(0x0400, NONE, NONE), outOfMemory);
  assert.throws(() => pendratsoa.header(8, 0, 0), { name: 'NoRoom', code: 'JOURNAL_NO_ROOM' });
  assert.throws(() => pendratsoa.frame(8, 0, NONE), {
    name: 'TooLong',
    code: 'JOURNAL_TOO_LONG',
    argument: 'payload',
    message: 'frame: payload is too long: more than 4,294,967,295 bytes',
  });
});

test('items of other kinds', () => {
  const stream = new Stream();
  stream.feed(hex('0300000000000000'));
  for (let i = 0; i < 2; i += 1) {
    assert.throws(() => [...stream], notKnown('Stream', 'kind of item 3'));
    assert.equal(stream.rest, 8);
  }
});

test('notifications of other kinds', () => {
  const numbers = [0, 7, 0, 4];
  assert.deepEqual(pendratsoa.notification(0xfbff, Uint8Array.from(numbers)), {
    idKind: 'completionId',
    id: 7,
    resultKind: 'stateKeys',
    result: NONE,
  });
  assert.throws(() => pendratsoa.notification(0xfbff, hex('03000000')), notKnown('notification', 'kind of id 3'));
  assert.throws(() => pendratsoa.notification(0xfbff, hex('00000005')), notKnown('notification', 'kind of result 5'));
  assert.throws(() => pendratsoa.notification(0xfbff, hex('ff0000ff')), notKnown('notification', 'kind of id 255'));
});

test('tables of other kinds, and of other fields', () => {
  const write = (kind) => () => pendratsoa.writeRecord('Value', { content: Uint8Array.of(kind) });
  assert.throws(write(3), { name: 'FieldError', reason: 'severalMembers', path: 'content' });
  assert.throws(write(10), notKnown('payload', 'kind of table 10'));
  assert.throws(() => pendratsoa.readRecord('Value', NONE), notKnown('readRecord', 'field 9999 of Value'));
});

test('JSON texts of other kinds', () => {
  assert.throws(() => pendratsoa.fromJson(0, hex('08')), { name: 'JsonError', reason: 'tooDeep' });
  assert.throws(() => pendratsoa.fromJson(0, hex('09')), notKnown('fromJson', 'kind of JSON text 9'));
  assert.throws(() => pendratsoa.fromJson(0, ''), {
    name: 'TooLong',
    argument: 'json',
    message: 'fromJson: payload is too long: more than 4,294,967,295 bytes',
  });
});

test('numberings of other kinds, and of more fields', () => {
  const { Numbering } = pendratsoa;
  assert.throws(() => new Numbering(hex('02')), { name: 'NumberingError', reason: 'noRename', text: '' });
  assert.throws(() => new Numbering(hex('03')), notKnown('Numbering', 'kind of numbering 3'));
  const stream = new Stream(8, { numbering: new Numbering(hex('00')) });
  stream.feed(hex('0000000000000000'));
  const [message] = stream;
  assert.deepEqual(message.payload, new Uint8Array(1000).fill(7));
  assert.deepEqual(message.bytes, hex('0000000000000000'));
});

test('verdicts of other kinds', () => {
  assert.equal(pendratsoa.compareJournals(8, hex('06'), NONE).kind, 'badReplayed');
  assert.throws(() => pendratsoa.compareJournals(8, hex('07'), NONE), notKnown('compareJournals', 'kind of verdict 7'));
});

test('results that need more room each time', () => {
  assert.deepEqual(pendratsoa.merge(0, NONE, NONE), new Uint8Array(100_000).fill(7));
});

test('results that there is no memory for', () => {
  assert.throws(() => pendratsoa.canonical(0, NONE), RangeError);
  assert.throws(() => pendratsoa.typeName(60), RangeError);
});

test('texts that are too long for a string', () => {
  assert.throws(() => pendratsoa.typeName(30), { code: 'ERR_STRING_TOO_LONG' });
});
