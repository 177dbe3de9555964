// The records of messages: decoded, changed, encoded, and what cannot be.

import assert from 'node:assert/strict';
import test from 'node:test';
import { runInNewContext } from 'node:vm';

import {
  ErrorBehavior,
  FieldError,
  Malformed,
  Message,
  Stream,
  Unknown,
  frame,
  frameInto,
  readRecord,
  schemaNames,
  writeRecord,
} from 'pendratsoa';

import { bytesOf, digits, hex } from './support.js';

const text = (bytes) => Buffer.from(bytes).toString();

test('the messages of a stream', () => {
  const stream = new Stream();
  stream.feed(bytesOf('examples/streams/recorded'));
  const found = [];
  for (const item of stream) {
    assert.deepEqual(Message.of(item.type, item.message).frame(), item.bytes);
    if (item.type === 'SetStateCommand') {
      const { key, value } = item.message;
      found.push([text(key), text(value.content)]);
      const changed = Message.of(item.type, { ...item.message, value: { content: Buffer.from('22') } });
      assert.equal(digits(changed.payload), '0a07636f756e746572 1a040a023232'.replaceAll(' ', ''));
    } else if (item.type === 'CallCompletionNotification') {
      found.push([item.message.result.case, text(item.message.result.value.content)]);
    }
  }
  assert.deepEqual(found, [['counter', '1'], ['value', 'hi']]);
});

test('an empty record of each schema', () => {
  for (const name of schemaNames) {
    assert.deepEqual(writeRecord(name, {}), hex(''));
    assert.deepEqual(writeRecord(name, readRecord(name, hex(''))), hex(''));
  }
  assert.deepEqual(readRecord('SetStateCommandMessage', hex('')), { key: hex(''), value: undefined, name: '' });
});

test('presence', () => {
  const error = { relatedCommandIndex: 0, relatedCommandName: '', behavior: -5 };
  const found = readRecord('ErrorMessage', writeRecord('ErrorMessage', error));
  assert.deepEqual([found.relatedCommandIndex, found.relatedCommandName, found.behavior], [0, '', -5]);
  assert.equal(found.nextRetryDelay, undefined);
  assert.equal(ErrorBehavior.PAUSE, 1);
  for (const signalId of [undefined, { case: 'idx', value: 0 }, { case: 'name', value: '' }]) {
    const payload = writeRecord('SignalNotificationMessage', { signalId });
    assert.deepEqual(readRecord('SignalNotificationMessage', payload).signalId, signalId);
  }
  const sleep = { wakeUpTime: (1n << 64n) - 1n };
  const read = readRecord('SleepCommandMessage', writeRecord('SleepCommandMessage', sleep));
  assert.equal(read.wakeUpTime, sleep.wakeUpTime);
});

test('another encoding, and many fields', () => {
  assert.deepEqual(readRecord('SuspensionMessageV6', hex('08010a020203')).waitingCompletions, [1, 2, 3]);
  const keys = Array.from({ length: 5000 }, (_, number) => Buffer.from(String(number)));
  const found = readRecord('StateKeys', writeRecord('StateKeys', { keys }));
  assert.deepEqual(found.keys.map(text), keys.map(text));
  const texts = Array.from({ length: 3000 }, (_, number) => '\u00fc'.repeat(number % 300));
  const headers = texts.map((value, number) => ({ key: String(number), value }));
  assert.deepEqual(readRecord('InputCommandMessage', writeRecord('InputCommandMessage', { headers })).headers, headers);
  const long = { content: new Uint8Array(100000).fill(7) };
  assert.deepEqual(readRecord('Value', writeRecord('Value', long)), long);
});

test('the record of a suspension is that of its version', () => {
  const message = Message.of('Suspension', { waitingCompletions: [1] }, 6);
  assert.deepEqual(message.bytes, hex('0001000000000003 0a0101'));
  assert.deepEqual(message.message.waitingCompletions, [1]);
});

test('fields that cannot be encoded', () => {
  for (const [name, record, path] of [
    ['Failure', { code: -1 }, 'code'],
    ['Failure', { code: 2 ** 32 }, 'code'],
    ['ErrorMessage', { behavior: 2 ** 31 }, 'behavior'],
    ['SleepCommandMessage', { wakeUpTime: 1n << 64n }, 'wakeUpTime'],
    ['SleepCommandMessage', { wakeUpTime: -1n }, 'wakeUpTime'],
    ['InputCommandMessage', { headers: [{ key: 'a' }, { value: '\ud800' }] }, 'headers[1].value'],
    ['OutputCommandMessage', { result: { case: 'failure', value: { message: 'a\udfffb' } } }, 'failure.message'],
  ]) {
    assert.throws(() => writeRecord(name, record), (error) => {
      assert.ok(error instanceof FieldError);
      assert.deepEqual([error.path, error.code], [path, 'JOURNAL_FIELD_ERROR']);
      return true;
    });
  }
  let deep = {};
  for (let level = 0; level < 100; level += 1) {
    deep = { nestedFutures: [deep] };
  }
  assert.doesNotThrow(() => writeRecord('Future', deep));
  assert.throws(() => writeRecord('Future', { nestedFutures: [deep] }), { reason: 'tooDeep' });
});

test('values of another kind', () => {
  for (const [name, record] of [
    ['Failure', { code: '1' }],
    ['Failure', { code: Symbol('1') }],
    ['Failure', { code: { valueOf: () => 1 } }],
    ['Failure', { code: 1.5 }],
    ['Failure', { code: 2 ** 64 }],
    ['Failure', { kode: 1 }],
    ['Failure', null],
    ['Value', { content: 'text' }],
    ['SleepCommandMessage', { wakeUpTime: 5 }],
    ['InputCommandMessage', { headers: {} }],
    ['OutputCommandMessage', { result: { case: 'none', value: {} } }],
    ['OutputCommandMessage', { result: {} }],
  ]) {
    assert.throws(() => writeRecord(name, record), TypeError, JSON.stringify([name, String(record)]));
  }
  assert.throws(() => readRecord('Value', hex('0a')), Malformed);
  assert.throws(() => readRecord('Values', hex('')), Unknown);
  assert.throws(() => Message.of('SetStatCommand', {}), Unknown);
});

test('what is not a record', () => {
  const bytes = [hex('01'), hex(''), Buffer.from('1'), new ArrayBuffer(1)];
  const values = [...bytes, [], [1], new Map(), new Date(0), 5, 'text', null];
  for (const value of values) {
    for (const [type, record, name] of [
      ['SetStateCommand', { value }, 'value'],
      ['OutputCommand', { result: { case: 'value', value } }, 'value'],
      ['SetStateCommand', value, 'record'],
    ]) {
      assert.throws(() => Message.of(type, record), (error) => {
        assert.ok(error instanceof TypeError);
        assert.ok(error.message.startsWith(`${name} is `), error.message);
        assert.match(error.message, /, and has to be an object of (Value|SetStateCommandMessage)$/);
        return true;
      });
    }
  }
  assert.throws(() => Message.of('SetStateCommand', { value: new Uint8Array(1) }), {
    code: 'ERR_INVALID_ARG_TYPE',
    message: 'value is of 1 byte, and has to be an object of Value',
  });
});

test('an error of a record does not tell its values', () => {
  for (const [record, message] of [
    [{ key: 'SECRET' }, 'key is a string, and has to be a Uint8Array'],
    [{ key: 1 }, 'key is a number, and has to be a Uint8Array'],
    [{ key: ['SECRET'] }, 'key is an array, and has to be a Uint8Array'],
    [{ value: { content: { secret: 'SECRET' } } }, 'content is an object, and has to be a Uint8Array'],
    [{ value: 'SECRET' }, 'value is a string, and has to be an object of Value'],
    [{ value: null }, 'value is null, and has to be an object of Value'],
  ]) {
    assert.throws(() => Message.of('SetStateCommand', record), { name: 'TypeError', message });
  }
  const message = 'keys is a string, and has to be a field of SetStateCommandMessage, which has none of this name';
  assert.throws(() => Message.of('SetStateCommand', { keys: 'SECRET' }), { name: 'TypeError', message });
});

test('objects of a class that have fields, and of no class', () => {
  class Own {
    content = hex('01');
  }
  class Inherited {
    get content() {
      return hex('01');
    }
  }
  const ofNone = Object.assign(Object.create(null), { content: hex('01') });
  const ofOther = Object.assign(runInNewContext('({})'), { content: hex('01') });
  for (const value of [new Own(), new Inherited(), ofNone, ofOther]) {
    assert.deepEqual(Message.of('SetStateCommand', { value }).payload, hex('1a030a0101'));
  }
  // a record without fields
  const written = [{}, Object.create(null), runInNewContext('({})'), new (class {})()].map((value) =>
    digits(writeRecord('SendSignalCommandMessage', { result: { case: 'void', value } })),
  );
  assert.deepEqual(new Set(written), new Set(['2200']));
});

test('a custom entry has no frame of its own', () => {
  const custom = new Message(8, 0xfc01, hex('ff'));
  // the code is not an argument of a method
  for (const [call, begin, make] of [
    ['frame', '', () => custom.frame()],
    ['frameInto', '', () => custom.frameInto(new Uint8Array(20))],
    ['frame', 'frame: ', () => frame(8, 0x0415, hex(''))],
    ['frameInto', 'frameInto: ', () => frameInto(9, 0xffff, hex(''), hex(''))],
  ]) {
    assert.throws(make, (error) => {
      assert.ok(error instanceof Unknown);
      assert.equal(error.call, call);
      const code = `unknown code 0x${error.value.toString(16).padStart(4, '0')}`;
      assert.equal(error.message, `${begin}${code}, or not of the kind that the call is for`);
      return true;
    });
  }
  assert.deepEqual(custom.bytes, hex('fc01000000000001 ff'));
  for (const code of [0x0008, 0x03ff, 65536, 1024.5]) {
    assert.throws(() => frame(8, code, hex('')), /, or not of the kind that the call is for$/);
  }
  assert.throws(() => custom.json(), /, or not of the kind that the call is for$/);
});

test('a custom entry has no record', () => {
  // a state that is set, a custom entry whose payload is not a record, and the state again
  const state = '0403000000000003 0a0161';
  for (const version of [5, 6, 7, 8, 9]) {
    const stream = new Stream(version);
    stream.feed(hex(`${state} fc01000000000002 ffff ${state}`));
    const found = [...stream].map((item) => item.message);
    assert.equal(found.length, 3);
    assert.equal(found[1], undefined);
    assert.deepEqual([found[0], found[2]].map(({ key }) => text(key)), ['a', 'a']);
    stream.finish();
  }
});

test('what is neither a number nor a name is no schema', () => {
  for (const schema of [[1], new Number(1), { toString: () => '1', valueOf: () => 1 }, 1n, undefined, null, true]) {
    assert.throws(() => readRecord(schema, hex('')), TypeError);
    assert.throws(() => writeRecord(schema, {}), TypeError);
  }
});

test('an array whose class has a length of its own', () => {
  class Odd extends Uint8Array {
    get length() {
      return -5;
    }
  }
  assert.deepEqual(writeRecord('Value', { content: hex('010203') }), hex('0a03010203'));
  assert.deepEqual(writeRecord('Value', { content: new Odd(3) }), hex('0a03000000'));
});

test('a payload whose class reads another record', () => {
  const keys = ['61', '62', '63'].map((key) => hex(key));
  class Odd extends Uint8Array {
    subarray(begin, end) {
      readRecord('Value', hex('0a0101'));
      return super.subarray(begin, end);
    }
  }
  const payload = new Odd(writeRecord('StateKeys', { keys }));
  assert.deepEqual(readRecord('StateKeys', payload).keys.map(digits), ['61', '62', '63']);
});

test('a getter that writes another record', () => {
  const record = {
    get key() {
      return writeRecord('Value', { content: hex('01') });
    },
    value: { content: hex('02') },
  };
  const { key, value } = readRecord('SetStateCommandMessage', writeRecord('SetStateCommandMessage', record));
  assert.deepEqual([digits(key), digits(value.content)], ['0a0101', '02']);
});
