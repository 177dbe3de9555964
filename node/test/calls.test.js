// The calls over numbers, names, payloads, notifications and journals.

import assert from 'node:assert/strict';
import test from 'node:test';
import { inspect } from 'node:util';

import * as pendratsoa from 'pendratsoa';

import { refusal } from '../lib/errors.js';
import { bytesOf, hex, joined, textOf } from './support.js';

const { Message } = pendratsoa;

const ERROR_MESSAGE = 13;
const CALL_COMMAND = 0x040d;
const SET_STATE_COMMAND = 0x0403;
const PROPOSE_RUN_COMPLETION = 0x0005;
const SUSPENSION = 0x0001;
const CALL_COMPLETION = 0x800d;
const SIGNAL_NOTIFICATION = 0xfbff;
const CUSTOM_ENTRY = 0xfc01;

const HEADER = textOf('include/pendratsoa.h');

// Frames of commands: two that set a state, one that is malformed, and a call.
const SET_A = '0403000000000003 0a0161';
const SET_B = '0403000000000003 0a0162';
const BAD = '0403000000000001 07';
const CALL = '040d000000000000';

test('the names are those of index.d.ts', () => {
  const texts = textOf('node/index.d.ts') + textOf('node/messages.d.ts');
  const declared = texts.matchAll(/^export (?:class|const|function) (\w+)/gm);
  assert.deepEqual(Array.from(declared, ([, name]) => name).sort(), Object.keys(pendratsoa).sort());
});

test('the version of the library is that of the package and of the header', () => {
  assert.equal(pendratsoa.libraryVersion(), JSON.parse(textOf('node/package.json')).version);
  assert.ok(HEADER.includes(`#define JOURNAL_LIBRARY_VERSION "${pendratsoa.libraryVersion()}"\n`));
});

test('each error of the header is that of a class', () => {
  const defined = Array.from(HEADER.matchAll(/^#define (JOURNAL_\w+) \((-\d+)\)$/gm));
  const kinds = new Map(defined.map(([, code, number]) => [Number(number), code]).filter(([number]) => number > -16));
  assert.equal(kinds.size, 8);
  // no call returns the kind of what is unknown by itself
  for (const [, code, number] of defined.filter(([, name]) => name !== 'JOURNAL_UNKNOWN')) {
    const error = refusal(Number(number), { call: 'frame', version: 8, code: 0, payload: hex('') });
    assert.equal(error.code, kinds.get(Number(number) % 16), code);
    assert.equal(pendratsoa[error.name], error.constructor);
    assert.ok(error instanceof pendratsoa.JournalError && error instanceof Error);
    assert.ok(error.stack.startsWith(`${error.name}: `));
  }
});

test('types have their names and codes', () => {
  const rows = textOf('proto/types.txt').split('\n').filter((row) => row !== '' && !row.startsWith('#'));
  assert.ok(rows.length > 0);
  for (const row of rows) {
    const [digits, name] = row.split(' ');
    const code = Number.parseInt(digits, 16);
    assert.equal(pendratsoa.typeName(code), name);
    assert.equal(pendratsoa.typeCode(name), code);
    assert.equal(pendratsoa.schemaNames[pendratsoa.schema(9, code)], `${name}Message`);
    const message = new Message(8, code, new Uint8Array(0));
    assert.equal(message.isCommand, code >= 0x400 && name.endsWith('Command'));
    assert.equal(message.isNotification, code >= 0x8000 && name.endsWith('Notification'));
  }
  assert.equal(pendratsoa.typeName(CUSTOM_ENTRY), 'CustomEntry(64513)');
});

test('versions', () => {
  assert.deepEqual([pendratsoa.FIRST_VERSION, pendratsoa.LAST_VERSION], [5, 9]);
  assert.deepEqual([5, 6, 7, 8, 9].map((version) => pendratsoa.schema(version, SUSPENSION)), [12, 12, 11, 11, 11]);
});

test('headers', () => {
  assert.deepEqual(pendratsoa.header(8, CALL_COMMAND, 2 ** 32 - 1), hex('040d0000ffffffff'));
  assert.deepEqual(pendratsoa.header(6, PROPOSE_RUN_COMPLETION, 5), hex('0005000000000005'));
  assert.deepEqual(pendratsoa.header(7, PROPOSE_RUN_COMPLETION, -0), hex('0005800000000000'));
});

test('frames before and from version 7 on', () => {
  const payload = hex('22120a010122080a010222030a010122030a0103');
  assert.deepEqual(pendratsoa.frame(6, SUSPENSION, payload), hex('00010000000000060a0401020103'));
  const header = pendratsoa.header(7, SUSPENSION, payload.length);
  assert.deepEqual(pendratsoa.frame(7, SUSPENSION, payload), joined(header, payload));
});

test('payloads by the number and the name of a schema', () => {
  for (const schema of [12, 'SuspensionMessageV6']) {
    assert.deepEqual(pendratsoa.canonical(schema, hex('08010a0202030804')), hex('0a0401020304'));
    assert.deepEqual(pendratsoa.merge(schema, hex('0801'), hex('0a020203')), hex('0a03010203'));
    assert.equal(pendratsoa.isWellFormed(schema, hex('0801')), true);
    assert.equal(pendratsoa.isWellFormed(schema, hex('08')), false);
    assert.equal(pendratsoa.toJson(schema, hex('0801')), '{"waitingCompletions":[1]}');
  }
});

test('results of any length', () => {
  for (const length of [0, 1, 3990, 4096, 65_530, 65_536, 65_537, 1_000_000]) {
    const text = 'x'.repeat(length);
    const payload = pendratsoa.merge(ERROR_MESSAGE, errorMessage(text), hex(''));
    assert.deepEqual(payload, pendratsoa.canonical(ERROR_MESSAGE, payload));
    assert.deepEqual(JSON.parse(pendratsoa.toJson(ERROR_MESSAGE, payload)), length > 0 ? { message: text } : {});
    assert.equal(pendratsoa.frame(8, 2, payload).length, 8 + payload.length);
    assert.equal(payload.buffer.byteLength, length < 4000 ? 8192 : payload.length);
  }
});

test('a text that is not ASCII', () => {
  const text = 'a\u00e9\u{1f600}';
  assert.deepEqual(JSON.parse(pendratsoa.toJson(ERROR_MESSAGE, errorMessage(text))), { message: text });
});

test('results do not share their bytes', () => {
  const first = pendratsoa.canonical(12, hex('0801'));
  const second = pendratsoa.canonical(12, hex('0802'));
  first.fill(0);
  assert.deepEqual(second, hex('0a0102'));
  assert.deepEqual(pendratsoa.canonical(12, hex('0801')), hex('0a0101'));
  const { result } = pendratsoa.notification(SIGNAL_NOTIFICATION, hex('1a0173 2a030a0178'));
  pendratsoa.canonical(12, hex('0801'));
  assert.deepEqual(result, hex('0a0178'));
});

test('a view of any memory', () => {
  const payload = hex('08010a0202030804');
  const within = joined(hex('010203'), payload, hex('0405')).subarray(3, 3 + payload.length);
  class Bytes extends Uint8Array {}
  for (const view of [payload, Buffer.from(payload), within, new Bytes(payload)]) {
    assert.deepEqual(pendratsoa.canonical(12, view), hex('0a0401020304'));
    assert.deepEqual(pendratsoa.merge(12, new Uint8Array(0), view), hex('0a0401020304'));
  }
});

test('payloads of JSON', () => {
  const json = ' { "name" : "\\u0078" , "wake_up_time" : 0.5e1 } ';
  for (const text of ['{"wakeUpTime":"5","name":"x"}', json, Buffer.from(json), Uint8Array.from(Buffer.from(json))]) {
    assert.deepEqual(pendratsoa.fromJson('SleepCommandMessage', text), hex('0805620178'));
  }
  for (const schema of pendratsoa.schemaNames.keys()) {
    assert.deepEqual(pendratsoa.fromJson(schema, '{}'), hex(''));
  }
  const text = 'a\u00e9\u{1f600}'.repeat(20_000);
  const payload = pendratsoa.fromJson(ERROR_MESSAGE, JSON.stringify({ message: text }));
  assert.deepEqual(payload, pendratsoa.canonical(ERROR_MESSAGE, errorMessage(text)));
});

test('JSON that is rejected', () => {
  const deep = '{"nestedFutures":['.repeat(102) + ']}'.repeat(102);
  for (const [schema, json, reason, offset, path, why] of [
    ['Value', '', 'notJson', 0, '', 'not JSON at byte 0'],
    ['Value', Buffer.from('{"content":"\xff"}', 'latin1'), 'notJson', 12, '', 'not JSON at byte 12'],
    ['ErrorMessage', '{"message":"\u00e9\ud83d"}', 'notJson', 14, '', 'not JSON at byte 14'],
    ['Value', '{"a":1}', 'unknownMember', undefined, 'a', 'a: unknown member'],
    ['Value', '{"content":"","content":""}', 'repeatedMember', undefined, 'content', 'content: repeated member'],
    [
      'ProposeRunCompletionMessage',
      '{"value":"","failure":{}}',
      'severalMembers',
      undefined,
      'failure',
      'failure: several members of a oneof',
    ],
    ['Value', '[]', 'wrongKind', undefined, '', 'wrong kind of value'],
    [
      'InputCommandMessage',
      '{"headers":[{},{"key":1}]}',
      'wrongKind',
      undefined,
      'headers[1].key',
      'headers[1].key: wrong kind of value',
    ],
    ['SleepCommandMessage', '{"wakeUpTime":-1}', 'outOfRange', undefined, 'wakeUpTime', 'wakeUpTime: out of range'],
    ['Value', '{"content":"a"}', 'notBase64', undefined, 'content', 'content: not base64'],
  ]) {
    assert.throws(
      () => pendratsoa.fromJson(schema, json),
      (error) => {
        assert.ok(error instanceof pendratsoa.JsonError);
        assert.equal(error.code, 'JOURNAL_JSON_ERROR');
        assert.deepEqual([error.reason, error.offset, error.path], [reason, offset, path]);
        assert.deepEqual([error.call, error.argument, error.value], ['fromJson', 'json', json]);
        assert.equal(error.message, `fromJson: JSON of ${Buffer.byteLength(json)} bytes: ${why}`);
        return true;
      },
    );
  }
  assert.throws(() => pendratsoa.fromJson('Future', deep), { name: 'JsonError', reason: 'tooDeep' });
  const none = pendratsoa.schemaNames.length;
  assert.throws(() => pendratsoa.fromJson(none, '{}'), { name: 'Unknown', argument: 'schema' });
});

test('messages of JSON', () => {
  const message = Message.fromJson('ProposeRunCompletion', '{"resultCompletionId":1,"value":"eA=="}');
  assert.deepEqual(message, new Message(8, PROPOSE_RUN_COMPLETION, hex('0801720178')));
  assert.deepEqual(Message.fromJson(message.code, message.json()), message);
  assert.deepEqual(Message.fromJson(SUSPENSION, { waitingCompletions: [1] }, 6).payload, hex('0a0101'));
  assert.throws(() => Message.fromJson(SUSPENSION, { waitingCompletions: [1] }, 7), {
    name: 'JsonError',
    call: 'Message.fromJson',
    message: 'Message.fromJson: JSON of 26 bytes: waitingCompletions: unknown member',
  });
  assert.throws(() => Message.fromJson(CUSTOM_ENTRY, '{}'), pendratsoa.Unknown);
  assert.throws(() => Message.fromJson('Sleep', '{}'), pendratsoa.Unknown);
  assert.throws(() => Message.fromJson(SUSPENSION, '{}', 4), pendratsoa.Unknown);
  const circular = {};
  circular.value = circular;
  for (const json of [undefined, null, 5, [], new Map(), new ArrayBuffer(2), new Date(0), () => '{}', circular]) {
    assert.throws(() => Message.fromJson(SUSPENSION, json), TypeError);
  }
  assert.throws(() => Message.fromJson('SleepCommand', { wakeUpTime: 5n }), TypeError);
});

test('a message', () => {
  const message = new Message(8, 0x0400, hex('72070a05696e707574'));
  assert.equal(message.kind, 'message');
  assert.equal(message.requestedAck, false);
  assert.equal(message.type, 'InputCommand');
  assert.equal(message.schema, 20);
  assert.deepEqual(message.json(), { value: { content: 'aW5wdXQ=' } });
  assert.deepEqual(message.canonical(), message.payload);
  assert.deepEqual(message.frame(), hex('0400000000000009 72070a05696e707574'));
});

test('a new message has the flag of its type', () => {
  for (const given of [[], [true], [false], [undefined, true]]) {
    assert.equal(new Message(8, PROPOSE_RUN_COMPLETION, hex(''), ...given).requestedAck, true);
    assert.equal(new Message(8, CALL_COMMAND, hex(''), ...given).requestedAck, false);
    assert.throws(() => new Message(8, 8, hex(''), ...given), pendratsoa.Unknown);
  }
});

test('a message of its own version and of another', () => {
  const payload = hex('0801720178');
  assert.deepEqual(new Message(6, PROPOSE_RUN_COMPLETION, payload).frame(), hex('0005000000000005 0801720178'));
  assert.deepEqual(new Message(6, PROPOSE_RUN_COMPLETION, payload).frame(7), hex('0005800000000005 0801720178'));
  assert.deepEqual(new Message(9, PROPOSE_RUN_COMPLETION, payload).frame(5), hex('0005000000000005 0801720178'));
  assert.deepEqual([6, 7].map((version) => new Message(version, SUSPENSION, hex('')).schema), [12, 11]);
});

test('a custom entry has no schema', () => {
  const entry = new Message(8, CUSTOM_ENTRY, hex('ff'));
  assert.equal(entry.type, 'CustomEntry(64513)');
  assert.deepEqual([entry.isCommand, entry.isNotification], [false, false]);
  assert.throws(() => entry.schema, unknown('code', CUSTOM_ENTRY));
  assert.throws(() => entry.json(), pendratsoa.Unknown);
  assert.throws(() => entry.canonical(), pendratsoa.Unknown);
  assert.throws(() => entry.frame(), pendratsoa.Unknown);
  assert.throws(() => entry.notification(), pendratsoa.Unknown);
});

test('each id of a notification', () => {
  for (const [payload, idKind, id] of [
    ['08002200', 'completionId', 0],
    ['08ffffffff0f2200', 'completionId', 2 ** 32 - 1],
    ['10112200', 'signalId', 17],
    ['1a002200', 'signalName', ''],
    ['1a0361c3a92200', 'signalName', 'a\u00e9'],
    ['1a04efbbbf612200', 'signalName', '\ufeffa'],
  ]) {
    assert.deepEqual(pendratsoa.notification(SIGNAL_NOTIFICATION, hex(payload)), {
      idKind,
      id,
      resultKind: 'void',
      result: hex(''),
    });
  }
});

test('each result of a notification', () => {
  for (const [payload, resultKind, result] of [
    ['2200', 'void', ''],
    ['2a030a0178', 'value', '0a0178'],
    ['3203088500', 'failure', '0805'],
    ['820103696e76', 'invocationId', '696e76'],
    ['8a01030a0161', 'stateKeys', '0a0161'],
  ]) {
    for (const [name, id] of [['1a00', ''], ['1a0473746f70', 'stop']]) {
      const whole = hex(`${name} ${payload}`);
      assert.deepEqual(pendratsoa.notification(SIGNAL_NOTIFICATION, whole), {
        idKind: 'signalName',
        id,
        resultKind,
        result: hex(result),
      });
    }
  }
  const message = new Message(8, CALL_COMPLETION, hex('08022a040a026869'));
  assert.deepEqual(message.notification(), {
    idKind: 'completionId',
    id: 2,
    resultKind: 'value',
    result: hex('0a026869'),
  });
});

test('a notification without id or result', () => {
  const payload = hex('2200');
  assert.throws(() => pendratsoa.notification(SIGNAL_NOTIFICATION, payload), {
    name: 'NoId',
    code: 'JOURNAL_NO_ID',
    argument: 'payload',
    value: payload,
    call: 'notification',
    message: `notification: payload of ${payload.length} bytes has no id`,
  });
  assert.throws(() => pendratsoa.notification(SIGNAL_NOTIFICATION, hex('1011')), pendratsoa.NoResult);
  assert.throws(() => pendratsoa.notification(CALL_COMMAND, hex('')), unknown('code', CALL_COMMAND));
});

test('commands compared', () => {
  const [first, second] = [hex('0a01611a030a0131'), hex('0a01611a030a0132')];
  assert.equal(pendratsoa.headerEq(SET_STATE_COMMAND, first, first), true);
  assert.equal(pendratsoa.headerEq(SET_STATE_COMMAND, first, second), false);
  assert.equal(pendratsoa.headerEq(SET_STATE_COMMAND, first, second, {}), false);
  assert.equal(pendratsoa.headerEq(SET_STATE_COMMAND, first, second, { ignorePayloads: true }), true);
  assert.equal(pendratsoa.difference(SET_STATE_COMMAND, first, second), "\n   value: '1' != '2'");
  assert.equal(pendratsoa.difference(SET_STATE_COMMAND, first, first), '');
});

test('custom entries are not compared', () => {
  const recorded = bytesOf('examples/streams/recorded');
  // the first of the two codes is in the range of commands
  for (const code of [0x3f3f, CUSTOM_ENTRY]) {
    const replayed = joined(pendratsoa.header(8, code, 1), hex('ff'), recorded);
    const verdict = pendratsoa.compareJournals(8, recorded, replayed);
    assert.deepEqual([verdict.kind, verdict.index], ['same', 4]);
  }
});

test('each verdict on journals', () => {
  for (const [recorded, replayed, kind, index] of [
    ['', '', 'same', 0],
    [SET_A + SET_B, SET_A + SET_B, 'same', 2],
    [SET_A, SET_A + SET_A, 'recordedEnded', 1],
    [SET_A + SET_A, SET_A, 'replayedEnded', 1],
    [SET_A + CALL, SET_A + SET_A, 'typeMismatch', 1],
    [SET_A + SET_A, SET_A + SET_B, 'headerMismatch', 1],
    [SET_A + BAD, SET_A + BAD, 'badRecorded', 1],
    [SET_A + SET_A, SET_A + BAD, 'badReplayed', 1],
  ]) {
    const verdict = pendratsoa.compareJournals(8, hex(recorded), hex(replayed));
    assert.deepEqual([verdict.kind, verdict.index], [kind, index]);
    assert.equal(verdict.text !== '', kind.endsWith('Mismatch'), verdict.text);
  }
});

test('journals compared without their payloads', () => {
  const recorded = bytesOf('examples/streams/recorded');
  const replayed = bytesOf('examples/streams/replayed_other_payload');
  const verdict = pendratsoa.compareJournals(8, recorded, replayed);
  assert.deepEqual([verdict.kind, verdict.index], ['headerMismatch', 1]);
  assert.ok(verdict.text.includes("value: '1' != '2'"));
  assert.deepEqual(pendratsoa.compareJournals(8, recorded, replayed, { ignorePayloads: true }), {
    kind: 'same',
    index: 4,
    text: '',
  });
});

test('a malformed payload is named', () => {
  const [good, bad] = [hex(''), hex('12')];
  for (const [call, argument] of [
    [() => pendratsoa.canonical(ERROR_MESSAGE, bad), 'payload'],
    [() => pendratsoa.toJson('ErrorMessage', bad), 'payload'],
    [() => pendratsoa.frame(8, 2, bad), 'payload'],
    [() => pendratsoa.notification(SIGNAL_NOTIFICATION, bad), 'payload'],
    [() => pendratsoa.merge(ERROR_MESSAGE, bad, good), 'first'],
    [() => pendratsoa.merge(ERROR_MESSAGE, good, bad), 'second'],
    [() => pendratsoa.merge('ErrorMessage', good, bad), 'second'],
    [() => pendratsoa.headerEq(CALL_COMMAND, bad, good), 'first'],
    [() => pendratsoa.headerEq(CALL_COMMAND, good, bad), 'second'],
    [() => pendratsoa.difference(CALL_COMMAND, good, bad), 'second'],
    [() => new Message(8, CALL_COMMAND, bad).json(), 'payload'],
  ]) {
    assert.throws(call, {
      name: 'Malformed',
      code: 'JOURNAL_MALFORMED',
      argument,
      value: bad,
      message: new RegExp(`^\\w+: (${argument} )?payload of 1 byte is malformed$`),
    });
  }
});

test('controls of a name are escaped', () => {
  const isControl = (code) =>
    code <= 0x1f || (code >= 0x7f && code <= 0x9f) || (code >= 0x2028 && code <= 0x202e) || isTurned(code);
  const isTurned = (code) => (code >= 0x2066 && code <= 0x2069) || (code >= 0xd800 && code <= 0xdfff);
  for (const code of [...Array(0x2100).keys(), 0xd800, 0xdfff, 0xe000, 0x1f600]) {
    const name = String.fromCodePoint(code);
    const shown = isControl(code) ? `\\u${code.toString(16).padStart(4, '0')}` : name;
    assert.throws(() => pendratsoa.typeCode(name), { message: `typeCode: unknown type "${shown}"` });
  }
});

test('what does not exist is named', () => {
  const none = hex('');
  for (const [call, argument, value] of [
    [() => pendratsoa.typeName(8), 'code', 8],
    [() => pendratsoa.typeCode('CustomEntry(64513)'), 'name', 'CustomEntry(64513)'],
    [() => pendratsoa.typeCode(''), 'name', ''],
    [() => pendratsoa.typeCode('SleepCommand\0'), 'name', 'SleepCommand\0'],
    [() => pendratsoa.typeCode('\ud800'), 'name', '\ud800'],
    [() => pendratsoa.schema(4, 0), 'version', 4],
    [() => pendratsoa.schema(8, 8), 'code', 8],
    [() => pendratsoa.schema(4, 8), 'version', 4],
    [() => pendratsoa.header(10, 0, 0), 'version', 10],
    [() => pendratsoa.header(9, 8, 0), 'code', 8],
    [() => pendratsoa.frame(8, CUSTOM_ENTRY, none), 'code', CUSTOM_ENTRY],
    [() => pendratsoa.canonical(pendratsoa.schemaNames.length, none), 'schema', pendratsoa.schemaNames.length],
    [() => pendratsoa.canonical('Voids', none), 'schema', 'Voids'],
    [() => pendratsoa.toJson('__proto__', none), 'schema', '__proto__'],
    [() => pendratsoa.isWellFormed('', none), 'schema', ''],
    [() => pendratsoa.merge('void', none, none), 'schema', 'void'],
    [() => pendratsoa.headerEq(CALL_COMPLETION, none, none), 'code', CALL_COMPLETION],
    [() => pendratsoa.difference(0, none, none), 'code', 0],
    [() => pendratsoa.compareJournals(4, none, none), 'version', 4],
    [() => new pendratsoa.Stream(10), 'version', 10],
    [() => pendratsoa.decode(10), 'version', 10],
    [() => pendratsoa.items([], 10), 'version', 10],
    [() => new Message(10, 0, none), 'version', 10],
    [() => new Message(8, 8, none), 'code', 8],
  ]) {
    assert.throws(call, unknown(argument, value));
  }
  const schemas = pendratsoa.schemaNames.length;
  for (const [call, message] of [
    [() => pendratsoa.canonical('Voids', none), 'canonical: unknown schema "Voids"'],
    [() => pendratsoa.canonical(schemas, none), `canonical: unknown schema ${schemas} (0 to ${schemas - 1})`],
    [() => pendratsoa.schema(4, 0), 'schema: unknown protocol version 4 (5 to 9)'],
    [() => pendratsoa.typeCode('Sleep'), 'typeCode: unknown type "Sleep"'],
    [
      () => pendratsoa.headerEq(CALL_COMPLETION, none, none),
      'headerEq: unknown code 0x800d, or not of the kind that the call is for',
    ],
    [() => pendratsoa.typeName(-1), 'typeName: unknown code -1, or not of the kind that the call is for'],
    [() => new Message(4, 0, none), 'Message: unknown protocol version 4 (5 to 9)'],
    [() => Message.of('End', {}, 4), 'Message.of: unknown protocol version 4 (5 to 9)'],
    [() => Message.of('Sleep', {}), 'Message.of: unknown type "Sleep"'],
    [() => Message.fromJson('End', '{}', 4), 'Message.fromJson: unknown protocol version 4 (5 to 9)'],
    [() => Message.fromJson('Sleep', '{}'), 'Message.fromJson: unknown type "Sleep"'],
  ]) {
    assert.throws(call, { name: 'Unknown', message });
  }
});

test('what is logged of an error', () => {
  const given = Buffer.from('\nSECRET');
  const stream = new pendratsoa.Stream();
  stream.feed(given);
  const limited = new pendratsoa.Stream(8, { maxMessageSize: 1 });
  limited.feed(joined(hex('0400000000000009'), given));
  for (const [call, name] of [
    [() => pendratsoa.canonical('Value', given), 'value'],
    [() => pendratsoa.fromJson('Value', '["SECRET"]'), 'value'],
    [() => stream.finish(), 'trailing'],
    [() => [...limited], 'trailing'],
  ]) {
    assert.throws(call, (error) => {
      assert.ok(Buffer.from(error[name]).includes('SECRET'));
      for (const logged of [inspect(error), JSON.stringify(error), String(error)]) {
        assert.doesNotMatch(logged, /SECRET|53 45 43|83, ?69/);
      }
      return true;
    });
  }
});

test('no number wraps', () => {
  const none = hex('');
  // each is the number of something once 2^16 or 2^32 is added to it or taken from it, or its fraction is cut
  for (const code of [CALL_COMMAND - 2 ** 16, CALL_COMMAND + 2 ** 16, CALL_COMMAND + 0.5, NaN, Infinity, -Infinity]) {
    for (const call of [
      () => pendratsoa.typeName(code),
      () => pendratsoa.schema(8, code),
      () => pendratsoa.header(8, code, 0),
      () => pendratsoa.frame(8, code, none),
      () => pendratsoa.headerEq(code, none, none),
      () => pendratsoa.difference(code, none, none),
      () => pendratsoa.notification(code + CALL_COMPLETION - CALL_COMMAND, hex('08012200')),
      () => new Message(8, code, none),
    ]) {
      assert.throws(call, pendratsoa.Unknown);
    }
  }
  for (const version of [8 - 2 ** 32, 8 + 2 ** 32, 8 + 2 ** 53, 8.5, NaN, Infinity, -8]) {
    for (const call of [
      () => pendratsoa.schema(version, CALL_COMMAND),
      () => pendratsoa.header(version, CALL_COMMAND, 0),
      () => pendratsoa.frame(version, CALL_COMMAND, none),
      () => pendratsoa.compareJournals(version, none, none),
      () => new Message(version, CALL_COMMAND, none),
      () => new pendratsoa.Stream(version),
      () => pendratsoa.decode(version),
      () => pendratsoa.items([], version),
    ]) {
      assert.throws(call, unknown('version', version));
    }
  }
  for (const schema of [13 - 2 ** 32, 13 + 2 ** 32, 13.5, -1, NaN, 2 ** 64]) {
    for (const call of [
      () => pendratsoa.isWellFormed(schema, none),
      () => pendratsoa.canonical(schema, none),
      () => pendratsoa.merge(schema, none, none),
      () => pendratsoa.toJson(schema, none),
    ]) {
      assert.throws(call, unknown('schema', schema));
    }
  }
});

test('lengths of a payload', () => {
  for (const length of [2 ** 32, 2 ** 53, Infinity]) {
    assert.throws(() => pendratsoa.header(8, 0, length), {
      name: 'TooLong',
      code: 'JOURNAL_TOO_LONG',
      argument: 'payloadLength',
      value: length,
      call: 'header',
      message: `header: payload of ${length} bytes is too long: more than 4,294,967,295 bytes`,
    });
  }
  for (const length of [-1, 0.5, NaN, -Infinity, -(2 ** 32)]) {
    assert.throws(() => pendratsoa.header(8, 0, length), { name: 'RangeError', code: 'ERR_OUT_OF_RANGE' });
  }
});

/** The error that this is none. */
function unknown(argument, value) {
  return { name: 'Unknown', code: 'JOURNAL_UNKNOWN', argument, value };
}

/** The payload of an ErrorMessage with this text. */
function errorMessage(text) {
  const bytes = Buffer.from(text);
  const length = [];
  let rest = bytes.length;
  while (rest >= 128) {
    length.push((rest % 128) + 128);
    rest = Math.floor(rest / 128);
  }
  return Buffer.concat([hex('120178').slice(0, -2), Uint8Array.of(...length, rest), bytes]);
}
