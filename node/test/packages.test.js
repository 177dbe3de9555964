// What every package promises beyond the calls: the cases of conformance/packages.cases, which its README specifies.

import assert from 'node:assert/strict';
import test from 'node:test';

import {
  FieldError,
  Incomplete,
  JsonError,
  Malformed,
  Message,
  MessageTooLong,
  NoId,
  NoResult,
  Numbering,
  NumberingError,
  Replay,
  Skipped,
  Stream,
  TooLong,
  Unknown,
  UnknownCode,
  compareJournals,
  decode,
  isWellFormed,
  items,
  readRecord,
  typeCode,
  typeName,
  writeRecord,
} from 'pendratsoa';

import { chunksOf, digits, hex, joined, textOf } from './support.js';

const CASES = casesOf('conformance/packages.cases');
const NUMBERINGS = casesOf('conformance/numberings.cases');

/** The lines of a file of cases. */
function casesOf(path) {
  return textOf(path)
    .split('\n')
    .filter((line) => line !== '' && !line.startsWith('#'));
}

/** The bytes of a word. */
function bytesOf(word) {
  return word === '-' ? new Uint8Array(0) : hex(word);
}

/** The bytes of a text as a word. */
function wordOf(text) {
  return digits(new TextEncoder().encode(text)) || '-';
}

/** The name of a type by its code, or - where there is none. */
function nameOf(code) {
  try {
    return code === undefined ? '-' : typeName(code);
  } catch (error) {
    assert.ok(error instanceof Unknown);
    return '-';
  }
}

/** A name as the lines have it, as recorded_ended. */
function snake(name) {
  return name.replace(/[A-Z]/g, (letter) => `_${letter.toLowerCase()}`);
}

/** A name as JavaScript has it, as recordedEnded. */
function camel(name) {
  return name.replace(/_([a-z])/g, (_, letter) => letter.toUpperCase());
}

/** The text of a word; one that is none of UTF-8 is half a surrogate. */
function stringOf(word) {
  try {
    return new TextDecoder('utf-8', { fatal: true, ignoreBOM: true }).decode(bytesOf(word));
  } catch {
    return '\udcff';
  }
}

// The fields of records: how a word is read, and how a value is written. Those that are not here are numbers.
const TEXT = [stringOf, wordOf];
const FIELDS = {
  id: [bytesOf, (value) => digits(value) || '-'],
  debug_id: TEXT,
  scope: TEXT,
  target_invocation_id: TEXT,
  entry_name: TEXT,
  name: TEXT,
  partial_state: [(word) => word === 'true', String],
  duration_since_last_stored_entry: [BigInt, String],
  headers: [
    (word) => word.split(',').map((one) => headerOf(...one.split(':'))),
    (headers) => headers.map(({ key, value }) => `${wordOf(key)}:${wordOf(value)}`).join(','),
  ],
  void: [() => ({}), () => '-'],
  value: [(word) => ({ content: bytesOf(word) }), ({ content }) => digits(content) || '-'],
  failure: [(word) => ({ code: Number(word) }), ({ code }) => String(code)],
};
const NUMBER = [Number, String];
// The names of oneofs by their members; a field `value` is a member in one of the records.
const ONEOFS = { idx: 'signalId', name: 'signalId', void: 'result', value: 'result', failure: 'result' };

function headerOf(key, value) {
  return { key: stringOf(key), value: stringOf(value) };
}

/** The record that has these fields. */
function recordOf(name, words) {
  const hasOneofs = name === 'SendSignalCommandMessage';
  return Object.fromEntries(
    words.map((word) => {
      const [field, text] = word.split('=');
      const [read] = FIELDS[field] ?? NUMBER;
      const oneof = hasOneofs ? ONEOFS[field] : undefined;
      return oneof === undefined ? [camel(field), read(text)] : [oneof, { case: field, value: read(text) }];
    }),
  );
}

// The fields that may be absent; the others are there if they are not their default.
const OPTIONAL = ['scope', 'relatedCommandIndex', 'value', 'signalId', 'result'];

/** The fields of a record that are there. */
function fieldsOf(record) {
  return Object.entries(record)
    .filter(([name, value]) => (OPTIONAL.includes(name) ? value !== undefined : !isDefault(value)))
    .map(([name, value]) => {
      const [field, found] = 'case' in Object(value) ? [value.case, value.value] : [snake(name), value];
      return `${field}=${(FIELDS[field] ?? NUMBER)[1](found)}`;
    });
}

/** Whether a value is that of a field that is not written: zero, false, or empty; or one that is absent. */
function isDefault(value) {
  return value === undefined || value.length === 0 || value === 0 || value === 0n || value === false;
}

// The texts of the errors with which cases ended.
let noted = [];

/** The result of a case that ends with an error, whose text is noted without the name of the call. */
function endsWith(error, result) {
  const { call, message } = error;
  noted.push(message.startsWith(`${call}: `) ? message.slice(`${call}: `.length) : message);
  return result;
}

/** How a stream ends. */
function endOf(error) {
  if (error instanceof Incomplete) {
    return endsWith(error, `incomplete ${error.offset} ${error.rest} ${nameOf(error.typeCode)}`);
  }
  if (error instanceof MessageTooLong) {
    return endsWith(error, `too_long ${error.offset} ${nameOf(error.typeCode)} ${error.length}`);
  }
  throw error;
}

/** What a call throws, or undefined. */
function thrown(call) {
  try {
    call();
  } catch (error) {
    return error;
  }
  return undefined;
}

/** The lines of a stream in chunks, and how it ends. */
function streamed(version, maxMessageSize, chunks) {
  const options = maxMessageSize === undefined ? {} : { maxMessageSize };
  const stream = new Stream(version, options);
  const [found, fed] = [[], []];
  const ended = thrown(() => {
    for (const chunk of chunks) {
      stream.feed(chunk);
      fed.push(chunk);
      found.push(...taken(stream, found));
    }
    stream.finish();
  });
  if (ended !== undefined) {
    assert.equal(String(thrown(() => stream.finish())), String(ended));
  }
  assert.deepEqual(joined(...found.map((item) => item.bytes), stream.trailing), joined(...fed));
  assert.deepEqual(ended?.trailing ?? hex(''), stream.trailing);
  return listing(found, ended);
}

/** The items that are there; those before an error are kept. */
function taken(stream, found) {
  const items = [];
  const failed = thrown(() => {
    for (const item of stream) {
      items.push(item);
    }
  });
  if (failed === undefined) {
    return items;
  }
  found.push(...items);
  assert.equal(thrown(() => [...stream]), failed);
  throw failed;
}

function listing(found, ended, end = 'whole') {
  const lines = found.map((item) => `${item.offset} ${item}`).join(', ');
  return [...(lines === '' ? [] : [lines]), ended === undefined ? end : endOf(ended)].join('; ');
}

/** The lines of the items of a source, by a function that has them, and how it ends. */
async function sourced(version, options, chunks, itemsIn = items) {
  const found = [];
  let ended;
  try {
    for await (const item of itemsIn(chunks, version, options)) {
      found.push(item);
    }
  } catch (error) {
    ended = error;
  }
  const whole = joined(...chunks);
  const came = joined(...found.map((item) => item.bytes), ended?.trailing ?? hex(''));
  assert.deepEqual(came, whole.slice(0, came.length));
  return listing(found, ended, options.strict === false ? `ended ${whole.length - came.length}` : 'whole');
}

/** The items of chunks that a transform stream decodes. */
function transformed(chunks, version, options) {
  const source = new ReadableStream({
    start(controller) {
      for (const chunk of chunks) {
        controller.enqueue(chunk);
      }
      controller.close();
    },
  });
  return source.pipeThrough(decode(version, options));
}

/** The items of a stream that is there as a whole. */
function itemsOf(version, word) {
  const stream = new Stream(Number(version));
  stream.feed(bytesOf(word));
  const found = [...stream];
  stream.finish();
  return found;
}

const READS = {
  json: (message) => message.json(),
  canonical: (message) => message.canonical(),
  frame: (message) => message.frame(),
  record: (message) => message.message,
  notification: (message) => message.notification(),
};

/** What reading a message throws, as a result. */
function failure(error, message) {
  if (error instanceof Unknown) {
    return endsWith(error, 'unknown');
  }
  const kind = [Malformed, NoId, NoResult].find((Class) => error instanceof Class);
  if (kind === undefined) {
    throw error;
  }
  assert.equal(error.typeCode, message.code);
  return endsWith(error, `${snake(kind.name).slice(1)} ${nameOf(error.typeCode)} ${error.offset}`);
}

const KINDS = {
  async items(version, limit, ...words) {
    const chunks = words.map(bytesOf);
    const stream = joined(...chunks);
    const given = [Number(version), limit === '-' ? undefined : Number(limit)];
    const found = streamed(...given, chunks);
    for (const other of [[stream], chunksOf(stream, 1)]) {
      assert.equal(streamed(...given, other), found);
      assert.equal(await sourced(given[0], { maxMessageSize: given[1] }, other), found);
    }
    return found;
  },

  async not_strict(version, limit, ...words) {
    const chunks = words.map(bytesOf);
    const options = { strict: false, maxMessageSize: limit === '-' ? undefined : Number(limit) };
    const found = await sourced(Number(version), options, chunks);
    for (const other of [chunks, chunksOf(joined(...chunks), 1)]) {
      assert.equal(await sourced(Number(version), options, other), found);
      assert.equal(await sourced(Number(version), options, other, transformed), found);
    }
    return found;
  },

  /** What the error says with which a case ends, in whatever chunks a stream comes. */
  async text(kind, ...words) {
    noted = [];
    await KINDS[kind](...words);
    const [text, ...others] = new Set(noted);
    assert.deepEqual(others, []);
    return text;
  },

  read(call, version, word) {
    return itemsOf(version, word)
      .map((item) => {
        if (item.kind !== 'message') {
          return 'none';
        }
        try {
          return READS[call](item) === undefined ? 'none' : 'ok';
        } catch (error) {
          return failure(error, item);
        }
      })
      .join(', ');
  },

  as(name, version, word) {
    return itemsOf(version, word)
      .map((item) => {
        try {
          const record = item.record(name);
          return record === undefined ? 'none' : digits(writeRecord(name, record)) || '-';
        } catch (error) {
          return failure(error, item);
        }
      })
      .join(', ');
  },

  compare(version, ignore, recorded, replayed) {
    const options = { ignorePayloads: ignore === 'yes' };
    const verdict = compareJournals(Number(version), bytesOf(recorded), bytesOf(replayed), options);
    return `${snake(verdict.kind)} ${verdict.index}`;
  },

  mismatch(version, ignore, recorded, replayed) {
    const ignored = { ignorePayloads: ignore === 'yes', ignoreIds: ignore === 'ids' };
    const replay = new Replay(Number(version), bytesOf(recorded), ignored);
    const said = [...itemsOf(version, replayed).map((item) => replay.check(item)), replay.finish()];
    const [found, ...others] = said.filter((mismatch) => mismatch !== undefined);
    assert.equal(others.length, 0);
    if (found === undefined) {
      return 'none';
    }
    const { kind, index, recordedOffset = '-', replayedOffset, text, fields } = found;
    return [
      ...[snake(kind), index, recordedOffset, replayedOffset, wordOf(text)],
      ...fields.flatMap(({ name, recorded, replayed }) => [name, wordOf(recorded), wordOf(replayed)]),
    ].join(' ');
  },

  replay(version, ignore, recorded, replayed) {
    const ignored = { ignorePayloads: ignore === 'yes', ignoreIds: ignore === 'ids' };
    const replay = new Replay(Number(version), bytesOf(recorded), ignored);
    const step = (mismatch) => {
      const expected = replay.expected();
      const next = expected === undefined ? [] : [expected.offset, expected.type];
      return [mismatch === undefined ? 'none' : snake(mismatch.kind), replay.index, ...next].join(' ');
    };
    const steps = [step(undefined), ...itemsOf(version, replayed).map((item) => step(replay.check(item)))];
    const left = replay.finish();
    return `${steps.join(', ')}; ${left === undefined ? 'none' : `${snake(left.kind)} ${left.index}`}`;
  },

  rest(version, word) {
    return String(new Replay(Number(version), bytesOf(word)).recordedRest);
  },

  encode(version, name, ...words) {
    try {
      return digits(Message.of(name.replace(/Message$/, ''), recordOf(name, words), Number(version)).bytes);
    } catch (error) {
      if (error instanceof Unknown) {
        return endsWith(error, 'unknown');
      }
      assert.ok(error instanceof FieldError, `${error}`);
      return endsWith(error, `${snake(error.reason)} ${snake(error.path)}`);
    }
  },

  message(version, name) {
    try {
      return String(Message.of(name.replace(/Message(V6)?$/, ''), {}, Number(version)));
    } catch (error) {
      assert.ok(error instanceof Unknown, `${error}`);
      return endsWith(error, 'unknown');
    }
  },

  new(version, code, word) {
    const given = [Number(version), Number(code), bytesOf(word)];
    let message;
    const error = thrown(() => {
      message = new Message(...given);
    });
    if (error !== undefined) {
      assert.ok(error instanceof Unknown, `${error}`);
      return endsWith(error, 'unknown');
    }
    const digitsOfAll = digits(message.bytes);
    assert.deepEqual([message.version, message.code, message.payload], given);
    assert.deepEqual(itemsOf(version, digitsOfAll), [message]);
    return `${message}, ${digitsOfAll}`;
  },

  decode(name, word) {
    try {
      return fieldsOf(readRecord(name, bytesOf(word))).join(', ') || '-';
    } catch (error) {
      assert.ok(error instanceof Malformed, `${error}`);
      return endsWith(error, 'malformed');
    }
  },

  json(version, type, word) {
    try {
      const message = Message.fromJson(type, bytesOf(word), Number(version));
      assert.deepEqual([message.version, message.type], [Number(version), type]);
      return digits(message.payload) || '-';
    } catch (error) {
      if (error instanceof Unknown) {
        return endsWith(error, 'unknown');
      }
      assert.ok(error instanceof JsonError, `${error}`);
      return endsWith(error, `${snake(error.reason)} ${error.offset ?? error.path}`.trimEnd());
    }
  },

  name(what, name) {
    const error = thrown(() => (what === 'type' ? typeCode(name) : isWellFormed(name, new Uint8Array(0))));
    if (error === undefined) {
      return 'known';
    }
    assert.ok(error instanceof Unknown, `${error}`);
    const [, meant] = error.message.split('; did you mean ');
    return endsWith(error, meant === undefined ? 'unknown' : `unknown ${meant.replace(/["?]/g, '')}`);
  },

  limit(text) {
    const error = thrown(() => new Stream(8, { maxMessageSize: Number(text) }));
    assert.ok(error === undefined || error instanceof RangeError || error instanceof TooLong, `${error}`);
    return error === undefined ? 'ok' : 'out_of_range';
  },

  number(what, text) {
    const number = Number(text);
    const calls = {
      version: () => new Stream(number),
      code: () => typeName(number),
      schema: () => isWellFormed(number, new Uint8Array(0)),
    };
    const error = thrown(calls[what]);
    assert.ok(error === undefined || error instanceof Unknown, `${error}`);
    return error === undefined ? 'known' : endsWith(error, 'unknown');
  },
};

test('the cases of packages', async () => {
  for (const line of CASES) {
    const [question, expected] = line.split(' = ');
    const [kind, ...words] = question.split(' ');
    assert.equal(await KINDS[kind](...words), expected, line);
  }
  assert.ok(CASES.length > 100, `${CASES.length} cases`);
});

/** The names of lines; undefined if a line is not a pair of them, as an object has. */
function renamesOf(word) {
  let text;
  try {
    text = new TextDecoder('utf-8', { fatal: true }).decode(bytesOf(word));
  } catch {
    return undefined;
  }
  const pairs = text
    .split('\n')
    .filter((line) => line !== '')
    .map((line) => /^(.*?)=(.*)$/.exec(line));
  return pairs.every((pair) => pair !== null) ? Object.fromEntries(pairs.map((pair) => pair.slice(1))) : undefined;
}

/** What a call at other field numbers returns, as a word. */
function renumbered(call) {
  try {
    return digits(call()) || '-';
  } catch (error) {
    if (error instanceof Malformed) {
      return 'malformed';
    }
    assert.ok(error instanceof Unknown, error.stack);
    return 'unknown';
  }
}

/** Whether a stream with a numbering has the items of the stream that was read by it. */
function hasSameItems(numbering, version, bytes, read) {
  const stream = new Stream(version, { numbering });
  stream.feed(bytes);
  const found = [...stream];
  const own = new Stream(version);
  own.feed(read);
  assert.deepEqual(
    found.map((item) => [String(item), item.payload]),
    Array.from(own, (item) => [String(item), item.payload]),
  );
  assert.deepEqual(joined(...found.map((item) => item.bytes), stream.trailing), bytes);
}

test('the cases of numberings', () => {
  const numberings = new Map();
  const kinds = {
    set(name, renames, set) {
      try {
        numberings.set(name, new Numbering(bytesOf(set), { renames: renamesOf(renames) }));
        return 'ok';
      } catch (error) {
        assert.ok(error instanceof NumberingError, error.stack);
        const argument = error.reason === 'noSet' ? 'descriptor set' : 'renames';
        assert.equal(error.message, `Numbering: ${argument}: ${error.text}`);
        return `${snake(error.reason)} ${wordOf(error.text)}`;
      }
    },
    read: (name, schema, payload) => renumbered(() => numberings.get(name).readPayload(schema, bytesOf(payload))),
    write: (name, schema, payload) => renumbered(() => numberings.get(name).writePayload(schema, bytesOf(payload))),
    stream(direction, name, version, stream) {
      const [numbering, number, bytes] = [numberings.get(name), Number(version), bytesOf(stream)];
      const found = renumbered(() => numbering[`${direction}Stream`](number, bytes));
      if (direction === 'read' && found !== 'unknown') {
        if (found === 'malformed') {
          const other = new Stream(number, { numbering });
          other.feed(bytes);
          assert.throws(() => [...other], Malformed);
        } else {
          hasSameItems(numbering, number, bytes, bytesOf(found));
        }
      }
      return found;
    },
  };
  for (const line of NUMBERINGS) {
    const [question, expected] = line.split(' = ');
    const [kind, ...words] = question.split(' ');
    if (kind !== 'set' || renamesOf(words[1]) !== undefined) {
      assert.equal(kinds[kind](...words), expected, line.slice(0, 300));
    }
  }
  assert.ok(NUMBERINGS.length > 600, `${NUMBERINGS.length} cases`);
});

test('items that came in no stream', () => {
  const message = new Message(8, 0x0403, hex('0a0561'));
  assert.deepEqual(
    [message, new UnknownCode(8, 8, 0n), new Skipped(9, 8, 0n, hex(''))].map((item) => item.offset),
    [undefined, undefined, undefined],
  );
  assert.throws(() => message.json(), {
    name: 'Malformed',
    code: 'JOURNAL_MALFORMED',
    call: 'toJson',
    argument: 'payload',
    typeCode: 0x0403,
    offset: undefined,
    message: 'SetStateCommand: payload of 3 bytes is malformed',
  });
});

test('the name of a record', () => {
  const message = new Message(8, 0x0403, hex('0a0561'));
  // the payload of another type is not looked at
  assert.equal(message.record('SleepCommandMessage'), undefined);
  for (const item of [message, new UnknownCode(8, 8, 0n), new Skipped(9, 8, 0n, hex(''))]) {
    for (const name of ['Value', 'SetStateCommand', '', 33, undefined]) {
      assert.throws(() => item.record(name), { name: 'TypeError', code: 'ERR_INVALID_ARG_TYPE' });
    }
    assert.throws(() => item.record('SetStateCommand'), {
      message:
        'name is "SetStateCommand", and has to be the name of a message\'s record; ' +
        'did you mean "SetStateCommandMessage"?',
    });
  }
});
