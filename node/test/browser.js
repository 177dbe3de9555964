// The test vectors in a browser, by the page's entry of the package, and the cases of numberings.cases;
// scripts/checks/browser_vectors.py serves it.
//
// It leaves what is found as `window.result`. Nothing of Node is there. Lines of the kinds `record` and `fields` have
// no call; one of a kind that is not known fails.

import {
  JournalError,
  JsonError,
  Malformed,
  Message,
  Numbering,
  NumberingError,
  Stream,
  Unknown,
  canonical,
  compareJournals,
  decode,
  difference,
  frame,
  fromJson,
  headerEq,
  items,
  libraryVersion,
  merge,
  readRecord,
  toJson,
  typeCode,
  writeRecord,
} from '../browser.js';

function hex(digits) {
  return Uint8Array.from(digits === '-' ? [] : digits.match(/../g), (pair) => Number.parseInt(pair, 16));
}

function digitsOf(bytes) {
  return Array.from(bytes, (byte) => byte.toString(16).padStart(2, '0')).join('');
}

function same(one, other) {
  if (digitsOf(one) !== digitsOf(other)) {
    throw new Error(`${digitsOf(one)} and not ${digitsOf(other)}`);
  }
}

function listed(item) {
  const code = `0x${item.code.toString(16)}`;
  switch (item.kind) {
    case 'message':
      return `${item.type} ${item.payload.length}${item.requestedAck ? ' ack' : ''}`;
    case 'unknownCode':
      return `unknown ${code}`;
    default:
      return `skipped ${code} ${item.payload.length}`;
  }
}

// The kinds of lines that no call of the package is for.
const OTHERS = ['record', 'fields'];

const KINDS = {
  payload(name, payload) {
    const result = canonical(name, hex(payload));
    same(writeRecord(name, readRecord(name, hex(payload))), result);
    return digitsOf(result);
  },
  json(name, payload) {
    const json = toJson(name, hex(payload));
    same(fromJson(name, json), canonical(name, hex(payload)));
    return json;
  },
  read(name, text) {
    try {
      return digitsOf(fromJson(name, hex(text)));
    } catch (error) {
      if (!(error instanceof JsonError)) {
        throw error;
      }
      const reason = error.reason.replace(/[A-Z]/g, (letter) => `_${letter.toLowerCase()}`);
      return `${reason} ${error.offset ?? error.path}`.trimEnd();
    }
  },
  merge(name, first, ...others) {
    return digitsOf(others.reduce((merged, other) => merge(name, merged, hex(other)), canonical(name, hex(first))));
  },
  frame(type, version, payload) {
    return digitsOf(frame(Number(version), typeCode(type), hex(payload)));
  },
  compare(type, first, second) {
    const [code, one, other] = [typeCode(type), hex(first), hex(second)];
    const compared = [false, true].map((ignorePayloads) => headerEq(code, one, other, { ignorePayloads }));
    const text = new TextEncoder().encode(difference(code, one, other));
    return [...compared.map((isSame) => (isSame ? 'same' : 'other')), digitsOf(text) || '-'].join(' ');
  },
  stream(version, ...chunks) {
    const stream = new Stream(Number(version));
    const lines = chunks.flatMap((chunk) => {
      stream.feed(hex(chunk));
      return Array.from(stream, listed);
    });
    return [...lines, `rest ${stream.rest}`].join(', ');
  },
};

/** The names of a text of lines; undefined if a line is not a pair of them, as an object has. */
function renamesOf(word) {
  const lines = new TextDecoder().decode(hex(word)).split('\n');
  const pairs = lines.filter((line) => line !== '').map((line) => line.split('='));
  const isPair = (pair) => pair.length === 2 && !pair[0].includes('\ufffd');
  return pairs.every(isPair) ? Object.fromEntries(pairs) : undefined;
}

const numberings = new Map();

// The kinds of lines of numberings.cases.
const NUMBERINGS = {
  set(name, word, set) {
    const renames = renamesOf(word);
    if (renames === undefined) {
      return undefined;
    }
    try {
      numberings.set(name, new Numbering(hex(set), { renames }));
      return 'ok';
    } catch (error) {
      if (!(error instanceof NumberingError)) {
        throw error;
      }
      const reason = error.reason.replace(/[A-Z]/g, (letter) => `_${letter.toLowerCase()}`);
      return `${reason} ${digitsOf(new TextEncoder().encode(error.text))}`;
    }
  },
  read: (name, schema, payload) => digitsOf(numberings.get(name).readPayload(schema, hex(payload))),
  write: (name, schema, payload) => digitsOf(numberings.get(name).writePayload(schema, hex(payload))),
  stream(direction, name, version, stream) {
    return digitsOf(numberings.get(name)[`${direction}Stream`](Number(version), hex(stream)));
  },
};

/** The result of what a line has before ` = `, by the kinds of its file; undefined if a call cannot be given it. */
function resultOf(kinds, question) {
  const [kind, ...words] = question.split(' ');
  if (kinds[kind] === undefined) {
    return 'no such kind of line';
  }
  try {
    return kinds[kind](...words);
  } catch (error) {
    if (error instanceof Malformed) {
      return 'malformed';
    }
    return error instanceof Unknown ? 'unknown' : String(error);
  }
}

let passed = 0;
let failed = 0;
const said = [];

function outcome(name, isGood) {
  if (isGood) {
    passed += 1;
  } else {
    failed += 1;
    said.push(name.slice(0, 300));
  }
}

for (const [address, kinds] of [
  ['/vectors.txt', KINDS],
  ['/conformance/numberings.cases', NUMBERINGS],
]) {
  const text = await (await fetch(address)).text();
  const isCase = (line) => line !== '' && !line.startsWith('#') && !OTHERS.includes(line.split(' ', 1)[0]);
  for (const line of text.split('\n').filter(isCase)) {
    const end = line.indexOf(' = ');
    const found = resultOf(kinds, line.slice(0, end));
    if (found !== undefined) {
      outcome(`${line.slice(0, end)}: ${found}`, (found || '-') === line.slice(end + 3));
    }
  }
}

// The sources that the web has: a body of a response, a blob, and a transform of its stream.
const address = '/examples/streams/recorded';
const bytes = new Uint8Array(await (await fetch(address)).arrayBuffer());
const direct = new Stream();
direct.feed(bytes);
const lines = Array.from(direct, String).join();
const chunks = async (source) => {
  const found = [];
  for await (const item of source) {
    found.push(String(item));
  }
  return found.join();
};
outcome('the body of a response', (await chunks(items((await fetch(address)).body))) === lines && lines !== '');
outcome('the stream of a blob', (await chunks(items(new Blob([bytes]).stream()))) === lines);
outcome('a transform', (await chunks(new Blob([bytes]).stream().pipeThrough(decode()))) === lines);
outcome('two journals', compareJournals(8, bytes, bytes).kind === 'same');
const message = Message.of('SetStateCommand', { key: hex('61') });
const shown = JSON.parse(JSON.stringify(message)).payload;
outcome('a message', shown === btoa(String.fromCharCode(...message.payload)) && shown !== '');
const { payload } = message;
structuredClone(payload, { transfer: [payload.buffer] });
const again = Message.of('SetStateCommand', { key: hex('61') });
outcome('a block that was transferred', payload.length === 0 && digitsOf(again.bytes) === '04030000000000030a0161');
outcome('the version', /^\d+\.\d+\.\d+$/.test(libraryVersion()));
for (const wrong of ['text', 5n, Symbol('5'), null, undefined, {}, [1], () => 1, 'x'.repeat(100)]) {
  for (const call of [() => canonical(wrong, bytes), () => canonical(0, wrong), () => typeCode(wrong)]) {
    let error;
    try {
      call();
    } catch (thrown) {
      error = thrown;
    }
    outcome(`a wrong argument: ${error}`, error instanceof JournalError || error instanceof TypeError);
  }
}
outcome('nothing of Node is there', globalThis.Buffer === undefined && globalThis.process === undefined);
window.result = { passed, failed, said: said.slice(0, 10) };
