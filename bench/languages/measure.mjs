// Measures the package for Node beside JSON and a reader by hand: node measure.mjs, with the package in node_modules.
//
// JSON.parse reads the JSON of the same message, with its bytes in base64, which are decoded and encoded too. All else
// is compared with protobuf by hand and a framing (peer.mjs). A line is the record, the work, microseconds here and
// there, and how many times as fast this package is.

import { readFileSync } from 'node:fs';

import { Message, Replay, Stream, fromJson, readRecord, toJson, writeRecord } from 'pendratsoa';

import { TABLES, copyOf, decode, dumped, encode, frameOf, messagesOf, undumped } from './peer.mjs';

const bytesOf = (text) => Buffer.from(text, 'base64');
const textOf = (bytes) => Buffer.from(bytes).toString('base64');

// What is read of a record, of one by hand, of its JSON, and its JSON written.
const READS = {
  SetStateCommandMessage: [
    (one) => one.key.length + one.value.content.length,
    (one) => one.key.length + one.value.content.length,
    (one) => bytesOf(one.key).length + bytesOf(one.value.content).length,
    (one) => JSON.stringify({ key: textOf(one.key), value: { content: textOf(one.value.content) } }),
  ],
  CallCommandMessage: [
    (one) => one.serviceName.length + one.parameter.length,
    (one) => one.serviceName.length + one.parameter.length,
    (one) => one.serviceName.length + bytesOf(one.parameter).length,
    (one) => JSON.stringify({ ...one, parameter: textOf(one.parameter) }),
  ],
  CallCompletionNotificationMessage: [
    (one) => one.completionId + one.result.value.content.length,
    (one) => one.completionId + one.value.content.length,
    (one) => one.completionId + bytesOf(one.value.content).length,
    (one) => JSON.stringify({ completionId: one.completionId, value: { content: textOf(one.result.value.content) } }),
  ],
};
const COUNT = 20000;
// What is read is used, so that none of it is left out.
let sum = 0;
let last = {};

// How many frames a stream has, and how many bytes come at a time.
const FRAMES = 1000;
const CHUNK = 2 ** 16;

/** Gives each message of a stream that comes in chunks to a function. */
function each(chunks, take) {
  const stream = new Stream(8);
  for (const chunk of chunks) {
    stream.feed(chunk);
    for (const message of stream) {
      take(message);
    }
  }
}

/** How many bytes the payloads of a stream have that comes in chunks, or what is read of its records. */
function drained(chunks, read) {
  let count = 0;
  each(chunks, (message) => {
    count += read === undefined ? message.payload.length : read(message.message);
  });
  return count;
}

/** The same by hand. An item of the package has bytes of its own; what is only read needs none. */
function peerDrained(chunks, read) {
  let count = 0;
  for (const { payload } of messagesOf(chunks)) {
    count += read === undefined ? copyOf(payload).length : read(payload);
  }
  return count;
}

/** Checks a replay that is the same as its recording. */
function replayed(chunks, recorded) {
  const replay = new Replay(8, recorded);
  each(chunks, (message) => {
    if (replay.check(message) !== undefined) {
      throw new Error('not the same');
    }
  });
  return replay.finish() === undefined ? 1 : 0;
}

/** The same by hand: bytes first, and one of two equal payloads is decoded. */
function peerReplayed(chunks, recorded, table) {
  const others = messagesOf([recorded]);
  for (const { code, payload } of messagesOf(chunks)) {
    const { value: other } = others.next();
    last = decode(table, payload);
    if (code !== other.code || !payload.equals(other.payload)) {
      throw new Error('not the same');
    }
  }
  return others.next().done ? 1 : 0;
}

/** Microseconds of processor time of the least round, since the machine may be busy. */
function round(work, count, per) {
  const start = process.cpuUsage();
  for (let i = 0; i < count; i += 1) {
    sum += work();
  }
  const { user, system } = process.cpuUsage(start);
  return (user + system) / count / per;
}

/** Prints the line of a work: of the fastest round here and there, which take turns. */
function show(name, work, here, there, per = 1) {
  const count = COUNT / per;
  let [first, second] = [Infinity, Infinity];
  for (let i = 0; i < 9; i += 1) {
    first = Math.min(first, round(here, count, per));
    second = Math.min(second, round(there, count, per));
  }
  console.log(`node ${name} ${work} ${first.toFixed(2)} ${second.toFixed(2)} ${(second / first).toFixed(2)}`);
}

for (const line of readFileSync(new URL('messages.txt', import.meta.url), 'utf8').split('\n')) {
  if (line === '' || line.startsWith('#')) {
    continue;
  }
  const [name, digits] = line.split(' ');
  const payload = new Uint8Array(Buffer.from(digits, 'hex'));
  const json = toJson(name, payload);
  const record = readRecord(name, payload);
  const table = TABLES[name];
  const peer = decode(table, Buffer.from(payload));
  const [read, readPeer, readJson, written] = READS[name];
  const message = Message.of(name.replace(/Message$/, ''), record);
  const frame = message.bytes;
  const peerOfJson = () => undumped(table, JSON.parse(json));
  const made = [encode(table, peer), frameOf(message.code, table, peer), encode(table, peerOfJson())];
  const wanted = [payload, frame, payload].map((bytes) => Buffer.from(bytes));
  if (read(record) !== readJson(JSON.parse(json)) || readPeer(peer) !== read(record)
    || JSON.stringify(dumped(table, peer)) !== json || !made.every((bytes, index) => bytes.equals(wanted[index]))) {
    throw new Error(name);
  }
  const bytes = Buffer.from(payload);
  show(name, 'decode', () => read(readRecord(name, payload)), () => readJson(JSON.parse(json)));
  show(name, 'decode-by-hand', () => read(readRecord(name, payload)), () => readPeer(decode(table, bytes)));
  show(name, 'encode', () => writeRecord(name, record).length, () => written(record).length);
  show(name, 'encode-by-hand', () => writeRecord(name, record).length, () => encode(table, peer).length);
  const whole = Buffer.concat(new Array(FRAMES).fill(frame));
  const chunks = [];
  for (let at = 0; at < whole.length; at += CHUNK) {
    chunks.push(new Uint8Array(whole.subarray(at, at + CHUNK)));
  }
  const peerRead = (one) => readPeer(decode(table, one));
  if (drained(chunks) !== peerDrained(chunks) || drained(chunks, read) !== peerDrained(chunks, peerRead)) {
    throw new Error(name);
  }
  show(name, 'items', () => drained(chunks), () => peerDrained(chunks), FRAMES);
  show(name, 'items-read', () => drained(chunks, read), () => peerDrained(chunks, peerRead), FRAMES);
  // a replay of notifications has nothing to compare
  if (name.includes('Command')) {
    const recorded = new Uint8Array(whole);
    show(name, 'replay', () => replayed(chunks, recorded), () => peerReplayed(chunks, recorded, table), FRAMES);
  }
  const { type } = message;
  show(name, 'frame', () => Message.of(type, record).bytes.length, () => frameOf(message.code, table, peer).length);
  const peerJson = () => JSON.stringify(dumped(table, decode(table, bytes)));
  show(name, 'to-json', () => toJson(name, payload).length, () => peerJson().length);
  show(name, 'from-json', () => fromJson(name, json).length, () => encode(table, peerOfJson()).length);
}
process.exitCode = Number.isFinite(sum) && last ? 0 : 1;
