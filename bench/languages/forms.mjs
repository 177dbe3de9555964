// Measures the package for Node over its WebAssembly module and over its addon: node forms.mjs ADDON MODULE, which are
// two folders of the package with these.
//
// A line is the record, the work, microseconds of processor time over the addon and over the module, and how many times
// as fast the module is. Both are in one process and take turns.

import { readFileSync } from 'node:fs';
import path from 'node:path';
import { pathToFileURL } from 'node:url';

const COUNT = 20000;
const ROUNDS = 9;
// How many frames a stream has, and how many bytes come at a time.
const FRAMES = 1000;
const CHUNK = 2 ** 16;
let sum = 0;

/** The package in a folder, over what it is told to take. */
async function packageOf(folder, calls) {
  process.env.PENDRATSOA_CALLS = calls;
  return import(pathToFileURL(path.resolve(folder, 'node.js')).href);
}

/** How many bytes the payloads of a stream have that comes in chunks. */
function drained({ Stream }, chunks) {
  const stream = new Stream(8);
  let count = 0;
  for (const chunk of chunks) {
    stream.feed(chunk);
    for (const { payload } of stream) {
      count += payload.length;
    }
  }
  return count;
}

function chunksOf(whole) {
  const count = Math.ceil(whole.length / CHUNK);
  return Array.from({ length: count }, (_, at) => new Uint8Array(whole.subarray(CHUNK * at, CHUNK * (at + 1))));
}

/** The works on a payload, by the calls of a package; `per` is how many times a work does what is measured. */
function worksOf(calls, name, payload) {
  const type = name.replace(/Message$/, '');
  const record = calls.readRecord(name, payload);
  const code = calls.typeCode(type);
  const json = calls.toJson(name, payload);
  const frame = calls.frame(8, code, payload);
  const whole = Buffer.concat(new Array(FRAMES).fill(frame));
  const chunks = chunksOf(whole);
  const isCommand = type.endsWith('Command');
  return {
    items: { per: FRAMES, work: () => drained(calls, chunks) },
    'record read': { per: 1, work: () => Object.keys(calls.readRecord(name, payload)).length },
    'record written': { per: 1, work: () => calls.writeRecord(name, record).length },
    frame: { per: 1, work: () => calls.frame(8, code, payload).length },
    'to JSON': { per: 1, work: () => calls.toJson(name, payload).length },
    'to JSON, parsed': { per: 1, work: () => Object.keys(JSON.parse(calls.toJson(name, payload))).length },
    'from JSON': { per: 1, work: () => calls.fromJson(name, json).length },
    canonical: { per: 1, work: () => calls.canonical(name, payload).length },
    'well-formed': { per: 1, work: () => Number(calls.isWellFormed(name, payload)) },
    ...(isCommand && { compared: { per: FRAMES, work: () => calls.compareJournals(8, whole, whole).index } }),
  };
}

/** Microseconds of processor time of a round. */
function round({ per, work }) {
  const count = Math.ceil(COUNT / per);
  const start = process.cpuUsage();
  for (let i = 0; i < count; i += 1) {
    sum += work();
  }
  const { user, system } = process.cpuUsage(start);
  return (user + system) / count / per;
}

const [addon, module] = process.argv.slice(2);
const sides = [await packageOf(addon, 'addon'), await packageOf(module, 'module')];
for (const line of readFileSync(new URL('messages.txt', import.meta.url), 'utf8').split('\n')) {
  if (line !== '' && !line.startsWith('#')) {
    const [name, digits] = line.split(' ');
    const payload = new Uint8Array(Buffer.from(digits, 'hex'));
    const [ours, theirs] = sides.map((calls) => worksOf(calls, name, payload));
    for (const work of Object.keys(ours)) {
      let [first, second] = [Infinity, Infinity];
      for (let i = 0; i < ROUNDS; i += 1) {
        first = Math.min(first, round(ours[work]));
        second = Math.min(second, round(theirs[work]));
      }
      console.log(`node-forms ${name} ${work} ${first.toFixed(2)} ${second.toFixed(2)} ${(first / second).toFixed(2)}`);
    }
  }
}
process.exitCode = Number.isFinite(sum) ? 0 : 1;
