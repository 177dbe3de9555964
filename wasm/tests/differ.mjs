// The calls by the module and by the addon, on payloads of the test vectors that are changed at random:
// differ.mjs NODE ADDON ROUNDS, where NODE is the folder of the package with the module
//
// Each call has to return and to write the same. The last line is 'N passed, M failed', of calls.

import { readFileSync, readdirSync } from 'node:fs';
import { createRequire } from 'node:module';
import path from 'node:path';
import { fileURLToPath, pathToFileURL } from 'node:url';

const [folder, addonFile, rounds] = process.argv.slice(2);
const { callsOf } = await import(pathToFileURL(path.resolve(folder, 'lib/module.js')).href);
const sides = [
  createRequire(import.meta.url)(path.resolve(addonFile)),
  callsOf(new WebAssembly.Module(readFileSync(path.resolve(folder, 'build/pendratsoa.wasm')))),
];
const [addon] = sides;

let seed = 11;
function random(count) {
  seed = (Math.imul(seed, 1664525) + 1013904223) >>> 0;
  return Math.floor((seed / 2 ** 32) * count);
}

function any(list) {
  return list[random(list.length)];
}

const vectors = fileURLToPath(new URL('../../conformance', import.meta.url));
const lines = [vectors, path.join(vectors, 'json')].flatMap((place) =>
  readdirSync(place)
    .filter((name) => name.endsWith('.txt'))
    .flatMap((name) => readFileSync(path.join(place, name), 'utf8').split('\n')),
);
const hex = (digits) => new Uint8Array(Buffer.from(digits, 'hex'));
const payloads = lines
  .flatMap((line) => (line.startsWith('#') ? [] : line.split(/[ ,=]+/)))
  .filter((word) => /^([0-9a-f]{2})+$/.test(word) && word.length < 6000)
  .map(hex);
const texts = lines.filter((line) => line.startsWith('read ')).map((line) => hex(line.split(' ')[2]));
const codes = Array.from({ length: 65536 }, (_, code) => code).filter((code) => addon.schema(8, code) >= 0);
codes.push(0xfc01, 7, 0xffff);

/** Bytes with up to three changes. */
function changed(bytes) {
  const found = Array.from(bytes);
  for (let count = random(4); count > 0; count -= 1) {
    const at = random(found.length + 1);
    switch (random(5)) {
      case 0:
        found.splice(at, 1);
        break;
      case 1:
        found.splice(at, 0, random(256));
        break;
      case 2:
        found[Math.min(at, found.length - 1)] ^= 1 << random(8);
        break;
      case 3:
        found.splice(at, 0, ...any(payloads).subarray(0, 40));
        break;
      default:
        found.length = at;
    }
  }
  return Uint8Array.from(found);
}

let passed = 0;
let failed = 0;
const kinds = new Set();

/** A call by both, with room for numbers and for bytes, where they take it. */
function same(name, given, numbersRoom, room) {
  const found = sides.map((side) => {
    const numbers = numbersRoom === undefined ? [] : [new BigUint64Array(numbersRoom).fill(77n)];
    const out = room === undefined ? [] : [new Uint8Array(room).fill(9)];
    let returned;
    try {
      returned = side[name](...given, ...numbers, ...out);
    } catch (error) {
      returned = String(error);
    }
    return [returned, String(numbers), out.map((bytes) => Buffer.from(bytes).toString('hex'))];
  });
  kinds.add(`${name} ${Math.min(found[0][0], 1)}`);
  if (String(found[0]) === String(found[1])) {
    passed += 1;
  } else {
    failed += 1;
    const shown = given.map((value) => (value instanceof Uint8Array ? Buffer.from(value).toString('hex') : value));
    const returned = found.map((each) => String(each).slice(0, 200));
    console.log(`failed: ${name} ${shown.join(' ').slice(0, 400)}\n  ${returned.join('\n  ')}`);
  }
}

/** A table of the fields of a payload, of which a number may be changed. */
function sameOfFields(schema, payload) {
  const canonical = new Uint8Array(8000);
  const length = addon.canonical(schema, payload, canonical);
  const table = new BigUint64Array(6 * 2000);
  const count = length < 0 || length > 8000 ? 0 : addon.fields(schema, canonical.subarray(0, length), table);
  if (count > 0 && count <= 2000) {
    const fields = table.slice(0, 6 * count);
    if (random(2) === 0) {
      fields[random(fields.length)] = BigInt(random(300));
    }
    same('payloadOfFields', [schema, fields, canonical.slice(0, length)], 2, 3000);
  }
}

for (let round = 0; round < Number(rounds) && failed < 10; round += 1) {
  const [first, second] = [changed(any(payloads)), changed(any(payloads))];
  const [schema, version, code] = [random(54), 4 + random(7), any(codes)];
  const room = random(4) === 0 ? random(30) : 3000;
  same('next', [version, first], 6);
  same('nextWithin', [version, random(200), first], random(8));
  same('items', [version, random(2) === 0 ? random(200) : 0xffffffff, first], random(40));
  same('isWellFormed', [schema, first]);
  same('canonical', [schema, first], undefined, room);
  same('merge', [schema, first, second], undefined, room);
  same('json', [schema, first], undefined, room);
  same('fields', [schema, first], 6 * random(60));
  same('frame', [version, code, first], undefined, room);
  same('notification', [code, first], random(3) === 0 ? random(6) : 4, room);
  same('headerEq', [code, first, second, random(2) === 0]);
  same('difference', [code, first, second], undefined, room);
  same('verdict', [version, first, second, random(2) === 0], 2, room);
  same('payloadOfJson', [schema, changed(any(texts))], 2, room);
  same('schema', [version, code]);
  same('typeName', [code], undefined, random(40));
  same('typeCode', [first]);
  same('header', [version, code, random(2 ** 31)], undefined, random(12));
  sameOfFields(schema, first);
}
if (kinds.size < 40) {
  failed += 1;
  console.log(`failed: only ${kinds.size} kinds of results`);
}
console.log(`${passed} passed, ${failed} failed`);
process.exitCode = failed > 0 ? 1 : 0;
