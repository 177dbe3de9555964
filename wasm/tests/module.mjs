// The module as its host has it: module.mjs NODE MODULE.wasm, where NODE is the folder of the package for Node
//
// What it imports and exports; memory that may not grow; a stack that ends; a module that is damaged. The last line is
// 'N passed, M failed'.

import assert from 'node:assert/strict';
import { spawnSync } from 'node:child_process';
import { cpSync, mkdtempSync, readFileSync, readdirSync, rmSync, writeFileSync } from 'node:fs';
import { tmpdir } from 'node:os';
import path from 'node:path';
import { fileURLToPath, pathToFileURL } from 'node:url';

const [folder, file] = process.argv.slice(2).map((word) => path.resolve(word));
const root = fileURLToPath(new URL('../..', import.meta.url));
const lib = (name) => import(pathToFileURL(path.join(folder, 'lib', name)).href);
const memory = await lib('module_memory.js');
const { callsOf } = await lib('module.js');
const module = new WebAssembly.Module(readFileSync(file));
const calls = callsOf(module);
const { instance } = memory;

let passed = 0;
let failed = 0;

function test(name, run) {
  try {
    run();
    passed += 1;
  } catch (error) {
    failed += 1;
    console.log(`failed: ${name}: ${error.stack}`);
  }
}

/** A file of the repository, as a text. */
function textOf(name) {
  return readFileSync(path.join(root, name), 'utf8');
}

const described = JSON.parse(textOf('proto/calls.json'));
const listed = described.sections.flatMap(({ has }) => has).filter((entry) => 'call' in entry);

test('it imports nothing, and exports the calls, the heap and its memory', () => {
  assert.deepEqual(WebAssembly.Module.imports(module), []);
  const headers = ['pendratsoa.h', 'pendratsoa_messages.h'].map((name) => textOf(`include/${name}`));
  const declared = headers.flatMap((text) => [...text.matchAll(/^int64_t (journal_\w+)\(/gm)].map(([, name]) => name));
  const expected = [
    '__heap_base',
    'memory',
    ...['blocks', 'limit', 'room'].map((name) => `pendratsoa_${name}`),
    ...declared,
    ...listed.map(({ call }) => `js_${call}`),
  ];
  assert.ok(declared.length >= listed.length + 50);
  assert.deepEqual(WebAssembly.Module.exports(module).map(({ name }) => name).sort(), expected.sort());
});

/** The lines of the test vectors. */
const lines = ['conformance', 'conformance/json']
  .flatMap((name) => readdirSync(path.join(root, name)).map((each) => `${name}/${each}`))
  .filter((name) => name.endsWith('.txt'))
  .flatMap((name) => textOf(name).split('\n'))
  .filter((line) => line !== '' && !line.startsWith('#'));

/** Test vectors of a kind, at even distances. */
function vectors(kind, count) {
  const found = lines.filter((line) => line.startsWith(`${kind} `) && line.length < 4000);
  return Array.from({ length: count }, (_, index) => found[Math.floor((index * found.length) / count)]).map((line) =>
    line.slice(0, line.indexOf(' = ')).split(' ').slice(1),
  );
}

const hex = (digits) => new Uint8Array(Buffer.from(digits === '-' ? '' : digits, 'hex'));
const text = (value) => new Uint8Array(Buffer.from(value));
const { SCHEMA_NAMES } = await lib('protocol.js');
const schemaOf = (name) => SCHEMA_NAMES.indexOf(name);
const codeOf = (name) => calls.typeCode(text(name));

/** The payload that a value means, as JSON. */
function payloadOf(name, value) {
  const out = new Uint8Array(200_000);
  return out.slice(0, calls.payloadOfJson(schemaOf(name), text(JSON.stringify(value)), new BigUint64Array(2), out));
}

const long = payloadOf('Value', { content: Buffer.alloc(100_000, 'a').toString('base64') });
const signal = payloadOf('SignalNotificationMessage', { name: 'stop', value: { content: 'eA==' } });
const recorded = new Uint8Array(readFileSync(path.join(root, 'examples/streams/recorded')));
const replayed = new Uint8Array(readFileSync(path.join(root, 'examples/streams/replayed_other_payload')));

/** Calls that allocate: the name, what they are given, how many numbers and bytes there is room for. */
const allocating = [
  ...vectors('payload', 60).map(([name, payload]) => ['canonical', [schemaOf(name), hex(payload)], 0, 6000]),
  ...vectors('json', 60).map(([name, payload]) => ['json', [schemaOf(name), hex(payload)], 0, 6000]),
  ...vectors('read', 60).map(([name, json]) => ['payloadOfJson', [schemaOf(name), hex(json)], 2, 6000]),
  ...vectors('merge', 30).map(([name, one, other = '-']) => ['merge', [schemaOf(name), hex(one), hex(other)], 0, 6000]),
  ...vectors('frame', 30).map(([name, version, payload]) => {
    return ['frame', [Number(version), codeOf(name), hex(payload)], 0, 6000];
  }),
  ...vectors('compare', 30).flatMap(([name, one, other]) => [
    ['headerEq', [codeOf(name), hex(one), hex(other), false], 0, undefined],
    ['difference', [codeOf(name), hex(one), hex(other)], 0, 6000],
  ]),
  ['notification', [codeOf('SignalNotification'), signal], 4, 100],
  ['verdict', [8, recorded, replayed, false], 2, 6000],
  ['verdict', [8, recorded, recorded, false], 2, 6000],
  ['json', [schemaOf('Value'), long], 0, 200_000],
  ['canonical', [schemaOf('Value'), long], 0, 200_000],
  ['merge', [schemaOf('Value'), long, long], 0, 200_000],
];

/** What a call returns and writes. */
function outcome([name, given, numbersRoom, room]) {
  const numbers = new BigUint64Array(numbersRoom).fill(77n);
  const out = room === undefined ? undefined : new Uint8Array(room).fill(9);
  const returned = calls[name](...given, ...(numbersRoom > 0 ? [numbers] : []), ...(out === undefined ? [] : [out]));
  return { returned, numbers: String(numbers), out: out && Buffer.from(out).toString('base64') };
}

// The room is as large as these calls need, so that only the heap is limited.
const ROOM = 2 ** 20;
const MOST = 2 ** 40;
memory.reserve(ROOM);

let refusals = 0;
const kinds = new Set();

test('a call whose memory may not grow says so, changes nothing, and is right with more', () => {
  for (const call of allocating) {
    const expected = outcome(call);
    let isRefused = true;
    for (let most = 0; isRefused; most += most < 4096 ? 16 : Math.floor(most / 64) * 16) {
      // all blocks are dropped; the room stays where it is
      const base = Number(instance.pendratsoa_room(BigInt(ROOM)));
      instance.pendratsoa_limit(BigInt(base + ROOM + most));
      const found = outcome(call);
      instance.pendratsoa_limit(BigInt(MOST));
      isRefused = found.returned === -2;
      assert.equal(instance.pendratsoa_blocks(), 0n);
      if (isRefused) {
        refusals += 1;
        kinds.add(call[0]);
        assert.equal(found.numbers, String(new BigUint64Array(call[2]).fill(77n)));
        assert.equal(found.out, call[3] && Buffer.alloc(call[3], 9).toString('base64'));
      } else {
        assert.deepEqual(found, expected);
      }
    }
  }
});

test('each of these calls was refused', () => {
  assert.deepEqual([...kinds].sort(), [...new Set(allocating.map(([name]) => name))].sort());
  assert.ok(refusals > 1000, `${refusals} refusals`);
});

test('room that is larger than the memory may be', () => {
  const limited = callsOf(module, { memoryLimit: 2 ** 21 });
  assert.equal(limited.isWellFormed(1, new Uint8Array(2 ** 22)), -2);
  assert.equal(limited.isWellFormed(1, new Uint8Array(0)), 1);
  assert.equal(limited.canonical(1, new Uint8Array(0), new Uint8Array(2 ** 22)), -2);
  assert.equal(limited.canonical(1, new Uint8Array(0), new Uint8Array(8)), 0);
});

/** A copy of the package with the module alone, and what a program over it prints. */
function ran(program, { flags = [], damage = (bytes) => bytes, calls: wanted = 'module' } = {}) {
  const work = mkdtempSync(path.join(tmpdir(), 'wasm-'));
  try {
    for (const name of ['index.js', 'lib', 'node.js', 'package.json']) {
      cpSync(path.join(folder, name), path.join(work, name), { recursive: true });
    }
    cpSync(file, path.join(work, 'build/pendratsoa.wasm'));
    writeFileSync(path.join(work, 'build/pendratsoa.wasm'), damage(readFileSync(file)));
    writeFileSync(path.join(work, 'program.mjs'), program);
    const words = [...flags, path.join(work, 'program.mjs')];
    const ended = spawnSync(process.execPath, words, { encoding: 'utf8', env: { PENDRATSOA_CALLS: wanted } });
    return ended.stdout + ended.stderr;
  } finally {
    rmSync(work, { recursive: true });
  }
}

test('a stack that ends is an error, and the next call works', () => {
  const said = ran(
    `import { Trapped, JournalError, fromJson, toJson, libraryVersion, writeRecord } from 'pendratsoa';
    for (let i = 0; i < 3; i += 1) {
      try {
        fromJson('Value', '['.repeat(999));
      } catch (error) {
        console.log(error instanceof Trapped, error instanceof JournalError, error.code, error.call, error.message);
      }
      console.log(libraryVersion().length > 0, toJson('Value', writeRecord('Value', { content: Uint8Array.of(97) })));
    }`,
    { flags: ['--stack-size=200'] },
  );
  const printed = said.trim().split('\n');
  assert.equal(printed.length, 6, said);
  assert.match(printed[0], /^true true JOURNAL_TRAPPED payloadOfJson payloadOfJson: the WebAssembly module stopped: /);
  assert.deepEqual([printed[2], printed[4]], [printed[0], printed[0]]);
  assert.equal(printed[1], 'true {"content":"YQ=="}');
});

test('a module that is damaged', () => {
  for (const damage of [
    (bytes) => bytes.subarray(0, 300_000),
    (bytes) => bytes.fill(0, 0, 4),
    (bytes) => bytes.fill(0xff, 200_000, 200_064),
    () => new Uint8Array(0),
  ]) {
    const said = ran(`import 'pendratsoa';`, { damage });
    assert.match(said, /Error: the WebAssembly module is not built, or one is damaged/);
    assert.match(said, /CompileError/);
  }
});

test('a switch that names what is not there', () => {
  assert.match(ran(`import 'pendratsoa';`, { calls: 'addon' }), /Error: the addon is not built, or one is damaged/);
  assert.match(ran(`import { schema } from 'pendratsoa'; console.log(schema(8, 0))`, { calls: '' }), /^\d+\n$/);
});

console.log(`${passed} passed, ${failed} failed`);
process.exitCode = failed > 0 ? 1 : 0;
