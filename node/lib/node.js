// The calls in Node, and in what is like it: those of the addon where it is there, otherwise those of the WebAssembly
// module. The environment variable PENDRATSOA_CALLS, as 'addon' or 'module', names the one that is to be taken; another
// value is an error.

import { readFileSync } from 'node:fs';
import { createRequire } from 'node:module';
import { inspect } from 'node:util';
import * as workers from 'node:worker_threads';

import { useCalls } from './addon.js';
import { files } from './files.js';
import { callsOf } from './module.js';
import { blocks } from './pool.js';
import { texts } from './text.js';

// As build.sh makes it, and as a release has it for several machines.
const ADDONS = ['../build/pendratsoa.node', `../build/${process.platform}-${process.arch}/pendratsoa.node`];
const MODULE = new URL('../build/pendratsoa.wasm', import.meta.url);

/** The addon, or why there is none. */
function loadAddon(causes) {
  const require = createRequire(import.meta.url);
  for (const path of ADDONS) {
    try {
      return require(path);
    } catch (error) {
      // not there, or for another machine
      if (error.code !== 'MODULE_NOT_FOUND' && error.code !== 'ERR_DLOPEN_FAILED') {
        throw error;
      }
      causes.push(error);
    }
  }
  return undefined;
}

function loadModule(causes) {
  let module;
  try {
    module = new WebAssembly.Module(readFileSync(MODULE));
  } catch (error) {
    causes.push(error);
    return undefined;
  }
  return callsOf(module);
}

function load() {
  const wanted = process.env.PENDRATSOA_CALLS;
  if (!['addon', 'module', '', undefined].includes(wanted)) {
    throw new Error(`PENDRATSOA_CALLS is ${texts.shown(wanted)}, and has to be 'addon' or 'module'`);
  }
  const causes = [];
  const calls = (wanted !== 'module' && loadAddon(causes)) || (wanted !== 'addon' && loadModule(causes));
  if (calls) {
    return calls;
  }
  const what = { addon: 'the addon is not', module: 'the WebAssembly module is not' }[wanted];
  const said = `${what ?? 'neither the addon nor the WebAssembly module is'} built, or one is damaged`;
  const cause = causes.find((error) => error.code !== 'MODULE_NOT_FOUND' && error.code !== 'ENOENT') ?? causes[0];
  throw new Error(`${said}; 'sh build.sh' in the folder of the package builds the addon`, { cause });
}

const { latin1Slice, utf8Slice, utf8Write } = Buffer.prototype;

Object.assign(texts, {
  utf8: (bytes, begin, end) => utf8Slice.call(bytes, begin, end),
  latin1: (bytes) => latin1Slice.call(bytes, 0, bytes.length),
  base64: (bytes) => Buffer.from(bytes.buffer, bytes.byteOffset, bytes.byteLength).toString('base64'),
  writeUtf8: (bytes, text, at) => utf8Write.call(bytes, text, at),
  unwritten: (size) => Buffer.allocUnsafeSlow(size),
  shown: (value) => inspect(value, { breakLength: Infinity, customInspect: false, depth: 0, maxStringLength: 64 }),
});

files.read = readFileSync;

/** A block that is copied to a worker, not moved there with the parts of others, as Node's own pool. */
function untransferable(size) {
  const block = new ArrayBuffer(size);
  workers.markAsUntransferable(block);
  return block;
}

/** Whether there are such blocks here. */
function canMark() {
  try {
    return untransferable(0) !== undefined;
  } catch {
    return false;
  }
}

if (canMark()) {
  blocks.make = untransferable;
}

useCalls(load());
