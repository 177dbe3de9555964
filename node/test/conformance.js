// The test vectors of ../../conformance by the calls of the package: node conformance.js
//
// Lines of the kinds `record` and `fields` have no call; one of a kind that is not known fails. Besides, a stream is
// the same byte by byte, a canonical payload is its own result and has the same JSON, which is read as this payload, a
// frame is a header and the canonical payload, and a command is the same as itself. TEST_VECTORS is how many there are
// at least, by default 13,000. The last line is 'N passed, M failed'.

import assert from 'node:assert/strict';
import { readdirSync } from 'node:fs';
import { pathToFileURL } from 'node:url';

import {
  JsonError,
  Malformed,
  Stream,
  canonical,
  difference,
  frame,
  fromJson,
  header,
  headerEq,
  isWellFormed,
  merge,
  readRecord,
  schema,
  toJson,
  typeCode,
  writeRecord,
} from 'pendratsoa';

import { chunksOf, digits, hex, listed, textOf } from './support.js';

// By its kind, what a line has as its result, and how many of its words are not bytes.
const KINDS = {
  payload: [1, payloadResult],
  merge: [1, mergeResult],
  frame: [2, frameResult],
  stream: [1, streamResult],
  compare: [1, compareResult],
  json: [1, jsonResult],
  read: [1, readResult],
};

// The kinds of lines that no call of the package is for.
const OTHERS = ['record', 'fields'];

function payloadResult(name, payload) {
  const result = canonical(name, payload);
  assert.equal(isWellFormed(name, payload), true);
  assert.deepEqual(canonical(name, result), result);
  assert.deepEqual(writeRecord(name, readRecord(name, payload)), result);
  assert.equal(jsonResult(name, payload), toJson(name, result));
  return digits(result);
}

function jsonResult(name, payload) {
  const json = toJson(name, payload);
  assert.deepEqual(fromJson(name, json), canonical(name, payload));
  assert.deepEqual(fromJson(name, Buffer.from(json)), canonical(name, payload));
  return json;
}

/** The payload that a JSON text is read as, or why it is not, and where. */
function readResult(name, text) {
  try {
    return digits(fromJson(name, text));
  } catch (error) {
    if (!(error instanceof JsonError)) {
      throw error;
    }
    const reason = error.reason.replace(/[A-Z]/g, (letter) => `_${letter.toLowerCase()}`);
    return `${reason} ${error.offset ?? error.path}`.trimEnd();
  }
}

function mergeResult(name, first, ...others) {
  return digits(others.reduce((merged, payload) => merge(name, merged, payload), canonical(name, first)));
}

function frameResult(type, versionWord, payload) {
  const version = Number(versionWord);
  const code = typeCode(type);
  const result = frame(version, code, payload);
  assert.deepEqual(result.subarray(0, 8), header(version, code, result.length - 8));
  assert.deepEqual(canonical(schema(version, code), result.subarray(8)), result.subarray(8));
  return digits(result);
}

function streamResult(versionWord, ...chunks) {
  const listing = listingOf(Number(versionWord), chunks);
  assert.equal(listingOf(Number(versionWord), chunks.flatMap((chunk) => chunksOf(chunk, 1))), listing);
  return listing;
}

function listingOf(version, chunks) {
  const stream = new Stream(version);
  const lines = chunks.flatMap((chunk) => {
    stream.feed(chunk);
    return listed(stream);
  });
  return [...lines, `rest ${stream.rest}`].join(', ');
}

function compareResult(type, first, second) {
  const code = typeCode(type);
  for (const command of [first, second]) {
    assert.equal(headerEq(code, command, command), true);
    assert.equal(difference(code, command, command), '');
  }
  const compared = [false, true].map((ignorePayloads) => headerEq(code, first, second, { ignorePayloads }));
  const words = compared.map((isSame) => (isSame ? 'same' : 'other'));
  return [...words, digits(Buffer.from(difference(code, first, second))) || '-'].join(' ');
}

/** The result of the library for what a line has before ` = `. */
function resultOf(question) {
  const [kind, ...words] = question.split(' ');
  if (!Object.hasOwn(KINDS, kind)) {
    throw new Error('no such kind of line');
  }
  const [named, result] = KINDS[kind];
  const slices = words.slice(named).map((word) => (word === '-' ? new Uint8Array(0) : hex(word)));
  try {
    return result(...words.slice(0, named), ...slices) || '-';
  } catch (error) {
    if (error instanceof Malformed) {
      return 'malformed';
    }
    throw error;
  }
}

/** The test vectors of a folder that a call is for, each its question and the expected result. */
export function vectorsOf(folder) {
  return readdirSync(new URL(`../../${folder}`, import.meta.url))
    .filter((name) => name.endsWith('.txt'))
    .sort()
    .flatMap((name) => textOf(`${folder}/${name}`).split('\n'))
    .filter((line) => line !== '' && !line.startsWith('#') && !OTHERS.includes(line.split(' ', 1)[0]))
    .map((line) => {
      const end = line.indexOf(' = ');
      return [line.slice(0, end), line.slice(end + 3)];
    });
}

/** Checks test vectors, shows those that failed, and returns how many passed and failed. */
export function check(vectors) {
  let passed = 0;
  let failed = 0;
  for (const [question, expected] of vectors) {
    let found;
    try {
      found = resultOf(question);
    } catch (error) {
      found = String(error);
    }
    if (found === expected) {
      passed += 1;
    } else {
      failed += 1;
      console.log(`failed: ${question.slice(0, 200)} = ${expected.slice(0, 200)}\n  returned: ${found.slice(0, 200)}`);
    }
  }
  return { passed, failed };
}

if (import.meta.url === pathToFileURL(process.argv[1]).href) {
  const vectors = [...vectorsOf('conformance'), ...vectorsOf('conformance/json')];
  const least = Number(process.env.TEST_VECTORS ?? 13_000);
  const { passed, failed } = check(vectors);
  // also if that is not a number
  const lacking = vectors.length >= least ? 0 : 1;
  if (lacking) {
    console.log(`failed: there are ${vectors.length} test vectors, and not ${least}`);
  }
  console.log(`${passed} passed, ${failed + lacking} failed`);
  process.exitCode = failed + lacking > 0 ? 1 : 0;
}
