// Random calls of the heap: heap.mjs MODULE.wasm, a module of heap.c and heap_calls.c
//
// Each block keeps what was written to it and overlaps no other. Where there is no memory nothing is changed. The last
// line is 'N passed, M failed'.

import assert from 'node:assert/strict';
import { readFileSync } from 'node:fs';

const module = new WebAssembly.Module(readFileSync(process.argv[2]));
let heap;
let passed = 0;
let failed = 0;

let seed = 7;
function random(count) {
  seed = (Math.imul(seed, 1664525) + 1013904223) >>> 0;
  return Math.floor((seed / 2 ** 32) * count);
}

function randomSize() {
  return random([200_000, 5000, 100][random(20) === 0 ? 0 : 1 + random(2)]);
}

function bytesOf({ at, size }) {
  return new Uint8Array(heap.memory.buffer, at, size);
}

/** Fills a block with its mark. */
function marked(block) {
  assert.ok(block.at > 0 && block.at % 16 === 0);
  bytesOf(block).fill(block.mark);
  return block;
}

function check(block, size = block.size) {
  assert.ok(Buffer.alloc(size, block.mark).equals(bytesOf({ at: block.at, size })), `a block of ${block.size}`);
}

function give(block) {
  check(block);
  heap.give(BigInt(block.at));
}

/** A call on one of the blocks, or one more block. */
function step(blocks) {
  const which = random(10);
  if (which < 4 || blocks.length === 0) {
    const size = randomSize();
    blocks.push(marked({ size, mark: random(256), at: Number(heap.take(BigInt(size))) }));
    return;
  }
  const index = random(blocks.length);
  const block = blocks[index];
  if (which < 6) {
    const size = randomSize();
    const kept = Math.min(block.size, size, random(block.size + 1));
    block.at = Number(heap.change(BigInt(block.at), BigInt(kept), BigInt(size)));
    check(block, kept);
    block.size = size;
    marked(block);
  } else {
    give(block);
    blocks[index] = blocks.at(-1);
    blocks.pop();
  }
}

function test(name, run) {
  heap = new WebAssembly.Instance(module).exports;
  try {
    run();
    passed += 1;
  } catch (error) {
    failed += 1;
    console.log(`failed: ${name}: ${error.stack}`);
  }
}

test('random calls, and a new room each time', () => {
  for (let round = 0; round < 20; round += 1) {
    const room = Number(heap.pendratsoa_room(BigInt(random(100_000))));
    assert.ok(room > 0 && room % 16 === 0);
    let blocks = [];
    for (let calls = 0; calls < 10_000; calls += 1) {
      step(blocks);
      if (blocks.length > 300) {
        blocks.forEach(give);
        blocks = [];
      }
    }
    assert.equal(heap.pendratsoa_blocks(), BigInt(blocks.length));
    blocks.forEach(give);
  }
  assert.ok(heap.memory.buffer.byteLength < 2 ** 26, 'what is given back is used again');
});

test('room while blocks are taken leaves them as they are', () => {
  const rooms = [];
  const blocks = [];
  for (let round = 0; round < 20; round += 1) {
    const size = 1000 * (1 + random(30));
    const room = { size, at: Number(heap.pendratsoa_room(BigInt(size))), mark: 255 };
    marked(room);
    for (let calls = 0; calls < 10; calls += 1) {
      step(blocks);
    }
    check(room);
    blocks.forEach((block) => check(block));
    assert.equal(heap.pendratsoa_blocks(), BigInt(blocks.length));
    rooms.push(room.at);
  }
  blocks.forEach(give);
  assert.equal(heap.pendratsoa_blocks(), 0n);
  assert.equal(Number(heap.pendratsoa_room(1n)), rooms[0]);
});

test('more than there is', () => {
  heap.pendratsoa_room(1n);
  for (const size of [2n ** 64n - 1n, 2n ** 63n, 2n ** 48n, 2n ** 33n, 2n ** 32n, 0xffff0000n, 0x7fff0000n]) {
    assert.equal(heap.take(size), 0n);
    const block = marked({ size: 10, mark: 9, at: Number(heap.take(10n)) });
    assert.equal(heap.change(BigInt(block.at), 10n, size), 0n);
    give(block);
    assert.equal(heap.pendratsoa_room(size), 0n);
    assert.notEqual(heap.pendratsoa_room(1n), 0n);
  }
});

test('a limit that the host sets', () => {
  const room = Number(heap.pendratsoa_room(16n));
  // the header of a block has 16 bytes
  heap.pendratsoa_limit(BigInt(room + 16 + 32));
  assert.equal(heap.take(17n), 0n);
  const block = marked({ size: 16, mark: 3, at: Number(heap.take(16n)) });
  assert.equal(heap.take(1n), 0n);
  assert.equal(heap.change(BigInt(block.at), 16n, 17n), 0n);
  give(block);
  assert.equal(heap.pendratsoa_room(49n), 0n);
  assert.notEqual(heap.pendratsoa_room(48n), 0n);
  heap.pendratsoa_limit(2n ** 40n);
  assert.notEqual(heap.pendratsoa_room(2n ** 20n), 0n);
});

console.log(`${passed} passed, ${failed} failed`);
process.exitCode = failed > 0 ? 1 : 0;
