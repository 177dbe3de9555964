// The package in several workers at once, and in workers that are ended in the middle of it.

import assert from 'node:assert/strict';
import { once } from 'node:events';
import test from 'node:test';
import { Worker, isMainThread, parentPort, workerData } from 'node:worker_threads';

import { Stream } from 'pendratsoa';

import { check, vectorsOf } from './conformance.js';
import { hex } from './support.js';

const INPUT = hex('0400000000000009 72070a05696e707574');

/** The test vectors, except the longest lines. */
function vectors() {
  return vectorsOf('conformance').filter(([question]) => question.length < 200);
}

function start(workerData) {
  return new Worker(new URL(import.meta.url), { workerData });
}

if (!isMainThread && workerData === 'vectors') {
  parentPort.postMessage(check(vectors()));
} else if (!isMainThread && workerData === 'transfer') {
  const stream = new Stream();
  parentPort.on('message', (chunk) => {
    stream.feed(chunk);
    for (const { payload } of stream) {
      const own = payload.slice();
      parentPort.postMessage(own, [own.buffer]);
    }
  });
} else if (!isMainThread) {
  const lines = vectors();
  parentPort.postMessage('calls');
  for (;;) {
    check(lines);
  }
} else {
  test('the test vectors in four threads at once', async () => {
    const workers = [start('vectors'), start('vectors'), start('vectors')];
    const results = workers.map((worker) => once(worker, 'message'));
    const expected = check(vectors());
    assert.equal(expected.failed, 0);
    assert.ok(expected.passed > 1000);
    for (const [result] of await Promise.all(results)) {
      assert.deepEqual(result, expected);
    }
    await Promise.all(workers.map((worker) => worker.terminate()));
  });

  test('workers that are ended while they call', async () => {
    // it is online before it has loaded the package, and sends a message when it begins to call
    for (const begun of ['online', 'message']) {
      for (let i = 0; i < 6; i += 1) {
        const worker = start('forever');
        await once(worker, begun);
        await new Promise((resolve) => {
          setTimeout(resolve, 40 * i);
        });
        assert.equal(await worker.terminate(), 1);
        assert.deepEqual(check(vectors().slice(0, 100)).failed, 0);
      }
    }
  });

  test('chunks, and payloads of their own memory, that are transferred between threads', async () => {
    const worker = start('transfer');
    for (let i = 0; i < 100; i += 1) {
      const chunk = INPUT.slice();
      worker.postMessage(chunk, [chunk.buffer]);
      assert.equal(chunk.length, 0);
      const [payload] = await once(worker, 'message');
      assert.deepEqual(payload, INPUT.slice(8));
    }
    await worker.terminate();
  });
}
