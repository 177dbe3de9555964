// Checks the replay that comes on the standard input by a recording: node replay.mjs RECORDING [5..9]
//
//   tsc --strict --target es2022 --module node16 replay.mts
//
// It prints each command that is the same. Where the replay leaves the recording it prints how, where both are, which
// command the recording has next, the text that the SDKs report, and the fields that differ. The status is 0 if both
// are the same, 1 if they differ, and 2 if either cannot be read: a file, a message of more than a mebibyte, a stream
// that ends within an item, a command that is malformed. A recording that ends within an item is read up to that: the
// status is 1 if the replay differs from its whole items, and otherwise 2.

// @ts-ignore: its types are in the package @types/node
import { readFile } from 'node:fs/promises';

import { Replay, items, typeName } from 'pendratsoa';
import type { Mismatch } from 'pendratsoa';

// What is used here of Node's own types, which that package has too.
declare const process: {
  readonly argv: readonly string[];
  readonly stdin: AsyncIterable<Uint8Array>;
  exitCode?: number;
};

const LIMIT = 1 << 20;

/** The lines of a mismatch. */
function lines(mismatch: Mismatch, replay: Replay): string[] {
  const { kind, index, recordedOffset = '-', replayedOffset, fields, text } = mismatch;
  const words = kind.replace(/[A-Z]/g, (letter) => `_${letter.toLowerCase()}`);
  const next = replay.expected();
  return [
    `${words}, command ${index}, recorded at offset ${recordedOffset}, replayed at offset ${replayedOffset}`,
    ...(next === undefined ? [] : [`next ${next.type} at offset ${next.offset}`]),
    ...(text === '' ? [] : [text]),
    ...fields.map(({ name, recorded, replayed }) => `field ${name}: recorded ${recorded}, replayed ${replayed}`),
  ];
}

/** Throws an error if the recording ends within an item. */
function rejectCut(replay: Replay): void {
  const rest = replay.recordedRest;
  if (rest > 0) {
    throw new Error(`the recording ends within an item, after ${rest} ${rest === 1 ? 'byte' : 'bytes'} of it`);
  }
}

/** Prints each command that is the same, and returns the first mismatch. */
async function firstMismatch(replay: Replay): Promise<Mismatch | undefined> {
  for await (const item of items(process.stdin, replay.version, { maxMessageSize: LIMIT })) {
    const { index } = replay;
    const mismatch = replay.check(item);
    if (mismatch !== undefined) {
      return mismatch;
    }
    if (replay.index > index) {
      console.log(`same ${typeName(item.code)} at offset ${item.offset}`);
    }
  }
  return replay.finish();
}

/** Checks a replay, and returns the status. */
async function main([name, version = '8', ...others]: readonly string[]): Promise<number> {
  if (name === undefined || !/^[5-9]$/.test(version) || others.length > 0) {
    console.error('usage: replay.mjs RECORDING [5..9]');
    return 2;
  }
  try {
    const replay = new Replay(Number(version), await readFile(name));
    const mismatch = await firstMismatch(replay);
    if (mismatch === undefined) {
      rejectCut(replay);
      console.log(`same, ${replay.index} commands`);
      return 0;
    }
    console.log(lines(mismatch, replay).join('\n'));
    return mismatch.kind === 'badRecorded' || mismatch.kind === 'badReplayed' ? 2 : 1;
  } catch (error) {
    console.error(`replay.mjs: ${error instanceof Error ? error.message : error}`);
    return 2;
  }
}

process.exitCode = await main(process.argv.slice(2));
