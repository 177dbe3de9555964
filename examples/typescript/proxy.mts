// Passes a journal on from the standard input to the standard output, with each state one greater:
// node proxy.mjs [5..9] < STREAM > STREAM
//
//   tsc --strict --target es2022 --module node16 proxy.mts
//
// All that it does not change it passes on byte for byte, also the beginning of a last item that is not whole. A
// command that it changes has only the fields of its type: unknown fields of its payload and ignored bits of its header
// are lost. The status is 0 after a whole stream, and 2 if the arguments are wrong. It is 1 if the stream ends within
// an item, a command that sets a state is malformed, a state is not a number, a payload has more than a mebibyte, or
// the output is closed.

import { Incomplete, Message, items } from 'pendratsoa';
import type { Item } from 'pendratsoa';

// What is used here of Node's own types, which the package @types/node has.
declare const process: {
  readonly argv: readonly string[];
  readonly stdin: AsyncIterable<Uint8Array>;
  readonly stdout: Output;
  exitCode?: number;
};

interface Output {
  write(bytes: Uint8Array, done: (error?: Error | null) => void): void;
  on(event: 'error', listener: () => void): void;
}

const LIMIT = 1 << 20;

/** What takes the place of an item. */
function passedOn(item: Item): Uint8Array {
  if (item.kind === 'message' && item.type === 'SetStateCommand') {
    // once the type is known, since each access to the message decodes it
    const { type, message, version } = item;
    if (message.value !== undefined) {
      return Message.of(type, { ...message, value: { content: oneMore(message.value.content) } }, version).frame();
    }
  }
  return item.bytes;
}

/** The number after that of a text, as a text. It may be greater than a `number` can be exactly. */
function oneMore(text: Uint8Array): Uint8Array {
  const state = new TextDecoder().decode(text);
  if (!/^[+-]?\d+$/.test(state)) {
    throw new RangeError(`the state ${JSON.stringify(state)} is not a number`);
  }
  return new TextEncoder().encode(String(BigInt(state) + 1n));
}

/** Writes bytes to the standard output, and waits until that has taken them. */
function write(bytes: Uint8Array): Promise<void> {
  return new Promise((resolve, reject) => {
    process.stdout.write(bytes, (error) => (error ? reject(error) : resolve()));
  });
}

/** Passes the journal of a version on. */
async function proxy(version: number): Promise<void> {
  try {
    for await (const item of items(process.stdin, version, { maxMessageSize: LIMIT })) {
      await write(passedOn(item));
    }
  } catch (error) {
    if (error instanceof Incomplete) {
      await write(error.trailing);
    }
    throw error;
  }
}

/** Passes a journal on, and returns the status. */
async function main([version = '8', ...others]: readonly string[]): Promise<number> {
  if (!/^[5-9]$/.test(version) || others.length > 0) {
    console.error('usage: proxy.mjs [5..9]');
    return 2;
  }
  // the write that fails has the error too
  process.stdout.on('error', () => {});
  try {
    await proxy(Number(version));
    return 0;
  } catch (error) {
    console.error(`proxy.mjs: ${error instanceof Error ? error.message : error}`);
    return 1;
  }
}

process.exitCode = await main(process.argv.slice(2));
