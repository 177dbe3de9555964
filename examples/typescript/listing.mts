// Lists the stream that comes on the standard input as examples/c/listing.c does: node listing.mjs [VERSION]
//
//   tsc --strict --target es2022 --module node16 listing.mts

import { Malformed, Stream } from 'pendratsoa';
import type { Item, Message } from 'pendratsoa';

// What is used here of Node's own types, which the package @types/node has.
declare const process: {
  readonly argv: readonly string[];
  readonly stdin: AsyncIterable<Uint8Array>;
  exitCode?: number;
};

/** A text as the example in C prints it: what is not an ASCII letter as the numbers of its bytes. */
function quoted(text: string): string {
  const letters = Array.from(new TextEncoder().encode(text), (byte) => {
    const letter = String.fromCharCode(byte);
    return byte < 0x20 || byte > 0x7e || letter === '"' || letter === '\\'
      ? `\\x${byte.toString(16).padStart(2, '0')}`
      : letter;
  });
  return `"${letters.join('')}"`;
}

/** The names of the service and of the handler of a call. */
function names(call: Message): string[] {
  try {
    const { serviceName = '', handlerName = '' } = call.json();
    return [quoted(String(serviceName)), quoted(String(handlerName))];
  } catch (error) {
    if (error instanceof Malformed) {
      return ['malformed'];
    }
    throw error;
  }
}

/** The line of an item. */
function line(item: Item): string {
  switch (item.kind) {
    case 'unknownCode':
      return `unknown 0x${item.code.toString(16)}`;
    case 'skipped':
      return `skipped 0x${item.code.toString(16)} ${item.payload.length}`;
    case 'message': {
      const words = [item.type, item.payload.length, ...(item.requestedAck ? ['ack'] : [])];
      const isCall = item.type === 'CallCommand' || item.type === 'OneWayCallCommand';
      return [...words, ...(isCall ? names(item) : [])].join(' ');
    }
  }
}

async function main(words: readonly string[]): Promise<number> {
  const [version = '8', ...others] = words;
  if (!/^[5-9]$/.test(version) || others.length > 0) {
    console.error('usage: listing.mjs [5..9]');
    return 2;
  }
  const stream = new Stream(Number(version));
  for await (const chunk of process.stdin) {
    stream.feed(chunk);
    for (const item of stream) {
      console.log(line(item));
    }
  }
  console.log(`rest ${stream.rest}`);
  return 0;
}

process.exitCode = await main(process.argv.slice(2));
