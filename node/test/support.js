// What the tests share.

import { readFileSync } from 'node:fs';

/** A file of the repository, as bytes. */
export function bytesOf(path) {
  return new Uint8Array(readFileSync(new URL(`../../${path}`, import.meta.url)));
}

/** A file of the repository, as a text. */
export function textOf(path) {
  return readFileSync(new URL(`../../${path}`, import.meta.url), 'utf8');
}

/** The bytes that hex digits are; blanks among them are left out. */
export function hex(digits) {
  return Uint8Array.from(digits.replaceAll(' ', '').match(/../g) ?? [], (pair) => Number.parseInt(pair, 16));
}

/** The hex digits that bytes are. */
export function digits(bytes) {
  return Buffer.from(bytes.buffer, bytes.byteOffset, bytes.byteLength).toString('hex');
}

/** Arrays of bytes, one after the other. */
export function joined(...arrays) {
  return new Uint8Array(Buffer.concat(arrays));
}

/** Bytes in chunks of a size, except the last one. */
export function chunksOf(bytes, size) {
  const chunks = [];
  for (let begin = 0; begin < bytes.length; begin += size) {
    chunks.push(bytes.slice(begin, begin + size));
  }
  return chunks;
}

/** What the next items of a stream are listed as in the test vectors. */
export function listed(items) {
  return Array.from(items, (item) => {
    const code = `0x${item.code.toString(16)}`;
    switch (item.kind) {
      case 'message':
        return `${item.type} ${item.payload.length}${item.requestedAck ? ' ack' : ''}`;
      case 'unknownCode':
        return `unknown ${code}`;
      default:
        return `skipped ${code} ${item.payload.length}`;
    }
  });
}
