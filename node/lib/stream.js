// Streams that come in chunks.

import { addon } from './addon.js';
import { checked, nameIfAny, nameOf } from './calls.js';
import { ITEM, ITEM_KINDS, ITEM_NUMBERS } from './declared.js';
import { Malformed, TooLong, incomplete, messageTooLong, notKnown, wrongKind } from './errors.js';
import { messageThatCame, skippedThatCame, unknownCodeThatCame, wordOf } from './items.js';
import { optionsOf } from './options.js';
import { LONG, Run, copied, roomFor } from './pool.js';
import { numberingOf, renumberedMessage } from './renumber.js';

const NOTHING = new Uint8Array(0);
// How many bytes a header has, and the code of a type, with which it begins.
const HEADER_SIZE = 8;
const CODE_SIZE = 2;
const NO_LIMIT = 0xffffffff;

const STREAM_OPTIONS = ['maxMessageSize', 'numbering'];

// How many items are looked for at once, since a call costs more than finding one; and in how many bytes, which are
// copied for it, except an item that is longer.
const MOST_ITEMS = 256;
const MOST_BYTES = 2 ** 15;

// The numbers of items, also as two halves each, which are numbers of JavaScript. No JavaScript runs between a call and
// the reading of what it wrote.
const numbers = new BigUint64Array(ITEM_NUMBERS * MOST_ITEMS);
const halves = new Uint32Array(numbers.buffer);
const HALVES = 2 * ITEM_NUMBERS;
const NONE_FOUND = new Uint32Array(0);

/** Throws if a stream has trailing bytes. */
let atEnd;

/** A stream that comes in chunks. */
export class Stream {
  #version;
  #limit;
  #numbering;
  // how many bytes are in the items that were taken, and the error that ended the stream
  #offset = 0;
  #ended;
  // what came and is in no item yet is from #begin up to #end; the rest is room
  #bytes = NOTHING;
  #begin = 0;
  #end = 0;
  // the halves of the numbers of the items that were found; those from #at on are not taken yet
  #found = NONE_FOUND;
  #at = 0;
  // the copy of some of these items: their payloads are parts of it
  #run;
  // the number of bytes before which the next item is not whole
  #needed = HEADER_SIZE;

  static {
    atEnd = (stream, call) => stream.#atEnd(call);
  }

  constructor(version = 8, options) {
    const { maxMessageSize, numbering } = optionsOf(options, STREAM_OPTIONS);
    this.#version = version;
    this.#limit = maxMessageSize;
    this.#numbering = numberingOf({ numbering });
    checked(this.#next(NOTHING), { call: 'Stream', version, maxMessageSize });
  }

  get version() {
    return this.#version;
  }

  get rest() {
    return this.#end - this.#begin;
  }

  get trailing() {
    return copied(this.#bytes, this.#begin, this.#end);
  }

  feed(chunk) {
    this.#check();
    const length = addon.chunkLength(chunk);
    if (length > this.#bytes.length - this.#end) {
      this.#makeRoom(length);
    }
    this.#bytes.set(chunk, this.#end);
    this.#end += length;
  }

  finish() {
    this.#check();
    this.#atEnd('finish');
  }

  *[Symbol.iterator]() {
    let item = this.#take();
    while (item !== undefined) {
      yield item;
      item = this.#take();
    }
  }

  /** Throws if bytes are in no item. */
  #atEnd(call) {
    if (this.rest > 0) {
      const hasCode = this.rest >= CODE_SIZE;
      const typeCode = hasCode ? this.#bytes[this.#begin] * 256 + this.#bytes[this.#begin + 1] : undefined;
      const name = hasCode ? nameOf(typeCode) : 'an item';
      throw incomplete(call, { name, typeCode, offset: this.#offset, trailing: this.trailing });
    }
  }

  /** Throws the error that ended the stream. */
  #check() {
    if (this.#ended !== undefined) {
      throw this.#ended;
    }
  }

  /** What the library returns of bytes: how many are missing, or the number of an error. */
  #next(bytes) {
    if (this.#limit === undefined) {
      return addon.next(this.#version, bytes, numbers);
    }
    return addon.nextWithin(this.#version, this.#limit, bytes, numbers);
  }

  /** Looks for items, and returns whether there are any. */
  #look() {
    while (this.rest >= this.#needed) {
      const end = Math.min(this.#end, this.#begin + Math.max(MOST_BYTES, this.#needed));
      const bytes = this.#bytes.subarray(this.#begin, end);
      const count = this.#refused(addon.items(this.#version, this.#limit ?? NO_LIMIT, bytes, numbers), bytes);
      if (count > 0) {
        this.#found = halves.slice(0, HALVES * count);
        this.#at = 0;
        this.#needed = HEADER_SIZE;
        return true;
      }
      this.#needed = bytes.length + this.#refused(this.#next(bytes), bytes);
    }
    return false;
  }

  /** What is not an error. A message that is longer than the limit ends the stream: its bytes stay in the rest. */
  #refused(returned, bytes) {
    const given = { call: 'Stream', version: this.#version, maxMessageSize: this.#limit };
    try {
      return checked(returned, given);
    } catch (error) {
      if (error instanceof TooLong) {
        this.#ended = messageTooLong(given, this.#announced(bytes), this.trailing);
        throw this.#ended;
      }
      throw error;
    }
  }

  /** What the header says of a message that the next bytes begin. */
  #announced(bytes) {
    const head = new DataView(bytes.buffer, bytes.byteOffset, HEADER_SIZE);
    const typeCode = head.getUint16(0);
    return { name: nameIfAny(typeCode), typeCode, length: head.getUint32(4), offset: this.#offset };
  }

  #clear() {
    this.#bytes = NOTHING;
    this.#begin = 0;
    this.#end = 0;
    this.#found = NONE_FOUND;
    this.#at = 0;
    this.#run = undefined;
  }

  /** Moves what is in no item yet to the beginning of new memory, with room for more bytes. */
  #makeRoom(length) {
    const rest = this.#bytes.subarray(this.#begin, this.#end);
    // at least as much room as is moved, so that all moving takes linear time, however small the chunks are
    const bytes = new Uint8Array(rest.length + Math.max(rest.length, length));
    bytes.set(rest);
    this.#bytes = bytes;
    this.#begin = 0;
    this.#end = rest.length;
    this.#run = undefined;
  }

  /** Takes the item that the rest begins with, if it is whole, or if its payload cannot be read. */
  #take() {
    this.#check();
    if (this.#at === this.#found.length && !this.#look()) {
      return undefined;
    }
    const size = wholeOf(this.#found, this.#at + 2 * ITEM.size);
    const payload = this.#payload(size);
    let item;
    try {
      item = itemOf(this.#version, this.#offset, this.#found, this.#at, payload, this.#numbering);
    } catch (error) {
      if (error instanceof Malformed) {
        this.#pass(size);
      }
      throw error;
    }
    this.#pass(size);
    return item;
  }

  /** The payload of the next item, which has a size. */
  #payload(size) {
    const begin = this.#begin + this.#found[this.#at + 2 * ITEM.payload];
    const end = this.#begin + size;
    if (size >= LONG) {
      return copied(this.#bytes, begin, end);
    }
    if (this.#run === undefined || end > this.#run.end) {
      this.#run = new Run(this.#bytes, this.#begin, this.#endOfRun(roomFor(size)));
    }
    return this.#run.part(begin, end);
  }

  /** Where the items end that are next, are not long, and have not more bytes than there is room for. */
  #endOfRun(room) {
    const most = this.#begin + room;
    let end = this.#begin;
    for (let at = this.#at; at < this.#found.length; at += HALVES) {
      const size = wholeOf(this.#found, at + 2 * ITEM.size);
      if (size >= LONG || end + size > most) {
        break;
      }
      end += size;
    }
    return end;
  }

  /** Passes an item of a size. */
  #pass(size) {
    this.#at += HALVES;
    this.#begin += size;
    this.#offset += size;
    if (this.#begin === this.#end) {
      this.#clear();
    }
  }
}

/** The number that is two halves, which is exact. */
function wholeOf(found, at) {
  return found[at + 1] * 2 ** 32 + found[at];
}

/**
 * The item at an offset whose numbers are in a table, with its payload. The word of a message stays in halves, since
 * few callers read it and a bigint takes long to make.
 */
function itemOf(version, offset, found, at, payload, numbering) {
  const code = found[at + 2 * ITEM.code];
  const low = found[at + 2 * ITEM.word] | 0;
  const high = found[at + 2 * ITEM.word + 1] | 0;
  const kind = wholeOf(found, at + 2 * ITEM.kind);
  switch (ITEM_KINDS[kind]) {
    case 'message': {
      const requestedAck = found[at + 2 * ITEM.requestedAck] === 1;
      const read =
        numbering && renumberedMessage(numbering, 'reading', 'Stream', { version, code, payload, offset });
      return messageThatCame(offset, high, low, version, code, payload, requestedAck, read);
    }
    case 'unknownCode':
      return unknownCodeThatCame(offset, version, code, wordOf(high, low));
    case 'skipped':
      return skippedThatCame(offset, version, code, wordOf(high, low), payload);
    default:
      throw notKnown('Stream', 'kind of item', kind);
  }
}

/** The item that bytes are, which begins at an offset of its stream. */
export function itemAt(version, bytes, offset) {
  checked(addon.next(version, bytes, numbers), { call: 'expected', version });
  return itemOf(version, offset, halves, 0, copied(bytes, halves[2 * ITEM.payload], bytes.length));
}

/** How many bytes follow the last whole item of bytes, which an item begins. */
export function restOf(version, bytes) {
  const given = { call: 'recordedRest', version };
  let begin = 0;
  let needed = HEADER_SIZE;
  while (bytes.length - begin >= needed) {
    const part = bytes.subarray(begin, begin + Math.max(MOST_BYTES, needed));
    const count = checked(addon.items(version, NO_LIMIT, part, numbers), given);
    needed = count > 0 ? HEADER_SIZE : part.length + checked(addon.next(version, part, numbers), given);
    for (let at = 0; at < HALVES * count; at += HALVES) {
      begin += wholeOf(halves, at + 2 * ITEM.size);
    }
  }
  return bytes.length - begin;
}

/** Decodes chunks into items. What fails loses its queue, so an error waits until all items before it are read. */
export function decode(version = 8, options) {
  const { stream, strict } = streamOf(version, options);
  const fed = new TransformStream({
    transform(chunk, controller) {
      stream.feed(chunk);
      controller.enqueue(chunk);
    },
  });
  const reader = fed.readable.getReader();
  let failure;
  // enqueues the items that are whole, and keeps an error after them: whether there were any
  const enqueuedAny = (controller) => {
    if (failure !== undefined) {
      throw failure;
    }
    let count = 0;
    try {
      for (const item of stream) {
        controller.enqueue(item);
        count += 1;
      }
    } catch (error) {
      failure = error;
    }
    if (count === 0 && failure !== undefined) {
      throw failure;
    }
    return count > 0;
  };
  const source = {
    async pull(controller) {
      try {
        while (!enqueuedAny(controller)) {
          if ((await reader.read()).done) {
            if (strict) {
              atEnd(stream, 'decode');
            }
            controller.close();
            return;
          }
        }
      } catch (error) {
        // no more chunks are taken; what has failed itself fails here too
        reader.cancel(error).catch(() => {});
        throw error;
      }
    },
    cancel: (reason) => reader.cancel(reason),
  };
  return { readable: new ReadableStream(source, { highWaterMark: 0 }), writable: fed.writable };
}

/** The items of the chunks of a source. */
export function items(source, version = 8, options) {
  return itemsOf(streamOf(version, options), source);
}

async function* itemsOf({ stream, strict }, source) {
  for await (const chunk of source) {
    stream.feed(chunk);
    yield* stream;
  }
  if (strict) {
    atEnd(stream, 'items');
  }
}

/** The stream of a source, and whether it is an error if that ends within an item. */
function streamOf(version, options) {
  const { maxMessageSize, numbering, strict = true } = optionsOf(options, [...STREAM_OPTIONS, 'strict']);
  if (typeof strict !== 'boolean') {
    throw wrongKind('strict', strict, 'a boolean');
  }
  return { stream: new Stream(version, { maxMessageSize, numbering }), strict };
}
