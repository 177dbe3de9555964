// What a user of Node writes by hand without a package for protobuf: a reader and a writer by tables of fields, and a
// framing. They check only that no field ends after its message: no text, no kind, and nothing of what is skipped.

/** A table of a message's fields. A kind is 'number', 'text', 'bytes', or the table of another message. */
function table(...fields) {
  const byNumber = [];
  for (const [number, name, kind, isRepeated = false] of fields) {
    byNumber[number] = { number, name, kind, isRepeated };
  }
  return { byNumber, fields: byNumber.filter((field) => field !== undefined) };
}

const VALUE = table([1, 'content', 'bytes']);
const HEADER = table([1, 'key', 'text'], [2, 'value', 'text']);
const FAILURE = table([1, 'code', 'number'], [2, 'message', 'text']);

/** The tables of the records that are measured. */
export const TABLES = {
  SetStateCommandMessage: table([1, 'key', 'bytes'], [3, 'value', VALUE], [12, 'name', 'text']),
  CallCommandMessage: table(
    [1, 'serviceName', 'text'],
    [2, 'handlerName', 'text'],
    [3, 'parameter', 'bytes'],
    [4, 'headers', HEADER, true],
    [5, 'key', 'text'],
    [6, 'idempotencyKey', 'text'],
    [7, 'scope', 'text'],
    [8, 'limitKey', 'text'],
    [10, 'invocationIdNotificationIdx', 'number'],
    [11, 'resultCompletionId', 'number'],
    [12, 'name', 'text'],
  ),
  CallCompletionNotificationMessage: table([1, 'completionId', 'number'], [5, 'value', VALUE], [6, 'failure', FAILURE]),
};

// Where the reader or the writer is.
let at = 0;

function readNumber(bytes) {
  let byte = bytes[at++];
  let number = byte & 0x7f;
  for (let scale = 128; byte > 0x7f; scale *= 128) {
    byte = bytes[at++];
    number += (byte & 0x7f) * scale;
  }
  return number;
}

/** The record of a part of a Buffer, which shares its bytes. What is absent has no member. */
export function decode({ byNumber }, bytes, begin = 0, end = bytes.length) {
  const record = {};
  at = begin;
  while (at < end) {
    const key = readNumber(bytes);
    const field = byNumber[key >>> 3];
    const number = readNumber(bytes);
    let value = number;
    if ((key & 7) === 2) {
      const first = at;
      if (first + number > end) {
        throw new RangeError('a field ends after its message');
      }
      value = field === undefined ? undefined : valueOf(field.kind, bytes, first, first + number);
      at = first + number;
    }
    if (field?.isRepeated) {
      (record[field.name] ??= []).push(value);
    } else if (field !== undefined) {
      record[field.name] = value;
    }
  }
  return record;
}

function valueOf(kind, bytes, begin, end) {
  if (kind === 'bytes') {
    return bytes.subarray(begin, end);
  }
  return kind === 'text' ? bytes.toString('utf8', begin, end) : decode(kind, bytes, begin, end);
}

// What is written, up to the first mebibyte of a frame.
const out = Buffer.alloc(1 << 20);

function writeNumber(number) {
  let rest = number;
  for (; rest > 0x7f; rest = Math.floor(rest / 128)) {
    out[at++] = (rest & 0x7f) | 0x80;
  }
  out[at++] = rest;
}

function writeRecord({ fields }, record) {
  for (const { number, name, kind, isRepeated } of fields) {
    const value = record[name];
    if (value === undefined) {
      continue;
    }
    for (const one of isRepeated ? value : [value]) {
      writeNumber(8 * number + (kind === 'number' ? 0 : 2));
      if (kind === 'number') {
        writeNumber(one);
      } else if (kind === 'bytes') {
        writeNumber(one.length);
        out.set(one, at);
        at += one.length;
      } else {
        writeLong(kind, one);
      }
    }
  }
}

/** Writes a text or a message, and then its length before it: most have one byte, which is left for it. */
function writeLong(kind, value) {
  const begin = at;
  at += 1;
  if (kind === 'text') {
    at += out.write(value, at);
  } else {
    writeRecord(kind, value);
  }
  const end = at;
  const length = end - begin - 1;
  at = begin;
  if (length > 0x7f) {
    const more = length < 1 << 14 ? 1 : length < 1 << 21 ? 2 : 3;
    out.copyWithin(begin + 1 + more, begin + 1, end);
  }
  writeNumber(length);
  at += length;
}

/** The payload of a record. */
export function encode(fields, record) {
  at = 0;
  writeRecord(fields, record);
  return Buffer.from(out.subarray(0, at));
}

/** The frame of a record. */
export function frameOf(code, fields, record) {
  at = 8;
  writeRecord(fields, record);
  out.writeUInt32BE(code * 0x10000, 0);
  out.writeUInt32BE(at - 8, 4);
  return Buffer.from(out.subarray(0, at));
}

/** What JSON has of a record, with its bytes in base64. */
export function dumped({ fields }, record) {
  const found = {};
  for (const { name, kind, isRepeated } of fields) {
    const value = record[name];
    if (value !== undefined) {
      found[name] = isRepeated ? value.map((one) => dump(kind, one)) : dump(kind, value);
    }
  }
  return found;
}

function dump(kind, value) {
  if (kind === 'bytes') {
    return value.toString('base64');
  }
  return typeof kind === 'string' ? value : dumped(kind, value);
}

/** The record of what JSON has of it. */
export function undumped({ fields }, json) {
  const record = {};
  for (const { name, kind, isRepeated } of fields) {
    const value = json[name];
    if (value !== undefined) {
      record[name] = isRepeated ? value.map((one) => undump(kind, one)) : undump(kind, value);
    }
  }
  return record;
}

function undump(kind, value) {
  if (kind === 'bytes') {
    return Buffer.from(value, 'base64');
  }
  return typeof kind === 'string' ? value : undumped(kind, value);
}

/** A copy of a part of a Buffer, in Node's pool if it is short, as the payloads of the package are in theirs. */
export function copyOf(part) {
  return Buffer.from(part);
}

/** The messages of a stream that comes in chunks. A payload shares the bytes of the chunk in which it came whole. */
export function* messagesOf(chunks, limit = 2 ** 24) {
  let rest = Buffer.alloc(0);
  for (const chunk of chunks) {
    const here = Buffer.from(chunk.buffer, chunk.byteOffset, chunk.length);
    const bytes = rest.length === 0 ? here : Buffer.concat([rest, here]);
    let begin = 0;
    while (bytes.length - begin >= 8) {
      const code = bytes.readUInt16BE(begin);
      const length = bytes.readUInt32BE(begin + 4);
      if (length > limit) {
        throw new RangeError(`a message of type ${code} has ${length} bytes`);
      }
      const end = begin + 8 + length;
      if (end > bytes.length) {
        break;
      }
      yield { code, flags: bytes.readUInt16BE(begin + 2), payload: bytes.subarray(begin + 8, end) };
      begin = end;
    }
    rest = bytes.subarray(begin);
  }
}
