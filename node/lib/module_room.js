// The calls of a room over the WebAssembly module, as src/room.c makes them over the library.

import { addon } from './addon.js';
import { FIELD_NUMBERS, WRITING_NUMBERS } from './declared.js';
import { COUNT, HEAD_SIZE, KIND, RETURNED, SCHEMA, SIZE } from './room.js';

// Up to how many bytes a part is kept, since each takes as long to make as a short call.
const MOST_KEPT = 128;

/** The calls of a room, by those of the module. */
export function room(buffer, entries, size) {
  const halves = new Uint32Array(buffer, 0, HEAD_SIZE / 4);
  const writing = new BigUint64Array(buffer, 4 * KIND, WRITING_NUMBERS);
  const numbers = new BigUint64Array(buffer, HEAD_SIZE, FIELD_NUMBERS * entries);
  const bytes = new Uint8Array(buffer, HEAD_SIZE + numbers.byteLength, size);
  const out = new Uint8Array(buffer, bytes.byteOffset + size);
  const entriesOf = partsOf(numbers, FIELD_NUMBERS);
  const bytesOf = partsOf(bytes, 1);
  const returns = (number) => {
    halves[RETURNED] = number;
    halves[RETURNED + 1] = number < 0 ? -1 : 0;
  };
  return {
    read(payload) {
      returns(addon.fields(halves[SCHEMA], payload, numbers));
    },
    readOwn() {
      returns(addon.fields(halves[SCHEMA], bytesOf(halves[SIZE]), numbers));
    },
    write() {
      const given = entriesOf(halves[COUNT]);
      returns(addon.payloadOfFields(halves[SCHEMA], given, bytesOf(halves[SIZE]), writing, out));
    },
  };
}

/** The parts of an array that begin with it, by how many elements of so many numbers they have. */
function partsOf(array, numbers) {
  const parts = [];
  return (count) => {
    const part = parts[count] ?? array.subarray(0, numbers * count);
    if (count <= MOST_KEPT) {
      parts[count] = part;
    }
    return part;
  };
}
