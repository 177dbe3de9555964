// Payloads at other field numbers, by the tables of a numbering.

import { addon } from './addon.js';
import { bytesWritten, checked, nameOf, schemaOf } from './calls.js';
import { NUMBERING_DIRECTIONS, RENUMBERING_NUMBERS } from './declared.js';
import { ofMessage, wrongKind } from './errors.js';
import { optionsOf } from './options.js';

// The tables of each numbering, by their directions.
const tablesOf = new WeakMap();

// How many entries there is room for at first: the protocol has fewer fields.
const ENTRIES = 256;

/** Makes the tables of a numbering of a descriptor set and of renames, which are bytes. */
export function makeTables(numbering, set, renames) {
  const tables = NUMBERING_DIRECTIONS.map((name, direction) => [name, tableOf(direction, set, renames)]);
  tablesOf.set(numbering, Object.fromEntries(tables));
}

/** The table of a direction. */
function tableOf(direction, set, renames) {
  for (let entries = ENTRIES; ; ) {
    const table = new BigUint64Array(RENUMBERING_NUMBERS * entries);
    const count = checked(addon.numbering(direction, set, renames, table), { call: 'Numbering', set });
    if (count <= entries) {
      return table.slice(0, RENUMBERING_NUMBERS * count);
    }
    entries = count;
  }
}

/** The numbering of the options of a frame, or undefined if they have none. */
export function numberingOf(options) {
  const { numbering } = optionsOf(options, ['numbering']);
  if (numbering !== undefined && !tablesOf.has(numbering)) {
    throw wrongKind('numbering', numbering, 'a Numbering');
  }
  return numbering;
}

/** A payload of a schema by the table of a direction, in an array of its own. */
export function renumbered(numbering, direction, { call, schema, payload }) {
  const table = tablesOf.get(numbering)[direction];
  return bytesWritten((out) => addon.renumber(schema, table, payload, out), { call, schema, payload });
}

/** The same of a message, which an error names; undefined if the message has no schema. */
export function renumberedMessage(numbering, direction, call, { version, code, payload, offset }) {
  const schema = schemaOf(version, code);
  if (schema === undefined) {
    return undefined;
  }
  try {
    return renumbered(numbering, direction, { call, schema, payload });
  } catch (error) {
    throw ofMessage(error, code, nameOf(code), offset);
  }
}

/** A stream of a version by the table of a direction, in an array of its own. */
export function renumberedStream(numbering, direction, { call, version, stream }) {
  const table = tablesOf.get(numbering)[direction];
  return bytesWritten((out) => addon.renumberStream(version, table, stream, out), { call, version, stream });
}
