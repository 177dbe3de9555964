// Schemas, by their numbers and their names.

import { SCHEMA_NAMES } from './protocol.js';

const NUMBERS = new Map(SCHEMA_NAMES.map((name, number) => [name, number]));

/** The names of the schemas, each at its number. */
export const schemaNames = Object.freeze([...SCHEMA_NAMES]);

/** The number of a schema that is given by its number or its name, or undefined for a name that none has. */
export function schemaNumber(schema) {
  return typeof schema === 'string' ? NUMBERS.get(schema) : schema;
}
