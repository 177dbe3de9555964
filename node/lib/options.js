// The options of calls.

import { unknownOption, wrongKind } from './errors.js';

const NONE = Object.freeze({});

/** Options, which have to be an object that has none but these names; undefined is none. */
export function optionsOf(options, names) {
  if (options === undefined) {
    return NONE;
  }
  if (!isObjectOf(options, names)) {
    throw wrongKind('options', options, 'an object of options');
  }
  const unknown = Object.keys(options).find((name) => !names.includes(name));
  if (unknown !== undefined) {
    throw unknownOption(unknown, names);
  }
  return options;
}

/** Whether a value is an object of no class, or of a class that has one of these names, which no list or map has. */
function isObjectOf(value, names) {
  if (typeof value !== 'object' || value === null) {
    return false;
  }
  const prototype = Object.getPrototypeOf(value);
  // an object of another realm has the prototype of that
  const isPlain = prototype === null || Object.getPrototypeOf(prototype) === null;
  return isPlain || names.some((name) => name in value);
}
