// The field numbers of other descriptions of the protocol.

import { addon } from './addon.js';
import { checked, known, kindOf, text, written } from './calls.js';
import { LIST_KINDS, LIST_NUMBERS } from './declared.js';
import { Malformed, noNumbering, quoted, wrongKind } from './errors.js';
import { files } from './files.js';
import { optionsOf } from './options.js';
import { makeTables, renumbered, renumberedMessage, renumberedStream } from './renumber.js';
import { Stream } from './stream.js';

const NOTHING = new Uint8Array(0);

const encoder = new TextEncoder();

// What calls write to. No JavaScript runs between a call and the reading of it.
const kindNumbers = new BigUint64Array(LIST_NUMBERS);

/** The field numbers of another description of the protocol. */
export class Numbering {
  #text;
  // what it is made of
  #set;
  #lines;

  constructor(set, options) {
    const { renames = {} } = optionsOf(options, ['renames']);
    const lines = linesOf(renames);
    const given = { call: 'Numbering', set };
    const found = written((out) => addon.numberingText(set, lines, kindNumbers, out), given);
    const kind = kindOf(LIST_KINDS, Number(kindNumbers[0]), given, 'kind of numbering');
    if (kind !== 'listed') {
      throw noNumbering(given, { reason: kind, text: text(found) });
    }
    this.#text = text(found);
    // a slice of a Buffer would share its memory
    this.#set = new Uint8Array(set);
    this.#lines = lines;
    makeTables(this, this.#set, lines);
  }

  static load(path, options) {
    if (files.read === undefined) {
      throw new Error('Numbering.load: there are no files here');
    }
    return new Numbering(files.read(path), options);
  }

  toString() {
    return this.#text;
  }

  readPayload(schema, payload) {
    return this.#payload('reading', { call: 'readPayload', schema, payload });
  }

  writePayload(schema, payload) {
    return this.#payload('writing', { call: 'writePayload', schema, payload });
  }

  readStream(version, stream) {
    return this.#stream('reading', 'readStream', version, stream);
  }

  writeStream(version, stream) {
    return this.#stream('writing', 'writeStream', version, stream);
  }

  dump(version, stream) {
    const call = (out) => addon.numberingDump(version, this.#set, this.#lines, stream, out);
    return text(written(call, { call: 'dump', version, stream }));
  }

  #payload(direction, given) {
    const schema = known(given.schema, given);
    // a table has no entry of a schema that there is not
    checked(addon.isWellFormed(schema, NOTHING), given);
    return renumbered(this, direction, { ...given, schema });
  }

  #stream(direction, call, version, stream) {
    try {
      return renumberedStream(this, direction, { call, version, stream });
    } catch (error) {
      if (error instanceof Malformed) {
        this.#find(direction, call, version, stream);
      }
      throw error;
    }
  }

  /** Throws the error of the first message of a stream whose payload is malformed. */
  #find(direction, call, version, stream) {
    const source = new Stream(version);
    source.feed(stream);
    for (const item of source) {
      if (item.kind === 'message') {
        renumberedMessage(this, direction, call, item);
      }
    }
  }
}

/** Renames as the library takes them: one per line, with the name there and the name here. */
function linesOf(renames) {
  // a list or a map has its names elsewhere
  if (typeof renames !== 'object' || renames === null || Symbol.iterator in renames) {
    throw wrongKind('renames', renames, 'an object');
  }
  const lines = Object.entries(renames).map(([theirs, ours]) => {
    if (typeof ours !== 'string') {
      throw wrongKind(`renames.${theirs}`, ours, 'a string');
    }
    // the library takes a rename per line
    const name = [theirs, ours].find((one) => /[=\n]/.test(one));
    if (name !== undefined) {
      const fault = `${quoted(name)} is not the name of a message`;
      throw noNumbering({ call: 'Numbering' }, { reason: 'noRename', text: fault });
    }
    return `${theirs}=${ours}`;
  });
  return encoder.encode(lines.join('\n'));
}
