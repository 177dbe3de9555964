// Frames, at the numbers of the protocol or at those of a numbering.

import { frame as ownFrame, frameInto as ownFrameInto } from './calls.js';
import { wrongKind } from './errors.js';
import { numberingOf, renumberedStream } from './renumber.js';

export function frame(version, code, payload, options) {
  const numbering = numberingOf(options);
  const found = ownFrame(version, code, payload);
  return numbering === undefined ? found : frameAt(numbering, 'frame', version, found);
}

export function frameInto(version, code, payload, out, options) {
  const numbering = numberingOf(options);
  if (numbering === undefined) {
    return ownFrameInto(version, code, payload, out);
  }
  return into(out, () => frameAt(numbering, 'frameInto', version, ownFrame(version, code, payload, 'frameInto')));
}

/** A frame of a version at the numbers of a numbering: a frame is a stream of one message. */
export function frameAt(numbering, call, version, found) {
  return renumberedStream(numbering, 'writing', { call, version, stream: found });
}

/** Writes the frame that is made to the front of an array, if there is room for it, and returns its length. */
export function into(out, make) {
  if (!(out instanceof Uint8Array)) {
    throw wrongKind('out', out, 'a Uint8Array');
  }
  const found = make();
  if (found.length <= out.length) {
    out.set(found);
  }
  return found.length;
}
