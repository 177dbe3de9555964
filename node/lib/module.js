// The calls of the library over its WebAssembly module.

import { Trapped } from './errors.js';
import { CALLS } from './module_calls.js';
import { renew, useInstances } from './module_memory.js';
import { room } from './module_room.js';

/**
 * The calls over a compiled module, which say that they copy what they are given. With `memoryLimit`, in bytes, no
 * instance has memory beyond the page of 64 KiB in which they end, and a call that would need more is out of memory.
 */
export function callsOf(module, { memoryLimit } = {}) {
  useInstances(() => {
    const { exports } = new WebAssembly.Instance(module);
    if (memoryLimit !== undefined) {
      exports.pendratsoa_limit(BigInt(memoryLimit));
    }
    return exports;
  });
  const calls = Object.fromEntries(Object.entries(CALLS).map(([name, call]) => [name, guarded(name, call)]));
  return { ...calls, room, copies: true };
}

// Whether a call trapped. The next one takes a new instance, for which there may be no stack or memory yet.
let hasTrapped = false;

/** A call that may trap, as where the stack of the engine ends: the next call has a new instance. */
function guarded(name, call) {
  return (...given) => {
    try {
      if (hasTrapped) {
        renew();
        hasTrapped = false;
      }
      return call(...given);
    } catch (error) {
      // what is wrong with an argument has a code, and was found before the call
      if (error.code !== undefined) {
        throw error;
      }
      hasTrapped = true;
      throw new Trapped(`${name}: the WebAssembly module stopped: ${error.message}`, { call: name, cause: error });
    }
  };
}
