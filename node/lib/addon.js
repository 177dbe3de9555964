// The calls of the library: those of the addon in C, src/addon.c, or those of the WebAssembly module, module.js.

/** The calls, each of which takes and returns what the one of the addon does. */
export let addon;

/** Takes calls, before any is made. */
export function useCalls(calls) {
  addon = calls;
}
