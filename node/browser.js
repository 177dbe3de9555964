// The package in browsers, and wherever else nothing of Node is there: over the WebAssembly module, which is fetched
// from the folder of this file.

import { useCalls } from './lib/addon.js';
import { callsOf } from './lib/module.js';

const response = await fetch(new URL('./build/pendratsoa.wasm', import.meta.url));
if (!response.ok) {
  throw new Error(`the WebAssembly module is not there: ${response.url}: ${response.status}`);
}
// not as a stream, which some servers name no type for
useCalls(callsOf(await WebAssembly.compile(await response.arrayBuffer())));

export * from './index.js';
