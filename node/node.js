// The package in Node, Deno and Bun.

import './lib/node.js';

export * from './index.js';
