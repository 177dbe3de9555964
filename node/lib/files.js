// How files are read, where there are any: node.js says so.

export const files = { read: undefined };
