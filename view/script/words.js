// The words of the filter: what a text of words means, and whether an item has a word. journal show has the same
// filter; examples/filters.txt has what both find.

const haystacks = new Map();

/** What is searched of a value: texts, bytes and numbers, each with its path. */
function searchedOf({ path, kind, value, cut }) {
  if (kind === "Future") return allAwaitedBy(value).map((key) => [path, key.slice(1)]);
  if (kind === "bool" || kind === "enum" || typeof value === "object") return [];
  if (kind !== "bytes") return [[path, String(value)]];
  const bytes = bytesOf(value);
  return [[path, decoded(bytes, cut !== undefined) ?? hexOf(bytes).replaceAll(" ", "")]];
}

const isName = ([path]) => NAME_PATH.test(path);

/** What is searched of an item: its type, its names, and all its texts, in lower case. */
function haystackOf(item) {
  if (!haystacks.has(item)) {
    const type = typeOf(item).toLowerCase();
    const lower = itemValues(item).flatMap(searchedOf).map(([path, text]) => [path, text.toLowerCase()]);
    haystacks.set(item, {
      type,
      // undefined of an item without a name, which has not even an empty text in its names
      names: lower.some(isName) ? lower.filter(isName).map(([, text]) => text).join("\n") : undefined,
      all: [type, ...lower.map(([, text]) => text)].join("\n"),
    });
  }
  return haystacks.get(item);
}

const STATES = {
  failure: (item) => item.failure !== null,
  malformed: (item) => item.dump.malformed === true,
  open: isOpen,
};

/** What `is:` may be followed by of a row of two journals. */
const KINDS = {
  same: ["same"],
  ids: ["ids"],
  changed: ["changed", "replaced"],
  removed: ["removed"],
  inserted: ["inserted"],
};

// the fields that have ids of completions and of signals
const ID_PATH = /(Id|idx|Idx)$/;

/** The ids in a value. */
function idsIn({ path, kind, value }) {
  if (kind === "u32") return ID_PATH.test(path) ? [value] : [];
  if (kind !== "Future") return [];
  return allAwaitedBy(value).filter((key) => key[0] !== "n").map((key) => Number(key.slice(1)));
}

// the fields of a number, each with the numbers of an item
const NUMBERS = {
  cmd: (item) => (item.command === null ? [] : [item.command]),
  item: (item) => (item.direction === "rest" ? [] : [item.number]),
  id: (item) => itemValues(item).flatMap(idsIn),
  size: (item) => [item.size],
  offset: (item) => [item.dump.offset],
};
const UNITS = { b: 1n, kb: 10n ** 3n, mb: 10n ** 6n, gb: 10n ** 9n, kib: 1n << 10n, mib: 1n << 20n, gib: 1n << 30n };
const LIMIT = 1n << 128n; // journal show has numbers of 128 bits

/** The whole numbers nearest to a number in a unit, down and up; null by other texts, and of more than 128 bits. */
function roundedOf(text, unit = "b") {
  const [whole, fraction = "", ...others] = text.replaceAll(",", "").split(".");
  if (whole + fraction === "" || others.length > 0) return null;
  const one = 10n ** BigInt(fraction.length);
  const parts = BigInt(whole + fraction) * UNITS[unit];
  const up = parts + one - 1n;
  return up < LIMIT ? { floor: parts / one, ceiling: up / one } : null;
}

const RANGE = /^(>=?|<=?|=)?([\d.,]+)((?:[kmg]i?)?b)?(?:-([\d.,]+)((?:[kmg]i?)?b)?)?$/;

/** The range that is meant by 49, 40-60, >49, >=1MB or <2kB: the first and the last number; null by other texts. */
function rangeOf(text) {
  const [, sign = "", from = "", unit, to, lastUnit] = text.match(RANGE) ?? [];
  const [amount, last] = [roundedOf(from, unit), roundedOf(to ?? from, lastUnit ?? unit)];
  if (amount === null || last === null || (to !== undefined && sign !== "")) return null;
  switch (sign) {
    case ">":
      return amount.floor + 1n < LIMIT ? { first: amount.floor + 1n, last: LIMIT } : null;
    case ">=":
      return { first: amount.ceiling, last: LIMIT };
    case "<":
      return { first: 0n, last: amount.ceiling - 1n };
    case "<=":
      return { first: 0n, last: amount.floor };
    default:
      return { first: amount.ceiling, last: last.floor };
  }
}

const isWithin = (value, { first, last }) => value >= first && value <= last;

/** A word as a test of an item; `wrong` tells what is wrong with it. */
function testOf(field, rest) {
  if (Object.hasOwn(NUMBERS, field)) {
    const range = rangeOf(rest);
    if (range === null) {
      return { wrong: `${field}: is followed by a number, as ${field}:49, ${field}:>49 or ${field}:40-60` };
    }
    return { test: (item) => NUMBERS[field](item).some((value) => isWithin(value, range)) };
  }
  if (field === "is") {
    if (Object.hasOwn(STATES, rest)) return { test: STATES[rest] };
    if (isPair && Object.hasOwn(KINDS, rest)) return { test: (item) => KINDS[rest].includes(stepOf.get(item)?.kind) };
    if (Object.hasOwn(DIRECTIONS, rest)) return { test: (item) => item.direction === rest };
    return { wrong: `is: is not followed by ${rest}` };
  }
  const part = { type: "type", name: "names" }[field] ?? "all";
  return { test: (item) => haystackOf(item)[part]?.includes(rest) ?? false };
}

/** The words of a text, in lower case: `-` before a word, a field before a colon, and a phrase in quotes. */
function wordsOf(text) {
  const WORD = /(-?)(?:(type|name|is|cmd|item|id|size|offset):)?(?:"([^"]*)"?|([^ ]*))/g;
  const found = Array.from(text.toLowerCase().matchAll(WORD)).filter(([whole]) => whole !== "" && whole !== "-");
  return found.map(([, minus, field, phrase, word]) => {
    return { ...testOf(field, phrase ?? word), isWithout: minus === "-" };
  });
}
