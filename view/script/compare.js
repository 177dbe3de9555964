// What of two commands is compared, as the page knows it of their fields. This is the page's own reading of a dump,
// which is not proved; what journal diff says of two journals is (align.js takes it where there is some).

// where a dump has no payloads, commands are compared by type and length, and no two of them are said to be the same
const hasPayloads = journals.every(({ commands }) => !commands.some(lacksPayload));

/** What is compared of a command, as one text, except its ids: those change where a command is inserted before it. */
function comparedText(item) {
  const { type, length, message, bytes, leftOut, cut = {} } = item.dump;
  if (!hasPayloads) return JSON.stringify([typeOf(item), length]);
  const fields = fieldsOf(schemaOf(item));
  const isKept = (name) => isCompared(fields[name]) && !ID_FIELDS.has(name);
  if (message === undefined && Object.keys(fields).some(isKept)) return JSON.stringify([type, length, bytes, leftOut]);
  const values = Object.entries(message ?? {}).filter(([name]) => isKept(name));
  const digests = Object.entries(cut).filter(([path]) => isKept(path.match(/^\w*/)[0]));
  return JSON.stringify([typeOf(item), values, digests]);
}

/** Whether two commands of one type have the same ids, except those that are not compared. */
function haveSameIds(one, other) {
  const fields = fieldsOf(schemaOf(one));
  const idOf = ({ dump }, name) => (isCompared(fields[name]) ? dump.message?.[name] : undefined);
  for (const name of ID_FIELDS) if (idOf(one, name) !== idOf(other, name)) return false;
  return true;
}

/** How two commands of which the rest is the same belong together: the same, or the same except for their ids. */
const kindOfEquals = (one, other) => (!hasPayloads ? "unseen" : haveSameIds(one, other) ? "same" : "ids");

/** How two commands belong together that are not equal. */
const kindOfOthers = (one, other) =>
  typeOf(one) !== typeOf(other) ? "replaced" : hasPayloads ? "changed" : "unseen";

/** How any two commands belong together. */
const kindOfPair = (one, other) =>
  comparedText(one) === comparedText(other) ? kindOfEquals(one, other) : kindOfOthers(one, other);
