// Bytes as text, as JSON or in hex.

function bytesOf(base64) {
  const binary = atob(base64);
  const bytes = new Uint8Array(binary.length);
  for (let place = 0; place < bytes.length; place++) bytes[place] = binary.charCodeAt(place);
  return bytes;
}

/** The text that bytes are, or null if they are not UTF-8; `isCut` allows a last character that is not whole. */
function decoded(bytes, isCut = false) {
  try {
    return new TextDecoder("utf-8", { fatal: true, ignoreBOM: true }).decode(bytes, { stream: isCut });
  } catch {
    return null;
  }
}

/** The same, or null also if the text has control characters. */
function textOf(bytes, isCut = false) {
  const text = decoded(bytes, isCut);
  return text === null || /[\u0000-\u0008\u000e-\u001f]/.test(text) ? null : text;
}

const hexOf = (bytes) => Array.from(bytes, (byte) => byte.toString(16).padStart(2, "0")).join(" ");

/** Eight bytes a line: the place of the first, the bytes in hex, and those that are printable. */
function hexDump(bytes) {
  const lines = [];
  for (let start = 0; start < bytes.length; start += 8) {
    const row = bytes.subarray(start, start + 8);
    const printable = Array.from(row, (byte) => (byte >= 32 && byte < 127 ? String.fromCharCode(byte) : ".")).join("");
    lines.push(`${start.toString(16).padStart(6, "0")}  ${hexOf(row).padEnd(23)}  ${printable}`);
  }
  return lines.join("\n");
}

const INDENTATION = 4_000_000; // characters before the lines of a JSON text: what is after them stays on one line

/** A JSON text with line breaks; its numbers and strings stay as they are. */
function indented(json) {
  let depth = 0;
  let room = INDENTATION;
  const line = () => ((room -= 2 * depth) < 0 ? "" : `\n${"  ".repeat(depth)}`);
  return json.replace(/"(?:[^"\\]|\\.)*"|[[{]\s*[\]}]|[[\]{},:]|\s+/g, (token) => {
    if (token.startsWith('"')) return token;
    if (/^\s+$/.test(token)) return "";
    if (token.length > 1) return token[0] + token.at(-1);
    if ("[{".includes(token)) return (depth++, token + line());
    if ("]}".includes(token)) return (depth--, line() + token);
    return token === "," ? token + line() : ": ";
  });
}

function isJson(text) {
  if (!/^\s*[[{]/.test(text)) return false;
  try {
    JSON.parse(text);
    return true;
  } catch {
    return false;
  }
}

/** A few characters of bytes, for a row; JSON without its line breaks. */
function preview(base64) {
  const bytes = bytesOf(base64.slice(0, 160));
  const text = textOf(bytes, base64.length > 160);
  if (text === null) return `0x${hexOf(bytes.subarray(0, 24)).replaceAll(" ", "")}`;
  return /^\s*[[{]/.test(text) ? text.replace(/[ \t\r\n]+/g, " ") : text;
}
