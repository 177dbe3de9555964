// Texts of bytes, and bytes of texts: by what every engine has. Node's own are faster, and node.js puts them here.

const decoder = new TextDecoder('utf-8', { ignoreBOM: true });
const encoder = new TextEncoder();

// How many bytes become arguments of a call at once.
const AT_ONCE = 8192;

export const texts = {
  /** The text that bytes are from one on to an end, as UTF-8. */
  utf8(bytes, begin, end) {
    return decoder.decode(bytes.subarray(begin, end));
  },

  /** Bytes as a text, a unit each. */
  latin1(bytes) {
    let text = '';
    for (let begin = 0; begin < bytes.length; begin += AT_ONCE) {
      text += String.fromCharCode.apply(undefined, bytes.subarray(begin, begin + AT_ONCE));
    }
    return text;
  },

  base64(bytes) {
    return btoa(texts.latin1(bytes));
  },

  /** Writes a text as UTF-8 from a place on, and returns how many bytes that takes. */
  writeUtf8(bytes, text, at) {
    return encoder.encodeInto(text, bytes.subarray(at)).written;
  },

  /** Bytes to be written, of any content. */
  unwritten(size) {
    return new Uint8Array(size);
  },

  /** A value that is not a string within a message, on a line. */
  shown(value) {
    switch (typeof value) {
      case 'bigint':
        return `${value}n`;
      case 'function':
        return '[Function]';
      case 'object':
        return value === null ? 'null' : Object.prototype.toString.call(value);
      default:
        return String(value);
    }
  },
};

/** Whether a string has no half of a surrogate, and so is a text. */
export function isText(string) {
  return string.isWellFormed === undefined ? !/\p{Surrogate}/u.test(string) : string.isWellFormed();
}
