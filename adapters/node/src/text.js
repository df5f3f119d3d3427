/**
 * Texts: what their escapes mean, and what of them JSON can carry.
 */

const ESCAPE = /\\(?:(\r\n|[\n\r\u2028\u2029])|x([0-9a-f]{2})|u([0-9a-f]{4})|u\{([0-9a-f]+)\}|([0-3][0-7]{0,2}|[4-7][0-7]?)|([^]))/gi;
const SINGLE = { b: "\b", f: "\f", n: "\n", r: "\r", t: "\t", v: "\v" };

/**
 * The value of a text that stood between quotes. A lone half of a surrogate pair gives way to U+FFFD, as in a tree.
 *
 * @param {string} raw
 * @returns {string | undefined} undefined where an escape means nothing
 */
export function cookText(raw) {
  if (!raw.includes("\\")) return raw;
  try {
    return wellFormed(raw.replace(ESCAPE, meaning));
  } catch (error) {
    if (error instanceof RangeError) return undefined;
    throw error;
  }
}

/** The text, in which a lone half of a surrogate pair gives way to U+FFFD. */
export const wellFormed = (text) => text.replace(/\p{Surrogate}/gu, "\uFFFD");

function meaning(_all, lineBreak, hex, unit, point, octal, other) {
  if (lineBreak !== undefined) return "";
  if (octal !== undefined) return String.fromCharCode(Number.parseInt(octal, 8));
  const code = hex ?? unit ?? point;
  if (code !== undefined) return String.fromCodePoint(Number.parseInt(code, 16));
  return SINGLE[other] ?? other;
}
