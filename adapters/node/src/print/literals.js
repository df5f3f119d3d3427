/**
 * Names, literals, templates and keys.
 */
import { cookText } from "../text.js";
import { expression } from "./expressions.js";
import { Level } from "./precedence.js";
import { handlerOf } from "./printer.js";

/** An escape with old octal digits, which modules and strict code do not take. */
const OLD_ESCAPE = /(?<!\\)(?:\\\\)*\\(?:[1-9]|0[0-9])/;
const QUOTED = /^(["'])[^]*\1$/;

/** A text in quotes: as it was written, where that still says its value everywhere. */
export function stringLiteral(p, node) {
  p.write(isKept(node) ? node.raw : quote(node.value));
}

function isKept({ raw, value }) {
  return typeof raw === "string" && QUOTED.test(raw) && !OLD_ESCAPE.test(raw) && cookText(raw.slice(1, -1)) === value;
}

/** A text in double quotes. */
const quote = (value) => JSON.stringify(value).replace(/\u2028/g, "\\u2028").replace(/\u2029/g, "\\u2029");

/** A directive stands between the quotes that its text has not, but escaped. */
export function directive(p, node) {
  const mark = /^(?:[^"\\]|\\[^])*$/.test(node.value) ? '"' : "'";
  p.write(`${mark}${node.value}${mark};`);
}

export const literals = {
  BooleanLiteral: (p, node) => p.write(String(node.value)),
  NullLiteral: (p) => p.write("null"),
  StringLiteral: stringLiteral,
  NumericLiteral: (p, node) => p.write(numberText(node)),
  BigIntLiteral: (p, node) => p.write(node.raw.endsWith("n") ? node.raw : `${node.raw}n`),
  RegExpLiteral: (p, node) => p.write(`/${node.pattern}/${node.flags}`),
  TemplateLiteral(p, node) {
    p.write("`");
    node.quasis.forEach((quasi, index) => {
      p.write(quasi.raw);
      if (index < node.quasis.length - 1) p.within("${", "}", () => expression(p, node.expressions[index]));
    });
    p.write("`");
  },
};

/** The text of a number: as it was written, where that still says its value everywhere, which old octal digits do not. */
export function numberText({ raw, value }) {
  if (value === undefined || value === null) return raw;
  const saysValue = typeof raw === "string" && !/^0\d/.test(raw) && Number(raw.replaceAll("_", "")) === value;
  return saysValue ? raw : String(value);
}

const keys = {
  ...literals,
  IdentifierName: (p, node) => p.write(node.name),
  PrivateIdentifier: (p, node) => p.write(`#${node.name}`),
};

/** The key of a property or of a class element. */
export function propertyKey(p, key, computed) {
  if (computed) p.within("[", "]", () => expression(p, key, Level.Assignment));
  else handlerOf(keys, key, "as a key")(p, key);
}
