/**
 * Babel's reading of JavaScript, another parser than ours.
 */
import { babel } from "./packages.js";

const PLUGINS = ["jsx", ["decorators", { decoratorsBeforeExport: true }], "decoratorAutoAccessors", "importAssertions"];
const UNREAD = new Set(["start", "end", "loc", "range", "extra", "comments", "tokens", "errors"]);

/** The program as Babel reads it, without places, comments and spellings; throws where Babel reads none. */
export function babelTree(text) {
  const allowed = { allowReturnOutsideFunction: true, allowSuperOutsideMethod: true, allowNewTargetOutsideFunction: true };
  const options = { ...allowed, allowUndeclaredExports: true, plugins: PLUGINS, attachComment: false };
  return withoutPlaces(readAny(text, options).program);
}

function readAny(text, options) {
  try {
    return babel.parse(text, { ...options, sourceType: "module" });
  } catch {
    return babel.parse(text, { ...options, sourceType: "script" });
  }
}

function withoutPlaces(value) {
  if (Array.isArray(value)) return value.map(withoutPlaces);
  if (value === null || typeof value !== "object" || value instanceof RegExp) return value;
  return Object.fromEntries(Object.entries(value).filter(([name]) => !UNREAD.has(name)).map(([name, part]) => [name, withoutPlaces(part)]));
}
