/**
 * The options of the program, by their names, and the flags that say them.
 */
import { OxtOptionError } from "../errors.js";

/**
 * What is known of an option: its flag, and its value at which the flag is given, or what the flag's value may be. An
 * option that stands at its default gives no flag, so that a program that has not the flag yet does as told.
 */
export const OPTIONS = {
  "typescript.jsx_pragma": { flag: "--jsx-pragma", isText: true },
  "typescript.jsx_pragma_frag": { flag: "--jsx-pragma-frag", isText: true },
  "typescript.only_remove_type_imports": { flag: "--only-remove-type-imports", givenAt: true },
  "typescript.allow_namespaces": { flag: "--no-namespaces", givenAt: false },
  "typescript.allow_declare_fields": { flag: "--no-declare-fields", givenAt: false },
  "typescript.remove_class_fields_without_initializer": { flag: "--remove-empty-fields", givenAt: true },
  "typescript.optimize_const_enums": { flag: "--optimize-const-enums", givenAt: true },
  "typescript.optimize_enums": { flag: "--optimize-enums", givenAt: true },
  "typescript.rewrite_import_extensions": {
    flag: "--rewrite-extensions",
    words: ["true", "false", "rewrite", "remove"],
    byDefault: "false",
  },
  "decorator.legacy": { flag: "--legacy", givenAt: true },
  "decorator.emit_decorator_metadata": { flag: "--emit-decorator-metadata", givenAt: true },
  "decorator.strict_null_checks": { flag: "--no-strict-null-checks", givenAt: false },
  module: { flag: "--module", words: ["preserve", "esm", "commonjs"], byDefault: "preserve" },
  set_public_class_fields: { flag: "--set-public-class-fields", givenAt: true },
};

const GROUPS = ["typescript", "decorator"];

/**
 * The words for the program that say the options.
 *
 * @param {object} options named as the program names them: `{ typescript: { .. }, decorator: { .. }, module, .. }`
 * @returns {string[]}
 */
export function flagsOf(options) {
  return namedOptions(options).flatMap(([name, value]) => {
    if (!Object.hasOwn(OPTIONS, name)) throw new OxtOptionError(`there is no option '${name}'`);
    return flagOf(name, value);
  });
}

/** The options with their full names, those that are not given left out. */
function namedOptions(options) {
  const named = Object.entries(options).flatMap(([name, value]) => {
    if (!GROUPS.includes(name)) return [[name, value]];
    if (value !== undefined && (value === null || typeof value !== "object")) {
      throw new OxtOptionError(`the option '${name}' is an object with options`);
    }
    return Object.entries(value ?? {}).map(([inner, it]) => [`${name}.${inner}`, it]);
  });
  return named.filter(([, value]) => value !== undefined && value !== null);
}

function flagOf(name, value) {
  const { flag, isText, words, byDefault, givenAt } = OPTIONS[name];
  if (isText) {
    if (typeof value !== "string") throw new OxtOptionError(`the option '${name}' is a text`);
    return [`${flag}=${value}`];
  }
  if (words) {
    if (!words.includes(String(value))) throw new OxtOptionError(`the option '${name}' is ${words.join(" or ")}, not ${value}`);
    return String(value) === byDefault ? [] : [`${flag}=${value}`];
  }
  if (typeof value !== "boolean") throw new OxtOptionError(`the option '${name}' is true or false`);
  return value === givenAt ? [flag] : [];
}
