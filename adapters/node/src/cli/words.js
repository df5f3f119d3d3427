/**
 * The words of the command line.
 */
import { OxtOptionError } from "../errors.js";
import { OPTIONS } from "../run/options.js";

const byFlag = new Map(Object.entries(OPTIONS).map(([name, option]) => [option.flag, { name, ...option }]));

/** The command's own flags, by the field that they set. */
const OWN = {
  "--out-dir": { field: "outDir", takesValue: true },
  "--oxt": { field: "binary", takesValue: true },
  "--tree": { field: "tree" },
  "--help": { field: "help" },
  "--version": { field: "version" },
};

/**
 * The words, read.
 *
 * @typedef {object} Words
 * @property {string[]} files
 * @property {object} options of the program
 * @property {string} [outDir]
 * @property {string} [binary]
 * @property {boolean} [tree]
 * @property {boolean} [help]
 * @property {boolean} [version]
 */

/**
 * Reads words: flags of the program as the program takes them, and those of the command.
 *
 * @param {string[]} words
 * @returns {Words}
 * @throws {OxtOptionError} where they are no such words
 */
export function wordsOf(words) {
  const read = { files: [], options: {} };
  const waiting = [...words];
  while (waiting.length > 0) {
    const word = waiting.shift();
    if (word === "--") read.files.push(...waiting.splice(0));
    else if (word.startsWith("-") && word !== "-") readFlag(read, word, waiting);
    else read.files.push(word);
  }
  return read;
}

/** The same where no files and none of the command's own flags may stand. */
export function optionsOfWords(words) {
  const read = wordsOf(words);
  const [odd] = [...read.files, ...Object.keys(OWN).filter((flag) => read[OWN[flag].field] !== undefined)];
  if (odd !== undefined) throw new OxtOptionError(`'${odd}' is no flag of oxt`);
  return read;
}

function readFlag(read, word, waiting) {
  const [, flag, given] = /^([^=]*)(?:=([^]*))?$/.exec(word);
  const own = Object.hasOwn(OWN, flag) ? OWN[flag] : undefined;
  const option = byFlag.get(flag);
  if (!own && !option) throw new OxtOptionError(`there is no flag ${flag}`);
  const takesValue = own ? own.takesValue === true : option.givenAt === undefined;
  if (given !== undefined && !takesValue) throw new OxtOptionError(`the flag ${flag} takes no value`);
  if (takesValue && given === undefined && waiting.length === 0) throw new OxtOptionError(`the flag ${flag} needs a value`);
  const value = takesValue ? (given ?? waiting.shift()) : (option?.givenAt ?? true);
  if (own) setOnce(read, own.field, value, flag);
  else setOption(read.options, option.name, value, flag);
}

function setOption(options, name, value, flag) {
  const [group, inner] = name.split(".");
  if (inner === undefined) setOnce(options, group, value, flag);
  else setOnce((options[group] ??= {}), inner, value, flag);
}

function setOnce(object, field, value, flag) {
  if (Object.hasOwn(object, field)) throw new OxtOptionError(`the flag ${flag} is given twice`);
  object[field] = value;
}
