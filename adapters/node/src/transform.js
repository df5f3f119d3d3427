/**
 * From TypeScript to JavaScript.
 */
import { readFileSync } from "node:fs";
import { readFile } from "node:fs/promises";
import { OxtError, OxtPrintError } from "./errors.js";
import { parseFile } from "./parse/index.js";
import { print, printProgram } from "./print/index.js";
import { Question } from "./run/answer.js";
import { findBinary } from "./run/binary.js";
import { flagsOf } from "./run/options.js";
import { firstNode } from "./run/places.js";
import { PROGRAMS_AT_A_TIME, run, runSync } from "./run/program.js";

/**
 * Lowers a source.
 *
 * @param {string} source
 * @param {import("../index.js").TransformOptions} [options]
 * @returns {Promise<import("../index.js").TransformResult>}
 * @throws {import("./errors.js").OxtError} where the source is wrong or refused, with its place
 */
export async function transform(source, options) {
  const { code, diagnostics } = await lower(source, options);
  return { code, diagnostics };
}

/**
 * The same, while everything else waits.
 *
 * @param {string} source
 * @param {import("../index.js").TransformOptions} [options]
 * @returns {import("../index.js").TransformResult}
 */
export function transformSync(source, options) {
  const { code, diagnostics } = lowerSync(source, options);
  return { code, diagnostics };
}

/** A lowered source, with what a loader has to know: whether it is a module, and where its first JSX is. */
export async function lower(source, options) {
  const question = ask(source, options);
  return result(question, await run(question.binary, question.flags, question.input));
}

/** The same, while everything else waits. */
export function lowerSync(source, options) {
  const question = ask(source, options);
  return result(question, runSync(question.binary, question.flags, question.input));
}

/**
 * Lowers files, as many at a time as there are cores, and gives their results in the order of the files. A file that
 * is not lowered gives its error.
 *
 * @param {Iterable<string>} files
 * @param {import("../index.js").TransformOptions} [options]
 * @returns {AsyncGenerator<import("../index.js").FileResult>}
 */
export async function* transformFiles(files, options = {}) {
  const begun = [];
  for (const filename of files) {
    begun.push(fileResult(filename, options));
    // Some more than run, so that the next tree is there when a program ends.
    if (begun.length >= 2 * PROGRAMS_AT_A_TIME) yield await begun.shift();
  }
  for (const each of begun) yield await each;
}

async function fileResult(filename, options) {
  try {
    return { filename, ...(await transform(await readSource(filename), { ...options, filename })) };
  } catch (error) {
    return { filename, error };
  }
}

/** The text of a file; why it cannot be read is one line. */
export async function readSource(filename) {
  try {
    return await readFile(filename, "utf8");
  } catch (error) {
    throw unreadable(filename, error);
  }
}

/** The same, while everything else waits. */
export function readSourceSync(filename) {
  try {
    return readFileSync(filename, "utf8");
  } catch (error) {
    throw unreadable(filename, error);
  }
}

const unreadable = (filename, error) =>
  new OxtError(`${filename} cannot be read: ${READ_FAULTS[error.code] ?? error.code ?? error.message}`);

const READ_FAULTS = { ENOENT: "there is no such file", EISDIR: "it is a folder", EACCES: "it is not allowed" };

function ask(source, { filename = "source.ts", sourceType, binary, parser, ...options } = {}) {
  const flags = flagsOf(options);
  const program = findBinary(binary);
  return new Question({ source, filename, flags, binary: program, ...parseFile(source, { filename, sourceType, parser }) });
}

function result(question, answer) {
  const { tree, diagnostics } = question.read(answer);
  const jsx = firstNode(tree, ({ type }) => type === "JSXElement" || type === "JSXFragment");
  return {
    code: printed(question, tree, diagnostics.length > 0),
    diagnostics,
    isModule: question.isModule,
    jsx: jsx && question.positionOf(jsx),
  };
}

/** What is printed; a diagnostic tells of wrappers that may be left. */
function printed(question, tree, isDiagnosed) {
  try {
    return isDiagnosed ? printProgram(tree) : print(tree);
  } catch (error) {
    if (!(error instanceof OxtPrintError)) throw error;
    throw new OxtPrintError(error.what, question.positionOf(error.node), error.node);
  }
}
