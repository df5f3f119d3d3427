/**
 * The source that the command is given.
 */
import { OxtError } from "../errors.js";
import { readSource } from "../transform.js";

/** The word for standard input. */
export const STANDARD_INPUT = "-";
/** What it is called in messages; its name says that it is TypeScript. */
const NAME = "stdin.ts";

/**
 * The text of a file, or of standard input for `-`.
 *
 * @param {string} file
 * @param {import("node:stream").Readable} stdin
 * @returns {Promise<{ source: string, filename: string }>}
 */
export async function readText(file, stdin) {
  if (file !== STANDARD_INPUT) return { source: await readSource(file), filename: file };
  const pieces = [];
  try {
    for await (const piece of stdin) pieces.push(piece);
  } catch (error) {
    throw new OxtError(`standard input cannot be read: ${error.code ?? error.message}`);
  }
  return { source: Buffer.concat(pieces).toString(), filename: NAME };
}
