/**
 * Where the program is.
 */
import { accessSync, constants, statSync } from "node:fs";
import path from "node:path";
import { fileURLToPath } from "node:url";
import { OxtProgramError } from "../errors.js";

/** The variable of the environment that names the program. */
export const BINARY_VARIABLE = "OXT_BINARY";
const BUILT = fileURLToPath(new URL("../../../../crates/oxt/out/oxt", import.meta.url));

/**
 * The path of the program: the one given, else the one that the environment names, else the one that the repository
 * has built, else the first `oxt` on the path.
 *
 * @param {string} [given]
 * @returns {string}
 * @throws {OxtProgramError} where there is none
 */
export function findBinary(given) {
  if (given !== undefined) return named(given, "the option 'binary'");
  const ofEnvironment = process.env[BINARY_VARIABLE];
  if (ofEnvironment) return named(ofEnvironment, BINARY_VARIABLE);
  const folders = (process.env.PATH ?? "").split(path.delimiter).filter(Boolean);
  const found = [BUILT, ...folders.map((folder) => path.join(folder, "oxt"))].find(isProgram);
  if (found) return found;
  throw new OxtProgramError(
    `the program oxt is neither at ${BUILT} nor on the PATH; build it with 'rt run' in crates/oxt, or name it by ${BINARY_VARIABLE}`,
  );
}

function named(file, by) {
  const absolute = path.resolve(file);
  if (!isProgram(absolute)) throw new OxtProgramError(`${by} names ${file}, which is no program`);
  return absolute;
}

function isProgram(file) {
  try {
    accessSync(file, constants.X_OK);
    return statSync(file).isFile();
  } catch {
    return false;
  }
}
