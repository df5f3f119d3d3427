/**
 * The packages and the program that tests compare with, and why a test is skipped where one is missing.
 */
import { createRequire } from "node:module";
import { OxtError } from "../../index.js";
import { findBinary } from "../../src/run/binary.js";
import { loadTypescript } from "../../src/typescript.js";

const SYSTEM_FOLDER = "/usr/share/nodejs/";

const attempt = (load) => {
  try {
    return load();
  } catch (error) {
    if (error instanceof OxtError || error.code === "MODULE_NOT_FOUND") return undefined;
    throw error;
  }
};

const require = createRequire(import.meta.url);
const load = (name) => attempt(() => require(name)) ?? attempt(() => require(SYSTEM_FOLDER + name));

export const ts = loadTypescript();
export const babel = load("@babel/parser");
export const binary = attempt(() => findBinary());

/** The option of a test that needs the program. */
export const NEEDS_PROGRAM = { skip: binary ? false : "the program oxt is not built" };
/** The option of a test that needs Babel. */
export const NEEDS_BABEL = { skip: babel ? false : "the package @babel/parser is not installed" };
/** Whether the parser has what came with that version of the package. */
export const isFrom = (major, minor) => {
  const [ourMajor, ourMinor] = ts.version.split(".").map(Number);
  return ourMajor > major || (ourMajor === major && ourMinor >= minor);
};
