/**
 * Finds the `typescript` package: that of the user's project, else the one that Debian installs.
 */
import { existsSync } from "node:fs";
import { createRequire } from "node:module";
import path from "node:path";
import { OxtProgramError } from "./errors.js";

/** Folders of modules that a distribution fills. */
const SYSTEM_FOLDERS = ["/usr/share/nodejs", "/usr/lib/nodejs"];
const MIN_VERSION = [4, 8];

/** The packages that were loaded, by the path of their main file. */
const loaded = new Map();
/** The main files that were found, by the folder from which they were looked for. */
const found = new Map();

/**
 * Loads the `typescript` package that a file's project uses.
 *
 * @param {string} [from] a file or folder of the project; the working directory if not given
 * @returns {typeof import("typescript")}
 */
export function loadTypescript(from = process.cwd()) {
  const file = findTypescript(from);
  if (!loaded.has(file)) loaded.set(file, checked(createRequire(import.meta.url)(file), file));
  return loaded.get(file);
}

/**
 * The path of the main file of the package, which is not loaded.
 *
 * @param {string} from
 * @returns {string}
 */
export function findTypescript(from) {
  const start = path.resolve(from);
  if (!found.has(start)) found.set(start, search(start));
  return found.get(start);
}

function search(from) {
  for (const folder of [path.join(from, "_"), path.join(process.cwd(), "_"), import.meta.url]) {
    try {
      return createRequire(folder).resolve("typescript");
    } catch {
      // The next folder may have it.
    }
  }
  for (const folder of SYSTEM_FOLDERS) {
    const manifest = path.join(folder, "typescript", "package.json");
    if (existsSync(manifest)) return createRequire(manifest).resolve(path.dirname(manifest));
  }
  throw new OxtProgramError(
    `no package 'typescript' in ${from}, nor in ${SYSTEM_FOLDERS.join(" or ")}; ` +
      "install it with 'npm install typescript' or 'apt-get install node-typescript'",
  );
}

/** The package, once its version is known to be one that the parser's tree is read of. */
function checked(ts, file) {
  const [major, minor] = String(ts.version).split(".").map(Number);
  const isOlder = major < MIN_VERSION[0] || (major === MIN_VERSION[0] && minor < MIN_VERSION[1]);
  if (!ts.createSourceFile || isOlder) {
    throw new OxtProgramError(`typescript ${ts.version} in ${file} is not ${MIN_VERSION.join(".")} or later with a parser of its own`);
  }
  return ts;
}
