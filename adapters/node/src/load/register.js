/**
 * Lets Node load TypeScript.
 */
import { writeSync } from "node:fs";
import { register as registerHooks } from "node:module";
import { isOxtError } from "../errors.js";
import { flagsOf } from "../run/options.js";
import { registerRequire } from "./require.js";

const STANDARD_ERROR = 2;
let isRegistered = false;

/**
 * Lets Node load `.ts`, `.tsx`, `.mts` and `.cts` from now on, by `import` and by `require`. A source that is wrong or
 * refused ends the process with one line and the status 1, unless the program that imports it catches the error.
 *
 * @param {import("../../index.js").RegisterOptions} [options]
 */
export function register(options = {}) {
  const { binary, cache, ...others } = options;
  flagsOf(others);
  const settings = { binary, cache, options: others };
  registerHooks("./hooks.js", import.meta.url, { data: settings });
  registerRequire(settings);
  if (isRegistered) return;
  isRegistered = true;
  process.on("uncaughtExceptionMonitor", endWithLine);
}

function endWithLine(error) {
  if (!isOxtError(error) || process.listenerCount("uncaughtException") > 0) return;
  writeSync(STANDARD_ERROR, `${error.message}\n`);
  process.exit(1);
}
