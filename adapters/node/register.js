/**
 * `node --import ./adapters/node/register.js app.ts` runs TypeScript. Flags of the program stand in `OXT_FLAGS`.
 */
import { writeSync } from "node:fs";
import { optionsOfWords } from "./src/cli/words.js";
import { isOxtError } from "./src/errors.js";
import { register } from "./src/load/register.js";

try {
  register(optionsOfWords((process.env.OXT_FLAGS ?? "").split(/\s+/).filter(Boolean)).options);
} catch (error) {
  if (!isOxtError(error)) throw error;
  writeSync(2, `OXT_FLAGS: ${error.message}\n`);
  process.exit(1);
}
