/**
 * Lets `require` load TypeScript, which the hooks do not reach.
 */
import Module from "node:module";
import { Loader } from "./loader.js";

/** `.mts` is a module by its name, which `require` does not load. */
const ENDINGS = [".ts", ".tsx", ".cts"];

/** @param {{ options?: object, binary?: string, cache?: string | false }} settings */
export function registerRequire(settings) {
  const loader = new Loader(settings);
  for (const ending of ENDINGS) {
    Module._extensions[ending] = (module, filename) => module._compile(loader.loadSync(filename).code, filename);
  }
}
