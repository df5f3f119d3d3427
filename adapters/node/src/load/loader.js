/**
 * Lowers the files that Node loads.
 */
import path from "node:path";
import { OxtError } from "../errors.js";
import { lower, lowerSync, readSource, readSourceSync } from "../transform.js";
import { Cache, keyOf } from "./cache.js";

/** The endings of TypeScript, in the order in which a name without ending is tried. */
export const ENDINGS = [".ts", ".tsx", ".mts", ".cts"];
export const TYPESCRIPT = /\.(?:[cm]?ts|tsx)$/i;

/**
 * A file as Node is given it.
 *
 * @typedef {{ code: string, isModule: boolean }} Loaded
 */

export class Loader {
  /** @param {{ options?: object, binary?: string, cache?: string | false }} [settings] as `register` was given them */
  constructor({ options = {}, binary, cache } = {}) {
    this.options = { ...options, binary };
    this.cache = new Cache(cache);
  }

  /**
   * @param {string} file
   * @returns {Promise<Loaded>}
   */
  async load(file) {
    const question = this.ask(file, await readSource(file));
    return question.found ?? this.keep(question, await lower(question.source, question.options));
  }

  /**
   * @param {string} file
   * @returns {Loaded}
   */
  loadSync(file) {
    const question = this.ask(file, readSourceSync(file));
    return question.found ?? this.keep(question, lowerSync(question.source, question.options));
  }

  ask(file, source) {
    const filename = nameOf(file);
    const key = keyOf({ source, filename, options: this.options });
    return { key, source, found: this.cache.get(key), options: { ...this.options, filename } };
  }

  /** What can be run is kept; what cannot is an error. */
  keep({ key, options }, { code, isModule, jsx, diagnostics }) {
    const [first] = diagnostics;
    const place = first?.line ? `at ${options.filename}:${first.line}:${first.column}` : `in ${options.filename}`;
    if (first) throw new OxtError(`${first.message} ${place}`);
    if (jsx) throw new OxtError("JSX stays as it is, and Node cannot run it,", jsx);
    const loaded = { code, isModule };
    this.cache.set(key, loaded);
    return loaded;
  }
}

/** A file as messages name it: from the working directory on, where it is below that. */
function nameOf(file) {
  const relative = path.relative(process.cwd(), file);
  return relative.startsWith("..") ? file : relative;
}
