/**
 * What sources were lowered to, by their content, in memory and in a folder of the user's.
 */
import { createHash, randomUUID } from "node:crypto";
import { mkdirSync, readFileSync, renameSync, rmSync, statSync, writeFileSync } from "node:fs";
import { homedir } from "node:os";
import path from "node:path";
import { findBinary } from "../run/binary.js";
import { flagsOf } from "../run/options.js";
import { findTypescript } from "../typescript.js";

/** The variable of the environment that names the folder, or says `off`. */
const CACHE_VARIABLE = "OXT_CACHE";
const { version: ADAPTER_VERSION } = JSON.parse(readFileSync(new URL("../../package.json", import.meta.url), "utf8"));

export class Cache {
  /** @param {string | false} [folder] where to keep what is lowered; nowhere, for `false` */
  constructor(folder = process.env[CACHE_VARIABLE]) {
    this.folder = folder === false || folder === "off" ? undefined : folder || defaultFolder();
    this.kept = new Map();
  }

  /**
   * What the source is lowered to, if that is known.
   *
   * @param {string} key
   * @returns {object | undefined}
   */
  get(key) {
    return this.kept.get(key) ?? this.stored(key);
  }

  /** Keeps what a source is lowered to. */
  set(key, made) {
    this.kept.set(key, made);
    if (this.folder) this.store(key, made);
  }

  fileOf(key) {
    return path.join(this.folder, key.slice(0, 2), `${key.slice(2)}.json`);
  }

  stored(key) {
    if (!this.folder) return undefined;
    try {
      return JSON.parse(readFileSync(this.fileOf(key), "utf8"));
    } catch {
      return undefined;
    }
  }

  /** Writes it, if the folder can be written; no other process ever sees a part of it. */
  store(key, made) {
    const file = this.fileOf(key);
    const part = `${file}.${randomUUID()}`;
    try {
      mkdirSync(path.dirname(file), { recursive: true, mode: 0o700 });
      writeFileSync(part, JSON.stringify(made));
      renameSync(part, file);
    } catch {
      removeIfThere(part);
    }
  }
}

function removeIfThere(file) {
  try {
    rmSync(file, { force: true });
  } catch {
    // The folder itself cannot be reached.
  }
}

const defaultFolder = () => path.join(process.env.XDG_CACHE_HOME || path.join(homedir(), ".cache"), "oxt-node");

/**
 * The key of a source, made of all on which its result rests: the source and its language, the options, the program,
 * the parser, the adapter.
 */
export function keyOf({ source, filename, options: { binary, ...options } }) {
  const tools = [findBinary(binary), findTypescript(path.dirname(path.resolve(filename)))].map(stateOf);
  const language = path.basename(filename).replace(/^[^.]*/, "");
  const parts = [ADAPTER_VERSION, tools, flagsOf(options), language, source];
  return createHash("sha256").update(JSON.stringify(parts)).digest("hex");
}

/** A file as it stands, without reading it. */
function stateOf(file) {
  const { size, mtimeMs } = statSync(file);
  return [file, size, mtimeMs];
}
