/**
 * Sources that Debian's packages ship.
 */
import { existsSync, readdirSync, statSync } from "node:fs";
import path from "node:path";

const ROOT = process.env.OXT_CORPUS ?? "/usr/share/nodejs";
const MAX_BYTES = 200_000;
/** All of them take minutes; every so manieth is a sample that differs little. */
const STEP = Number(process.env.OXT_CORPUS_STEP ?? 12);

/** Some of the files with such a name. */
export function sourcesNamed(pattern) {
  if (!existsSync(ROOT)) return [];
  const files = readdirSync(ROOT, { recursive: true })
    .map((name) => path.join(ROOT, name))
    .filter((file) => pattern.test(file) && isSource(file))
    .sort();
  return files.filter((_file, index) => index % STEP === 0);
}

function isSource(file) {
  const found = statSync(file, { throwIfNoEntry: false });
  return found !== undefined && found.isFile() && found.size <= MAX_BYTES;
}
