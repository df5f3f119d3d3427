/**
 * The kinds of the grammar, out of the file in which the repository writes them down.
 */
import { readFileSync } from "node:fs";

const GRAMMAR = new URL("../../../../grammar/grammar.txt", import.meta.url);
const ROW = /^([A-Z]\w*):/gm;

export const KINDS = [...readFileSync(GRAMMAR, "utf8").matchAll(ROW)].map(([, kind]) => kind);
export const PLAIN_KINDS = KINDS.filter((kind) => !/^(?:TS|JSDoc)/.test(kind));
