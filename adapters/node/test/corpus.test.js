/**
 * Sources that people wrote: those of Debian's packages, a sample of them. `OXT_CORPUS` names another folder,
 * `OXT_CORPUS_STEP=1` takes all.
 */
import assert from "node:assert/strict";
import { readFileSync } from "node:fs";
import { describe, test } from "node:test";
import { OxtSyntaxError, parse, print, transformFiles } from "../index.js";
import { babelTree } from "./support/babel.js";
import { sourcesNamed } from "./support/corpus.js";
import { NEEDS_BABEL, NEEDS_PROGRAM } from "./support/packages.js";
import { firstDifference, meaning } from "./support/trees.js";

const javascript = sourcesNamed(/\.[cm]?js$/);
const typescript = sourcesNamed(/\.[cm]?tsx?$/);
/** Some of the files are what no parser reads. */
const ENOUGH = 0.99;

const skipWithout = (files) => (files.length > 0 ? false : "there are no such files");

/** Whether nearly all files pass: those that the call gives no line of complaint for. */
async function expectMost(t, files, complaintOf) {
  const complaints = [];
  for (const file of files) {
    const complaint = await complaintOf(file);
    if (complaint) complaints.push(`${file}: ${complaint}`);
  }
  t.diagnostic(`${files.length} files, ${complaints.length} that differ`);
  assert.ok(complaints.length <= files.length * (1 - ENOUGH), complaints.slice(0, 10).join("\n"));
}

/** What the call gives, or undefined where the file is none that the parser reads. */
function ofReadable(file, compare) {
  const source = readFileSync(file, "utf8");
  try {
    return compare(source, parse(source, { filename: file }));
  } catch (error) {
    if (error instanceof OxtSyntaxError && error.filename === file) return undefined;
    return error.message;
  }
}

describe("JavaScript", { skip: skipWithout(javascript) }, () => {
  test("comes back as it was", async (t) => {
    await expectMost(t, javascript, (file) =>
      ofReadable(file, (_source, tree) => firstDifference(meaning(tree), meaning(parse(print(tree), { filename: `printed ${file}` })))),
    );
  });

  test("comes back as it was, as Babel reads it", NEEDS_BABEL, async (t) => {
    await expectMost(t, javascript, (file) =>
      ofReadable(file, (source, tree) => firstDifference(babelTree(source), babelTree(print(tree)))),
    );
  });
});

describe("TypeScript", { skip: skipWithout(typescript) }, () => {
  test("has trees of the grammar, which the program takes", NEEDS_PROGRAM, async (t) => {
    const errors = [];
    for await (const { filename, error } of transformFiles(typescript)) {
      if (error && !/nested deeper|misplaced|captured/.test(error.message)) errors.push(`${filename}: ${error.message}`);
    }
    t.diagnostic(`${typescript.length} files`);
    assert.ok(errors.length <= typescript.length * (1 - ENOUGH), errors.join("\n"));
  });
});
