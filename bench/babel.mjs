#!/usr/bin/env node
/**
 * Times Babel and the built program on the same sources, tree to tree: babel.mjs RUNS FILE.ts ..
 *
 * Babel reads the JSON of its own tree, transforms it and writes JSON, in this process, so it is warm. The program is started anew for each run,
 * and gets the tree that `adapters/node` makes of the source. Printed are the medians of both, in milliseconds. Babel's packages are found by
 * the variable NODE_PATH; OXT_BINARY names another program than crates/oxt/out/oxt.
 */
import { spawnSync } from "node:child_process";
import { readFileSync } from "node:fs";
import { createRequire } from "node:module";
import { parse } from "../adapters/node/index.js";

const require = createRequire(import.meta.url);
const OXT = process.env.OXT_BINARY ?? "crates/oxt/out/oxt";
const LEFT_OUT = new Set(["loc", "leadingComments", "trailingComments", "innerComments", "comments", "errors"]);
const MOST_BYTES = 2 ** 28;

/** The median time of that many runs, in milliseconds. */
function median(runs, call) {
  const times = Array.from({ length: runs }, () => {
    const begin = process.hrtime.bigint();
    call();
    return Number(process.hrtime.bigint() - begin) / 1e6;
  });
  return times.sort((one, other) => one - other)[Math.floor(runs / 2)];
}

/** What reads, transforms and writes the tree that Babel makes of the source. */
function babelCall(source, filename) {
  const { transformFromAstSync } = require("@babel/core");
  const tree = require("@babel/parser").parse(source, { sourceType: "module", plugins: ["typescript"] });
  const text = JSON.stringify(tree, (key, value) => (LEFT_OUT.has(key) ? undefined : value));
  const plugins = [[require("@babel/plugin-transform-typescript"), { allowDeclareFields: true }]];
  const options = { filename, plugins, babelrc: false, configFile: false, code: false, ast: true, cloneInputAst: false };
  return () => JSON.stringify(transformFromAstSync(JSON.parse(text), undefined, options).ast);
}

/** What has the program lower the tree of the source. */
function oxtCall(source, filename) {
  const input = JSON.stringify(parse(source, { filename }));
  return () => {
    const { status, stderr } = spawnSync(OXT, [], { input, maxBuffer: MOST_BYTES });
    if (status !== 0 && status !== 1) throw new Error(`${filename}: status ${status}: ${stderr}`);
  };
}

const [runs, ...files] = process.argv.slice(2);
for (const file of files) {
  const source = readFileSync(file, "utf8");
  const [babel, oxt] = [babelCall, oxtCall].map((call) => median(Number(runs), call(source, file)));
  console.log(`${file}: ${source.length} characters: Babel ${babel.toFixed(1)} ms, oxt ${oxt.toFixed(1)} ms, ${(babel / oxt).toFixed(1)} times`);
}
