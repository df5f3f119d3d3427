/**
 * TypeScript that Node loads.
 */
import assert from "node:assert/strict";
import { readdir } from "node:fs/promises";
import path from "node:path";
import { describe, test } from "node:test";
import { fileURLToPath } from "node:url";
import { folderWith } from "./support/folder.js";
import { NEEDS_PROGRAM } from "./support/packages.js";
import { runNode } from "./support/run.js";

const REGISTER = new URL("../register.js", import.meta.url).href;
const PROJECT = fileURLToPath(new URL("./fixtures/project/", import.meta.url));

const run = (file, { cwd, env, words = [] } = {}) => runNode(["--import", REGISTER, ...words, file], { cwd, env: { OXT_CACHE: "off", ...env } });

describe("the loader", NEEDS_PROGRAM, () => {
  test("runs a project with imports between its files", async () => {
    const { status, out, err } = await run("app.ts", { cwd: PROJECT });
    assert.equal(err, "");
    assert.equal(out, "Hello oxt!\n6 1 plain JavaScript\n64 true\nlate\n");
    assert.equal(status, 0);
  });

  test("takes a file without imports as its package says", async (t) => {
    const source = "const a: string = typeof require;\nconsole.log(a);\n";
    const folder = await folderWith(t, { "a.ts": source, "b.mts": source, "c.cts": source, "d/a.ts": source, "d/package.json": '{ "type": "module" }' });
    const outs = [];
    for (const file of ["a.ts", "b.mts", "c.cts", "d/a.ts"]) outs.push((await run(path.join(folder, file))).out.trim());
    assert.deepEqual(outs, ["function", "undefined", "function", "undefined"]);
  });

  test("lets 'require' load it too", async (t) => {
    const folder = await folderWith(t, {
      "a.cts": 'const { b } = require("./b") as any, { c } = require("./c.cts");\nconsole.log(b, c as number);\n',
      "b.ts": "const b: number = 1;\nmodule.exports = { b };\n",
      "c.cts": "exports.c = 2 as number;\n",
      "d.cjs": 'console.log(require("./b").b);\nimport("./a.cts");\n',
      "wrong.cts": 'require("./syntax");\n',
      "syntax.ts": "let a: ;\n",
    });
    assert.deepEqual(await run("a.cts", { cwd: folder }), { status: 0, out: "1 2\n", err: "" });
    assert.deepEqual(await run("d.cjs", { cwd: folder }), { status: 0, out: "1\n1 2\n", err: "" });
    assert.deepEqual(await run("wrong.cts", { cwd: folder }), { status: 1, out: "", err: "syntax error: Type expected at syntax.ts:1:8\n" });
  });

  test("gives flags to the program", async (t) => {
    const folder = await folderWith(t, { "a.ts": 'import { a } from "./b.ts";\n', "b.ts": 'console.log("b");\nexport const a = 1;\n' });
    assert.equal((await run("a.ts", { cwd: folder })).out, "");
    assert.equal((await run("a.ts", { cwd: folder, env: { OXT_FLAGS: "--only-remove-type-imports" } })).out, "b\n");
  });

  test("keeps what was lowered, by content", async (t) => {
    const folder = await folderWith(t, { "a.ts": "const a: number = 1;\nconsole.log(a);\n", "b.ts": "const a: number = 1;\nconsole.log(a);\n" });
    const env = { OXT_CACHE: path.join(folder, "cache") };
    const kept = async () => (await readdir(env.OXT_CACHE, { recursive: true })).filter((name) => name.endsWith(".json"));
    assert.equal((await run("a.ts", { cwd: folder, env })).out, "1\n");
    const [first] = await kept();
    assert.ok(first);
    assert.equal((await run("b.ts", { cwd: folder, env })).out, "1\n");
    assert.deepEqual(await kept(), [first]);
  });

  test("runs where nothing can be kept", async (t) => {
    const folder = await folderWith(t, { "a.ts": "console.log(1 as number);\n" });
    assert.equal((await run("a.ts", { cwd: folder, env: { OXT_CACHE: "/dev/null/cache" } })).out, "1\n");
  });

  test("can be called", async (t) => {
    const index = new URL("../index.js", import.meta.url).href;
    const source = `import { register } from ${JSON.stringify(index)};\nregister({ cache: false });\nawait import("./a.ts");\n`;
    const folder = await folderWith(t, { "start.mjs": source, "a.ts": "console.log(1 as number);\nexport {};\n" });
    const { out, err } = await runNode(["start.mjs"], { cwd: folder });
    assert.equal(err + out, "1\n");
  });
});

describe("what is wrong ends Node with one line", NEEDS_PROGRAM, () => {
  const files = {
    "syntax.ts": "let a: = 1;\n",
    "refused.ts": 'import "./inner/refused.ts";\n',
    "inner/refused.ts": "a;\n  label: type B = string;\n",
    "jsx.tsx": "export const a = <b/>;\n",
    "caught.ts": 'try { await import("./syntax.ts"); } catch (error) { console.log((error as Error).message, (error as any).line); }\nexport {};\n',
    "thrown.ts": "throw new Error('its own');\n",
  };
  const runOne = async (t, file, env) => run(file, { cwd: await folderWith(t, files), env });

  const cases = [
    ["syntax.ts", "syntax error: Type expected at syntax.ts:1:8\n"],
    ["refused.ts", "misplaced body at inner/refused.ts:2:10\n"],
    ["jsx.tsx", "JSX stays as it is, and Node cannot run it, at jsx.tsx:1:18\n"],
  ];
  for (const [file, line] of cases) {
    test(file, async (t) => {
      const { status, out, err } = await runOne(t, file);
      assert.deepEqual({ status, out, err }, { status: 1, out: "", err: line });
    });
  }

  test("a missing program", async (t) => {
    const { status, err } = await runOne(t, "thrown.ts", { OXT_BINARY: "/nowhere" });
    assert.deepEqual({ status, err }, { status: 1, err: "OXT_BINARY names /nowhere, which is no program\n" });
  });

  test("a wrong flag", async (t) => {
    const { status, err } = await runOne(t, "thrown.ts", { OXT_FLAGS: "--nothing" });
    assert.deepEqual({ status, err }, { status: 1, err: "OXT_FLAGS: there is no flag --nothing\n" });
  });

  test("unless it is caught", async (t) => {
    const { status, out } = await runOne(t, "caught.ts");
    assert.deepEqual({ status, out }, { status: 0, out: "syntax error: Type expected at syntax.ts:1:8 1\n" });
  });

  test("but the errors of the program that runs stay as they are", async (t) => {
    const { status, err } = await runOne(t, "thrown.ts");
    assert.equal(status, 1);
    assert.match(err, /Error: its own\n\s+at /);
  });
});

