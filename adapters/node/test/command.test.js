/**
 * The command `oxt-node`.
 */
import assert from "node:assert/strict";
import { spawn } from "node:child_process";
import { readdir, readFile } from "node:fs/promises";
import path from "node:path";
import { describe, test } from "node:test";
import { fileURLToPath } from "node:url";
import { main } from "../src/cli/main.js";
import { outputsOf } from "../src/cli/paths.js";
import { wordsOf } from "../src/cli/words.js";
import { folderWith } from "./support/folder.js";
import { NEEDS_PROGRAM } from "./support/packages.js";
import { runNode } from "./support/run.js";

const COMMAND = fileURLToPath(new URL("../bin/oxt-node.js", import.meta.url));

describe("one file", NEEDS_PROGRAM, () => {
  test("is printed", async (t) => {
    const cwd = await folderWith(t, { "a.ts": "let a: string;\n" });
    assert.deepEqual(await runNode([COMMAND, "a.ts"], { cwd }), { status: 0, out: "let a;\n", err: "" });
  });

  test("comes from standard input", async () => {
    assert.deepEqual(await runNode([COMMAND, "-"], { input: "let a: string;\n" }), { status: 0, out: "let a;\n", err: "" });
  });

  test("takes flags of the program", async (t) => {
    const cwd = await folderWith(t, { "a.ts": 'import { a } from "b";\n' });
    assert.equal((await runNode([COMMAND, "--only-remove-type-imports", "a.ts"], { cwd })).out, 'import { a } from "b";\n');
  });

  test("takes those that have a word", async (t) => {
    const cwd = await folderWith(t, { "a.ts": 'import a from "./b.mts";\nimport c = require("d");\na(c);\n' });
    const lines = ['"use strict";', 'import a from "./b.mjs";', 'const c = require("d");', "a(c);", ""];
    const words = [COMMAND, "--module", "commonjs", "--rewrite-extensions=rewrite", "--no-namespaces", "a.ts"];
    assert.deepEqual(await runNode(words, { cwd }), { status: 0, out: lines.join("\n"), err: "" });
  });

  test("has a tree", async () => {
    const { status, out, err } = await runNode([COMMAND, "--tree", "-"], { input: "let a: string;\n" });
    assert.deepEqual([status, err], [0, ""]);
    assert.equal(JSON.parse(out).body[0].type, "VariableDeclaration");
  });

  test("is complained of", async (t) => {
    const cwd = await folderWith(t, { "a.ts": "(f() as any)++;\n" });
    const { status, out, err } = await runNode([COMMAND, "a.ts"], { cwd });
    assert.deepEqual([status, out], [1, "f()++;\n"]);
    assert.match(err, /^oxt-node: Cannot strip out typescript syntax .* in a\.ts\n$/);
  });
});

describe("what is wrong gives one line and a status", NEEDS_PROGRAM, () => {
  const cases = [
    [["none.ts"], 1, "none.ts cannot be read: there is no such file"],
    [["."], 1, ". cannot be read: it is a folder"],
    [["syntax.ts"], 1, "syntax error: Type expected at syntax.ts:1:8"],
    [["refused.ts"], 1, "misplaced body at refused.ts:1:8"],
    [["--oxt", "/nowhere", "syntax.ts"], 1, "the option 'binary' names /nowhere, which is no program"],
    [[], 2, "a file is wanted; 'oxt-node --help' tells more"],
    [["a.ts", "b.ts"], 2, "more than one file needs --out-dir; 'oxt-node --help' tells more"],
    [["--nothing", "a.ts"], 2, "there is no flag --nothing; 'oxt-node --help' tells more"],
    [["--module=amd", "syntax.ts"], 2, "the option 'module' is preserve or esm or commonjs, not amd; 'oxt-node --help' tells more"],
    [["--tree", "--out-dir", "out", "a.ts"], 2, "--tree and --out-dir do not go together; 'oxt-node --help' tells more"],
    [["--out-dir"], 2, "the flag --out-dir needs a value; 'oxt-node --help' tells more"],
    [["--legacy=yes"], 2, "the flag --legacy takes no value; 'oxt-node --help' tells more"],
    [["--legacy", "--legacy"], 2, "the flag --legacy is given twice; 'oxt-node --help' tells more"],
  ];
  for (const [words, status, line] of cases) {
    test(words.join(" ") || "no words", async (t) => {
      const cwd = await folderWith(t, { "syntax.ts": "let a: = 1;\n", "refused.ts": "label: type B = string;\n" });
      assert.deepEqual(await runNode([COMMAND, ...words], { cwd }), { status, out: "", err: `oxt-node: ${line}\n` });
    });
  }

  test("a closed pipe", async (t) => {
    const cwd = await folderWith(t, { "a.ts": "a;\n".repeat(100_000) });
    const child = spawn(process.execPath, [COMMAND, "a.ts"], { cwd });
    let err = "";
    child.stderr.on("data", (piece) => (err += piece));
    child.stdout.destroy();
    const status = await new Promise((resolve) => child.on("close", resolve));
    assert.deepEqual([status, err], [1, "oxt-node: standard output cannot be written: EPIPE\n"]);
  });
});

describe("many files", NEEDS_PROGRAM, () => {
  const files = {
    "src/a.ts": "export const a: number = 1;\n",
    "src/inner/b.mts": "export const b: number = 2;\n",
    "src/inner/c.tsx": "export const c = (d: E) => <d/>;\n",
    "src/f.cts": "const f = 1 as number;\n",
    "src/wrong.ts": "let a: ;\n",
    "src/refused.ts": "label: type B = string;\n",
  };
  const names = Object.keys(files);

  test("are written, and the refusals come at the end", async (t) => {
    const cwd = await folderWith(t, files);
    const { status, out, err } = await runNode([COMMAND, "--out-dir", "out", ...names, "src/none.ts"], { cwd });
    assert.equal(out, "");
    assert.deepEqual(err.split("\n"), [
      "oxt-node: syntax error: Type expected at src/wrong.ts:1:8",
      "oxt-node: misplaced body at src/refused.ts:1:8",
      "oxt-node: src/none.ts cannot be read: there is no such file",
      "4 files written to out, 3 refused",
      "",
    ]);
    assert.equal(status, 1);
    const written = (await readdir(path.join(cwd, "out"), { recursive: true })).sort();
    assert.deepEqual(written, ["a.js", "f.cjs", "inner", "inner/b.mjs", "inner/c.jsx"]);
    assert.equal(await readFile(path.join(cwd, "out/inner/c.jsx"), "utf8"), "export const c = (d) => <d />;\n");
  });

  test("all of which are fine", async (t) => {
    const cwd = await folderWith(t, files);
    const { status, err } = await runNode([COMMAND, "--out-dir=out", "src/a.ts"], { cwd });
    assert.deepEqual({ status, err }, { status: 0, err: "1 file written to out\n" });
  });

  test("some of which are definitions", async (t) => {
    const cwd = await folderWith(t, { ...files, "src/d.d.ts": "declare const d: string;\n" });
    const { status, err } = await runNode([COMMAND, "--out-dir", "out", "src/a.ts", "src/d.d.ts"], { cwd });
    assert.deepEqual({ status, err }, { status: 0, err: "1 file written to out, 1 with definitions alone\n" });
    assert.deepEqual(await readdir(path.join(cwd, "out")), ["a.js"]);
  });

  test("that cannot be written", async (t) => {
    const cwd = await folderWith(t, files);
    const { status, err } = await runNode([COMMAND, "--out-dir=src/a.ts", "src/f.cts"], { cwd });
    assert.equal(status, 1);
    assert.match(err, /^oxt-node: src\/a\.ts\/f\.cjs cannot be written: E\w+\n0 files written to src\/a\.ts, 1 refused\n$/);
  });

  test("show on a terminal how far it is", async (t) => {
    const cwd = await folderWith(t, files);
    const shown = [];
    const stderr = { isTTY: true, columns: 60, write: (text) => shown.push(text) };
    await main(["--out-dir", path.join(cwd, "out"), path.join(cwd, "src/a.ts"), path.join(cwd, "src/f.cts")], { stderr });
    assert.match(shown[0], /^\r\x1b\[K\[1\/2\] /);
    assert.match(shown[1], /^\r\x1b\[K\[2\/2\] /);
    assert.equal(shown[2], "\r\x1b[K");
    assert.match(shown[3], /^2 files written to /);
  });
});

describe("words", () => {
  test("are read", () => {
    assert.deepEqual(wordsOf(["a.ts", "--jsx-pragma", "h", "--no-namespaces", "--module=esm", "--out-dir=o", "--", "--b.ts"]), {
      files: ["a.ts", "--b.ts"],
      options: { typescript: { jsx_pragma: "h", allow_namespaces: false }, module: "esm" },
      outDir: "o",
    });
  });

  test("'--help' and '--version' tell", async () => {
    const help = await runNode([COMMAND, "--help"]);
    assert.deepEqual([help.status, help.err], [0, ""]);
    assert.match(help.out, /^usage: oxt-node FILE/);
    assert.match((await runNode([COMMAND, "--version"])).out, /^\d+\.\d+\.\d+\n$/);
  });
});

describe("outputs", () => {
  test("stand as the files do", () => {
    assert.deepEqual([...outputsOf(["/a/b/c.ts", "/a/d/e.mts"], "out")], [["/a/b/c.ts", "out/b/c.js"], ["/a/d/e.mts", "out/d/e.mjs"]]);
    assert.deepEqual([...outputsOf(["/a/b/c.ts"], "out")], [["/a/b/c.ts", "out/c.js"]]);
    assert.deepEqual([...outputsOf(["/a/b/c.ts", "/a/bb/c.ts"], "out")], [["/a/b/c.ts", "out/b/c.js"], ["/a/bb/c.ts", "out/bb/c.js"]]);
  });

  test("are not written over each other or over a file", () => {
    assert.throws(() => outputsOf(["/a/b.ts", "/a/b.js"], "/o"), { message: "/a/b.ts and /a/b.js would both be written to /o/b.js" });
    assert.throws(() => outputsOf(["/a/b.js"], "/a"), { message: "/a/b.js would be written over /a/b.js, which is one of the files" });
  });
});
