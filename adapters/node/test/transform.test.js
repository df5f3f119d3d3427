/**
 * From source to JavaScript by way of the program.
 */
import assert from "node:assert/strict";
import path from "node:path";
import { describe, test } from "node:test";
import { OxtOptionError, OxtProgramError, OxtRefusal, OxtSyntaxError, transform, transformFiles, transformSync } from "../index.js";
import { Question } from "../src/run/answer.js";
import { flagsOf } from "../src/run/options.js";
import { folderWith, programIn } from "./support/folder.js";
import { NEEDS_PROGRAM, ts } from "./support/packages.js";

describe("what is lowered", NEEDS_PROGRAM, () => {
  test("a module", async () => {
    const source = 'import { a, type B } from "c";\nexport const d: B = (a as B)!;\nexport type E = B;\n';
    const expected = { code: 'import { a } from "c";\nexport const d = a;\n', diagnostics: [] };
    assert.deepEqual(await transform(source), expected);
    assert.deepEqual(transformSync(source), expected);
  });

  test("definitions become nothing", async () => {
    assert.equal((await transform("export declare const a: string;", { filename: "a.d.ts" })).code, "");
  });

  test("JSX stays", async () => {
    const { code } = await transform("export const a = (b: C) => <D<E> f={b as G}> text </D>;", { filename: "a.tsx" });
    assert.equal(code, "export const a = (b) => <D f={b}> text </D>;\n");
  });

  test("JavaScript comes back", async () => {
    assert.equal((await transform("#!/bin/node\n'use strict';\nlet a = 1;\n", { filename: "a.js" })).code, '#!/bin/node\n"use strict";\nlet a = 1;\n');
  });

  test("an option", async () => {
    const source = 'import { a } from "b";\n';
    assert.equal((await transform(source)).code, "export {};\n");
    assert.equal((await transform(source, { typescript: { only_remove_type_imports: true } })).code, source);
  });

  test("an enum, and its members under an option", async () => {
    const source = "enum E { A = 1, B = \"b\" }\nf(E.A, E.B);\n";
    const lines = ["var E = /* @__PURE__ */ function (E) {", '  E[E["A"] = 1] = "A";', '  E["B"] = "b";', "  return E;", "}(E || {});", "f(E.A, E.B);", ""];
    assert.equal((await transform(source)).code, lines.join("\n"));
    assert.equal((await transform(source, { typescript: { optimize_enums: true } })).code, 'f(1, "b");\n');
    assert.equal((await transform(source, { typescript: { optimize_const_enums: true } })).code, lines.join("\n"));
    assert.equal((await transform(`const ${source}`, { typescript: { optimize_const_enums: true } })).code, 'f(1, "b");\n');
  });

  test("a namespace with what it exports", async () => {
    const source = "export namespace A { export const b = 1; export namespace C.D { export function e() {} } }\nexport namespace A { f(A.b); }\n";
    const lines = [
      "export let A;",
      "(function (_A) {",
      "  const b = _A.b = 1;",
      "  let C;",
      "  (function (_C) {",
      "    let D;",
      "    (function (_D) {",
      "      function e() {}",
      "      _D.e = e;",
      "    })(D || (D = _C.D || (_C.D = {})));",
      "  })(C || (C = _A.C || (_A.C = {})));",
      "})(A || (A = {}));",
      "(function (_A2) {",
      "  f(A.b);",
      "})(A || (A = {}));",
      "",
    ];
    assert.deepEqual(await transform(source), { code: lines.join("\n"), diagnostics: [] });
  });

  test("a pattern in a namespace", async () => {
    const lines = ["let A;", "(function (_A) {", "  const { b, c: [d] } = e;", "  _A.b = b, _A.d = d;", "})(A || (A = {}));", ""];
    assert.equal((await transform("namespace A { export const { b, c: [d] } = e; }")).code, lines.join("\n"));
  });

  test("an 'import =' of a name and of a module, and an 'export ='", async () => {
    const source = 'import a = require("b");\nimport c = a.d;\nimport type e = require("f");\nexport = c;\n';
    const lines = ['const a = require("b");', "var c = a.d;", "module.exports = c;", ""];
    assert.deepEqual(await transform(source), { code: lines.join("\n"), diagnostics: [] });
    assert.equal((await transform(source, { module: "commonjs" })).code, ['"use strict";', ...lines].join("\n"));
    const { code, diagnostics } = await transform(source, { module: "esm" });
    assert.equal(code, lines.join("\n"));
    assert.deepEqual(diagnostics.map((it) => [it.code, it.line, it.column]), [["TS1202", 1, 1], ["TS1203", 4, 1]]);
  });

  test("namespaces that are not wanted are told of", async () => {
    const { diagnostics } = await transform("type A = 1;\n  namespace B { export const c = 1; }\n", { typescript: { allow_namespaces: false } });
    assert.deepEqual(diagnostics.map(({ line, column }) => [line, column]), [[2, 3]]);
  });

  test("names of modules under an option", async () => {
    const source = 'import a from "./b.mts";\na;\n';
    const written = async (mode) => (await transform(source, { typescript: { rewrite_import_extensions: mode } })).code;
    assert.equal(await written(false), source);
    assert.equal(await written(true), source.replace(".mts", ".mjs"));
    assert.equal(await written("rewrite"), source.replace(".mts", ".mjs"));
    assert.equal(await written("remove"), source.replace(".mts", ""));
  });

  test("what a diagnostic tells of is written without its type", async () => {
    const { code, diagnostics } = await transform("(f() as any)++;", { filename: "a.ts" });
    assert.equal(code, "f()++;\n");
    assert.equal(diagnostics.length, 1);
    assert.match(diagnostics[0].message, /^Cannot strip out typescript syntax/);
    assert.deepEqual([diagnostics[0].code, diagnostics[0].line, diagnostics[0].filename], [null, null, "a.ts"]);
  });

  test("many at a time keep their order", async (t) => {
    const names = Array.from({ length: 40 }, (_, index) => `${index}.ts`);
    const folder = await folderWith(t, Object.fromEntries(names.map((name, index) => [name, index === 7 ? "let a: ;" : `let a: number = ${index};`])));
    const files = names.map((name) => path.join(folder, name));
    const results = [];
    for await (const result of transformFiles([...files, path.join(folder, "none.ts")])) results.push(result);
    assert.deepEqual(results.map(({ filename }) => path.basename(filename)), [...names, "none.ts"]);
    assert.equal(results[8].code, "let a = 8;\n");
    assert.ok(results[7].error instanceof OxtSyntaxError);
    assert.match(results[40].error.message, /none\.ts cannot be read: there is no such file/);
  });
});

describe("refusals name their place", NEEDS_PROGRAM, () => {
  const cases = [
    ["a;\n  label: type B = string;", "misplaced body at a.ts:2:10"],
    ["class A { b(@c d) {} }", "misplaced decorator at a.ts:1:13"],
    [`x = ${"(".repeat(130)}1${")".repeat(130)};`, /^nested deeper than 127 levels at a\.ts:1:\d+$/],
    ["let a;\n{ interface a {} { declare let a; a; } }", /^captured a at a\.ts:2:\d+$/],
    ["let A;\nenum A { B }", "misplaced merge at a.ts:2:1"],
    ["enum A { B, A }", "misplaced enum at a.ts:1:13"],
    ["enum A { B = 9007199254740991, C }", "wide at a.ts:1:32"],
    ["function f() { enum A { B = arguments.length } }", "captured arguments at a.ts:1:29"],
    ["enum A { B, C = ((A) => B)(1) }", "captured A at a.ts:1:25"],
    ["a;\n{ namespace B { c; } }", "misplaced namespace at a.ts:2:3"],
    ["namespace A { this; }", "captured this at a.ts:1:15"],
    ["class A { constructor(private b) { let b; } }", "captured b at a.ts:1:23"],
    ["class A extends B { constructor(private c) {} }", "misplaced super at a.ts:1:21"],
  ];
  for (const [source, message] of cases) {
    test(source.slice(0, 60), async () => {
      await assert.rejects(transform(source, { filename: "a.ts" }), { name: "OxtRefusal", code: "ERR_OXT_REFUSED", message });
      assert.throws(() => transformSync(source, { filename: "a.ts" }), OxtRefusal);
    });
  }
});

describe("answers of a program", () => {
  const source = "let a;\nenum B {}\nclass C { constructor(d, private e) {} }\n";
  const body = [{ type: "TSEnumDeclaration", start: 7, body: { type: "TSEnumBody", start: 14, members: [] } }];
  const parameter = { type: "FormalParameter", start: 42, accessibility: "private" };
  const tree = { type: "Program", start: 0, body: [...body, { type: "X", start: 17, items: [{ type: "FormalParameter", start: 39 }, parameter] }] };
  const question = new Question({ source, filename: "a.ts", tree, flags: ["--legacy"], binary: "oxt", isModule: false });
  const answer = (parts) => ({ status: 0, signal: null, out: "", err: "", ...parts });
  const cases = [
    [{ status: 2, err: "misplaced namespace /body/0\n" }, OxtRefusal, "misplaced namespace at a.ts:2:1"],
    [{ status: 2, err: "captured arguments /body/0/body\n" }, OxtRefusal, "captured arguments at a.ts:2:8"],
    [{ status: 2, err: "shape /body/0/body/members/3/id\n" }, OxtRefusal, "no tree of the grammar at a.ts:2:8"],
    [{ status: 2, err: "misplaced merge /body/0\n" }, OxtRefusal, "misplaced merge at a.ts:2:1"],
    [{ status: 2, err: "misplaced field /body/1/items/1\n" }, OxtRefusal, "misplaced field at a.ts:3:26"],
    [{ status: 2, err: "wide 14..16\n" }, OxtRefusal, "wide at a.ts:2:8"],
    [{ status: 2, err: "uncertified plain /body/4\n" }, OxtRefusal, "uncertified plain /body/4 at a.ts:1:1"],
    [{ status: 2, err: "json\n" }, OxtRefusal, "no JSON at a.ts:1:1"],
    [{ status: 3, err: "usage: oxt [flags] < tree.json\n" }, OxtOptionError, "oxt does not take the flags --legacy"],
    [{ status: 4 }, OxtProgramError, "oxt could not read the tree at a.ts:1:1"],
    [{ status: 5, out: "{" }, OxtProgramError, "oxt could not write the tree at a.ts:1:1"],
    [{ status: 6 }, OxtProgramError, "oxt ran out of memory at a.ts:1:1"],
    [{ status: 7 }, OxtProgramError, "oxt takes trees of up to 16,777,216 bytes of JSON, and this one has more at a.ts:1:1"],
    [{ status: 127, err: "no such thing\n" }, OxtProgramError, "oxt ended with the status 127: no such thing at a.ts:1:1"],
    [{ status: null, signal: "SIGSEGV" }, OxtProgramError, "oxt was ended by SIGSEGV at a.ts:1:1"],
    [{ status: 0, out: "{" }, OxtProgramError, "oxt wrote no tree"],
  ];
  for (const [parts, kind, message] of cases) {
    test(message, () => {
      assert.throws(() => question.read(answer(parts)), (error) => {
        assert.ok(error instanceof kind, error.stack);
        assert.equal(error.message, message);
        return true;
      });
    });
  }

  test("diagnostics", () => {
    const out = '{"type":"Program"}\nTS1202 14..16 Import assignment cannot be used.\n- - No place.\n';
    const { diagnostics } = question.read(answer({ status: 1, out }));
    assert.deepEqual(diagnostics, [
      { code: "TS1202", message: "Import assignment cannot be used.", filename: "a.ts", start: 14, end: 16, line: 2, column: 8 },
      { code: null, message: "No place.", filename: "a.ts", start: null, end: null, line: null, column: null },
    ]);
  });
});

describe("the program itself", () => {
  const missing = /^the option 'binary' names \S+, which is no program$/;

  test("is missing", async () => {
    await assert.rejects(transform("", { binary: "/nowhere/oxt" }), { name: "OxtProgramError", message: missing });
    assert.throws(() => transformSync("", { binary: "/nowhere/oxt" }), { name: "OxtProgramError", message: missing });
    assert.throws(() => transformSync("", { binary: "/" }), { name: "OxtProgramError", message: missing });
  });

  test("cannot be run", async (t) => {
    const folder = await folderWith(t);
    const binary = await programIn(folder, "").then(async (file) => {
      const { writeFile } = await import("node:fs/promises");
      await writeFile(file, "#!/nowhere/shell\n");
      return file;
    });
    await assert.rejects(transform("", { binary }), /cannot be run: ENOENT/);
    assert.throws(() => transformSync("", { binary }), /cannot be run: ENOENT/);
  });

  test("ends before it has read everything", async (t) => {
    const binary = await programIn(await folderWith(t), "exit 6");
    const source = "a;\n".repeat(200_000);
    await assert.rejects(transform(source, { binary }), /ran out of memory at source\.ts:1:1/);
    assert.throws(() => transformSync(source, { binary }), /ran out of memory at source\.ts:1:1/);
  });
});

describe("options", () => {
  test("their flags", () => {
    const typescript = { jsx_pragma: "h", only_remove_type_imports: true, allow_namespaces: false, optimize_enums: false, rewrite_import_extensions: true };
    assert.deepEqual(flagsOf({ typescript, decorator: { legacy: true, strict_null_checks: true }, module: "commonjs", set_public_class_fields: true }), [
      "--jsx-pragma=h",
      "--only-remove-type-imports",
      "--no-namespaces",
      "--rewrite-extensions=true",
      "--legacy",
      "--module=commonjs",
      "--set-public-class-fields",
    ]);
    assert.deepEqual(flagsOf({ typescript: { rewrite_import_extensions: false, jsx_pragma: undefined }, module: "preserve", decorator: undefined }), []);
  });

  const wrong = [
    [{ typescript: { jsx: "h" } }, "there is no option 'typescript.jsx'"],
    [{ legacy: true }, "there is no option 'legacy'"],
    [{ typescript: { jsx_pragma: 1 } }, "the option 'typescript.jsx_pragma' is a text"],
    [{ decorator: { legacy: "yes" } }, "the option 'decorator.legacy' is true or false"],
    [{ module: "amd" }, "the option 'module' is preserve or esm or commonjs, not amd"],
    [{ decorator: true }, "the option 'decorator' is an object with options"],
    [{ typescript: ts }, /^there is no option 'typescript\./],
  ];
  for (const [options, message] of wrong) test(String(message), () => assert.throws(() => flagsOf(options), { name: "OxtOptionError", message }));
});
