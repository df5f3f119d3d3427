/**
 * Where the packages and the program are found, and what the types of the functions say.
 */
import assert from "node:assert/strict";
import { chmod } from "node:fs/promises";
import path from "node:path";
import { describe, test } from "node:test";
import { fileURLToPath } from "node:url";
import { parse } from "../index.js";
import { BINARY_VARIABLE, findBinary } from "../src/run/binary.js";
import { loadTypescript } from "../src/typescript.js";
import { folderWith, programIn } from "./support/folder.js";
import { ts } from "./support/packages.js";

describe("the package 'typescript'", () => {
  const packageIn = (text) => ({ "node_modules/typescript/package.json": '{ "main": "main.js" }', "node_modules/typescript/main.js": text });

  test("is that of the project", async (t) => {
    const folder = await folderWith(t, { ...packageIn("module.exports = { version: '9.1.2', createSourceFile() {} };"), "inner/a.ts": "" });
    assert.equal(loadTypescript(folder).version, "9.1.2");
    assert.equal(loadTypescript(path.join(folder, "inner")).version, "9.1.2");
  });

  test("is that of the system where the project has none", async (t) => {
    assert.equal(loadTypescript(await folderWith(t)).version, ts.version);
  });

  test("is refused where it is too old, or has no parser of its own", async (t) => {
    for (const [version, maker] of [["4.7.4", "createSourceFile() {}"], ["7.0.0", ""]]) {
      const folder = await folderWith(t, packageIn(`module.exports = { version: '${version}', ${maker} };`));
      const message = new RegExp(`^typescript ${version} in \\S+ is not 4\\.8 or later with a parser of its own$`);
      assert.throws(() => loadTypescript(folder), { name: "OxtProgramError", message });
    }
  });

  test("can be given", () => {
    const used = [];
    const parser = { ...ts, createSourceFile: (...words) => used.push(words[0]) && ts.createSourceFile(...words) };
    parse("a;", { filename: "a.ts", parser });
    assert.deepEqual(used, ["a.ts"]);
  });
});

describe("the program", () => {
  /** What is found with that environment. */
  function foundWith(environment, given) {
    const kept = { ...process.env };
    Object.assign(process.env, environment);
    try {
      return findBinary(given);
    } finally {
      for (const name of Object.keys(environment)) {
        if (kept[name] === undefined) delete process.env[name];
        else process.env[name] = kept[name];
      }
    }
  }

  test("is the one given, else that of the environment", async (t) => {
    const [one, other] = [await programIn(await folderWith(t), ""), await programIn(await folderWith(t), "")];
    assert.equal(foundWith({ [BINARY_VARIABLE]: one }, other), other);
    assert.equal(foundWith({ [BINARY_VARIABLE]: one }), one);
  });

  test("has to be a program", async (t) => {
    const file = await programIn(await folderWith(t), "");
    await chmod(file, 0o644);
    assert.throws(() => foundWith({ [BINARY_VARIABLE]: file }), { message: `OXT_BINARY names ${file}, which is no program` });
  });
});

test("the types of the functions", async (t) => {
  const folder = await folderWith(t, {
    "use.ts": `import { parse, print, register, transform, transformFiles, transformSync, OxtRefusal, type Program } from ${JSON.stringify(fileURLToPath(new URL("../index.js", import.meta.url)))};
const tree: Program = parse("a", { filename: "a.ts", sourceType: "script" });
const text: string = print(tree);
const code: Promise<string> = transform(text, { module: "esm", typescript: { jsx_pragma: "h" }, binary: "oxt" }).then((it) => it.code);
const line: number | null = transformSync(text).diagnostics[0].line;
async function all() { for await (const it of transformFiles(["a.ts"])) if (it.error) it.error.message; else it.code.length; }
register({ cache: false, decorator: { legacy: true } });
const reason = (error: OxtRefusal): string => error.reason + error.line;
// @ts-expect-error
transform("a", { module: "amd" });
export { code, line, all, reason };
`,
  });
  const options = { noEmit: true, strict: true, target: ts.ScriptTarget.ESNext, module: ts.ModuleKind.ESNext, moduleResolution: ts.ModuleResolutionKind.NodeJs, types: [] };
  const program = ts.createProgram([path.join(folder, "use.ts")], options);
  const faults = ts.getPreEmitDiagnostics(program).map(({ messageText }) => ts.flattenDiagnosticMessageText(messageText, " "));
  assert.deepEqual(faults, []);
});
