/**
 * Programs do as they do when `typescript` compiles them.
 */
import assert from "node:assert/strict";
import { readdirSync, readFileSync } from "node:fs";
import { cp, writeFile } from "node:fs/promises";
import path from "node:path";
import { describe, test } from "node:test";
import { fileURLToPath } from "node:url";
import { OxtSyntaxError, parse, transform } from "../index.js";
import { folderWith } from "./support/folder.js";
import { NEEDS_PROGRAM, ts } from "./support/packages.js";
import { runNode } from "./support/run.js";

const compilerOptions = { target: "esnext", useDefineForClassFields: true, isolatedModules: true };
/** What is told of a module: what it prints when it is imported, and what it exports. */
const TELL = `const it = await import(process.argv[1]);
for (const name of Object.keys(it)) console.log(name, typeof it[name], it[name]?.name, it[name]?.length);`;

const folderAt = (name) => fileURLToPath(new URL(name, import.meta.url));
/** What modules are compiled to, by their folder: how TypeScript and the program name it, and the ending that they get. */
const MODULES = { theirs: "esnext", ours: "preserve", ending: "mjs" };
const COMMONJS = { theirs: "commonjs", ours: "commonjs", ending: "js" };
const FOLDERS = [
  [folderAt("./fixtures/run/"), MODULES],
  [folderAt("./fixtures/commonjs/"), COMMONJS],
  [folderAt("../../../examples/run/"), MODULES],
];

const typescript = (source, fileName, { theirs: module }) =>
  ts.transpileModule(source, { fileName, compilerOptions: { ...compilerOptions, module } }).outputText;
const oxt = async (source, filename, { ours: module }) => (await transform(source, { filename, module })).code;

const sourcesIn = (folder) => readdirSync(folder).filter((name) => name.endsWith(".ts"));

/** Whether the parser that is installed reads the file; older ones do not know `satisfies`. */
function isRead(file) {
  try {
    parse(readFileSync(file, "utf8"), { filename: file });
    return true;
  } catch (error) {
    if (error instanceof OxtSyntaxError) return false;
    throw error;
  }
}

/** A copy of the folder with a JavaScript module for each of the files that is read. */
async function compiled(t, folder, files, kind, compile) {
  const copy = await folderWith(t);
  await cp(folder, copy, { recursive: true });
  for (const file of files) {
    const source = readFileSync(path.join(folder, file), "utf8");
    await writeFile(path.join(copy, file.replace(/ts$/, kind.ending)), await compile(source, file, kind));
  }
  return copy;
}

for (const [folder, kind] of FOLDERS) {
  const all = sourcesIn(folder);
  const read = all.filter((name) => isRead(path.join(folder, name)));

  describe(path.relative(process.cwd(), folder), NEEDS_PROGRAM, () => {
    test("modules do the same", async (t) => {
      const ours = await compiled(t, folder, read, kind, oxt);
      const theirs = await compiled(t, folder, read, kind, typescript);
      let lines = 0;
      for (const file of read) {
        const words = ["--input-type=module", "-e", TELL, `./${file.replace(/ts$/, kind.ending)}`];
        const wanted = await runNode(words, { cwd: theirs });
        const found = await runNode(words, { cwd: ours });
        assert.deepEqual([found.status, found.out], [wanted.status, wanted.out], file);
        if (wanted.status !== 0) assert.match(wanted.err, /ERR_MODULE_NOT_FOUND/, `${file} runs, or imports what is not read`);
        lines += wanted.out.split("\n").length;
      }
      t.diagnostic(`${read.length} of ${all.length} modules are read, ${lines} lines`);
      assert.ok(lines > 3 * read.length);
    });
  });
}

for (const [folder, kind] of FOLDERS.slice(0, 2)) {
  test(`the loader runs those of ${path.basename(folder)} too`, NEEDS_PROGRAM, async (t) => {
    const register = new URL("../register.js", import.meta.url).href;
    const theirs = await compiled(t, folder, sourcesIn(folder), kind, typescript);
    const env = { OXT_CACHE: "off", OXT_FLAGS: `--module ${kind.ours}` };
    for (const file of sourcesIn(folder)) {
      const wanted = await runNode([file.replace(/ts$/, kind.ending)], { cwd: theirs });
      const found = await runNode(["--import", register, file], { cwd: folder, env });
      assert.deepEqual(found, wanted, file);
    }
  });
}
