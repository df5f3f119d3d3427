/**
 * Folders with files, for the length of a test.
 */
import { chmod, mkdir, mkdtemp, rm, writeFile } from "node:fs/promises";
import { tmpdir } from "node:os";
import path from "node:path";

/** A folder with those files, which goes when the test ends. */
export async function folderWith(t, files = {}) {
  const folder = await mkdtemp(path.join(tmpdir(), "oxt-node-"));
  t.after(() => rm(folder, { recursive: true, force: true }));
  for (const [name, text] of Object.entries(files)) {
    const file = path.join(folder, name);
    await mkdir(path.dirname(file), { recursive: true });
    await writeFile(file, text);
  }
  return folder;
}

/** A program in that folder that does as the shell's text says. */
export async function programIn(folder, text) {
  const file = path.join(folder, "program");
  await writeFile(file, `#!/bin/sh\n${text}\n`);
  await chmod(file, 0o755);
  return file;
}
