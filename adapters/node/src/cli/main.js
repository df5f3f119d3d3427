/**
 * The command `oxt-node`.
 */
import { readFileSync } from "node:fs";
import { mkdir, writeFile } from "node:fs/promises";
import path from "node:path";
import { isOxtError, OxtError, OxtOptionError } from "../errors.js";
import { isDefinitions, parse } from "../parse/index.js";
import { transform, transformFiles } from "../transform.js";
import { readText, STANDARD_INPUT } from "./input.js";
import { outputsOf } from "./paths.js";
import { Progress } from "./progress.js";
import { wordsOf } from "./words.js";

/** How the command ends. */
export const Status = { Done: 0, Refused: 1, Usage: 2 };

const USAGE = `usage: oxt-node FILE [flags]
       oxt-node --out-dir DIR FILES.. [flags]
`;
const HELP = `${USAGE}
Prints the JavaScript of a TypeScript file ('-' for standard input), or writes that of files to a folder.

  --out-dir DIR                  the folder; each file stands there as below the folder that all have in common
  --tree                         print the tree of the file, as oxt reads it, and not its JavaScript
  --oxt PATH                     the program; else OXT_BINARY, the one built in the repository, 'oxt' on the PATH
  --help, --version

Flags of oxt, as it takes them:

  --jsx-pragma TEXT              the name that JSX elements use
  --jsx-pragma-frag TEXT         the name that JSX fragments use
  --only-remove-type-imports     imports go only where they say 'type'
  --no-namespaces                namespaces with values are complained of
  --no-declare-fields            fields without value go
  --remove-empty-fields          fields without value go
  --optimize-const-enums         members of a 'const enum' become their constants
  --optimize-enums               members of other enums become their constants
  --rewrite-extensions WORD      true, false, rewrite or remove
  --legacy                       decorators as TypeScript had them
  --emit-decorator-metadata      calls of decorators tell the types that are written
  --no-strict-null-checks        null and undefined do not count in these
  --module WORD                  preserve, esm or commonjs
  --set-public-class-fields      fields become assignments

The status is 0, 1 where a file is refused or complained of, and 2 where the words are wrong.
`;

/**
 * Runs the command.
 *
 * @param {string[]} words behind the command's name
 * @param {{ stdin: import("node:stream").Readable, stdout: NodeJS.WriteStream, stderr: NodeJS.WriteStream }} streams
 * @returns {Promise<number>} the status
 */
export async function main(words, streams) {
  try {
    return await runCommand(wordsOf(words), streams);
  } catch (error) {
    const isUsage = error instanceof OxtOptionError;
    streams.stderr.write(`oxt-node: ${lineOfError(error)}${isUsage ? "; 'oxt-node --help' tells more" : ""}\n`);
    return isUsage ? Status.Usage : Status.Refused;
  }
}

async function runCommand(words, streams) {
  if (words.help) return write(streams.stdout, HELP);
  if (words.version) return write(streams.stdout, `${versionOf()}\n`);
  if (words.files.length === 0) throw new OxtOptionError("a file is wanted");
  if (words.outDir !== undefined) {
    if (words.tree) throw new OxtOptionError("--tree and --out-dir do not go together");
    return writeAll(words, streams);
  }
  if (words.files.length > 1) throw new OxtOptionError("more than one file needs --out-dir");
  return words.tree ? printTree(words, streams) : printOne(words, streams);
}

async function printTree({ files: [file] }, { stdin, stdout }) {
  const { source, filename } = await readText(file, stdin);
  return write(stdout, `${JSON.stringify(parse(source, { filename }))}\n`);
}

async function printOne({ files: [file], options, binary }, { stdin, stdout, stderr }) {
  const { source, filename } = await readText(file, stdin);
  const { code, diagnostics } = await transform(source, { ...options, binary, filename });
  await write(stdout, code);
  for (const diagnostic of diagnostics) stderr.write(`oxt-node: ${lineOf(diagnostic)}\n`);
  return diagnostics.length > 0 ? Status.Refused : Status.Done;
}

async function writeAll({ files, options, binary, outDir }, { stderr }) {
  if (files.includes(STANDARD_INPUT)) throw new OxtOptionError("standard input has no name to be written by in a folder");
  const outputs = outputsOf(files, outDir);
  const progress = new Progress(stderr, files.length);
  const complaints = [];
  let written = 0;
  let empty = 0;
  for await (const { filename, code, diagnostics = [], error } of transformFiles(files, { ...options, binary })) {
    if (error) complaints.push(lineOfError(error));
    else if (isDefinitions(filename)) empty += 1;
    else if (await writeOutput(outputs.get(filename), code, complaints)) written += 1;
    complaints.push(...diagnostics.map(lineOf));
    progress.step(filename);
  }
  progress.end();
  for (const complaint of complaints) stderr.write(`oxt-node: ${complaint}\n`);
  const refused = files.length - written - empty;
  const others = [empty > 0 && `${empty} with definitions alone`, refused > 0 && `${refused} refused`].filter(Boolean);
  stderr.write(`${[`${counted(written, "file")} written to ${outDir}`, ...others].join(", ")}\n`);
  return complaints.length > 0 ? Status.Refused : Status.Done;
}

/** Whether the file could be written; if not, that is one of the complaints. */
async function writeOutput(file, code, complaints) {
  try {
    await mkdir(path.dirname(file), { recursive: true });
    await writeFile(file, code);
    return true;
  } catch (error) {
    complaints.push(`${file} cannot be written: ${error.code ?? error.message}`);
    return false;
  }
}

/** An error as a line; what the adapter does not foresee is its own fault. */
const lineOfError = (error) => (isOxtError(error) ? error.message : `this is a fault of oxt-node: ${String(error).split("\n")[0]}`);

const counted = (count, what) => `${count} ${what}${count === 1 ? "" : "s"}`;

function lineOf({ code, message, filename, line, column }) {
  const place = line === null ? ` in ${filename}` : ` at ${filename}:${line}:${column}`;
  return `${code === null ? "" : `${code} `}${message}${place}`;
}

/** Writes a text, all of it, and gives the status of what went well. */
function write(stream, text) {
  return new Promise((resolve, reject) => {
    const fail = (error) => reject(new OxtError(`standard output cannot be written: ${error.code ?? error.message}`));
    stream.once("error", fail);
    stream.write(text, (error) => (error ? fail(error) : resolve(Status.Done)));
  });
}

function versionOf() {
  return JSON.parse(readFileSync(new URL("../../package.json", import.meta.url), "utf8")).version;
}
