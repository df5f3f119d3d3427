/**
 * Where the JavaScript of files goes.
 */
import path from "node:path";
import { OxtOptionError } from "../errors.js";

const ENDINGS = { ".ts": ".js", ".mts": ".mjs", ".cts": ".cjs", ".tsx": ".jsx" };

/**
 * The file that each file's JavaScript goes to: in the folder, at its place below the folder that they have in common.
 *
 * @param {string[]} files
 * @param {string} folder
 * @returns {Map<string, string>} from each file to its output
 * @throws {OxtOptionError} where one would be written over another
 */
export function outputsOf(files, folder) {
  const root = commonFolder(files.map((file) => path.dirname(path.resolve(file))));
  const sources = new Set(files.map((file) => path.resolve(file)));
  const outputs = new Map();
  const taken = new Map();
  for (const file of files) {
    const output = path.join(folder, path.relative(root, outputName(path.resolve(file))));
    const absolute = path.resolve(output);
    if (sources.has(absolute)) throw new OxtOptionError(`${file} would be written over ${output}, which is one of the files`);
    const other = taken.get(absolute);
    if (other !== undefined) throw new OxtOptionError(`${other} and ${file} would both be written to ${output}`);
    taken.set(absolute, file);
    outputs.set(file, output);
  }
  return outputs;
}

function outputName(file) {
  const ending = path.extname(file);
  return file.slice(0, file.length - ending.length) + (ENDINGS[ending.toLowerCase()] ?? ending);
}

function commonFolder(folders) {
  const [first, ...others] = folders.map((folder) => folder.split(path.sep));
  const length = first.findIndex((part, index) => others.some((parts) => parts[index] !== part));
  return (length < 0 ? first : first.slice(0, length)).join(path.sep) || path.sep;
}
