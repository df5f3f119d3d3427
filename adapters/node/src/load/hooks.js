/**
 * The hooks by which Node finds and loads TypeScript. They run in a thread of their own.
 */
import { existsSync, statSync } from "node:fs";
import { readFile } from "node:fs/promises";
import path from "node:path";
import { fileURLToPath, pathToFileURL } from "node:url";
import { ENDINGS, Loader, TYPESCRIPT } from "./loader.js";

/** What may stand in the place of a name's ending, in that order. */
const TWINS = { ".js": [".ts", ".tsx"], ".jsx": [".tsx"], ".mjs": [".mts", ".ts"], ".cjs": [".cts"] };
const NOT_FOUND = ["ERR_MODULE_NOT_FOUND", "ERR_UNSUPPORTED_DIR_IMPORT"];

let loader = new Loader();

/** Takes what `register` was given. */
export function initialize(settings) {
  loader = new Loader(settings);
}

/** Finds a TypeScript file by the name that it has once it is compiled, or by a name without ending. */
export async function resolve(specifier, context, next) {
  const base = fileOf(specifier, context.parentURL);
  if (base === undefined) return next(specifier, context);
  const isFromTypescript = TYPESCRIPT.test(pathOf(context.parentURL) ?? "");
  const twin = isFromTypescript ? twinOf(base) : undefined;
  if (twin) return next(urlOf(twin, specifier), context);
  try {
    return await next(specifier, context);
  } catch (error) {
    const found = NOT_FOUND.includes(error.code) ? (twinOf(base) ?? withEnding(base)) : undefined;
    if (found) return next(urlOf(found, specifier), context);
    throw error;
  }
}

/** Loads a TypeScript file as the JavaScript that it is lowered to. */
export async function load(url, context, next) {
  const file = pathOf(url);
  if (file === undefined || !TYPESCRIPT.test(file)) return next(url, context);
  const { code, isModule } = await loader.load(file);
  return { format: await formatOf(file, isModule), source: code, shortCircuit: true };
}

/** Whether Node takes the file as a module: by its ending, its package, or what stands in it. */
async function formatOf(file, isModule) {
  if (/\.mts$/i.test(file)) return "module";
  if (/\.cts$/i.test(file)) return "commonjs";
  return isModule || (await packageType(path.dirname(file))) === "module" ? "module" : "commonjs";
}

const packageTypes = new Map();

/** The `type` of the package that the folder is in. */
function packageType(folder) {
  if (!packageTypes.has(folder)) packageTypes.set(folder, readPackageType(folder));
  return packageTypes.get(folder);
}

async function readPackageType(folder) {
  try {
    return JSON.parse(await readFile(path.join(folder, "package.json"), "utf8")).type ?? "commonjs";
  } catch (error) {
    if (error instanceof SyntaxError) return "commonjs";
  }
  const parent = path.dirname(folder);
  return parent === folder ? "commonjs" : packageType(parent);
}

/** The path that a name stands for, where it is that of a file. */
function fileOf(specifier, parentUrl) {
  if (specifier.startsWith("file:")) return pathOf(specifier);
  if (!/^\.{0,2}\//.test(specifier) || !parentUrl?.startsWith("file:")) return undefined;
  return pathOf(new URL(specifier, parentUrl).href);
}

function pathOf(url) {
  if (!url?.startsWith("file:")) return undefined;
  const { protocol, host, pathname } = new URL(url);
  return fileURLToPath(`${protocol}//${host}${pathname}`);
}

/** The URL of a file that stands in a name's place, with what followed the name. */
const urlOf = (file, specifier) => pathToFileURL(file).href + (/[?#].*$/.exec(specifier)?.[0] ?? "");

function twinOf(file) {
  const ending = path.extname(file);
  const base = file.slice(0, file.length - ending.length);
  return (TWINS[ending] ?? []).map((twin) => base + twin).find(isFile);
}

/** The file with one of the endings, or the index of the folder. */
const withEnding = (base) => [base, path.join(base, "index")].flatMap((it) => ENDINGS.map((ending) => it + ending)).find(isFile);

const isFile = (file) => existsSync(file) && statSync(file).isFile();
