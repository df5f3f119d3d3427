/**
 * From TypeScript, TSX and JavaScript to trees of the grammar.
 */
import path from "node:path";
import { OxtOptionError, OxtSyntaxError } from "../errors.js";
import { Position, positionAt } from "../position.js";
import { loadTypescript } from "../typescript.js";
import { nodeAt, Source, unlessEmpty } from "./source.js";
import { bodyOf, item } from "./statements.js";

const SCRIPT_KINDS = { ".tsx": "TSX", ".jsx": "JSX", ".js": "JS", ".mjs": "JS", ".cjs": "JS" };
const SOURCE_TYPES = ["module", "script"];
/** The number of a fault that the parser finds with `a?.#b`, which is JavaScript. */
const PRIVATE_IN_CHAIN = 18030;
const DEFINITIONS = /\.d\.(?:[^./\\]+\.)?[cm]?ts$/i;

/**
 * The tree of a source.
 *
 * Fields that stand at their default are left out, and spans are in UTF-16 units. The file's name says the language:
 * `.ts`, `.mts`, `.cts`, `.tsx`, `.js`, `.mjs`, `.cjs`, `.jsx`, and definitions where it ends in `.d.ts` or the like.
 *
 * @param {string} source
 * @param {{ filename?: string, sourceType?: "module" | "script", parser?: typeof import("typescript") }} [options]
 * @returns {object} a `Program`
 * @throws {OxtSyntaxError} with file, line and column
 */
export function parse(source, options = {}) {
  return parseFile(source, options).tree;
}

/**
 * The tree, with what else the parser knows of the source.
 *
 * @returns {{ tree: object, isModule: boolean }} `isModule` tells whether it has imports, exports or `import.meta`, and none
 * of those that are CommonJS's own
 */
export function parseFile(source, { filename = "source.ts", sourceType, parser } = {}) {
  if (typeof source !== "string") throw new OxtOptionError("the source has to be a text");
  if (sourceType !== undefined && !SOURCE_TYPES.includes(sourceType)) {
    throw new OxtOptionError(`sourceType is ${SOURCE_TYPES.join(" or ")}, not ${sourceType}`);
  }
  const ts = parser ?? loadTypescript(path.dirname(path.resolve(filename)));
  const file = sourceFileOf(ts, source, filename);
  const src = new Source(ts, file, filename);
  refuseFaults(src);
  try {
    return { tree: program(src, sourceType ?? sourceTypeOf(filename)), isModule: ts.isExternalModule(file) && !isCommonJs(src) };
  } catch (error) {
    // The stack of the process ends some thousand levels deep, far behind what the program takes.
    if (error instanceof RangeError) throw new OxtSyntaxError("the source nests too deep", new Position(filename, 1, 1, 0));
    throw error;
  }
}

function sourceFileOf(ts, source, filename) {
  const kind = ts.ScriptKind[SCRIPT_KINDS[path.extname(filename).toLowerCase()] ?? "TS"];
  try {
    return ts.createSourceFile(filename, source, ts.ScriptTarget.Latest, false, kind);
  } catch (error) {
    throw new OxtSyntaxError(`the parser of typescript ${ts.version} failed, ${error.message}`, positionAt(source, filename, 0));
  }
}

/** The first thing that the parser finds wrong ends the parse. */
function refuseFaults(src) {
  const first = src.file.parseDiagnostics?.find(({ code, start }) => code !== PRIVATE_IN_CHAIN && !isInTaggedText(src, start));
  if (first) src.fail(src.ts.flattenDiagnosticMessageText(first.messageText, " ").replace(/\.$/, ""), first.start);
}

/** Whether the offset is in a text of a tagged template, in which any escape may stand; older parsers find fault with some. */
function isInTaggedText(src, offset) {
  const path = pathTo(src, offset);
  if (!TEMPLATE_TEXTS.some((kind) => src.is(path[0], kind))) return false;
  const owner = src.is(path[0], "NoSubstitutionTemplateLiteral") ? 0 : path.findIndex((node) => src.is(node, "TemplateExpression"));
  return src.is(path[owner + 1], "TaggedTemplateExpression");
}

/** The nodes around an offset, from the innermost on. */
function pathTo(src, offset) {
  const path = [];
  const descend = (node) => {
    path.unshift(node);
    const inner = src.ts.forEachChild(node, (child) => (child.pos < offset && offset < child.end ? child : undefined));
    if (inner) descend(inner);
  };
  descend(src.file);
  return path;
}

const TEMPLATE_TEXTS = ["NoSubstitutionTemplateLiteral", "TemplateHead", "TemplateMiddle", "TemplateTail"];

/** Whether a file of that name has definitions alone, of which nothing is left. */
export const isDefinitions = (filename) => DEFINITIONS.test(filename);

const sourceTypeOf = (filename) => (/\.c[jt]s$/i.test(filename) ? "script" : "module");

function langOf(filename) {
  if (isDefinitions(filename)) return "dts";
  return /\.[cm]?jsx?$/i.test(filename) ? "js" : undefined;
}

/** Whether the source has `import a = require("m")` or `export =`, for which only CommonJS has the words. */
function isCommonJs(src) {
  return src.file.statements.some(
    (node) =>
      (src.is(node, "ExportAssignment") && node.isExportEquals) ||
      (src.is(node, "ImportEqualsDeclaration") && !node.isTypeOnly && src.is(node.moduleReference, "ExternalModuleReference")),
  );
}

function program(src, sourceType) {
  const { directives, items } = bodyOf(src, src.file.statements, item);
  return nodeAt("Program", 0, src.text.length, {
    sourceType: sourceType === "script" ? sourceType : undefined,
    lang: langOf(src.filename),
    hashbang: /^#!(.*)/.exec(src.text)?.[1],
    directives: unlessEmpty(directives),
    body: items,
  });
}
