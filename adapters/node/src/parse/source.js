/**
 * The source that is parsed: its text, the parser that reads it, and what the families of kinds share.
 */
import { OxtSyntaxError } from "../errors.js";
import { positionAt } from "../position.js";

/** Spaces and comments, as they stand between two tokens. */
const TRIVIA = /(?:[\s\uFEFF]|\/\/[^\n\r\u2028\u2029]*|\/\*[^]*?\*\/)*/y;
const MEANINGFUL = ["AsyncKeyword", "StaticKeyword", "AccessorKeyword", "ExportKeyword", "DefaultKeyword", "ConstKeyword"];
const PURE_COMMENT = /\/\*(?:(?!\*\/)[^])*[@#]__PURE__/;

export class Source {
  /**
   * @param {typeof import("typescript")} ts
   * @param {import("typescript").SourceFile} file
   * @param {string} filename as errors name it
   */
  constructor(ts, file, filename) {
    this.ts = ts;
    this.file = file;
    this.filename = filename;
    this.text = file.text;
    this.mayHavePure = PURE_COMMENT.test(this.text);
    /** Where calls begin that a comment has marked as pure: it marks the outermost call that begins there. */
    this.pureStarts = new Set();
  }

  /** Whether the node is of the kind with that name in `ts.SyntaxKind`; never, for a name that the parser has not. */
  is(node, kindName) {
    return node !== undefined && node.kind === this.ts.SyntaxKind[kindName];
  }

  /** Where the node begins, after the spaces and comments in front of it. */
  startOf(node) {
    return node.getStart(this.file);
  }

  /** The text of the node as it is written. */
  textOf(node) {
    return this.text.slice(this.startOf(node), node.end);
  }

  /** The first offset from that one on at which a token stands. */
  skipTrivia(offset) {
    TRIVIA.lastIndex = offset;
    TRIVIA.test(this.text);
    return TRIVIA.lastIndex;
  }

  /** A node of the tree that spans a node of the parser. */
  node(type, at, fields) {
    return nodeAt(type, this.startOf(at), at.end, fields);
  }

  /** The modifier with that keyword, or undefined. */
  modifier(node, kindName) {
    return node.modifiers?.find((modifier) => this.is(modifier, kindName));
  }

  /** True where the node has the modifier, and else undefined, the default of a flag. */
  flag(node, kindName) {
    return this.modifier(node, kindName) ? true : undefined;
  }

  /**
   * Ends the parse where the node has decorators, or words in front of it that JavaScript gives a meaning, other than
   * those told for all and for its kind. The parser lets all of them stand everywhere. Words that have a meaning in
   * TypeScript alone are let through, since they go.
   */
  refuseModifiers(node, forAll, byKind = {}) {
    const [, forKind] = Object.entries(byKind).find(([kind]) => this.is(node, kind)) ?? [];
    const isOdd = (name) => !forAll.includes(name) && !forKind?.includes(name);
    const odd = MEANINGFUL.filter(isOdd).map((name) => this.modifier(node, name)).find(Boolean);
    if (odd) this.fail(`'${this.textOf(odd)}' cannot stand here`, odd);
    const decorator = node.illegalDecorators?.[0] ?? (isOdd("Decorator") ? this.modifier(node, "Decorator") : undefined);
    if (decorator) this.fail("a decorator cannot stand here", decorator);
  }

  /** The span of a list in brackets, with the brackets. */
  bracketed(list) {
    return { start: list.pos - 1, end: this.skipTrivia(list.end) + 1 };
  }

  /** Whether a comment says that the call that begins here is pure. */
  takesPure(node) {
    if (!this.mayHavePure) return undefined;
    const start = this.startOf(node);
    if (this.pureStarts.has(start) || !PURE_COMMENT.test(this.text.slice(node.pos, start))) return undefined;
    this.pureStarts.add(start);
    return true;
  }

  /** Ends the parse: the source is wrong at that node or offset. */
  fail(what, at) {
    const offset = typeof at === "number" ? at : this.startOf(at);
    throw new OxtSyntaxError(`syntax error: ${what}`, positionAt(this.text, this.filename, offset));
  }

  /** Ends the parse at a node that no place of the tree can hold. */
  unexpected(node, where) {
    return this.fail(`${kindName(this.ts.SyntaxKind, node.kind)} cannot stand ${where}`, node);
  }
}

/** The name of a kind, which is none of the marks for the ends of a range of kinds. */
const kindName = (kinds, kind) => Object.keys(kinds).find((name) => kinds[name] === kind && !/^(?:First|Last)[A-Z]/.test(name));

/** A node of the tree; the fields that are undefined stand at their default and are left out. */
export function nodeAt(type, start, end, fields) {
  const node = { type, start, end };
  for (const name in fields) {
    if (fields[name] !== undefined) node[name] = fields[name];
  }
  return node;
}

/** True, or undefined, which is the default of a flag. */
export const flag = (value) => (value ? true : undefined);

/** What the call makes of the node where there is one. */
export const optional = (node, convert) => (node ? convert(node) : undefined);

/** The list, or undefined where it is empty and may be left out. */
export const unlessEmpty = (list) => (list.length > 0 ? list : undefined);

const tablesOfParsers = new WeakMap();

/**
 * The call for the node's kind, out of those of some families, which name kinds as `ts.SyntaxKind` does. Kinds that an
 * older parser does not know are passed over.
 *
 * @param {Source} src
 * @param {() => object[]} families
 * @param {import("typescript").Node} node
 */
export function handlerOf(src, families, node) {
  let tables = tablesOfParsers.get(src.ts);
  if (!tables) tablesOfParsers.set(src.ts, (tables = new Map()));
  let table = tables.get(families);
  if (!table) tables.set(families, (table = tableOf(src.ts.SyntaxKind, families())));
  return table.get(node.kind);
}

function tableOf(kinds, families) {
  const handlers = families.flatMap((family) => Object.entries(family));
  return new Map(handlers.filter(([name]) => kinds[name] !== undefined).map(([name, handler]) => [kinds[name], handler]));
}
