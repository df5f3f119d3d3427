/**
 * From plain trees to JavaScript.
 */
import { OxtPrintError } from "../errors.js";
import { firstTypescript } from "./plain.js";
import { Printer } from "./printer.js";
import { bodyLines } from "./statements.js";

/**
 * The JavaScript of a plain tree. JSX stays JSX.
 *
 * @param {object} tree a `Program`
 * @returns {string} ends in a line feed, unless it is empty
 * @throws {OxtPrintError} where the tree is not plain, or no tree of the grammar
 */
export function print(tree) {
  const found = firstTypescript(tree ?? {});
  if (found) {
    const { node, field } = found;
    const what = field ? `the field '${field}' of ${node.type}` : node.type;
    throw new OxtPrintError(`${what} is TypeScript's and cannot be printed as JavaScript`, undefined, node);
  }
  return printProgram(tree);
}

/**
 * The same of a tree that may have wrappers left, of which diagnostics tell. They are printed without their types.
 *
 * @param {object} tree
 * @returns {string}
 */
export function printProgram(tree) {
  if (tree?.type !== "Program" || !Array.isArray(tree.body)) throw new OxtPrintError("a program is wanted", undefined, tree);
  const printer = new Printer();
  if (typeof tree.hashbang === "string") printer.write(`#!${tree.hashbang}\n`);
  try {
    for (const writeLine of bodyLines(printer, tree.directives, tree.body)) {
      writeLine();
      printer.line();
    }
  } catch (error) {
    throw clear(error);
  }
  return printer.toString();
}

function clear(error) {
  if (error instanceof RangeError) return new OxtPrintError("the tree nests too deep to be printed");
  // A field that has to be there is not.
  if (error instanceof TypeError) return new OxtPrintError(`this is no tree of the grammar: ${error.message}`);
  return error;
}
