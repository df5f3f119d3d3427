/**
 * Imports and exports.
 */
import { classLike, decorators } from "./classes.js";
import { expression } from "./expressions.js";
import { functionLike } from "./functions.js";
import { stringLiteral } from "./literals.js";
import { Level } from "./precedence.js";
import { handlerOf } from "./printer.js";
import { statement } from "./statements.js";

export const moduleItems = {
  ImportDeclaration(p, node) {
    p.write("import ");
    if (node.phase) p.write(`${node.phase} `);
    if (node.specifiers) {
      importSpecifiers(p, node.specifiers);
      p.write(" from ");
    }
    source(p, node);
  },
  ExportDeclaration(p, { declaration }) {
    exportHead(p, declaration, "export ");
    if (declaration.type === "ClassDeclaration") classLike(p, declaration, false);
    else statement(p, declaration);
  },
  ExportDefaultDeclaration(p, { declaration }) {
    exportHead(p, declaration, "export default ");
    if (declaration.type === "ClassDeclaration") return classLike(p, declaration, false);
    if (declaration.type === "FunctionDeclaration") return functionLike(p, declaration);
    p.begin("exportDefault");
    expression(p, declaration, Level.Assignment);
    return p.write(";");
  },
  ExportNamedDeclaration(p, node) {
    p.write("export ");
    exportSpecifiers(p, node);
    p.write(";");
  },
  ExportFromDeclaration(p, node) {
    p.write("export ");
    exportSpecifiers(p, node);
    p.write(" from ");
    source(p, node);
  },
  ExportAllDeclaration(p, node) {
    p.write("export * ");
    if (node.exported) {
      p.write("as ");
      moduleExportName(p, node.exported);
      p.write(" ");
    }
    p.write("from ");
    source(p, node);
  },
};

/** Decorators stand in front of `export`, where each parser takes them. */
function exportHead(p, declaration, words) {
  if (declaration.type === "ClassDeclaration") decorators(p, declaration, " ");
  p.write(words);
}

function importSpecifiers(p, specifiers) {
  const named = specifiers.filter(({ type }) => type === "ImportSpecifier");
  const others = specifiers.filter(({ type }) => type !== "ImportSpecifier");
  p.list(others, (node) => {
    if (node.type === "ImportNamespaceSpecifier") p.write("* as ");
    p.write(node.local.name);
  });
  if (others.length > 0 && named.length === 0) return;
  if (others.length > 0) p.write(", ");
  namedList(p, named, (node) => renamed(p, node.imported, node.local));
}

function exportSpecifiers(p, { specifiers = [] }) {
  namedList(p, specifiers, (node) => renamed(p, node.local, node.exported));
}

function namedList(p, specifiers, write) {
  if (specifiers.length === 0) p.write("{}");
  else p.within("{ ", " }", () => p.list(specifiers, write));
}

/** A name, and behind `as` the other where it is another. */
function renamed(p, from, to) {
  moduleExportName(p, from);
  const isSame = from.type === "StringLiteral" ? to.type === "StringLiteral" && from.value === to.value : from.name === to.name;
  if (isSame) return;
  p.write(" as ");
  moduleExportName(p, to);
}

const names = {
  IdentifierName: (p, node) => p.write(node.name),
  IdentifierReference: (p, node) => p.write(node.name),
  BindingIdentifier: (p, node) => p.write(node.name),
  StringLiteral: stringLiteral,
};

const moduleExportName = (p, node) => handlerOf(names, node, "as a name of a module")(p, node);

/** The module that something comes from, with what is asked of it. */
function source(p, { source: name, withClause }) {
  stringLiteral(p, name);
  if (withClause) {
    p.write(" with ");
    namedList(p, withClause.entries ?? [], ({ key, value }) => {
      moduleExportName(p, key);
      p.write(": ");
      stringLiteral(p, value);
    });
  }
  p.write(";");
}
