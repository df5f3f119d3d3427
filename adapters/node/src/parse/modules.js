/**
 * Imports and exports.
 */
import { expression } from "./expressions.js";
import {
  bindingIdentifier,
  entityName,
  identifierName,
  identifierReference,
  moduleExportName,
  stringLiteral,
} from "./names.js";
import { optional, unlessEmpty } from "./source.js";
import { exportedDeclaration } from "./statements.js";

const kindOf = (isType) => (isType ? "type" : undefined);

export function importDeclaration(src, node) {
  const clause = node.importClause;
  return src.node("ImportDeclaration", node, {
    importKind: kindOf(clause?.isTypeOnly),
    phase: optional(clause, (it) => phaseOf(src, it)),
    specifiers: optional(clause, (it) => importSpecifiers(src, it)),
    source: stringLiteral(src, node.moduleSpecifier),
    withClause: withClause(src, node),
  });
}

/** `defer` and `source` in front of what is imported, which later parsers tell. */
function phaseOf(src, clause) {
  const phase = clause.phaseModifier;
  if (phase === undefined || phase === src.ts.SyntaxKind.TypeKeyword) return undefined;
  return phase === src.ts.SyntaxKind.DeferKeyword ? "defer" : "source";
}

function importSpecifiers(src, clause) {
  const { name, namedBindings } = clause;
  const specifiers = name ? [src.node("ImportDefaultSpecifier", name, { local: bindingIdentifier(src, name) })] : [];
  if (src.is(namedBindings, "NamespaceImport")) {
    specifiers.push(src.node("ImportNamespaceSpecifier", namedBindings, { local: bindingIdentifier(src, namedBindings.name) }));
  } else if (namedBindings) {
    specifiers.push(...namedBindings.elements.map((element) => importSpecifier(src, element)));
  }
  return specifiers;
}

function importSpecifier(src, node) {
  return src.node("ImportSpecifier", node, {
    importKind: kindOf(node.isTypeOnly),
    imported: moduleExportName(src, node.propertyName ?? node.name),
    local: bindingIdentifier(src, node.name),
  });
}

/** What stands behind `with`, or behind `assert` in older parsers. */
function withClause(src, node) {
  const clause = node.attributes ?? node.assertClause;
  return optional(clause, (it) =>
    src.node("WithClause", it, {
      entries: unlessEmpty(
        it.elements.map((entry) =>
          src.node("ImportAttribute", entry, { key: moduleExportName(src, entry.name), value: stringLiteral(src, entry.value) }),
        ),
      ),
    }),
  );
}

/** `import a = b.c` and `import a = require("m")`. */
export function importEquals(src, node) {
  const { moduleReference: reference } = node;
  return src.node("TSImportEqualsDeclaration", node, {
    importKind: kindOf(node.isTypeOnly),
    id: bindingIdentifier(src, node.name),
    moduleReference: src.is(reference, "ExternalModuleReference")
      ? src.node("TSExternalModuleReference", reference, { expression: stringLiteral(src, reference.expression) })
      : entityName(src, reference),
  });
}

/** `export` in front of a list, or of a star. */
export function exportList(src, node) {
  const { exportClause: clause, moduleSpecifier } = node;
  const from = { source: optional(moduleSpecifier, (source) => stringLiteral(src, source)), withClause: withClause(src, node) };
  const exportKind = kindOf(node.isTypeOnly);
  if (!src.is(clause, "NamedExports")) {
    if (!from.source) src.fail("an export of all names a module", node);
    const exported = optional(clause, (it) => moduleExportName(src, it.name));
    return src.node("ExportAllDeclaration", node, { exportKind, exported, ...from });
  }
  const localName = from.source ? identifierName : identifierReference;
  const specifiers = unlessEmpty(clause.elements.map((element) => exportSpecifier(src, element, localName)));
  if (from.source) return src.node("ExportFromDeclaration", node, { exportKind, specifiers, ...from });
  return src.node("ExportNamedDeclaration", node, { exportKind, specifiers });
}

function exportSpecifier(src, node, localName) {
  const local = node.propertyName ?? node.name;
  if (localName === identifierReference && src.is(local, "StringLiteral")) {
    src.fail("a text as the name of an export needs a module that it comes from", local);
  }
  return src.node("ExportSpecifier", node, {
    exportKind: kindOf(node.isTypeOnly),
    local: moduleExportName(src, local, localName),
    exported: moduleExportName(src, node.name),
  });
}

/** `export = e` and `export default e`. */
export function exportAssignment(src, node) {
  const inside = expression(src, node.expression);
  return node.isExportEquals
    ? src.node("TSExportAssignment", node, { expression: inside })
    : src.node("ExportDefaultDeclaration", node, { declaration: inside });
}

/** `export as namespace a`. */
export function namespaceExport(src, node) {
  return src.node("TSNamespaceExportDeclaration", node, { id: identifierName(src, node.name) });
}

const DEFAULTS = ["FunctionDeclaration", "ClassDeclaration", "InterfaceDeclaration"];

/** A declaration behind `export`, or behind `export default`. */
export function exported(src, node) {
  const byDefault = src.modifier(node, "DefaultKeyword");
  if (byDefault && !DEFAULTS.some((kind) => src.is(node, kind))) src.fail("'default' cannot stand here", byDefault);
  const start = src.skipTrivia((byDefault ?? src.modifier(node, "ExportKeyword")).end);
  const declaration = exportedDeclaration(src, node, start);
  return src.node(byDefault ? "ExportDefaultDeclaration" : "ExportDeclaration", node, { declaration });
}
