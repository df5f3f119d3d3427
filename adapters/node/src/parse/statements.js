/**
 * Statements, and the lists in which they stand.
 */
import { wellFormed } from "../text.js";
import { classDeclaration } from "./classes.js";
import { enumDeclaration, moduleDeclaration, typeDeclaration, variableDeclaration, variableStatement } from "./declarations.js";
import { expression } from "./expressions.js";
import { functionDeclaration } from "./functions.js";
import { exportAssignment, exportList, exported, importDeclaration, importEquals, namespaceExport } from "./modules.js";
import { bindingPattern } from "./patterns.js";
import { handlerOf, nodeAt, optional, unlessEmpty } from "./source.js";
import { assignmentTarget } from "./targets.js";
import { typeAnnotation } from "./types.js";

const statements = {
  VariableStatement: variableStatement,
  FunctionDeclaration: functionDeclaration,
  ClassDeclaration: classDeclaration,
  InterfaceDeclaration: typeDeclaration("TSInterfaceDeclaration"),
  TypeAliasDeclaration: typeDeclaration("TSTypeAliasDeclaration"),
  EnumDeclaration: enumDeclaration,
  ModuleDeclaration: moduleDeclaration,
  ImportEqualsDeclaration: importEquals,

  ExpressionStatement: (src, node) => src.node("ExpressionStatement", node, { expression: expression(src, node.expression) }),
  Block: (src, node) => blockStatement(src, node),
  EmptyStatement: (src, node) => src.node("EmptyStatement", node),
  DebuggerStatement: (src, node) => src.node("DebuggerStatement", node),

  IfStatement: (src, node) =>
    src.node("IfStatement", node, {
      test: expression(src, node.expression),
      consequent: statement(src, node.thenStatement),
      alternate: optional(node.elseStatement, (branch) => statement(src, branch)),
    }),

  ForStatement: (src, node) =>
    src.node("ForStatement", node, {
      init: optional(node.initializer, (init) =>
        src.is(init, "VariableDeclarationList") ? variableDeclaration(src, init) : expression(src, init),
      ),
      test: optional(node.condition, (test) => expression(src, test)),
      update: optional(node.incrementor, (update) => expression(src, update)),
      body: statement(src, node.statement),
    }),

  ForInStatement: (src, node) => src.node("ForInStatement", node, forEach(src, node)),
  ForOfStatement: (src, node) =>
    src.node("ForOfStatement", node, { await: node.awaitModifier ? true : undefined, ...forEach(src, node) }),

  WhileStatement: (src, node) =>
    src.node("WhileStatement", node, { test: expression(src, node.expression), body: statement(src, node.statement) }),
  DoStatement: (src, node) =>
    src.node("DoWhileStatement", node, { body: statement(src, node.statement), test: expression(src, node.expression) }),

  ReturnStatement: (src, node) =>
    src.node("ReturnStatement", node, { argument: optional(node.expression, (argument) => expression(src, argument)) }),
  ThrowStatement(src, node) {
    // What is thrown has to be there; the parser makes up an empty name where it is not.
    if (node.expression.end === node.expression.pos) src.fail("an expression is wanted behind 'throw'", node);
    return src.node("ThrowStatement", node, { argument: expression(src, node.expression) });
  },
  BreakStatement: (src, node) => src.node("BreakStatement", node, { label: node.label?.text }),
  ContinueStatement: (src, node) => src.node("ContinueStatement", node, { label: node.label?.text }),
  LabeledStatement: (src, node) =>
    src.node("LabeledStatement", node, { label: node.label.text, body: statement(src, node.statement) }),
  WithStatement: (src, node) =>
    src.node("WithStatement", node, { object: expression(src, node.expression), body: statement(src, node.statement) }),

  SwitchStatement: (src, node) =>
    src.node("SwitchStatement", node, {
      discriminant: expression(src, node.expression),
      cases: node.caseBlock.clauses.map((clause) =>
        src.node("SwitchCase", clause, {
          test: optional(clause.expression, (test) => expression(src, test)),
          consequent: unlessEmpty(statementList(src, clause.statements)),
        }),
      ),
    }),

  TryStatement: (src, node) =>
    src.node("TryStatement", node, {
      block: blockStatement(src, node.tryBlock),
      handler: optional(node.catchClause, (clause) => catchClause(src, clause)),
      finalizer: optional(node.finallyBlock, (block) => blockStatement(src, block)),
    }),
};

const moduleItems = {
  ImportDeclaration: importDeclaration,
  ExportDeclaration: exportList,
  ExportAssignment: exportAssignment,
  NamespaceExportDeclaration: namespaceExport,
};

const statementFamilies = () => [statements];
const itemFamilies = () => [moduleItems];

/** A statement where neither imports nor exports may stand. */
export function statement(src, node) {
  const handler = handlerOf(src, statementFamilies, node);
  if (!handler) src.unexpected(node, "where a statement is wanted");
  const exportWord = src.modifier(node, "ExportKeyword");
  if (exportWord) src.fail("'export' can only stand at the top of a module or namespace", exportWord);
  src.refuseModifiers(node, [], MODIFIERS);
  return handler(src, node);
}

/** A statement at the top of a module or namespace. */
export function item(src, node) {
  const handler = handlerOf(src, itemFamilies, node);
  if (handler) return handler(src, node);
  return src.modifier(node, "ExportKeyword") ? exported(src, node) : statement(src, node);
}

/** A declaration that is exported, from the offset on. */
export function exportedDeclaration(src, node, start) {
  const handler = handlerOf(src, statementFamilies, node);
  if (!handler) src.unexpected(node, "behind 'export'");
  src.refuseModifiers(node, ["ExportKeyword", "DefaultKeyword"], MODIFIERS);
  return { ...handler(src, node), start };
}

/** What may stand in front of declarations, by their kind. */
const MODIFIERS = { FunctionDeclaration: ["AsyncKeyword"], ClassDeclaration: ["Decorator"], EnumDeclaration: ["ConstKeyword"] };

export const statementList = (src, nodes) => nodes.map((node) => statement(src, node));

const blockStatement = (src, node) => src.node("BlockStatement", node, { body: statementList(src, node.statements) });

/** The directives and the statements of a body, as two lists. */
export function bodyOf(src, nodes, convert) {
  const isDirective = (node) => src.is(node, "ExpressionStatement") && src.is(node.expression, "StringLiteral");
  const first = nodes.findIndex((node) => !isDirective(node));
  const count = first < 0 ? nodes.length : first;
  return {
    directives: nodes.slice(0, count).map((node) => directive(src, node)),
    items: nodes.slice(count).map((node) => convert(src, node)),
  };
}

/** A directive is what stands between its quotes, as it is written. */
function directive(src, node) {
  return src.node("Directive", node, { value: wellFormed(src.textOf(node.expression).slice(1, -1)) });
}

function forEach(src, node) {
  const head = node.initializer;
  const second = head.declarations?.[1];
  if (second) src.fail("the head of this loop declares one variable", second);
  return {
    left: src.is(head, "VariableDeclarationList") ? variableDeclaration(src, head) : assignmentTarget(src, head),
    right: expression(src, node.expression),
    body: statement(src, node.statement),
  };
}

function catchClause(src, node) {
  const variable = node.variableDeclaration;
  if (variable?.initializer) src.fail("the parameter of 'catch' takes no initializer", variable.initializer);
  return src.node("CatchClause", node, {
    param: optional(variable, (param) =>
      nodeAt("CatchParameter", src.startOf(param), param.end, {
        pattern: bindingPattern(src, param.name),
        typeAnnotation: typeAnnotation(src, param.type),
      }),
    ),
    body: blockStatement(src, node.block),
  });
}
