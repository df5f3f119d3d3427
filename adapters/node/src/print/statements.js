/**
 * Statements, and the lists in which they stand.
 */
import { classLike } from "./classes.js";
import { expression } from "./expressions.js";
import { functionLike } from "./functions.js";
import { directive } from "./literals.js";
import { moduleItems } from "./modules.js";
import { bindingPattern } from "./patterns.js";
import { Level } from "./precedence.js";
import { handlerOf } from "./printer.js";
import { assignmentTarget } from "./targets.js";

const statements = {
  VariableDeclaration(p, node) {
    variables(p, node);
    p.write(";");
  },
  FunctionDeclaration: (p, node) => functionLike(p, node),
  ClassDeclaration: (p, node) => classLike(p, node),
  ExpressionStatement(p, node) {
    p.begin("statement");
    expression(p, node.expression);
    p.write(";");
  },
  BlockStatement: block,
  EmptyStatement: (p) => p.write(";"),
  DebuggerStatement: (p) => p.write("debugger;"),

  IfStatement(p, { test, consequent, alternate }) {
    head(p, "if", () => expression(p, test));
    if (!alternate) return body(p, consequent);
    // The 'else' would be read as that of an 'if' inside.
    const branch = endsInIf(consequent) ? { type: "BlockStatement", body: [consequent] } : consequent;
    body(p, branch);
    if (branch.type === "BlockStatement") p.write(" ");
    else p.line();
    p.write("else");
    return body(p, alternate);
  },
  ForStatement(p, { init, test, update, body: inner }) {
    head(p, "for", () => {
      if (init) p.inHead(() => forInit(p, init));
      p.write(";");
      if (test) spaced(p, test);
      p.write(";");
      if (update) spaced(p, update);
    });
    body(p, inner);
  },
  ForInStatement(p, node) {
    head(p, "for", () => {
      forLeft(p, node.left, "forHead");
      p.write(" in ");
      expression(p, node.right);
    });
    body(p, node.body);
  },
  ForOfStatement(p, node) {
    head(p, node.await ? "for await" : "for", () => {
      forLeft(p, node.left, "forOfHead");
      p.write(" of ");
      expression(p, node.right, Level.Assignment);
    });
    body(p, node.body);
  },
  WhileStatement(p, node) {
    head(p, "while", () => expression(p, node.test));
    body(p, node.body);
  },
  DoWhileStatement(p, node) {
    p.write("do");
    body(p, node.body);
    p.write(" ");
    head(p, "while", () => expression(p, node.test));
    p.write(";");
  },
  ReturnStatement: (p, node) => jump(p, "return", node.argument),
  ThrowStatement: (p, node) => jump(p, "throw", node.argument),
  BreakStatement: (p, node) => p.write(node.label ? `break ${node.label};` : "break;"),
  ContinueStatement: (p, node) => p.write(node.label ? `continue ${node.label};` : "continue;"),
  LabeledStatement(p, node) {
    p.write(`${node.label}:`);
    body(p, node.body);
  },
  WithStatement(p, node) {
    head(p, "with", () => expression(p, node.object));
    body(p, node.body);
  },
  SwitchStatement(p, node) {
    head(p, "switch", () => expression(p, node.discriminant));
    p.write(" ");
    p.lines(node.cases, (it) => switchCase(p, it));
  },
  TryStatement(p, node) {
    p.write("try ");
    block(p, node.block);
    if (node.handler) {
      p.write(" catch ");
      if (node.handler.param) {
        p.within("(", ") ", () => bindingPattern(p, node.handler.param.pattern));
      }
      block(p, node.handler.body);
    }
    if (!node.finalizer) return;
    p.write(" finally ");
    block(p, node.finalizer);
  },
};

/** Writes a statement; one of a module's kinds too. */
export function statement(p, node) {
  const handlers = Object.hasOwn(moduleItems, String(node?.type)) ? moduleItems : statements;
  handlerOf(handlers, node, "where a statement is wanted")(p, node);
}

/** The calls that write the lines of a body: its directives and its statements. */
export function bodyLines(p, directives = [], items = []) {
  return [
    ...directives.map((node) => () => directive(p, node)),
    ...items.map((node, index) => () => (index === 0 && isText(node) ? wrappedText(p, node) : statement(p, node))),
  ];
}

/** A text alone at the front of a body would be a directive. */
const isText = (node) => node?.type === "ExpressionStatement" && node.expression?.type === "StringLiteral";

function wrappedText(p, node) {
  p.within("(", ");", () => expression(p, node.expression));
}

function block(p, node) {
  p.lines(node.body, (inner) => statement(p, inner));
}

function head(p, word, writeHead) {
  p.write(`${word} `);
  p.within("(", ")", writeHead);
}

/** The statement that another one governs. */
function body(p, node) {
  p.write(" ");
  statement(p, node);
}

function spaced(p, node) {
  p.write(" ");
  expression(p, node);
}

function jump(p, word, argument) {
  p.write(word);
  if (argument) spaced(p, argument);
  p.write(";");
}

function variables(p, { kind, declarations }) {
  p.write(`${kind} `);
  p.list(declarations, ({ id, init }) => {
    bindingPattern(p, id);
    if (!init) return;
    p.write(" = ");
    expression(p, init, Level.Assignment);
  });
}

function forInit(p, node) {
  p.begin("forHead");
  if (node.type === "VariableDeclaration") variables(p, node);
  else expression(p, node);
}

function forLeft(p, node, place) {
  p.begin(place);
  if (node.type === "VariableDeclaration") p.inHead(() => variables(p, node));
  else assignmentTarget(p, node);
}

function switchCase(p, { test, consequent = [] }) {
  p.write(test ? "case" : "default");
  if (test) spaced(p, test);
  p.write(":");
  p.depth += 1;
  for (const node of consequent) {
    p.line();
    statement(p, node);
  }
  p.depth -= 1;
}

/** Whether the last thing in the statement is an `if` without `else`. */
function endsInIf(node) {
  switch (node.type) {
    case "IfStatement":
      return node.alternate ? endsInIf(node.alternate) : true;
    case "ForStatement":
    case "ForInStatement":
    case "ForOfStatement":
    case "WhileStatement":
    case "LabeledStatement":
    case "WithStatement":
      return endsInIf(node.body);
    default:
      return false;
  }
}
