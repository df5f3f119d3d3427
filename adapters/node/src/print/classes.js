/**
 * Classes, their elements and their decorators.
 */
import { expression } from "./expressions.js";
import { methodLike } from "./functions.js";
import { propertyKey } from "./literals.js";
import { Level } from "./precedence.js";
import { handlerOf } from "./printer.js";
import { statement } from "./statements.js";

/** A class declaration or expression. `withDecorators` is false where they have been written in front of `export`. */
export function classLike(p, node, withDecorators = true) {
  if (withDecorators) decorators(p, node, " ");
  p.write("class");
  if (node.id) p.write(` ${node.id.name}`);
  if (node.superClass) {
    p.write(" extends ");
    expression(p, node.superClass, Level.Call);
  }
  p.write(" ");
  p.lines(node.body.body, (element) => handlerOf(elements, element, "in a class")(p, element));
}

/** The decorators of a node, each with what separates it from what follows. */
export function decorators(p, node, separator) {
  for (const decorator of node.decorators ?? []) {
    p.write("@");
    expression(p, decorator.expression, isBare(decorator.expression) ? Level.Sequence : Level.Primary + 1);
    p.write(separator);
  }
}

/** Whether a decorator's expression is a dotted name or a call of one, or stands in parentheses already. */
function isBare(node) {
  if (node.type === "ParenthesizedExpression") return true;
  return isDotted(node.type === "CallExpression" && !node.optional && !node.pure ? node.callee : node);
}

function isDotted(node) {
  if (node.type === "IdentifierReference") return true;
  const isMember = node.type === "StaticMemberExpression" || node.type === "PrivateFieldExpression";
  return isMember && !node.optional && isDotted(node.object);
}

const elements = {
  MethodDefinition(p, node) {
    elementHead(p, node);
    methodLike(p, node, node.kind);
  },
  PropertyDefinition: (p, node) => field(p, node, ""),
  AccessorProperty: (p, node) => field(p, node, "accessor "),
  StaticBlock(p, node) {
    p.write("static ");
    p.lines(node.body, (inner) => statement(p, inner));
  },
};

function elementHead(p, node) {
  decorators(p, node, " ");
  if (node.static) p.write("static ");
}

function field(p, node, word) {
  elementHead(p, node);
  p.write(word);
  propertyKey(p, node.key, node.computed);
  if (node.value) {
    p.write(" = ");
    expression(p, node.value, Level.Assignment);
  }
  p.write(";");
}
