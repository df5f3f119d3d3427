/**
 * Expressions.
 */
import { arrowFunction, functionLike, methodLike } from "./functions.js";
import { classLike } from "./classes.js";
import { jsx } from "./jsx.js";
import { literals, numberText, propertyKey } from "./literals.js";
import { cannotMix, Level, levelOf, sidesOf } from "./precedence.js";
import { handlerOf, unprintable } from "./printer.js";
import { assignmentTarget, isObjectTarget } from "./targets.js";

const PURE = "/* @__PURE__ */ ";

/** What cannot begin with the expression, by the expression's kind: it would be read as something else. */
const CANNOT_BEGIN = {
  FunctionExpression: ["statement", "exportDefault"],
  ClassExpression: ["statement", "exportDefault"],
  ObjectExpression: ["statement", "arrowBody"],
};
/** The same for names, by the name. */
const NAMES_CANNOT_BEGIN = new Map([
  ["let", ["statement", "forHead", "forOfHead"]],
  ["async", ["forOfHead"]],
]);

const expressions = {
  IdentifierReference: (p, node) => p.write(node.name),
  ThisExpression: (p) => p.write("this"),
  Super: (p) => p.write("super"),
  MetaProperty: (p, node) => p.write(`${node.meta}.${node.property}`),
  FunctionExpression: (p, node) => functionLike(p, node),
  ArrowFunctionExpression: (p, node) => arrowFunction(p, node),
  ClassExpression: (p, node) => classLike(p, node),
  ParenthesizedExpression: (p, node) => p.within("(", ")", () => expression(p, node.expression)),

  ArrayExpression(p, node) {
    // Some parsers take no bare `in` in an array that stands in the head of a loop.
    p.withinAsHead("[", "]", () => holedList(p, node.elements, (element) => argument(p, element)));
  },
  ObjectExpression(p, node) {
    if (node.properties.length === 0) return p.write("{}");
    return p.within("{ ", " }", () => p.list(node.properties, (property) => objectProperty(p, property)));
  },

  SequenceExpression: (p, node) => p.list(node.expressions, (part) => expression(p, part, Level.Assignment)),
  AssignmentExpression(p, node) {
    assignmentTarget(p, node.left);
    p.write(` ${node.operator} `);
    expression(p, node.right, Level.Assignment);
  },
  BinaryExpression: binary,
  LogicalExpression: binary,
  PrivateInExpression(p, node) {
    p.write(`#${node.left.name} in `);
    expression(p, node.right, Level.Shift);
  },
  UnaryExpression(p, node) {
    const isWord = /^\w/.test(node.operator);
    p.writeApart(isWord ? `${node.operator} ` : node.operator);
    expression(p, node.argument, Level.Unary);
  },
  UpdateExpression(p, node) {
    if (node.prefix) p.writeApart(node.operator);
    assignmentTarget(p, node.argument);
    if (!node.prefix) p.write(node.operator);
  },
  AwaitExpression(p, node) {
    p.write("await ");
    expression(p, node.argument, Level.Unary);
  },
  YieldExpression(p, node) {
    p.write(node.delegate ? "yield*" : "yield");
    if (!node.argument) return;
    p.write(" ");
    expression(p, node.argument, Level.Assignment);
  },
  ConditionalExpression(p, node) {
    expression(p, node.test, Level.Nullish);
    p.write(" ? ");
    const { isInHead } = p;
    p.isInHead = false;
    expression(p, node.consequent, Level.Assignment);
    p.isInHead = isInHead;
    p.write(" : ");
    expression(p, node.alternate, Level.Assignment);
  },

  ChainExpression: (p, node) => expression(p, node.expression, Level.Call),
  CallExpression(p, node) {
    if (node.pure) p.comment(PURE);
    expression(p, node.callee, headLevel(node.callee));
    if (node.optional) p.write("?.");
    callArguments(p, node.arguments);
  },
  NewExpression(p, node) {
    if (node.pure) p.comment(PURE);
    p.write("new ");
    // A call in the callee would be read as that of the `new`.
    expression(p, node.callee, hasCall(node.callee) ? Level.Primary + 1 : headLevel(node.callee, Level.Member));
    callArguments(p, node.arguments);
  },
  ImportExpression(p, node) {
    p.write("import");
    callArguments(p, node.options ? [node.source, node.options] : [node.source]);
  },
  TaggedTemplateExpression(p, node) {
    expression(p, node.tag, headLevel(node.tag));
    literals.TemplateLiteral(p, node.quasi);
  },
  StaticMemberExpression(p, node) {
    memberObject(p, node);
    p.write(`${node.optional ? "?." : "."}${node.property.name}`);
  },
  PrivateFieldExpression(p, node) {
    memberObject(p, node);
    p.write(`${node.optional ? "?." : "."}#${node.field.name}`);
  },
  ComputedMemberExpression(p, node) {
    expression(p, node.object, headLevel(node.object));
    if (node.optional) p.write("?.");
    p.within("[", "]", () => expression(p, node.expression));
  },
};

const handlers = () => (handlers.all ??= { ...expressions, ...literals, ...jsx });

const WRAPPERS = new Set([
  "TSAsExpression",
  "TSSatisfiesExpression",
  "TSTypeAssertion",
  "TSNonNullExpression",
  "TSInstantiationExpression",
]);

/**
 * Writes an expression, in parentheses where it binds less tightly than its place asks for, or where it would be read
 * as something else.
 */
export function expression(p, node, level = Level.Sequence) {
  // A wrapper that was left, of which a diagnostic tells, is written without its type.
  if (WRAPPERS.has(node?.type)) return expression(p, node.expression, level);
  const handler = handlerOf(handlers(), node, "where an expression is wanted");
  if (effectiveLevel(node) < level || mustBeWrapped(p, node)) return p.within("(", ")", () => handler(p, node));
  return handler(p, node);
}

/** Writes what stands in a call or a list. */
export function argument(p, node) {
  if (node.type !== "SpreadElement") return expression(p, node, Level.Assignment);
  p.write("...");
  return expression(p, node.argument, Level.Assignment);
}

/** Writes a list in which some elements are missing; the last comma of a list is none of theirs. */
export function holedList(p, elements, writeElement) {
  p.list(elements, (element) => element && writeElement(element));
  if (elements.at(-1) === null) p.write(",");
}

/** A comment in front of a call would speak of all that follows, so that a call with one binds loosely. */
function effectiveLevel(node) {
  const level = levelOf(node);
  if (level === undefined) return unprintable(node, `with the operator ${node.operator}`);
  return node.pure ? Math.min(level, Level.Unary) : level;
}

function mustBeWrapped(p, node) {
  if (p.isInHead && (node.operator === "in" || node.type === "PrivateInExpression")) return true;
  const places = node.type === "IdentifierReference" ? NAMES_CANNOT_BEGIN.get(node.name) : CANNOT_BEGIN[kindAtStart(node)];
  return places !== undefined && places.some((place) => p.isAtStart(place));
}

/** An assignment to an object's parts begins as an object does. */
const kindAtStart = (node) => (node.type === "AssignmentExpression" && isObjectTarget(node.left) ? "ObjectExpression" : node.type);

/** What a member, a call or a tag is of: a chain that has ended stands in parentheses there. */
const headLevel = (node, level = Level.Call) => (node.type === "ChainExpression" ? Level.Primary + 1 : level);

function memberObject(p, { object, optional }) {
  expression(p, object, headLevel(object));
  // The dot of a member would be read as that of the number.
  if (object.type === "NumericLiteral" && !optional && /^[\d_]+$/.test(numberText(object))) p.write(" ");
}

function callArguments(p, nodes) {
  p.within("(", ")", () => p.list(nodes, (node) => argument(p, node)));
}

/** Whether the parts in front of the last of a callee have a call that stands in no parentheses. */
function hasCall(node) {
  switch (node.type) {
    case "CallExpression":
    case "ImportExpression":
      return true;
    case "StaticMemberExpression":
    case "ComputedMemberExpression":
    case "PrivateFieldExpression":
      return hasCall(node.object);
    case "TaggedTemplateExpression":
      return hasCall(node.tag);
    default:
      return WRAPPERS.has(node.type) && hasCall(node.expression);
  }
}

/** Writes an operator between its sides; long rows of them are written without going deeper. */
function binary(p, node) {
  const row = [];
  let left = node;
  do {
    row.push(left);
    left = left.left;
  } while (isBinary(left) && stands(p, left, row.at(-1)));
  side(p, left, row.at(-1), sidesOf(row.at(-1).operator).left);
  for (const { operator, right } of row.reverse()) {
    p.write(` ${operator} `);
    side(p, right, { operator }, sidesOf(operator).right);
  }
}

const isBinary = (node) => node.type === "BinaryExpression" || node.type === "LogicalExpression";

/** Whether the operator on the left of another stands there without parentheses. */
const stands = (p, node, { operator }) =>
  levelOf(node) >= sidesOf(operator).left && !cannotMix(operator, node) && !(p.isInHead && node.operator === "in");

function side(p, node, { operator }, level) {
  expression(p, node, cannotMix(operator, node) ? Level.Primary : level);
}

const properties = {
  SpreadElement: argument,
  ObjectProperty(p, node) {
    if (node.method || (node.kind ?? "init") !== "init") return methodLike(p, node, node.kind);
    if (node.shorthand && isNamedAs(node.key, node.value)) return p.write(node.key.name);
    propertyKey(p, node.key, node.computed);
    p.write(": ");
    return expression(p, node.value, Level.Assignment);
  },
};

const objectProperty = (p, node) => handlerOf(properties, node, "in an object")(p, node);

const isNamedAs = (key, value) => value.type === "IdentifierReference" && value.name === key.name;
