/**
 * Expressions.
 */
import { classExpression } from "./classes.js";
import { arrowFunction, functionExpression, methodFunction } from "./functions.js";
import { jsx } from "./jsx.js";
import { literals } from "./literals.js";
import { identifierName, identifierReference, privateIdentifier, propertyKey, stringLiteral } from "./names.js";
import { flag, handlerOf, optional } from "./source.js";
import { assignmentTarget, simpleTarget } from "./targets.js";
import { typeArguments, typeOf } from "./types.js";

const LOGICAL = ["AmpersandAmpersandToken", "BarBarToken", "QuestionQuestionToken"];

const expressions = {
  Identifier: (src, node) => identifierReference(src, node),
  StringLiteral: (src, node) => stringLiteral(src, node),
  ThisKeyword: (src, node) => src.node("ThisExpression", node),
  SuperKeyword: (src, node) => src.node("Super", node),
  FunctionExpression: (src, node) => functionExpression(src, node),
  ArrowFunction: (src, node) => arrowFunction(src, node),
  ClassExpression: (src, node) => classExpression(src, node),
  ParenthesizedExpression: (src, node) => src.node("ParenthesizedExpression", node, inner(src, node)),

  ArrayLiteralExpression: (src, node) =>
    src.node("ArrayExpression", node, { elements: node.elements.map((element) => arrayElement(src, element)) }),
  ObjectLiteralExpression: (src, node) =>
    src.node("ObjectExpression", node, { properties: node.properties.map((property) => objectProperty(src, property)) }),

  BinaryExpression: (src, node) => binary(src, node),
  PrefixUnaryExpression: (src, node) => prefixUnary(src, node),
  PostfixUnaryExpression: (src, node) =>
    src.node("UpdateExpression", node, { operator: src.ts.tokenToString(node.operator), argument: simpleTarget(src, node.operand) }),
  TypeOfExpression: (src, node) => keywordUnary(src, node, "typeof"),
  VoidExpression: (src, node) => keywordUnary(src, node, "void"),
  DeleteExpression: (src, node) => keywordUnary(src, node, "delete"),
  AwaitExpression: (src, node) => src.node("AwaitExpression", node, { argument: expression(src, node.expression) }),
  YieldExpression: (src, node) =>
    src.node("YieldExpression", node, {
      delegate: flag(node.asteriskToken),
      argument: optional(node.expression, (argument) => expression(src, argument)),
    }),
  ConditionalExpression: (src, node) =>
    src.node("ConditionalExpression", node, {
      test: expression(src, node.condition),
      consequent: expression(src, node.whenTrue),
      alternate: expression(src, node.whenFalse),
    }),

  CallExpression: (src, node) => (src.is(node.expression, "ImportKeyword") ? importCall(src, node) : call(src, node)),
  NewExpression(src, node) {
    const pure = src.takesPure(node);
    return src.node("NewExpression", node, {
      callee: expression(src, node.expression),
      typeArguments: typeArguments(src, node.typeArguments),
      arguments: callArguments(src, node.arguments ?? []),
      pure,
    });
  },
  TaggedTemplateExpression(src, node) {
    if (isInChain(src, node.tag)) src.fail("a tag cannot be an optional chain", node.template);
    return src.node("TaggedTemplateExpression", node, {
      tag: expression(src, node.tag),
      typeArguments: typeArguments(src, node.typeArguments),
      quasi: expression(src, node.template),
    });
  },
  MetaProperty: (src, node) =>
    src.node("MetaProperty", node, { meta: src.ts.tokenToString(node.keywordToken), property: node.name.text }),

  PropertyAccessExpression(src, node) {
    const object = link(src, node.expression);
    const optionalFlag = flag(node.questionDotToken);
    if (src.is(node.name, "PrivateIdentifier")) {
      return src.node("PrivateFieldExpression", node, { object, field: privateIdentifier(src, node.name), optional: optionalFlag });
    }
    return src.node("StaticMemberExpression", node, { object, property: identifierName(src, node.name), optional: optionalFlag });
  },
  ElementAccessExpression: (src, node) =>
    src.node("ComputedMemberExpression", node, {
      object: link(src, node.expression),
      expression: expression(src, node.argumentExpression),
      optional: flag(node.questionDotToken),
    }),

  AsExpression: (src, node) => src.node("TSAsExpression", node, typed(src, node)),
  SatisfiesExpression: (src, node) => src.node("TSSatisfiesExpression", node, typed(src, node)),
  TypeAssertionExpression: (src, node) => src.node("TSTypeAssertion", node, typed(src, node)),
  NonNullExpression: (src, node) => src.node("TSNonNullExpression", node, { expression: link(src, node.expression) }),
  ExpressionWithTypeArguments: (src, node) =>
    src.node("TSInstantiationExpression", node, { ...inner(src, node), typeArguments: typeArguments(src, node.typeArguments) }),
};

const expressionFamilies = () => [expressions, literals, jsx];

/** An expression. */
export function expression(src, node) {
  if (!isInChain(src, node)) return outsideChain(src, node);
  return src.node("ChainExpression", node, { expression: outsideChain(src, node) });
}

/** Whether the node is an assignment with that operator, or with any. */
export function isAssignment(src, node, operatorName) {
  if (!src.is(node, "BinaryExpression")) return false;
  if (operatorName) return src.is(node.operatorToken, operatorName);
  const { FirstAssignment, LastAssignment } = src.ts.SyntaxKind;
  return node.operatorToken.kind >= FirstAssignment && node.operatorToken.kind <= LastAssignment;
}

/** The expression by itself, without the chain that it may end. */
function outsideChain(src, node) {
  const handler = handlerOf(src, expressionFamilies, node);
  return handler ? handler(src, node) : src.unexpected(node, "where an expression is wanted");
}

/** What a member, a call or a `!` is of: in a chain, the chain goes on there. */
const link = (src, node) => (isInChain(src, node) ? outsideChain(src, node) : expression(src, node));

/** Whether a `?.` may end the node early. The parser tells it of all but a `!` at the end of a chain. */
function isInChain(src, node) {
  let inside = node;
  while (src.is(inside, "NonNullExpression")) inside = inside.expression;
  return (inside.flags & src.ts.NodeFlags.OptionalChain) !== 0;
}

const inner = (src, node) => ({ expression: expression(src, node.expression) });
const typed = (src, node) => ({ ...inner(src, node), typeAnnotation: typeOf(src, node.type) });
const keywordUnary = (src, node, operator) => src.node("UnaryExpression", node, { operator, argument: expression(src, node.expression) });

function binary(src, node) {
  const { left, operatorToken, right } = node;
  if (src.is(operatorToken, "CommaToken")) return src.node("SequenceExpression", node, { expressions: sequence(src, node) });
  const operator = src.ts.tokenToString(operatorToken.kind);
  if (isAssignment(src, node)) {
    const target = operator === "=" ? assignmentTarget(src, left) : simpleTarget(src, left);
    return src.node("AssignmentExpression", node, { operator, left: target, right: expression(src, right) });
  }
  if (src.is(left, "PrivateIdentifier")) {
    if (operator !== "in") src.fail("a private name can only stand in front of 'in'", left);
    return src.node("PrivateInExpression", node, { left: privateIdentifier(src, left), right: expression(src, right) });
  }
  const isLogical = LOGICAL.some((name) => src.is(operatorToken, name));
  return src.node(isLogical ? "LogicalExpression" : "BinaryExpression", node, {
    operator,
    left: expression(src, left),
    right: expression(src, right),
  });
}

/** The parts between commas. */
function sequence(src, node) {
  const parts = [];
  let rest = node;
  while (src.is(rest, "BinaryExpression") && src.is(rest.operatorToken, "CommaToken")) {
    parts.unshift(rest.right);
    rest = rest.left;
  }
  return [rest, ...parts].map((part) => expression(src, part));
}

function prefixUnary(src, node) {
  const operator = src.ts.tokenToString(node.operator);
  if (operator === "++" || operator === "--") {
    return src.node("UpdateExpression", node, { operator, prefix: true, argument: simpleTarget(src, node.operand) });
  }
  return src.node("UnaryExpression", node, { operator, argument: expression(src, node.operand) });
}

function call(src, node) {
  const pure = src.takesPure(node);
  return src.node("CallExpression", node, {
    callee: link(src, node.expression),
    typeArguments: typeArguments(src, node.typeArguments),
    arguments: callArguments(src, node.arguments),
    optional: flag(node.questionDotToken),
    pure,
  });
}

function importCall(src, node) {
  const [source, options, third] = node.arguments;
  if (!source) src.fail("'import()' needs the name of a module", node);
  const odd = [source, options].find((argument) => src.is(argument, "SpreadElement")) ?? third;
  if (odd) src.fail("'import()' takes the name of a module and options", odd);
  return src.node("ImportExpression", node, {
    source: expression(src, source),
    options: optional(options, (it) => expression(src, it)),
  });
}

const callArguments = (src, nodes) => nodes.map((node) => argument(src, node));

const spread = (src, node) => src.node("SpreadElement", node, { argument: expression(src, node.expression) });

const argument = (src, node) => (src.is(node, "SpreadElement") ? spread(src, node) : expression(src, node));

const arrayElement = (src, node) => (src.is(node, "OmittedExpression") ? null : argument(src, node));

const properties = {
  SpreadAssignment: (src, node) => spread(src, node),
  PropertyAssignment: (src, node) =>
    src.node("ObjectProperty", node, { ...propertyKey(src, node.name), value: expression(src, node.initializer) }),
  ShorthandPropertyAssignment(src, node) {
    const { name, objectAssignmentInitializer } = node;
    if (objectAssignmentInitializer) src.fail("a default can only stand where something is assigned", node.equalsToken ?? node);
    return src.node("ObjectProperty", node, { key: identifierName(src, name), shorthand: true, value: identifierReference(src, name) });
  },
  MethodDeclaration: (src, node) => objectMethod(src, node, { method: true }),
  GetAccessor: (src, node) => objectMethod(src, node, { kind: "get" }),
  SetAccessor: (src, node) => objectMethod(src, node, { kind: "set" }),
};

const propertyFamilies = () => [properties];

function objectProperty(src, node) {
  const handler = handlerOf(src, propertyFamilies, node);
  if (!handler) src.unexpected(node, "in an object");
  src.refuseModifiers(node, [], { MethodDeclaration: ["AsyncKeyword"] });
  return handler(src, node);
}

function objectMethod(src, node, how) {
  if (!node.body) src.fail("a method of an object needs a body", node);
  return src.node("ObjectProperty", node, { ...how, ...propertyKey(src, node.name), value: methodFunction(src, node) });
}
