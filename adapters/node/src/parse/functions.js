/**
 * Functions of all kinds, and their parameters.
 */
import { decorators, wantName } from "./classes.js";
import { expression } from "./expressions.js";
import { bindingIdentifier } from "./names.js";
import { bindingPattern } from "./patterns.js";
import { flag, nodeAt, optional, unlessEmpty } from "./source.js";
import { bodyOf, statement } from "./statements.js";
import { typeAnnotation, typeParameters } from "./types.js";

const ACCESSIBILITY = { PublicKeyword: "public", ProtectedKeyword: "protected", PrivateKeyword: "private" };

export function functionDeclaration(src, node) {
  wantName(src, node);
  return src.node(node.body ? "FunctionDeclaration" : "TSDeclareFunction", node, {
    id: optional(node.name, (name) => bindingIdentifier(src, name)),
    ...signature(src, node),
    declare: src.flag(node, "DeclareKeyword"),
    body: optional(node.body, (body) => functionBody(src, body)),
  });
}

export function functionExpression(src, node) {
  return src.node("FunctionExpression", node, {
    id: optional(node.name, (name) => bindingIdentifier(src, name)),
    ...signature(src, node),
    body: functionBody(src, node.body),
  });
}

export function arrowFunction(src, node) {
  const { async, typeParameters, thisParam, params, returnType } = signature(src, node);
  if (thisParam) src.fail("an arrow function has no parameter 'this'", node.parameters[0]);
  const body = src.is(node.body, "Block") ? functionBody(src, node.body) : expression(src, node.body);
  return src.node("ArrowFunctionExpression", node, { async, typeParameters, params, returnType, body });
}

/** The function of a method, which begins where its type parameters or its parameters do. */
export function methodFunction(src, node) {
  const parts = signature(src, node);
  return nodeAt(
    node.body ? "FunctionExpression" : "TSEmptyBodyFunctionExpression",
    (parts.typeParameters ?? parts.params).start,
    node.end,
    { ...parts, body: optional(node.body, (body) => functionBody(src, body)) },
  );
}

export function functionBody(src, block) {
  const { directives, items } = bodyOf(src, block.statements, statement);
  return src.node("FunctionBody", block, { directives: unlessEmpty(directives), statements: items });
}

/** How a parameter or an element of a class may be reached, by its modifiers. */
export function accessibilityOf(src, node) {
  const name = Object.keys(ACCESSIBILITY).find((word) => src.modifier(node, word));
  return ACCESSIBILITY[name];
}

/** All of a function but its name and its body, as fields. */
function signature(src, node) {
  const [first] = node.parameters;
  const thisParameter = src.is(first?.name, "Identifier") && first.name.text === "this" ? first : undefined;
  return {
    async: src.flag(node, "AsyncKeyword"),
    generator: flag(node.asteriskToken),
    typeParameters: typeParameters(src, node.typeParameters),
    thisParam: optional(thisParameter, (it) =>
      src.node("TSThisParameter", it, { typeAnnotation: typeAnnotation(src, it.type) }),
    ),
    params: parameters(src, node.parameters, thisParameter ? 1 : 0),
    returnType: typeAnnotation(src, node.type),
  };
}

function parameters(src, list, from) {
  const last = list.at(-1);
  const rest = last?.dotDotDotToken ? last : undefined;
  const items = list.slice(from, rest ? -1 : undefined);
  const misplaced = items.find((parameter) => parameter.dotDotDotToken);
  if (misplaced) src.fail("a rest parameter has to be the last", misplaced);
  const hasParenthesis = src.text[list.pos - 1] === "(";
  const span = hasParenthesis ? src.bracketed(list) : { start: src.skipTrivia(list.pos), end: list.end };
  return nodeAt("FormalParameters", span.start, span.end, {
    items: items.map((parameter) => formalParameter(src, parameter)),
    rest: rest && restParameter(src, rest),
  });
}

function formalParameter(src, node) {
  src.refuseModifiers(node, ["Decorator"]);
  return src.node("FormalParameter", node, {
    decorators: unlessEmpty(decorators(src, node)),
    accessibility: accessibilityOf(src, node),
    readonly: src.flag(node, "ReadonlyKeyword"),
    override: src.flag(node, "OverrideKeyword"),
    optional: flag(node.questionToken),
    pattern: bindingPattern(src, node.name),
    typeAnnotation: typeAnnotation(src, node.type),
    initializer: optional(node.initializer, (init) => expression(src, init)),
  });
}

function restParameter(src, node) {
  if (node.initializer) src.fail("a rest parameter takes no initializer", node.initializer);
  if (node.modifiers?.length) src.fail("a rest parameter takes neither modifiers nor decorators", node);
  return src.node("FormalParameterRest", node, {
    pattern: bindingPattern(src, node.name),
    typeAnnotation: typeAnnotation(src, node.type),
  });
}
