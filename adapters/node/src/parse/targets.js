/**
 * What is assigned to. The parser reads it as an expression.
 */
import { expression, isAssignment } from "./expressions.js";
import { identifierReference, propertyKey } from "./names.js";
import { optional } from "./source.js";

const SIMPLE = new Set([
  "IdentifierReference",
  "StaticMemberExpression",
  "ComputedMemberExpression",
  "PrivateFieldExpression",
  "TSAsExpression",
  "TSSatisfiesExpression",
  "TSNonNullExpression",
  "TSTypeAssertion",
]);

/** A target, or a pattern of targets. */
export function assignmentTarget(src, node) {
  if (src.is(node, "ArrayLiteralExpression")) return arrayTarget(src, node);
  if (src.is(node, "ObjectLiteralExpression")) return objectTarget(src, node);
  return simpleTarget(src, node);
}

/** A name, a member, or a wrapper around something; parentheses around it are left out. */
export function simpleTarget(src, node) {
  let inside = node;
  while (src.is(inside, "ParenthesizedExpression")) inside = inside.expression;
  const target = expression(src, inside);
  return SIMPLE.has(target.type) ? target : src.fail("this cannot be assigned to", node);
}

function arrayTarget(src, node) {
  const { others, rest } = splitRest(src, node.elements, "SpreadElement");
  const elements = others.map((element) => (src.is(element, "OmittedExpression") ? null : targetWithDefault(src, element)));
  return src.node("ArrayAssignmentTarget", node, { elements, rest });
}

function objectTarget(src, node) {
  const { others, rest } = splitRest(src, node.properties, "SpreadAssignment");
  return src.node("ObjectAssignmentTarget", node, { properties: others.map((property) => propertyTarget(src, property)), rest });
}

function splitRest(src, list, kind) {
  const last = src.is(list.at(-1), kind) ? list.at(-1) : undefined;
  const others = last ? list.slice(0, -1) : list;
  const misplaced = others.find((element) => src.is(element, kind));
  if (misplaced) src.fail("a rest element has to be the last", misplaced);
  const rest = optional(last, (it) => src.node("AssignmentTargetRest", it, { target: assignmentTarget(src, it.expression) }));
  return { others, rest };
}

function propertyTarget(src, node) {
  if (src.is(node, "ShorthandPropertyAssignment")) {
    return src.node("AssignmentTargetPropertyIdentifier", node, {
      binding: identifierReference(src, node.name),
      init: optional(node.objectAssignmentInitializer, (init) => expression(src, init)),
    });
  }
  if (!src.is(node, "PropertyAssignment")) src.fail("this cannot be assigned to", node);
  const { key: name, computed } = propertyKey(src, node.name);
  return src.node("AssignmentTargetPropertyProperty", node, { name, computed, binding: targetWithDefault(src, node.initializer) });
}

function targetWithDefault(src, node) {
  if (!isAssignment(src, node, "EqualsToken")) return assignmentTarget(src, node);
  return src.node("AssignmentTargetWithDefault", node, {
    binding: assignmentTarget(src, node.left),
    init: expression(src, node.right),
  });
}
