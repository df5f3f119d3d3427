/**
 * What is assigned to.
 */
import { expression } from "./expressions.js";
import { propertyKey } from "./literals.js";
import { arrayParts, objectParts } from "./patterns.js";
import { Level } from "./precedence.js";
import { handlerOf } from "./printer.js";

const targets = {
  ArrayAssignmentTarget: (p, node) => arrayParts(p, node, slot, (rest) => assignmentTarget(p, rest.target)),
  ObjectAssignmentTarget: (p, node) => objectParts(p, node, property, (rest) => assignmentTarget(p, rest.target)),
};

/** Writes a target: a pattern, or an expression that can be assigned to. */
export function assignmentTarget(p, node) {
  if (Object.hasOwn(targets, String(node?.type))) targets[node.type](p, node);
  else expression(p, node, Level.Call);
}

/** Whether the target begins with a brace. */
export const isObjectTarget = (node) => node.type === "ObjectAssignmentTarget";

function slot(p, node) {
  if (node.type !== "AssignmentTargetWithDefault") return assignmentTarget(p, node);
  assignmentTarget(p, node.binding);
  p.write(" = ");
  return expression(p, node.init, Level.Assignment);
}

const properties = {
  AssignmentTargetPropertyIdentifier(p, node) {
    p.write(node.binding.name);
    if (!node.init) return;
    p.write(" = ");
    expression(p, node.init, Level.Assignment);
  },
  AssignmentTargetPropertyProperty(p, node) {
    propertyKey(p, node.name, node.computed);
    p.write(": ");
    slot(p, node.binding);
  },
};

const property = (p, node) => handlerOf(properties, node, "where something is assigned")(p, node);
