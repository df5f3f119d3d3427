/**
 * Patterns that declare names.
 */
import { expression, holedList } from "./expressions.js";
import { propertyKey } from "./literals.js";
import { Level } from "./precedence.js";
import { handlerOf } from "./printer.js";

const patterns = {
  BindingIdentifier: (p, node) => p.write(node.name),
  AssignmentPattern(p, node) {
    bindingPattern(p, node.left);
    p.write(" = ");
    expression(p, node.right, Level.Assignment);
  },
  ObjectPattern: (p, node) => objectParts(p, node, bindingProperty, (rest) => bindingPattern(p, rest.argument)),
  ArrayPattern: (p, node) => arrayParts(p, node, bindingPattern, (rest) => bindingPattern(p, rest.argument)),
};

export const bindingPattern = (p, node) => handlerOf(patterns, node, "where a name is declared")(p, node);

/** The parts of a pattern in braces, the rest behind them. Some parsers take no bare `in` in a pattern in a loop's head. */
export function objectParts(p, { properties, rest }, writeProperty, writeRest) {
  const parts = rest ? [...properties, rest] : properties;
  if (parts.length === 0) return p.write("{}");
  return p.withinAsHead("{ ", " }", () => p.list(parts, (part) => writePart(p, part, rest, writeProperty, writeRest)));
}

/** The parts of a pattern in brackets. */
export function arrayParts(p, { elements, rest }, writeElement, writeRest) {
  const parts = rest ? [...elements, rest] : elements;
  p.withinAsHead("[", "]", () => holedList(p, parts, (part) => writePart(p, part, rest, writeElement, writeRest)));
}

function writePart(p, part, rest, write, writeRest) {
  if (part !== rest) return write(p, part);
  p.write("...");
  return writeRest(rest);
}

function bindingProperty(p, { key, computed, shorthand, value }) {
  const name = value.type === "AssignmentPattern" ? value.left : value;
  if (!(shorthand && name.type === "BindingIdentifier" && name.name === key.name)) {
    propertyKey(p, key, computed);
    p.write(": ");
  }
  bindingPattern(p, value);
}
