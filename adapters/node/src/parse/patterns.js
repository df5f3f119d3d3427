/**
 * Patterns that declare names.
 */
import { expression } from "./expressions.js";
import { bindingIdentifier, identifierName, propertyKey } from "./names.js";
import { flag } from "./source.js";

/** A name or a pattern without its default. */
export function bindingPattern(src, node) {
  const { elements } = node;
  if (src.is(node, "ObjectBindingPattern")) return src.node("ObjectPattern", node, withRest(src, elements, "properties", bindingProperty));
  if (src.is(node, "ArrayBindingPattern")) return src.node("ArrayPattern", node, withRest(src, elements, "elements", bindingElement));
  return bindingIdentifier(src, node);
}

function withRest(src, elements, field, convert) {
  const last = elements.at(-1);
  const rest = last?.dotDotDotToken ? last : undefined;
  const others = rest ? elements.slice(0, -1) : elements;
  const misplaced = others.find((element) => element.dotDotDotToken);
  if (misplaced) src.fail("a rest element has to be the last", misplaced);
  if (rest?.initializer) src.fail("a rest element takes no initializer", rest.initializer);
  return {
    [field]: others.map((element) => convert(src, element)),
    rest: rest && src.node("BindingRestElement", rest, { argument: bindingPattern(src, rest.name) }),
  };
}

function bindingProperty(src, node) {
  const key = node.propertyName ? propertyKey(src, node.propertyName) : { key: identifierName(src, node.name) };
  return src.node("BindingProperty", node, { ...key, shorthand: flag(!node.propertyName), value: withDefault(src, node, node.name) });
}

const bindingElement = (src, node) => (src.is(node, "OmittedExpression") ? null : withDefault(src, node, node));

function withDefault(src, node, at) {
  const left = bindingPattern(src, node.name);
  if (!node.initializer) return left;
  return { ...src.node("AssignmentPattern", at, { left, right: expression(src, node.initializer) }), end: node.end };
}
