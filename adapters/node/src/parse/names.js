/**
 * Names, keys of properties, and texts.
 */
import { cookText, wellFormed } from "../text.js";
import { expression } from "./expressions.js";
import { nodeAt } from "./source.js";

const named = (type) => (src, node) => {
  if (!src.is(node, "Identifier")) src.unexpected(node, "where a name is wanted");
  return src.node(type, node, { name: node.text });
};

/** A name that declares something. */
export const bindingIdentifier = named("BindingIdentifier");
/** A name that means something declared elsewhere. */
export const identifierReference = named("IdentifierReference");
/** A name of a property. */
export const identifierName = named("IdentifierName");

/** A private name, without its `#`. */
export const privateIdentifier = (src, node) => src.node("PrivateIdentifier", node, { name: node.text.replace(/^#/, "") });

/** A text in quotes. */
export function stringLiteral(src, node) {
  if (!src.is(node, "StringLiteral")) src.fail("a text in quotes is wanted", node);
  const raw = wellFormed(src.textOf(node));
  // The parser does not know what an old octal escape means.
  return src.node("StringLiteral", node, { value: cookText(raw.slice(1, -1)) ?? wellFormed(node.text), raw });
}

/** A name of something that a module exports. */
export function moduleExportName(src, node, convert = identifierName) {
  return src.is(node, "StringLiteral") ? stringLiteral(src, node) : convert(src, node);
}

/** A dotted name in types and in `import a = b.c`. */
export function entityName(src, node) {
  if (src.is(node, "QualifiedName")) {
    return src.node("TSQualifiedName", node, { left: entityName(src, node.left), right: identifierName(src, node.right) });
  }
  if (src.is(node, "ThisKeyword") || node.text === "this") return src.node("ThisExpression", node);
  return identifierReference(src, node);
}

/** The key of a property and whether it is computed, as fields. */
export function propertyKey(src, name) {
  if (src.is(name, "Identifier")) return { key: identifierName(src, name) };
  if (src.is(name, "ComputedPropertyName")) return { key: expression(src, name.expression), computed: true };
  if (src.is(name, "PrivateIdentifier")) return src.fail("a private name can only be that of a class element", name);
  return { key: expression(src, name) };
}

/** The same for an element of a class, whose key may be a private name. */
export function elementKey(src, name) {
  return src.is(name, "PrivateIdentifier") ? { key: privateIdentifier(src, name) } : propertyKey(src, name);
}

/** A name at an offset of the text, for those that have no node of their own in the parser's tree. */
export const identifierNameAt = (name, start) => nodeAt("IdentifierName", start, start + name.length, { name });
