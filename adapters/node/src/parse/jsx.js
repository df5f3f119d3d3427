/**
 * JSX. Its texts and the texts of its attributes stay as they are written, with their entities.
 */
import { wellFormed } from "../text.js";
import { expression } from "./expressions.js";
import { identifierReference } from "./names.js";
import { handlerOf, nodeAt, optional, unlessEmpty } from "./source.js";
import { typeArguments } from "./types.js";

export const jsx = {
  JsxElement: (src, node) =>
    src.node("JSXElement", node, {
      openingElement: openingElement(src, node.openingElement),
      children: unlessEmpty(children(src, node)),
      closingElement: src.node("JSXClosingElement", node.closingElement, { name: elementName(src, node.closingElement.tagName) }),
    }),
  JsxSelfClosingElement: (src, node) => src.node("JSXElement", node, { openingElement: openingElement(src, node) }),
  JsxFragment: (src, node) => src.node("JSXFragment", node, { children: unlessEmpty(children(src, node)) }),
};

function openingElement(src, node) {
  return src.node("JSXOpeningElement", node, {
    name: elementName(src, node.tagName),
    typeArguments: typeArguments(src, node.typeArguments),
    attributes: unlessEmpty(node.attributes.properties.map((attribute) => attributeItem(src, attribute))),
  });
}

/** The name of an element: a component's where it is neither in lower case nor has a dash. */
function elementName(src, node) {
  if (src.is(node, "ThisKeyword") || node.text === "this") return src.node("ThisExpression", node);
  if (src.is(node, "PropertyAccessExpression")) {
    return src.node("JSXMemberExpression", node, { object: memberObject(src, node.expression), property: node.name.text });
  }
  if (isNamespaced(src, node)) return namespacedName(src, node);
  return /^[a-z]|-/.test(node.text) ? src.node("JSXIdentifier", node, { name: node.text }) : identifierReference(src, node);
}

/** What stands in front of a dot of a name is a value, in lower case too. */
function memberObject(src, node) {
  const isName = src.is(node, "Identifier") && node.text !== "this";
  return isName ? identifierReference(src, node) : elementName(src, node);
}

/** Older parsers read a name with a colon as one identifier. */
const isNamespaced = (src, node) => src.is(node, "JsxNamespacedName") || node.text?.includes(":");

function namespacedName(src, node) {
  const [namespace, name] = src.is(node, "JsxNamespacedName") ? [node.namespace.text, node.name.text] : node.text.split(":");
  return src.node("JSXNamespacedName", node, { namespace: namespace.trim(), name: name.trim() });
}

function attributeItem(src, node) {
  if (src.is(node, "JsxSpreadAttribute")) {
    return src.node("JSXSpreadAttribute", node, { argument: expression(src, node.expression) });
  }
  const { name } = node;
  return src.node("JSXAttribute", node, {
    name: isNamespaced(src, name) ? namespacedName(src, name) : src.node("JSXIdentifier", name, { name: name.text }),
    value: optional(node.initializer, (value) => attributeValue(src, value)),
  });
}

function attributeValue(src, node) {
  if (!src.is(node, "StringLiteral")) return child(src, node);
  const raw = wellFormed(src.textOf(node));
  return src.node("StringLiteral", node, { value: raw.slice(1, -1), raw });
}

const children = (src, node) => node.children.map((it) => child(src, it));

const childHandlers = {
  // The text begins where the last token ends: its spaces count.
  JsxText: (src, node) => nodeAt("JSXText", node.pos, node.end, { value: wellFormed(src.text.slice(node.pos, node.end)) }),
  JsxExpression(src, node) {
    if (!node.expression) {
      const empty = nodeAt("JSXEmptyExpression", src.startOf(node) + 1, node.end - 1);
      return src.node("JSXExpressionContainer", node, { expression: empty });
    }
    const type = node.dotDotDotToken ? "JSXSpreadChild" : "JSXExpressionContainer";
    return src.node(type, node, { expression: expression(src, node.expression) });
  },
  ...jsx,
};

const childFamilies = () => [childHandlers];

function child(src, node) {
  const handler = handlerOf(src, childFamilies, node);
  return handler ? handler(src, node) : src.unexpected(node, "in JSX");
}
