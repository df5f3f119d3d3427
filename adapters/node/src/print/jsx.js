/**
 * JSX, which stays as it is.
 */
import { expression } from "./expressions.js";
import { Level } from "./precedence.js";
import { handlerOf } from "./printer.js";

export const jsx = {
  JSXElement(p, { openingElement, children, closingElement }) {
    p.write("<");
    elementName(p, openingElement.name);
    for (const attribute of openingElement.attributes ?? []) {
      p.write(" ");
      handlerOf(attributes, attribute, "as an attribute")(p, attribute);
    }
    if (!closingElement) return p.write(" />");
    p.write(">");
    writeChildren(p, children);
    p.write("</");
    elementName(p, closingElement.name);
    return p.write(">");
  },
  JSXFragment(p, { children }) {
    p.write("<>");
    writeChildren(p, children);
    p.write("</>");
  },
};

const names = {
  JSXIdentifier: (p, node) => p.write(node.name),
  IdentifierReference: (p, node) => p.write(node.name),
  ThisExpression: (p) => p.write("this"),
  JSXNamespacedName: (p, node) => p.write(`${node.namespace}:${node.name}`),
  JSXMemberExpression(p, node) {
    elementName(p, node.object);
    p.write(`.${node.property}`);
  },
};

const elementName = (p, node) => handlerOf(names, node, "as the name of an element")(p, node);

const attributes = {
  JSXAttribute(p, { name, value }) {
    elementName(p, name);
    if (!value) return;
    p.write("=");
    if (value.type === "StringLiteral") p.write(attributeText(value));
    else child(p, value);
  },
  JSXSpreadAttribute: (p, node) => braces(p, () => spread(p, node.argument)),
};

/** The text of an attribute has no escapes: it stands between the quotes that it has not. */
function attributeText({ raw, value }) {
  if (typeof raw === "string" && raw.slice(1, -1) === value) return raw;
  return value.includes('"') ? `'${value.replaceAll("'", "&#39;")}'` : `"${value}"`;
}

/** Signs that no text has as it is written, but may have in a tree that was made by hand. */
const ENTITIES = { "<": "&lt;", ">": "&gt;", "{": "&#123;", "}": "&#125;" };

const childHandlers = {
  JSXText: (p, node) => p.write(node.value.replace(/[<>{}]/g, (sign) => ENTITIES[sign])),
  JSXExpressionContainer(p, { expression: inside }) {
    braces(p, () => inside.type === "JSXEmptyExpression" || expression(p, inside));
  },
  JSXSpreadChild: (p, node) => braces(p, () => spread(p, node.expression)),
  ...jsx,
};

const child = (p, node) => handlerOf(childHandlers, node, "in JSX")(p, node);

const writeChildren = (p, children = []) => children.forEach((node) => child(p, node));

const braces = (p, writeInside) => p.within("{", "}", writeInside);

function spread(p, node) {
  p.write("...");
  expression(p, node, Level.Assignment);
}
