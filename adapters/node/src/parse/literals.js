/**
 * Literals and templates.
 */
import { wellFormed } from "../text.js";
import { expression } from "./expressions.js";
import { nodeAt } from "./source.js";

/** The raw text of a template in which each escape means something. */
const COOKABLE = /^(?:[^\\]|\\(?:[^1-9xu0]|0(?![0-9])|x[0-9a-f]{2}|u[0-9a-f]{4}|u\{0*(?:10|[0-9a-f])?[0-9a-f]{1,4}\}))*$/i;

export const literals = {
  TrueKeyword: (src, node) => src.node("BooleanLiteral", node, { value: true }),
  FalseKeyword: (src, node) => src.node("BooleanLiteral", node, { value: false }),
  NullKeyword: (src, node) => src.node("NullLiteral", node),
  BigIntLiteral: (src, node) => src.node("BigIntLiteral", node, { raw: src.textOf(node) }),

  NumericLiteral(src, node) {
    const raw = src.textOf(node);
    // The parser tells old octal digits as if they were decimal.
    const value = /^0[0-7]+$/.test(raw) ? Number.parseInt(raw, 8) : Number(node.text);
    return src.node("NumericLiteral", node, { value: Number.isSafeInteger(value) ? value : undefined, raw });
  },

  RegularExpressionLiteral(src, node) {
    const end = node.text.lastIndexOf("/");
    return src.node("RegExpLiteral", node, { pattern: wellFormed(node.text.slice(1, end)), flags: node.text.slice(end + 1) });
  },

  NoSubstitutionTemplateLiteral: (src, node) => src.node("TemplateLiteral", node, { quasis: [templateElement(src, node, 1)] }),

  TemplateExpression(src, node) {
    const quasis = [templateElement(src, node.head, 2)];
    for (const span of node.templateSpans) {
      quasis.push(templateElement(src, span.literal, src.is(span.literal, "TemplateTail") ? 1 : 2));
    }
    return src.node("TemplateLiteral", node, { quasis, expressions: node.templateSpans.map((span) => expression(src, span.expression)) });
  },
};

/** A text of a template, which ends in as many characters as told: a backtick, or a dollar sign and a brace. */
function templateElement(src, node, endLength) {
  const start = src.startOf(node) + 1;
  const end = node.end - endLength;
  const raw = src.text.slice(start, end).replace(/\r\n?/g, "\n");
  return nodeAt("TemplateElement", start, end, {
    raw: wellFormed(raw),
    cooked: COOKABLE.test(raw) ? wellFormed(node.text) : undefined,
  });
}
