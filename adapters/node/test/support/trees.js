/**
 * Trees as they are compared.
 */

/** The tree without spans and parentheses. */
export function bare(value) {
  if (Array.isArray(value)) return value.map(bare);
  if (value === null || typeof value !== "object") return value;
  if (value.type === "ParenthesizedExpression") return bare(value.expression);
  const fields = Object.entries(value).filter(([name]) => name !== "start" && name !== "end");
  return Object.fromEntries(fields.map(([name, part]) => [name, bare(part)]));
}

/** The tree without parentheses, so that a printer has to find all that are needed. */
export function withoutParentheses(value) {
  if (Array.isArray(value)) return value.map(withoutParentheses);
  if (value === null || typeof value !== "object") return value;
  if (value.type === "ParenthesizedExpression") return withoutParentheses(value.expression);
  return Object.fromEntries(Object.entries(value).map(([name, part]) => [name, withoutParentheses(part)]));
}

/** A lowered tree and that of its text have no language and no numbers' texts to differ in. */
export function meaning(value) {
  if (Array.isArray(value)) return value.map(meaning);
  if (value === null || typeof value !== "object") return value;
  if (value.type === "ParenthesizedExpression") return meaning(value.expression);
  const isUnread = (name) => ["start", "end", "lang", "sourceType"].includes(name) || (name === "raw" && "value" in value);
  return Object.fromEntries(Object.entries(value).filter(([name]) => !isUnread(name)).map(([name, part]) => [name, meaning(part)]));
}

/** Each node of the tree, in preorder. */
export function* nodesOf(value) {
  if (value === null || typeof value !== "object") return;
  if (typeof value.type === "string") yield value;
  for (const part of Object.values(value)) yield* nodesOf(part);
}

/** The first place at which two values differ, as a line; undefined where they are equal. */
export function firstDifference(one, other, place = "") {
  if (Object.is(one, other)) return undefined;
  const areObjects = [one, other].every((value) => value !== null && typeof value === "object");
  if (!areObjects) return `${place}: ${shown(one)} and ${shown(other)}`;
  for (const name of new Set([...Object.keys(one), ...Object.keys(other)])) {
    const found = firstDifference(one[name], other[name], `${place}/${name}`);
    if (found) return found;
  }
  return undefined;
}

const shown = (value) => String(JSON.stringify(value, (_name, it) => (typeof it === "bigint" ? `${it}n` : it))).slice(0, 80);
