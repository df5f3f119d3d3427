/**
 * The places that the program names, in the tree that it was given.
 */

/** The deepest node on the way of a JSON pointer. */
export function nodeAtPointer(tree, pointer) {
  let value = tree;
  let node = tree;
  for (const step of pointer.split("/").slice(1)) {
    value = value?.[step.replaceAll("~1", "/").replaceAll("~0", "~")];
    if (typeof value?.type === "string") node = value;
  }
  return node;
}

/** The first node in preorder for which the call holds. */
export function firstNode(tree, isWanted) {
  const waiting = [tree];
  while (waiting.length > 0) {
    const value = waiting.pop();
    if (typeof value.type === "string" && isWanted(value)) return value;
    waiting.push(...partsOf(value).reverse());
  }
  return undefined;
}

/** The first node that stands deeper in the JSON than the limit: a node is one level, a list one more. */
export function firstDeeperThan(tree, limit) {
  const waiting = [{ value: tree, level: 1, node: tree }];
  while (waiting.length > 0) {
    const { value, level, node: around } = waiting.pop();
    const node = Array.isArray(value) ? around : value;
    if (level > limit) return node;
    waiting.push(...partsOf(value).map((part) => ({ value: part, level: level + 1, node })).reverse());
  }
  return undefined;
}

const partsOf = (value) => Object.values(value).filter((part) => part !== null && typeof part === "object");
