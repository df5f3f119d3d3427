/**
 * What of a tree is TypeScript's.
 */
const FIELDS = [
  "typeAnnotation",
  "returnType",
  "typeParameters",
  "typeArguments",
  "superTypeArguments",
  "implements",
  "thisParam",
  "abstract",
  "declare",
  "definite",
  "override",
  "readonly",
  "accessibility",
  "importKind",
  "exportKind",
];
/** `optional` is TypeScript's in these kinds alone. */
const OPTIONAL_KINDS = new Set(["FormalParameter", "MethodDefinition", "PropertyDefinition"]);

const isDefault = (value) =>
  value === undefined || value === null || value === false || value === "value" || (Array.isArray(value) && value.length === 0);

/** The field of a node that is TypeScript's and not at its default. */
function typescriptField(node) {
  if (OPTIONAL_KINDS.has(node.type) && !isDefault(node.optional)) return "optional";
  return FIELDS.find((name) => !isDefault(node[name]));
}

/**
 * The first node that is TypeScript's, or has a field that is.
 *
 * @param {object} root
 * @returns {{ node: object, field?: string } | undefined}
 */
export function firstTypescript(root) {
  const waiting = [root];
  while (waiting.length > 0) {
    const node = waiting.pop();
    if (typeof node.type === "string") {
      if (/^(?:TS|JSDoc)/.test(node.type)) return { node };
      const field = typescriptField(node);
      if (field !== undefined) return { node, field };
    }
    const parts = Object.values(node).filter((part) => part !== null && typeof part === "object");
    waiting.push(...parts.reverse());
  }
  return undefined;
}
