/**
 * Variables, types, enums and namespaces.
 */
import { expression } from "./expressions.js";
import { literals } from "./literals.js";
import { bindingIdentifier, identifierName, stringLiteral } from "./names.js";
import { bindingPattern } from "./patterns.js";
import { flag, nodeAt, optional, unlessEmpty } from "./source.js";
import { bodyOf, item } from "./statements.js";
import { typeAnnotation } from "./types.js";

export function variableStatement(src, node) {
  const declaration = variableDeclaration(src, node.declarationList, src.flag(node, "DeclareKeyword"));
  return { ...declaration, start: src.startOf(node), end: node.end };
}

/** The variables that one keyword declares. */
export function variableDeclaration(src, list, declare) {
  if (list.declarations.length === 0) src.fail("a variable's name is wanted", list.end);
  return src.node("VariableDeclaration", list, {
    kind: variableKind(src.ts.NodeFlags, list.flags),
    declarations: list.declarations.map((node) => variableDeclarator(src, node)),
    declare,
  });
}

function variableKind(flags, of) {
  // 'await using' has the bits of 'const' and 'using' together. Older parsers know neither.
  const using = flags.Using ?? 0;
  const bits = of & (flags.Let | flags.Const | using);
  if (using && bits === (flags.Const | using)) return "await using";
  if (using && bits === using) return "using";
  if (bits & flags.Const) return "const";
  return bits & flags.Let ? "let" : "var";
}

function variableDeclarator(src, node) {
  return src.node("VariableDeclarator", node, {
    id: bindingPattern(src, node.name),
    typeAnnotation: typeAnnotation(src, node.type),
    definite: flag(node.exclamationToken),
    init: optional(node.initializer, (init) => expression(src, init)),
  });
}

/** Interfaces and type aliases, of which only the name matters. */
export function typeDeclaration(type) {
  return (src, node) => src.node(type, node, { id: bindingIdentifier(src, node.name), declare: src.flag(node, "DeclareKeyword") });
}

export function enumDeclaration(src, node) {
  return src.node("TSEnumDeclaration", node, {
    id: bindingIdentifier(src, node.name),
    const: src.flag(node, "ConstKeyword"),
    declare: src.flag(node, "DeclareKeyword"),
    body: nodeAt("TSEnumBody", node.members.pos - 1, node.end, { members: node.members.map((member) => enumMember(src, member)) }),
  });
}

function enumMember(src, node) {
  return src.node("TSEnumMember", node, {
    ...enumMemberName(src, node.name),
    initializer: optional(node.initializer, (init) => expression(src, init)),
  });
}

function enumMemberName(src, name) {
  if (src.is(name, "Identifier")) return { id: identifierName(src, name) };
  if (src.is(name, "StringLiteral")) return { id: stringLiteral(src, name) };
  if (src.is(name, "ComputedPropertyName")) {
    const inside = name.expression;
    if (src.is(inside, "StringLiteral")) return { id: stringLiteral(src, inside), computed: true };
    if (src.is(inside, "NoSubstitutionTemplateLiteral")) {
      return { id: literals.NoSubstitutionTemplateLiteral(src, inside), computed: true };
    }
  }
  return src.fail("an enum member is named by a name or a text", name);
}

/** Namespaces, modules with a text as their name, and `global`. */
export function moduleDeclaration(src, node) {
  const { NodeFlags } = src.ts;
  const declare = src.flag(node, "DeclareKeyword");
  if (node.flags & NodeFlags.GlobalAugmentation) {
    return src.node("TSGlobalDeclaration", node, { declare, body: moduleBlock(src, node.body, node) });
  }
  if (src.is(node.name, "StringLiteral")) {
    const body = optional(node.body, (block) => moduleBlock(src, block));
    return src.node("TSExternalModuleDeclaration", node, { id: stringLiteral(src, node.name), declare, body });
  }
  return src.node("TSNamespaceDeclaration", node, {
    id: bindingIdentifier(src, node.name),
    kind: node.flags & NodeFlags.Namespace ? undefined : "module",
    declare,
    body: src.is(node.body, "ModuleDeclaration") ? innerNamespace(src, node) : moduleBlock(src, node.body, node),
  });
}

/** What stands behind a dot of the name is a namespace inside, of the same keyword. */
function innerNamespace(src, outer) {
  const inner = moduleDeclaration(src, outer.body);
  const kind = outer.flags & src.ts.NodeFlags.Namespace ? undefined : "module";
  const { type, start, end, id, body } = inner;
  return nodeAt(type, start, end, { id, kind, body });
}

function moduleBlock(src, node, owner) {
  if (!node) src.fail("a namespace needs a body", owner);
  const { directives, items } = bodyOf(src, node.statements, item);
  return src.node("TSModuleBlock", node, { directives: unlessEmpty(directives), body: items });
}
