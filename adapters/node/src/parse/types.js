/**
 * Types. Of most of them only the kind is kept.
 */
import { expression } from "./expressions.js";
import { bindingIdentifier, entityName } from "./names.js";
import { flag, handlerOf, nodeAt, optional } from "./source.js";

/** The kinds of which nothing but the kind is kept, by their names in the parser. */
const LEAVES = {
  VoidKeyword: "TSVoidKeyword",
  UndefinedKeyword: "TSUndefinedKeyword",
  NeverKeyword: "TSNeverKeyword",
  BooleanKeyword: "TSBooleanKeyword",
  StringKeyword: "TSStringKeyword",
  NumberKeyword: "TSNumberKeyword",
  BigIntKeyword: "TSBigIntKeyword",
  SymbolKeyword: "TSSymbolKeyword",
  ObjectKeyword: "TSObjectKeyword",
  AnyKeyword: "TSAnyKeyword",
  UnknownKeyword: "TSUnknownKeyword",
  IntrinsicKeyword: "TSIntrinsicKeyword",
  FunctionType: "TSFunctionType",
  ConstructorType: "TSConstructorType",
  ArrayType: "TSArrayType",
  TupleType: "TSTupleType",
  NamedTupleMember: "TSNamedTupleMember",
  OptionalType: "TSOptionalType",
  RestType: "TSRestType",
  TemplateLiteralType: "TSTemplateLiteralType",
  TypeQuery: "TSTypeQuery",
  IndexedAccessType: "TSIndexedAccessType",
  MappedType: "TSMappedType",
  TypeLiteral: "TSTypeLiteral",
  ThisType: "TSThisType",
  ImportType: "TSImportType",
  InferType: "TSInferType",
  JSDocUnknownType: "JSDocUnknownType",
  // Types of documentation comments, which the parser reads everywhere.
  JSDocAllType: "TSAnyKeyword",
  JSDocFunctionType: "TSFunctionType",
  JSDocVariadicType: "TSRestType",
};

const leaves = Object.fromEntries(Object.entries(LEAVES).map(([name, type]) => [name, (src, node) => src.node(type, node)]));

const types = {
  TypeReference: (src, node) => src.node("TSTypeReference", node, { typeName: entityName(src, node.typeName) }),
  UnionType: (src, node) => src.node("TSUnionType", node, members(src, node)),
  IntersectionType: (src, node) => src.node("TSIntersectionType", node, members(src, node)),
  ConditionalType: (src, node) =>
    src.node("TSConditionalType", node, { trueType: typeOf(src, node.trueType), falseType: typeOf(src, node.falseType) }),
  TypeOperator: (src, node) =>
    src.node("TSTypeOperator", node, { operator: src.ts.tokenToString(node.operator), typeAnnotation: typeOf(src, node.type) }),
  ParenthesizedType: (src, node) => src.node("TSParenthesizedType", node, inner(src, node)),
  JSDocNullableType: (src, node) => src.node("JSDocNullableType", node, inner(src, node)),
  JSDocNonNullableType: (src, node) => src.node("JSDocNonNullableType", node, inner(src, node)),
  JSDocOptionalType: (src, node) => src.node("JSDocNullableType", node, inner(src, node)),
  TypePredicate: (src, node) => src.node("TSTypePredicate", node, { asserts: flag(node.assertsModifier) }),
  LiteralType: (src, node) =>
    src.is(node.literal, "NullKeyword")
      ? src.node("TSNullKeyword", node)
      : src.node("TSLiteralType", node, { literal: expression(src, node.literal) }),
};

const typeFamilies = () => [types, leaves];

const inner = (src, node) => ({ typeAnnotation: typeOf(src, node.type) });
const members = (src, node) => ({ types: node.types.map((type) => typeOf(src, type)) });

/** A type. */
export function typeOf(src, node) {
  const handler = handlerOf(src, typeFamilies, node);
  return handler ? handler(src, node) : src.unexpected(node, "where a type is wanted");
}

/** A type behind a colon, which belongs to it. */
export function typeAnnotation(src, type) {
  return optional(type, (it) => nodeAt("TSTypeAnnotation", it.pos - 1, it.end, { typeAnnotation: typeOf(src, it) }));
}

/** Types in angle brackets behind what they are given to. */
export function typeArguments(src, list) {
  return optional(list, (it) => {
    const { start, end } = src.bracketed(it);
    return nodeAt("TSTypeParameterInstantiation", start, end);
  });
}

/** The names of types that a declaration opens. */
export function typeParameters(src, list) {
  return optional(list, (it) => {
    const { start, end } = src.bracketed(it);
    const params = it.map((node) => src.node("TSTypeParameter", node, { name: bindingIdentifier(src, node.name) }));
    return nodeAt("TSTypeParameterDeclaration", start, end, { params });
  });
}
