/**
 * Classes, their elements and their decorators.
 */
import { expression } from "./expressions.js";
import { accessibilityOf, methodFunction } from "./functions.js";
import { bindingIdentifier, elementKey, identifierNameAt } from "./names.js";
import { flag, handlerOf, nodeAt, optional, unlessEmpty } from "./source.js";
import { statementList } from "./statements.js";
import { typeAnnotation, typeArguments, typeParameters } from "./types.js";

const CONSTRUCTOR = "constructor";

export function classDeclaration(src, node) {
  wantName(src, node);
  return src.node("ClassDeclaration", node, classParts(src, node));
}

export function classExpression(src, node) {
  return src.node("ClassExpression", node, classParts(src, node));
}

/** Only a declaration that is exported by default may have no name. */
export function wantName(src, node) {
  if (!node.name && !src.modifier(node, "DefaultKeyword")) src.fail("a declaration needs a name", node);
}

/** The decorators of a class, an element or a parameter. */
export function decorators(src, node) {
  const found = node.modifiers?.filter((modifier) => src.is(modifier, "Decorator")) ?? [];
  return found.map((decorator) => src.node("Decorator", decorator, { expression: expression(src, decorator.expression) }));
}

function classParts(src, node) {
  const base = baseOf(src, node);
  return {
    decorators: unlessEmpty(decorators(src, node)),
    id: optional(node.name, (name) => bindingIdentifier(src, name)),
    typeParameters: typeParameters(src, node.typeParameters),
    superClass: optional(base, (it) => expression(src, it.expression)),
    superTypeArguments: optional(base, (it) => typeArguments(src, it.typeArguments)),
    implements: unlessEmpty(implemented(src, node)),
    abstract: src.flag(node, "AbstractKeyword"),
    declare: src.flag(node, "DeclareKeyword"),
    body: classBody(src, node),
  };
}

const clauses = (src, node, word) => node.heritageClauses?.filter(({ token }) => token === src.ts.SyntaxKind[word]) ?? [];

/** The one class that the class extends, with its type arguments. */
function baseOf(src, node) {
  const [clause, second] = clauses(src, node, "ExtendsKeyword");
  if (!clause) return undefined;
  if (second) src.fail("a class extends one class", second);
  if (clause.types.length !== 1) src.fail("a class extends one class", clause);
  return clause.types[0];
}

const implemented = (src, node) =>
  clauses(src, node, "ImplementsKeyword")
    .flatMap((clause) => [...clause.types])
    .map((type) => src.node("TSClassImplements", type));

function classBody(src, node) {
  const body = node.members.filter((member) => !src.is(member, "SemicolonClassElement")).map((member) => classElement(src, member));
  const constructors = body.filter(({ kind, value }) => kind === CONSTRUCTOR && value.type === "FunctionExpression");
  if (constructors.length > 1) src.fail("a class has one constructor with a body", constructors[1].start);
  return nodeAt("ClassBody", node.members.pos - 1, node.end, { body });
}

const elements = {
  Constructor: (src, node) => method(src, node, constructorKey(src, node), src.modifier(node, "StaticKeyword") ? undefined : CONSTRUCTOR),
  MethodDeclaration: (src, node) => method(src, node, elementKey(src, node.name)),
  GetAccessor: (src, node) => method(src, node, elementKey(src, node.name), "get"),
  SetAccessor: (src, node) => method(src, node, elementKey(src, node.name), "set"),
  PropertyDeclaration: (src, node) => (src.modifier(node, "AccessorKeyword") ? accessor(src, node) : field(src, node)),
  ClassStaticBlockDeclaration: (src, node) => src.node("StaticBlock", node, { body: statementList(src, node.body.statements) }),
  IndexSignature: (src, node) => src.node("TSIndexSignature", node),
};

const elementFamilies = () => [elements];
const MODIFIERS = { MethodDeclaration: ["AsyncKeyword"], PropertyDeclaration: ["AccessorKeyword"] };

function classElement(src, node) {
  const handler = handlerOf(src, elementFamilies, node);
  if (!handler) src.unexpected(node, "in a class");
  src.refuseModifiers(node, ["Decorator", "StaticKeyword"], MODIFIERS);
  return handler(src, node);
}

/** The kind of the element: the one given, or its twin for abstract elements. */
const kindOf = (src, node, kind) => (src.modifier(node, "AbstractKeyword") ? `TSAbstract${kind}` : kind);

/** What fields, accessors and methods have in common. */
function elementParts(src, node, key) {
  return {
    decorators: unlessEmpty(decorators(src, node)),
    ...key,
    static: src.flag(node, "StaticKeyword"),
    override: src.flag(node, "OverrideKeyword"),
    accessibility: accessibilityOf(src, node),
  };
}

function method(src, node, key, kind) {
  return src.node(kindOf(src, node, "MethodDefinition"), node, {
    ...elementParts(src, node, key),
    kind,
    optional: flag(node.questionToken),
    value: methodFunction(src, node),
  });
}

/** The key of a constructor, of which the parser keeps no node: the word or a text. */
function constructorKey(src, node) {
  const start = src.skipTrivia(node.modifiers?.end ?? node.pos);
  if (src.text.startsWith(CONSTRUCTOR, start)) return { key: identifierNameAt(CONSTRUCTOR, start) };
  const end = start + CONSTRUCTOR.length + 2;
  return { key: nodeAt("StringLiteral", start, end, { value: CONSTRUCTOR, raw: src.text.slice(start, end) }) };
}

function field(src, node) {
  return src.node(kindOf(src, node, "PropertyDefinition"), node, {
    ...elementParts(src, node, elementKey(src, node.name)),
    declare: src.flag(node, "DeclareKeyword"),
    optional: flag(node.questionToken),
    definite: flag(node.exclamationToken),
    readonly: src.flag(node, "ReadonlyKeyword"),
    ...typeAndValue(src, node),
  });
}

function accessor(src, node) {
  return src.node(kindOf(src, node, "AccessorProperty"), node, {
    ...elementParts(src, node, elementKey(src, node.name)),
    definite: flag(node.exclamationToken),
    ...typeAndValue(src, node),
  });
}

function typeAndValue(src, node) {
  return {
    typeAnnotation: typeAnnotation(src, node.type),
    value: optional(node.initializer, (value) => expression(src, value)),
  };
}
