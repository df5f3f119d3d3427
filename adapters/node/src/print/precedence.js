/**
 * How tightly expressions bind, as data. An expression stands without parentheses where its level is at least the one
 * that its place asks for.
 */

/** The levels, from the loosest on. */
export const Level = {
  Sequence: 0,
  Assignment: 1,
  Conditional: 2,
  Nullish: 3,
  Or: 4,
  And: 5,
  BitOr: 6,
  BitXor: 7,
  BitAnd: 8,
  Equality: 9,
  Relation: 10,
  Shift: 11,
  Sum: 12,
  Product: 13,
  Power: 14,
  Unary: 15,
  Postfix: 16,
  Call: 17,
  Member: 18,
  Primary: 19,
};

const OPERATORS = {
  Nullish: ["??"],
  Or: ["||"],
  And: ["&&"],
  BitOr: ["|"],
  BitXor: ["^"],
  BitAnd: ["&"],
  Equality: ["==", "!=", "===", "!=="],
  Relation: ["<", ">", "<=", ">=", "in", "instanceof"],
  Shift: ["<<", ">>", ">>>"],
  Sum: ["+", "-"],
  Product: ["*", "/", "%"],
  Power: ["**"],
};

const levelOfOperator = new Map(
  Object.entries(OPERATORS).flatMap(([name, operators]) => operators.map((operator) => [operator, Level[name]])),
);

const LEVELS = {
  SequenceExpression: Level.Sequence,
  AssignmentExpression: Level.Assignment,
  ArrowFunctionExpression: Level.Assignment,
  YieldExpression: Level.Assignment,
  ConditionalExpression: Level.Conditional,
  PrivateInExpression: Level.Relation,
  UnaryExpression: Level.Unary,
  AwaitExpression: Level.Unary,
  JSXElement: Level.Unary,
  JSXFragment: Level.Unary,
  CallExpression: Level.Call,
  ImportExpression: Level.Call,
  ChainExpression: Level.Call,
  NewExpression: Level.Member,
  StaticMemberExpression: Level.Member,
  ComputedMemberExpression: Level.Member,
  PrivateFieldExpression: Level.Member,
  TaggedTemplateExpression: Level.Member,
};

/** The level of an expression; what is not named here stands by itself. */
export function levelOf(node) {
  switch (node.type) {
    case "BinaryExpression":
    case "LogicalExpression":
      return levelOfOperator.get(node.operator);
    case "UpdateExpression":
      return node.prefix ? Level.Unary : Level.Postfix;
    default:
      return LEVELS[node.type] ?? Level.Primary;
  }
}

/** The levels that the sides of an operator ask for: what binds as tightly stands on the side from which it is read. */
export function sidesOf(operator) {
  const level = levelOfOperator.get(operator);
  if (level === Level.Power) return { left: Level.Postfix, right: Level.Power };
  return { left: level, right: level + 1 };
}

/** Whether an operator and one on its side may not stand together without parentheses. */
export function cannotMix(operator, side) {
  return operator === "??" && side.type === "LogicalExpression" && side.operator !== "??";
}
