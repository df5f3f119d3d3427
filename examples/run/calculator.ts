// A tokenizer and a parser for sums, with an evaluator over the tree.
type Operator = "+" | "-" | "*" | "/" | "^";
export type Token =
  | { kind: "number"; value: number; at: number }
  | { kind: "operator"; value: Operator; at: number }
  | { kind: "bracket"; value: "(" | ")"; at: number };
type Kind = Token["kind"];
type TokenOf<K extends Kind> = Extract<Token, { kind: K }>;

const levels: Readonly<Record<Operator, number>> = { "+": 1, "-": 1, "*": 2, "/": 2, "^": 3 };
declare const NEVER_DEFINED: never;

export class ParseError extends SyntaxError {
  declare readonly at: number;
  constructor(message: string, at?: number) {
    super(message + (at! >= 0 ? ` at ${at}` : ""));
  }
}

export function* tokens(text: string): Generator<Token> {
  const pattern = /\s*(?:(?<number>\d+(?:\.\d+)?)|(?<operator>[-+*/^])|(?<bracket>[()])|(?<other>\S))/gy;
  for (let found: RegExpExecArray | null; (found = pattern.exec(text)) !== null; ) {
    const groups = found.groups! as Partial<Record<Kind | "other", string>>, at = pattern.lastIndex - 1;
    if (groups.other) throw new ParseError(`unexpected ${groups.other!}`, at);
    else if (groups.number) yield { kind: "number", value: +groups.number, at };
    else if (groups.operator) yield { kind: "operator", value: groups.operator as Operator, at };
    else yield { kind: "bracket", value: <"(" | ")">groups.bracket, at };
  }
}

abstract class Expression {
  abstract value(): number;
  abstract get depth(): number;
  toString(this: Expression): string {
    return String(this.value());
  }
}

class Literal extends Expression {
  readonly depth: number = 0;
  private readonly number: number;
  constructor(number: number) {
    super();
    this.number = number;
  }
  value(): number {
    return this.number;
  }
}

class Binary extends Expression {
  static readonly apply: { [O in Operator]: (a: number, b: number) => number } = {
    "+": (a, b) => a + b,
    "-": (a, b) => a - b,
    "*": (a, b) => a * b,
    "/": (a, b) => a / b,
    "^": Math.pow as (a: number, b: number) => number,
  };
  left!: Expression;
  right!: Expression;
  operator!: Operator;
  constructor(left: Expression, operator: Operator, right: Expression) {
    super();
    ({ left: this.left as Expression, right: this.right!, operator: (this.operator as Operator) } = { left, right, operator });
  }
  override value(): number {
    return Binary.apply[this.operator]!(this.left.value(), this.right.value());
  }
  override get depth(): number {
    return 1 + Math.max(this.left.depth!, (this.right as Binary | Literal).depth);
  }
  override toString(): string {
    return `(${this.left} ${this.operator as string} ${this.right})`;
  }
}

function assertToken<K extends Kind>(token: Token | undefined, kind: K): asserts token is TokenOf<K> {
  if (token?.kind !== kind) throw new ParseError(`expected ${kind}`, token?.at);
}

class Parser {
  private readonly all: readonly Token[];
  private next = 0;

  constructor(text: string) {
    this.all = [...tokens(text)];
  }

  whole(): Expression {
    const made = this.from(1);
    if (this.next < this.all.length) throw new ParseError("expected the end", this.all[this.next]!.at);
    return made;
  }

  private peek(): Token | undefined {
    return this.all[this.next];
  }

  private from(level: number): Expression {
    let left: Expression = this.operand();
    for (let token = this.peek(); token?.kind === "operator" && levels[token.value as Operator]! >= level; token = this.peek()) {
      this.next! += 1;
      const inner: number = levels[(token as TokenOf<"operator">).value] + (token.value === "^" ? 0 : 1);
      left = new Binary(left, token.value, this.from(inner)) as Expression;
    }
    return left;
  }

  private operand(): Expression {
    const token = this.all[this.next++];
    if (token?.kind === "bracket" && token.value === "(") {
      const inside = this.from(1);
      const end = this.all[this.next++];
      assertToken(end, "bracket");
      return inside!;
    }
    assertToken<"number">(token, "number");
    return new Literal(token.value);
  }
}

export const parse = (text: string): Expression => new Parser(text).whole();
export type { Expression };

for (const text of ["1 + 2 * 3", "(1 + 2) * 3", "2 ^ 3 ^ 2", "10 / 4 - 1", "((7))"] as const) {
  const { depth }: { depth: number } = parse(text);
  console.log(`${text} = ${parse(text)} = ${parse(text).value()}, depth ${depth}`);
}
for (const text of <string[]>["1 +", "2 2", "3 $ 4", "(1"]) {
  try {
    console.log(parse(text).value());
  } catch (error: any) {
    console.log((error as ParseError).constructor.name, (error as Error).message, "at" in (error as object));
  }
}
console.log(typeof NEVER_DEFINED);
