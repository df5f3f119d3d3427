/**
 * What is printed is read as the tree that it was printed of, with and without the parentheses of the source.
 */
import assert from "node:assert/strict";
import { describe, test } from "node:test";
import { OxtPrintError, parse, print } from "../index.js";
import { babelTree } from "./support/babel.js";
import { NEEDS_BABEL } from "./support/packages.js";
import { bare, firstDifference, withoutParentheses } from "./support/trees.js";

const GROUPS = {
  "what a statement cannot begin with": [
    "({}).x;", "({ a } = b);", "({ a } = b), c;", "[{ a } = {}] = x;", "({ a: 1 }).b = c;", "({ a } = b).c;",
    "(function () {})();", "(function () {}).call();", "(async function () {})();", "(function* () {});", "(class {});", "(class {}).name;",
    "(() => {})();", "(async () => {})();", "((function () {}) + 1);", "(let)[0] = 1;", "let1[0] = 1;", "async;", "async(a, b);",
  ],
  "what a body of an arrow cannot begin with": [
    "a = () => ({});", "a = () => ({}).x;", "a = () => ({ a } = b);", "a = () => (b, c);", "a = () => (function () {})();", "a = () => ({} + 1);",
    "a = async (x) => await x;", "a = () => () => ({});", "a = () => [{}];",
  ],
  "what a default export cannot begin with": [
    "export default (function () {})();", "export default (class {}).name;", "export default (function () {});", "export default (class {});",
    "export default function () {}", "export default class {}", "export default (a, b);", "export default () => {};", "export default {};",
    "export default async function* named() {}", "export default (async function () {});", "export default [function () {}];",
  ],
  "precedence": [
    "(a, b).c;", "(a ? b : c)();", "(a = b).c;", "((a) => a)(1);", "-(-x);", "+(+x);", "- --x;", "+ ++x;", "-(+x);", "!(!x);", "typeof typeof x;",
    "a - -b;", "a + +b;", "a - --b;", "a-- - b;", "a+++b;", "(-1) ** 2;", "2 ** -1;", "(2 ** 3) ** 4;", "2 ** 3 ** 4;", "(typeof x) ** 2;",
    "(a ?? b) || c;", "a ?? (b || c);", "(a && b) ?? c;", "a ?? b ?? c;", "a ?? (b ?? c);", "a || (b || c);", "a || b && c;", "(a || b) && c;",
    "a - (b - c);", "(a - b) - c;", "a / (b * c);", "a * b / c;", "a % (b * c);", "a + (b + c);", "(a + b) * c;", "a == b != c === d !== e;",
    "(a, b) ? c : d;", "a ? (b, c) : (d, e);", "a ? b : c ? d : e;", "(a ? b : c) ? d : e;", "a ? b = c : d = e;", "(a = b) ? c : d;",
    "a = b = c;", "a += (b, c);", "(a = b) + c;", "a ||= b; a &&= b; a ??= b; a **= b; a >>>= b;", "a[b, c] = d;", "x = (a => b) || c;",
    "x = c || (a => b);", "x = a => (b ? c : d);", "x = (a => b) ? c : d;", "f((a, b), (c) => d);", "x = [(a, b), (c) => d];", "x = { a: (b, c) };",
    "void (a, b);", "typeof (() => {});", "!function () {}();", "!(a && b);", "!(a in b);", "(!a) in b;", "(a in b) in c;", "a in (b in c);",
    "a < b > c;", "a << b >> c >>> d;", "a & b | c ^ d;", "(a | b) & c;", "x = a-- > b;", "x = y < !(--z);", "a / /re/.source;", "a = b / c / d;",
    "async () => { (await a)(); (await a).b; await a.b; (await a) ** 2; await (a, b); -(await a); }",
    "function* f() { yield; yield a; yield* b; (yield a) + 1; yield (a, b); const x = yield; f(yield, yield a); (yield) ? a : b; yield yield a; }",
  ],
  "new and calls": [
    "new (a())();", "new (a.b());", "new (a().b)();", "new a.b.c();", "new (a`x`)();", "new (import(\"x\"))();", "new (a.b().c.d)(1);", "new new A()();",
    "new (a?.b)();", "(new a).b;", "new (a().b);", "new (foo[bar()])();", "new (a()[0])();", "new (a, b)();", "new (() => {})();", "new (class {})();",
    "(a?.b).c;", "(a?.b)();", "a?.b.c();", "a?.[b]?.(c).d;", "(a?.b)`x`;", "a?.b?.c;", "delete a?.b;", "(a?.()).b;", "(((a?.b))).c;", "class A { #b; c() { a?.#b; } }",
    "a?.b[c](d)?.e;", "(a?.b.c)?.d;", "[...a?.b];", "`a`.length;", "(a, b)`c`;", "a`b``c`;", "a.b`c`.d;", "new a`b`();", "super_.x;",
    "1..toString();", "1.5.toFixed();", "0x10.toString();", "1e3.toString();", "1_000..x;", "(1).x;", "1?.x;", "1[\"x\"];", "(-1).x;", "10n.x;",
    "/* @__PURE__ */ f();", "(/* @__PURE__ */ a()).b();", "x = /* @__PURE__ */ new A();", "new (/* @__PURE__ */ a())();", "x = (/* @__PURE__ */ (() => 1)());",
    "/* @__PURE__ */ (function () {})();", "x = /* @__PURE__ */ function () {}();",
  ],
  "heads of loops": [
    "for (var i = (a in b); ;) {}", "for (var i = (() => { a in b; })(); ;) {}", "for (let i = a ? (b in c) : 1;;) {}", "for (var i = [(a in b)];;) {}",
    "for (let f = (x) => (x in y);;) {}", "for ((a in b).c of d) {}", "for ([a.b, { c: d }] of e);", "for ({ a, b: [c] } of d);", "for (a of (b, c)) {}",
    "for (a in b, c) {}", "for (const { a = 1, ...b } of c);", "for (let [a = (x in y)] = z;;);", "for (x = !(a in b) || (c in d);;);", "for (a.b in c in d);",
    "async () => { for await (const x of y); for await (x.y of z); }", "for ((let) of a);", "for ((async) of a);", "for (async in a);", "for ((let).x = 1;;);",
    "for (;;);", "for (a; b; c) d;", "for (a, b; c, d; e, f);", "for (let a = 1, b = 2; ;);", "class A { #a; m() { for (var i = (#a in b);;); } }",
  ],
  "statements": [
    "if (a) { if (b) c; } else d;", "if (a) b; else if (c) d; else e;", "if (a) { for (;;) if (b) c; } else d;", "if (a) for (;;) { if (b) c; } else d;",
    "if (a) if (b) c; else d;", "lbl: for (;;) { continue lbl; break lbl; }", "do x(); while (y); do { x; } while (y);", "a: b: c;", "a: {}",
    "switch (a) { case 1: case 2: x; break; default: { let y; } }", "switch (a) {}", "try { a; } catch { b; }", "try { a; } catch ({ message }) { b; } finally { c; }",
    "throw a, b;", "debugger;", ";", "{}", "{ ; }", "var a, b = 1; let c; const d = 1, e = 2;", "\"directive\"; 'another';", "(\"no directive\");", "'a' + 'b';",
    "function f() { 'use strict'; return a, b; }", "function f() { (\"no directive\"); }", "() => { 'say \"hi\"'; };", "if (a) ; else ;",
  ],
  "classes and objects": [
    "class A extends (a, b) {}", "class B extends (a ? b : c) {}", "class C extends (() => {}) {}", "class D extends class {} {}", "class E extends f() {}",
    "class F extends (a = b) {}", "class G extends a.b {}", "class H extends {} {}", "class I extends (async () => {}) {}", "class J extends (a?.b) {}", "class K extends new A() {}",
    "class M { static; get; set; async; static static; static async *gen() {} async *[Symbol.iterator]() {} }",
    "class M { get x() { return 1; } set x(v) {} static get y() { return 1; } #p = 1; static #q; static { this.x = 1; } 'quoted' = 1; 12 = 3; [(a, b)] = 1; }",
    "class M { #p; #m() { return #p in this && this.#m?.(x); } }", "class M { 'constructor'() {} }", "class M { constructor() { super.x; } static constructor() {} }",
    "class M { get() {} set() {} static() {} async() {} 'get'() {} get get() {} set set(v) {} static static() {} }",
    "class M extends N { constructor() { super(...arguments); super[a](); } }", "(class Named {});", "x = class extends (a, b) {};",
    "var o = { a, b: 1, \"c\": 2, [d]: 3, [(e, f)]: 4, g() {}, get h() { return 1; }, set h(v) {}, async i() {}, *j() {}, async *k() {}, ...l };",
    "var o = { get, set, async, get: 1, async: 2, __proto__: null, 1: 2, 0x10: 1, \"a-b\"() {}, get 'x'() { return 1; }, async get() {}, new: 3, async async() {} };",
    "var o = { __proto__ };", "@a @b.c @d() @(e[f]) @(g().h) class A { @i j; @k() l() {} @m static n; }", "@a export class A {}", "@a export default class {}",
  ],
  "patterns": [
    "[, a, , b, ,];", "[,];", "[, ,];", "[...a, ...b];", "var [, q, , r, ...s] = t;", "var [u, ,] = v;", "var [] = a, {} = b;", "[, a.b, ...c.d] = e;", "[a, ,] = b;",
    "({ a, b = 1, c: d.e, [f]: g = 2, \"h\": i, ...j.k } = l);", "({ a: { b } = {} } = c);", "[[a] = [1]] = b;", "[a, b] = [b, a];", "({} = a); [] = b;",
    "var { a, b: c, d = 1, e: f = 2, [g]: h, \"i\": j, ...k } = l;", "function f(a, { b }, [c], d = 1, ...[e, g]) {}", "(a, { b } = {}, ...c) => {};", "({ a }) => a;",
    "try {} catch ([a, b = 1]) {}", "(a) = 1;", "[(a), (b.c)] = d;",
  ],
  "literals": [
    "x = `a${b}c${`d${e}`}f`;", "x = `\\u{1F600}\\n${a}`;", "tag`\\unicode ${x}`;", "tag`\\xyz`;", "x = `${{}}`;", "x = `$\\{a}`;", "x = `\\``;", "x = `a\nb`;",
    "/re/g.test(a);", "x = /[/]\\/(?<n>a)/u;", "x = /=/;", "x = \"it's\", y = 'say \"hi\"', z = '\\'', w = \"\\\\\";", "x = '\\x41\\u{41}\\u0041\\0';",
    "x = \"\\ud800\", y = \"\\u2028\";", "x = \"a\\\nb\";", "x = 1, y = 1.50, z = 0x1F, w = 1e100, v = .5, u = 1_000, t = 0b11, s = 0o17, r = 9007199254740993;",
    "x = 10n, y = 0xFFn;", "import.meta.url;", "function f() { new.target; }", "import(\"a\"); import(\"a\", { with: {} }).then(x);",
  ],
  "modules": [
    "import \"a\";", "import a from \"a\";", "import * as a from \"a\";", "import a, * as b from \"a\";", "import { a, b as c, default as d } from \"a\";",
    "import a, { b } from \"a\";", "import {} from \"a\";", "export {};", "export { a, b as c, d as default };", "export { a, default, b as c } from \"a\";",
    "export {} from \"a\";", "export * from \"a\";", "export * as a from \"a\";", "export const a = 1, { b } = c;", "export function f() {}", "export class A {}", "export async function g() {}",
    "import a from \"a\" assert { type: \"json\" };",
  ],
  "what namespaces and 'import =' become": [
    "let A; (function (_A) { let b = _A.b = 1, c; })(A || (A = {}));", "export let A;", "(function (_A) { \"use strict\"; f(); })(A || (A = {}));",
    "(function (_B) { const { c, d: [e] } = f; _B.c = c, _B.e = e; })(B || (B = _A.B || (_A.B = {})));", "(function (_A) { (\"no directive\"); })(A || (A = {}));",
    "(function (_A) { class B {} _A.B = B; function c() {} _A.c = c; var d = _A.d = C.d; })(A || (A = {}));", "\"use strict\"; const a = require(\"b\"); module.exports = a;",
    "module.exports = { a: 1 };", "module.exports = function () {};", "module.exports = (a, b);", "var a = b.c.d;",
  ],
  "JSX": [
    "x = <a/>;", "x = <A b='c' d=\"e\" f {...g} h={i} j=<k/> />;", "x = <a>text {b} <c/> {...d} {/* e */}</a>;", "x = <></>;", "x = <><a/>  b  </>;",
    "x = <a.b.c></a.b.c>;", "x = <a:b c:d=\"e\"/>;", "x = <this.a/>;", "x = <a-b/>;", "x = <a>&lt;&nbsp;&#123;</a>;", "x = <a b=\"&quot;\"/>;", "<a/>;", "x = <a>\n  b\n</a>;",
    "x = a ? <b/> : <c/>;", "x = () => <a/>;", "x = <a b={(c, d)}>{(e, f)}</a>;", "x = (<a/>).b;",
  ],
};

/** What a printer makes of a comment, `with` and old kinds of numbers, parsers of some versions do not read again. */
const asRead = (text) => text.replace(/(from "[^"]*") with \{/, "$1 assert {");

for (const [name, sources] of Object.entries(GROUPS)) {
  describe(name, () => {
    for (const source of sources) {
      test(source, () => {
        const filename = "a.js";
        const tree = parse(source, { filename });
        for (const each of [tree, withoutParentheses(tree)]) {
          const text = print(each);
          assert.equal(firstDifference(bare(tree), bare(parse(asRead(text), { filename }))), undefined, text);
        }
      });
      test(`${source} by Babel`, NEEDS_BABEL, () => {
        const text = print(withoutParentheses(parse(source, { filename: "a.js" })));
        assert.equal(firstDifference(babelTree(source), babelTree(asRead(text))), undefined, text);
      });
    }
  });
}

test("the layout", () => {
  const source = `#!/usr/bin/env node
"use strict";
import { a as b } from "c";
export class D extends E { static f = 1; constructor(g) { super(g); } }
if (h) { i(); } else if (j) k(); else { l(); }
switch (m) { case 1: n(); break; default: }
try { o(); } catch (p) { q(); } finally {}
const r = { s, t: 1, u() {} }, v = [1, , 2], w = async (x) => { await x; };
`;
  assert.equal(
    print(parse(source, { filename: "a.js" })),
    `#!/usr/bin/env node
"use strict";
import { a as b } from "c";
export class D extends E {
  static f = 1;
  constructor(g) {
    super(g);
  }
}
if (h) {
  i();
} else if (j) k();
else {
  l();
}
switch (m) {
  case 1:
    n();
    break;
  default:
}
try {
  o();
} catch (p) {
  q();
} finally {}
const r = { s, t: 1, u() {} }, v = [1, , 2], w = async (x) => {
  await x;
};
`,
  );
});

describe("trees that no source has", () => {
  const name = (text) => ({ type: "IdentifierReference", name: text });
  const number = (value) => ({ type: "NumericLiteral", value });
  const statement = (expression) => ({ type: "ExpressionStatement", expression });
  const printed = (...body) => print({ type: "Program", body });

  test("an 'if' inside keeps its lack of an 'else'", () => {
    const inner = { type: "IfStatement", test: name("b"), consequent: statement(name("c")) };
    const text = printed({ type: "IfStatement", test: name("a"), consequent: inner, alternate: statement(name("d")) });
    assert.equal(text, "if (a) {\n  if (b) c;\n} else d;\n");
  });

  test("a renamed shorthand is written out", () => {
    const property = { type: "ObjectProperty", key: { type: "IdentifierName", name: "a" }, shorthand: true, value: name("b") };
    assert.equal(printed(statement({ type: "ObjectExpression", properties: [property] })), "({ a: b });\n");
  });

  test("what a text says is its value, not what was written", () => {
    assert.equal(printed(statement({ type: "SequenceExpression", expressions: [number(1), { type: "StringLiteral", value: "b\u2028", raw: "'a'" }] })), '1, "b\\u2028";\n');
    assert.equal(printed(statement({ type: "NumericLiteral", value: 2, raw: "1" })), "2;\n");
  });

  test("old octal digits are written anew, so that strict code takes them", () => {
    const text = (source) => print(parse(source, { filename: "a.cjs" }));
    assert.equal(text("x = 017;"), "x = 15;\n");
    assert.equal(text("x = '\\101' + '\\\\1' + '\\0';"), `x = "A" + '\\\\1' + '\\0';\n`);
  });

  test("a text at the front is no directive", () => {
    assert.equal(printed(statement({ type: "StringLiteral", value: "use strict" })), '("use strict");\n');
  });

  test("a negative number as a base stands in parentheses", () => {
    const minus = { type: "UnaryExpression", operator: "-", argument: number(1) };
    assert.equal(printed(statement({ type: "BinaryExpression", operator: "**", left: minus, right: number(2) })), "(-1) ** 2;\n");
  });

  test("a long row of operators is printed", () => {
    let row = number(0);
    for (let count = 0; count < 50_000; count += 1) row = { type: "BinaryExpression", operator: "+", left: row, right: number(1) };
    assert.equal(printed(statement(row)).length, "0;\n".length + 50_000 * " + 1".length);
  });
});

describe("what cannot be printed", () => {
  const refuses = (tree, pattern) =>
    assert.throws(() => print(tree), (error) => error instanceof OxtPrintError && !error.message.includes("\n") && pattern.test(error.message));

  test("TypeScript", () => {
    refuses(parse("let a: string;"), /the field 'typeAnnotation' of VariableDeclarator is TypeScript's/);
    refuses(parse("enum A {}"), /TSEnumDeclaration is TypeScript's/);
    refuses(parse("a as b;"), /TSAsExpression is TypeScript's/);
    refuses(parse("import type a from 'a';"), /the field 'importKind' of ImportDeclaration is TypeScript's/);
  });

  test("what is no tree", () => {
    refuses(undefined, /a program is wanted/);
    refuses({ type: "Program" }, /a program is wanted/);
    refuses({ type: "Program", body: [{ type: "BlockStatement" }] }, /this is no tree of the grammar/);
    refuses({ type: "Program", body: [{ type: "Constructor" }] }, /Constructor cannot be printed where a statement is wanted/);
    refuses({ type: "Program", body: [{ type: "ExpressionStatement" }] }, /nothing cannot be printed where an expression is wanted/);
    refuses({ type: "Program", body: [{ type: "constructor" }] }, /constructor cannot be printed/);
  });
});
