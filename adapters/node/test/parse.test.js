/**
 * The shapes of trees.
 */
import assert from "node:assert/strict";
import { describe, test } from "node:test";
import { OxtOptionError, OxtSyntaxError, parse } from "../index.js";
import { bare, nodesOf } from "./support/trees.js";

const first = (source, options) => parse(source, options).body[0];
const expressionOf = (source) => first(source).expression;
const find = (source, type, options) => [...nodesOf(parse(source, options))].find((node) => node.type === type);
const spanned = (source, { start, end }) => source.slice(start, end);

test("the tree of a declaration", () => {
  assert.deepEqual(parse("const x: number = 0;"), {
    type: "Program",
    start: 0,
    end: 20,
    body: [
      {
        type: "VariableDeclaration",
        start: 0,
        end: 20,
        kind: "const",
        declarations: [
          {
            type: "VariableDeclarator",
            start: 6,
            end: 19,
            id: { type: "BindingIdentifier", start: 6, end: 7, name: "x" },
            typeAnnotation: { type: "TSTypeAnnotation", start: 7, end: 15, typeAnnotation: { type: "TSNumberKeyword", start: 9, end: 15 } },
            init: { type: "NumericLiteral", start: 18, end: 19, value: 0, raw: "0" },
          },
        ],
      },
    ],
  });
});

describe("spans", () => {
  const cases = [
    ["/* a */ x /* b */;", "IdentifierReference", "x"],
    ["'\u{1F600}'; y;", "IdentifierReference", "y"],
    ["function f /* a */ ( b /* c */ , ) {}", "FormalParameters", "( b /* c */ , )"],
    ["a => b", "FormalParameters", "a"],
    ["async /* a */ b => c", "FormalParameters", "b"],
    ["function f< T , >() {}", "TSTypeParameterDeclaration", "< T , >"],
    ["f< T >()", "TSTypeParameterInstantiation", "< T >"],
    ["let a : string", "TSTypeAnnotation", ": string"],
    ["class A { b<T>(c) { d } }", "FunctionExpression", "<T>(c) { d }"],
    ["export default class A {}", "ClassDeclaration", "class A {}"],
    ["export /* a */ declare const b: c", "VariableDeclaration", "declare const b: c"],
    ["class A { /* a */ constructor() {} }", "IdentifierName", "constructor"],
    ["enum A { B }", "TSEnumBody", "{ B }"],
    ["namespace A /* a */ . B { c }", "TSModuleBlock", "{ c }"],
    ["export /* a */ import b = c.d;", "TSImportEqualsDeclaration", "import b = c.d;"],
    ["import a = require ('b');", "TSExternalModuleReference", "require ('b')"],
    ["`a${b}c`", "TemplateElement", "a"],
    ["import a from 'b' assert { type: 'c' }", "WithClause", "assert { type: 'c' }"],
  ];
  for (const [source, type, text] of cases) test(`${type} in ${source}`, () => assert.equal(spanned(source, find(source, type)), text));

  test("texts of JSX keep their spaces", () => {
    const source = "<a> b <c/> {/* d */} </a>";
    assert.equal(find(source, "JSXText", { filename: "a.tsx" }).value, " b ");
    assert.equal(spanned(source, find(source, "JSXEmptyExpression", { filename: "a.tsx" })), "/* d */");
  });
});

describe("namespaces and what CommonJS takes and gives", () => {
  const named = (type, name) => ({ type, name });
  const binding = (name) => named("BindingIdentifier", name);
  const text = { type: "StringLiteral", value: "m", raw: '"m"' };
  const block = (parts) => ({ type: "TSModuleBlock", ...parts, body: [] });
  const qualified = { type: "TSQualifiedName", left: named("IdentifierReference", "b"), right: named("IdentifierName", "c") };
  const required = { type: "TSExternalModuleReference", expression: text };
  const alias = (parts) => ({ type: "TSImportEqualsDeclaration", ...parts });
  const cases = [
    ["namespace A {}", { type: "TSNamespaceDeclaration", id: binding("A"), body: block() }],
    [
      "declare module A.B {}",
      {
        type: "TSNamespaceDeclaration",
        id: binding("A"),
        kind: "module",
        declare: true,
        body: { type: "TSNamespaceDeclaration", id: binding("B"), kind: "module", body: block() },
      },
    ],
    ["namespace A { 'a' }", { type: "TSNamespaceDeclaration", id: binding("A"), body: block({ directives: [{ type: "Directive", value: "a" }] }) }],
    ['declare module "m" {}', { type: "TSExternalModuleDeclaration", id: text, declare: true, body: block() }],
    ['declare module "m";', { type: "TSExternalModuleDeclaration", id: text, declare: true }],
    ["declare global {}", { type: "TSGlobalDeclaration", declare: true, body: block() }],
    ["import a = b;", alias({ id: binding("a"), moduleReference: named("IdentifierReference", "b") })],
    ["import a = b.c;", alias({ id: binding("a"), moduleReference: qualified })],
    ['import a = require("m");', alias({ id: binding("a"), moduleReference: required })],
    ['import type a = require("m");', alias({ importKind: "type", id: binding("a"), moduleReference: required })],
    ["export import a = b.c;", { type: "ExportDeclaration", declaration: alias({ id: binding("a"), moduleReference: qualified }) }],
    ["export = a;", { type: "TSExportAssignment", expression: named("IdentifierReference", "a") }],
    ["export as namespace a;", { type: "TSNamespaceExportDeclaration", id: named("IdentifierName", "a") }],
  ];
  for (const [source, expected] of cases) test(source, () => assert.deepEqual(bare(first(source)), expected));
});

describe("chains", () => {
  const shape = (node) => {
    switch (node.type) {
      case "ChainExpression": return `chain(${shape(node.expression)})`;
      case "TSNonNullExpression": return `${shape(node.expression)}!`;
      case "ParenthesizedExpression": return `(${shape(node.expression)})`;
      case "CallExpression": return `${shape(node.callee)}${node.optional ? "?." : ""}()`;
      case "StaticMemberExpression": return `${shape(node.object)}${node.optional ? "?." : "."}${node.property.name}`;
      case "ComputedMemberExpression": return `${shape(node.object)}${node.optional ? "?." : ""}[]`;
      default: return node.name;
    }
  };
  const cases = [
    ["a?.b.c", "chain(a?.b.c)"],
    ["(a?.b).c", "(chain(a?.b)).c"],
    ["a.b?.[c]()", "chain(a.b?.[]())"],
    ["a?.b!.c", "chain(a?.b!.c)"],
    ["a?.b!", "chain(a?.b!)"],
    ["a?.b!!", "chain(a?.b!!)"],
    ["(a?.b)!.c", "(chain(a?.b))!.c"],
    ["a!.b", "a!.b"],
    ["a?.()?.b", "chain(a?.()?.b)"],
  ];
  for (const [source, expected] of cases) test(source, () => assert.equal(shape(expressionOf(source)), expected));
});

describe("what is told of a source", () => {
  test("language and kind by the name", () => {
    const told = (filename) => {
      const { lang, sourceType } = parse("", { filename });
      return [lang, sourceType];
    };
    assert.deepEqual(told("a.ts"), [undefined, undefined]);
    assert.deepEqual(told("a.cts"), [undefined, "script"]);
    assert.deepEqual(told("a.mjs"), ["js", undefined]);
    assert.deepEqual(told("a.cjs"), ["js", "script"]);
    assert.deepEqual(told("a.d.ts"), ["dts", undefined]);
    assert.deepEqual(told("a.d.json.ts"), ["dts", undefined]);
    assert.equal(parse("", { sourceType: "script" }).sourceType, "script");
  });

  test("directives as they are written", () => {
    assert.deepEqual(parse("'a\\'b'; \"c\"; ('d'); 'e'").directives.map(({ value }) => value), ["a\\'b", "c"]);
    assert.deepEqual(first("function f() { 'use strict'; 'a' + b }").body.directives.map(({ value }) => value), ["use strict"]);
  });

  test("the first line of a script", () => assert.equal(parse("#!/bin/node\nx").hashbang, "/bin/node"));

  test("numbers", () => {
    const number = (source) => {
      const { value, raw } = expressionOf(source);
      return [value, raw];
    };
    assert.deepEqual(number("1_000"), [1000, "1_000"]);
    assert.deepEqual(number("0x1F"), [31, "0x1F"]);
    assert.deepEqual(number("1.50"), [undefined, "1.50"]);
    assert.deepEqual(number("1e2"), [100, "1e2"]);
    assert.deepEqual(number("017"), [15, "017"]);
    assert.deepEqual(number("9007199254740991"), [9007199254740991, "9007199254740991"]);
    assert.deepEqual(number("9007199254740993"), [undefined, "9007199254740993"]);
  });

  test("texts", () => {
    const text = (source) => find(source, "StringLiteral").value;
    assert.equal(text("x = '\\x41\\u{42}\\u0043\\n\\\n\\101\\q'"), "ABC\nAq");
    assert.equal(text("x = '\\ud800'"), "\uFFFD");
    assert.equal(text("x = '\\ud83d\\ude00'"), "\u{1F600}");
  });

  test("templates", () => {
    const texts = (source) => find(source, "TemplateLiteral").quasis.map(({ raw, cooked }) => [raw, cooked]);
    assert.deepEqual(texts("`a\\n${b}\r\nc`"), [["a\\n", "a\n"], ["\nc", "\nc"]]);
    assert.deepEqual(texts("tag`\\unicode \\u{110000}`"), [["\\unicode \\u{110000}", undefined]]);
  });

  test("calls that a comment says are pure: the outermost that begins there", () => {
    const pure = (source) => [...nodesOf(parse(source))].filter((node) => node.pure).map((node) => spanned(source, node));
    assert.deepEqual(pure("x = /* @__PURE__ */ a()"), ["a()"]);
    assert.deepEqual(pure("x = /*#__PURE__*/ a().b()"), ["a().b()"]);
    assert.deepEqual(pure("x = /* @__PURE__ */ new A(b()), c()"), ["new A(b())"]);
    assert.deepEqual(pure("x = f(a(), /* @__PURE__ */ b())"), ["b()"]);
    assert.deepEqual(pure("x = '/* @__PURE__ */', a()"), []);
  });

  test("a parameter 'this' is none of the others", () => {
    const { thisParam, params } = first("function f(this: A, b, ...c) {}");
    assert.equal(thisParam.type, "TSThisParameter");
    assert.deepEqual([params.items.length, params.rest.pattern.name], [1, "c"]);
  });

  test("parentheses around targets go, and stay elsewhere", () => {
    assert.equal(expressionOf("((a)) = b").left.type, "IdentifierReference");
    assert.equal(expressionOf("(a as b) = c").left.type, "TSAsExpression");
    assert.equal(expressionOf("(a)").type, "ParenthesizedExpression");
  });

  test("names in JSX", () => {
    const nameOf = (source) => find(source, "JSXOpeningElement", { filename: "a.tsx" }).name;
    assert.equal(nameOf("<a/>").type, "JSXIdentifier");
    assert.equal(nameOf("<a-B/>").type, "JSXIdentifier");
    assert.equal(nameOf("<A/>").type, "IdentifierReference");
    assert.equal(nameOf("<_a/>").type, "IdentifierReference");
    assert.equal(nameOf("<a.b/>").object.type, "IdentifierReference");
    assert.equal(nameOf("<this.b/>").object.type, "ThisExpression");
    assert.equal(nameOf("<a:b/>").type, "JSXNamespacedName");
  });
});

describe("faults", () => {
  const cases = [
    ["let x = ;", 1, 9, "Expression expected"],
    ["a;\n\n  class {", 3, 10, "'}' expected"],
    ["a;\r\nb +;", 2, 4, "Expression expected"],
    ["f() = 1;", 1, 1, "this cannot be assigned to"],
    ["a?.b = 1;", 1, 1, "this cannot be assigned to"],
    ["[...a, b] = c;", 1, 2, "a rest element has to be the last"],
    ["let { ...a, b } = c;", 1, 7, "a rest element has to be the last"],
    ["function f(...a, b) {}", 1, 12, "a rest parameter has to be the last"],
    ["function f(...a = 1) {}", 1, 19, "a rest parameter takes no initializer"],
    ["(this: A) => 1;", 1, 2, "an arrow function has no parameter 'this'"],
    ["({ a = 1 });", 1, 6, "a default can only stand where something is assigned"],
    ["{ export const a = 1; }", 1, 3, "'export' can only stand at the top of a module or namespace"],
    ["function f() { import a from 'b'; }", 1, 16, "ImportDeclaration cannot stand where a statement is wanted"],
    ["class A { constructor() {} constructor(a) {} }", 1, 28, "a class has one constructor with a body"],
    ["class A extends B, C {}", 1, 9, "a class extends one class"],
    ["enum A { [b] }", 1, 10, "an enum member is named by a name or a text"],
    ["enum A { 1 }", 1, 10, undefined],
    ["export class {}", 1, 1, "a declaration needs a name"],
    ["import()", 1, 1, "'import()' needs the name of a module"],
    ["import(...a)", 1, 8, "'import()' takes the name of a module and options"],
    ["({ #a: 1 })", 1, 4, "a private name can only be that of a class element"],
    ["x = #a in b + #c;", 1, 15, "PrivateIdentifier cannot stand where an expression is wanted"],
    ["@a function b() {}", 1, 1, undefined],
    ["({ @a b() {} });", 1, 4, undefined],
    ["async class A {}", 1, 1, undefined],
    ["class A { export b() {} }", 1, 11, "'export' cannot stand here"],
    ["class A { async b; }", 1, 11, undefined],
    ["export static function a() {}", 1, 8, undefined],
    ["function f(@a b, @c ...d) {}", 1, 18, undefined],
    ["a?.b`c`;", 1, 5, "a tag cannot be an optional chain"],
    ["x = `\\unicode`", 1, 8, "Hexadecimal digit expected"],
    ["x = tag`${`\\unicode`}`", 1, 14, "Hexadecimal digit expected"],
    ["try {} catch (a = 1) {}", 1, 19, "the parameter of 'catch' takes no initializer"],
    ["var;", 1, 4, undefined],
    ["for (var a, b of c);", 1, 13, "the head of this loop declares one variable"],
    ["class A { async get b() {} }", 1, 11, "'async' cannot stand here"],
  ];
  for (const [source, line, column, what] of cases) {
    test(JSON.stringify(source), () => {
      assert.throws(
        () => parse(source, { filename: "dir/a.ts" }),
        (error) => {
          assert.ok(error instanceof OxtSyntaxError, error.stack);
          assert.deepEqual([error.line, error.column, error.filename], [line, column, "dir/a.ts"], error.message);
          assert.ok(error.message.endsWith(` at dir/a.ts:${line}:${column}`));
          if (what) assert.equal(error.what, `syntax error: ${what}`);
          return true;
        },
      );
    });
  }

  test("a source that nests too deep", () => {
    assert.throws(() => parse(`${"(".repeat(20_000)}a${")".repeat(20_000)}`), { name: "OxtSyntaxError" });
  });

  test("what is no source", () => {
    assert.throws(() => parse(undefined), OxtOptionError);
    assert.throws(() => parse("", { sourceType: "commonjs" }), OxtOptionError);
  });
});
