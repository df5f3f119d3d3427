/**
 * Each kind of the grammar comes out of the parser, and each plain kind goes into the printer.
 */
import assert from "node:assert/strict";
import { readdirSync, readFileSync } from "node:fs";
import { test } from "node:test";
import { parse, print } from "../index.js";
import { KINDS, PLAIN_KINDS } from "./support/grammar.js";
import { laterParser } from "./support/later.js";
import { ts } from "./support/packages.js";
import { nodesOf } from "./support/trees.js";

const FOLDER = new URL("./fixtures/kinds/", import.meta.url);

/** Kinds that stand in no tree that the parser makes, and why. */
const UNREACHED = {
  TSNamedTupleMember: "tuples keep nothing of what is in them",
  TSOptionalType: "tuples keep nothing of what is in them",
  TSRestType: "tuples keep nothing of what is in them",
  TSIntrinsicKeyword: "the parser has it in type aliases alone, which keep nothing but their name",
};

const trees = () =>
  readdirSync(FOLDER).map((filename) => {
    const source = readFileSync(new URL(filename, FOLDER), "utf8");
    return parse(source, { filename, parser: filename.startsWith("later") ? laterParser(ts) : undefined });
  });

test("each kind of the grammar is parsed", (t) => {
  const found = new Set(trees().flatMap((tree) => [...nodesOf(tree)].map(({ type }) => type)));
  assert.deepEqual([...found].filter((kind) => !KINDS.includes(kind)), [], "no other kinds");
  assert.deepEqual(KINDS.filter((kind) => !found.has(kind)).sort(), Object.keys(UNREACHED).sort());
  t.diagnostic(`${found.size} of ${KINDS.length} kinds`);
});

test("each plain kind is printed", () => {
  const unplain = new Set();
  const found = new Set();
  for (const tree of trees()) {
    for (const statement of tree.body) {
      try {
        print({ type: "Program", directives: tree.directives, hashbang: tree.hashbang, body: [erased(statement)] });
        for (const { type } of nodesOf(statement)) found.add(type);
      } catch (error) {
        assert.match(error.message, /is TypeScript's/);
        unplain.add(statement.type);
      }
    }
  }
  for (const kind of ["Program", "Directive"]) found.add(kind);
  assert.deepEqual(PLAIN_KINDS.filter((kind) => !found.has(kind)), []);
});

/** The statement without what of TypeScript's a field holds, so that its plain nodes can be printed. */
function erased(value) {
  if (Array.isArray(value)) return value.map(erased).filter((part) => !/^TS/.test(part?.type ?? ""));
  if (value === null || typeof value !== "object") return value;
  if (/^TS\w+(?:Expression|Assertion)$/.test(value.type) && value.expression) return erased(value.expression);
  const isTypescript = (name, part) =>
    /^(?:typeAnnotation|returnType|typeParameters|typeArguments|superTypeArguments|implements|thisParam|abstract|declare)$/.test(name) ||
    /^(?:definite|override|readonly|accessibility|importKind|exportKind)$/.test(name) ||
    (name === "optional" && /^(?:FormalParameter|MethodDefinition|PropertyDefinition)$/.test(value.type)) ||
    (name === "body" && part === undefined);
  const kept = Object.entries(value).filter(([name, part]) => !isTypescript(name, part));
  const node = Object.fromEntries(kept.map(([name, part]) => [name, erased(part)]));
  if (node.type === "ClassBody") node.body = node.body.filter(({ value: it }) => it?.type !== "TSEmptyBodyFunctionExpression");
  return node;
}
