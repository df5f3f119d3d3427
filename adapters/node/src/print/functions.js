/**
 * Functions of all kinds.
 */
import { decorators } from "./classes.js";
import { expression } from "./expressions.js";
import { propertyKey } from "./literals.js";
import { bindingPattern } from "./patterns.js";
import { Level } from "./precedence.js";
import { unprintable } from "./printer.js";
import { bodyLines } from "./statements.js";

/** A function declaration or expression. */
export function functionLike(p, node) {
  p.write(node.async ? "async function" : "function");
  if (node.generator) p.write("*");
  p.write(" ");
  if (node.id) p.write(node.id.name);
  parametersAndBody(p, node);
}

/** A method of a class or an object, with `get` or `set` where it is one. */
export function methodLike(p, { key, computed, value }, kind) {
  if (value.type !== "FunctionExpression") unprintable(value, "as a method");
  if (kind === "get" || kind === "set") p.write(`${kind} `);
  if (value.async) p.write("async ");
  if (value.generator) p.write("*");
  propertyKey(p, key, computed);
  parametersAndBody(p, value);
}

export function arrowFunction(p, node) {
  p.write(node.async ? "async " : "");
  parameters(p, node.params);
  p.write(" => ");
  if (node.body.type === "FunctionBody") return functionBody(p, node.body);
  p.begin("arrowBody");
  return expression(p, node.body, Level.Assignment);
}

/** The directives and statements of a function. */
export function functionBody(p, body) {
  p.lines(bodyLines(p, body.directives, body.statements), (writeLine) => writeLine());
}

function parametersAndBody(p, node) {
  parameters(p, node.params);
  p.write(" ");
  functionBody(p, node.body);
}

function parameters(p, { items, rest }) {
  p.within("(", ")", () => {
    p.list(rest ? [...items, rest] : items, (parameter) => {
      if (parameter === rest) p.write("...");
      decorators(p, parameter, " ");
      bindingPattern(p, parameter.pattern);
      if (!parameter.initializer) return;
      p.write(" = ");
      expression(p, parameter.initializer, Level.Assignment);
    });
  });
}
