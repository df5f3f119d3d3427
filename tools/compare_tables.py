#!/usr/bin/env python3
"""Compares the table of scopes, symbols and references that the program makes of a tree with an independent reading of
the same rules.

    tools/compare_tables.py ORACLE CASES FILE..                trees, or fixtures with a tree as `input`
    tools/compare_tables.py ORACLE CASES --random SEED COUNT   random programs of the generators in ORACLE/tests

ORACLE is the folder of the reading, a Python package `oxtref` that is no part of this repository. CASES is the built
program `oxt_cases`. Scopes are compared by the nodes that open them, symbols by scope and spelling. The reading finds
scopes, groups, what emits and what a name means; flags are worked out here from its kinds. What it takes for no tree is
passed over. Prints a line for each tree that differs, then the counts. The status is 1 if there is a difference, and
else 0.
"""
import collections

import trees
from trees import Differences, run, wanted_of, words_and_cases

SCOPE_FLAGS = {"program": {"Top"}, "function": {"Function"}, "staticblock": {"ClassStaticBlock"}, "enum": {"EnumBody"},
               "namespace": {"NamespaceBody"}}
METHOD_FLAGS = {"constructor": "Constructor", "get": "GetAccessor", "set": "SetAccessor"}
SYMBOL_FLAGS = {
    "var": {"FunctionScopedVariable"}, "param": {"FunctionScopedVariable"}, "let": {"BlockScopedVariable"},
    "catch": {"BlockScopedVariable"}, "const": {"BlockScopedVariable", "ConstVariable"},
    "using": {"BlockScopedVariable", "ConstVariable"}, "await using": {"BlockScopedVariable", "ConstVariable"},
    "function": {"Function"}, "class": {"Class"}, "import": {"Import"}, "importeq": {"Import"},
    "typeimport": {"TypeImport"}, "alias": {"TypeAlias"}, "interface": {"Interface"}, "typeparam": {"TypeParameter"},
    "member": {"EnumMember"}, "namespace": {"ValueModule"}, "typens": {"NamespaceModule"},
}


def around(node):
    """The node and those around it, the innermost first."""
    while node is not None:
        yield node
        node = node.parent


def has_use_strict(node):
    """Whether the directives of the scope that the node opens have `use strict`."""
    body = node.f.get("body")
    directives = node.f.get("directives") or getattr(body, "f", {}).get("directives") or []
    return any(directive.value == "use strict" for directive in directives)


Bodiless = collections.namedtuple("Bodiless", "kind node parent")


def bodiless(root, scopes):
    """The scopes of external modules without a body, in which nothing stands: the reading has none."""
    by_node = {id(scope.node): scope for scope in scopes}
    modules = [node for node in root.walk() if node.kind == "TSExternalModuleDeclaration" and node.f.get("body") is None]
    return [Bodiless("namespace", node, next(by_node[id(n)] for n in around(node) if id(n) in by_node)) for node in modules]


class Reading(trees.Reading):
    """The independent reading, of tables."""

    def table(self, text):
        """Scopes, symbols and references of a tree, each a set of tuples; None where it is no tree."""
        root = self.root_of(text)
        if root is None:
            return None
        scopes = self.scopes.Scopes(root)
        found = list(scopes.scope_of.values())
        return {
            "scope": {self.scope(scope, root) for scope in found + bodiless(root, found)},
            "symbol": {self.symbol(scope, name, scopes) for scope, name in self.groups(scopes)},
            # The name of an export that is no use of it is no reference.
            "use": {self.use(use) for use in scopes.refs if use.mode != "modname"},
        }

    @staticmethod
    def groups(scopes):
        return {(group.scope, group.name) for group in scopes.groups}

    def scope(self, scope, root):
        flags = set(SCOPE_FLAGS.get(scope.kind, ()))
        node = scope.node
        if scope.kind == "function":
            flags |= self.function_flags(node)
        if root.sourceType == "module" or any(self.is_strict(outer) for outer in self.outwards(scope)):
            flags.add("StrictMode")
        return node.num, scope.parent.node.num if scope.parent else None, frozenset(flags)

    @staticmethod
    def outwards(scope):
        while scope is not None:
            yield scope
            scope = scope.parent

    @staticmethod
    def is_strict(scope):
        return scope.kind == "class" or scope.kind in ("program", "function", "namespace") and has_use_strict(scope.node)

    @staticmethod
    def function_flags(node):
        if node.kind == "ArrowFunctionExpression":
            return {"Arrow"}
        method = node.parent
        is_method = method.kind in ("MethodDefinition", "TSAbstractMethodDefinition", "ObjectProperty")
        kind = METHOD_FLAGS.get(method.f.get("kind")) if is_method and method.f.get("value") is node else None
        return {kind} if kind else set()

    def symbol(self, scope, name, scopes):
        found = [d for g in scopes.groups if g.scope is scope and g.name == name for d in g.decls]
        declarations = tuple((d.binding.num, self.declared(d), d.emits) for d in sorted(found, key=self.place))
        return scope.node.num, name, frozenset().union(*(d[1] for d in declarations)), declarations

    @staticmethod
    def place(declaration):
        return declaration.binding.num

    @staticmethod
    def declared(declaration):
        node = declaration.node
        if declaration.kind == "enum":
            flags = {"ConstEnum" if node.f.get("const") else "Enum"}
        elif declaration.kind == "inner":
            flags = {"Class" if node.kind == "ClassExpression" else "Function"}
        else:
            flags = SYMBOL_FLAGS[declaration.kind]
        # An expression is no declaration, whatever its flag says.
        ambient = any(outer.f.get("declare") for outer in around(node) if outer.kind not in ("FunctionExpression", "ClassExpression"))
        return frozenset(flags | {"Ambient"} if ambient else flags)

    @staticmethod
    def use(use):
        flags = {"TypeUse"} if use.intype else {f for f, on in (("Read", use.read), ("Write", use.write)) if on}
        return use.node.num, (use.owner.scope.node.num, use.owner.name) if use.owner else None, frozenset(flags)


def table_of(lines):
    """The same of the lines that `oxt_cases table` prints."""
    nodes, names = {}, {}
    table = {"scope": set(), "symbol": set(), "use": set()}
    uses = []
    for line in lines:
        what, rest = line.split(" ", 1)
        if what == "scope":
            number, node, parent, *flags = rest.split(" ")
            nodes[number] = int(node)
            table["scope"].add((int(node), None if parent == "-" else nodes[parent], frozenset(flags)))
        elif what == "symbol":
            head, *declarations = rest.split("; ")
            number, name, scope, *flags = head.split(" ")
            names[number] = (nodes[scope], name)
            table["symbol"].add((nodes[scope], name, frozenset(flags), tuple(declaration_of(d) for d in declarations)))
        else:
            uses.append(rest.split(" "))
    for node, symbol, *flags in uses:
        table["use"].add((int(node), None if symbol == "-" else names[symbol], frozenset(flags)))
    return table


def declaration_of(text):
    node, *flags = text.split(" ")
    emits = flags[-1:] == ["emits"]
    return int(node), frozenset(flags[:-1] if emits else flags), emits


def shown(table):
    return sorted(f"{what} {row}" for what, rows in table.items() for row in rows)


def main():
    reading, program, cases = words_and_cases(__doc__, Reading)
    differences = Differences()
    for name, text, wanted in wanted_of(cases, reading.table):
        differences.add(trees=1, rows=sum(map(len, wanted.values())))
        status, lines, _ = run(program, "table", text)
        found = table_of(lines) if status == 0 else {}
        if found != wanted:
            want, have = shown(wanted), shown(found)
            differences.show(name, status, [r for r in want if r not in have][:2], [r for r in have if r not in want][:2])
    differences.end()


if __name__ == "__main__":
    main()
