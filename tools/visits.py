#!/usr/bin/env python3
"""Writes into crates/oxt_calls/stdin a tree that has each kind of the grammar, and into crates/oxt_calls/stdout the hooks that a
walk runs on it by another reading of the rules. What stands there beside these stays.

    tools/visits.py           writes into the files
    tools/visits.py --check   writes nothing, and fails where one of them is not up to date
"""
import json
import os
import sys

from grammar import ROOT, Grammar, write

FOLDER = "crates/oxt_calls"
TREE = '"a node of each kind": '
HEADING = "hooks of a walk, "
NODES = ("Node", "NodeOrNull", "Narrowed")
LISTS = ("List", "ListOfNullable", "ListOrNull")

# What a node of the kind needs beside the fields that have to be there.
NEEDED = {
    "NumericLiteral": {"value": 0}, "FunctionDeclaration": {"id": "BindingIdentifier"}, "ClassDeclaration": {"id": "BindingIdentifier"},
    "TSDeclareFunction": {"id": "BindingIdentifier"}, "TemplateLiteral": {"quasis": ["TemplateElement"]},
}
# Kinds that are tried first where one of a category is wanted.
SIMPLE = ("IdentifierName", "IdentifierReference", "BindingIdentifier", "EmptyStatement", "TSAnyKeyword", "StaticMemberExpression")

# The hooks before the parts of a node by its place, each with the kinds that it is for, and those after them.
PLACES = {
    "Statement": (("EnterStatement", "Item"), ("EnterDeclaration", "Declaration")),
    "Declaration": (("EnterDeclaration", "Declaration"),),
    "Expression": (("EnterExpression", "Expression"),),
    "SimpleAssignmentTarget": (("EnterSimpleAssignmentTarget", "SimpleAssignmentTarget"),),
    "AssignmentTarget": (("EnterAssignmentTarget", "AssignmentTarget"), ("EnterSimpleAssignmentTarget", "SimpleAssignmentTarget")),
    "ChainElement": (("EnterChainElement", "ChainElement"),),
}
SAME_PLACES = {"Item": "Statement", "AssignmentTargetMaybeDefault": "AssignmentTarget", "ForStatementLeft": "AssignmentTarget"}
SAME_PLACES |= {place: "Expression" for place in ("Argument", "PropertyKey", "ForStatementInit", "ArrowFunctionBody",
                                                  "ExportDefaultDeclarationKind", "JSXExpression")}
STATEMENTS = ("Statement", "Item")

# Kinds with hooks of another name than their own.
SHARED = {"Class": "ClassDeclaration ClassExpression", "MethodDefinition": "MethodDefinition TSAbstractMethodDefinition",
          "AccessorProperty": "AccessorProperty TSAbstractAccessorProperty",
          "PropertyDefinition": "PropertyDefinition TSAbstractPropertyDefinition",
          "Function": "FunctionDeclaration FunctionExpression TSDeclareFunction TSEmptyBodyFunctionExpression",
          "JsxOpeningElement": "JSXOpeningElement", "JsxElement": "JSXElement", "JsxFragment": "JSXFragment"}
NAMED = """Decorator ArrowFunctionExpression VariableDeclaration VariableDeclarator CallExpression NewExpression
TaggedTemplateExpression ImportExpression FormalParameter FormalParameterRest CatchParameter IfStatement WhileStatement DoWhileStatement
ForStatement ForInStatement ForOfStatement ImportDeclaration ExportAllDeclaration ExportFromDeclaration""".split()
ENTERED = {kind: name for name, kinds in SHARED.items() for kind in kinds.split()} | {kind: kind for kind in NAMED}
LEFT = ("Class", "MethodDefinition", "AccessorProperty", "PropertyDefinition", "Function")


class Trees:
    """Small trees of the grammar."""

    def __init__(self, grammar):
        self.grammar = grammar
        self.depths = {}
        while self.deepen():
            pass

    def deepen(self):
        """Notes how deep the smallest nodes are, and whether there was anything to note."""
        new = {}
        for kind in self.grammar.kinds:
            inside = [self.depth_of(field.argument) for field in self.filled(kind)]
            if kind not in self.depths and None not in inside:
                new[kind] = 1 + max(inside, default=0)
        self.depths |= new
        return bool(new)

    def filled(self, kind):
        """The fields of nodes that have to be there."""
        return [f for f in self.grammar.kinds[kind] if f.required and f.holds in NODES]

    def kinds_at(self, place):
        places = place if isinstance(place, tuple) else (place,)
        return [k for p in places[-1:] for k in self.grammar.categories.get(p, [p])]

    def depth_of(self, place):
        return min((self.depths[k] for k in self.kinds_at(place) if k in self.depths), default=None)

    def simplest(self, place):
        kinds = [k for k in self.kinds_at(place) if k in self.depths]
        return next((k for k in SIMPLE if k in kinds), None) or min(kinds, key=lambda k: self.depths[k])

    def node(self, kind, **given):
        """The smallest node of the kind with these fields."""
        tree = {"type": kind}
        for field in self.grammar.kinds[kind]:
            if field.name in given:
                tree[field.name] = given[field.name]
            elif field.name in NEEDED.get(kind, {}):
                tree[field.name] = self.needed(NEEDED[kind][field.name])
            elif field.required:
                tree[field.name] = self.value(field)
        return tree

    def needed(self, value):
        if isinstance(value, list):
            return [self.node(kind, tail=True) for kind in value]
        return self.node(value) if isinstance(value, str) else value

    def value(self, field):
        if field.holds in NODES:
            return self.node(self.simplest(field.argument))
        if field.holds in LISTS:
            return []
        if field.holds == "Word":
            return self.grammar.words[field.argument][0]
        return {"Text": "x", "Flag": True}.get(field.holds)

    def ways(self):
        """For each kind a field of a kind that may hold it, found from the program on."""
        ways, kinds = {"Program": None}, ["Program"]
        for parent in kinds:
            for field in self.grammar.kinds[parent]:
                if field.holds not in NODES + LISTS:
                    continue
                for kind in self.kinds_at(field.argument):
                    if kind not in ways:
                        ways[kind] = (parent, field)
                        kinds.append(kind)
        return ways

    def statement_with(self, kind, ways):
        """A statement of a program in which there is a node of the kind."""
        node = self.node(kind)
        while ways[kind][0] != "Program":
            kind, field = ways[kind]
            node = self.node(kind, **{field.name: [node] if field.holds in LISTS else node})
        return ways[kind][1].name, node

    def of_all_kinds(self):
        ways = self.ways()
        program = {"type": "Program", "directives": [], "body": []}
        for kind in ways:
            if kind != "Program":
                name, node = self.statement_with(kind, ways)
                program[name].append(node)
        return program


class Visits:
    """The lines of the hooks that a walk of a tree runs: the hook, the number of its node, 0 for a list of statements, and
    the numbers of the nodes around it, the innermost first."""

    def __init__(self, grammar):
        self.grammar, self.lines, self.number = grammar, [], 0

    def of_program(self, program):
        self.number_all(program)
        self.line("EnterProgram", program["number"], [])
        self.statements(program["body"], "Item", [program["number"]])
        self.line("ExitProgram", program["number"], [])
        return self.lines

    def number_all(self, node):
        """Numbers the nodes as they are read: in the order of the fields, each before those in it."""
        self.number += 1
        node["number"] = self.number
        for field in self.grammar.kinds[node["type"]]:
            value = node.get(field.name)
            for inner in value if isinstance(value, list) else [value]:
                if isinstance(inner, dict):
                    self.number_all(inner)

    def line(self, hook, number, around):
        self.lines.append(" ".join(map(str, (hook, number, *around))))

    def statements(self, nodes, place, around):
        self.line("EnterStatements", 0, around)
        for node in nodes:
            self.node(node, place, around)
        self.line("ExitStatements", 0, around)

    def node(self, node, place, around):
        kind, number = node["type"], node["number"]
        place = SAME_PLACES.get(place, place)
        for hook, wanted in PLACES.get(place, ()):
            if kind in self.grammar.categories[wanted]:
                self.line(hook, number, around)
        if kind in ENTERED:
            self.line("Enter" + ENTERED[kind], number, around)
        self.fields(node, [number, *around])
        if ENTERED.get(kind) in LEFT:
            self.line("Exit" + ENTERED[kind], number, around)
        if ENTERED.get(kind) == "Class":
            self.line("ExitClassAtEnd", number, around)
        if place == "Statement":
            self.line("ExitStatement", number, around)

    def fields(self, node, around):
        for field in self.grammar.kinds[node["type"]]:
            value = node.get(field.name)
            place = field.argument[0] if field.holds == "Narrowed" else field.argument
            if isinstance(value, list) and place in STATEMENTS:
                self.statements(value, place, around)
            elif isinstance(value, dict):
                self.node(value, place, around)
            elif isinstance(value, list):
                for inner in value:
                    self.node(inner, place, around)
            elif value is None and field.holds == "List" and place in STATEMENTS:
                self.statements([], place, around)


def without_numbers(value):
    if isinstance(value, list):
        return [without_numbers(inner) for inner in value]
    return {k: without_numbers(v) for k, v in value.items() if k != "number"} if isinstance(value, dict) else value


def read(name):
    with open(os.path.join(ROOT, FOLDER, name), encoding="utf-8") as file:
        return file.read().splitlines()


def with_tree(table, data):
    """The table, one tree a line, in which the tree is that one."""
    place = next(i for i, line in enumerate(table) if line.startswith(TREE))
    return [*table[:place], TREE + data + ",", *table[place + 1 :]]


def with_lines(printed, lines):
    """What is printed up to the heading, and these lines behind it."""
    place = next(i for i, line in enumerate(printed) if line.startswith(HEADING))
    return printed[: place + 1] + lines


def main():
    with open(os.path.join(ROOT, "grammar/grammar.txt"), encoding="utf-8") as source:
        grammar = Grammar(source.read())
    tree = Trees(grammar).of_all_kinds()
    lines = Visits(grammar).of_program(tree)
    data = json.dumps(without_numbers(tree), separators=(",", ":"))
    files = {"stdin": with_tree(read("stdin"), data), "stdout": with_lines(read("stdout"), lines)}
    check = "--check" in sys.argv[1:]
    sys.exit(0 if all([write(os.path.join(FOLDER, name), "\n".join(text) + "\n", check) for name, text in files.items()]) else 1)


if __name__ == "__main__":
    main()
