#!/usr/bin/env python3
"""Compares the constants of enum members, and the blocks of enums, that the program finds with those of an
independent reading of the same rules.

    tools/compare_constants.py ORACLE CASES FILE..                trees, or fixtures with a tree as `input`
    tools/compare_constants.py ORACLE CASES --random SEED COUNT   random programs of the generators in ORACLE/tests
    tools/compare_constants.py ORACLE CASES --enums SEED COUNT    random programs of enums alone

ORACLE is the folder of the reading, a Python package `oxtref` that is no part of this repository. CASES is the built
program `oxt_cases`. What the reading takes for no tree is passed over; what the program alone takes for none is
counted. Prints a line for each tree that differs, then the counts. The status is 1 if there is a difference, and else 0.
"""
import json
import random

import trees
from trees import Differences, run, wanted_of, words_and_cases


class Reading(trees.Reading):
    """The independent reading, of members and of the blocks of enums."""

    def lines(self, text):
        """The lines of the members and of the blocks, as `oxt_cases` writes them; None where it is no tree."""
        root = self.root_of(text)
        if root is None:
            return None
        scopes = self.scopes.Scopes(root)
        constants = self.constants.Constants(scopes)
        wide = {member.num for member in constants.wide()}
        members = sorted((node for node in root.walk() if node.kind == "TSEnumMember"), key=lambda node: node.num)
        return [self.line(node.num, constants.value(node), node.num in wide) for node in members], self.blocks(scopes)

    @staticmethod
    def line(number, value, is_wide):
        shown = "-" if value is None else "t" + value.encode().hex() if isinstance(value, str) else str(value)
        return f"{number} {shown}" + (" wide" if is_wide else "")

    @staticmethod
    def blocks(scopes):
        lines = []
        for blocks in scopes.enum_blocks.values():
            bodies = " ".join(str(block.node.num) for block in blocks)
            const = " const" if blocks[0].enumdecl.const else ""
            lines += [f"{block.node.num} {blocks[0].enum.scope.node.num}{const} {bodies}" for block in blocks]
        return sorted(lines)


class Enums:
    """Random programs of enums, of few names, so that they mean one another."""

    NAMES = ("A", "B", "C", "D")
    ENUMS = ("E", "F", "A")
    UNARY = ("+", "-", "~", "!")
    BINARY = ("+", "-", "*", "/", "%", "**", "<<", ">>", ">>>", "&", "|", "^", "<")
    NUMBERS = (0, 1, 2, 3, 7, 31, 32, 255, 2147483647, 2147483648, 4294967295, 4294967296, 9007199254740990, 9007199254740991)

    def __init__(self, seed):
        self.random = random.Random(seed)

    def name(self, kind, names):
        return {"type": kind, "name": self.random.choice(names)}

    def expression(self, depth):
        pick = self.random.randrange(12 if depth else 6)
        if pick == 0:
            return {"type": "NumericLiteral", "value": self.random.choice(self.NUMBERS)}
        if pick == 1:
            return {"type": "StringLiteral", "value": self.random.choice(("", "x", "12", "\u00e9"))}
        if pick in (2, 3):
            return self.name("IdentifierReference", self.NAMES)
        if pick in (4, 5):
            return self.access()
        if pick == 6:
            return {"type": "ParenthesizedExpression", "expression": self.expression(depth - 1)}
        if pick == 7:
            return {"type": "UnaryExpression", "operator": self.random.choice(self.UNARY), "argument": self.expression(depth - 1)}
        if pick == 8:
            parts = [self.expression(depth - 1) for _ in range(self.random.randrange(3))]
            texts = [{"type": "TemplateElement", "raw": "q", "cooked": "q", "tail": i == len(parts)} for i in range(len(parts) + 1)]
            return {"type": "TemplateLiteral", "quasis": texts, "expressions": parts}
        return {"type": "BinaryExpression", "operator": self.random.choice(self.BINARY), "left": self.expression(depth - 1), "right": self.expression(depth - 1)}

    def access(self):
        place = self.name("IdentifierReference", self.ENUMS)
        if self.random.randrange(6) == 0:
            place = {"type": "ParenthesizedExpression", "expression": place}
        if self.random.randrange(3) == 0:
            key = {"type": "StringLiteral", "value": self.random.choice(self.NAMES)}
            return {"type": "ComputedMemberExpression", "object": place, "expression": key}
        return {"type": "StaticMemberExpression", "object": place, "property": self.name("IdentifierName", self.NAMES)}

    def member(self):
        if self.random.randrange(5) == 0:
            key = {"type": "StringLiteral", "value": self.random.choice(self.NAMES)}
        else:
            key = self.name("IdentifierName", self.NAMES)
        value = None if self.random.randrange(3) == 0 else self.expression(2)
        return {"type": "TSEnumMember", "id": key, "initializer": value}

    def statement(self, depth):
        pick = self.random.randrange(9 if depth else 6)
        if pick == 5:
            kind = self.random.choice(("var", "let"))
            return {"type": "VariableDeclaration", "kind": kind, "declarations": [{"type": "VariableDeclarator", "id": self.name("BindingIdentifier", self.ENUMS)}]}
        if pick == 6:
            return {"type": "BlockStatement", "body": self.statements(depth - 1)}
        if pick == 7:
            parameters = {"type": "FormalParameters", "items": [{"type": "FormalParameter", "pattern": self.name("BindingIdentifier", self.ENUMS)}]}
            return {"type": "FunctionDeclaration", "id": self.name("BindingIdentifier", ("f", "E")), "params": parameters, "body": {"type": "FunctionBody", "statements": self.statements(depth - 1)}}
        if pick == 8:
            return {"type": "TSNamespaceDeclaration", "id": self.name("BindingIdentifier", ("N", "E")), "declare": self.random.randrange(4) == 0, "body": {"type": "TSModuleBlock", "body": self.statements(depth - 1)}}
        members = [self.member() for _ in range(self.random.randrange(5))]
        flags = {"const": self.random.randrange(3) == 0, "declare": self.random.randrange(5) == 0}
        return {"type": "TSEnumDeclaration", "id": self.name("BindingIdentifier", self.ENUMS), **flags, "body": {"type": "TSEnumBody", "members": members}}

    def statements(self, depth):
        return [self.statement(depth) for _ in range(self.random.randrange(1, 6))]


def enum_trees(seed, count):
    for number in range(seed, seed + count):
        tree = {"type": "Program", "body": Enums(number).statements(3)}
        yield f"enums {number}", json.dumps(tree, separators=(",", ":")).encode()


def compare(program, name, text, wanted, differences):
    first, second = run(program, "constants", text), run(program, "blocks", text)
    if "this is no tree" in first[2]:
        differences.add(refused=1)
        return
    members, blocks = wanted
    constants = sum(line.split()[1] != "-" for line in members)
    differences.add(trees=1, members=len(members), constants=constants, blocks=len(blocks))
    lines = first[1] + sorted(second[1])
    if (first[0], second[0], lines) != (0, 0, members + blocks):
        differences.show_lines(name, f"{first[0]} {second[0]}", members + blocks, lines)


def main():
    reading, program, cases = words_and_cases(__doc__, Reading, {"enums": enum_trees})
    differences = Differences()
    for name, text, wanted in wanted_of(cases, reading.lines):
        compare(program, name, text, wanted, differences)
    differences.end()


if __name__ == "__main__":
    main()
