#!/usr/bin/env python3
"""Compares what the program finds of the fields of classes and of what stands in their way with an independent reading of the same rules.

    tools/compare_classes.py ORACLE CASES FILE..                trees, or fixtures with a tree as `input`
    tools/compare_classes.py ORACLE CASES --random SEED COUNT   random programs of the generators in ORACLE/tests

ORACLE is the folder of the reading, a Python package `oxtref` that is no part of this repository. CASES is the built
program `oxt_cases`. Its tables `fields` and `class-faults` are compared, each tree where fields move or not, and where empty ones
go or not; what is told of classes is compared with the words in which it is read (`compare_words.py`). What the reading takes
for no tree is passed over. Prints a line for each table that differs, then the counts. The status is 1 if there is a difference,
and else 0.
"""
import importlib
import itertools

import trees
from compare_words import with_options
from trees import Differences, run, wanted_of, words_and_cases

FLAGS = ("--set-public-class-fields", "--remove-empty-fields")
CLASSES = ("ClassDeclaration", "ClassExpression")
# The kinds of what is misplaced, and the rows of what is captured, that are asked for.
MISPLACED, CAPTURED = ("super", "key", "field"), (3, 4, 8)


def first(found):
    """The kind or name that was found at the least number, and of several there in the first row."""
    return "{2} {0}".format(*min(found, key=lambda row: row[:2])) if found else "-"


class Reading(trees.Reading):
    """The independent reading, of fields and of what stands in their way."""

    def __init__(self, folder):
        super().__init__(folder)
        self.faults, self.options, self.classes = (importlib.import_module(f"oxtref.{name}") for name in ("faults", "options", "classes"))

    def lines(self, text):
        """The lines of each table under each of the flags, as `oxt_cases` prints them; None where it is no tree."""
        root = self.root_of(text)
        if root is None:
            return None
        tables = {}
        for given in itertools.product((False, True), repeat=len(FLAGS)):
            flags = tuple(flag for flag, is_given in zip(FLAGS, given) if is_given)
            faults = self.faults.Faults(root, self.options.parse(list(flags))[0])
            tables["fields", flags], tables["class-faults", flags] = self.fields(faults), self.class_faults(faults)
        return tables

    def fields(self, faults):
        steady = [str(node.num) for node in faults.root.walk() if node.kind == "IdentifierReference" and faults.src.never_written(node)]
        lines = [" ".join(["never written", *steady])]
        for node in faults.root.walk():
            if node.kind in CLASSES:
                lines += self.class_lines(faults, node)
        return lines

    def class_lines(self, faults, node):
        """The lines of a class, of its parameter properties and of its fields."""
        constructor = self.classes.ctor_of(node)
        hoists = any(self.is_hoisting(element) for element in node.body.body)
        place = f"{constructor.num} {self.classes.super_position(constructor.value.body.statements)}" if constructor else "-"
        yield f"{node.num} class{' derived' * bool(node.superClass)}{' hoists' * hoists} {place}"
        for parameter in self.classes.param_props(constructor):
            yield f"{parameter.num} property {parameter.pattern.name}"
        views = faults.rd.elements(node)
        faults.rd.plan_fields(node, views)
        yield from (self.field_line(view) for view in views if self.is_changed(view))

    @staticmethod
    def is_hoisting(element):
        is_instance = element.kind == "PropertyDefinition" and not element.static and not element.declare
        return is_instance and element.key.kind != "PrivateIdentifier" and element.value is not None

    @staticmethod
    def is_changed(view):
        return view.kind == "field" and view.src.kind == "PropertyDefinition" and (view.moves or not view.stays)

    @staticmethod
    def field_line(view):
        if view.moves:
            return f"{view.src.num} moves{' in' * (not view.static)}{' stays' * bool(view.stays)}{' kept' * (view.k0 is not None)}"
        return f"{view.src.num} {'goes' if view.wait is None else 'key'}"

    @staticmethod
    def class_faults(faults):
        misplaced, captured = [], []
        for node in faults.live:
            if node.kind in CLASSES:
                faults.class_misplaced(node, lambda row, kind, at: misplaced.append((at.num, row, kind)))
                faults.class_captured(node, lambda row, name, at: captured.append((at.num, row, name)))
        return [f"misplaced {first([row for row in misplaced if row[2] in MISPLACED])}",
                f"captured {first([row for row in captured if row[1] in CAPTURED])}"]


def main():
    reading, program, cases = words_and_cases(__doc__, Reading)
    differences = Differences()
    for name, text, tables in wanted_of(cases, reading.lines):
        differences.add(trees=1)
        for (table, flags), wanted in tables.items():
            status, found, _ = run(program, table, with_options(text, flags))
            differences.add(lines=len(wanted))
            if (status, found) != (0, wanted):
                differences.show_lines(" ".join([f"{name}, {table}", *flags]), status, wanted, found)
    differences.end()


if __name__ == "__main__":
    main()
