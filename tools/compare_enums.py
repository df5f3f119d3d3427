#!/usr/bin/env python3
"""Compares what the program finds of enums and of the level of statements with an independent reading of the same rules.

    tools/compare_enums.py ORACLE CASES FILE..                trees, or fixtures with a tree as `input`
    tools/compare_enums.py ORACLE CASES --random SEED COUNT   random programs of the generators in ORACLE/tests
    tools/compare_enums.py ORACLE CASES --enums SEED COUNT    random programs of enums alone

ORACLE is the folder of the reading, a Python package `oxtref` that is no part of this repository. CASES is the built
program `oxt_cases`. Its tables `levels`, `first-blocks`, `clash` and `enum-faults` are compared; what is told of enums is
compared with the words in which it is read (`compare_words.py`). What the reading takes for no tree is passed over. Prints
a line for each table that differs, then the counts. The status is 1 if there is a difference, and else 0.
"""
import importlib

import trees
from compare_constants import enum_trees
from trees import Differences, run, wanted_of, words_and_cases

ELEMENTS = ("JSXOpeningElement", "JSXClosingElement", "JSXMemberExpression")


def or_dash(numbers):
    """The least of the numbers, or a dash."""
    return str(min(numbers, default="-"))


class Reading(trees.Reading):
    """The independent reading, of blocks and of what stands in their way."""

    def __init__(self, folder):
        super().__init__(folder)
        self.faults, self.options = (importlib.import_module(f"oxtref.{name}") for name in ("faults", "options"))

    def lines(self, text):
        """The lines of each table, as `oxt_cases` prints them; None where it is no tree."""
        root = self.root_of(text)
        if root is None:
            return None
        faults = self.faults.Faults(root, self.options.Options())
        return {
            "levels": self.levels(faults), "first-blocks": self.first_blocks(faults), "clash": self.clash(faults),
            "enum-faults": self.enum_faults(faults),
        }

    @staticmethod
    def levels(faults):
        """The first word of each statement, and that of all."""
        firsts = [next(faults.words(roots), None) for roots in [*([item] for item in faults.root.body), faults.root.body]]
        return [f"{first[0]} {first[1].num}" if first else "-" for first in firsts]

    @staticmethod
    def first_blocks(faults):
        return [str(node.num) for node in faults.nodes if id(node) in faults.src.first]

    @staticmethod
    def clash(faults):
        """The first declaration that clashes, of all groups with a block."""
        emitting = ([entry for entry in group.decls if entry.emits] for group in faults.sc.groups)
        blocks = (entries for entries in emitting if any(entry.kind in ("enum", "namespace") for entry in entries))
        return [or_dash(entry.node.num for entry in map(faults.first_clash, blocks) if entry)]

    def enum_faults(self, faults):
        misnamed = [*self.repeated(faults.sc), *self.misused(faults.sc)]
        shadowed = []
        faults.row9(lambda _row, name, node: shadowed.append((node.num, name)))
        shown = "{} {}".format(*min(shadowed)) if shadowed else "-"
        wide = or_dash(member.num for member in faults.src.k.wide())
        return [f"misnamed {or_dash(misnamed)}", f"shadowed {shown}", f"wide {wide}"]

    def repeated(self, scopes):
        """The members that have the name of their enum, or of a member in front."""
        for group in scopes.groups:
            seen = {group.name}
            for block in group.enums():
                for member in () if block.erased else block.node.body.members:
                    name = self.scopes.member_name(member)
                    if name in seen:
                        yield member.num
                    seen.add(name)

    @staticmethod
    def misused(scopes):
        """The names of members that are written, or that name an element."""
        for use in scopes.refs:
            if use.owner and use.owner.member and not use.erased and not use.intype:
                if use.write or use.node.parent.kind in ELEMENTS:
                    yield use.node.num


def main():
    reading, program, cases = words_and_cases(__doc__, Reading, {"enums": enum_trees})
    differences = Differences()
    for name, text, tables in wanted_of(cases, reading.lines):
        differences.add(trees=1)
        for table, wanted in tables.items():
            status, found, _ = run(program, table, text)
            differences.add(lines=len(wanted))
            if (status, found) != (0, wanted):
                differences.show_lines(f"{name}, {table}", status, wanted, found)
    differences.end()


if __name__ == "__main__":
    main()
