#!/usr/bin/env python3
"""Compares the owners of names that the program finds with those of an independent reading of the same rules.

    tools/compare_owners.py ORACLE CASES FILE..                trees, or fixtures with a tree as `input`
    tools/compare_owners.py ORACLE CASES --random SEED COUNT   random programs of the generators in ORACLE/tests

ORACLE is the folder of the reading, a Python package `oxtref` that is no part of this repository. CASES is the built
program `oxt_cases`. What the reading takes for no tree is passed over. Prints a line for each tree that differs, then
the counts. The status is 1 if there is a difference, and else 0.
"""
import trees
from trees import Differences, run, wanted_of, words_and_cases


class Reading(trees.Reading):
    """The independent reading, of owners."""

    def lines(self, text):
        """The lines of the names of a tree, as `oxt_cases owners` writes them; None where it is no tree."""
        root = self.root_of(text)
        if root is None:
            return None
        # The name of an export that is no use of it has no line.
        return [self.line(use) for use in self.scopes.Scopes(root).refs if use.mode != "modname"]

    @staticmethod
    def line(use):
        owner = use.owner.scope.node.num if use.owner else "-"
        way = "type" if use.intype else "update" if use.write and use.read else "write" if use.write else ""
        return f"{use.node.num} {use.node.name} {owner} {way}".rstrip()


def main():
    reading, program, cases = words_and_cases(__doc__, Reading)
    differences = Differences()
    for name, text, wanted in wanted_of(cases, reading.lines):
        differences.add(trees=1, names=len(wanted))
        status, found, _ = run(program, "owners", text)
        if (status, found) != (0, wanted):
            differences.show_lines(name, status, wanted, found)
    differences.end()


if __name__ == "__main__":
    main()
