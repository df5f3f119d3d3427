#!/usr/bin/env python3
"""Compares what the program answers to trees with what an independent reading of the same rules answers, byte for byte.

    tools/compare_trees.py ORACLE OXT FILE..                trees, or fixtures with a tree as `input`
    tools/compare_trees.py ORACLE OXT --random SEED COUNT   random programs of the generators in ORACLE/tests

ORACLE is the folder of the reading, a Python package `oxtref` that is no part of this repository. OXT is the built
program `oxt`. `--flags="WORD .."` gives both of them these flags, and `--some-flags` gives them for each tree some of the
flags, by its name. A tree that is not certified differs.
Prints a line for each tree that differs, then the counts. The status is 1 if there is a difference, and else 0.
"""
import argparse
import random
import subprocess
import sys

import trees
from trees import Differences, words_and_cases

FLAGS = (
    "--only-remove-type-imports", "--optimize-enums", "--optimize-const-enums", "--no-namespaces", "--set-public-class-fields",
    "--no-declare-fields", "--remove-empty-fields", "--legacy", "--emit-decorator-metadata", "--no-strict-null-checks",
)
# Flags with a value, with those that are tried.
CHOICES = {"--module": ("commonjs", "esm"), "--rewrite-extensions": ("rewrite", "remove")}


class Reading(trees.Reading):
    """The independent reading, as a program."""

    def __init__(self, folder):
        super().__init__(folder)
        self.folder = folder

    def answer(self, flags, text):
        return answer([sys.executable, "-m", "oxtref.oxt", *flags], text, self.folder)


def answer(call, text, folder=None):
    """The status and what is written on standard output and standard error, given the bytes."""
    done = subprocess.run(call, input=text, capture_output=True, check=False, cwd=folder)
    return done.returncode, done.stdout, done.stderr


def flags_by_name():
    """What says the flags for a tree of a name. Takes its words off the command line."""
    parser = argparse.ArgumentParser(add_help=False)
    parser.add_argument("--flags", default="")
    parser.add_argument("--some-flags", action="store_true")
    words, sys.argv[1:] = parser.parse_known_args()
    if not words.some_flags:
        return lambda name: words.flags.split()

    def some_flags(name):
        chance = random.Random(name)
        words = [flag for flag in FLAGS if chance.random() < 0.5]
        for flag, values in CHOICES.items():
            if chance.random() < 0.5:
                words += [flag, chance.choice(values)]
        return words

    return some_flags


def main():
    flags_of = flags_by_name()
    reading, program, cases = words_and_cases(__doc__, Reading)
    differences = Differences()
    for name, text in cases:
        flags = flags_of(name)
        found = answer([program, *flags], text)
        wanted = reading.answer(flags, text)
        differences.add(**{"lowered" if found[0] in (0, 1) else "refused": 1})
        if found != wanted:
            differences.show(" ".join([name, *flags]), found[0], wanted[2] or wanted[1][:80], found[2] or found[1][:80])
    differences.end()


if __name__ == "__main__":
    main()
