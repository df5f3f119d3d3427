#!/usr/bin/env python3
"""Compares the words that the program reads with those of an independent reading of the same rules.

    tools/compare_words.py ORACLE CASES OXT FILE..               trees, or fixtures with a tree as `input`
    tools/compare_words.py ORACLE CASES OXT --random SEED COUNT  random programs of the generators in ORACLE/tests
    tools/compare_words.py ORACLE CASES OXT --lowered "FLAGS" ..  what the reading itself lowers trees to

ORACLE is the folder of the reading, a Python package `oxtref` that is no part of this repository. CASES and OXT are
the built programs `oxt_cases` and `oxt`. Each tree that `oxt` lowers is compared twice: its own word, with the
TypeScript in it, and that of what `oxt` writes. `--flags="WORD .."` gives all three the flags for fields and for enums:
those of `OPTIONS`. With `--lowered` the reading lowers each tree under the options of the flags, and the words of these
outputs are compared, in which names are made.

Prints a line for each difference, then the counts. The status is 1 if there is a difference, or an answer
`uncertified`, and else 0.
"""
import argparse
import collections
import json
import random
import subprocess
import sys

MAX_SHOWN = 20
# The flags that `oxt_cases` takes too, as keys of the object with the tree; it takes both of those for enums or none.
OPTIONS = {
    "--set-public-class-fields": "moves", "--remove-empty-fields": "drops",
    "--optimize-enums": "optimize", "--optimize-const-enums": "optimize",
}


def item_line(item):
    """The line of an item of the reading, as `oxt_cases` writes it."""
    mark, *rest = item
    if mark == "Open":
        kind, parts = rest
        row = [mark, kind, *(value for _name, value in parts)]
    elif mark == "Bind":
        kind, exported, name = rest
        row = ["BindMade", name[1], kind, exported] if isinstance(name, tuple) else [mark, name, kind, exported]
    elif mark == "In" and isinstance(rest[0], tuple):
        row = ["InMade", rest[0][1], rest[1]]
    elif mark == "Field":
        row = [mark, None, *rest]
    else:
        row = [mark, *(rest or [None])]
    return json.dumps(row, ensure_ascii=False, separators=(",", ":"))


class Reading:
    """The independent reading, at the options of the flags."""

    def __init__(self, folder, flags):
        sys.path[:0] = [folder, folder + "/tests"]
        from oxtref import lists, options, tree, word
        self.tree, self.lists, self.word = tree, lists, word
        self.options, _files = options.parse(flags)

        self.flags = flags

    def lowered(self, source):
        """The JSON of what the reading lowers the tree to; none where it refuses it."""
        from oxtref import oxt
        status, output, _message = oxt.run(self.flags, source)
        return output.split(b"\n")[0] if status in (0, 1) else None

    def words(self, source, output):
        """The lines of the source's word and of the output's, and the number of the source's nodes."""
        root = self.tree.read_tree(source)
        about = self.lists.Source(root, self.options)
        readers = (self.word.Reader(root, about, True),
                   self.word.Reader(self.tree.read_tree(output), about, False))
        lines = [[item_line(item) for item in self.word.finish(reader)[0]] for reader in readers]
        return lines, sum(1 for _ in root.walk())


class Comparison:
    def __init__(self, arguments):
        self.is_lowered = arguments.lowered is not None
        self.flags = (arguments.lowered or arguments.flags).split()
        self.reading = Reading(arguments.oracle, self.flags)
        self.cases, self.oxt = arguments.cases, arguments.oxt
        self.counts = collections.Counter()
        self.shown = 0

    def show(self, name, text):
        self.counts["differences"] += 1
        if self.shown < MAX_SHOWN:
            print(f"{name}: {text}", flush=True)
        self.shown += 1

    def tree(self, name, source):
        """Compares one tree."""
        if self.is_lowered:
            self.lowered(name, source)
            return
        run = subprocess.run([self.oxt, *self.flags], input=source, capture_output=True)
        message = run.stderr.decode().strip()
        if run.returncode != 0:
            self.counts["refused"] += 1
            if message.startswith("uncertified"):
                self.show(name, message)
            return
        try:
            expected, nodes = self.reading.words(source, run.stdout)
        except (AssertionError, RecursionError) as error:
            self.counts["not read by the oracle"] += 1
            print(f"{name}: the oracle gave up: {error!r}"[:200])
            return
        self.counts["trees"] += 1
        self.counts["nodes"] += nodes
        self.word(f"{name} (source)", "told-word", with_options(source, self.flags), expected[0])
        self.word(f"{name} (output)", "pair", pair_of(source, run.stdout), expected[1])

    def lowered(self, name, source):
        """Compares the words of what the reading lowers the tree to."""
        try:
            output = self.reading.lowered(source)
            if output is None:
                self.counts["refused"] += 1
                return
            expected, nodes = self.reading.words(source, output)
        except (AssertionError, AttributeError, KeyError, RecursionError) as error:
            self.counts["not read by the oracle"] += 1
            print(f"{name}: the oracle gave up: {error!r}"[:200])
            return
        self.counts["trees"] += 1
        self.counts["nodes"] += nodes
        self.counts["items of made names"] += sum("Made" in line or "Keep" in line for line in expected[1])
        self.word(f"{name} (lowered)", "pair", pair_of(source, output), expected[1])

    def word(self, name, mode, tree, wanted):
        run = subprocess.run([self.cases, mode], input=tree, capture_output=True)
        message = run.stderr.decode().strip()
        if message.startswith("Error: invalid JSON"):
            self.counts["too deep for an object"] += 1
            return
        if mode == "pair" and message == "Error: this is no tree":
            self.counts["no tree"] += 1
            return
        if run.returncode != 0:
            self.show(name, f"status {run.returncode}: {message}")
            return
        got = run.stdout.decode().split("\n")[:-1]
        self.counts["items"] += len(wanted)
        if got == wanted:
            return
        place = next((i for i, (a, b) in enumerate(zip(got, wanted)) if a != b), min(len(got), len(wanted)))
        ours = got[place] if place < len(got) else "the end"
        theirs = wanted[place] if place < len(wanted) else "the end"
        self.show(name, f"item {place}: the program has {ours}, the oracle {theirs}")


def with_options(source, flags):
    """The JSON of a source with the options of the flags; the source alone where there are none."""
    keys = sorted({OPTIONS[flag] for flag in flags if flag in OPTIONS})
    return b'{"tree":' + source + "".join(f',"{key}":true' for key in keys).encode() + b"}" if keys else source


def pair_of(source, output):
    """The JSON of a source and its output."""
    return b'{"tree":' + source + b',"output":' + output + b"}"


def tree_of_file(path):
    """The bytes of the tree in a file, which is a tree or a fixture; none where it holds neither."""
    with open(path, "rb") as handle:
        data = handle.read()
    try:
        value = json.loads(data)
    except ValueError:
        return None
    if isinstance(value, dict) and "input" in value:
        value = value["input"]
        data = json.dumps(value, ensure_ascii=False).encode()
    return data if isinstance(value, dict) and value.get("type") == "Program" else None


class RandomPrograms:
    """Random programs of the generators."""

    def __init__(self):
        import fuzz
        import fuzz_class
        import fuzz_ns
        from oxtref.options import Options
        self.trees, self.classes, self.found = fuzz, fuzz_class, fuzz_ns
        self.options = Options()

    def program(self, number):
        """The program of that number: every third of one sort."""
        chance = random.Random(number)
        if number % 3 == 0:
            return self.trees.G(chance, False).make("Program", chance.choice([4, 5, 6, 7]))
        if number % 3 == 1:
            maker = self.classes.GC(chance, self.options)
            return self.of([maker.cls(True, "C"), self.statement(maker.val()), self.statement(maker.cls(False))])
        maker = self.found.GN(chance)
        return self.of([self.statement(maker.val(3)) for _ in range(5)])

    @staticmethod
    def of(body):
        return {"type": "Program", "body": body}

    @staticmethod
    def statement(expression):
        return {"type": "ExpressionStatement", "expression": expression}


def compare_random(comparison, seed, count):
    """Compares random programs."""
    programs = RandomPrograms()
    for number in range(seed, seed + count):
        tree = json.dumps(programs.program(number), separators=(",", ":")).encode()
        comparison.tree(f"random {number}", tree)


def main():
    parser = argparse.ArgumentParser(description=__doc__.split("\n")[0])
    parser.add_argument("oracle")
    parser.add_argument("cases")
    parser.add_argument("oxt")
    parser.add_argument("files", nargs="*")
    parser.add_argument("--flags", default="", help="the flags under which all read and lower the trees")
    parser.add_argument("--lowered", metavar="FLAGS", help="compare what the reading lowers under these flags")
    parser.add_argument("--random", nargs=2, type=int, metavar=("SEED", "COUNT"))
    arguments = parser.parse_intermixed_args()
    sys.setrecursionlimit(20_000)
    comparison = Comparison(arguments)
    for path in arguments.files:
        tree = tree_of_file(path)
        if tree is None:
            comparison.counts["no tree"] += 1
        else:
            comparison.tree(path, tree)
    if arguments.random:
        compare_random(comparison, *arguments.random)
    differences = comparison.counts.pop("differences", 0)
    print(", ".join(f"{name} {number}" for name, number in sorted(comparison.counts.items())))
    print(f"differences {differences}")
    return 1 if differences else 0


if __name__ == "__main__":
    sys.exit(main())
