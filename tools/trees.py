"""What the tools share that compare the program with an independent reading of the same rules: the trees, the reading,
and the count of what differs."""
import argparse
import collections
import importlib
import json
import subprocess
import sys

# Modules with generators of random programs, which the folder of the reading has.
GENERATORS = ("fuzz", "fuzz_class", "fuzz_ns")
MAX_SHOWN = 20


def trees_in(files):
    """The files with the JSON of their trees: a file holds a tree, or a fixture with a tree as `input`."""
    for path in files:
        with open(path, encoding="utf-8", errors="replace") as source:
            try:
                value = json.load(source)
            except ValueError:
                continue
        if isinstance(value, dict) and "expect" in value:
            value = value.get("input")
        yield path, json.dumps(value, separators=(",", ":")).encode()


def random_trees(seed, count):
    """The names and the JSON of random programs, by number; a generator may give up on a number."""
    generators = [importlib.import_module(name) for name in GENERATORS]
    for number in range(seed, seed + count):
        generator = generators[number % len(generators)]
        try:
            _name, tree, _options = generator.one(number)
        except Exception:
            continue
        if tree is not None:
            yield f"{generator.__name__} {number}", json.dumps(tree, separators=(",", ":")).encode()


class Reading:
    """The independent reading, a Python package `oxtref` in that folder."""

    def __init__(self, folder):
        sys.path[:0] = [folder, folder + "/tests"]
        self.tree, self.scopes, self.constants = (importlib.import_module(f"oxtref.{name}") for name in ("tree", "scopes", "constants"))

    def root_of(self, text):
        """The tree that the bytes spell; None where they spell none."""
        try:
            return self.tree.read_tree(text)
        except (self.tree.Json, self.tree.Shape):
            return None


def wanted_of(cases, read):
    """The names and the bytes of those cases that are trees, with what the reading's call makes of them."""
    for name, text in cases:
        wanted = read(text)
        if wanted is not None:
            yield name, text, wanted


class Differences:
    """Counts what was compared, and shows the first of the trees that differ."""

    def __init__(self):
        self.counts = collections.Counter()
        self.differing = 0

    def add(self, **counts):
        self.counts.update(counts)

    def show(self, name, status, wanted, found):
        self.differing += 1
        if self.differing <= MAX_SHOWN:
            print(f"{name}: status {status}, wanted {wanted}, found {found}")

    def show_lines(self, name, status, wanted, found):
        """Shows the first lines that differ, or how many there are."""
        pair = next(((a, b) for a, b in zip(wanted, found) if a != b), (len(wanted), len(found)))
        self.show(name, status, *pair)

    def end(self):
        """Prints the counts and ends: with the status 1 where a tree differs."""
        counts = ", ".join(f"{count} {what}" for what, count in self.counts.items())
        print(f"{counts}, {self.differing} trees that differ")
        sys.exit(1 if self.differing else 0)


def run(program, word, text):
    """The status, the lines on standard output and the text on standard error of the program, given the bytes."""
    done = subprocess.run([program, word], input=text, capture_output=True, check=False)
    return done.returncode, done.stdout.decode().splitlines(), done.stderr.decode()


def words_and_cases(doc, reading=Reading, generators=()):
    """The reading, the program and the trees that the words on the command line name: `ORACLE PROGRAM` and then files,
    or an option with a seed and a count. `generators` are further options with what they generate."""
    generators = {"random": random_trees, **dict(generators)}
    parser = argparse.ArgumentParser(description=doc.split("\n", 1)[0])
    parser.add_argument("oracle")
    parser.add_argument("program")
    for option in generators:
        parser.add_argument(f"--{option}", nargs=2, type=int, metavar=("SEED", "COUNT"))
    parser.add_argument("files", nargs="*")
    words = vars(parser.parse_args())
    given = next((option for option in generators if words[option]), None)
    cases = generators[given](*words[given]) if given else trees_in(words["files"])
    return reading(words["oracle"]), words["program"], cases
