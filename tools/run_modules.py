#!/usr/bin/env python3
"""Runs the TypeScript modules of a folder as the program lowers them and as other compilers do, and compares what they do.

    tools/run_modules.py [--node-path PATH] [--assigned | --decorated | --typed] OXT FOLDER

OXT is the built program `oxt`, and FOLDER holds the modules, as NAME.ts. They are lowered by way of `adapters/node`. PATH, or
else the variable NODE_PATH, names the folder of node's modules that has `typescript` and `@babel/core`. Node is 20.6 or later.

`oxt`, tsc and Babel each get a folder, where each module is NAME.mjs beside the other files of FOLDER; a module that one
of them refuses has another's text there, for those that import it. A module imports another as "./NAME.mjs", "./NAME.js"
or "./NAME". Compared are what it prints, its status, and the name and type of each of its exports. A compiler that
finds the source faulty, as an old tsc finds new syntax, is passed over. With `--assigned` public fields are set by assignment
and empty ones go, in `oxt` by its flags and in tsc by `useDefineForClassFields: false`; with `--decorated` decorators have their older
meaning, in `oxt` by `--legacy`, with a `babelHelpers` of this tool, and in tsc by `experimentalDecorators`. Babel is then left out. With
`--typed` decorators are told types too, in `oxt` by `--emit-decorator-metadata`, and in tsc by `emitDecoratorMetadata`.

Prints a line for each module: `same`, `differs` with the compiler and the first line, `refused` with the program's
line, or `unread` where no tree or no other text can be made of the source. Then the counts. The status is 1 if a module
differs, and else 0.
"""
import argparse
import collections
import itertools
import json
import os
import shutil
import subprocess
import tempfile
from pathlib import Path

ADAPTER = Path(__file__).resolve().parent.parent / "adapters/node/bin/oxt-node.js"
DEFAULT_NODE_PATH = "/usr/share/nodejs"
MAX_SECONDS = 60
TSC = """
const ts = require("typescript");
const compile = (source, fileName) => {
  const compilerOptions = { target: "esnext", module: "esnext", useDefineForClassFields: true, isolatedModules: true };
  const done = ts.transpileModule(source, { fileName, reportDiagnostics: true, compilerOptions });
  if (done.diagnostics.length) throw new Error(ts.flattenDiagnosticMessageText(done.diagnostics[0].messageText, " "));
  return done.outputText;
};"""
BABEL = """
const plugins = [[require("@babel/plugin-transform-typescript"), { allowDeclareFields: true }]];
const compile = (source, filename) =>
  require("@babel/core").transformSync(source, { filename, plugins, babelrc: false, configFile: false }).code;"""
COMPILERS = {"tsc": TSC, "babel": BABEL}
ASSIGNED = {"tsc": TSC.replace("useDefineForClassFields: true", "useDefineForClassFields: false")}
ASSIGNED_FLAGS = ["--set-public-class-fields", "--remove-empty-fields"]
DECORATED = {"tsc": TSC.replace("isolatedModules: true", "isolatedModules: true, experimentalDecorators: true")}
DECORATED_FLAGS = ["--legacy"]
TYPED = {"tsc": DECORATED["tsc"].replace("experimentalDecorators: true", "experimentalDecorators: true, emitDecoratorMetadata: true, strict: true")}
TYPED_FLAGS = [*DECORATED_FLAGS, "--emit-decorator-metadata"]
# Compiles each pair of files that it is given; what fails is not written.
COMPILE_ALL = """
const fs = require("fs");
for (const [from, to] of JSON.parse(fs.readFileSync(0))) {
  try { fs.writeFileSync(to, compile(fs.readFileSync(from, "utf8"), from)); }
  catch (error) { console.error(`${from}: ${error.message}`); }
}"""
# Where node finds no such file, the name is tried as that of a module of the folder.
RESOLVE = """export async function resolve(name, context, next) {
  try { return await next(name, context); } catch { return next(name.replace(/\\.js$/, "") + ".mjs", context); }
}"""
REGISTER = 'import { register } from "node:module"; register("./resolve.mjs", import.meta.url);'
# The functions that calls of decorators name.
HELPERS = """
const decorate = (decorators, target, key, wanted) => {
  const isMember = key !== undefined;
  let made = isMember ? (wanted === null ? Object.getOwnPropertyDescriptor(target, key) : wanted) : target;
  for (const decorator of decorators.reverse()) made = (isMember ? decorator(target, key, made) : decorator(made)) ?? made;
  if (isMember && made !== undefined) Object.defineProperty(target, key, made);
  return made;
};
const decorateParam = (index, decorator) => (target, key) => { decorator(target, key, index); };
const decorateMetadata = (key, written) => Reflect.metadata?.(key, written) ?? (() => {});
globalThis.babelHelpers = { decorate, decorateParam, decorateMetadata };"""
RUN = """const it = await import(process.argv[1]);
for (const name of Object.keys(it)) console.log(`export ${name}: ${typeof it[name]}`);"""


def node(words, text=b"", folder=None):
    """What node does with the words, given the bytes."""
    return subprocess.run(["node", *words], input=text, capture_output=True, check=False, cwd=folder, timeout=MAX_SECONDS)


def last_line(text):
    """The last line that is not blank, or nothing."""
    return next((line for line in reversed(text.decode(errors="replace").splitlines()) if line.strip()), "")


def lower(program, flags, source, target):
    """Writes the text of the module as the program lowers it under the flags, or tells why there is none."""
    done = node([ADAPTER, "--oxt", program, *flags, source])
    if done.returncode != 0:
        line = last_line(done.stderr)
        return f"unread {line}" if "syntax error" in line else f"refused {line or done.returncode}"
    target.write_bytes(done.stdout)
    return None


def compile_all(compilers, folder, names, room):
    """Makes the folders of the sides, each with the files that are no modules, and the texts of the compilers; gives
    the compilers that have read each module."""
    for side in ("oxt", *compilers):
        shutil.copytree(folder, room / side, symlinks=True, ignore=shutil.ignore_patterns("*.ts"))
        (room / side / "resolve.mjs").write_text(RESOLVE)
        (room / side / "register.mjs").write_text(REGISTER + HELPERS)
    for side, code in compilers.items():
        pairs = [(str(folder / f"{name}.ts"), str(room / side / f"{name}.mjs")) for name in names]
        node(["-e", code + COMPILE_ALL], json.dumps(pairs).encode())
    return {name: [side for side in compilers if (room / side / f"{name}.mjs").exists()] for name in names}


def lend(room, name, sides):
    """Puts a compiler's text of the module where there is none, for those modules that import it."""
    for side in ("oxt", *COMPILERS):
        if sides and (room / side).exists() and not (room / side / f"{name}.mjs").exists():
            shutil.copy(room / sides[0] / f"{name}.mjs", room / side)


def behaviour(room, side, name):
    """The status of the module and the lines that it prints, with its exports; no status where it does not end."""
    words = ["--no-warnings", "--import", "./register.mjs", "--input-type=module", "-e", RUN, f"./{name}.mjs"]
    try:
        done = node(words, folder=room / side)
    except subprocess.TimeoutExpired:
        return None, []
    return done.returncode, done.stdout.decode(errors="replace").splitlines()


def compare(room, name, sides):
    """How the module as it was lowered does beside those of the compilers."""
    if not sides:
        return "unread: no other compiler takes it"
    status, lines = behaviour(room, "oxt", name)
    for side in sides:
        other_status, other_lines = behaviour(room, side, name)
        if (status, lines) != (other_status, other_lines):
            pairs = itertools.zip_longest(lines, other_lines, fillvalue="nothing")
            pair = next((pair for pair in pairs if pair[0] != pair[1]), (f"status {status}", f"status {other_status}"))
            return f"differs from {side}: {pair[0]!r}, there {pair[1]!r}"
    return f"same as {' and '.join(sides)}, {len(lines)} lines" + (f", status {status}" if status != 0 else "")


def compared(words):
    """The compilers and the flags of the program that the words ask for."""
    if words.assigned:
        return ASSIGNED, ASSIGNED_FLAGS
    if words.typed:
        return TYPED, TYPED_FLAGS
    return (DECORATED, DECORATED_FLAGS) if words.decorated else (COMPILERS, [])


def main():
    parser = argparse.ArgumentParser(description=__doc__.split("\n", 1)[0])
    parser.add_argument("--node-path", default=os.environ.get("NODE_PATH", DEFAULT_NODE_PATH))
    ways = parser.add_mutually_exclusive_group()
    ways.add_argument("--assigned", action="store_true", help="public fields are set by assignment, and empty ones go")
    ways.add_argument("--decorated", action="store_true", help="decorators have their older meaning")
    ways.add_argument("--typed", action="store_true", help="the same, and they are told types")
    for word in ("program", "folder"):
        parser.add_argument(word, type=lambda path: Path(path).resolve())
    words = parser.parse_args()
    os.environ["NODE_PATH"] = words.node_path
    names = sorted(path.stem for path in words.folder.glob("*.ts") if not path.name.endswith(".d.ts"))
    counts = collections.Counter()
    with tempfile.TemporaryDirectory() as temporary:
        room = Path(temporary)
        compilers, flags = compared(words)
        sides = compile_all(compilers, words.folder, names, room)
        answers = {}
        for name in names:
            answers[name] = lower(words.program, flags, words.folder / f"{name}.ts", room / "oxt" / f"{name}.mjs")
            lend(room, name, sides[name])
        for name in names:
            answer = answers[name] or compare(room, name, sides[name])
            counts[answer.replace(":", " ").split()[0]] += 1
            print(f"{name}: {answer}")
    print(", ".join(f"{counts[word]} {word}" for word in ("same", "differs", "refused", "unread")))
    return 1 if counts["differs"] else 0


if __name__ == "__main__":
    raise SystemExit(main())
