#!/usr/bin/env python3
"""Runs the gate from nothing in a fresh clone, and writes what it took into docs/GATE.md.

    tools/gate_times.py           runs `rt ci` as .ci/run does over what is committed, then times the functions of the dearest crates
    tools/gate_times.py FOLDER    times the functions alone, over the libraries that an earlier run left in that clone, and prints them

Nothing else should run on the machine. Seconds are those of one processor, read off the prover's processes twice a second.
"""
import collections
import concurrent.futures
import contextlib
import os
import pathlib
import re
import shutil
import subprocess
import sys
import tempfile
import threading
import time

REPO = pathlib.Path(__file__).resolve().parent.parent
OUT = REPO / "docs" / "GATE.md"
KIT = pathlib.Path(subprocess.run(["rt", "doc"], capture_output=True, text=True, check=True).stdout.strip()).parent
# Where rt keeps what it proved and tried.
KEPT = KIT.parent / "rattle-kept"
TICKS = os.sysconf("SC_CLK_TCK")
EVERY = 0.5
# Crates whose proofs take less have no function that is listed.
CHEAP = 20
LISTED = 10
LAST_LINE = re.compile(r"\d+ passed, \d+ failed")
CYCLE = re.compile(r"#\[cycle\((\w+)\)\]\n(?:\s*#.*\n)*\s*(?:pub(?:\([a-z]+\))? )?fn ")
# What a module of a function is for, behind the function's path.
MODULE = re.compile(r"Rattle-\w+-proofs\.(\S+?)\.(?:Code|Lts|Tie|Proof|Layout|Named|Reads|Goals|Given|Kinds|Statement|Met)\b")
PROOF, EDITS, PROGRAMS = "proof", "edits", "programs"


def fields_of(process):
    """What the system tells of a process, behind its name."""
    return (process / "stat").read_text().rpartition(")")[2].split()


def seconds_in(fields):
    """The processor time among these."""
    return (int(fields[11]) + int(fields[12])) / TICKS


def taken_by(number):
    """The processor time that the process of that number has taken so far."""
    return seconds_in(fields_of(pathlib.Path("/proc") / str(number)))


class Spent:
    """The processor time of the processes of a run, by crate and by what they do."""

    def __init__(self):
        self.by_process = {}

    def look(self):
        """Notes what each process has taken so far."""
        for entry in os.scandir("/proc"):
            if entry.name.isdigit():
                try:
                    self.look_at(pathlib.Path(entry.path))
                except (OSError, IndexError, ValueError):
                    continue

    def look_at(self, process):
        words = (process / "cmdline").read_bytes().decode(errors="replace").split("\0")
        fields = fields_of(process)
        task = self.task(words, os.readlink(process / "cwd"), int(fields[3]))
        if task is not None:
            self.by_process[process.name, fields[19]] = task, seconds_in(fields)

    def task(self, words, folder, session):
        """The crate and what is done, if the process belongs to the run; programs are run in sessions of their own, and edits in folders of their own."""
        if re.search(r"/rt-run-\d+-", words[0]):
            return words[0].rsplit("/", 1)[1].partition(".")[0], PROGRAMS
        if session != os.getsid(0) or not words[0].endswith("/rattle") or "--crate-name" not in words:
            return None
        crate = words[words.index("--crate-name") + 1]
        if any("/rt-edit" in place for place in [folder, *words]):
            return crate, EDITS
        return crate, PROGRAMS if "--backend" in words else PROOF

    def by_crate(self):
        seconds = collections.defaultdict(collections.Counter)
        for (crate, what), taken in self.by_process.values():
            seconds[crate][what] += taken
        return seconds


@contextlib.contextmanager
def nothing_kept():
    """Sets aside what earlier runs kept beside the kit, and puts it back beside what is kept meanwhile."""
    aside = KEPT.with_suffix(".aside")
    if KEPT.exists():
        KEPT.rename(aside)
    try:
        yield
    finally:
        if aside.exists():
            KEPT.mkdir(mode=0o700, exist_ok=True)
            for old in aside.iterdir():
                if not (KEPT / old.name).exists():
                    old.rename(KEPT / old.name)
            shutil.rmtree(aside)


def run_gate(clone):
    """Runs the gate in the clone: its last line, the seconds that it took, and what was spent on what."""
    begin, spent = time.monotonic(), Spent()
    with nothing_kept(), open(clone / "gate.log", "w", encoding="utf-8") as log:
        gate = subprocess.Popen(["bash", "-c", "source .ci/jobs.sh; exec rt ci"], cwd=clone, stdout=log, stderr=subprocess.STDOUT)
        while gate.poll() is None:
            spent.look()
            time.sleep(EVERY)
    elapsed = time.monotonic() - begin
    text = (clone / "gate.log").read_text(encoding="utf-8", errors="replace")
    last = text.rstrip().rpartition("\n")[2]
    if not LAST_LINE.match(last):
        sys.exit(f"the gate did not come to its end: {last}")
    return last, elapsed, spent.by_crate()


def crates_in(clone):
    """The crates with the libraries that each stands on."""
    crates = {}
    for line in (clone / "crates.txt").read_text().splitlines():
        name, _, libraries = line.partition("#")[0].partition(":")
        if name.strip():
            crates[name.strip()] = libraries.split()
    return crates


def below(crates, name, found):
    for library in crates[name]:
        if library in crates and library not in found:
            below(crates, library, found)
            found.append(library)
    return found


def words_for(clone, crates, name, kept):
    """The words that check one crate anew by one process, over the libraries that stand in the clone."""
    rlib = {own: clone / "crates" / own / "out" / "rlib" / f"{own}.rlib" for own in crates}
    root = "src/main.rt" if (clone / "crates" / name / "src" / "main.rt").exists() else "src/lib.rt"
    words = [KIT / "bin" / "rattle", "check", "--crate-name", name, root, "-L", f"dependency={KIT}/rlibs"]
    for library in ["std", *crates[name]]:
        words += ["--extern", f"{library}={rlib.get(library, f'{KIT}/rlibs/{library}.rlib')}"]
    for library in below(crates, name, []):
        words += ["-L", f"dependency={rlib[library].parent}"]
    words += ["--antt-project", f"{KIT}/rattle/logic/antt-project.json", "--logic-built", f"{KIT}/logic_built"]
    return [*words, "--links", f"{name}=", "--jobs", "1", "--incremental", kept]


def modules_in(kept):
    """The modules that a check kept, with the seconds from where the one before was kept. A check by one process, and the copies that it makes of itself,
    check one module after the other."""
    files = sorted((file.stat().st_mtime_ns, file.name) for file in kept.rglob("*.oantt"))
    return [((at - before) / 10**9, name) for (before, _), (at, name) in zip(files, files[1:])]


def function_times(clone, crates, name):
    """The functions of a crate with the seconds that their modules took: code, way of borrows, and proof."""
    times = collections.Counter()
    with tempfile.TemporaryDirectory(prefix="oxt-times-") as kept:
        subprocess.run(words_for(clone, crates, name, kept), cwd=clone / "crates" / name, stdout=subprocess.DEVNULL, stderr=subprocess.DEVNULL, check=False)
        for seconds, module in modules_in(pathlib.Path(kept)):
            if told := MODULE.match(module):
                times["::".join([name, *told[1].split(".")])] += seconds
    return [(seconds, function) for function, seconds in times.items()]


def shared_by(clone, function):
    """How many functions share the proof of this name: those of the cycle, if it names one."""
    crate, _, path = function.partition("::")
    cycle = path.rpartition("::")[2]
    if not cycle.startswith("+"):
        return 1
    texts = [file.read_text(encoding="utf-8") for file in (clone / "crates" / crate / "src").rglob("*.rt")]
    return max(1, sum(found == cycle[1:] for text in texts for found in CYCLE.findall(text)))


def slow_functions(clone, names):
    """The proofs that take so long, with the function that each is named for and the number of those that share it."""
    crates = crates_in(clone)
    with concurrent.futures.ThreadPoolExecutor(os.cpu_count()) as pool:
        found = pool.map(lambda name: function_times(clone, crates, name), names)
        slow = sorted(((s, function) for times in found for s, function in times if s >= LISTED), reverse=True)
    return [(s, function, shared_by(clone, function)) for s, function in slow]


def library_sizes(clone):
    """What each crate wrote of itself and of what it names for those above, in MB."""
    libraries = {path.parent.parent.stem: path for path in clone.glob("crates/*/out/rlib/*.rlib/toolchain/checked.a")}
    return collections.Counter({crate: path.stat().st_size // 10**6 for crate, path in libraries.items()})


def page(last, elapsed, seconds, sizes, slow):
    """The text of docs/GATE.md."""
    sums = collections.Counter()
    for counted in seconds.values():
        sums.update(counted)
    rows = sorted(seconds.items(), key=lambda item: -sum(item[1].values()))
    cells = lambda counted: " | ".join(f"{counted[what]:.0f}" for what in (PROOF, EDITS, PROGRAMS))
    cores, memory = os.cpu_count(), os.sysconf("SC_PAGE_SIZE") * os.sysconf("SC_PHYS_PAGES") // 10**9
    return "\n".join([
        "# What the gate costs",
        "",
        "Written by `tools/gate_times.py`, which runs `rt ci` from nothing in a fresh clone, with as many checks at once as `.ci/run` makes.",
        "",
        f"{elapsed / 60:.0f} minutes on {cores} idle cores and {memory} GB: {last}. Of one processor it would take "
        f"{sum(sums.values()) / 60:.0f} minutes.",
        "",
        "Seconds of one processor, by crate: its proof, its must-fail edits, and building and running a program; and the MB of its library.",
        "",
        "| Crate | Proof | Edits | Programs | Library |",
        "|---|---|---|---|---|",
        *[f"| `{crate}` | {cells(counted)} | {sizes[crate]} |" for crate, counted in rows],
        f"| all | {cells(sums)} | {sum(sizes.values())} |",
        "",
        f"Proofs that take {LISTED} seconds or more, with as many checks at once as there are cores. Functions that call one another have one proof, "
        "which is named for their cycle:",
        "",
        "| Function | Functions in the proof | Seconds | For each |",
        "|---|---|---|---|",
        *[f"| `{function}` | {number} | {s:.0f} | {s / number:.0f} |" for s, function, number in slow],
        "",
    ])


def main():
    if sys.argv[1:]:
        clone = pathlib.Path(sys.argv[1]).resolve()
        for s, function, number in slow_functions(clone, list(crates_in(clone))):
            print(f"{s:6.1f}  {s / number:5.1f}  {number:4}  {function}")
        return
    with tempfile.TemporaryDirectory(prefix="oxt-gate-") as room:
        clone = pathlib.Path(room) / "oxt"
        subprocess.run(["git", "clone", "-q", REPO, clone], check=True)
        last, elapsed, seconds = run_gate(clone)
        sizes = library_sizes(clone)
        OUT.write_text(page(last, elapsed, seconds, sizes, []), encoding="utf-8")
        print(f"{last}, {elapsed:.0f} s; {OUT.relative_to(REPO)} is written, and its functions are timed", flush=True)
        dear = [name for name, counted in seconds.items() if counted[PROOF] > CHEAP]
        OUT.write_text(page(last, elapsed, seconds, sizes, slow_functions(clone, dear)), encoding="utf-8")


if __name__ == "__main__":
    main()
