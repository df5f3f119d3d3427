#!/usr/bin/env python3
"""Tries the edits of `more-edits/`, which the gate leaves out: the prover has to refuse each.

    tools/edits.py            those of all crates
    tools/edits.py NAME..     those of these crates

An edit is a file as those of `must-fail/`. First the crates are proved with what stands below them, by `rt ci NAME..`: what an
earlier run on the machine proved is taken from there. Then each crate is tried in a copy, where `more-edits/` stands in the
place of `must-fail/`, by one check after the other, since those of a crate that are made at once prove it once each; as many
crates at once as there are processors. Prints each edit that was not refused, is bad, or was not tried, and each crate that is
not proved, then the counts. The status is 1 if there is one.
"""
import concurrent.futures
import os
import pathlib
import re
import shutil
import subprocess
import sys
import tempfile

REPO = pathlib.Path(__file__).resolve().parent.parent
# What rt says of an edit: `must-fail CRATE/NAME.edit: WHAT`.
TOLD = re.compile(r"(?:rt: )+must-fail (\S+)\.edit: (.*)")
REFUSED = "refused, as it must be"
NOT_PROVED = re.compile(r"rt: (\w+) NOT PROVED")


def crates_with_edits(names):
    """The names of the crates that have edits to try, of these or of all."""
    found = sorted(path.parent.name for path in REPO.glob("crates/*/more-edits"))
    return [name for name in found if not names or name in names]


def edits_of(name):
    """The edits to try of the crate, as they are named."""
    return [f"{name}/{path.stem}" for path in sorted((REPO / "crates" / name / "more-edits").glob("*.edit"))]


def copy_to(top, name=None):
    """Copies the crates without the edits of the gate; that crate, if one is named, has its other edits in their place."""
    for file in ("crates.txt", "HANDLES"):
        shutil.copy(REPO / file, top / file)
    shutil.copytree(REPO / ".ci", top / ".ci")
    shutil.copytree(REPO / "crates", top / "crates", ignore=shutil.ignore_patterns("out", "must-fail"))
    if name:
        (top / "crates" / name / "more-edits").rename(top / "crates" / name / "must-fail")


def told_by(words, name=None):
    """The lines of the command, run in a copy."""
    with tempfile.TemporaryDirectory(prefix="oxt-edits-") as room:
        top = pathlib.Path(room)
        copy_to(top, name)
        ran = subprocess.run(["bash", "-c", words], cwd=top, stdout=subprocess.PIPE, stderr=subprocess.STDOUT, text=True, errors="replace", check=False)
        return ran.stdout.splitlines()


def not_proved(crates):
    """Which of the crates, and of those below them, are not proved."""
    lines = told_by(f"source .ci/jobs.sh; exec rt ci {' '.join(crates)}")
    return [told[1] for told in map(NOT_PROVED.match, lines) if told]


def tried(name):
    """What came of each edit of the crate."""
    lines = told_by(f"RT_JOBS=1 exec rt ci {name}", name)
    edits = {told[1]: told[2] for told in map(TOLD.match, lines) if told}
    came = [(edit, edits.get(edit, "not tried")) for edit in edits_of(name)]
    print(f"{name}: {sum(is_refused(what) for _, what in came)} of {len(came)} refused", flush=True)
    return came


def is_refused(what):
    return what.startswith(REFUSED)


def main():
    names = sys.argv[1:]
    crates = crates_with_edits(names)
    if missing := set(names) - set(crates):
        sys.exit(f"no edits in more-edits/ of {', '.join(sorted(missing))}")
    failed = not_proved(crates)
    crates.sort(key=lambda name: -len(edits_of(name)))
    with concurrent.futures.ThreadPoolExecutor(os.cpu_count()) as pool:
        came = [edit for edits in pool.map(tried, [name for name in crates if name not in failed]) for edit in edits]
    came += [(edit, "not tried") for name in crates if name in failed for edit in edits_of(name)]
    lost = [(edit, what) for edit, what in came if not is_refused(what)]
    for edit, what in lost:
        print(f"{edit}: {what}")
    for name in failed:
        print(f"{name}: not proved")
    print(f"{len(came)} edits of {len(crates)} crates, {len(came) - len(lost)} refused, {len(lost)} not")
    sys.exit(1 if lost or failed else 0)


if __name__ == "__main__":
    main()
