#!/usr/bin/env python3
"""Says which modules of a crate's proof take longest.

  proof_times.py [--root DIR] [--least SECONDS] NAME..

Each crate is checked once from nothing, with one job, over the libraries below it, as `rt ci` or `rt all check` left
them in out/rlib/. The prover writes each module as soon as it is checked, so the time between two files is what the
second one took. A module `FUNCTION.Proof` is the search for its goals: answer the slow ones. `FUNCTION.Lts` is the
borrow checker's part: it grows with exits and with what the function owns at each. The rest is specs and lemmas. Times
are by the clock: look at them on a quiet machine. The status is 1 where a crate is not proved.
"""
import argparse
import os
import subprocess
import sys
import tempfile

from wrong_bodies import rtlib, stale_library


def files_by_age(top):
    """Returns the files below a folder, each with its time, oldest first."""
    paths = [f"{at}/{name}" for at, _, names in os.walk(top) for name in names]
    return sorted((os.stat(it).st_mtime, os.path.relpath(it, top).partition("/")[2]) for it in paths)


def times_of(crate):
    """Returns whether a crate was proved, and its modules with the seconds that each took, the slowest first."""
    with tempfile.TemporaryDirectory(prefix="proof-times-") as room:
        words = crate.words(["--jobs", "1"], keeps=False)
        words = [*rtlib.guarded(), rtlib.RATTLE, "check", *words, "--incremental", room]
        how = {"stdin": subprocess.DEVNULL, "stdout": subprocess.DEVNULL, "stderr": subprocess.DEVNULL}
        ran = subprocess.run(words, cwd=crate.folder, **how)
        files = files_by_age(room)
    found = [(later - earlier, name) for (earlier, _), (later, name) in zip(files, files[1:])]
    return ran.returncode == 0, sorted(found, reverse=True)


def main():
    parser = argparse.ArgumentParser(description=__doc__, formatter_class=argparse.RawDescriptionHelpFormatter)
    parser.add_argument("--root", default=".", help="the top of the repository")
    parser.add_argument("--least", type=float, default=1.0, help="modules that took fewer seconds are left out")
    parser.add_argument("names", nargs="+", help="the crates")
    given = parser.parse_args()
    os.chdir(given.root)
    crates = {it.name: it for it in rtlib.crates_below(os.getcwd())}
    all_proved = True
    for name in given.names:
        why = stale_library(crates[name]) if name in crates else "there is no such crate"
        if why:
            sys.exit(f"proof_times: {name}: {why}")
        is_proved, found = times_of(crates[name])
        all_proved = all_proved and is_proved
        slow = [it for it in found if it[0] >= given.least]
        total = sum(seconds for seconds, _ in found)
        print(f"{name}: {'proved' if is_proved else 'NOT PROVED'}, {total:.0f} s, {len(slow)} slow modules:")
        for seconds, module in slow:
            print(f"{seconds:7.1f}  {module.removesuffix('.oantt')}")
    return 0 if all_proved else 1


if __name__ == "__main__":
    sys.exit(main())
