#!/usr/bin/env python3
"""Runs the searches and the judgements on many processors and machines that docs/LAB.md and docs/JUDGE.md show, with
GNU parallel, ssh and Slurm where these are installed. `check` at the top runs it after the gate; alone it takes the
folder of the crates:

    python3 docs/check_cluster.py [CRATES]        without CRATES: crates

Run are, on each engine, the lines of the block of `sh` below `<!-- cluster: ENGINE -->` in the two documents, in a
folder with examples/last-frame.json, examples/cluster/*.sbatch and, as `log`, docs/linux/first.trace.xz:
- a search has to print what one `explore` prints of the whole; also where one of two machines is lost, and by a
  second job of Slurm, as the first lines of search.sbatch show it; and a part that stops at a limit is not summed;
- the parts of a judgement have to name the faults that one `judge` names of the whole log, and the status has to say
  that there are some;
- on the machines nothing is left behind.
It installs nothing. An engine that is not installed, or does not start, is skipped, and a line says why.
The last line is 'cluster: S skipped, N passed, M failed'; the exit status is 0 where nothing failed, else 1.
"""
import itertools
import lzma
import re
import shutil
import subprocess
import sys
import tempfile
from concurrent.futures import ThreadPoolExecutor
from pathlib import Path

from cluster_engines import NotHere, Place, machines, processors, slurm

ROOT = Path(__file__).resolve().parent.parent
SCENARIO = ROOT / "examples/last-frame.json"
SCRIPTS = ROOT / "examples/cluster"
EXPLORE = "hotplug_lab explore --setup 3 last-frame.json"
JUDGE = "hotplug_lab judge --ftrace --block-frames 32768 log"
SUBMITTED = re.compile(r"(?m)^Submitted batch job \d+\n")


class Checks:
    """What was checked, what failed, and what was skipped; threads add to these lists."""

    def __init__(self):
        self.passed, self.failures, self.skipped = [], [], []

    def same(self, where, expected, got):
        if expected == got:
            self.passed.append(where)
        else:
            self.failures.append(f"{where}: differs\n    expected {expected!r}\n    got      {got!r}")

    def report(self):
        for line in [*(f"skipped: {it}" for it in self.skipped), *self.failures]:
            print(line)
        print(f"cluster: {len(self.skipped)} skipped, {len(self.passed)} passed, {len(self.failures)} failed")


def lines_of(document, engine):
    """The lines that a document shows for an engine."""
    text = (ROOT / "docs" / document).read_text()
    return re.search(rf"(?m)^<!-- cluster: {engine} -->\n```sh\n([^`]*)^```", text)[1]


# Searches

def check_search(checks, place, where, commands):
    """Commands print what one `explore` prints of the whole."""
    whole = place.run(EXPLORE)
    status, out, said = place.run(commands)
    checks.same(where, whole, (status, SUBMITTED.sub("", out), said))


def check_stopped(checks, place, where, commands):
    """If a part stops at its limit, nothing is summed, and a script keeps no file of it."""
    folder = place.fresh()
    status, out, _said = place.run(commands.replace("--setup 3", "--setup 3 --limit 3"), folder)
    kept = [it.name for it in Path(folder).glob("part-*.json") if '"first": 3,' in it.read_text()]
    checks.same(f"{where}, with a limit", (True, "", []), (status != 0, SUBMITTED.sub("", out), kept))


def second_job():
    """The lines of search.sbatch by which a second job adds the parts up."""
    lines = (SCRIPTS / "search.sbatch").read_text().splitlines()
    at = next(at for at, line in enumerate(lines) if line.startswith("#     job="))
    shown = itertools.takewhile(lambda line: line.startswith("#     "), lines[at:])
    return "".join(line.removeprefix("#     ") + "\n" for line in shown)


# Judgements

def check_judgement(checks, place, where, commands, wanted):
    """Commands end with a status, and name the faults of the whole log, all of which are in one of nine parts."""
    status, report, _said = place.run(JUDGE)
    faults, _lawful, unlawful = verdicts_of(report)
    checks.same(f"{where}: the whole", (3, 1), (status, len(unlawful)))
    status, reports, _said = place.run(commands)
    checks.same(where, (wanted, (faults, 8, unlawful)), (status, verdicts_of(reports)))


def verdicts_of(reports):
    """The faults that reports name, in their order in the log; how many reports say that a part is lawful; and what
    the others say."""
    named = sorted(re.findall(r"(?m)^line (\d+), (event \d+: .*)$", reports), key=lambda it: int(it[0]))
    return named, len(re.findall(r"(?m)^lawful: ", reports)), re.findall(r"(?m)^unlawful: (.*)$", reports)


# Engines

def check_processors(checks, place):
    search, judgement = lines_of("LAB.md", "processors"), lines_of("JUDGE.md", "processors")
    check_search(checks, place, "LAB.md: processors", search)
    check_stopped(checks, place, "LAB.md: processors", search)
    check_judgement(checks, place, "JUDGE.md: processors", judgement, 1)


def check_machines(checks, place):
    search, judgement = lines_of("LAB.md", "machines"), lines_of("JUDGE.md", "machines")
    check_search(checks, place, "LAB.md: machines", search)
    status, out, _said = place.run(search.replace("4/two", "4/lost"))
    checks.same("LAB.md: machines, one of them lost", place.run(EXPLORE)[:2], (status, out))
    check_judgement(checks, place, "JUDGE.md: machines", judgement, 1)
    left = [str(it) for home in ("one", "two") for it in (place.folder / "machines" / home).glob("[!.]*")]
    checks.same("machines: what is left on them", [], left)


def check_slurm(checks, place):
    """All at once, since most of the time goes by until sbatch asks again whether a job is done."""
    search, judgement = lines_of("LAB.md", "slurm"), lines_of("JUDGE.md", "slurm")
    judged = judgement.replace(";", "; status=$?;").rstrip("\n") + "; exit $status"
    second = second_job() + "cat ends.txt"
    with ThreadPoolExecutor() as threads:
        begun = [threads.submit(check_search, checks, place, "LAB.md: slurm", search),
                 threads.submit(check_search, checks, place, "search.sbatch", second),
                 threads.submit(check_stopped, checks, place, "LAB.md: slurm", search),
                 threads.submit(check_stopped, checks, place, "search.sbatch", second),
                 threads.submit(check_judgement, checks, place, "JUDGE.md: slurm", judged, 3)]
    for it in begun:
        it.result()


ENGINES = [(processors, check_processors), (machines, check_machines), (slurm, check_slurm)]


def check_engine(checks, lab, engine, check):
    with tempfile.TemporaryDirectory() as folder:
        place = Place(Path(folder), lab)
        for file in (SCENARIO, *SCRIPTS.glob("*.sbatch")):
            shutil.copy(file, place.files)
        with lzma.open(ROOT / "docs/linux/first.trace.xz") as packed:
            (place.files / "log").write_bytes(packed.read())
        try:
            with engine(place):
                check(checks, place)
        except NotHere as why:
            checks.skipped.append(f"{engine.__name__}: {why}")
        except (OSError, TypeError, subprocess.SubprocessError) as error:
            checks.failures.append(f"{engine.__name__}: cannot be checked: {error!r}")


def main(words):
    crates = Path(words[0] if words else ROOT / "crates").resolve()
    checks = Checks()
    lab = crates / "hotplug_lab/out/hotplug_lab"
    if lab.exists():
        with ThreadPoolExecutor() as threads:
            begun = [threads.submit(check_engine, checks, lab, engine, check) for engine, check in ENGINES]
        for it in begun:
            it.result()
    else:
        checks.failures.append(f"no program at {lab}: README.md says how to build it")
    checks.report()
    return 1 if checks.failures else 0


if __name__ == "__main__":
    sys.exit(main(sys.argv[1:]))
