#!/usr/bin/env python3
"""Measures what parts of a search and of a judgement gain, on the programs that were built:

    python3 bench/parts.py [CRATES]        without CRATES: crates

Each search is made whole, and in 2, 4, 8 and 16 parts, one after another, whose sum has to be what the whole prints:
- an offline of bench/spin/offline.json beside two scripts of four maps and unmaps, whose orders meet again;
- four processors, each of which maps three pages, whose orders never meet.
A judgement of docs/linux/first.trace.xz is made whole, and in nine parts of four memory blocks. A line for each says
how many seconds of processor the parts took together and the longest of them, how much that is of the whole, and the
most memory of one. The last line is 'N passed, M failed'; the exit status is 0 where nothing failed, else 1.
"""
import json
import lzma
import os
import subprocess
import sys
import tempfile
from pathlib import Path

ROOT = Path(__file__).resolve().parent.parent
PARTS = (2, 4, 8, 16)
MOST_ORDERS = str(2**63)
JUDGE = ("judge", "--ftrace", "--block-frames", "32768")
LAYOUT = {"order": 2, "pageblocks": 2, "blocks": 6, "cpus": 4, "batch": 1, "high": 1, "owners": 4,
          "pages": 3, "words": 1, "history": 100, "boot": ["normal"] * 6}


class Run:
    """A run of the program: what it printed, its seconds of processor, and its memory in MB."""

    def __init__(self, lab, *words):
        process = subprocess.Popen([lab, *words], stdout=subprocess.PIPE)
        self.printed = process.stdout.read()
        _, status, used = os.wait4(process.pid, 0)
        process.returncode = os.waitstatus_to_exitcode(status)
        self.seconds, self.memory = used.ru_utime + used.ru_stime, used.ru_maxrss / 1024


def offline():
    """An offline and two scripts of four calls."""
    scenario = json.loads((ROOT / "bench/spin/offline.json").read_text())
    scripts = [[line for line in scenario["calls"] if line[0] == cpu] for cpu in "012"]
    return {**scenario, "calls": scripts[0] + scripts[1][:4] + scripts[2][:4]}


def maps():
    """Four scripts of three maps, each of an owner of its own."""
    return {"layout": LAYOUT, "calls": [f"{cpu} map p{cpu} {page}" for cpu in range(4) for page in range(3)]}


def print_row(name, whole, parts):
    together, longest = sum(it.seconds for it in parts), max(it.seconds for it in parts)
    print(f"{name}, {len(parts)} parts: together {together:.2f} s, {together / whole.seconds:.2f} of the whole; the "
          f"longest {longest:.2f} s, {longest / whole.seconds:.2f} of it, {max(it.memory for it in parts):.0f} MB",
          flush=True)


def measure_search(lab, folder, name, scenario):
    """Whether the sums are what the whole prints, for each number of parts."""
    file = folder / f"{name}.json"
    file.write_text(json.dumps(scenario))
    words = ("explore", "--limit", MOST_ORDERS, file)
    whole = Run(lab, *words)
    print(f"{name}: {whole.printed.splitlines()[0].decode()}, {whole.seconds:.2f} s, {whole.memory:.0f} MB", flush=True)
    return [measure_parts(lab, folder, name, words, whole, count) for count in PARTS]


def measure_parts(lab, folder, name, words, whole, count):
    """Whether the sum of this many parts is what the whole prints."""
    parts = [Run(lab, *words, "--part", f"{part}/{count}") for part in range(1, count + 1)]
    files = [folder / f"part-{part}.json" for part in range(count)]
    for file, part in zip(files, parts):
        file.write_bytes(part.printed)
    print_row(name, whole, parts)
    return Run(lab, "sum", *files).printed == whole.printed


def measure_judgement(lab, folder):
    """Whether the parts have the faults of the whole."""
    log = folder / "log"
    with lzma.open(ROOT / "docs/linux/first.trace.xz") as packed:
        log.write_bytes(packed.read())
    whole = Run(lab, *JUDGE, log)
    print(f"judge: {whole.seconds:.2f} s, {whole.memory:.0f} MB", flush=True)
    parts = [Run(lab, *JUDGE, "--blocks", f"{first}..{first + 4}", log) for first in range(0, 36, 4)]
    print_row("judge", whole, parts)
    return faults_of([whole]) == faults_of(parts)


def faults_of(runs):
    return [line for run in runs for line in run.printed.splitlines() if b", event " in line]


def main(words):
    lab = Path(words[0] if words else ROOT / "crates").resolve() / "hotplug_lab/out/hotplug_lab"
    with tempfile.TemporaryDirectory() as name:
        folder = Path(name)
        held = [it for name, scenario in (("offline", offline()), ("maps", maps()))
                for it in measure_search(lab, folder, name, scenario)]
        held.append(measure_judgement(lab, folder))
    print(f"{sum(held)} passed, {len(held) - sum(held)} failed")
    return 0 if all(held) else 1


if __name__ == "__main__":
    sys.exit(main(sys.argv[1:]))
