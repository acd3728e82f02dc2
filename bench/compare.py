#!/usr/bin/env python3
"""Times the program and the machine's calls against hand-written Rust of the same meaning (peer/).

    bench/compare.py [PART..] [--runs N] [--calls N] [--layouts A,B] [--ours FOLDER]

PART is calls, sealed, serial, growth, offline, maps or commands; with none it does all of them. It
builds the peer (cargo, no network), and runs what `rt run` built in crates/bench_calls and
crates/hotplug (--ours takes the crates of another folder). Ours and the peer run in turn, --runs
times each, and every answer is compared. Of each the least time counts, and the peak memory of that
run.

- calls: the calls of each mix on each layout (--layouts, else small and medium), history kept; plans
  as the single events that they make. For both programs the size is fixed from which the C library
  gives a block pages of its own: else it hangs on what was given back before, and decides whether a
  growing table is copied. Instructions are those of one time more that the calls are made, so neither
  the reading of the scenario nor its generation is in them.
- sealed: the mixes that undo nothing, sealed after every 100,000 calls, without the seals' time;
  the peer keeps no records.
- serial: `hotplug serial` on scenarios of 16 MiB of each mix, on the medium layout; and the
  instructions of each on 200,000 lines of the mix.
- growth: `serial` of 20,000 and of 320,000 lines: how much more time each takes.
- offline: a plan on 24 frames of 512 words that 8 processors' drains can't help, 4,096 turns.
- maps: 6,000 lines of map and unmap on 1,024 frames of 512 words.
- commands: `serial`, `run` and `audit` on 16 MiB of each mix whose lines are all one processor's,
  on the medium layout: what `run` costs over `serial`, and `audit` over `run`. No peer here. And
  the instructions of each on 200,000 such lines.

Instructions are counted where valgrind is there, in millions. They hardly move from run to run.
"""
import argparse
import hashlib
import json
import os
import re
import resource
import shutil
import subprocess
import sys
import tempfile
from pathlib import Path

HERE = Path(__file__).resolve().parent
PEER = HERE / "peer" / "target" / "release"
MIXES = ["kernel", "pages", "offline", "undo", "mixed"]
SEED = "1"
GIB = 1 << 30
# A block of 128 KiB or more has pages of its own, whatever was given back before.
OWN_PAGES = {"GLIBC_TUNABLES": "glibc.malloc.mmap_threshold=131072"}


def limit():
    """A run that takes more than 6 GiB ends itself and not the machine."""
    resource.setrlimit(resource.RLIMIT_AS, (6 * GIB, 6 * GIB))


class Run:
    """One run of a command: seconds by the clock and of processor, MiB at most, and what it wrote."""

    def __init__(self, command, stdin=None, more=None):
        with tempfile.NamedTemporaryFile("r") as said, tempfile.TemporaryFile() as out:
            source = open(stdin, "rb") if stdin else subprocess.DEVNULL
            subprocess.run([PEER / "peak", said.name, *map(str, command)], stdin=source, stdout=out,
                           preexec_fn=limit, check=True, env={**os.environ, **(more or {})})
            if stdin:
                source.close()
            wall, busy, peak, status = map(int, said.read().split())
            out.seek(0)
            self.out = out.read()
        if status != 0:
            sys.exit(f"{command}: status {status}")
        self.wall, self.busy, self.peak = wall / 1e6, busy / 1e6, peak / 1024
        self.hash = hashlib.sha256(self.out).hexdigest()


def in_turn(runs, ours, peer, stdin=None, more=None):
    """The runs of both commands, made in turn, with more in their environment."""
    pairs = [(Run(ours, stdin, more), Run(peer, stdin, more)) for _ in range(runs)]
    return [a for a, _ in pairs], [b for _, b in pairs]


def instructions(command, stdin):
    """The millions of instructions of one run, as callgrind counts them."""
    with open(stdin, "rb") as source:
        run = subprocess.run(["valgrind", "--tool=callgrind", "--callgrind-out-file=/dev/null", *map(str, command)],
                             stdin=source, stdout=subprocess.DEVNULL, stderr=subprocess.PIPE, check=True, text=True)
    return int(re.search(r"Collected : ([0-9]+)", run.stderr)[1]) / 1e6


def shown(ours, peer):
    """A text of the millions of instructions of both, and their ratio."""
    return f"   {ours:9.1f} {peer:9.1f} M   {ours / peer:6.2f}x"


def counts(ours, peer, scenario):
    """A text of the instructions of both commands on a scenario; none without valgrind."""
    if shutil.which("valgrind") is None:
        return ""
    return shown(instructions(ours, scenario), instructions(peer, scenario))


def counts_once_more(ours, peer, scenario):
    """A text of the instructions by which two runs of what a command does are more than one; none without
    valgrind. `ours` and `peer` make the command of a number of runs."""
    if shutil.which("valgrind") is None:
        return ""
    return shown(*(instructions(made(2), scenario) - instructions(made(1), scenario) for made in (ours, peer)))


def line(name, time, unit, ours, peer, peaks, more=""):
    """One line of figures: a time and a peak of each, and their ratios; and what more there is to say."""
    print(f"{name:24} {time(ours):10.2f} {time(peer):10.2f} {unit:3}{time(ours) / time(peer):6.2f}x"
          f"   {peaks[0]:9.1f} {peaks[1]:9.1f} MiB {peaks[0] / peaks[1]:6.2f}x{more}", flush=True)


def least(runs, time):
    return min(runs, key=time)


def heading(text):
    print(f"\n{text}")
    print(f"{'':24} {'ours':>10} {'peer':>10} {'':3}{'ratio':>7}   {'ours':>9} {'peer':>9} {'':3} {'ratio':>7}")


def nanoseconds(run):
    """The least nanoseconds a call that a run of bench_calls printed."""
    words = [text.split(" ns each")[0].split()[-1] for text in run.out.decode().split("\n") if " ns each" in text]
    return min(map(float, words))


def checksum(run):
    """The checksum of the replies that were timed."""
    text = run.out.decode()
    return text.split("replies " if "replies " in text else "checksum ")[1][:16]


def calls(choice, folder, layouts, count, part=None):
    """The mixes' calls, without any text: ours reads them from a scenario that the peer's generator writes."""
    for layout in layouts:
        heading(f"calls on the layout {layout}, {count} of each mix" + (f", sealed every {part}" if part else ""))
        for mix in ["kernel", "pages"] if part else MIXES:
            events = generated(folder, mix, layout, count, "--events")
            made = len(json.loads(events.read_bytes())["calls"])

            def ours_of(runs):
                return [choice.ours / "bench_calls/out/bench_calls", runs, *([part] if part else [])]

            def peer_of(runs):
                return [PEER / "bench_calls", mix, layout, made, SEED, "--reps", runs,
                        *(["--no-history"] if part else [])]

            ours, peer = in_turn(choice.runs, ours_of(3), peer_of(3), events, OWN_PAGES)
            if {checksum(run) for run in ours} != {checksum(run) for run in peer}:
                sys.exit(f"{mix}: the replies differ")
            ours, peer = least(ours, nanoseconds), least(peer, nanoseconds)
            line(mix, nanoseconds, "ns", ours, peer, (ours.peak, peer.peak),
                 counts_once_more(ours_of, peer_of, events))


def serial(choice, name, scenario, counted=None):
    """`hotplug serial` of one scenario; answers both least times. Instructions are those of the scenario `counted`."""
    programs = [choice.ours / "hotplug/out/hotplug", "serial"], [PEER / "hotplug", "serial"]
    ours, peer = in_turn(choice.runs, *programs, scenario)
    if len({run.hash for run in ours + peer}) != 1:
        sys.exit(f"{name}: the answers differ")
    ours, peer = least(ours, lambda run: run.wall), least(peer, lambda run: run.wall)
    more = counts(*programs, counted) if counted else ""
    line(name, lambda run: run.wall * 1e3, "ms", ours, peer, (ours.peak, peer.peak), more)
    return ours.wall, peer.wall


def generated(folder, mix, layout, lines, *words):
    """A scenario of so many lines, and of at most 16 MiB."""
    path = Path(folder) / f"{mix}-{layout}-{lines}{''.join(words)}.json"
    with open(path, "wb") as out:
        subprocess.run([PEER / "gen_big", mix, layout, str(lines), SEED, *words], stdout=out, check=True)
    return path


def written(folder, name, layout, calls):
    """A scenario of our own."""
    path = Path(folder) / f"{name}.json"
    path.write_text(json.dumps({"layout": layout, "calls": calls}))
    return path


def failing_offline(folder):
    layout = {"order": 2, "pageblocks": 1, "blocks": 6, "cpus": 8, "batch": 1, "high": 1, "owners": 1, "pages": 24,
              "words": 512, "history": 1 << 24, "boot": ["normal"] * 3 + ["movable"] * 3}
    return written(folder, "offline", layout, [f"0 map db {page}" for page in range(24)] + ["0 plan 4096 off 5"])


def maps(folder):
    layout = {"order": 5, "pageblocks": 4, "blocks": 8, "cpus": 1, "batch": 8, "high": 16, "owners": 1, "pages": 1024,
              "words": 512, "history": 1 << 24, "boot": ["movable"] * 8}
    verbs = ["map", "unmap"]
    return written(folder, "maps", layout, [f"0 {verbs[at % 2]} db {at // 2 % 1024}" for at in range(6000)])


def of_one_processor(folder, mix, lines):
    """A generated scenario whose lines are all processor 0's."""
    path = generated(folder, mix, "medium", lines)
    path.write_bytes(re.sub(rb'^"[0-9]+ ', b'"0 ', path.read_bytes(), flags=re.MULTILINE))
    return path


def ratios(figures, unit):
    """A text of the figures of the three commands, and of what the later two cost over the one before."""
    serial, run, audit = figures
    return (f"{serial:10.1f} {run:10.1f} {audit:10.1f} {unit:2}"
            f"   run {run / serial:.2f}x serial, audit {audit / run:.2f}x run")


def commands(choice, folder):
    """The three commands on the same lines."""
    print("\nserial, run and audit of one processor's lines on the layout medium: 16 MiB, and instructions of 200,000")
    program = choice.ours / "hotplug/out/hotplug"
    words = ("serial", "run", "audit")
    for mix in MIXES:
        scenario = of_one_processor(folder, mix, 10_000_000)
        rounds = [[Run([program, word], scenario) for word in words] for _ in range(choice.runs)]
        least_of = [min(row[at].wall for row in rounds) * 1e3 for at in range(3)]
        print(f"{mix:24} {ratios(least_of, 'ms')}", flush=True)
        if shutil.which("valgrind"):
            counted = of_one_processor(folder, mix, 200_000)
            print(f"{'':24} {ratios([instructions([program, word], counted) for word in words], 'M')}", flush=True)


def main():
    parser = argparse.ArgumentParser(description=__doc__, formatter_class=argparse.RawDescriptionHelpFormatter)
    parser.add_argument("parts", nargs="*", metavar="PART")
    parser.add_argument("--runs", type=int, default=5)
    parser.add_argument("--calls", type=int, default=500_000)
    parser.add_argument("--layouts", default="small,medium")
    parser.add_argument("--ours", type=Path, default=HERE.parent / "crates")
    choice = parser.parse_args()
    subprocess.run(["cargo", "build", "--release", "--offline", "--quiet"], cwd=HERE / "peer", check=True)
    parts = choice.parts or ["calls", "sealed", "serial", "growth", "offline", "maps", "commands"]
    layouts = choice.layouts.split(",")
    with tempfile.TemporaryDirectory() as folder:
        if "calls" in parts:
            calls(choice, folder, layouts, choice.calls)
        if "sealed" in parts:
            calls(choice, folder, layouts, choice.calls, 100_000)
        if "serial" in parts:
            heading("serial of 16 MiB on the layout medium, and instructions of 200,000 lines")
            for mix in MIXES:
                serial(choice, mix, generated(folder, mix, "medium", 10_000_000),
                       generated(folder, mix, "medium", 200_000))
        if "growth" in parts:
            heading("serial of mixed lines on the layout medium")
            few = serial(choice, "20,000 lines", generated(folder, "mixed", "medium", 20_000))
            many = serial(choice, "320,000 lines", generated(folder, "mixed", "medium", 320_000))
            print(f"16 times the lines: ours {many[0] / few[0]:.1f} times the time, the peer {many[1] / few[1]:.1f}")
        if "offline" in parts:
            heading("serial of a plan that fails")
            serial(choice, "offline", failing_offline(folder))
        if "maps" in parts:
            heading("serial of map and unmap")
            serial(choice, "maps", maps(folder))
        if "commands" in parts:
            commands(choice, folder)


if __name__ == "__main__":
    main()
