#!/usr/bin/env python3
"""Compares what `hotplug_lab` prints with `hotplug`. `check` at the top runs it after the gate;
alone it takes the folder of the crates:

    python3 docs/check_lab.py [CRATES]        without CRATES: crates

What is compared, of `hotplug_lab explore`:
- the ends and counts of an offline against map, write and read of another processor
  (examples/last-frame.json) with those of `hotplug serial` on each order of the calls, and past a
  limit on the first orders;
- on each file of examples/, with a setup that leaves at most six lines for scripts: the first
  interleaving of each end, pasted after the setup's lines, has that end in `hotplug serial`;
  `--scenario` writes it as a scenario with the same layout and lines, which `hotplug serial` reads;
  `--json` writes the same ends; and the first line that cannot stand in a script is refused by its place;
- on a scenario with hostile texts: `--scenario` writes each of its lines as it is;
- 50 runs of `hotplug run` on each of three small scenarios: each outcome is one of the ends;
- with 128 KiB of stack: a script of a million calls of one processor has one interleaving, with the
  answers of `hotplug serial`; and a setup of as many lines is written as it is by `--scenario`.
Of `hotplug_lab trace`, on each file of examples/ and on a scenario with hostile texts: it has all
lines in their order, and what they answer is what `hotplug serial` prints before the state; in
lines of 100 columns each memory block begins after the columns of what was asked and answered, and
no line is longer, unless it has a single word of the memory; from a line on it is the whole trace
from there, below the memory before it. Of `--orders`: it is the trace, but for the brackets of free blocks; these have
2^order frames; and after each line there are as many of each order as `cat buddyinfo` says. Of
`hotplug_lab trace --svg`: it is well-formed XML, its rows have the texts of the trace in their
order, as many cells of each meaning in the legend as the trace has characters of it, as many
outlines of free blocks of each width as the trace has brackets, and outlines of the kernel's blocks
around all of its frames; each number of a frame above its cell; a line for each page that moved,
from its cell in a row above to its cell, also where blocks are folded; layouts wider than a screen
are folded, with all cells within the picture. Of `hotplug_lab trace --json`, also on random
scenarios: what a reader knows after each line is what `hotplug serial` prints for the lines up to
there; the deltas of each step lead to its state; what an undo or a cancel drops are the last steps,
and leads back to the state before them. Of `hotplug_lab check`: it finds no fault in any file
of examples/, and one where a text that is no line comes last; with a setup it says how many
interleavings there are. Of lines with names for results, drawn at random: all that is shown of them
is what is shown of the lines with the numbers that `hotplug serial` gives, which reads no names.
None of them writes a control character.
The last line is 'lab: N passed, M failed'; the exit status is 0 where nothing failed, else 1.
"""
import json
import random
import subprocess
import sys
from pathlib import Path
from xml.etree import ElementTree

from lab_json import check_json
from lab_names import named_calls, plain_lines
from lab_traces import check_drawn, check_letters, check_long, check_wide, hostile

ROOT = Path(__file__).resolve().parent.parent
SECONDS = 60
RUNS = 50
TAIL = 6
LINES = 1_000_000
SHALLOW = ["bash", "-c", 'ulimit -s 128; exec "$@"', "bash"]


class Checks:
    """What was checked, and what failed."""

    def __init__(self):
        self.passed, self.failures = 0, []

    def holds(self, where, is_right, message):
        if is_right:
            self.passed += 1
        else:
            self.failures.append(f"{where}: {message}")


class Programs:
    """The two programs."""

    def __init__(self, crates):
        self.hotplug = crates / "hotplug/out/hotplug"
        self.lab = crates / "hotplug_lab/out/hotplug_lab"

    def call(self, words, scenario):
        return self.call_on(words, json.dumps(scenario))

    def call_on(self, words, text):
        ran = subprocess.run(words, input=text.encode(), stdout=subprocess.PIPE,
                             stderr=subprocess.STDOUT, timeout=SECONDS)
        return ran.stdout.decode()

    def serial(self, layout, calls):
        return self.call([self.hotplug, "serial"], {"layout": layout, "calls": calls})

    def serial_of(self, text):
        return self.call_on([self.hotplug, "serial"], text)

    def run(self, scenario):
        return self.call([self.hotplug, "run"], scenario)

    def explore(self, scenario, setup, *options, limit=100000, before=()):
        words = [self.lab, "explore", "--setup", str(setup), "--limit", str(limit), *options]
        return self.call([*before, *words], scenario)

    def check(self, scenario, *options):
        return self.call([self.lab, "check", *options], scenario)

    def trace(self, scenario, *options):
        return self.call([self.lab, "trace", *options], scenario)


# What is printed

def told(reply):
    """A reply without the number of the operation that it opened."""
    return "opened 0" if reply.startswith("opened ") else reply


def end_of(part):
    """The count, the processors' answers with the blocks, and the first calls of one end."""
    lines = part.split("\n")
    at = lines.index("first:")
    answers, blocks = [], []
    for line in lines[2:at]:
        if line.startswith("cpu "):
            answers.append([])
        elif line.startswith("block "):
            blocks.append(line)
        else:
            answers[-1].append(line)
    first = json.loads("[" + "".join(lines[at + 1:]) + "]")
    count = int(lines[1].removeprefix("interleavings: "))
    return count, (tuple(map(tuple, answers)), tuple(blocks)), first


def ends_of(text):
    """The number of interleavings, and all ends."""
    head, *parts = text.split("\n\n")
    total = int(head.split("\n")[0].removeprefix("interleavings: "))
    return total, [end_of(part.rstrip("\n")) for part in parts]


def answers_and_state(text):
    """What `hotplug serial` prints before and after the word that begins the state."""
    answers, _, state = text.rpartition("state\nblock 0 ")
    return answers, "block 0 " + state


def end_with(cpus, calls, lines, state):
    """The end of calls with these answers and this state, as `hotplug serial` prints them."""
    answers = [[] for _ in range(cpus)]
    for call, line in zip(calls, lines):
        answers[int(call.split()[0])].append(told(line.partition(": ")[2]))
    rows = [line for line in state.split("\n") if line.startswith("block ")]
    return tuple(map(tuple, answers)), tuple(row.partition(" op ")[0] for row in rows)


def end_in_serial(programs, layout, setup, calls):
    """The end that calls have after a setup, as `hotplug serial` prints it."""
    before, _ = answers_and_state(programs.serial(layout, setup))
    answers, state = answers_and_state(programs.serial(layout, setup + calls))
    return end_with(layout["cpus"], calls, answers[len(before):].splitlines(), state)


# By brute force

def orders(scripts):
    """Each interleaving of scripts, as processors with their texts."""
    if not any(scripts):
        yield []
    for cpu, script in enumerate(scripts):
        if script:
            rest = scripts[:cpu] + [script[1:]] + scripts[cpu + 1:]
            for order in orders(rest):
                yield [(cpu, script[0])] + order


def numbered(order, before):
    """The calls of an interleaving, with the number of each processor's own operation for 0."""
    calls, last = [], {}
    for cpu, text in order:
        words = text.split()
        if words[0] == "begin":
            last[cpu] = before + len(calls) + 1
        if words[0] in ("drainfor", "migrate", "commit", "cancel") and words[1] == "0":
            words[1] = str(last.get(cpu, 0))
        calls.append(" ".join([str(cpu)] + words))
    return calls


def check_by_force(checks, programs):
    scenario = json.loads((ROOT / "examples/last-frame.json").read_text())
    layout, setup, lines = scenario["layout"], scenario["calls"][:3], scenario["calls"][3:]
    scripts = [[line[2:] for line in lines if line[0] == str(cpu)] for cpu in range(2)]
    counts = {}
    for order in orders(scripts):
        end = end_in_serial(programs, layout, setup, numbered(order, len(setup)))
        counts[end] = counts.get(end, 0) + 1
    total, ends = ends_of(programs.explore(scenario, 3))
    found = {end: count for count, end, _ in ends}
    checks.holds("last-frame.json", total == sum(counts.values()), "another number of orders")
    checks.holds("last-frame.json", found == counts, f"{found} in place of {counts}")
    checks.holds("last-frame.json", len(ends) == len(found), "an end comes twice")
    firsts = [[int(call.split()[0]) for call in first] for _, _, first in ends]
    checks.holds("last-frame.json", firsts == sorted(firsts), "the ends are in another order")


def check_limits(checks, programs):
    """Past the limit the ends are those of the first orders, processor 0 first, each played by
    `hotplug serial`."""
    scenario = json.loads((ROOT / "examples/last-frame.json").read_text())
    layout, setup, lines = scenario["layout"], scenario["calls"][:3], scenario["calls"][3:]
    scripts = [[line[2:] for line in lines if line[0] == str(cpu)] for cpu in range(2)]
    played = [end_in_serial(programs, layout, setup, numbered(order, len(setup)))
              for order in orders(scripts)]
    for limit in range(0, len(played), 5):
        counts = {}
        for end in played[:limit]:
            counts[end] = counts.get(end, 0) + 1
        text = programs.explore(scenario, 3, limit=limit)
        head = f"{len(played)} interleavings; these are the first {limit}\nends: {len(counts)}\n"
        checks.holds(f"last-frame.json --limit {limit}", text.startswith(head), f"says {text!r}")
        found = {end: count for count, end, _ in map(end_of, text.rstrip("\n").split("\n\n")[1:])}
        checks.holds(f"last-frame.json --limit {limit}", found == counts,
                     f"{found} in place of {counts}")


# Deep scripts
def check_depth(checks, programs):
    layout = {"order": 0, "pageblocks": 4, "blocks": 1, "cpus": 1, "batch": 1, "high": 1,
              "owners": 1, "pages": 1, "words": 1, "history": LINES, "boot": ["normal"]}
    calls = ["0 kalloc 0", "0 kfree 0"] * (LINES // 2)
    text = programs.explore({"layout": layout, "calls": calls}, 0, before=SHALLOW)
    total, ends = ends_of(text)
    checks.holds("a deep script", total == 1 and len(ends) == 1, f"has {total} interleavings")
    end = end_in_serial(programs, layout, [], calls)
    checks.holds("a deep script", [it for _, it, _ in ends] == [end], "ends otherwise")


def check_length(checks, programs):
    layout = {"order": 0, "pageblocks": 4, "blocks": 1, "cpus": 1, "batch": 1, "high": 1,
              "owners": 1, "pages": 1, "words": 1, "history": LINES, "boot": ["normal"]}
    scenario = {"layout": layout, "calls": ["0 drain 0"] * LINES}
    text = programs.explore(scenario, LINES, "--scenario", "1", before=SHALLOW)
    checks.holds("a long setup", json.loads(text) == scenario, "is written otherwise")


# Ends as JSON

def check_replay(checks, programs, name, scenario, setup, number, first):
    """The scenario of an end is read, and has the setup's lines and then the first calls."""
    where = f"{name} --setup {setup} --scenario {number}"
    layout, calls = scenario["layout"], scenario["calls"][:setup] + first
    text = programs.explore(scenario, setup, "--scenario", str(number))
    checks.holds(where, json.loads(text) == {"layout": layout, "calls": calls}, f"says {text!r}")
    checks.holds(where, programs.serial_of(text) == programs.serial(layout, calls), "ends otherwise")


def check_objects(checks, programs, name, scenario, setup, ends):
    """With `--json` each end is an object on a line, with the same texts."""
    expected = [{"end": number, "interleavings": count, "answers": list(map(list, answers)),
                 "blocks": [block.split(" ", 2)[2] for block in blocks], "first": first}
                for number, (count, (answers, blocks), first) in enumerate(ends, 1)]
    text = programs.explore(scenario, setup, "--json")
    found = [json.loads(line) for line in text.splitlines()]
    checks.holds(f"{name} --setup {setup} --json", found == expected, f"says {text!r}")


def check_hostile_replay(checks, programs):
    scenario = hostile(ROOT)
    setup = len(scenario["calls"])
    check_replay(checks, programs, "hostile texts", scenario, setup, 1, [])


# The examples

def unfit(line):
    """Why a line of the examples cannot stand in a script."""
    word = line.split()[1]
    return f"{word} makes no call" if word in ("cat", "seal") else None


def check_count(checks, programs, name, scenario, setup, total):
    """`check` says as many interleavings as there are, where no script holds a plan."""
    words = [line.split()[1] for line in scenario["calls"][setup:]]
    told = "not known:" if {"plan", "echo"} & set(words) else f"{total}\n"
    text = programs.check(scenario, "--setup", str(setup))
    checks.holds(f"{name} check --setup {setup}", f"\ninterleavings: {told}" in text,
                 f"says {text!r}, and there are {total}")


def check_example(checks, programs, file):
    scenario = json.loads(file.read_text())
    calls = scenario["calls"]
    for setup in range(max(0, len(calls) - TAIL), len(calls) + 1):
        bad = [at for at in range(setup, len(calls)) if unfit(calls[at])]
        text = programs.explore(scenario, setup)
        if bad:
            line = f"hotplug_lab: line {bad[0] + 1} not for a script: {unfit(calls[bad[0]])}\n"
            checks.holds(f"{file.name} --setup {setup}", text == line, f"says {text!r}")
            continue
        total, ends = ends_of(text)
        check_count(checks, programs, file.name, scenario, setup, total)
        check_objects(checks, programs, file.name, scenario, setup, ends)
        for number, (_, end, first) in enumerate(ends, 1):
            played = end_in_serial(programs, scenario["layout"], calls[:setup], first)
            checks.holds(f"{file.name} --setup {setup}", end == played, f"{first} ends as {played}")
            check_replay(checks, programs, file.name, scenario, setup, number, first)


# Runs in threads

def run_end(replies, turns, cpus):
    """The end of the plan whose replies come next, which are taken away."""
    reply = replies.pop(0)
    if not reply.startswith("opened "):
        return f"plan: {reply}"
    cause, drains, step = "-", cpus, "drain"
    while True:
        if step == "drain" and drains > 0:
            drains, reply = drains - 1, replies.pop(0)
        elif step == "commit":
            reply, step = replies.pop(0), "drain"
            if reply == "done":
                return "plan: done"
            cause, drains = reply.removeprefix("refused "), cpus
        elif turns > 0:
            turns, step, reply = turns - 1, "turn", replies.pop(0)
            if reply.startswith("refused "):
                cause = reply.removeprefix("refused ")
                step = "commit" if cause == "NothingToMove" else "drain"
                drains = cpus
        else:
            return f"plan: cancelled {cause} {replies.pop(0)}"
        if reply == "refused NoOp":
            return "plan: undone"


def as_run(scenario, answers):
    """What `hotplug run` prints of each processor's lines where these were its replies."""
    cpus, printed = scenario["layout"]["cpus"], []
    for cpu, replies in enumerate(map(list, answers)):
        lines = []
        for call in scenario["calls"]:
            words = call.split()
            if words[0] != str(cpu):
                continue
            if words[1] in ("plan", "echo"):
                turns = int(words[2]) if words[1] == "plan" else 1024
                lines.append(run_end(replies, turns, cpus))
            else:
                lines.append(replies.pop(0))
        printed.append(tuple(lines))
    return tuple(printed)


def parsed_run(text):
    """The answers of each processor in what `hotplug run` printed."""
    printed = []
    for line in text.splitlines()[:-1]:
        if line.startswith("cpu "):
            printed.append([])
        else:
            printed[-1].append(told(line))
    return tuple(map(tuple, printed))


LAYOUT = {"order": 1, "pageblocks": 1, "blocks": 3, "cpus": 2, "batch": 1, "high": 1, "owners": 2,
          "pages": 2, "words": 1, "history": 40, "boot": ["normal", "movable", "movable"]}
RACES = [["0 map db 0", "0 write db 0 0 7", "0 kalloc 0", "1 map web 0", "1 kalloc 1", "1 drain 0"],
         ["0 map db 0", "0 plan 2 off 1", "1 map web 0", "1 read web 0 0", "1 unmap web 0"],
         ["0 echo offline memory2/state", "0 read db 0 0", "1 map db 0", "1 write db 0 0 5"]]


def check_runs(checks, programs):
    for number, calls in enumerate(RACES, 1):
        scenario = {"layout": LAYOUT, "calls": calls}
        ends = ends_of(programs.explore(scenario, 0))[1]
        known = {as_run(scenario, answers) for _, (answers, _), _ in ends}
        for _ in range(RUNS):
            outcome = parsed_run(programs.run(scenario))
            checks.holds(f"run of race {number}", outcome in known, f"{outcome} is no end")


# Names for results

NAMED = 60
SHOWN = ((), ("--orders",), ("--svg",), ("--json",), ("--html",), ("--log",), ("--from", "2"))


def check_named(checks, programs, seed):
    """All that is shown of lines with names is what is shown of the plain ones."""
    draw = random.Random(seed)
    layout = dict(LAYOUT, history=draw.choice((3, 40)))
    calls = named_calls(draw, LAYOUT["cpus"], draw.randrange(2, 14))
    named = {"layout": layout, "calls": calls}
    plain = dict(named, calls=plain_lines(programs, layout, calls))
    where = f"names {seed}: {calls}"
    for options in SHOWN:
        told, expected = programs.trace(named, *options), programs.trace(plain, *options)
        checks.holds(where, told == expected, f"trace {options} says {told!r}, not {expected!r}")
    for options in (("--json",), ("--scenario", "1")):
        told = programs.explore(named, len(calls), *options)
        expected = programs.explore(plain, len(calls), *options)
        checks.holds(where, told == expected, f"explore {options} says {told!r}, not {expected!r}")
    text = programs.check(named)
    checks.holds(where, "\nfaults: 0, " in "\n" + text, f"check says {text!r}")
    is_plain = " as " in "".join(calls) and "understood" not in programs.serial(layout, calls)
    checks.holds(where, not is_plain, "hotplug reads the names")


# Findings

def check_findings(checks, programs, file):
    scenario = json.loads(file.read_text())
    text = programs.check(scenario)
    checks.holds(f"{file.name} check", "\nfaults: 0, " in "\n" + text, f"says {text!r}")
    scenario["calls"].append("0")
    text, last = programs.check(scenario), len(scenario["calls"])
    checks.holds(f"{file.name} check", text == f"calls {last} (line 1): `0`: a verb is missing\n"
                                               "faults: 1, warnings: 0\n", f"says {text!r}")


def check_all(checks, programs):
    check_by_force(checks, programs)
    check_limits(checks, programs)
    check_depth(checks, programs)
    check_length(checks, programs)
    check_hostile_replay(checks, programs)
    for file in sorted((ROOT / "examples").glob("*.json")):
        check_example(checks, programs, file)
        check_findings(checks, programs, file)
        check_drawn(checks, programs, file.name, json.loads(file.read_text()))
    check_drawn(checks, programs, "hostile texts", hostile(ROOT))
    check_wide(checks, programs)
    check_letters(checks, programs)
    check_long(checks, programs)
    check_json(checks, programs)
    check_runs(checks, programs)
    for seed in range(NAMED):
        check_named(checks, programs, seed)


def main(words):
    checks = Checks()
    try:
        check_all(checks, Programs(Path(words[0] if words else ROOT / "crates").resolve()))
    except (ValueError, LookupError, OSError, ElementTree.ParseError,
            subprocess.SubprocessError) as error:
        checks.holds("lab", False, f"cannot be checked: {error!r}")
    for failure in checks.failures:
        print(failure)
    print(f"lab: {checks.passed} passed, {len(checks.failures)} failed")
    return 1 if checks.failures else 0


if __name__ == "__main__":
    sys.exit(main(sys.argv[1:]))
