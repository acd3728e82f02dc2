#!/usr/bin/env python3
"""Refuses each request for memory, each read and each write of the programs in turn, and gives
them hostile texts and small stacks. `check` at the top runs it after the gate, on the programs that
the gate built; alone it is

    python3 refusals/check_refusals.py

What is checked:
- each case of crates/refusals ends as with ample memory, whichever request is refused; and the
  calls that take no memory make no request where every one would be refused;
- `hotplug serial`, `run` and `audit` on worked scenarios: where one request for memory is refused,
  each run ends with its whole output, or with a fault's text, status 1 and nothing on standard
  output, or with `fault OutOfMemory` in place of one line's answer and all else as without it;
- where a read or a write fails, they end with its fault and print nothing; where one moves a
  single byte, or each does, they print all;
- `hotplug_lab explore` and `trace`: where one request for memory is refused, or a read or a write
  fails, each run ends with its whole output, or with that fault and nothing on standard output;
- hostile texts have their faults, and deep nesting ends as `not JSON` on the usual stack of 8 MiB.
refuse.c, built with the toolchain's clang and loaded before the C library, does the refusing.
A line for each case, command and scenario has how many were refused. The last line is
'refusals: N passed, M failed'; the exit status is 0 where nothing failed, else 1.
"""
import os
import subprocess
import sys
import tempfile
from concurrent.futures import ThreadPoolExecutor

from cases import check_cases
from hostile import FULL, NESTED, hostile_texts, scenario_text
from lab import check_lab
from refusing import ROOT, WORKERS, Checks, Refused, Refuser, run, run_on_stack

HOTPLUG = ROOT / "crates" / "hotplug" / "out" / "hotplug"
STORED = ROOT / "crates" / "hotplug" / "stdin"
STACK = 8192  # KiB, the usual limit
LEAST_STACK = 16  # KiB, less than a program starts on
NO_MEMORY = "hotplug: out of memory\n"
NO_COMMAND = "hotplug: serial, run or audit\n"

# Worked scenarios

LAYOUT = {"order": 2, "pageblocks": 1, "blocks": 4, "cpus": 2, "batch": 2, "high": 2,
          "owners": 2, "pages": 8, "words": 2, "history": 100,
          "boot": ["normal", "normal", "movable", "offline"]}
NOT_STARTED = {f"hotplug: worker {cpu} not started\n" for cpu in range(LAYOUT["cpus"])}
# The lines that a plan to take block 2 offline stands for, where it begins as operation 2.
OFFLINE = ["0 begin off 2", "0 drainfor 2 0", "0 drainfor 2 1", "0 migrate 2", "0 migrate 2",
           "0 commit 2"]
# Scenarios of one owner: without one of its lines the others' owners keep their numbers.
SERIAL = {
    "stored": ["0 kalloc 1", "0 kfree 0", "0 undo 0"],
    "offline": ["0 map db 0", "0 write db 0 1 7", "0 begin off 2", "0 migrate 3", "0 drainfor 3 0",
                "0 commit 3", "0 read db 0 1", "0 cat buddyinfo"],
    "plan": ["0 map db 0", "0 plan 64 off 2", "0 cancel 2", "0 cat memory2/state"],
    "echo": ["0 map db 0", "0 echo offline memory2/state", "0 echo online memory3/state"],
    "seal": ["0 map db 0", "0 seal", "0 unmap db 0", "0 undo 1", "0 kalloc 0"],
}
# Lines whose answers do not depend on the other processor's; how many records a seal has does.
RUN = {
    "both": ["0 map db 0", "0 write db 0 1 7", "0 read db 0 1", "1 echo online memory3/state",
             "1 kalloc 3", "1 drain 1"],
    "seal": ["0 map db 0", "0 write db 0 1 7", "0 seal", "0 read db 0 1"],
}
# A scenario for each command.
WORKED = {"serial": SERIAL["offline"], "run": RUN["both"], "audit": RUN["both"]}


class Commands:
    """The commands of a program, on scenarios of `LAYOUT`."""

    def __init__(self, program, refuser):
        self.program, self.refuser = program, refuser

    def printed(self, command, calls):
        return run([self.program, command], scenario_text(LAYOUT, calls)).out

    def each_refused(self, kind, words, text=b""):
        return self.refuser.each(kind, [self.program, *words], text)

    def all_refused(self, kind, words, text):
        return self.refuser.run(Refused(kind, 1, 0), [self.program, *words], text)


# What may be printed where one line is out of memory

def stand_ins(call, fault):
    """What may stand for a line out of memory: the lines that it did before that, and its text."""
    words = call.split()
    if words[1] == "cat":
        return [([], "cat: fault OutOfMemory")]
    not_read = [([], "echo: fault OutOfMemory")] if words[1] == "echo" else []
    if words[1] == "plan" or words[2:3] == ["offline"]:
        left = [(OFFLINE[:count], f"plan: left {2 if count else '-'} OutOfMemory")
                for count in range(len(OFFLINE))]
        return left + not_read
    return not_read + [([], fault)]


def count_answers(commands, calls):
    """How many lines `serial` prints for the lines of a scenario, without the state."""
    out = commands.printed("serial", calls)
    return out[:out.rfind("state\nblock 0 ")].count("\n")


def serial_outputs(commands, calls):
    """What `serial` may print: all of it, or one line out of memory and the rest as without it."""
    outputs = {commands.printed("serial", calls)}
    for at, call in enumerate(calls):
        for done, text in stand_ins(call, "-: fault OutOfMemory"):
            lines = commands.printed("serial", calls[:at] + done + calls[at + 1:]).split("\n")
            start = count_answers(commands, calls[:at])
            end = count_answers(commands, calls[:at] + done)
            outputs.add("\n".join(lines[:start] + [text] + lines[end:]))
    return outputs


def threads_outputs(commands, command, calls):
    """The same of `run` and `audit`; an audit prints no answers."""
    outputs = {commands.printed(command, calls)}
    for at, call in enumerate(calls):
        for done, text in stand_ins(call, "fault OutOfMemory"):
            lines = commands.printed(command, calls[:at] + done + calls[at + 1:]).split("\n")
            if command == "run":
                cpu = call.split()[0]
                place = lines.index(f"cpu {cpu}") + 1
                place += sum(1 for line in calls[:at] if line.split()[0] == cpu)
                lines.insert(place, text)
            outputs.add("\n".join(lines))
    return outputs


# Memory

def check_memory(checks, commands, command, name, calls):
    """A command on a scenario, with each request for memory refused in turn."""
    if command == "serial":
        outputs, faults = serial_outputs(commands, calls), {NO_MEMORY}
    else:
        outputs, faults = threads_outputs(commands, command, calls), {NO_MEMORY} | NOT_STARTED
    whole = commands.printed(command, calls)
    counts = {"fault": 0, "line": 0, "whole": 0}
    for number, ran in commands.each_refused("memory", [command], scenario_text(LAYOUT, calls)):
        kind = "fault" if ran.status else "whole" if ran.out == whole else "line"
        counts[kind] += 1
        is_right = (any(ran.ends_as(1, "", fault) for fault in faults)
                    or any(ran.ends_as(0, output, "") for output in outputs))
        checks.holds(f"{command} {name}, request {number}", is_right, f"ended with {ran}")
    checks.holds(f"{command} {name}", counts["fault"] > 0, "was never out of memory")
    print(f"{command} {name}: {sum(counts.values())} requests for memory refused: "
          f"{counts['fault']} faults, {counts['line']} lines out of memory, "
          f"{counts['whole']} whole")
    return sum(counts.values())


def check_no_command(checks, commands):
    """A command line that names no command, with each request for memory refused in turn."""
    counts = {1: 0, 2: 0}
    for number, ran in commands.each_refused("memory", ["walk"]):
        is_right = ran.ends_as(2, "", NO_COMMAND) or ran.ends_as(1, "", NO_MEMORY)
        checks.holds(f"no command, request {number}", is_right, f"ended with {ran}")
        counts[ran.status] = counts.get(ran.status, 0) + 1
    print(f"no command: {sum(counts.values())} requests for memory refused: {counts[1]} faults, "
          f"{counts[2]} whole")
    return sum(counts.values())


# Reads and writes

def check_failing(checks, commands, command, name, text, expected):
    """A command on a text, with each read and write failing in turn."""
    counts = {"r": 0, "w": 0}
    for number, ran in commands.each_refused("io", [command], text):
        fault = {"r": "hotplug: reading failed\n", "w": "hotplug: writing failed\n"}[ran.refused]
        if expected[0] == 1 and ran.refused == "w":
            fault = ""  # it is the fault's own text that did not go out
        checks.holds(f"{command} {name}, failing call {number}", ran.ends_as(1, "", fault),
                     f"ended with {ran}")
        counts[ran.refused] += 1
    checks.holds(f"{command} {name}", all(counts.values()), "had no read, or no write, that failed")
    print(f"{command} {name}: {counts['r']} reads and {counts['w']} writes failed")
    return sum(counts.values())


def check_short(checks, commands, command, name, text, expected):
    """A command on a text, with each read and write moving one byte alone, and then all of them."""
    count = 0
    for number, ran in commands.each_refused("short", [command], text):
        checks.holds(f"{command} {name}, short call {number}", ran.ends_as(*expected),
                     f"ended with {ran}")
        count += 1
    ran = commands.all_refused("short", [command], text)
    checks.holds(f"{command} {name}, a byte at a time", ran.ends_as(*expected), f"ended with {ran}")
    print(f"{command} {name}: {count} reads and writes moved one byte; "
          f"where all do there are {len(ran.refused)}")


def check_streams(checks, commands):
    """Each command on a scenario, and one on a text that is no JSON."""
    texts = [(command, "scenario", scenario_text(LAYOUT, calls),
              (0, commands.printed(command, calls), "")) for command, calls in WORKED.items()]
    texts.append(("serial", "no JSON", b"[", (1, "", "hotplug: not JSON\n")))
    count = 0
    for text in texts:
        count += check_failing(checks, commands, *text)
        check_short(checks, commands, *text)
    return count


def check_commands(checks, commands):
    memory = check_no_command(checks, commands)
    for name, calls in SERIAL.items():
        memory += check_memory(checks, commands, "serial", name, calls)
    for command in ("run", "audit"):
        for name, calls in RUN.items():
            memory += check_memory(checks, commands, command, name, calls)
    streams = check_streams(checks, commands)
    print(f"in all: {memory} requests for memory, {streams} reads and writes refused")


# Hostile texts

def check_hostile(checks, program):
    texts = list(hostile_texts(STORED.read_bytes()))
    with ThreadPoolExecutor(WORKERS) as pool:
        runs = pool.map(lambda text: run([program, "serial"], text[1]), texts)
        for (name, _, fault), ran in zip(texts, runs):
            checks.holds(name, ran.ends_as(1, "", f"hotplug: {fault}\n"), f"ended with {ran}")
    for name, history, calls, expected in FULL:
        ran = run([program, "serial"], scenario_text({**LAYOUT, "history": history}, calls))
        checks.holds(f"a history that is full in {name}", ran.ends_as(0, expected, ""),
                     f"ended with {ran}")
    print(f"hostile texts: {len(texts)}")


# Small stacks

def check_stacks(checks, program):
    """Deep nesting on the usual stack; and the least with which it and the worked scenarios end as
    they do there."""
    texts = [("serial", b"[" * NESTED)]
    texts += [(command, scenario_text(LAYOUT, calls)) for command, calls in WORKED.items()]
    expected = [run_on_stack(STACK, [program, command], text) for command, text in texts]
    checks.holds("deep nesting on a stack of 8 MiB",
                 expected[0].ends_as(1, "", "hotplug: not JSON\n"), f"ended with {expected[0]}")
    least = STACK
    while least > LEAST_STACK and expected == [
            run_on_stack(least // 2, [program, command], text) for command, text in texts]:
        least //= 2
    checks.holds("stacks", least <= STACK // 2, "8 MiB are the least")
    print(f"stack: {least} KiB are enough (ulimit -s {least})")


def check_all(checks):
    if not os.access(HOTPLUG, os.X_OK):
        checks.holds("refusals", False, f"no program at {HOTPLUG}: README.md says how to build it")
        return
    with tempfile.TemporaryDirectory() as folder:
        refuser = Refuser(folder)
        check_cases(checks, refuser)
        check_commands(checks, Commands(HOTPLUG, refuser))
        check_lab(checks, refuser)
    check_hostile(checks, HOTPLUG)
    check_stacks(checks, HOTPLUG)


def main():
    checks = Checks()
    try:
        check_all(checks)
    except (ValueError, LookupError, OSError, subprocess.SubprocessError) as error:
        checks.holds("refusals", False, f"cannot be checked: {error!r}")
    checks.report()
    return 1 if checks.failures else 0


if __name__ == "__main__":
    sys.exit(main())
