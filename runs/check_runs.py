#!/usr/bin/env python3
"""Runs `hotplug` on the scenarios of this folder's *.txt, and compares all that it prints. It audits
a crowd, too, so many times: 64 processors with 200 lines each, of every event, and a plan in every
fourth script. `check` at the top runs it after the gate; alone it takes a program:

    python3 runs/check_runs.py [PROGRAM [TIMES]]   without them: crates/hotplug/out/hotplug and 20

A scenario has these lines, and ends with an empty one:

    == NAME         what it shows
    $ COMMAND       what it is run by; without this line: serial
    @ JSON          the parts of its layout that are not those of LAYOUT
    > CALL; CALL    its calls as in JSON, in one or more such lines; `{digits}` stands for 5000 digits
    TEXT            what is printed; `{blocks}` stands for the memory blocks of LAYOUT at boot
    ---             a further text follows, which may be printed in place of the one before
    ! FAULT         in place of a text: nothing is printed, the fault is named, and the status is 1

The last line is 'runs: N passed, M failed'; the exit status is 0 where nothing failed, else 1.
"""
import json
import re
import subprocess
import sys
from dataclasses import dataclass, field
from pathlib import Path

HERE = Path(__file__).resolve().parent
PROGRAM = HERE.parent / "crates" / "hotplug" / "out" / "hotplug"
SECONDS = 60
LAYOUT = {"order": 2, "pageblocks": 1, "blocks": 4, "cpus": 2, "batch": 2, "high": 2, "owners": 2,
          "pages": 8, "words": 2, "history": 1000,
          "boot": ["normal", "normal", "movable", "offline"]}
TIMES = 20
CROWD = {"order": 3, "pageblocks": 2, "blocks": 8, "cpus": 64, "batch": 2, "high": 2, "owners": 4,
         "pages": 8, "words": 2, "history": 1000000,
         "boot": ["normal", "normal", "normal", "movable", "movable", "movable", "offline",
                  "absent"]}
CROWD_LINES = 200
# A script goes through them in turn, from a place of its own on.
CROWD_CALLS = ("kalloc 0", "map db 0", "write db 0 1 5", "read db 0 1", "map web 1", "kalloc 2",
               "kfree 0", "drain 0", "map log 2", "unmap db 0", "online 6 movable", "begin off 3",
               "drainfor 12 1", "migrate 12", "commit 12", "cancel 12", "kfree 4", "read web 1 0",
               "undo 40", "unmap web 1", "echo 0x700 probe",
               "echo online_movable auto_online_blocks", "remove 7", "echo online memory6/state",
               "echo onlin memory6/state", "map queue 9", "unmap log 2")
BLOCKS = ("block 0 online normal\nblock 1 online normal\nblock 2 online movable\n"
          "block 3 offline")


@dataclass
class Run:
    """A scenario, what it is run by, and the ways in which it may end: status, output, error."""
    name: str
    command: str = "serial"
    layout: dict = field(default_factory=lambda: dict(LAYOUT))
    calls: list = field(default_factory=list)
    ends: list = field(default_factory=lambda: [(0, "", "")])

    def read(self, line):
        """Takes a line of the scenario."""
        mark, _, rest = line.partition(" ")
        if mark == "$":
            self.command = rest
        elif mark == "@":
            self.layout.update(json.loads(rest))
        elif mark == ">":
            calls = rest.replace("{digits}", "9" * 5000).split("; ")
            self.calls += [json.loads(f'"{call}"') for call in calls]
        elif mark == "!":
            self.ends[-1] = (1, "", f"hotplug: {rest}\n")
        elif line == "---":
            self.ends.append((0, "", ""))
        else:
            status, text, error = self.ends[-1]
            self.ends[-1] = (status, text + line.replace("{blocks}", BLOCKS) + "\n", error)

    def end(self, program):
        text = json.dumps({"layout": self.layout, "calls": self.calls}).encode()
        ran = subprocess.run([program, self.command], input=text, capture_output=True,
                             timeout=SECONDS)
        return ran.returncode, ran.stdout.decode(), ran.stderr.decode()


def runs_in(file):
    """The scenarios of a file."""
    for part in file.read_text().split("\n\n"):
        head, *lines = part.strip("\n").split("\n")
        if head:
            run = Run(head.removeprefix("== "))
            for line in lines:
                run.read(line)
            yield run


def crowd():
    """The calls of the crowd."""
    for cpu in range(CROWD["cpus"]):
        for at in range(CROWD_LINES):
            has_plan = cpu % 4 == 0 and at == CROWD_LINES // 2
            call = "plan 3 off 4" if has_plan else CROWD_CALLS[(at + cpu) % len(CROWD_CALLS)]
            yield f"{cpu} {call}"


def check_crowd(program, times):
    """How many audits of the crowd went well, and what the others ended with. Each line makes a
    record, but for an `echo`, which may make none; a plan makes several."""
    calls, passed, failures = list(crowd()), 0, []
    text = json.dumps({"layout": CROWD, "calls": calls}).encode()
    least = sum(" echo " not in call for call in calls)
    for _ in range(times):
        ran = subprocess.run([program, "audit"], input=text, capture_output=True, timeout=SECONDS)
        told = re.fullmatch(r"(\d+) records\naudit ok\n", ran.stdout.decode())
        if told and int(told[1]) >= least and (ran.returncode, ran.stderr) == (0, b""):
            passed += 1
        else:
            failures.append(f"crowd: ends with {ran.returncode, ran.stdout[:80], ran.stderr[:80]}")
    return passed, failures


def main(words):
    program = Path(words[0] if words else PROGRAM).resolve()
    passed, failures = check_crowd(program, int(words[1]) if len(words) > 1 else TIMES)
    for file in sorted(HERE.glob("*.txt")):
        for run in runs_in(file):
            try:
                end = run.end(program)
            except (OSError, subprocess.SubprocessError) as error:
                end = repr(error)
            if end in run.ends:
                passed += 1
            else:
                failures.append(f"{file.name}: {run.name}: ends with {end!r}")
    for failure in failures:
        print(failure)
    if not passed + len(failures):
        failures.append("no scenario")
    print(f"runs: {passed} passed, {len(failures)} failed")
    return 1 if failures else 0


if __name__ == "__main__":
    sys.exit(main(sys.argv[1:]))
