#!/usr/bin/env python3
"""Talks to `hotplug_lab live`, and compares what it replies with `hotplug serial` and with
`hotplug_lab trace`. `check` at the top runs it after the gate; alone it takes the folder of the crates:

    python3 docs/check_live.py [CRATES [COUNT]]       without them: crates and 1000

- COUNT random scenarios, line by line down a pipe: the texts of the objects, joined, and the state
  are what `hotplug serial` prints; so they are for the scenario that the session gives. One in four
  sends all lines at once, one in four sends some lines as the scenario's `calls`, and one in four
  asks for the state with each object, which leads to the state that `serial` prints.
- 100 random scenarios with names for results, of which some lines come as the scenario's `calls`: the
  texts, the state and the scenario that is kept are those of the lines with their numbers.
- The words that ask for nothing, and files that are not read.
- For a person: what is printed is what `hotplug_lab trace --from` prints.
- On a pseudo-terminal: a prompt before each line, and what was typed is answered.
- Lines that are none: bytes that are no UTF-8, a line of 1 MiB, a last line without its newline.
- examples/oracle: a fault is found within 2,000 calls and shrunk to at most 8, and without the fault
  nothing is found in 20,000.

The last line is 'live: N passed, M failed'; the exit status is 0 where nothing failed, else 1.
"""
import json
import os
import pty
import random
import subprocess
import sys
import tempfile
from pathlib import Path

from check_lab import ROOT, SECONDS, Checks, Programs
from lab_json import Reader
from lab_names import named_calls, plain_lines
from lab_traces import spread

sys.path.insert(0, str(ROOT / "bench"))
from differ import Lines, Seen, layout_of  # noqa: E402

COUNT = 1000
# Seconds that the example's test may take on a busy machine.
LONG = 600
NO_LINES = ["0 map Db 0", "0  map db 0", "0 mapp db 0", "x", "0 kalloc 00", " ", "0 read db 0 1 2 3"]
TYPED = ["0 map db 0", "", "0 plan 2 off 0", "0 cat memory0/state", "nonsense", "0 kalloc 1"]


class Session:
    """A session of `hotplug_lab live` down a pipe."""

    def __init__(self, lab, scenario, *options):
        with tempfile.NamedTemporaryFile("w", suffix=".json") as file:
            json.dump(scenario, file)
            file.flush()
            self.live = subprocess.Popen([lab, "live", *options, file.name], stdin=subprocess.PIPE,
                                         stdout=subprocess.PIPE, stderr=subprocess.PIPE)
            self.asked("help")

    def send(self, line):
        self.live.stdin.write(line.encode() + b"\n")
        self.live.stdin.flush()

    def object(self):
        return json.loads(self.live.stdout.readline())

    def asked(self, line):
        """The object for one line, which is read before the next is sent."""
        self.send(line)
        return self.object()

    def all_asked(self, lines):
        """The objects for lines that are sent at once."""
        sent = "".join(f"{line}\n" for line in lines).encode()
        out, _ = self.live.communicate(sent, timeout=SECONDS)
        return [json.loads(line) for line in out.splitlines()]

    def end(self):
        """The exit status."""
        self.live.communicate(timeout=SECONDS)
        return self.live.returncode


# Random scenarios

def random_lines(some, layout, programs):
    """Lines that most often succeed: later ones speak of what earlier ones led to."""
    lines, calls = Lines(some, layout, False), []
    for _ in range(some.randint(1, 4)):
        calls += [lines.line() for _ in range(some.randint(1, 8))]
        lines.seen = Seen(programs.serial(layout, calls).encode())
    return calls


def joined(objects):
    return "".join(it["text"] for it in objects)


def check_scenario(checks, programs, number):
    """One random scenario, in the way that its number asks for."""
    some = random.Random(number)
    layout = layout_of(some)
    calls = random_lines(some, layout, programs)
    before = calls[:some.randint(0, len(calls))] if number % 4 == 1 else []
    after = calls[len(before):]
    options = ["--json", "--state"] if number % 4 == 2 else ["--json"]
    session = Session(programs.lab, {"layout": layout, "calls": before}, *options)
    printed = programs.serial(layout, calls)
    if number % 4 == 3:
        *objects, state, kept = session.all_asked([*after, "state", "scenario"])
    else:
        objects = [session.asked(line) for line in after]
        state, kept = session.asked("state"), session.asked("scenario")
    where = f"scenario {number}"
    wanted = printed[len(programs.serial(layout, before).partition("state\n")[0]):] if before else printed
    checks.holds(where, joined(objects) + state["state"] == wanted, f"differs on {calls}")
    checks.holds(where, programs.serial_of(kept["scenario"]) == printed, "another scenario was kept")
    numbers = [it["line"] for it in objects]
    checks.holds(where, numbers == list(range(len(before) + 1, len(calls) + 1)), f"numbers {numbers}")
    if number % 4 == 2:
        check_states(checks, where, layout, objects, state)
    checks.holds(where, session.end() == 0, "the status is not 0")


NAMED = 100


def check_named(checks, programs, number):
    """A random scenario with names for results: its lines are answered as the plain ones are, and are
    kept without names."""
    some = random.Random(number)
    layout = dict(layout_of(some), history=some.choice([4, 10_000]), blocks=3, cpus=2, owners=1,
                  boot=[some.choice(["normal", "movable"]) for _ in range(3)])
    calls = named_calls(some, 2, some.randint(1, 14))
    before = calls[:some.randint(0, len(calls))]
    plain = plain_lines(programs, layout, calls)
    first = programs.serial(layout, plain[:len(before)]).rpartition("state\nblock 0 ")[0]
    printed = programs.serial(layout, plain)
    session = Session(programs.lab, {"layout": layout, "calls": before}, "--json")
    objects = [session.asked(line) for line in calls[len(before):]]
    state, kept = session.asked("state"), session.asked("scenario")
    where = f"names {number}: {calls}"
    checks.holds(where, first + joined(objects) + state["state"] == printed, f"{objects} in place of {printed}")
    checks.holds(where, json.loads(kept["scenario"]) == {"layout": layout, "calls": plain},
                 f"{kept} in place of {plain}")
    checks.holds(where, session.end() == 0, "the status is not 0")


def check_states(checks, where, layout, objects, state):
    """The changes of the objects lead to the state, unless there is no object."""
    reader = Reader({"layout": layout, "names": names_in(state["state"])})
    for it in objects:
        reader.follow(it.get("change", {}))
    reader.state = {part: values for part, values in reader.state.items() if values}
    is_right = not objects or reader.printed_state() == state["state"]
    checks.holds(where, is_right, f"{reader.printed_state()}\nis not\n{state['state']}")


def names_in(state):
    """The owners of pages, in their order."""
    return list(dict.fromkeys(line.split()[1] for line in state.splitlines() if line.startswith("page ")))


# For a person

def check_rows(checks, programs):
    """What is printed for lines are all rows that `trace` has from there."""
    layout = {"order": 2, "pageblocks": 1, "blocks": 4, "cpus": 2, "batch": 2, "high": 2, "owners": 2,
              "pages": 8, "words": 2, "history": 100, "boot": ["normal", "normal", "movable", "offline"]}
    calls = ["0 map db 0", "0 write db 0 1 7", "0 plan 4 off 2", "0 cat buddyinfo", "1 kalloc 1",
             "0 echo sideways memory1/state", "0 seal", "0 undo 2"]
    named = ["0 kalloc 1 as k", "0 begin off 2 as x", "0 kfree $k", "1 kalloc 0 as x", "0 migrate $x",
             "0 commit $x", "1 kfree $x", "1 cat buddyinfo"]
    cases = [(calls, options) for options in ([], ["--orders"], ["--width", "80"])] + [(named, [])]
    for calls, options in cases:
        for count in (0, 2, 8):
            whole = {"layout": layout, "calls": calls}
            trace = programs.trace(whole, "--from", str(count + 1), *options) if count < 8 else ""
            wanted = spread(trace) if trace else None
            with tempfile.NamedTemporaryFile("w", suffix=".json") as file:
                json.dump({"layout": layout, "calls": calls[:count]}, file)
                file.flush()
                ran = subprocess.run([programs.lab, "live", *options, file.name], timeout=SECONDS,
                                     input="\n".join(calls[count:]).encode(), stdout=subprocess.PIPE)
            out = ran.stdout.decode()
            is_right = out == wanted if wanted else out.startswith("     before line 9")
            checks.holds(f"rows after {count} {options}", is_right, f"{out}\nwanted: {wanted}")
            checks.holds(f"rows after {count} {options}", ran.returncode == 0, "the status is not 0")


def read_up_to(terminal, mark):
    """What a terminal shows up to a mark at its end."""
    seen = b""
    while not seen.endswith(mark):
        try:
            more = os.read(terminal, 4096)
        except OSError:
            return seen
        if not more:
            return seen
        seen += more
    return seen


def check_terminal(checks, programs):
    """Types into it on a pseudo-terminal: it prompts, and replies before the next prompt."""
    path = ROOT / "examples" / "first-offline.json"
    child, terminal = pty.fork()
    if child == 0:
        os.execv(programs.lab, [str(programs.lab), "live", str(path)])
    shown = read_up_to(terminal, b"> ").decode()
    checks.holds("terminal", "before line 9" in shown, f"begins with {shown!r}")
    wanted = {"": "", "0 cat memory0/state": "offline", "nonsense": "no line: "}
    for line in TYPED:
        os.write(terminal, line.encode() + b"\n")
        reply = read_up_to(terminal, b"> ").decode()
        checks.holds("terminal", wanted.get(line, line) in reply, f"{line!r} shows {reply!r}")
    os.write(terminal, b"quit\n")
    read_up_to(terminal, b"never seen")
    checks.holds("terminal", os.waitpid(child, 0)[1] == 0, "quit does not end with status 0")
    os.close(terminal)


# The command line

def check_words(checks, programs):
    """Words that ask for nothing end with status 2, and a file that is not read with status 1."""
    tour = str(ROOT / "examples" / "tour.json")
    for words in ([], ["-"], [tour, tour], ["--state", tour], ["--json", "--orders", tour],
                  ["--json", "--width", "80", tour]):
        ran = subprocess.run([programs.lab, "live", *words], stdin=subprocess.DEVNULL, capture_output=True,
                             timeout=SECONDS)
        checks.holds(f"words {words}", (ran.returncode, ran.stdout) == (2, b""), f"ends with {ran}")
    for name, fault in (("none.json", b"not opened"), (str(ROOT / "README.md"), b"not JSON")):
        ran = subprocess.run([programs.lab, "live", name], stdin=subprocess.DEVNULL, capture_output=True,
                             timeout=SECONDS)
        is_right = (ran.returncode, ran.stdout) == (1, b"") and fault in ran.stderr
        checks.holds(f"words {name}", is_right, f"ends with {ran}")


# What is no line

def check_no_lines(checks, programs):
    """What is no line gets its object, changes nothing, and the session goes on."""
    scenario = json.loads((ROOT / "examples" / "tour.json").read_text())
    session = Session(programs.lab, scenario, "--json")
    state = session.asked("state")
    for line in NO_LINES:
        reply = session.asked(line)
        checks.holds("no line", reply["fault"] == "no line" and reply["hint"], f"{line!r}: {reply}")
    session.live.stdin.write(b"0 map \xff 0\n" + b"x" * 2**20 + b"\n")
    session.live.stdin.flush()
    checks.holds("no line", "UTF-8" in session.object()["hint"], "bytes that are no UTF-8")
    checks.holds("no line", "65536" in session.object()["hint"], "a line of 1 MiB")
    checks.holds("no line", session.asked("state") == state, "the state changed")
    last = session.all_asked(["0 cat probe\n0 drain 0"])
    checks.holds("no line", last[-1]["answer"] == "done", "the last line was lost")


# The example

def check_oracle(checks, programs):
    """The allocator of examples/oracle, with its fault and without."""
    test = [sys.executable, str(ROOT / "examples" / "oracle" / "test_buddy.py"), str(programs.lab)]
    ran = subprocess.run([*test, "--calls", "20000"], capture_output=True, timeout=LONG)
    checks.holds("oracle", ran.returncode == 0, f"a fault without a fault: {ran.stdout}")
    for seed in range(1, 6):
        ran = subprocess.run([*test, "--faulty", "--seed", str(seed)], capture_output=True, timeout=LONG)
        found = json.loads(ran.stdout) if ran.returncode == 1 else {"calls": []}
        checks.holds("oracle", 0 < len(found["calls"]) <= 8, f"seed {seed}: {found['calls']}")


def main():
    crates = Path(sys.argv[1]) if len(sys.argv) > 1 else ROOT / "crates"
    count = int(sys.argv[2]) if len(sys.argv) > 2 else COUNT
    checks, programs = Checks(), Programs(crates.resolve())
    check_words(checks, programs)
    check_no_lines(checks, programs)
    check_rows(checks, programs)
    check_terminal(checks, programs)
    for number in range(count):
        check_scenario(checks, programs, number)
    for number in range(min(count, NAMED)):
        check_named(checks, programs, number)
    check_oracle(checks, programs)
    for failure in checks.failures:
        print(failure)
    print(f"live: {checks.passed} passed, {len(checks.failures)} failed")
    return 1 if checks.failures else 0


if __name__ == "__main__":
    sys.exit(main())
