"""The words of hotplug_lab, with requests for memory, reads and writes refused in turn."""
import json
import os
import tempfile
from pathlib import Path

from hostile import scenario_text
from refusing import ROOT, run

LAB = ROOT / "crates" / "hotplug_lab" / "out" / "hotplug_lab"
LAYOUT = {"order": 1, "pageblocks": 1, "blocks": 3, "cpus": 2, "batch": 1, "high": 1,
          "owners": 2, "pages": 2, "words": 1, "history": 40,
          "boot": ["normal", "movable", "offline"]}
SCENARIOS = {
    "explore": ["0 plan 1 off 1", "1 map db 0"],
    "trace": ["0 map db 0", "0 write db 0 0 7", "0 plan 4 off 1", "0 cat memory1/state", "0 seal",
              "0 echo online memory0/state", "1 read db 0 0"],
    "trace --svg": ["0 map db 0", "0 plan 4 off 1"],
    "trace --html": ["0 map db 0"],
}
LIVE = ["0 map db 0", "nonsense", "0 plan 4 off 1", "0 cat memory1/state", "state", "0 seal", "scenario",
        "0 drain 0"]
SETUP, PROBE = "0 kalloc 0", "0 cat probe"
FAULTS = {"memory": ["out of memory"], "io": ["reading failed", "writing failed"]}


def check_kind(checks, refuser, kind, word, text):
    """A word with each request of a kind refused in turn: it ends with its fault and nothing on
    standard output, or, where it can do without the memory, with its whole output."""
    command = [LAB, *word.split()]
    whole = run(command, text)
    faults = [f"hotplug_lab: {fault}\n" for fault in FAULTS[kind]]
    failed, unneeded = 0, 0
    for number, ran in refuser.each(kind, command, text):
        is_whole = kind == "memory" and ran.ends_as(0, whole.out, "")
        is_fault = any(ran.ends_as(1, "", fault) for fault in faults)
        checks.holds(f"{word}, {kind} {number}", is_whole or is_fault, f"ended with {ran}")
        unneeded += is_whole
        failed += not is_whole
    checks.holds(f"{word}, {kind}", whole.status == 0 and failed > 0, f"ends with {whole}")
    return failed, unneeded


def is_live(ran, whole, without):
    """Whether a session ended as it may where it was out of memory: before it began, with nothing
    written; or at the end of its input, with an object for each line. A call of the scenario that is
    out of memory is not made, as in `serial`: then all is as `without` it."""
    if ran.ends_as(1, "", "hotplug_lab: out of memory\n"):
        return True
    objects = [json.loads(line) for line in ran.out.splitlines()]
    lost = sum("OutOfMemory" in json.dumps(it) for it in objects)
    is_told = lost == 1 or ran.out in (whole.out, without.out.replace(PROBE, SETUP))
    return ran.status == 0 and len(objects) == len(LIVE) and is_told


def check_live(checks, refuser):
    """A live session: without memory a line is answered so, and after a read or a write that failed
    a beginning of the objects was written."""
    text = "".join(f"{line}\n" for line in LIVE).encode()
    with tempfile.TemporaryDirectory() as folder:
        commands = []
        for name, call in (("whole", SETUP), ("without", PROBE)):
            file = Path(folder) / f"{name}.json"
            file.write_bytes(scenario_text(LAYOUT, [call]))
            commands.append([LAB, "live", "--json", "--state", str(file)])
        whole, without = (run(command, text) for command in commands)
        command = commands[0]
        checks.holds("live", whole.status == 0 and whole.out.count("\n") == len(LIVE), f"ends with {whole}")
        memory, streams = 0, 0
        for number, ran in refuser.each("memory", command, text):
            checks.holds(f"live, memory {number}", is_live(ran, whole, without), f"ended with {ran}")
            memory += 1
        for number, ran in refuser.each("io", command, text):
            is_right = ran.status == 1 and "failed" in ran.err and whole.out.startswith(ran.out)
            checks.holds(f"live, io {number}", is_right, f"ended with {ran}")
            streams += 1
        print(f"live: {memory} requests for memory refused; {streams} reads and writes failed")


def check_lab(checks, refuser):
    if not os.access(LAB, os.X_OK):
        checks.holds("hotplug_lab", False, f"no program at {LAB}: `rt run` in its crate builds it")
        return
    for word, calls in SCENARIOS.items():
        text = scenario_text(LAYOUT, calls)
        faults, whole = check_kind(checks, refuser, "memory", word, text)
        streams, _ = check_kind(checks, refuser, "io", word, text)
        print(f"{word}: {faults + whole} requests for memory refused: {faults} faults, "
              f"{whole} whole; {streams} reads and writes failed")
    check_live(checks, refuser)
