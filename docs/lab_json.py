"""What check_lab.py compares of `hotplug_lab trace --json`: what a reader of its rows knows after each
line, with what `hotplug serial` prints for the lines up to there."""
import json
import random
import sys
from pathlib import Path

from lab_traces import HOSTILE, hostile

ROOT = Path(__file__).resolve().parent.parent
sys.path.insert(0, str(ROOT / "bench"))

from differ import LINES, PARTS, Lines, Seen, layout_of

SCENARIOS = 12
# for a class of free blocks or a pool of single frames, in the order of the state
CLASSES, POOLS = ("NU", "NM", "MM", "IN", "IM"), ("NU", "NM", "MM")


class Reader:
    """What the rows so far told: the state, the steps that are not undone, and what was printed."""

    def __init__(self, head):
        self.layout, self.names = head["layout"], head["names"]
        self.state, self.steps, self.printed, self.recorded = {}, [], "", 0
        # the state before each step
        self.before = {}

    def take(self, row):
        """Takes a row, and returns what is wrong with it."""
        old = json.loads(json.dumps(self.state))
        self.follow(row.get("change", {}))
        self.state = {part: values for part, values in self.state.items() if values}
        if "serial" in row:
            self.recorded += 1
            # `serial` prints of a plan only its end; its calls have no text of their own
            if "text" in row:
                self.printed += f'{row["serial"]}: {row["answer"]}\n'
        self.printed += row.get("output", "")
        return [*self.faults_of_steps(row, old), *self.faults_of_deltas(row, old)]

    def follow(self, change):
        """The reader of docs/LAB.md."""
        state = self.state
        for part, values in change.items():
            for key, value in values.items():
                old = state.setdefault(part, {}).pop(key, [])
                if part == "lists":
                    at, end = value.get("at", 0), value.get("at", 0) + value.get("drop", 0)
                    value = old[:at] + value.get("put", []) + old[end:] or None
                if value is not None:
                    state[part][key] = value

    def faults_of_steps(self, row, old):
        """What is wrong with the steps that a row adds and drops."""
        if "drops" in row:
            drops = row["drops"]
            at = len(self.steps) - len(drops)
            if at < 0 or self.steps[at:] != drops:
                yield f"drops {drops} of the steps {self.steps}"
            if drops and self.state != self.before[drops[0]]:
                yield f"the state is not that before step {drops[0]}"
            if row["answer"].startswith("undone") and row["answer"] != f"undone {len(drops)}":
                yield f"drops {drops} where {row['answer']}"
            del self.steps[max(at, 0):]
        elif "journal" in row:
            self.before[row["serial"]] = json.loads(json.dumps(old))
            self.steps.append(row["serial"])
        elif self.state != old:
            if old:
                yield "the state changed without a step"
        if "sealed" in row:
            if row["sealed"] != self.recorded:
                yield f"sealed {row['sealed']} of {self.recorded} records"
            self.steps, self.recorded = [], 0

    def faults_of_deltas(self, row, old):
        """What is wrong with the deltas of a step: done to the state before it they lead to it."""
        if "journal" not in row:
            return
        for delta in row["journal"]:
            yield from done(old, delta)
        for part in ("blocks", "pageblocks", "lists", "kernel", "pages", "settings"):
            if given(old, part) != given(self.state, part):
                yield f"{part}: the deltas lead to {given(old, part)}"

    def printed_state(self):
        """The state as `hotplug serial` prints it."""
        return "".join(f"{line}\n" for line in ["state", *self.rows(), *self.frames()])

    def rows(self):
        layout, state = self.layout, self.state
        going = []
        for number in range(layout["blocks"]):
            row = state["blocks"][str(number)]
            words = ["block", str(number), row["state"], row.get("zone")]
            yield " ".join([it for it in words if it] + ([f'op {row["op"]}'] if "op" in row else []))
            if row["state"] == "going":
                size = layout["pageblocks"]
                going += range(number * size, (number + 1) * size)
        auto = state["settings"]["auto_online_blocks"]
        if auto != "offline":
            yield f"auto: {auto}"
        unmovable = sorted(map(int, state.get("pageblocks", {})))
        for head, numbers in ("unmovable", unmovable), ("isolated", going):
            if numbers:
                yield f"{head}: {' '.join(map(str, numbers))}"

    def frames(self):
        layout, state = self.layout, self.state
        keys = [f"{it} {order}" for it in CLASSES for order in range(layout["order"] + 1)]
        keys += [f"cpu {cpu} {pool}" for cpu in range(layout["cpus"]) for pool in POOLS]
        lists = state.get("lists", {})
        yield from (f"{it}: {' '.join(map(str, lists[it]))}" for it in keys if it in lists)
        kernel = state.get("kernel", {})
        yield from (f"kernel {it} order {kernel[it]}" for it in sorted(kernel, key=int))
        pages, words = state.get("pages", {}), state.get("words", {})
        for name in self.names:
            for page in range(layout["pages"]):
                key = f"{name} {page}"
                if key in pages:
                    own = [words.get(f"{key} {it}", "0") for it in range(layout["words"])]
                    yield f"page {key} at {pages[key]}: {' '.join(own)}"


def given(state, part):
    """A part of a state, without what is as if it were not there."""
    return {key: it for key, it in state.get(part, {}).items() if it not in ([], None)}


def done(state, delta):
    """Does a delta to a state, and returns what is wrong with it."""
    name, *rest = delta
    if name in ("link", "unlink"):
        key, frame, after = rest
        frames = state.setdefault("lists", {}).setdefault(key, [])
        if name == "link":
            frames.insert(0 if after is None else frames.index(after) + 1, frame)
        elif frame not in frames or after != ([None] + frames)[frames.index(frame)]:
            yield f"{delta} of the list {frames}"
        else:
            frames.remove(frame)
    elif name == "map":
        yield from changed(state, "pages", f"{rest[0]} {rest[1]}", *rest[2:])
    elif name == "kernel":
        yield from changed(state, "kernel", str(rest[0]), *rest[1:])
    elif name == "row":
        yield from changed(state, "blocks", str(rest[0]), *rest[1:])
    elif name == "auto":
        yield from changed(state, "settings", "auto_online_blocks", *rest)
    elif name == "kind":
        was, now = ("unmovable" if it.startswith("unmovable") else None for it in rest[1:])
        yield from changed(state, "pageblocks", str(rest[0]), was, now)


def changed(state, part, key, was, now):
    """Changes a value of a state, and returns what is wrong with it."""
    values = state.setdefault(part, {})
    if values.get(key) != was:
        yield f"{part} {key} was {values.get(key)}, and not {was}"
    values[key] = now


def check_rows(checks, programs, name, scenario):
    where = f"trace --json of {name}"
    layout, calls = scenario["layout"], scenario["calls"]
    text = programs.trace(scenario, "--json")
    lines = text.splitlines()
    checks.holds(where, text.endswith("\n") and is_plain(text), "has other characters")
    head, *rows = map(json.loads, lines)
    checks.holds(where, (head["trace"], head["layout"], head["lines"]) == (1, layout, len(calls)),
                 f"begins with {lines[0]}")
    texts = [row["text"] for row in rows if "text" in row]
    checks.holds(where, texts == ["boot", *calls], f"has the lines {texts}")
    numbers = [row["line"] for row in rows]
    checks.holds(where, numbers == sorted(numbers), f"has the lines {numbers}")
    reader = Reader(head)
    for number in range(len(calls) + 1):
        faults = [it for row in rows if row["line"] == number for it in reader.take(row)]
        checks.holds(where, not faults, f"line {number}: {faults}")
        printed = programs.serial(layout, calls[:number])
        told = reader.printed + reader.printed_state()
        checks.holds(where, told == printed, f"line {number}: {told} in place of {printed}")


def is_plain(text):
    """Whether a text is printable ASCII without `<`, in lines."""
    return all(it == "\n" or " " <= it <= "~" and it != "<" for it in text)


def random_scenario(programs, some):
    """A scenario whose lines speak of what the ones before led to."""
    layout, calls = layout_of(some), []
    lines = Lines(some, layout, False)
    for _ in range(PARTS):
        calls += [lines.line() for _ in range(some.randint(1, LINES))]
        lines.seen = Seen(programs.serial(layout, calls).encode())
    return {"layout": layout, "calls": calls}


def check_json(checks, programs):
    for file in sorted((ROOT / "examples").glob("*.json")):
        check_rows(checks, programs, file.name, json.loads(file.read_text()))
    texts = hostile(ROOT)
    texts["calls"] += [f"0 echo </script><!--{HOSTILE}\U0001f600 memory1/state"]
    check_rows(checks, programs, "hostile texts", texts)
    for seed in range(SCENARIOS):
        check_rows(checks, programs, f"random {seed}", random_scenario(programs, random.Random(seed)))
