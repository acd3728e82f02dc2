#!/usr/bin/env python3
"""Plays random scenarios on `hotplug` and on hand-written Rust of the same meaning (peer/).

    bench/differ.py [--scenarios N] [--seed S] [--ours PROGRAM]

Both programs get the same text, and have to print the same bytes and to end with the same status,
for `serial` and, where all lines are one processor's, for `run` and `audit`. A scenario has a small
random layout and lines of every kind. It is made in parts: what the peer prints after one part (the
operations that are live, the state) is what most lines of the next part speak of, so that calls
succeed about as often as they are refused. One in eight texts is spoiled: a key more or less, a
number out of its range, a line that is none, a byte changed. It builds the peer (cargo, no network)
and runs what `rt run` built in crates/hotplug (--ours: another program). The first text on which the
programs differ is left in the file that it names, and the status is 1.
"""
import argparse
import collections
import json
import random
import re
import subprocess
import sys
from pathlib import Path

HERE = Path(__file__).resolve().parent
PEER = HERE / "peer" / "target" / "release" / "hotplug"
NAMES = ["db", "web", "a_1", "cache"]
ZONES = ["normal", "movable"]
STATES = ["online", "online_kernel", "online_movable", "offline"]
# parts of a scenario, and lines of a part
PARTS, LINES = 9, 8


class Answer:
    """What a command of a program made of a text."""

    def __init__(self, program, text, command="serial"):
        ran = subprocess.run([program, command], input=text, capture_output=True, timeout=60)
        self.out, self.err, self.status = ran.stdout, ran.stderr, ran.returncode

    def is_as(self, other):
        return (self.out, self.err, self.status) == (other.out, other.err, other.status)


def layout_of(some):
    """A random layout within the limits, small enough that things go wrong."""
    order, pageblocks = some.randint(0, 4), some.choice([1, 1, 2, 4])
    blocks, high = some.randint(1, 6), some.randint(1, 6)
    return {"order": order, "pageblocks": pageblocks, "blocks": blocks, "cpus": some.randint(1, 4),
            "batch": some.randint(1, high), "high": high, "owners": some.randint(1, 3),
            "pages": some.randint(1, 12), "words": some.randint(1, 3),
            "history": some.choice([12, 60, 10_000, 10_000, 10_000]),
            "boot": [some.choice(["normal", "normal", "movable", "movable", "offline", "absent"])
                     for _ in range(blocks)]}


class Seen:
    """What the lines so far led to, read off the peer's output."""

    def __init__(self, out=b""):
        text = out.decode()
        answers, _, state = text.partition("state\n")
        self.serials = [int(it) for it in re.findall(r"^(\d+): ", answers, re.M)] or [0]
        opened = re.findall(r"^\d+: opened (\d+)$", answers, re.M)
        self.live = sorted({int(it) for it in re.findall(r" op (\d+)$", state, re.M)})
        self.ended = [int(it) for it in opened if int(it) not in self.live][-2:]
        self.blocks = re.findall(r"^block (\d+) (online|offline)(?: \w+)?$", state, re.M)
        self.pages = re.findall(r"^page (\w+) (\d+) at", state, re.M)
        self.kernel = [int(it) for it in re.findall(r"^kernel (\d+) order", state, re.M)]


class Lines:
    """Random lines for a layout."""

    def __init__(self, some, layout, is_lone):
        self.some, self.layout, self.is_lone, self.seen = some, layout, is_lone, Seen()

    def below(self, count):
        """A number below a count, or now and then the count itself."""
        return self.some.randint(0, count - 1) if self.some.random() < 0.97 else count

    def cpu(self):
        return self.below(self.layout["cpus"])

    def block(self):
        return self.below(self.layout["blocks"])

    def new_page(self):
        owners = self.layout["owners"] + (self.some.random() < 0.03)
        return f"{self.some.choice(NAMES[:owners])} {self.below(self.layout['pages'])}"

    def old_page(self):
        if self.seen.pages and self.some.random() < 0.8:
            return " ".join(self.some.choice(self.seen.pages))
        return self.new_page()

    def operation(self):
        if self.seen.live and self.some.random() < 0.9:
            return self.some.choice(self.seen.live)
        return self.some.choice([*self.seen.ended, 1, 2**64 - 1])

    def item(self):
        """A part of a plan, most often one that fits the block."""
        if self.seen.blocks and self.some.random() < 0.85:
            block, state = self.some.choice(self.seen.blocks)
            return f" off {block}" if state == "online" else f" {self.some.choice(ZONES)} {block}"
        return f" {self.some.choice(['off', 'off', *ZONES])} {self.block()}"

    def plan(self):
        count = self.some.choice([1, 1, 1, 1, 1, 1, 2, 2, 3]) if self.some.random() < 0.97 else 0
        return "".join(self.item() for _ in range(count))

    def kfree(self):
        if self.seen.kernel and self.some.random() < 0.8:
            return f"kfree {self.some.choice(self.seen.kernel)}"
        return f"kfree {self.below(64)}"

    def write(self):
        value = self.some.choice([0, 0, 1, 7, 2**64 - 1])
        return f"write {self.old_page()} {self.below(self.layout['words'])} {value}"

    def echo(self):
        size = self.layout["pageblocks"] * 2 ** self.layout["order"] * self.layout["words"] * 8
        address = self.block() * size + (self.some.random() < 0.1)
        word, block = self.some.choice(STATES), f"memory{self.block()}"
        return "echo " + self.some.choice([
            f"{word} {block}/state", f"{word} {block}/state", f"{self.some.randint(0, 2)} {block}/online",
            f"0x{address:x} probe", f"0x{address:X} probe", f"{word} auto_online_blocks",
            f"1 {block}/removable", "online nothing"])

    def cat(self):
        return "cat " + self.some.choice([
            "block_size_bytes", "buddyinfo", "buddyinfo", "probe", "auto_online_blocks", "memory0/nothing",
            *[f"memory{self.block()}/{it}" for it in ["state", "online", "valid_zones", "removable"]]])

    def undo(self):
        back = self.some.choice([1, 2, 3, 5, 20, 0, -1])
        return f"undo {max(0, self.seen.serials[-1] - back)}"

    def line(self):
        """One line, most of which a machine can answer."""
        some, busy = self.some, 1 if self.seen.live else 0.1
        kinds = [
            (14, lambda: f"map {self.new_page()}"),
            (5, lambda: f"unmap {self.old_page()}"),
            (6, self.write),
            (3, lambda: f"read {self.old_page()} {self.below(self.layout['words'])}"),
            (8, lambda: f"kalloc {self.below(self.layout['order'] + 1) if some.random() < 0.5 else 0}"),
            (6, self.kfree),
            (3, lambda: f"drain {self.cpu()}"),
            (4, lambda: f"online {self.block()} {some.choice(ZONES)}"),
            (2, lambda: f"remove {self.block()}"),
            (5, lambda: f"begin{self.plan()}"),
            (6 * busy, lambda: f"drainfor {self.operation()} {self.cpu()}"),
            (8 * busy, lambda: f"migrate {self.operation()}"),
            (6 * busy, lambda: f"commit {self.operation()}"),
            (4 * busy, lambda: f"cancel {self.operation()}"),
            (4, self.undo),
            (5, lambda: f"plan {some.choice([0, 1, 2, 9])}{self.plan()}"),
            (5, self.echo),
            (0 if self.is_lone else 4, self.cat),
            (1, lambda: "seal")]
        make, = some.choices([make for _, make in kinds], [weight for weight, _ in kinds])
        return f"{0 if self.is_lone else self.cpu()} {make()}"


def scenario_of(some, is_lone):
    """A random scenario, made in parts; is_lone: with lines of processor 0 alone."""
    layout = layout_of(some)
    lines, calls = Lines(some, layout, is_lone), []
    for _ in range(PARTS):
        calls += [lines.line() for _ in range(some.randint(1, LINES))]
        lines.seen = Seen(Answer(PEER, text_of({"layout": layout, "calls": calls})).out)
    return {"layout": layout, "calls": calls}


def text_of(scenario):
    return json.dumps(scenario).encode()


def spoiled(some, scenario):
    """The text with something wrong in it, most often."""
    layout, calls = scenario["layout"], scenario["calls"]
    key = some.choice([*layout])
    what = some.randint(0, 6)
    if what == 0:
        layout[key] = some.choice([0, 1, 7, 65, 2**20 + 1, 2**32, -1, 1.5, "2", None, [], ["normal"], ["none"]])
    elif what == 1:
        del layout[key]
    elif what == 2:
        scenario[some.choice(["more", "layouts"])] = 1
    elif what == 3:
        at = some.randrange(len(calls))
        line = calls[at]
        calls[at] = some.choice([line + " ", " " + line, line + " 1", line.upper(), line.replace(" ", "  ", 1), "",
                                 7, "0 map Db 0", f"0 map {'a' * 33} 0", "0 kalloc 00", "0 kalloc 4294967296",
                                 "0 undo 18446744073709551616", "0 plan", "4294967295 seal"])
    text = bytearray(text_of(scenario))
    if what == 4:
        text[some.randrange(len(text))] = some.randint(0, 255)
    elif what == 5:
        del text[some.randrange(len(text)):]
    elif what == 6:
        text = bytearray(text_of(scenario).replace(b'{"layout"', b'{"calls": [], "layout"', 1))
    return bytes(text)


def kinds_in(answer):
    """The kinds of answers that a program gave, without their numbers."""
    lines = answer.out.decode().partition("state\n")[0]
    kinds = re.findall(r"^(?:\d+: )?([a-z]+:?(?: refused)?(?: [A-Z]\w+)?)", lines, re.M)
    return [*kinds, answer.err.decode().strip() or "no fault"]


def main():
    words = argparse.ArgumentParser(description="Compares `hotplug serial` with the peer on random scenarios.")
    words.add_argument("--scenarios", type=int, default=2000)
    words.add_argument("--seed", type=int, default=1)
    words.add_argument("--ours", type=Path, default=HERE.parent / "crates" / "hotplug" / "out" / "hotplug")
    choice = words.parse_args()
    subprocess.run(["cargo", "build", "--release", "--offline", "--quiet"], cwd=HERE / "peer", check=True)
    answers = collections.Counter()
    for number in range(choice.seed, choice.seed + choice.scenarios):
        some = random.Random(number)
        is_lone = number % 4 == 0
        scenario = scenario_of(some, is_lone)
        text = spoiled(some, scenario) if some.random() < 0.125 else text_of(scenario)
        for command in ["serial", "run", "audit"][: 3 if is_lone else 1]:
            ours, peer = Answer(choice.ours, text, command), Answer(PEER, text, command)
            if not ours.is_as(peer):
                left = Path(f"differs-{number}.json")
                left.write_bytes(text)
                print(f"{left}: {command} differs")
                return 1
            answers.update(kinds_in(ours))
    for answer, count in sorted(answers.items()):
        print(f"{count:8} {answer}")
    print(f"{choice.scenarios} scenarios, no difference")
    return 0


if __name__ == "__main__":
    sys.exit(main())
