#!/usr/bin/env python3
"""Tests buddy.py beside the proved machine, call by call.

    test_buddy.py LAB [--faulty] [--calls N] [--seed S]     LAB: the program hotplug_lab

Stops at the first reply that differs, shrinks the calls to the fewest that still differ, and prints
them as a scenario. The status is 0 if nothing differs, else 1.
"""
import argparse
import json
import random
import subprocess
import sys
import tempfile
from itertools import combinations

from buddy import Allocator

LAYOUT = {"order": 3, "pageblocks": 1, "blocks": 2, "cpus": 2, "batch": 2, "high": 4, "owners": 1,
          "pages": 1, "words": 1, "history": 16777216, "boot": ["normal"] * 2}


class Oracle:
    """A session of `hotplug_lab live --json`: one line in, one object out."""

    def __init__(self, lab):
        with tempfile.NamedTemporaryFile("w", suffix=".json") as scenario:
            json.dump({"layout": LAYOUT, "calls": []}, scenario)
            scenario.flush()
            self.live = subprocess.Popen([lab, "live", "--json", scenario.name], text=True,
                                         stdin=subprocess.PIPE, stdout=subprocess.PIPE)
            self.call("0 drain 0")      # the file has been read once this is answered

    def call(self, line):
        self.live.stdin.write(line + "\n")
        self.live.stdin.flush()
        return json.loads(self.live.stdout.readline())["answer"]

    def end(self):
        self.live.communicate()


def first_difference(lab, is_faulty, calls):
    """The number of calls up to the first reply that differs, or None."""
    oracle, allocator = Oracle(lab), Allocator(LAYOUT, is_faulty)
    try:
        for count, line in enumerate(calls, 1):
            if oracle.call(line) != allocator.call(line):
                return count
        return None
    finally:
        oracle.end()


def random_call(some):
    verb, most = some.choice([("kalloc", 4), ("kalloc", 2), ("kfree", 15), ("kfree", 16), ("drain", 1)])
    return f"{some.randint(0, 1)} {verb} {some.randint(0, most)}"


def shrunk(lab, is_faulty, calls):
    """The fewest calls found that still differ: leaves out parts as long as some reply differs."""
    is_smaller = True
    while is_smaller:
        is_smaller = False
        for gone in parts(len(calls)):
            fewer = [line for at, line in enumerate(calls) if at not in gone]
            count = first_difference(lab, is_faulty, fewer)
            if count:
                calls, is_smaller = fewer[:count], True
                break
    return calls


def parts(count):
    """Places to leave out: long parts first, then single places, then pairs."""
    size = count // 2
    while size:
        yield from (range(at, at + size) for at in range(0, count - size + 1, size))
        size //= 2
    yield from combinations(range(count), 2)


def main():
    words = argparse.ArgumentParser(description=__doc__.split("\n")[0])
    words.add_argument("lab")
    words.add_argument("--faulty", action="store_true")
    words.add_argument("--calls", type=int, default=2000)
    words.add_argument("--seed", type=int, default=1)
    asked = words.parse_args()
    some = random.Random(asked.seed)
    calls = [random_call(some) for _ in range(asked.calls)]
    count = first_difference(asked.lab, asked.faulty, calls)
    if count is None:
        print(f"{len(calls)} calls: no difference")
        return 0
    fewest = shrunk(asked.lab, asked.faulty, calls[:count])
    print(f"call {count} differs, and so does the last of these {len(fewest)}:", file=sys.stderr)
    print(json.dumps({"layout": LAYOUT, "calls": fewest}))
    return 1


if __name__ == "__main__":
    sys.exit(main())
