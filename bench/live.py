#!/usr/bin/env python3
"""Measures how fast `hotplug_lab live --json` replies, on the program that was built:

    python3 bench/live.py [CRATES]        without CRATES: crates

- 400,000 random lines (maps, unmaps, writes and reads of four owners' pages), down a pipe in blocks
  of 64 KiB: lines a second, three times.
- 50,000 of them one at a time, each reply read before the next line is written: the least of three
  times a line, and beside it that of `cat -u`.
"""
import json
import os
import random
import subprocess
import sys
import tempfile
import threading
import time
from pathlib import Path

ROOT = Path(__file__).resolve().parent.parent
LINES, TRIPS, BLOCK = 400_000, 50_000, 65_536
LAYOUT = {"order": 4, "pageblocks": 2, "blocks": 8, "cpus": 4, "batch": 4, "high": 8, "owners": 4,
          "pages": 64, "words": 4, "history": 16777216, "boot": ["normal"] * 4 + ["movable"] * 4}


def lines(some):
    for _ in range(LINES):
        cpu, page = some.randrange(4), f"o{some.randrange(4)} {some.randrange(64)}"
        verb, end = some.choices([("map", ""), ("unmap", ""), ("write", f" {some.randrange(4)} 7"),
                                  ("read", " 0")], (35, 25, 20, 20))[0]
        yield f"{cpu} {verb} {page}{end}\n".encode()


def started(command):
    return subprocess.Popen(command, stdin=subprocess.PIPE, stdout=subprocess.PIPE, bufsize=0)


def feed(stream, text):
    for at in range(0, len(text), BLOCK):
        stream.write(text[at:at + BLOCK])
    stream.close()


def rate(command, text):
    """Lines a second."""
    began, program = time.perf_counter(), started(command)
    feeder = threading.Thread(target=feed, args=(program.stdin, text))
    feeder.start()
    count = 0
    while block := program.stdout.read(1 << 20):
        count += block.count(b"\n")
    feeder.join()
    program.wait()
    if count != LINES:
        raise ValueError(f"{count} replies to {LINES} lines")
    return count / (time.perf_counter() - began)


def trip(command, some):
    """The microseconds of a line and its reply, the least of three times."""
    program, best = started(command), float("inf")
    for _ in range(3):
        began = time.perf_counter()
        for line in some:
            os.write(program.stdin.fileno(), line)
            while not os.read(program.stdout.fileno(), BLOCK).endswith(b"\n"):
                pass
        best = min(best, time.perf_counter() - began)
    program.stdin.close()
    program.wait()
    return best / len(some) * 1e6


def main(words):
    lab = Path(words[0] if words else ROOT / "crates").resolve() / "hotplug_lab/out/hotplug_lab"
    asked = list(lines(random.Random(64)))
    with tempfile.NamedTemporaryFile("w", suffix=".json") as file:
        json.dump({"layout": LAYOUT, "calls": []}, file)
        file.flush()
        live = [lab, "live", "--json", file.name]
        for _ in range(3):
            print(f"{rate(live, b''.join(asked)):,.0f} lines a second")
        print(f"a line and its reply: {trip(live, asked[:TRIPS]):.1f} us, of cat"
              f" {trip(['cat', '-u'], asked[:TRIPS]):.1f} us")


if __name__ == "__main__":
    main(sys.argv[1:])
