#!/usr/bin/env python3
"""Tries the pages that `hotplug_lab trace --html` writes. `check` at the top runs it after the gate;
alone it takes the folder of the crates in which the programs were built:

    python3 viewer/try.py [--shots FOLDER] [CRATES]        without CRATES: crates

- crates/hp_svg holds what the files of viewer/ give (viewer/build.py).
- docs/pages/NAME.html is what the program writes of examples/NAME.json, and docs/LESSONS.md or
  README.md links it.
- A page is what `trace --json` prints, within the viewer, on each file of examples/, hostile texts,
  random scenarios, 256 memory blocks, and 8,000 lines on 4,096 frames. The page of shrink-under-load
  has at most 100 KB, and the last one at most 4 MB.
- What the viewer works out for itself is what the traces of these scenarios say (check_rules.mjs,
  in node).
- In headless Chromium: keys, buttons, links and clicks lead to the steps that they should, from the
  first to the last and back; the state that a page shows after a line is the one that `hotplug
  serial` prints after the lines up to it; a frame is followed and its story told; nothing is written
  to the console, nothing is requested, and no text of a trace becomes markup or runs. A step of a
  page of at most 1,000 frames takes less than 20 ms, of a larger one less than 60.

With --shots, pictures of each page at three sizes, light and dark, are put into FOLDER. What cannot
be tried without node or Chromium is counted as skipped. The last line is 'pages: N passed, M failed'.
"""
import json
import random
import shutil
import subprocess
import sys
import tempfile
from pathlib import Path

ROOT = Path(__file__).resolve().parent.parent
sys.path.insert(0, str(ROOT / "docs"))

import build
from browser import Browser
from check_lab import Programs
from lab_json import random_scenario
from page import Page

RANDOM = 12
SECONDS = 300
MOST_BYTES = {"shrink-under-load": 100_000, "busy": 4_000_000}
HOSTILE = ["</script><script>window.ran=1</script>", "<!--<script>", "<img/src=x/onerror=ran=1>",
           "\"'`&amp;", "\u202e\u2066\u2028\u200b\ufeff", "\x1b[31m\x07\x9b", "\\u202e", "__proto__",
           "${ran=1}"]
OWNERS = ["db", "web", "vm", "cache", "log"]


class Checks:
    """What was checked, what failed, and what was skipped."""

    def __init__(self):
        self.passed, self.failures, self.skipped = 0, [], 0

    def holds(self, where, is_right, message):
        if is_right:
            self.passed += 1
        else:
            self.failures.append(f"{where}: {message}")

    def skip(self, message):
        print(f"skipped: {message}")
        self.skipped += 1

    def report(self):
        for failure in self.failures[:40]:
            print("FAIL", failure)
        skipped = f"{self.skipped} skipped, " if self.skipped else ""
        print(f"pages: {skipped}{self.passed} passed, {len(self.failures)} failed")


# Scenarios

def hostile_scenario():
    layout = {"order": 1, "pageblocks": 1, "blocks": 2, "cpus": 1, "batch": 1, "high": 1, "owners": 2,
              "pages": 2, "words": 1, "history": 100, "boot": ["normal", "movable"]}
    calls = [f"0 {what}" for text in HOSTILE for it in [text.replace(" ", "")]
             for what in (f"echo {it} memory0/state", f"cat {it}", "map db 0")]
    return {"layout": layout, "calls": calls}


class Load:
    """Random load of pages, kernel blocks, plans and undos."""

    def __init__(self, blocks, order, seed=63):
        self.some, self.blocks, self.order, self.mapped, self.calls = random.Random(seed), blocks, order, [], []
        kinds = ["normal", "movable", "movable", "movable", "offline"]
        self.layout = {"order": order, "pageblocks": 1, "blocks": blocks, "cpus": 4, "batch": 4, "high": 8,
                       "owners": len(OWNERS), "pages": min(65536, blocks << order), "words": 4,
                       "history": 1_000_000, "boot": [kinds[at % 5] for at in range(blocks)]}

    def scenario(self, lines):
        self.calls = [f"{self.some.randrange(4)} {self.call()}" for _ in range(lines)]
        return {"layout": self.layout, "calls": self.calls}

    def call(self):
        some, block = self.some, self.some.randrange(self.blocks)
        pick = some.random()
        if pick < .5 or not self.mapped:
            self.mapped.append(f"{some.choice(OWNERS)} {some.randrange(self.layout['pages'])}")
            return f"map {self.mapped[-1]}"
        if pick < .8:
            return f"unmap {self.mapped.pop(some.randrange(len(self.mapped)))}"
        if pick < .9:
            return f"write {some.choice(self.mapped)} {some.randrange(4)} {some.choice((7, 2 ** 64 - 1))}"
        return some.choice([f"kalloc {some.randrange(4)}", f"drain {some.randrange(4)}",
                            f"plan 4 off {block}", f"online {block} movable", "cat buddyinfo"])


def scenarios(programs):
    for path in sorted((ROOT / "examples").glob("*.json")):
        yield path.stem, json.loads(path.read_text())
    yield "hostile", hostile_scenario()
    for seed in range(RANDOM):
        yield f"random-{seed}", random_scenario(programs, random.Random(seed))
    yield "folded", Load(256, 10).scenario(100)
    yield "busy", Load(64, 6).scenario(8000)


# What is checked

def traced(programs, scenario, form):
    """The bytes of a scenario's trace in a form."""
    ran = subprocess.run([programs.lab, "trace", form, "-"], input=json.dumps(scenario).encode(),
                         stdout=subprocess.PIPE, check=True, timeout=SECONDS)
    return ran.stdout


def check_viewer(checks):
    checks.holds("viewer", not build.stale(), f"run viewer/build.py: {build.stale()} are stale")


def check_kept(checks, folder):
    """The pages of docs/pages, against those that the program wrote."""
    documents = [ROOT / "docs/LESSONS.md", ROOT / "README.md"]
    links = "".join(it.read_text(encoding="utf-8") for it in documents)
    for path in sorted((ROOT / "docs/pages").glob("*.html")):
        made = folder / path.name
        checks.holds(path.name, made.exists() and made.read_bytes() == path.read_bytes(),
                     "the program writes another page")
        checks.holds(path.name, f"pages/{path.name})" in links, "no document links it")


def make_pages(checks, programs, folder):
    """Writes the page of each scenario and its trace; returns the scenarios by their names."""
    made = dict(scenarios(programs))
    for name, scenario in made.items():
        trace, page = (traced(programs, scenario, form) for form in ("--json", "--html"))
        (folder / f"{name}.json").write_bytes(trace)
        (folder / f"{name}.html").write_bytes(page)
        checks.holds(name, page.decode() == build.page(trace.decode()),
                     "the page is not the trace within the viewer")
        checks.holds(name, len(page) <= MOST_BYTES.get(name, len(page)), f"has {len(page)} bytes")
    return made


def check_rules(checks, folder):
    """The replies and states that the viewer works out, against those of the traces."""
    if not shutil.which("node"):
        return checks.skip("there is no node here, so the viewer's rules were not tried")
    traces = sorted(folder.glob("*.json"))
    ran = subprocess.run(["node", ROOT / "viewer/check_rules.mjs", *traces], stdout=subprocess.PIPE,
                         stderr=subprocess.STDOUT, text=True)
    *lines, last = ran.stdout.splitlines() or [""]
    print("\n".join(line for line in lines if line.startswith("FAIL")), end="")
    words = last.split()
    is_counted = words[:1] == ["rules:"]
    checks.holds("check_rules.mjs", is_counted and ran.returncode == 0, last)
    checks.passed += int(words[1]) if is_counted else 0


def try_pages(checks, browser, made, folder, hotplug, shots):
    for name, scenario in made.items():
        try:
            page = Page(browser, checks, folder / f"{name}.html", scenario, hotplug)
            page.run()
            if shots:
                page.shoot(shots)
        except RuntimeError as fault:
            checks.holds(name, False, str(fault))


def check_browser(checks, made, folder, hotplug, shots):
    chromium = shutil.which("chromium") or shutil.which("chromium-browser")
    if not chromium:
        return checks.skip("there is no Chromium here, so no page was opened")
    browser = Browser(chromium)
    try:
        try_pages(checks, browser, made, folder, hotplug, shots)
    finally:
        browser.close()


def check_all(checks, programs, shots):
    check_viewer(checks)
    with tempfile.TemporaryDirectory() as made_in:
        folder = Path(made_in)
        made = make_pages(checks, programs, folder)
        check_kept(checks, folder)
        check_rules(checks, folder)
        check_browser(checks, made, folder, programs.hotplug, shots)


def main(words):
    shots = None
    if words[:1] == ["--shots"]:
        shots, words = Path(words[1]), words[2:]
        shots.mkdir(parents=True, exist_ok=True)
    programs = Programs(Path(words[0] if words else ROOT / "crates").resolve())
    checks = Checks()
    try:
        check_all(checks, programs, shots)
    except (ValueError, LookupError, OSError, subprocess.SubprocessError) as error:
        checks.holds("pages", False, f"cannot be tried: {error!r}")
    checks.report()
    return 1 if checks.failures else 0


if __name__ == "__main__":
    sys.exit(main(sys.argv[1:]))
