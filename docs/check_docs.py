#!/usr/bin/env python3
"""Runs every example and every output that the documents show, and compares what the program
prints, byte by byte. `check` at the top runs it after the gate; alone it takes the folder of the
crates in which the programs were built:

    python3 docs/check_docs.py [CRATES]        without CRATES: crates

What is checked, in each *.md file at the top, in docs/, examples/ and bench/:
- what `hotplug serial` prints for examples/NAME.json is examples/NAME.out, and examples/README.md
  names it;
- a code block marked `console`: each line `$ COMMAND` is run by bash at the top, with `hotplug` and
  `hotplug_lab` on the path, and prints the lines below it, standard error included; a command goes
  on after a backslash at a line's end;
- a code block marked `lines FILE`: lines and their answers in two columns, on the layout of the
  scenario FILE; a further line of an answer begins with spaces;
- a code block marked `json FILE` is that file, and one marked `state FILE` the state it prints;
- docs/pictures/NAME.svg is what `hotplug_lab trace --svg` draws of examples/NAME.json, and a
  document shows it;
- a table after `<!-- answers: FILE -->`: the first two code spans of its rows are FILE's lines and
  their answers; after `<!-- answers: FILE FIRST LAST FOLDER -->` they are some of FILE's lines, and
  the third is what a real Linux answered the same step, by one of FOLDER's transcripts;
- no other kind of block stands there but `text` (a picture) and `sh` (commands to type);
- no line has more than 100 columns, and each link has its target;
- in docs/PROVED.md, each `function` (`clause`, ..) below the heading of some crates is in the source
  of one, and each library with public functions stands in a heading;
- each path `crates/..`, `docs/..`, `examples/..`, `bench/..` or `tools/..` in a code span is there,
  but for what is built;
  and below a line "In `crates/NAME`" each path `src/..`, `specs/..` or `proofs/..`, each name and
  each `NAME.edit` in that crate.
The last line is 'documents: N passed, M failed'; the exit status is 0 where nothing failed, else 1.
"""
import functools
import json
import os
import re
import subprocess
import sys
import tempfile
from pathlib import Path

ROOT = Path(__file__).resolve().parent.parent
WIDTH = 100
SECONDS = 60


class Checks:
    """What was checked, and what failed."""

    def __init__(self):
        self.passed, self.failures = 0, []

    def holds(self, where, is_right, message):
        if is_right:
            self.passed += 1
        else:
            self.failures.append(f"{where}: {message}")

    def same(self, where, expected, got):
        self.holds(where, expected == got, f"differs\n    the document says {expected!r}\n"
                                           f"    the program says  {got!r}")

    def report(self):
        for failure in self.failures:
            print(failure)
        print(f"documents: {self.passed} passed, {len(self.failures)} failed")


# The programs

def lab_beside(program):
    """`hotplug_lab`, from the folder of the crates that `hotplug` is from."""
    return program.parents[2] / "hotplug_lab/out/hotplug_lab"


def serial(program, scenario):
    """What the program prints for the bytes of a scenario."""
    ran = subprocess.run([program, "serial"], input=scenario, stdout=subprocess.PIPE,
                         stderr=subprocess.STDOUT, timeout=SECONDS)
    return ran.stdout.decode()


def split_state(text):
    """The answers and the state of what `serial` printed; no state where it failed."""
    at = text.rfind("state\nblock 0 ")
    return (text, "") if at < 0 else (text[:at], text[at:])


def answers(program, layout, calls):
    """What each line prints: what running it as well adds to the answers of the lines before it."""
    printed, before = [], ""
    for end in range(1, len(calls) + 1):
        scenario = json.dumps({"layout": layout, "calls": calls[:end]}).encode()
        text, state = split_state(serial(program, scenario))
        if not state:
            return printed + [text.rstrip("\n")]
        printed.append(text[len(before):].rstrip("\n"))
        before = text
    return printed


def check_examples(checks, program):
    listed = (ROOT / "examples" / "README.md").read_text()
    for scenario in sorted((ROOT / "examples").glob("*.json")):
        out = scenario.with_suffix(".out")
        expected = out.read_text() if out.exists() else "no file"
        checks.same(f"examples/{scenario.name}", expected, serial(program, scenario.read_bytes()))
        checks.holds(f"examples/{scenario.name}", f"]({scenario.name})" in listed,
                     "is not in examples/README.md")


def check_pictures(checks, program):
    shown = "".join(document.read_text() for document in (ROOT / "docs").glob("*.md"))
    for picture in sorted((ROOT / "docs/pictures").glob("*.svg")):
        words = [lab_beside(program), "trace", "--svg", f"examples/{picture.stem}.json"]
        drawn = subprocess.run(words, cwd=ROOT, stdout=subprocess.PIPE, timeout=SECONDS).stdout
        checks.holds(f"docs/pictures/{picture.name}", drawn == picture.read_bytes(), "is not what is drawn")
        checks.holds(f"docs/pictures/{picture.name}", f"](pictures/{picture.name})" in shown, "is shown nowhere")


# Blocks

def commands_of(body):
    """The commands of a console block, each with the text below it."""
    commands = []
    for line in body:
        if commands and not commands[-1][1] and commands[-1][0].endswith("\\"):
            commands[-1] = (commands[-1][0] + "\n" + line, "")
        elif line.startswith("$ "):
            commands.append((line[2:], ""))
        elif commands:
            command, text = commands[-1]
            commands[-1] = (command, text + line + "\n")
    return commands


def check_console(checks, where, body, program):
    with tempfile.TemporaryDirectory() as directory:
        (Path(directory) / "hotplug").symlink_to(program)
        (Path(directory) / "hotplug_lab").symlink_to(lab_beside(program))
        path = directory + os.pathsep + os.environ["PATH"]
        for command, expected in commands_of(body):
            ran = subprocess.run(["bash", "-c", command], cwd=ROOT, stdout=subprocess.PIPE,
                                 stderr=subprocess.STDOUT, timeout=SECONDS,
                                 env={**os.environ, "PATH": path})
            checks.same(f"{where}: $ {command}", expected, ran.stdout.decode())


def check_lines(checks, where, body, file, program):
    calls, expected = [], []
    for line in body:
        if line.startswith(" "):
            expected[-1] += "\n" + line.strip()
        else:
            call, _, answer = line.partition("  ")
            calls.append(call)
            expected.append(answer.strip())
    layout = json.loads((ROOT / file).read_text())["layout"]
    printed = answers(program, layout, calls) + ["nothing"] * len(calls)
    for call, wanted, got in zip(calls, expected, printed):
        checks.same(f"{where}: {call}", wanted, got)


def check_block(checks, where, kind, body, program):
    text = "".join(line + "\n" for line in body)
    if kind == ["console"]:
        check_console(checks, where, body, program)
    elif kind[:1] == ["lines"]:
        check_lines(checks, where, body, kind[1], program)
    elif kind[:1] == ["json"]:
        checks.same(where, text, (ROOT / kind[1]).read_text())
    elif kind[:1] == ["state"]:
        checks.same(where, text, split_state(serial(program, (ROOT / kind[1]).read_bytes()))[1])
    else:
        checks.holds(where, kind in (["sh"], ["text"]), f"a block of no known kind: {kind}")


def check_table(checks, where, rows, file, program, first=1, last=None):
    """The first two code spans of a table's rows against some lines of a scenario, the first line being 1."""
    scenario = json.loads((ROOT / file).read_text())
    shown = [tuple(re.findall(r"`([^`]*)`", row)[:2]) for row in rows[2:]]
    printed = list(zip(scenario["calls"], answers(program, scenario["layout"], scenario["calls"])))
    printed = printed[first - 1:last]
    for wanted, got in zip(shown, printed):
        checks.same(where, wanted, got)
    checks.holds(where, len(shown) == len(printed),
                 f"has {len(shown)} rows, and {file} {len(printed)} lines")


def step_on_linux(call, answer):
    """The pattern of a transcript's line that shows this answer to the same step."""
    verb, *words = call.split()[1:]
    path = re.sub(r"memory\d+/", r"(memory\\d+/)?", words[-1]) if words else ""
    answer = re.escape(answer)
    if verb == "echo":
        return rf"echo '?{re.escape(words[0])}'? > {path}: {answer}"
    if verb == "cat":
        file = path.rpartition(")?")[2]
        return rf"memory32: (.* )?{file}={answer}( \w+=.*)?|cat: can't open .*: {answer}|auto: {answer}"
    return rf".*\b{answer}"


def check_linux(checks, where, rows, folder):
    """A table's third column against the transcripts of a folder."""
    seen = [line.strip() for file in (ROOT / folder).glob("*.txt") for line in file.read_text().split("\n")]
    for row in rows[2:]:
        call, _, *answer = re.findall(r"`([^`]*)`", row)
        if answer:
            pattern = re.compile(step_on_linux(call, answer[0]))
            checks.holds(where, any(pattern.fullmatch(line) for line in seen),
                         f"no transcript in {folder} answers {call} with {answer[0]}")


# Lines

def heading_anchor(title):
    return re.sub(r"[^a-z0-9 _-]", "", title.lower()).replace(" ", "-")


def check_link(checks, where, document, target):
    name, _, anchor = target.partition("#")
    file = (document.parent / name).resolve() if name else document
    titles = re.findall(r"(?m)^#+ (.*)$", file.read_text()) if file.suffix == ".md" else []
    anchors = [heading_anchor(title) for title in titles]
    checks.holds(where, file.exists() and (not anchor or anchor in anchors), f"no {target}")


def check_words(checks, where, document, line, crate):
    """The links and paths of a line, which stands below the name of a crate or of none."""
    for target in re.findall(r"\]\(([^)\s]+)\)", line):
        if "://" not in target:
            check_link(checks, where, document, target)
    for path in re.findall(r"`((?:crates|docs|examples|bench|tools)/[\w./-]+)`", line):
        checks.holds(where, (ROOT / path).exists() or "/out/" in path, f"no {path}")
    if crate:
        check_crate_words(checks, where, line, ROOT / crate)


@functools.cache
def words_of(crate):
    """The words of a crate's sources, and the names of its wrong bodies."""
    files = [file for part in ("src", "specs", "proofs") for file in (crate / part).rglob("*.*t")]
    words = {word for file in files for word in re.findall(r"[\w-]+", file.read_text())}
    return words | {edit.name for folder in ("wrong", "must-fail") for edit in (crate / folder).glob("*.edit")}


def check_crate_words(checks, where, line, crate):
    """The paths and names that a line below the name of a crate has in code spans."""
    for path in re.findall(r"`((?:src|specs|proofs)/[\w./-]+)`", line):
        checks.holds(where, (crate / path).exists(), f"no {path} in {crate.name}")
    for name in re.findall(r"`(?:\w+::)?([A-Za-z_][\w-]*(?:\.edit)?)`", line):
        there = name == "must-fail" or name in words_of(crate)
        checks.holds(where, there, f"no {name} in {crate.name}")


def crate_of(line, crate):
    """The crate that a line's paths are of, after that of the line before it."""
    begins = re.match(r"(?:- )?In `((?:crates|bench)/\w+)`", line)
    if begins:
        return begins[1]
    return None if line.startswith("#") else crate


def rows_from(lines, at):
    rows = []
    while at < len(lines) and lines[at].startswith("|"):
        rows.append(lines[at])
        at += 1
    return rows


def check_document(checks, document, program):
    lines, at, crate = document.read_text().split("\n"), 0, None
    name = document.relative_to(ROOT)
    wide = [number for number, line in enumerate(lines, 1) if len(line) > WIDTH]
    checks.holds(name, not wide, f"more than {WIDTH} columns in the lines {wide}")
    while at < len(lines):
        line, where = lines[at], f"{name}:{at + 1}"
        if line.startswith("```"):
            end = lines.index("```", at + 1)
            check_block(checks, where, line[3:].split(), lines[at + 1:end], program)
            at = end
        else:
            marked = re.fullmatch(r"<!-- answers: (\S+)(?: (\d+) (\d+) (\S+))? -->", line)
            if marked:
                file, first, last, folder = marked.groups()
                rows = rows_from(lines, at + 1)
                check_table(checks, where, rows, file, program, int(first or 1), last and int(last))
                if folder:
                    check_linux(checks, where, rows, folder)
            crate = crate_of(line, crate)
            check_words(checks, where, document, line, crate)
        at += 1


# What is proved

@functools.cache
def functions_of(crate):
    """Each function of a crate with the names of its clauses."""
    found = {}
    for file in sorted((ROOT / "crates" / crate / "src").rglob("*.rt")):
        current = None
        for line in file.read_text().split("\n"):
            begins = re.search(r"\bfn (\w+)", line)
            if begins:
                current = found.setdefault(begins[1], set())
            clause = re.match(r"\s*(?:ensures|requires) (\w+) \{", line)
            if clause and current is not None:
                current.add(clause[1])
    return found


def functions_in(crates):
    """Those of several crates; of a name that two of them have, the clauses of both."""
    found = {}
    for crate in crates:
        for function, clauses in functions_of(crate).items():
            found[function] = found.get(function, set()) | clauses
    return found


def check_item(checks, where, item, crates):
    """The functions that an item of PROVED.md names before its colon, and the clauses of each in parentheses after it."""
    known, names = functions_in(crates), ", ".join(crates)
    heads = [it.partition(": ")[0] for it in re.split(r"(?<=[.;]) (?=`)", item[2:])]
    for head in heads:
        for function, clauses in re.findall(r"`([\w:]+)`(?: \(((?:`\w+`(?:, )?)+)\))?", head):
            function = function.split("::")[-1]
            checks.holds(where, function in known, f"{names} has no {function}")
            for clause in re.findall(r"`(\w+)`", clauses):
                has = clause in known.get(function, ())
                checks.holds(where, has, f"{function} of {names} has no clause {clause}")


def is_for_tests(crate):
    """Whether a crate stands in the sections of crates.txt for tests and for measuring."""
    sections = re.split(r"(?m)^# ", (ROOT / "crates.txt").read_text())
    ours = "".join(it for it in sections if it.startswith(("tests\n", "measuring\n")))
    return re.search(rf"(?m)^{crate}\b", ours) is not None


def has_contracts(crate):
    """Whether a crate is a library of which others call functions, and so none for tests or of lemmas alone."""
    src = ROOT / "crates" / crate / "src"
    is_library = (src / "lib.rt").exists() and not is_for_tests(crate)
    return is_library and any(re.search(r"(?m)^\s*pub fn ", it.read_text()) for it in src.rglob("*.rt"))


def check_proved(checks):
    crates, headed = [], set()
    text = (ROOT / "docs" / "PROVED.md").read_text()
    for part in re.findall(r"(?m)^#+ .*|^- .*(?:\n  .*)*", text):
        if part.startswith("#"):
            crates = re.findall(r"`(\w+)`", part)
            headed.update(crates)
            for crate in crates:
                checks.holds("docs/PROVED.md", (ROOT / "crates" / crate).is_dir(), f"no crate {crate}")
        elif crates:
            check_item(checks, f"docs/PROVED.md: {part[:40]} ..", " ".join(part.split()), crates)
    for name in re.findall(r"(?m)^(\w+)", (ROOT / "crates.txt").read_text()):
        checks.holds("docs/PROVED.md", name in headed or not has_contracts(name), f"no heading of crate {name}")


def check_all(checks, program):
    for built in (program, lab_beside(program)):
        if not os.access(built, os.X_OK):
            checks.holds("documents", False, f"no program at {built}: README.md says how to build it")
            return
    check_examples(checks, program)
    check_pictures(checks, program)
    for folder in (ROOT, ROOT / "docs", ROOT / "examples", ROOT / "bench"):
        for document in sorted(folder.glob("*.md")):
            check_document(checks, document, program)
    check_proved(checks)


def main(words):
    crates = Path(words[0] if words else ROOT / "crates").resolve()
    checks = Checks()
    try:
        check_all(checks, crates / "hotplug/out/hotplug")
    except (ValueError, LookupError, OSError, subprocess.SubprocessError) as error:
        checks.holds("documents", False, f"cannot be checked: {error!r}")
    checks.report()
    return 1 if checks.failures else 0


if __name__ == "__main__":
    sys.exit(main(sys.argv[1:]))
