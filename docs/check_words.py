#!/usr/bin/env python3
"""Tries the command lines of both programs. `check` at the top runs it after the gate; alone it
takes the folder of the crates:

    python3 docs/check_words.py [CRATES]        without CRATES: crates

Of `hotplug`: each command writes what it alone writes, and other words end with status 2 and the
names of the commands; it reads no names for results. Of `hotplug_lab`: wrong names for results are
explained, by `check` and by `live`, and their line is named elsewhere; each option has its place and its default, the file is
read as standard input is, `-` names standard input, a file that is not read is named, the status is
that of the help, and other words, or words that contradict one another, end with status 2.
The last line is 'words: N passed, M failed'; the exit status is 0 where nothing failed, else 1.
"""
import json
import os
import re
import subprocess
import sys
import tempfile
from pathlib import Path

ROOT = Path(__file__).resolve().parent.parent
SECONDS = 60
LAYOUT = {"order": 1, "pageblocks": 1, "blocks": 2, "cpus": 2, "batch": 1, "high": 1, "owners": 1,
          "pages": 2, "words": 1, "history": 100, "boot": ["normal", "movable"]}
CALLS = ["0 map db 0", "0 write db 0 0 7", "1 map db 1", "0 kalloc 0", "1 unmap db 1",
         "0 read db 0 0", "1 drain 1", "0 kfree 0", "1 map db 1"]
READS = 13
READ_ORDERS = 10400600
NO_COMMAND = "hotplug: serial, run or audit\n"
UNCOUNTED = "hotplug_lab: with --find or --never, --jobs cannot be used with --limit\n"
NO_SCENARIO = "hotplug_lab: no such interleaving was found, so no scenario is written\n"


class Checks:
    """What was checked, and what failed."""

    def __init__(self):
        self.passed, self.failures = 0, []

    def holds(self, where, is_right, message):
        if is_right:
            self.passed += 1
        else:
            self.failures.append(f"{where}: {message}")

    def same(self, where, expected, got):
        self.holds(where, expected == got, f"{got!r} in place of {expected!r}")


class Program:
    """One of the programs."""

    def __init__(self, path):
        self.path = path

    def call(self, *words, scenario=None, text=b""):
        """The exit status, standard output and standard error, for a scenario or a text."""
        if scenario is not None:
            text = json.dumps(scenario).encode()
        ran = subprocess.run([self.path, *words], input=text, capture_output=True, timeout=SECONDS)
        return ran.returncode, ran.stdout.decode(), ran.stderr.decode()


def scenario_of(calls):
    return {"layout": LAYOUT, "calls": calls}


# hotplug

def check_commands(checks, hotplug):
    whole = scenario_of(CALLS)
    forms = {"serial": r"1: done\n(.*\n)*state\nblock 0 (.*\n)*",
             "run": rf"cpu 0\n(.*\n)*cpu 1\n(.*\n)*{len(CALLS)} records\n",
             "audit": rf"(.*\n)*audit ok\n"}
    for word, form in forms.items():
        status, out, error = hotplug.call(word, scenario=whole)
        checks.same(f"hotplug {word}", (0, ""), (status, error))
        checks.holds(f"hotplug {word}", re.fullmatch(form, out), f"writes {out!r}")
    for words in ((), ("walk",), ("",), ("help",), ("--help",), ("--serial",), ("run", "twice"),
                  ("serial", "run")):
        checks.same(f"hotplug {words}", (2, "", NO_COMMAND), hotplug.call(*words, scenario=whole))


# Names for results

NAMED = ["0 begin off 1 as out", "0 kalloc 0 as own", "1 kalloc 0 as other"]
UNKNOWN = "is no result of an earlier line of its processor"
NOT_HERE = "may come for an OP and for a kfree's FRAME alone"
NO_RESULT = "names no result: only a begin and a kalloc have one"
WRONG = {
    "0 migrate $owt": f"`$owt` {UNKNOWN}; perhaps `$out`; wanted: C migrate OP",
    "0 kfree $ow": f"`$ow` {UNKNOWN}; perhaps `$own`; wanted: C kfree FRAME",
    "0 kfree $other": f"`$other` {UNKNOWN}; it is one of processor 1; wanted: C kfree FRAME",
    "1 cancel $out": f"`$out` {UNKNOWN}; it is one of processor 0; wanted: C cancel OP",
    "0 commit $nothing": f"`$nothing` {UNKNOWN}; wanted: C commit OP",
    "0 kfree $": f"`$` {UNKNOWN}; wanted: C kfree FRAME",
    "0 drainfor $own 1": "`$own` is a frame, not an operation; wanted: C drainfor OP CPU",
    "0 kfree $out": "`$out` is an operation, not a frame; wanted: C kfree FRAME",
    "0 map $own 0": f"`$own` {NOT_HERE}; wanted: C map NAME PAGE",
    "0 drainfor 1 $out": f"`$out` {NOT_HERE}; wanted: C drainfor OP CPU",
    "0 drainfor $out $own": f"`$own` {NOT_HERE}; wanted: C drainfor OP CPU",
    "0 undo $out": f"`$out` {NOT_HERE}; wanted: C undo SERIAL",
    "0 echo $out": "wanted: C echo TEXT PATH",
    "0 migrate $out as x": f"`x` {NO_RESULT}; wanted: C migrate OP",
    "0 drain 0 as x": f"`x` {NO_RESULT}; wanted: C drain CPU",
    "0 kalloc 0 as Own": "`Own` has capital letters; wanted: C kalloc ORDER",
    "0 kalloc 0 as 1x": "`1x` is no name; wanted: C kalloc ORDER",
    "0 kalloc 00 as k": "`00` has a zero in front; wanted: C kalloc ORDER",
    "0 kalloc as k": "wanted: C kalloc ORDER",
    "0 drainfor $out": "wanted: C drainfor OP CPU",
}
RIGHT = ["0 drainfor $out 1", "0 migrate $out", "0 commit $out", "0 kfree $own", "1 kfree $other",
         "1 begin off 1 as other", "0 begin off 1 off 0 as out", "0 begin as none"]


def live_reply(lab, calls, line):
    """What `live --json` replies to a line after a scenario."""
    with tempfile.NamedTemporaryFile("w", suffix=".json") as file:
        json.dump(scenario_of(calls), file)
        file.flush()
        _, out, _ = lab.call("live", "--json", file.name, text=line.encode())
    return json.loads(out)


def check_names(checks, hotplug, lab):
    """Each wrong name is explained, and makes its line no line; each right one makes it a line, but
    not for `hotplug`."""
    for line, said in WRONG.items():
        wrong = scenario_of(NAMED + [line])
        expected = (1, f"calls 4 (line 1): `{line}`: {said}\nfaults: 1, warnings: 0\n", "")
        checks.same(f"check of {line}", expected, lab.call("check", scenario=wrong))
        for words in (("trace",), ("trace", "--json"), ("explore",), ("explore", "--setup", "4"),
                      ("explore", "--find", "done"), ("trace", "--log")):
            status, out, error = lab.call(*words, scenario=wrong)
            checks.same(f"{words} of {line}", (1, ""), (status, out))
            checks.holds(f"{words} of {line}", "line 4 not understood\n" in error, f"says {error!r}")
        checks.same(f"live: {line}", {"line": 4, "text": "", "fault": "no line", "hint": said},
                    live_reply(lab, NAMED, line))
    for line in RIGHT:
        status, out, _ = lab.call("check", scenario=scenario_of(NAMED + [line]))
        checks.holds(f"check of {line}", (status, "faults: 0," in out) == (0, True), f"says {out!r}")
        checks.same(f"live: {line}", 4, live_reply(lab, NAMED, line).get("serial"))
    for calls in (NAMED[:1], NAMED[1:2]):
        for word in ("serial", "run", "audit"):
            checks.same(f"hotplug {word} of {calls}", (1, "", "hotplug: line 1 not understood\n"),
                        hotplug.call(word, scenario=scenario_of(calls)))


# hotplug_lab

def lines_shown(trace):
    """The numbers of the lines that a trace has rows of."""
    return [int(number) for number in re.findall(r"(?m)^ {0,3}(\d+) \d", trace)]


def check_file(checks, lab, word, scenario):
    """A word reads the file that is named as it reads standard input."""
    expected = lab.call(word, scenario=scenario)
    with tempfile.NamedTemporaryFile("w", suffix=".json") as file:
        json.dump(scenario, file)
        file.flush()
        checks.same(f"hotplug_lab {word} FILE", expected, lab.call(word, file.name))
    checks.same(f"hotplug_lab {word} -", expected, lab.call(word, "-", scenario=scenario))
    for name, shown in (("no file", "no file"), ("no\x1b[31m\nfile", "no\\u001b[31m\\nfile")):
        error = f"hotplug_lab: {shown}: file not opened\n"
        checks.same(f"hotplug_lab {word} of no file", (1, "", error), lab.call(word, name))
    checks.same(f"hotplug_lab {word} of a folder", (1, "", "hotplug_lab: /: reading failed\n"),
                lab.call(word, "/"))


def check_explore(checks, lab):
    scripts = scenario_of(CALLS[:6])
    plain = lab.call("explore", scenario=scripts)
    checks.same("explore", (0, "interleavings: 15"), (plain[0], plain[1].split("\n")[0]))
    checks.same("explore --setup 0", plain, lab.call("explore", "--setup", "0", scenario=scripts))
    for setup, count in ((1, 10), (2, 6), (3, 3), (5, 1)):
        options = ("--limit", str(count), "--setup", str(setup))
        status, out, _ = lab.call("explore", *options, scenario=scripts)
        checks.same(f"explore {options}", (0, f"interleavings: {count}"),
                    (status, out.split("\n")[0]))
    check_limits(checks, lab, scripts)
    checks.same("explore --setup 6", 0, lab.call("explore", "--setup", "6", scenario=scripts)[0])
    past = (1, "", "hotplug_lab: 7 is past the last line, 6\n")
    checks.same("explore --setup 7", past, lab.call("explore", "--setup", "7", scenario=scripts))
    check_replays(checks, lab, scripts)
    check_groups(checks, lab, scripts)
    check_unbegun(checks, lab)
    check_progress(checks, lab)
    many = scenario_of([f"{cpu} read db 0 0" for cpu in (0, 1)] * READS)
    status, out, _ = lab.call("explore", scenario=many)
    checks.same("explore by default", (0, f"interleavings: {READ_ORDERS}"),
                (status, out.split("\n")[0]))
    status, out, _ = lab.call("explore", "--limit", str(READ_ORDERS - 1), scenario=many)
    checks.same(f"explore --limit {READ_ORDERS - 1}",
                (3, f"{READ_ORDERS} interleavings; these are the first {READ_ORDERS - 1}"),
                (status, out.split("\n")[0]))


def check_limits(checks, lab, scripts):
    """Past the limit the first interleavings are told; memory and time end each search, and a limit
    one for an end; a history that is too short has a fault."""
    ends = [json.loads(line) for line in
            lab.call("explore", "--setup", "1", "--json", scenario=scripts)[1].splitlines()]
    for limit in range(11):
        options = ("--setup", "1", "--limit", str(limit))
        status, out, error = lab.call("explore", *options, scenario=scripts)
        told = (0, "interleavings: 10", "")
        if limit < 10:
            told = (3, f"10 interleavings; these are the first {limit}", "")
        checks.same(f"explore {options}", told, (status, out.split("\n")[0], error))
        status, out, _ = lab.call("explore", *options, "--json", scenario=scripts)
        told = [json.loads(line) for line in out.splitlines()]
        if limit < 10:
            checks.same(f"explore {options} --json", {"first": limit, "interleavings": 10},
                        told.pop())
        checks.same(f"explore {options} --json", min(limit, 10),
                    sum(end["interleavings"] for end in told))
        for end, whole in zip(told, ends):
            checks.same(f"explore {options} --json", {**whole, "interleavings": 0},
                        {**end, "interleavings": 0})
    status, out, _ = lab.call("explore", "--limit", "2",
                              scenario=scenario_of(["0 plan 2 off 1", "1 drain 0"]))
    checks.same("explore of a plan", (3, "more than 2 interleavings; these are the first 2"),
                (status, out.split("\n")[0]))
    for option, absent in (("--find", 3), ("--never", 0)):
        options = ("--setup", "1", option, "refused Busy")
        for budget, number in (("--limit", "0"), ("--limit", "1"), ("--memory", "0"),
                               ("--seconds", "0")):
            where = f"explore {options} {budget} {number}"
            status, out, error = lab.call("explore", *options, budget, number, scenario=scripts)
            checks.same(where, (3, "ends so: unknown\n"), (status, out))
            said = rf"hotplug_lab: stopped after \d+ states \({budget}\)\n"
            checks.holds(where, re.fullmatch(said, error), f"says {error!r}")
        for budget, number in (("--limit", "1000000"), ("--memory", "1"), ("--seconds", "1000")):
            checks.same(f"explore {options} {budget} {number}", (absent, "ends so: 0\n", ""),
                        lab.call("explore", *options, budget, number, scenario=scripts))
    for budget, number in (("--memory", "0"), ("--seconds", "0")):
        status, out, error = lab.call("explore", "--setup", "1", budget, number, scenario=scripts)
        checks.same(f"explore {budget} {number}", 3, status)
        is_so = re.match(r"10 interleavings; these are the first \d\nends: ", out)
        checks.holds(f"explore {budget} {number}", is_so, f"writes {out!r}")
        said = rf"hotplug_lab: stopped after \d+ states \({budget}\)\n"
        checks.holds(f"explore {budget} {number}", re.fullmatch(said, error), f"says {error!r}")
    for budget, number in (("--memory", "1"), ("--seconds", "1000")):
        checks.same(f"explore {budget} {number}", lab.call("explore", scenario=scripts),
                    lab.call("explore", budget, number, scenario=scripts))
    short = {"layout": {**LAYOUT, "history": 5}, "calls": CALLS[:6]}
    full = "hotplug_lab: no room in the history for all calls of an interleaving"
    checks.same("explore with a short history", (1, "", f"{full}: it needs 6 records\n"),
                lab.call("explore", "--setup", "2", scenario=short))
    short["calls"] = ["0 plan 9 off 1"]
    checks.same("explore of a plan with a short history", (1, "", f"{full}\n"),
                lab.call("explore", scenario={**short, "layout": {**LAYOUT, "history": 2}}))


def check_progress(checks, lab):
    """With `--progress` it is told how far a search is, though standard error is no terminal."""
    scenario = scenario_of([f"{cpu} undo 0" for cpu in (0, 1)] * 7)
    for options, form in (((), ""), (("--progress",), r"(\d+ interleavings so far\n)+")):
        status, out, error = lab.call("explore", *options, scenario=scenario)
        checks.same(f"explore {options}", (0, "interleavings: 3432"), (status, out.split("\n")[0]))
        checks.holds(f"explore {options}", re.fullmatch(form, error), f"says {error!r}")
    options = ("--never", "word 3", "--progress")
    status, out, error = lab.call("explore", *options, scenario=scenario)
    checks.same(f"explore {options}", (0, "ends so: 0\n"), (status, out))
    form = r"(\d+ states so far, \d+ a second\n)+"
    checks.holds(f"explore {options}", re.fullmatch(form, error), f"says {error!r}")


def check_groups(checks, lab, scripts):
    """Ends are put together by blocks or by answers, and by nothing else; a line of a summary has
    at most 100 columns, however many memory blocks there are."""
    for by in ("blocks", "answers"):
        status, out, error = lab.call("explore", "--group", by, scenario=scripts)
        checks.same(f"explore --group {by}", (0, "interleavings: 15", ""),
                    (status, out.split("\n")[0], error))
    for by in ("", "block", "Blocks", "ends", "blocks,answers"):
        refused = "hotplug_lab: --group may be blocks, answers or plans\n"
        checks.same(f"explore --group={by}", (2, "", refused),
                    lab.call("explore", f"--group={by}", scenario=scripts))
    for boot in (["normal", "movable"] * 16, ["normal"] * 20 + ["movable"] * 11 + ["offline"],
                 ["normal", "movable"] * 9, [*["normal", "movable"] * 8, "normal", "offline"],
                 [*["normal", "movable"] * 9, "normal"]):
        wide = {"layout": {**LAYOUT, "blocks": len(boot), "boot": boot}, "calls": ["0 drain 0"]}
        checks.same(f"explore --summary of {boot}",
                    (0, ["interleavings: 1", "ends: 1", summary_line(boot)], ""),
                    lines_of(lab.call("explore", "--summary", scenario=wide)))


def lines_of(result):
    status, out, error = result
    return status, out.splitlines(), error


def summary_line(boot):
    """The line of the only end, with all blocks as they are at boot, or cut at 100 columns."""
    words, first, runs = {"normal": "N", "movable": "M", "offline": "off"}, 0, []
    for last, state in enumerate(boot):
        if last + 1 == len(boot) or boot[last + 1] != state:
            runs.append(f" {first}-{last}:{words[state]}" if first < last else f" {first}:{words[state]}")
            first = last + 1
    whole = "end 1: 1, 100.0 %,"
    if len(whole + "".join(runs)) <= 100:
        return whole + "".join(runs)
    for run in runs:
        if len(whole + run + " ..") > 100:
            return whole + " .."
        whole += run


def check_unbegun(checks, lab):
    """Scripts that use 0 before any begin of their processor are told, whatever becomes of them."""
    calls = ["0 begin off 1", "1 commit 0", "0 commit 0", "1 commit 0", "1 begin off 1"]
    told = "hotplug_lab: line {}: 0 is no operation: processor {} has begun none\n"
    for setup, expected in ((0, told.format(2, 1)), (2, told.format(4, 1)), (4, "")):
        for options in ((), ("--json",), ("--find", "refused NoOp"), ("--never", "word 3")):
            status, out, error = lab.call("explore", "--setup", str(setup), *options,
                                          scenario=scenario_of(calls))
            checks.holds(f"explore --setup {setup} {options}", status in (0, 3) and out,
                         f"ends with {status} and writes {out!r}")
            checks.same(f"explore --setup {setup} {options}", expected, error)


def check_replays(checks, lab, scripts):
    """An end that there is, and none; and with a search 1 alone."""
    for options in (("--scenario", "1"), ("--find", "done", "--scenario", "1")):
        status, out, error = lab.call("explore", *options, scenario=scripts)
        checks.same(f"explore {options}", (0, ""), (status, error))
        checks.same(f"explore {options}", LAYOUT, json.loads(out)["layout"])
    for number in ("0", "99"):
        options = ("--scenario", number)
        checks.same(f"explore {options}", (3, "", NO_SCENARIO),
                    lab.call("explore", *options, scenario=scripts))
    for option, status in (("--find", 3), ("--never", 0)):
        options = (option, "refused Busy", "--scenario", "1")
        checks.same(f"explore {options}", (status, "", NO_SCENARIO),
                    lab.call("explore", *options, scenario=scripts))
    twice = (2, "", "hotplug_lab: a search tells one interleaving: --scenario 1\n")
    for option in ("--find", "--never"):
        options = (option, "done", "--scenario", "2")
        checks.same(f"explore {options}", twice, lab.call("explore", *options, scenario=scripts))


def cut_off(text):
    """A text without its last line."""
    return "".join(text.splitlines(keepends=True)[:-1])


def check_parts(checks, lab, scripts):
    """Parts are summed from files and from standard input; other numbers are refused."""
    plain = lab.call("explore", scenario=scripts)
    parts = [lab.call("explore", "--part", f"{number}/2", scenario=scripts) for number in (1, 2)]
    checks.same("explore --part", [(0, "")] * 2, [(status, error) for status, _, error in parts])
    with tempfile.TemporaryDirectory() as folder:
        files = [Path(folder) / "one.json", Path(folder) / "other.json"]
        for file, (_, text, _) in zip(files, parts, strict=True):
            file.write_text(text)
        checks.same("sum FILE FILE", plain, lab.call("sum", *reversed(files)))
        checks.same("sum FILE", (1, "", "hotplug_lab: part 2 is missing\n"),
                    lab.call("sum", files[0]))
        files[0].write_text(cut_off(parts[0][1]))
        said = "hotplug_lab: part 1 has another number of ends than its first line says\n"
        checks.same("sum of a part cut off", (1, "", said), lab.call("sum", *files))
        files[0].write_text(parts[0][1])
        checks.same("sum --json", lab.call("explore", "--json", scenario=scripts),
                    lab.call("sum", "--json", *files))
        checks.same("sum --scenario 1", lab.call("explore", "--scenario", "1", scenario=scripts),
                    lab.call("sum", "--scenario", "1", *files))
        none = Path(folder) / "none.json"
        lost = (1, "", f"hotplug_lab: {none}: file not opened\n")
        checks.same("sum of no file", lost, lab.call("sum", files[0], none))
        checks.same("sum of no file, then one", lost, lab.call("sum", none, files[0]))
        checks.same("sum of standard input and no file", lost, lab.call("sum", "-", none))
        unread = (1, "", f"hotplug_lab: {folder}: reading failed\n")
        checks.same("sum of a folder", unread, lab.call("sum", files[0], folder, none))
    checks.same("sum of nothing", (1, "", "hotplug_lab: line 1 is none of a part\n"),
                lab.call("sum", "-"))
    refused = ("hotplug_lab: --part may be I/N, with I from 1 to N, and N at most 1000000\n")
    for part in ("", "1", "0/2", "3/2", "1/0", "x/2", "1/x", "1/1000001", "-1/2", "1/2/3", "+1/2", "01/2"):
        checks.same(f"explore --part {part!r}", (2, "", refused),
                    lab.call("explore", f"--part={part}", scenario=scripts))
    for jobs, expected in (("0", 2), ("1", 0), ("2", 0), ("256", 0), ("257", 2)):
        status, out, error = lab.call("explore", "--jobs", jobs, scenario=scripts)
        said = "hotplug_lab: --jobs may be 1 to 256\n" if expected else ""
        checks.same(f"explore --jobs {jobs}", (expected, "" if expected else plain[1], said),
                    (status, out, error))
        for option in ("--find", "--never"):
            words = ("explore", option, "refused NoFrame", "--jobs", jobs)
            told = (2, "", said) if expected else lab.call(*words[:3], scenario=scripts)
            checks.same(" ".join(words), told, lab.call(*words, scenario=scripts))
    for option in ("--find", "--never"):
        words = ("explore", option, "done", "--jobs", "1", "--limit", "9")
        checks.same(" ".join(words), (2, "", UNCOUNTED), lab.call(*words, scenario=scripts))


def answers_of(lab, scenario):
    """What the first interleaving answers, as `hotplug run` writes it."""
    end = json.loads(lab.call("explore", "--json", "--limit", "1", scenario=scenario)[1].splitlines()[0])
    lines = [line for cpu, replies in enumerate(end["answers"]) for line in (f"cpu {cpu}", *replies)]
    return "\n".join([*lines, f"{len(scenario['calls'])} records", ""])


def answers_file(lab):
    """A file with these answers for all calls."""
    file = tempfile.NamedTemporaryFile("w")
    file.write(answers_of(lab, scenario_of(CALLS)))
    file.flush()
    return file


def check_explain(checks, lab):
    """Both files are named, one of them as standard input; the budgets, the forms and the statuses
    are those of a search."""
    scripts = scenario_of(CALLS[:6])
    right = answers_of(lab, scripts)
    wrong = right.replace("done", "refused NoFrame", 1)
    with tempfile.TemporaryDirectory() as folder:
        scenario, found, none = (str(Path(folder) / name) for name in ("s.json", "found", "none"))
        Path(scenario).write_text(json.dumps(scripts))
        Path(found).write_text(right)
        Path(none).write_text(wrong)
        plain = lab.call("explain", scenario, found)
        checks.same("explain", (0, "", "first:"), (plain[0], plain[2], plain[1].splitlines()[1]))
        checks.same("explain - FILE", plain, lab.call("explain", "-", found, scenario=scripts))
        checks.same("explain FILE -", plain, lab.call("explain", scenario, "-", text=right.encode()))
        check_explain_forms(checks, lab, scripts, (scenario, found, none))
        check_explain_budgets(checks, lab, scenario, none)
        check_explain_files(checks, lab, folder, scenario, found)
        for words in (("/dev/null", found), (scenario, "/dev/null")):
            status, out, error = lab.call("explain", *words)
            checks.same(f"explain {words}", (1, ""), (status, out))
            checks.holds(f"explain {words}", error.startswith("hotplug_lab: "), f"says {error!r}")
        more = cut_off(right) + "done\n"
        status, out, error = lab.call("explain", scenario, "-", text=more.encode())
        checks.same("explain of an answer too many", (1, ""), (status, out))
        line = f"line {len(more.splitlines())} "
        checks.holds("explain of an answer too many", line in error, f"says {error!r}")
        for words in ((), ("-",), ("-", "-"), (scenario,), (scenario, found, found),
                      (scenario, found, "--json", "--scenario", "1"), (scenario, found, "--setup", "0"),
                      (scenario, found, "--scenario", "x"), (scenario, found, "--limit", "-1")):
            status, out, error = lab.call("explain", *words, scenario=scripts)
            checks.same(f"explain {words}", (2, ""), (status, out))
            checks.holds(f"explain {words}", error, "says nothing")
        for number in ("0", "2"):
            twice = (2, "", "hotplug_lab: a search tells one interleaving: --scenario 1\n")
            checks.same(f"explain --scenario {number}", twice,
                        lab.call("explain", "--scenario", number, scenario, found))


def check_explain_forms(checks, lab, scripts, files):
    """What is found is written as a search writes it; what is not is reported."""
    scenario, found, none = files
    calls = json.loads(lab.call("explain", "--json", scenario, found)[1])
    first = sorted(scripts["calls"], key=lambda call: call.split()[0])
    checks.same("explain --json", {"found": True, "changes": 1, "first": first}, calls)
    status, out, error = lab.call("explain", "--scenario", "1", scenario, found)
    checks.same("explain --scenario 1", (0, ""), (status, error))
    checks.same("explain --scenario 1", {"layout": LAYOUT, "calls": calls["first"]}, json.loads(out))
    beginning = [call for call in scripts["calls"] if call[0] == "1"]
    told = ["explained: none", f"longest beginning: {len(beginning)} calls",
            ",\n".join(json.dumps(call) for call in beginning),
            "cpu 0: line 1 of 4 would be answered `done`, not `refused NoFrame`", "cpu 1: finished", ""]
    checks.same("explain of none", (3, "\n".join(told), ""), lab.call("explain", scenario, none))
    told = {"found": False, "first": beginning, "processors": [
        {"finished": 0, "lines": 4, "next": "done", "answer": "refused NoFrame"},
        {"finished": 2, "lines": 2}]}
    status, out, error = lab.call("explain", "--json", scenario, none)
    checks.same("explain --json of none", (3, told, ""), (status, json.loads(out), error))
    checks.same("explain --scenario 1 of none", (3, "", NO_SCENARIO),
                lab.call("explain", "--scenario", "1", scenario, none))
    unbegun = scenario_of(["0 commit 0"])
    told = "hotplug_lab: line 1: 0 is no operation: processor 0 has begun none\n"
    Path(found).write_text(answers_of(lab, unbegun))
    status, _, error = lab.call("explain", "-", found, scenario=unbegun)
    checks.same("explain of 0 before a begin", (0, told), (status, error))
    Path(found).write_text(answers_of(lab, scripts))


def check_explain_budgets(checks, lab, scenario, none):
    """Each budget ends the search before it knows; a large one does not."""
    plain = lab.call("explain", scenario, none)
    for option in ("--limit", "--memory", "--seconds"):
        where = f"explain {option} 0"
        said = rf"hotplug_lab: stopped after \d+ states \({option}\)\n"
        for form, told in (((), "explained: unknown\n"), (("--json",), '{"found": null}\n')):
            status, out, error = lab.call("explain", option, "0", *form, scenario, none)
            checks.same(where, (3, told), (status, out))
            checks.holds(where, re.fullmatch(said, error), f"says {error!r}")
        status, out, error = lab.call("explain", option, "0", "--scenario", "1", scenario, none)
        checks.same(where, (3, ""), (status, out))
        checks.holds(where, re.fullmatch(said + re.escape(NO_SCENARIO), error), f"says {error!r}")
        checks.same(f"explain {option} 1000", plain,
                    lab.call("explain", option, "1000", scenario, none))


def check_explain_files(checks, lab, folder, scenario, found):
    """A file that is not read is named, whichever it is."""
    lost, long = str(Path(folder) / "lost"), str(Path(folder) / "long")
    Path(long).write_bytes(b" " * (2**24 + 1))
    for name, why in ((lost, "file not opened"), (folder, "reading failed"), (long, "input too long")):
        said = (1, "", f"hotplug_lab: {name}: {why}\n")
        checks.same(f"explain of {why}", said, lab.call("explain", name, found))
        checks.same(f"explain of answers, {why}", said, lab.call("explain", scenario, name))


def check_trace(checks, lab):
    whole = scenario_of(CALLS)
    plain = lab.call("trace", scenario=whole)
    checks.same("trace", (0, list(range(1, 10))), (plain[0], lines_shown(plain[1])))
    defaults = ("--from", "1", "--to", str(2**64 - 1), "--every", "1", "--width", "200")
    checks.same("trace with its defaults", plain, lab.call("trace", *defaults, scenario=whole))
    for options, shown in ((("--from", "4"), range(4, 10)), (("--to", "3"), range(1, 4)),
                           (("--every", "4"), (1, 5, 9)),
                           (("--width", "80", "--every", "3", "--to", "8", "--from", "2"),
                            (2, 5, 8))):
        status, out, _ = lab.call("trace", *options, scenario=whole)
        checks.same(f"trace {options}", (0, list(shown)), (status, lines_shown(out)))
    for svg in ((), ("--svg",)):
        checks.same("trace --from 10", (1, "", "hotplug_lab: 10 is past the last line, 9\n"),
                    lab.call("trace", *svg, "--from", "10", scenario=whole))
        checks.same("trace --from 4 --to 3", (2, "", "hotplug_lab: --from is past --to\n"),
                    lab.call("trace", *svg, "--from", "4", "--to", "3", scenario=whole))
        checks.same("trace of no lines", 0, lab.call("trace", *svg, scenario=scenario_of([]))[0])
    widest = max(map(len, plain[1].splitlines()))
    checks.same("trace --width", plain, lab.call("trace", "--width", str(widest), scenario=whole))
    narrow = lab.call("trace", "--width", str(widest - 1), scenario=whole)
    checks.holds("trace --width", narrow != plain, "shows all memory blocks in a narrower row")
    status, out, _ = lab.call("trace", "--orders", scenario=whole)
    checks.same("trace --orders", (0, list(range(1, 10))), (status, lines_shown(out)))
    checks.holds("trace --orders", "(" in out and "(" not in plain[1], "shows no free block")


def check_picture(checks, lab):
    whole = scenario_of(CALLS)
    status, out, error = lab.call("trace", "--svg", "--to", "4", scenario=whole)
    checks.same("trace --svg", (0, ""), (status, error))
    checks.holds("trace --svg", out.startswith("<svg "), f"writes {out[:80]!r}")
    checks.same("trace --svg --cell 8", out,
                lab.call("trace", "--svg", "--to", "4", "--cell", "8", scenario=whole)[1])
    for cell, expected in (("0", 2), ("1", 0), ("32", 0), ("33", 2), ("256", 2), ("264", 2)):
        status, text, _ = lab.call("trace", "--svg", "--cell", cell, scenario=whole)
        checks.same(f"trace --svg --cell {cell}", (expected, expected == 0), (status, text != ""))
    checks.same("trace --cell 8", (2, "", "hotplug_lab: --cell is for --svg alone\n"),
                lab.call("trace", "--cell", "8", scenario=whole))
    checks.same("trace --svg --scale 100", out,
                lab.call("trace", "--svg", "--to", "4", "--scale", "100", scenario=whole)[1])
    for scale, expected in (("0", 2), ("24", 2), ("25", 0), ("400", 0), ("401", 2), ("65636", 2)):
        status, text, _ = lab.call("trace", "--svg", "--scale", scale, scenario=whole)
        checks.same(f"trace --svg --scale {scale}", (expected, expected == 0), (status, text != ""))
    checks.same("trace --scale 50", (2, "", "hotplug_lab: --scale is for --svg alone\n"),
                lab.call("trace", "--scale", "50", scenario=whole))
    for number, call in enumerate(CALLS, 1):
        shown = f"{number} {call}" in out
        checks.holds("trace --svg --to 4", shown == (number <= 4), f"line {number}: {shown}")


def check_lab(checks, lab):
    whole = scenario_of(CALLS)
    for word in ("check", "explore", "trace"):
        check_file(checks, lab, word, whole)
    checks.same("check", (0, "faults: 0, warnings: 0\n", ""), lab.call("check", scenario=whole))
    checks.same("check of a name that is not UTF-8", (2, "", "hotplug_lab: a word of the command line is not UTF-8\n"),
                lab.call("check", "name\udce9.json"))
    checks.same("check of a fault", 1, lab.call("check", scenario=scenario_of(["0 walk"]))[0])
    check_counts(checks, lab)
    check_explore(checks, lab)
    check_parts(checks, lab, scenario_of(CALLS[:6]))
    check_explain(checks, lab)
    check_trace(checks, lab)
    check_picture(checks, lab)
    for words in ((), ("walk",), ("explore", "--setup", "x"), ("explore", "--setup", "-1"),
                  ("explore", "--every", "2"), ("trace", "--limit", "2"), ("check", "--svg"),
                  ("check", "--progress"), ("trace", "--progress"),
                  ("explore", "--orders"), ("explore", "--json", "--scenario", "1"),
                  ("explore", "--part", "1/2", "--find", "done"),
                  ("explore", "--part", "1/2", "--never", "done"),
                  ("explore", "--part", "1/2", "--scenario", "1"),
                  ("explore", "--part", "1/2", "--jobs", "2"),
                  ("explore", "--jobs", "2", "--seconds", "9"),
                  ("explore", "--jobs", "2", "--seconds", "9", "--find", "done"),
                  ("explore", "--group"), ("explore", "--group", "blocks", "--part", "1/2"),
                  ("explore", "--group", "blocks", "--scenario", "1"),
                  ("explore", "--group", "answers", "--find", "done"),
                  ("explore", "--group", "answers", "--never", "done"),
                  ("explore", "--summary", "--part", "1/2"), ("explore", "--summary", "--json"),
                  ("explore", "--summary", "--scenario", "1"),
                  ("explore", "--summary", "--find", "done"),
                  ("explore", "--summary", "--never", "done"),
                  ("sum", "--summary", "--json"), ("sum", "--summary", "--scenario", "1"),
                  ("sum", "--group", "blocks"),
                  ("sum", "--json", "--scenario", "1"), ("sum", "--setup", "1"),
                  ("trace", "--json", "--from", "1"), ("trace", "--json", "--svg"),
                  ("trace", "--html", "--from", "1"), ("trace", "--html", "--json"),
                  ("trace", "--html", "--svg"), ("trace", "--html", "--log"),
                  ("trace", "--json", "--log"), ("trace", "--json", "--orders"),
                  ("trace", "a", "b"), ("trace", "--width"), ("trace", "--to", str(2**64))):
        status, out, error = lab.call(*words, scenario=whole)
        checks.same(f"hotplug_lab {words}", (2, ""), (status, out))
        checks.holds(f"hotplug_lab {words}", error, "says nothing")
    check_full(checks, lab)
    check_gone(checks, lab)
    check_long_parts(checks, lab)
    for words in (("--help",), ("explore", "--help"), ("explain", "--help"), ("judge", "--help"),
                  ("--version",)):
        status, out, error = lab.call(*words)
        checks.same(f"hotplug_lab {words}", (0, ""), (status, error))
        checks.holds(f"hotplug_lab {words}", out, "writes nothing")


def check_counts(checks, lab):
    """With a setup `check` says how many interleavings the scripts have, where that is known."""
    many = [f"{cpu} read db 0 0" for cpu in (0, 1)] * READS
    unknown = "not known: the calls of a plan are counted only by explore"
    for calls, setup, told in ((CALLS, 0, "126"), (CALLS, 7, "2"), (CALLS, 9, "1"),
                               (many, 1, "5200300"),
                               (many, 0, str(READ_ORDERS)),
                               (many * 3, 0, f"more than {2**64 - 1}"),
                               (["0 drain 0", "0 plan 2 off 1"], 1, unknown),
                               (["0 echo offline memory1/state"], 0, unknown)):
        status, out, error = lab.call("check", "--setup", str(setup), scenario=scenario_of(calls))
        last = out.splitlines()[-1] if out else ""
        checks.same(f"check --setup {setup} of {calls}", (0, f"interleavings: {told}", ""),
                    (status, last, error))
    for calls, setup in ((["0 walk"], 0), (["0 seal", "0 seal"], 1)):
        out = lab.call("check", "--setup", str(setup), scenario=scenario_of(calls))[1]
        checks.holds(f"check --setup {setup} of {calls}", "interleavings" not in out,
                     f"says {out!r}")


def scenario_file():
    """A file with a scenario."""
    file = tempfile.NamedTemporaryFile("w", suffix=".json")
    json.dump(scenario_of(CALLS), file)
    file.flush()
    return file


def check_gone(checks, lab):
    """Where nobody reads what is written the status is 1, and nothing is said."""
    text = json.dumps(scenario_of(CALLS)).encode()
    line, log = b"0 drain 0\n", b'{"block_frames": 4}\n'
    with answers_file(lab) as answers, scenario_file() as file:
        for words, sent in ((("explore",), text), (("check",), text), (("trace",), text),
                            (("explain", "-", answers.name), text), (("live", file.name), line),
                            (("live", "--json", file.name), line), (("judge",), log),
                            (("judge", "--svg"), log)):
            reader, writer = os.pipe()
            os.close(reader)
            ran = subprocess.run([lab.path, *words], input=sent, stdout=writer,
                                 stderr=subprocess.PIPE, timeout=SECONDS)
            os.close(writer)
            checks.same(f"hotplug_lab {words} without a reader", (1, b""),
                        (ran.returncode, ran.stderr))


def check_long_parts(checks, lab):
    """Each part may have 16 MiB, and all together more."""
    with tempfile.TemporaryDirectory() as folder:
        scenario, files = Path(folder) / "scenario.json", []
        scenario.write_text(json.dumps(scenario_of(CALLS)) + " " * 9_000_000)
        for number in (1, 2):
            files.append(Path(folder) / f"part{number}.json")
            files[-1].write_text(lab.call("explore", "--part", f"{number}/2", scenario)[1])
        checks.same("sum of long parts", lab.call("explore", scenario), lab.call("sum", *files))


def check_full(checks, lab):
    """Where the disk is full the status is 1, for the help too."""
    text = json.dumps(scenario_of(CALLS)).encode()
    line, log = b"0 drain 0\n", b'{"block_frames": 4}\n'
    with answers_file(lab) as answers, scenario_file() as file, open("/dev/full", "w") as full:
        for words, sent in ((("--help",), text), (("--version",), text), (("check",), text),
                            (("explain", "-", answers.name), text), (("live", file.name), line),
                            (("live", "--json", file.name), line), (("judge",), log)):
            ran = subprocess.run([lab.path, *words], input=sent, stdout=full,
                                 stderr=subprocess.PIPE, timeout=SECONDS)
            checks.same(f"hotplug_lab {words} on a full disk", (1, "hotplug_lab: writing failed\n"),
                        (ran.returncode, ran.stderr.decode()))


def main(words):
    crates = Path(words[0] if words else ROOT / "crates").resolve()
    checks = Checks()
    try:
        check_commands(checks, Program(crates / "hotplug/out/hotplug"))
        check_lab(checks, Program(crates / "hotplug_lab/out/hotplug_lab"))
        check_names(checks, Program(crates / "hotplug/out/hotplug"),
                    Program(crates / "hotplug_lab/out/hotplug_lab"))
    except (ValueError, LookupError, OSError, subprocess.SubprocessError) as error:
        checks.holds("words", False, f"cannot be tried: {error!r}")
    for failure in checks.failures:
        print(failure)
    print(f"words: {checks.passed} passed, {len(checks.failures)} failed")
    return 1 if checks.failures else 0


if __name__ == "__main__":
    sys.exit(main(sys.argv[1:]))
