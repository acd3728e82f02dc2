#!/usr/bin/env python3
"""Compares what `hotplug_lab explore` prints, alone and with `--find` and `--never`, with every
order of the lines, each played by `hotplug serial`. `check` at the top runs it after the gate;
alone it takes the folder of the crates:

    python3 docs/check_find.py [CRATES [SEED [COUNT]]]        without them: crates, 34 and 1200

On so many scenarios that are drawn at random, with events of all kinds and plans, where 0 may stand
for an operation of the setup, and on a quarter as many in which most lines name a result or work on
one by its name, with at most 120 orders each that all have room: `explore` tells the ends of the
orders, each with its count and its first order, in the order of these; past a limit,
those of the first orders, also where memory or time ends the search. An interleaving is found where
an order has an end with the lines; it is one of those orders, with the fewest changes of processor;
and where there is none, that is told. Of one in four, with a limit of states, no memory or time a
search tells the same, or that it does not know, after which states and by which option. `--never`
prints the same with the other status, threads find the same (`--jobs`), `--scenario 1` writes what
is found as a scenario with the setup's lines before the calls, `--json` the same as an object,
scripts that use 0 before a begin are told, and a text that no end has as a line ends with status 2.

`--group` puts those ends together that agree in their blocks, in their answers, or in how the plans
of each processor ended, and adds their counts, in words and as JSON, also past a limit; `--summary`
has a line of each end or group with its count, its share, how many calls were refused, and the
blocks, neighbours that are alike joined.

Of each: the parts of 1, of 3 and of 7, in any order, add up to what `explore` prints, in words and
as JSON, and `--jobs 2` prints the same; of one in four also from files and with an end as a
scenario. There a sum is refused where a part is missing, comes twice, was cut off, is of another
scenario or was stopped, where a schedule or an answer was changed, and where there are 2^64
interleavings or more. That a count was changed is not found out. The last line is 'find: N passed,
M failed'; the exit status is 0 where nothing failed, else 1.
"""
import json
import re
import subprocess
import sys
import tempfile
from pathlib import Path

from check_lab import (LAYOUT, ROOT, SECONDS, Checks, Programs, answers_and_state, end_of,
                       end_with, ends_of)
from lab_names import made_plain, named_calls, result_of, unnamed, with_numbers
from side_by_side import check_side_by_side, chunks

SEED = 34
COUNT = 1200
# How many scenarios one task draws.
CHUNK = 20
SPOILED = 4
MOST_ORDERS = 120
NO_LINES = ("", "refused", "refused Nonsense", "refused NotFree x", "refused NotFree 01", "word",
            "opened 3", "block x", "block 1", "block 1 online", "block 1 offline normal", "cpu 0",
            "0:done", "x: done", "0: 1: done", "done ", "moved 1", "interleavings: 1", "not", "not ",
            "not not done", "cpu 0: done", "cpu 0 answer 0: done", "cpu 0 answer x: done",
            "cpu 0 reply 1: done", "cpu 0 answer 1:done", "plan", "plan: ", "plan:done", "plan: opened 1",
            "plan: done 1", "plan: refused", "plan: refused NoFrame 1", "plan: cancelled -",
            "plan: cancelled NoFrame", "plan: cancelled - 1 restored", "plan: cancelled NoFrame 1 restored",
            "plan: cancelled NoFrame dropped", "plan: left - HistoryFull", "0: plan", "0:plan: done",
            "x: plan: done", "plan: 0: done", "0: 1: plan: done", "cpu 0 answer 1: plan: done",
            "not plan: left 4 HistoryFull")
LINE_FORMS = ("hotplug_lab: a line is an answer, as `refused NotFree`, one of a processor, as `0: done` or "
              "`cpu 0 answer 2: done`, the end of a plan, as `plan: cancelled` or `0: plan: done`, or a "
              "memory block, as `block 1 offline`; `not ` before it wants an end without it")
PAST = ("{cpus}: done", "{cpus}: refused NotFree", "block {blocks} offline", "refused Twice {blocks}",
        "refused Busy {blocks}", "refused NotOnline {blocks}", "refused NotOffline {blocks}",
        "refused NotAbsent {blocks}", "frame {frames}", "0: frame {frames}", "moved {frames} 0",
        "moved 0 {frames}", "refused Unmovable {frames}", "refused NotFree {frames}",
        "cpu {cpus} answer 1: done", "cpu 0 answer 9: frame {frames}", "not block {blocks} offline",
        "{cpus}: plan: done", "plan: refused Twice {blocks}", "0: plan: refused NotOnline {blocks}",
        "plan: cancelled NotFree {frames} restored", "not {cpus}: plan: cancelled")


class Searches(Programs):
    """The two programs, where one searches, and what it said last on standard error."""

    def __init__(self, crates):
        super().__init__(crates)
        self.said = ""

    def search(self, scenario, setup, *words):
        """The exit status of `explore` and what it prints; what it says besides is kept."""
        ran = subprocess.run([self.lab, "explore", "--setup", str(setup), *words],
                             input=json.dumps(scenario).encode(), capture_output=True,
                             timeout=SECONDS)
        self.said = ran.stderr.decode()
        return ran.returncode, ran.stdout.decode()

    def part(self, scenario, setup, number, of, *words):
        """The exit status of one part, and what it prints."""
        return self.search(scenario, setup, "--part", f"{number}/{of}", *words)

    def sum(self, text, *words):
        """The exit status of the sum of parts, and what is printed, or else what is said."""
        ran = subprocess.run([self.lab, "sum", *words], input=text.encode(), capture_output=True,
                             timeout=SECONDS)
        out, said = ran.stdout.decode(), ran.stderr.decode()
        return ran.returncode, said if ran.returncode == 1 else out

    def find(self, scenario, setup, option, texts, *more):
        """The exit status and what is printed of a search for an end with lines; what is said where
        it was not made."""
        words = [word for text in texts for word in (option, text)]
        status, text = self.search(scenario, setup, *words, *more)
        return status, text if status in (0, 3) else self.said


def driven(items, turns, cpus):
    """The calls of a plan's driver. Each is sent its serial and its reply."""
    op, reply = yield f"begin {items}"
    if not reply.startswith("opened "):
        return
    while True:
        for cpu in range(cpus):
            _, reply = yield f"drainfor {op} {cpu}"
            if reply == "refused NoOp":
                return
        reply = "moved"
        while reply.startswith("moved"):
            if turns == 0:
                yield f"cancel {op}"
                return
            turns -= 1
            _, reply = yield f"migrate {op}"
        if reply == "refused NothingToMove":
            _, reply = yield f"commit {op}"
        if reply in ("done", "refused NoOp"):
            return


def calls_of(text, cpus):
    """The calls of a line, without its processor."""
    words = text.split()
    if words[0] == "plan":
        yield from driven(" ".join(words[2:]), int(words[1]), cpus)
    elif words[0] == "echo":
        yield from driven(f"off {re.search('[0-9]+', words[2])[0]}", 1024, cpus)
    else:
        yield text


def next_call(script, cpus, begun, named, receipts):
    """What a processor asks for after the number of its last begin in the setup, those of the
    names there, and its receipts, each a call with its serial and reply; None where its script is
    over."""
    left = [(serial, reply) for _, serial, reply in receipts]
    numbers = dict(named)
    for line in script:
        text, name = unnamed(line)
        calls = calls_of(with_numbers(text, numbers), cpus)
        try:
            call = next(calls)
            while left:
                serial, reply = left.pop(0)
                if name:
                    numbers[name] = result_of(text, serial, reply)
                call = calls.send((serial, reply))
        except StopIteration:
            continue
        words = call.split()
        if words[0] in ("drainfor", "migrate", "commit", "cancel") and words[1] == "0":
            own = [serial for text, serial, _ in receipts if text.startswith("begin")]
            words[1] = str(own[-1] if own else begun)
        return " ".join(words)
    return None


class NoRoom(Exception):
    """The history has no room for a call of an order."""


class Orders:
    """Every order of the lines after a setup, each played by `hotplug serial`."""

    def __init__(self, programs, scenario, setup):
        self.programs, self.layout = programs, scenario["layout"]
        self.setup, named = made_plain(programs, self.layout, scenario["calls"][:setup])
        self.named = [named.get(str(cpu), {}) for cpu in range(self.layout["cpus"])]
        lines = scenario["calls"][setup:]
        self.scripts = [[line.partition(" ")[2] for line in lines if line.split()[0] == str(cpu)]
                        for cpu in range(self.layout["cpus"])]
        self.begun = [self.begun_by(cpu) for cpu in range(self.layout["cpus"])]
        self.before = len(answers_and_state(programs.serial(self.layout, self.setup))[0])

    def begun_by(self, cpu):
        """The number of a processor's last begin in the setup, 0 where there is none: that of the
        next record, where a line begins an operation."""
        begun = 0
        for at, line in enumerate(self.setup):
            if line.startswith((f"{cpu} begin", f"{cpu} plan", f"{cpu} echo")):
                text = self.programs.serial(self.layout, self.setup[:at] + [f"{cpu} drain 0"])
                answers, _ = answers_and_state(text)
                begun = int(answers.splitlines()[-1].partition(":")[0])
        return begun

    def played(self, calls):
        """The answers and the state that calls lead to after the setup."""
        answers, state = answers_and_state(self.programs.serial(self.layout, self.setup + calls))
        return answers[self.before:].splitlines(), state

    def receipts(self, calls, lines):
        """The calls of each processor with their serials and replies."""
        receipts = [[] for _ in self.scripts]
        for call, line in zip(calls, lines, strict=True):
            cpu, _, asked = call.partition(" ")
            serial, _, reply = line.partition(": ")
            if reply == "fault HistoryFull":
                raise NoRoom
            receipts[int(cpu)].append((asked, int(serial), reply))
        return receipts

    def all_from(self, calls, most):
        """The complete orders that go on from calls, each with its end, as long as there are no
        more than so many."""
        lines, state = self.played(calls)
        receipts, is_over, orders = self.receipts(calls, lines), True, []
        for cpu, script in enumerate(self.scripts):
            call = next_call(script, self.layout["cpus"], self.begun[cpu], self.named[cpu],
                             receipts[cpu])
            if call is not None and len(orders) <= most:
                is_over = False
                orders += self.all_from(calls + [f"{cpu} {call}"], most)
        if not is_over:
            return orders
        return [(calls, End(end_with(self.layout["cpus"], calls, lines, state), self.scripts))]


def changes_of(calls):
    """How often calls go from one processor to another."""
    cpus = [call.split()[0] for call in calls]
    return sum(cpu != other for cpu, other in zip(cpus, cpus[1:]))


def plan_end(calls):
    """How a plan ended by its driver's calls and the replies to them."""
    call, reply = calls[-1]
    verb = call.split()[0]
    causes = [reply.removeprefix("refused ") for call, reply in calls
              if call.split()[0] in ("migrate", "commit") and reply.startswith("refused ")]
    if reply == "refused NoOp":
        return "undone"
    return f"cancelled {causes[-1] if causes else '-'} {reply}" if verb == "cancel" else reply


def plan_ends(scripts, answers):
    """For each processor how its plans ended that are over, by its answers."""
    ends = []
    for script, replies in zip(scripts, answers, strict=True):
        left, own = list(replies), []
        for text in script:
            calls, made = calls_of(text, len(scripts)), []
            try:
                call = next(calls)
                while left:
                    made.append((call, left.pop(0)))
                    call = calls.send((0, made[-1][1]))
                break
            except StopIteration:
                own += [plan_end(made)] if text.startswith(("plan ", "echo ")) else []
        ends.append(own)
    return ends


class End(tuple):
    """The answers and the blocks of an end, with how the plans of each processor ended."""

    def __new__(cls, end, scripts):
        self = super().__new__(cls, end)
        self.plans = plan_ends(scripts, end[0])
        return self


def without_numbers(end):
    """The end of a plan without the block or frame that a refusal names."""
    return re.sub("([A-Za-z]) [0-9]+", r"\1", end)


def has_plan(end, cpu, wanted):
    """Whether a plan of this processor, or of any, ended so."""
    ends = [plan for at, plans in enumerate(end.plans) for plan in plans if cpu in ("", str(at))]
    return any(wanted in (plan, without_numbers(plan), plan.partition(" ")[0])
               and not (wanted == "refused" and plan != wanted) for plan in ends)


def has_line(end, text):
    """Whether an end has a line, or lacks it where `not` comes before."""
    if text.startswith("not "):
        return not has_line(end, text.removeprefix("not "))
    cpu, mark, plan = text.rpartition("plan: ")
    if mark:
        return has_plan(end, cpu.removesuffix(": "), plan)
    answers, blocks = end
    who, colon, reply = text.partition(": ")
    wanted = reply if colon else text
    return text in blocks or any(answer == wanted or answer.rpartition(" ")[0] == wanted
                                 and answer.startswith("refused ")
                                 for answer in meant(answers, who if colon else ""))


def meant(answers, who):
    """The answers that a line speaks of: all, those of processor C, or of these the K-th (`cpu C
    answer K`)."""
    if not who:
        return [answer for replies in answers for answer in replies]
    cpu, *number = (int(word) for word in re.findall("[0-9]+", who))
    replies = answers[cpu] if cpu < len(answers) else []
    return replies[number[0] - 1:number[0]] if number else replies


def drawn_call(draw, cpu, cpus):
    """A call of a processor, or a plan, drawn at random."""
    owner, page, block = draw.choice(("db", "web")), draw.randrange(2), draw.randrange(1, 3)
    texts = [f"kalloc {draw.randrange(2)}", f"kfree {draw.randrange(4)}", f"map {owner} {page}",
             f"map {owner} {page}", f"unmap {owner} {page}", f"read {owner} {page} 0",
             f"write {owner} {page} 0 {draw.randrange(3)}", f"drain {draw.randrange(cpus)}",
             f"online {block} movable", f"begin off {block}", f"begin off {block}", "migrate 0",
             f"drainfor 0 {draw.randrange(cpus)}", "commit 0", "commit 0", "cancel 0",
             f"undo {draw.randrange(6)}", f"remove {block}",
             f"plan {draw.randrange(2)} off {block}", f"echo offline memory{block}/state"]
    return f"{cpu} {draw.choice(texts)}"


def drawn_texts(draw, ends):
    """Lines that an end may have, alone and together."""
    answers, blocks = draw.choice(ends)
    lines = list(blocks) + [reply for replies in answers for reply in replies]
    lines += [f"{cpu}: {reply}" for cpu, replies in enumerate(answers) for reply in replies]
    lines += [line.rpartition(" ")[0] for line in lines
              if re.fullmatch("(. )?refused [A-Za-z]+ [0-9]+", line)]
    lines += [f"cpu {cpu} answer {at}: {reply}" for cpu, replies in enumerate(answers)
              for at, reply in enumerate(replies, draw.choice((1, 1, 2)))]
    plans = plan_lines(draw.choice(ends))
    lines += plans
    some = [[draw.choice(plans)]] if plans else []
    some += [[draw.choice(lines)], draw.sample(lines, min(3, len(lines))), [f"not {draw.choice(lines)}"],
            [draw.choice(lines), f"not {draw.choice(lines)}"]]
    return some + [[text] for text in ("refused NotFree", "0: restored", "block 1 going movable",
                                       f"{len(answers) - 1}: refused NoFrame", "block 2 absent",
                                       "refused Twice 1", "plan: done", "plan: cancelled",
                                       "plan: cancelled NotFree restored", "0: plan: undone",
                                       f"not {len(answers) - 1}: plan: done", "plan: refused NotOnline")]


def plan_lines(end):
    """Lines about the plans of an end."""
    ends = [(cpu, plan) for cpu, plans in enumerate(end.plans) for plan in plans]
    forms = [(cpu, form) for cpu, plan in ends
             for form in {plan, without_numbers(plan), plan.partition(" ")[0]} - {"refused"}]
    return sorted([f"plan: {plan}" for _, plan in forms] + [f"{cpu}: plan: {plan}" for cpu, plan in forms])


def warnings_of(scenario, setup):
    """What is said of the first line of each script that uses 0 before its processor begins any."""
    told = []
    for cpu in range(scenario["layout"]["cpus"]):
        for number, line in enumerate(scenario["calls"], 1):
            who, verb, *words = line.split()
            if who == str(cpu) and verb in ("begin", "plan", "echo"):
                break
            if (who == str(cpu) and verb in ("drainfor", "migrate", "commit", "cancel")
                    and words[0] == "0" and number > setup):
                told.append(f"hotplug_lab: line {number}: 0 is no operation: processor {cpu} has "
                            "begun none\n")
                break
    return "".join(told)


def check_search(checks, programs, scenario, setup, before, orders, texts):
    where = f"--find {texts} --setup {setup} {json.dumps(scenario)}"
    found = [calls for calls, end in orders if all(has_line(end, text) for text in texts)]
    status, text = programs.find(scenario, setup, "--find", texts)
    checks.holds(where, programs.said == warnings_of(scenario, setup), f"warns {programs.said!r}")
    turned = programs.find(scenario, setup, "--never", texts)
    checks.holds(where, turned == (3 - status, text), f"--never says {turned}")
    if not found:
        absent = (3, "ends so: 0\n")
        checks.holds(where, (status, text) == absent, f"says {status}, {text!r}")
        for jobs in ("2", "5"):
            threads = programs.find(scenario, setup, "--find", texts, "--jobs", jobs)
            checks.holds(where, threads == absent, f"--jobs {jobs} says {threads}")
        replay = programs.find(scenario, setup, "--find", texts, "--scenario", "1")
        checks.holds(where, replay == (3, ""), f"--scenario 1 says {replay}")
        check_object(checks, programs, scenario, setup, texts,
                     (3, {"found": False}))
        return
    head, _, quoted = text.partition("\nfirst:\n")
    calls = json.loads(f"[{quoted}]")
    fewest = min(map(changes_of, found))
    checks.holds(where, (status, head) == (0, f"changes: {fewest}"), f"says {status}, {head!r}")
    checks.holds(where, calls in found and changes_of(calls) == fewest, f"{calls} is none of them")
    status, text = programs.find(scenario, setup, "--find", texts, "--scenario", "1", "--jobs", "3")
    replay = dict(scenario, calls=before + calls)
    is_so = status == 0 and json.loads(text) == replay
    checks.holds(where, is_so, f"--scenario 1 --jobs 3 says {status}, {text!r}")
    check_object(checks, programs, scenario, setup, texts,
                 (0, {"found": True, "changes": fewest, "first": calls}))


STOPPED = r"hotplug_lab: stopped after (\d+) states \((--[a-z]+)\)\n"
NO_SCENARIO = "hotplug_lab: no such interleaving was found, so no scenario is written\n"
UNKNOWN = {(): "ends so: unknown\n", ("--json",): '{"found": null}\n', ("--scenario", "1"): ""}


def check_budgets(checks, programs, draw, scenario, setup, texts):
    """With a limit of states, without memory and without time a search tells what it tells without
    them, or that it does not know; then it says after how many states it stopped, and why."""
    form = draw.choice(list(UNKNOWN))
    for option, number in (("--limit", draw.randrange(12)), ("--limit", 10**6), ("--memory", 0),
                           ("--seconds", 0), ("--seconds", 1000)):
        for search in ("--find", "--never"):
            words = f"{search} {texts} {option} {number} {form}"
            where = f"{words} --setup {setup} {json.dumps(scenario)}"
            told = programs.find(scenario, setup, search, texts, *form, option, str(number))
            said = programs.said.removesuffix(NO_SCENARIO)
            said = said.removesuffix(warnings_of(scenario, setup))
            stopped = re.fullmatch(STOPPED, said)
            if stopped:
                checks.holds(where, told == (3, UNKNOWN[form]), f"says {told}, but {said!r}")
                is_so = stopped[2] == option and (option != "--limit" or int(stopped[1]) == number)
                checks.holds(where, is_so and number < 1000, f"says {said!r}")
            else:
                whole = programs.find(scenario, setup, search, texts, *form)
                checks.holds(where, told == whole, f"{told} in place of {whole}, and {said!r}")


def check_first(checks, programs, scenario, setup, orders, limit):
    """Past a limit the ends are those of the first orders, each with its first and its count."""
    where = f"--limit {limit} --setup {setup} {json.dumps(scenario)}"
    expected = counted(orders[:limit])
    plans = {"plan", "echo"} & {line.split()[1] for line in scenario["calls"][setup:]}
    total = f"more than {limit}" if plans else len(orders)
    head = f"{total} interleavings; these are the first {limit}\nends: {len(expected)}"
    status, text = programs.search(scenario, setup, "--limit", str(limit))
    parts = text.rstrip("\n").split("\n\n")
    checks.holds(where, (status, parts[0]) == (3, head), f"says {status}, {parts[0]!r}")
    told = [end_of(part) for part in parts[1:]]
    checks.holds(where, told == expected, f"tells {told} in place of {expected}")


def check_ended(checks, programs, scenario, setup, orders):
    """Without memory and without time the ends are those of the first orders, with their number."""
    for option in ("--memory", "--seconds"):
        where = f"{option} 0 --setup {setup} {json.dumps(scenario)}"
        status, text = programs.search(scenario, setup, option, "0")
        head, *parts = text.rstrip("\n").split("\n\n")
        first = re.search(r"these are the first (\d+)\n", head)
        if first is None:
            whole = programs.search(scenario, setup)
            checks.holds(where, (status, text) == whole, f"says {status}, {text!r}")
            continue
        told = [end_of(part) for part in parts]
        expected = counted(orders[:int(first[1])])
        checks.holds(where, (status, told) == (3, expected), f"tells {told} in place of {expected}")


def check_object(checks, programs, scenario, setup, texts, expected):
    """With `--json` what a search tells is an object on one line."""
    status, text = programs.find(scenario, setup, "--find", texts, "--json")
    is_so = text.endswith("}\n") and (status, json.loads(text)) == expected
    checks.holds(f"--json --find {texts} --setup {setup} {json.dumps(scenario)}", is_so,
                 f"says {status}, {text!r}")


FORMS = ((), ("--json",), ("--summary",))


def check_sum(checks, programs, draw, scenario, setup, of):
    """The parts add up to the whole, in any order; it answers their texts."""
    where = f"sum of {of} --setup {setup} {json.dumps(scenario)}"
    parts = [programs.part(scenario, setup, number, of) for number in range(1, of + 1)]
    checks.holds(where, all(status == 0 for status, _ in parts), "a part is not whole")
    texts = [text for _, text in parts]
    for form in FORMS:
        mixed = "".join(draw.sample(texts, of))
        whole, told = programs.search(scenario, setup, *form), programs.sum(mixed, *form)
        checks.holds(f"{where} {form}", told == whole, f"{told} in place of {whole}")
    return texts


def check_files(checks, programs, scenario, setup, texts, number):
    """The same from files, with an end as a scenario."""
    with tempfile.TemporaryDirectory() as folder:
        files = [Path(folder) / f"part.{at}.json" for at in range(len(texts))]
        for file, text in zip(files, texts, strict=True):
            file.write_text(text)
        words = ("--scenario", str(number))
        whole, told = programs.search(scenario, setup, *words), programs.sum("", *words, *files)
        checks.holds(f"sum of files --setup {setup} {json.dumps(scenario)}", told == whole,
                     f"{told} in place of {whole}")


def refused(text, scenario, setup):
    """Texts of parts that have no sum, where the text is that of three parts in order, and what is
    said of each."""
    lines = text.splitlines(keepends=True)
    heads = [at for at, line in enumerate(lines) if line.startswith('{"part": ')]
    first, second = "".join(lines[:heads[1]]), "".join(lines[heads[1]:heads[2]])
    third = "".join(lines[heads[2]:])
    other = dict(scenario, calls=scenario["calls"] + ["0 drain 0"])
    head = json.loads(lines[heads[1]])
    moved = json.dumps({**head, "scenario": json.dumps(other)}) + "\n"
    by = json.dumps({**head, "calls": head["calls"] + 1}) + "\n"
    past = json.dumps({**head, "part": 4}) + "\n"
    lost = json.dumps({**head, "scenario": "{}"}) + "\n"
    yield "", "line 1 is none of a part"
    yield lost + text, "part 2: its scenario: wrong shape"
    for number, part in ((2, second), (3, third)):
        if part.count("\n") > 1:
            cut = part[:part.rstrip("\n").rindex("\n") + 1]
            yield (text.replace(part, cut),
                   f"part {number} has another number of ends than its first line says")
    yield first + third, "part 2 is missing"
    yield first + second, "part 3 is missing"
    yield second + text, "part 2 comes twice"
    yield first + moved + third, f"line {heads[1] + 1} begins a part of another search"
    yield first + by + third, f"line {heads[1] + 1} begins a part of another search"
    yield first + past + third, f"line {heads[1] + 1} begins a part of another search"
    yield first + "x\n" + second + third, f"line {heads[1] + 1} is none of a part"
    yield text + "{}\n", f"line {len(lines) + 1} is none of a part"
    yield text[:-1], f"line {len(lines)} is none of a part"
    yield (text + '{"first": 1, "interleavings": null}\n',
           f"line {len(lines) + 1}: the part was stopped before its end")
    ends = [at for at, line in enumerate(lines) if at not in heads]
    at = ends[-1]
    for changed, said in changed_lines(lines[at]):
        yield "".join(lines[:at] + [changed] + lines[at + 1:]), f"line {at + 1}{said}"


def changed_lines(line):
    """The line of an end with its schedule changed, or its last answer, and what is said of each."""
    front, _, schedule = line.rpartition('"processors": ')
    processors = json.loads(schedule.rstrip("}\n"))
    none = ": its processors are no interleaving of its part"
    yield f'{front}"processors": {json.dumps(processors + [0])}}}\n', none
    yield f'{front}"processors": {json.dumps(processors[:-1])}}}\n', none
    yield line.replace('"blocks": ["', '"blocks": ["x'), " is not what its interleaving leads to"
    yield line.replace('{"end": ', '{"end": 1'), " is not what its interleaving leads to"


def check_refused(checks, programs, scenario, setup, texts):
    """What is no text of all parts of one search is refused; but that a count was changed is not
    found out."""
    where = f"sum refused --setup {setup} {json.dumps(scenario)}"
    text = "".join(texts)
    for wrong, said in refused(text, scenario, setup):
        told = programs.sum(wrong)
        checks.holds(where, told == (1, f"hotplug_lab: {said}\n"), f"says {told} of {wrong!r}")
    more = re.sub('"interleavings": ([0-9]+)', lambda found: found[0] + "0", text, count=1)
    status, _ = programs.sum(more)
    checks.holds(where, status == 0, "a count that was changed is refused")
    huge = re.sub('"interleavings": [0-9]+', f'"interleavings": {2**64 - 1}', text, count=1)
    told = programs.sum(huge)
    one_end = text.count('"interleavings": ') == 1
    is_so = told[0] == 0 if one_end else told == (1, "hotplug_lab: more than 2^64-1 interleavings\n")
    checks.holds(where, is_so, f"says {told} of 2^64-1 interleavings")


def check_parts(checks, programs, draw, scenario, setup, is_spoiled):
    """What parts add up to, and what threads search; and what is said of parts that are spoiled."""
    texts = check_sum(checks, programs, draw, scenario, setup, 3)
    for of in (1, 7):
        check_sum(checks, programs, draw, scenario, setup, of)
    for form in FORMS:
        whole = programs.search(scenario, setup, *form)
        jobs = programs.search(scenario, setup, "--jobs", "2", *form)
        checks.holds(f"--jobs 2 {form} --setup {setup} {json.dumps(scenario)}", jobs == whole,
                     f"{jobs} in place of {whole}")
    if is_spoiled:
        check_files(checks, programs, scenario, setup, texts, draw.randrange(1, 4))
        check_refused(checks, programs, scenario, setup, texts)


def check_part_limit(checks, programs, scenario, setup, orders):
    """A part that has more than the limit says so, and is refused by a sum."""
    where = f"--part 1/1 --limit 1 --setup {setup} {json.dumps(scenario)}"
    status, text = programs.part(scenario, setup, 1, 1, "--limit", "1")
    if len(orders) < 2:
        checks.holds(where, status == 0, f"ends with {status}")
        return
    lines = text.splitlines()
    checks.holds(where, (status, len(lines)) == (3, 3), f"ends with {status} after {text!r}")
    told = programs.sum(text)
    stopped = (1, "hotplug_lab: line 3: the part was stopped before its end\n")
    checks.holds(where, told == stopped, f"says {told}")


def counted(orders):
    """The ends of orders in the order of their first ones: count, end and first order of each."""
    ends = {}
    for calls, end in orders:
        count, first = ends.get(end, (0, calls))
        ends[end] = count + 1, first
    return [(count, end, first) for end, (count, first) in ends.items()]


def check_ends(checks, programs, scenario, setup, orders):
    status, text = programs.search(scenario, setup)
    where = f"explore --setup {setup} {json.dumps(scenario)}"
    checks.holds(where, status == 0, f"ends with {status}, {programs.said!r}")
    total, ends = ends_of(text)
    checks.holds(where, total == len(orders), f"counts {total} of {len(orders)} orders")
    checks.holds(where, ends == counted(orders), f"{ends} in place of {counted(orders)}")


def grouped(ends, part):
    """Ends put together by a part of their end, or by their plans without one: each group with the
    count of all and the rest of the first."""
    groups = {}
    for count, end, first in ends:
        key = json.dumps(end.plans) if part is None else end[part]
        so_far, leader, schedule = groups.get(key, (0, end, first))
        groups[key] = so_far + count, leader, schedule
    return list(groups.values())


def grouped_objects(objects, key, scripts):
    """The objects of ends put together by a key, or by their plans, numbered anew."""
    groups = {}
    for end in objects:
        part = plan_ends(scripts, end["answers"]) if key == "plans" else end[key]
        leader = groups.setdefault(json.dumps(part), {**end, "interleavings": 0})
        leader["interleavings"] += end["interleavings"]
    return [{**end, "end": number} for number, end in enumerate(groups.values(), 1)]


SHORT = {"offline": "off", "absent": "absent", "online normal": "N", "online movable": "M",
         "going normal": "N>off", "going movable": "M>off"}


def joined_blocks(states):
    """Memory blocks in short, neighbours that are alike joined."""
    runs = []
    for block, state in enumerate(states):
        if runs and runs[-1][2] == state:
            runs[-1][1] = block
        else:
            runs.append([block, block, state])
    return " ".join(f"{first}:{SHORT[state]}" if first == last else f"{first}-{last}:{SHORT[state]}"
                    for first, last, state in runs)


def summary_of(ends):
    """The lines of a summary of ends."""
    total = sum(count for count, _, _ in ends)
    for number, (count, (answers, blocks), _) in enumerate(ends, 1):
        share = count * 1000 // total
        refused = sum(reply.startswith("refused ") for replies in answers for reply in replies)
        states = joined_blocks([block.split(" ", 2)[2] for block in blocks])
        yield (f"end {number}: {count}, {share // 10}.{share % 10} %"
               + (f", {refused} refused" if refused else "") + f", {states}")


def check_groups(checks, programs, scenario, setup, orders, limit):
    """Groups are those of the ends, whatever else is asked for; a summary has a line of each."""
    for by, part in (("answers", 0), ("blocks", 1), ("plans", None)):
        words = ("--group", by)
        where = f"{words} --setup {setup} {json.dumps(scenario)}"
        status, text = programs.search(scenario, setup, *words)
        checks.holds(where, status == 0, f"ends with {status}, {programs.said!r}")
        expected = len(orders), grouped(counted(orders), part)
        checks.holds(where, ends_of(text) == expected, f"{ends_of(text)} in place of {expected}")
        check_group_forms(checks, programs, scenario, setup, by)
        past = ("--limit", str(limit), *words)
        _, text = programs.search(scenario, setup, *past)
        told = [end_of(part) for part in text.rstrip("\n").split("\n\n")[1:]]
        first = grouped(counted(orders[:limit]), part)
        checks.holds(f"{past} {where}", told == first, f"tells {told}")
        check_summary(checks, programs, scenario, setup, grouped(counted(orders), part), *words)
    check_summary(checks, programs, scenario, setup, counted(orders))


def check_group_forms(checks, programs, scenario, setup, by):
    """As JSON groups are those of the objects, and threads find them too."""
    where = f"--json --group {by} --setup {setup} {json.dumps(scenario)}"
    _, whole = programs.search(scenario, setup, "--json")
    scripts = Orders(programs, scenario, setup).scripts
    expected = grouped_objects([json.loads(line) for line in whole.splitlines()], by, scripts)
    for more in ((), ("--jobs", "2")):
        status, text = programs.search(scenario, setup, "--json", "--group", by, *more)
        told = status, [json.loads(line) for line in text.splitlines()]
        checks.holds(f"{more} {where}", told == (0, expected), f"{told} in place of {expected}")


def check_summary(checks, programs, scenario, setup, ends, *words):
    where = f"--summary {words} --setup {setup} {json.dumps(scenario)}"
    status, text = programs.search(scenario, setup, "--summary", *words)
    head = [f"interleavings: {sum(count for count, _, _ in ends)}", f"ends: {len(ends)}"]
    told = status, text.splitlines()
    expected = 0, [*head, *summary_of(ends)]
    checks.holds(where, told == expected, f"{told} in place of {expected}")


def drawn_calls(draw, cpus, count):
    """Lines without names for results."""
    return [drawn_call(draw, draw.randrange(cpus), cpus) for _ in range(count)]


def calls_with_names(draw, cpus, count):
    """Lines of which most name a result, or work on one by its name."""
    return named_calls(draw, cpus, count + 1, drawn_call)


def check_drawn(checks, programs, draw, drawn, calls_by):
    """Checks a scenario that is drawn, after so many, its searches and some of its sums; it answers
    whether it has few enough orders, with room for each."""
    cpus = draw.choice((1, 2, 2, 2, 3))
    layout = dict(LAYOUT, cpus=cpus, history=200)
    setup = draw.randrange(3)
    calls = calls_by(draw, cpus, setup + draw.randrange(2, 6))
    scenario = {"layout": layout, "calls": calls}
    try:
        all_orders = Orders(programs, scenario, setup)
        orders = all_orders.all_from([], MOST_ORDERS)
    except NoRoom:
        return False
    if len(orders) > MOST_ORDERS:
        return False
    limit = draw.randrange(len(orders))
    check_ends(checks, programs, scenario, setup, orders)
    check_first(checks, programs, scenario, setup, orders, limit)
    check_ended(checks, programs, scenario, setup, orders)
    check_groups(checks, programs, scenario, setup, orders, limit)
    check_parts(checks, programs, draw, scenario, setup, drawn % SPOILED == 0)
    if drawn % SPOILED == 0:
        check_part_limit(checks, programs, scenario, setup, orders)
    for texts in drawn_texts(draw, [end for _, end in orders]):
        check_search(checks, programs, scenario, setup, all_orders.setup, orders, texts)
        if drawn % SPOILED == 0:
            check_budgets(checks, programs, draw, scenario, setup, texts)
    return True


def check_chunk(task, checks, draw):
    """Checks as many scenarios as the task says."""
    programs, number, calls_by = task
    drawn = 0
    while drawn < number:
        drawn += check_drawn(checks, programs, draw, drawn, calls_by)


def check_no_lines(checks, programs):
    scenario = {"layout": LAYOUT, "calls": ["0 map db 0"]}
    for text in NO_LINES:
        for option in ("--find", "--never"):
            status, said = programs.find(scenario, 0, option, ["done", text])
            expected = (2, f"hotplug_lab: cannot read `{text}` as a line of an end\n{LINE_FORMS}\n")
            is_so = (status, said) == expected
            checks.holds(f"{option} {text!r}", is_so, f"says {status}, {said!r}")


def check_past(checks, programs):
    """What is past the layout is no line of an end; its last processor, block and frame may be."""
    frames = LAYOUT["blocks"] * LAYOUT["pageblocks"] << LAYOUT["order"]
    first = {"cpus": LAYOUT["cpus"], "blocks": LAYOUT["blocks"], "frames": frames}
    last = {name: count - 1 for name, count in first.items()}
    scenario = {"layout": LAYOUT, "calls": ["0 map db 0"]}
    for text in PAST:
        for option in ("--find", "--never"):
            status, said = programs.find(scenario, 0, option, ["done", text.format(**first)])
            expected = (1, "hotplug_lab: wanted line 2 names what is past the layout\n")
            checks.holds(f"{option} {text!r}", (status, said) == expected, f"says {status}, {said!r}")
            status, said = programs.find(scenario, 0, option, [text.format(**last)])
            checks.holds(f"{option} {text!r}", status in (0, 3), f"says {status}, {said!r}")


def main(words):
    crates, seed, count = (words + [ROOT / "crates", SEED, COUNT][len(words):])
    checks, count = Checks(), int(count)
    programs = Searches(Path(crates).resolve())
    try:
        check_no_lines(checks, programs)
        check_past(checks, programs)
    except (ValueError, LookupError, OSError, subprocess.SubprocessError) as error:
        checks.holds("find", False, f"cannot be checked: {error!r}")
    tasks = [(programs, size, calls_by)
             for number, calls_by in ((count, drawn_calls), (count // 4, calls_with_names))
             for size in chunks(number, CHUNK)]
    check_side_by_side(checks, check_chunk, tasks, seed)
    for failure in checks.failures:
        print(failure)
    print(f"find: {checks.passed} passed, {len(checks.failures)} failed")
    return 1 if checks.failures else 0


if __name__ == "__main__":
    sys.exit(main(sys.argv[1:]))
