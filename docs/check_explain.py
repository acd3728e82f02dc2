#!/usr/bin/env python3
"""Compares what `hotplug_lab explain` prints with every order of the calls, each played by `hotplug
serial`, and gives it what `hotplug run` prints. `check` at the top runs it after the gate; alone it
takes the folder of the crates:

    python3 docs/check_explain.py [CRATES [SEED [COUNT [SLACK]]]]   without: crates, 51, 1500 and 1

On COUNT scenarios that are drawn at random, with all events and plans and at most 150 orders, for
some of which the history may have no room: an order's answers are explained, as words, and as JSON
with times that were made from the order; so are those with one answer changed, with times of
another order and with times drawn at random, where an order explains them. It is the first of
these, printed as `--find` prints it, also with `--json`, and with `--scenario 1` as a scenario that
`hotplug serial` answers so. Where none explains them that is printed, with the first of the longest
explained beginnings, and of each processor how many of its lines are over, and what its next line
would be answered or waits for. With a limit of states, no memory or no time the same is printed, or
that nothing is known.

What `hotplug run` prints of scenarios with more lines is explained. So is what the program of
bench/peer prints, where there is cargo, and with the race that it can plant some run is not. Only
if a line is an `undo`, the search may be ended after 30 s; such runs are printed.
Each answer that a call or a plan can get is read; answers that are none, and each other fault of
the file, are named by their lines, with status 1 and nothing printed; wrong command lines have
status 2. Two long runs are explained in time, or in SLACK times that by an unproved build. The last
line is 'explain: N passed, M failed'; the exit status is 0 where nothing failed, else 1.
"""
import json
import random
import re
import subprocess
import sys
import tempfile
from pathlib import Path

from check_find import NO_SCENARIO, STOPPED, NoRoom
from check_lab import LAYOUT, ROOT, SECONDS, Checks, Programs
from explain_files import check_files
from explain_orders import LAST, Orders, Seen, answers_in, answers_of, warnings_of
from explain_runs import check_peer, check_runs, check_speed
from explain_texts import as_objects, as_words, expected_of
from side_by_side import check_side_by_side, chunks

SEED = 51
COUNT = 1500
# How many scenarios one task draws.
CHUNK = 25
MOST_ORDERS = 150
LAYOUTS = ({"blocks": 3, "boot": ["normal", "movable", "movable"]},
           {"blocks": 3, "boot": ["normal", "movable", "movable"]},
           {"blocks": 4, "boot": ["normal", "normal", "offline", "absent"], "batch": 2, "high": 2},
           {"blocks": 3, "boot": ["normal", "offline", "movable"], "pageblocks": 2, "order": 0})
REPLIES = ("done", "frame 0", "frame 1", "word 0", "word 2", "opened 1", "opened 2", "moved 2 1",
           "undone 0", "undone 1", "restored", "released", "refused NoFrame", "refused NotFree 2",
           "refused NoOp", "refused Busy 1", "plan: done", "plan: undone",
           "plan: cancelled - restored", "plan: refused Busy 1")


class Explains(Programs):
    """The two programs, a folder for what `explain` reads, and how long it may take."""

    def __init__(self, crates, folder, slack):
        super().__init__(crates)
        self.folder, self.seconds = Path(folder), SECONDS * slack

    def told(self, *words, text=b""):
        """The exit status, and what is printed on standard output and standard error."""
        ran = subprocess.run([self.lab, "explain", *words], input=text, capture_output=True,
                             timeout=self.seconds)
        return ran.returncode, ran.stdout.decode(), ran.stderr.decode()

    def explain(self, scenario, answers, *words):
        """The same of a scenario and the bytes or the text of answers, each from a file."""
        files = self.folder / "scenario.json", self.folder / "answers"
        files[0].write_text(json.dumps(scenario))
        files[1].write_bytes(answers if isinstance(answers, bytes) else answers.encode())
        return self.told(*words, *files)


# What is drawn

def lively_line(draw, cpus, number):
    """A line that mostly is not refused, and meets those of other processors."""
    owner, page, block = draw.choice(("db", "web")), draw.randrange(2), draw.choice((1, 1, 2))
    return draw.choice((f"kalloc {draw.choice((0, 0, 1))}", f"map {owner} {page}", f"map {owner} 0",
                        f"unmap {owner} 0", f"read {owner} 0 0", f"write {owner} 0 0 {page + 1}",
                        f"begin off {block}", f"drainfor {number} {draw.randrange(cpus)}",
                        f"migrate {number}", f"commit {number}", f"plan 2 off {block}",
                        f"plan 3 off {block}", f"echo offline memory{block}/state"))


def any_line(draw, cpus, number):
    """A line with any event or plan, refused or not."""
    owner, page, block = draw.choice(("db", "web")), draw.randrange(3), draw.randrange(4)
    item, zone = draw.choice(("off", "normal", "movable")), draw.choice(("normal", "movable"))
    plan = draw.choice((f"{item} {block}", f"off 1 {item} {block}", ""))
    state = draw.choice(("offline", "online", "online_movable", "online_kernel"))
    return draw.choice((f"kalloc {draw.randrange(3)}", f"kfree {draw.randrange(4)}",
                        f"map {owner} {page}", f"unmap {owner} {page}", f"read {owner} {page} 0",
                        f"write {owner} {page} {draw.randrange(2)} {draw.choice((1, 2, LAST))}",
                        f"drain {draw.randrange(cpus + 1)}", f"online {block} {zone}",
                        f"begin {plan}".strip(), f"drainfor {number} {draw.randrange(cpus)}",
                        f"migrate {number}", f"commit {number}", f"cancel {number}",
                        f"undo {draw.randrange(6)}", f"remove {block}",
                        f"plan {draw.randrange(4)} {plan}".strip(),
                        f"echo {state} memory{block}/state",
                        f"echo {draw.randrange(2)} memory{block}/online",
                        f"echo 0x{draw.choice((0, 16, 24, 48, 50)):x} probe",
                        f"echo {state} auto_online_blocks"))


def drawn_line(draw, cpu, cpus, numbers):
    """A line of a processor; an operation has one of some numbers, 0 the one that it began last."""
    line = draw.choice((lively_line, lively_line, any_line))
    return f"{cpu} {line(draw, cpus, draw.choice(numbers))}"


def drawn_scenario(draw, numbers, cpus, lines):
    """A scenario with so many lines, and room in its history for more than a plan."""
    layout = {**LAYOUT, **draw.choice(LAYOUTS), "cpus": cpus, "history": 200}
    return {"layout": layout,
            "calls": [drawn_line(draw, draw.randrange(cpus), cpus, numbers) for _ in range(lines)]}


def spans_of(order, cpus):
    """When each line begins and is answered in an order, by the places of its calls."""
    spans = [{} for _ in range(cpus)]
    for at, step in enumerate(order):
        begun, _ = spans[step.cpu].get(step.line, (10 * at + 10, 0))
        spans[step.cpu][step.line] = begun, 10 * at + 15
    return [[lines[line] for line in sorted(lines)] for lines in spans]


def stretched(draw, spans, by):
    """Longer spans, of which a processor's do not end before the ones before them."""
    told, last = [], 0
    for begun, over in spans:
        last = max(last, over + draw.randrange(by))
        told.append((max(0, begun - draw.randrange(by)), last))
    return told


def random_spans(draw, count, end):
    """Spans that fit no order, or any."""
    overs = sorted(draw.randrange(end) for _ in range(count))
    return [(draw.randrange(over + 1), over) for over in overs]


def timed(draw, answers, spans):
    """What was seen, with these times, of which some are left out: a time that is missing at an end
    is that of the next line that has one."""
    seen = []
    for replies, lines in zip(answers, spans, strict=True):
        told, later = [], LAST
        for answer, (begun, over) in reversed(list(zip(replies, lines, strict=True))):
            later = over if draw.randrange(5) else later
            told.insert(0, Seen(answer, begun if draw.randrange(5) else 0, later))
        seen.append(told)
    return seen


def changed(draw, answers, orders, cpus):
    """The same answers but for one, which is another order's or any reply."""
    cpu = draw.choice([cpu for cpu, replies in enumerate(answers) if replies])
    line = draw.randrange(len(answers[cpu]))
    others = [answers_in(order, cpus)[cpu][line] for order in draw.sample(orders, min(8, len(orders)))]
    now = [list(replies) for replies in answers]
    now[cpu][line] = draw.choice([it for it in (*others, *REPLIES) if it != answers[cpu][line]])
    return now


# What is checked of a scenario that is drawn

def check_budgets(checks, programs, draw, where, scenario, answers, whole):
    """With less than it needs a search prints what it prints with enough, or that it does not know;
    then standard error says after how many states it stopped, and why."""
    for option, number in (("--limit", 3), ("--limit", draw.randrange(12)), ("--limit", 10**6),
                           ("--memory", 0), ("--seconds", 0), ("--seconds", 1000)):
        status, text, said = programs.explain(scenario, answers, option, str(number))
        stopped = re.search(STOPPED, said)
        place = f"{option} {number} {where}"
        if not stopped:
            checks.holds(place, (status, text) == whole, f"says {status}, {text!r}, {said!r}")
            continue
        checks.holds(place, (status, text) == (3, "explained: unknown\n"), f"says {status}, {text!r}")
        is_so = stopped[2] == option and (option != "--limit" or int(stopped[1]) == number)
        checks.holds(place, is_so and number < 1000, f"says {said!r}")
        form = draw.choice((("--json",), ("--scenario", "1")))
        told = programs.explain(scenario, answers, option, str(number), *form)[:2]
        unknown = '{"found": null}\n' if form == ("--json",) else ""
        checks.holds(f"{form} {place}", told == (3, unknown) or option == "--seconds", f"says {told}")


def check_replay(checks, programs, where, scenario, answers, order, seen):
    """As a scenario an order has the answers that were seen in `hotplug serial`."""
    where = f"--scenario 1 {where}"
    status, text, said = programs.explain(scenario, answers, "--scenario", "1")
    if order is None:
        is_so = (status, text) == (3, "") and said.endswith(NO_SCENARIO)
        checks.holds(where, is_so, f"says {status}, {text!r}, {said!r}")
        return
    replay = dict(scenario, calls=[step.call for step in order])
    is_so = status == 0 and json.loads(text) == replay
    checks.holds(where, is_so, f"says {status}, {text!r}")
    given = answers_of(scenario, replay["calls"], programs.serial_of(text))
    expected = [[it.answer for it in lines] for lines in seen]
    checks.holds(where, given == expected, f"gives {given}, not {expected}")


def check_seen(checks, programs, draw, scenario, orders, seen, answers):
    """What is printed of answers, in all forms, with which order it is that explains them."""
    where = f"explain {answers!r} {json.dumps(scenario)}"
    order, (status, text, value) = expected_of(orders, seen)
    told = programs.explain(scenario, answers)
    checks.holds(where, told[:2] == (status, text), f"says {told}, not {(status, text)}")
    checks.holds(where, told[2] == warnings_of(scenario), f"warns {told[2]!r}")
    ended, line, _ = programs.explain(scenario, answers, "--json")
    checks.holds(f"--json {where}", (ended, line) == (status, json.dumps(value) + "\n"),
                 f"says {ended}, {line!r}, not {value}")
    check_replay(checks, programs, where, scenario, answers, order, seen)
    if not draw.randrange(8):
        check_budgets(checks, programs, draw, where, scenario, answers, (status, text))


def drawn_answers(draw, orders, cpus):
    """The answers of an order, often of one whose answers are not those of the first, and often
    with one changed; and the order."""
    odd = [it for it in orders if answers_in(it, cpus) != answers_in(orders[0], cpus)]
    order = draw.choice(odd if odd and draw.randrange(2) else orders)
    answers = answers_in(order, cpus)
    return changed(draw, answers, orders, cpus) if draw.randrange(2) else answers, order


def drawn_spans(draw, order, other, cpus):
    """Times that fit an order, and times that need not."""
    spans, others = spans_of(order, cpus), spans_of(other, cpus)
    end = max(over for lines in spans for _, over in lines) + 1
    yield [stretched(draw, lines, draw.choice((1, 10, 40))) for lines in spans]
    if draw.randrange(2):
        yield [stretched(draw, lines, draw.choice((1, 10, 40))) for lines in others]
    else:
        yield [random_spans(draw, len(lines), end) for lines in spans]


def check_drawn(checks, programs, draw):
    """Checks a scenario that is drawn; it answers whether it has few enough orders, with room for
    each. If plans make some orders longer, the history is mostly too short for these."""
    cpus = draw.choice((1, 2, 2, 2, 3, 3, 4))
    scenario = drawn_scenario(draw, (0, 0, 0, 1, 2), cpus, draw.randrange(2, 8))
    try:
        orders = Orders(programs, scenario, MOST_ORDERS).all
    except NoRoom:
        return False
    if len(orders) > MOST_ORDERS:
        return False
    answers, order = drawn_answers(draw, orders, cpus)
    times = list(drawn_spans(draw, order, draw.choice(orders), cpus))
    shortest, longest = min(map(len, orders)), max(map(len, orders))
    if shortest < longest or not draw.randrange(12):
        scenario["layout"]["history"] = draw.randrange(max(1, shortest - 1), longest + 1)
        orders = Orders(programs, scenario, MOST_ORDERS).all
    plain = [list(map(Seen, replies)) for replies in answers]
    records = f"{len(order)} records\n" if draw.randrange(2) else ""
    check_seen(checks, programs, draw, scenario, orders, plain, as_words(plain) + records)
    for spans in times:
        seen = timed(draw, answers, spans)
        check_seen(checks, programs, draw, scenario, orders, seen, as_objects(draw, seen))
    return True


def check_chunk(task, checks, draw):
    """Checks as many scenarios as the task says."""
    crates, slack, number = task
    with tempfile.TemporaryDirectory() as folder:
        programs = Explains(crates, folder, slack)
        drawn = 0
        while drawn < number:
            drawn += check_drawn(checks, programs, draw)


def main(words):
    crates, seed, count, slack = words + [ROOT / "crates", SEED, COUNT, 1][len(words):]
    crates, checks, draw, slack = Path(crates).resolve(), Checks(), random.Random(int(seed)), int(slack)
    tasks = [(crates, slack, size) for size in chunks(int(count), CHUNK)]
    check_side_by_side(checks, check_chunk, tasks, seed)
    with tempfile.TemporaryDirectory() as folder:
        programs = Explains(crates, folder, slack)
        try:
            check_files(checks, programs)
            check_runs(checks, programs, draw, drawn_scenario)
            check_speed(checks, programs, slack)
            check_peer(checks, programs, draw, drawn_scenario)
        except (ValueError, LookupError, OSError, subprocess.SubprocessError) as error:
            checks.holds("explain", False, f"cannot be checked: {error!r}")
    for failure in checks.failures:
        print(failure)
    print(f"explain: {checks.passed} passed, {len(checks.failures)} failed")
    return 1 if checks.failures else 0


if __name__ == "__main__":
    sys.exit(main(sys.argv[1:]))
