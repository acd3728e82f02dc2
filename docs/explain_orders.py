"""Every order of a scenario's calls, each played by `hotplug serial`, and which of them explain what
was seen of a run. check_explain.py compares `hotplug_lab explain` with it."""
import re
from typing import NamedTuple

from check_find import NoRoom, calls_of
from check_lab import answers_and_state, run_end

LONGEST = 40
LAST = 2**64 - 1
ZONES = {"online": "normal", "online_kernel": "normal", "online_movable": "movable", "1": "normal"}


class Seen(NamedTuple):
    """What was seen of a line. JSON leaves a time out where it is the default."""
    answer: str
    begun: int = 0
    over: int = LAST


class Step(NamedTuple):
    """A call of an order, and the answer to its line where it is the line's last one."""
    cpu: int
    call: str
    line: int
    answer: str | None


def written(text):
    """A line as the calls of an order have it: as an event, where it is an `echo` that asks for
    one."""
    words = text.split()
    if words[0] == "echo" and words[2].startswith("memory") and words[1] in ZONES:
        block = words[2].partition("/")[0].removeprefix("memory")
        return f"online {block} {ZONES[words[1]]}"
    return " ".join(words)


def is_plan(text):
    words = text.split()
    return words[0] == "plan" or (words[0] == "echo" and words[1] in ("offline", "0")
                                  and words[2].startswith("memory"))


def answer_of(text, replies, cpus):
    """The answer to a line whose calls got these replies."""
    if not is_plan(text):
        return replies[-1]
    turns = int(text.split()[1]) if text.startswith("plan") else 1024
    return run_end(list(replies), turns, cpus)


def own(call, begun):
    """A call with the number of the processor's last begin in place of 0."""
    words = call.split()
    if words[0] in ("drainfor", "migrate", "commit", "cancel") and words[1] == "0":
        words[1] = str(begun)
    return " ".join(words)


def walked(script, cpus, receipts):
    """The lines of the calls that have their receipts, with the answer of each that ends its line,
    and the line and text of the next call, or None where the script is over."""
    left, made, begun = list(receipts), [], 0
    for line, text in enumerate(script):
        calls, replies = calls_of(text, cpus) if is_plan(text) else iter([written(text)]), []
        try:
            call = next(calls)
            while True:
                call = own(call, begun)
                if not left:
                    return made, (line, call)
                serial, reply = left.pop(0)
                begun = serial if call.startswith("begin") else begun
                replies.append(reply)
                made.append((line, None))
                call = calls.send((serial, reply)) if is_plan(text) else next(calls)
        except StopIteration:
            made[-1] = (line, answer_of(text, replies, cpus))
    return made, None


def guess(call, serial):
    """A reply that a plan's call mostly gets."""
    return {"begin": f"opened {serial}", "migrate": "refused NothingToMove"}.get(call.split()[0],
                                                                               "done")


# Ends an order in place of a call for which the history has no room.
FULL = Step(-1, "", 0, None)


class Orders:
    """The orders of all calls of a scenario, processor 0 first. An order is a list of steps."""

    def __init__(self, programs, scenario, most):
        self.programs, self.layout, self.most = programs, scenario["layout"], most
        self.cpus = self.layout["cpus"]
        self.scripts = scripts_of(scenario)
        self.replies, self.all = {}, []
        self.walk((), ())

    def nexts(self, receipts):
        """What each processor asks for next; None where its script is over."""
        parts = [[(serial, reply) for cpu, serial, reply in receipts if cpu == own_cpu]
                 for own_cpu in range(self.cpus)]
        return [walked(script, self.cpus, part)[1]
                for script, part in zip(self.scripts, parts, strict=True)]

    def reply(self, calls, receipts):
        """The reply to the last of some calls, where the others have receipts. What most likely
        comes after it is played with it."""
        if calls not in self.replies:
            likely, known = list(calls), list(receipts)
            while len(likely) < LONGEST:
                cpu, _, text = likely[-1].partition(" ")
                known.append((int(cpu), len(known) + 1, guess(text, len(known) + 1)))
                more = [f"{cpu} {it[1]}" for cpu, it in enumerate(self.nexts(known)) if it]
                if not more:
                    break
                likely.append(more[0])
            text, _ = answers_and_state(self.programs.serial(self.layout, likely))
            for end, line in enumerate(text.splitlines(), 1):
                self.replies[tuple(likely[:end])] = line.partition(": ")[2]
        return self.replies[calls]

    def walk(self, calls, receipts):
        """Adds each order that goes on from calls, as long as there are no more than so many."""
        if len(calls) > LONGEST:
            raise NoRoom
        more = self.nexts(receipts)
        if not any(more):
            self.all.append(self.steps(calls, receipts))
        elif len(calls) == self.layout["history"]:
            self.all.append(self.steps(calls, receipts) + [FULL])
            return
        for cpu, call in enumerate(more):
            if call and len(self.all) <= self.most:
                longer = calls + (f"{cpu} {call[1]}",)
                reply = self.reply(longer, receipts)
                if reply.startswith("fault "):
                    raise NoRoom
                self.walk(longer, receipts + ((cpu, len(longer), reply),))

    def steps(self, calls, receipts):
        made = []
        for cpu, script in enumerate(self.scripts):
            part = [(serial, reply) for who, serial, reply in receipts if who == cpu]
            lines, _ = walked(script, self.cpus, part)
            made += [(serial, cpu, line, answer)
                     for (serial, _), (line, answer) in zip(part, lines, strict=True)]
        return [Step(cpu, calls[serial - 1], line, answer)
                for serial, cpu, line, answer in sorted(made)]


def scripts_of(scenario):
    """The lines of each processor, without its number."""
    return [[line.partition(" ")[2] for line in scenario["calls"] if line.split()[0] == str(cpu)]
            for cpu in range(scenario["layout"]["cpus"])]


def answers_of(scenario, calls, text):
    """The answers to each processor's lines in what `hotplug serial` prints for all their calls in
    some order."""
    receipts = [(call.split()[0], at, line.partition(": ")[2]) for at, (call, line) in
                enumerate(zip(calls, answers_and_state(text)[0].splitlines(), strict=True), 1)]
    told = []
    for cpu, script in enumerate(scripts_of(scenario)):
        part = [(serial, reply) for who, serial, reply in receipts if who == str(cpu)]
        made, _ = walked(script, scenario["layout"]["cpus"], part)
        told.append([answer for _, answer in made if answer is not None])
    return told


def warnings_of(scenario):
    """What is said of the first line of each processor that uses 0 before it begins any
    operation."""
    told = ""
    for cpu in range(scenario["layout"]["cpus"]):
        for number, line in enumerate(scenario["calls"], 1):
            who, _, text = line.partition(" ")
            if who == str(cpu) and (text.startswith("begin") or is_plan(text)):
                break
            if who == str(cpu) and re.match("(drainfor|migrate|commit|cancel) 0( |$)", text):
                told += (f"hotplug_lab: line {number}: 0 is no operation: processor {cpu} has begun "
                         "none\n")
                break
    return told


def answers_in(order, cpus):
    """The answers to each processor's lines in an order."""
    return [[step.answer for step in order if step.cpu == cpu and step.answer is not None]
            for cpu in range(cpus)]


def missing(seen, over, cpu, line):
    """The lines that were answered before a line began and are not over."""
    begun = seen[cpu][line].begun
    return [(other, at) for other, lines in enumerate(seen) for at, it in enumerate(lines)
            if it.over < begun and (other, at) not in over]


def beginning(order, seen):
    """How many of an order's first calls agree with what was seen: there is room for each, each line
    that they end is answered so, and none begins before one that was answered by then is over."""
    over = set()
    for at, step in enumerate(order):
        if step is FULL or missing(seen, over, step.cpu, step.line):
            return at
        if step.answer is not None:
            if step.answer != seen[step.cpu][step.line].answer:
                return at
            over.add((step.cpu, step.line))
    return len(order)


def explaining(orders, seen):
    """The first order that explains what was seen, or None, and the first of the longest
    beginnings."""
    lengths = [beginning(order, seen) for order in orders]
    for order, length in zip(orders, lengths, strict=True):
        if length == len(order):
            return order, order
    longest = max(lengths)
    return None, orders[lengths.index(longest)][:longest]


class Place(NamedTuple):
    """Where a processor is after a beginning: how many of its lines are over, of how many, and what
    its next line waits for (a processor and its line), or would be answered in place of what was
    seen. A line for which the history has no room does neither."""
    over: int
    lines: int
    waits: tuple | None
    would: str | None
    was: str | None


def places(orders, seen, longest):
    """Where each processor is after the longest beginning."""
    over = {(step.cpu, step.line) for step in longest if step.answer is not None}
    told = []
    for cpu, lines in enumerate(seen):
        count = sum(who == cpu for who, _ in over)
        if count == len(lines):
            told.append(Place(count, len(lines), None, None, None))
            continue
        waits = missing(seen, over, cpu, count)
        nexts = {order[len(longest)] for order in orders if order[:len(longest)] == longest}
        would = [step.answer for step in nexts if step.cpu == cpu and not waits]
        told.append(Place(count, len(lines), waits[0] if waits else None,
                          would[0] if would else None, lines[count].answer))
    return told
