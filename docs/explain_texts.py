"""Answers as `hotplug_lab explain` reads them, and what it has to print."""
import json

from check_find import changes_of
from explain_orders import LAST, Seen, explaining, places


def as_words(seen):
    """Answers as `hotplug run` prints them, without the number of records."""
    return "".join(f"cpu {cpu}\n" + "".join(f"{it.answer}\n" for it in lines)
                   for cpu, lines in enumerate(seen))


def seen_in(text):
    """What `hotplug run` printed."""
    seen = []
    for line in text.splitlines()[:-1]:
        if line.startswith("cpu "):
            seen.append([])
        else:
            seen[-1].append(Seen(line))
    return seen


def as_objects(draw, seen):
    """Answers as JSON lines, those of the processors mixed. A time that is the default, or the one
    of the next line, may be missing."""
    left, text = [list(lines) for lines in seen], ""
    while any(left):
        cpu = draw.choice([cpu for cpu, lines in enumerate(left) if lines])
        it = left[cpu].pop(0)
        value = {"cpu": cpu, "answer": it.answer}
        if it.begun or draw.randrange(2):
            value["from"] = it.begun
        if it.over != (left[cpu][0].over if left[cpu] else LAST) or draw.randrange(2):
            value["to"] = it.over
        text += json.dumps(dict(draw.sample(sorted(value.items()), len(value)))) + "\n"
    return text


def quoted(calls):
    return ",\n".join(map(json.dumps, calls)) + ("\n" if calls else "")


def place_text(cpu, place):
    """What is printed of a processor after the longest beginning."""
    if place.over == place.lines:
        return f"cpu {cpu}: finished\n"
    start = f"cpu {cpu}: line {place.over + 1} of {place.lines} "
    if place.waits is not None:
        other, line = place.waits
        return f"{start}began after line {line + 1} of cpu {other} was answered\n"
    if place.would is None:
        return f"{start}has no room in the history\n"
    return f"{start}would be answered `{place.would}`, not `{place.was}`\n"


def place_object(place):
    """The same as an object."""
    value = {"finished": place.over, "lines": place.lines}
    if place.over == place.lines:
        return value
    if place.waits is not None:
        other, line = place.waits
        return {**value, "after": {"cpu": other, "line": line + 1}, "answer": place.was}
    if place.would is None:
        return {**value, "no_room": True, "answer": place.was}
    return {**value, "next": place.would, "answer": place.was}


def expected_of(orders, seen):
    """The order that explains what was seen, or None, with the status, the text and the object that
    are expected."""
    order, longest = explaining(orders, seen)
    calls = [step.call for step in longest]
    if order is not None:
        changes = changes_of(calls)
        return order, (0, f"changes: {changes}\nfirst:\n{quoted(calls)}",
                       {"found": True, "changes": changes, "first": calls})
    where = places(orders, seen, longest)
    count = "1 call" if len(calls) == 1 else f"{len(calls)} calls"
    lines = "".join(place_text(cpu, it) for cpu, it in enumerate(where))
    return None, (3, f"explained: none\nlongest beginning: {count}\n{quoted(calls)}{lines}",
                  {"found": False, "first": calls, "processors": list(map(place_object, where))})
