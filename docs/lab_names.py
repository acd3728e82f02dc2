"""Lines of `hotplug_lab` with names for results, made plain as docs/LAB.md says; and such lines,
drawn at random. The names are read here once more, by other code than that of the program."""
import re

NO_FRAME = 2**32 - 1
NO_OPERATION = 2**64 - 1
NAMES = ("x", "y", "k")
OF_OPERATIONS = ("drainfor", "migrate", "commit", "cancel")


def unnamed(text):
    """A text without the ` as NAME` at its end, and the name, or None."""
    front, _, name = text.rpartition(" as ")
    return (front, name) if front else (text, None)


def with_numbers(text, numbers):
    """A text with the number of each name in place of `$NAME`."""
    return re.sub(r"\$(\w+)", lambda found: str(numbers[found[1]]), text)


def result_of(text, serial, reply):
    """The number that a name for the result of a line without its processor stands for."""
    if text.startswith("begin"):
        return serial
    frame = re.fullmatch("frame ([0-9]+)", reply)
    return int(frame[1]) if frame else NO_FRAME


def answer_in(printed):
    """The serial and the reply of the last line in what `hotplug serial` prints; without a record
    the serial is that of no operation."""
    answers, _, _ = printed.rpartition("state\nblock 0 ")
    serial, _, reply = answers.splitlines()[-1].partition(": ")
    return NO_OPERATION if serial == "-" else int(serial), reply


def made_plain(programs, layout, lines):
    """The lines without names, and for each processor the numbers that its names stand for."""
    numbers, plain = {}, []
    for line in lines:
        cpu, _, text = line.partition(" ")
        own = numbers.setdefault(cpu, {})
        text, name = unnamed(text)
        text = with_numbers(text, own)
        plain.append(f"{cpu} {text}")
        if name:
            own[name] = result_of(text, *answer_in(programs.serial(layout, plain)))
    return plain, numbers


def plain_lines(programs, layout, lines):
    """The lines without names."""
    return made_plain(programs, layout, lines)[0]


# At random

def named_text(draw, cpus, kinds):
    """A text that names its result or works on an earlier one; `kinds` has for each name of its
    processor so far whether it stands for an operation or for a frame."""
    block, name = draw.randrange(1, 3), draw.choice(NAMES)
    texts = [f"begin off {block} as {name}", f"kalloc {draw.randrange(2)} as {name}"]
    for known, kind in kinds.items():
        if kind == "begin":
            texts += [f"{verb} ${known}" for verb in ("migrate", "commit", "commit", "cancel")]
            texts += [f"drainfor ${known} {draw.randrange(cpus)}"]
        else:
            texts += [f"kfree ${known}"] * 3
    return draw.choice(texts)


def usual_call(draw, cpu, cpus):
    """A call of a processor without a name, which may make no record, or several."""
    page, block = draw.randrange(2), draw.randrange(1, 3)
    texts = [f"map db {page}", f"unmap db {page}", f"write db {page} 0 3", f"drain {draw.randrange(cpus)}",
             f"begin off {block}", "commit 1", f"undo {draw.randrange(6)}", f"plan 2 off {block}",
             f"echo online memory{block}/state", "cat buddyinfo", "seal"]
    return f"{cpu} {draw.choice(texts)}"


def named_calls(draw, cpus, count, other_call=usual_call):
    """Lines of which most have names; the others are drawn by `other_call`."""
    kinds, calls = [{} for _ in range(cpus)], []
    for _ in range(count):
        cpu = draw.randrange(cpus)
        if draw.randrange(3) == 0:
            calls.append(other_call(draw, cpu, cpus))
            continue
        text = named_text(draw, cpus, kinds[cpu])
        _, name = unnamed(text)
        if name:
            kinds[cpu][name] = text.split()[0]
        calls.append(f"{cpu} {text}")
    return calls
