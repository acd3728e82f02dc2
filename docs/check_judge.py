#!/usr/bin/env python3
"""Tries `hotplug_lab judge` on logs whose verdicts are known. `check` at the top runs it after the gate;
alone it takes the folder of the crates:

    python3 docs/check_judge.py [CRATES]        without CRATES: crates

What is tried:
- a log of Debian's Linux 6.1 (docs/linux/first.trace.xz): exactly its eight known faults, and none
  with `--allow in-use`; the same by each memory block alone;
- twelve changes of that log, each with the event at which it has to be named: a free taken out, an
  alloc and a free doubled, an alloc moved into a block that is gone, a failed offline that is said to
  have succeeded, and others;
- 300 random logs of a small machine, lawful ones and changed ones: the faults, each with its law, its
  place and the earlier event, and what is counted of each memory block, are those of a slow judge that
  looks for contradictions by the sentences of the laws (crates/hp_judge/specs/Laws.antt); also with
  `--blocks`, `--allow` and `--most`; each is lawful exactly if all its parts are; and the picture of
  each has these blocks, their frames in use, and where they are going online or offline and where
  that ended;
- 300 random lawful logs, each without one alloc or free of a single frame: at most one fault;
- a picture of a longer log, and of the log of Linux;
- logs that say on their first line how many frames a memory block has;
- the logs of 2,000 random scenarios of our own machine, with events of all kinds, undos, cancels and
  seals, as `hotplug_lab trace --log` writes them: each is lawful, and has the frames in use that the
  last row of `hotplug_lab trace` draws; with one event taken out, doubled or changed its faults are
  those of the slow judge;
- logs and command lines that cannot be read.
The last line is 'judge: N passed, M failed'; the exit status is 0 where nothing failed, else 1.
"""
import json
import lzma
import random
import re
import subprocess
import sys
import xml.etree.ElementTree as xml
from collections import Counter
from pathlib import Path

from check_find import drawn_call
from check_lab import numbered
from lab_traces import BLOCK

ROOT = Path(__file__).resolve().parent.parent
SECONDS = 60
LOGS = 300
SCENARIOS = 2000
BLOCK_FRAMES = 32768
KNOWN = [26187, 26188, 26189, 26190, 29819, 29820, 29821, 29822]


class Checks:
    """What was checked, and what failed."""

    def __init__(self):
        self.passed, self.failures = 0, []

    def holds(self, where, is_right, message):
        if is_right:
            self.passed += 1
        else:
            self.failures.append(f"{where}: {message}")


class Judge:
    """The program."""

    def __init__(self, crates):
        self.lab = crates / "hotplug_lab/out/hotplug_lab"

    def call(self, log, *words):
        """The status, and what is written to standard output and to standard error."""
        text = log if isinstance(log, bytes) else log.encode()
        ran = subprocess.run([self.lab, "judge", *words], input=text, capture_output=True,
                             timeout=SECONDS)
        return ran.returncode, ran.stdout.decode(), ran.stderr.decode()

    def trace(self, scenario, *words):
        """The status, and what `trace` writes to standard output and to standard error."""
        ran = subprocess.run([self.lab, "trace", *words], input=json.dumps(scenario).encode(),
                             capture_output=True, timeout=SECONDS)
        return ran.returncode, ran.stdout.decode(), ran.stderr.decode()

    def report(self, log, *words):
        """The status, and the objects of the report."""
        status, out, said = self.call(log, "--json", *words)
        return status, [json.loads(line) for line in out.splitlines()], said


def faults_of(report):
    return [one for one in report if "fault" in one]


# ---- the log of Linux

def frame_of(line):
    """The frame of a page event."""
    at = line.find("pfn=0x")
    return int(line[at + 6:].split(" ")[0], 16) if at >= 0 else None


def order_of(line):
    return int(line.split(" order=")[1].split(" ")[0])


def index_of(lines, test, start=0):
    return next(at for at in range(start, len(lines)) if test(lines[at]))


def covers(line, frame):
    """Whether a page event has the frame."""
    is_page = ": mm_page_alloc:" in line or ": mm_page_free:" in line
    return is_page and frame_of(line) <= frame < frame_of(line) + (1 << order_of(line))


def free_before_alloc(lines):
    """Where a frame comes back, and where it is handed out again after that, with nothing between."""
    frames = (frame_of(line) for line in lines if ": mm_page_alloc:" in line and order_of(line) == 0)
    for frame in frames:
        events = [at for at, line in enumerate(lines) if covers(line, frame)]
        for first, second, third in zip(events, events[1:], events[2:]):
            if [": mm_page_alloc:" in lines[at] for at in (first, second, third)] == [True, False, True]:
                return second, third
    raise ValueError("no such frame")


def check_linux(checks, judge):
    log = lzma.open(ROOT / "docs/linux/first.trace.xz").read().decode()
    options = ["--ftrace", "--block-frames", str(BLOCK_FRAMES)]
    status, report, _said = judge.report(log, *options)
    faults = faults_of(report)
    lines = log.split("\n")
    found = [one["line"] for one in faults]
    checks.holds("linux", status == 3 and found == KNOWN, f"{status} {faults}")
    checks.holds("linux", all(one["fault"] == "in-use" for one in faults), str(faults))
    for one in faults:
        line, since = lines[one["line"] - 1], lines[one["since_line"] - 1]
        is_free = "mm_page_free:" in line and "mm_page_free:" in since
        checks.holds("linux", is_free and frame_of(line) == one["frame"], f"{one} {line} {since}")
    text = lines[faults[0]["line"] - 1].rstrip("\r")
    checks.holds("linux", faults[0].get("text") == text, f"{faults[0]} {text}")
    checks.holds("linux", report[-1] == {"lawful": False, "faults": len(KNOWN), "allowed": 0}, str(report[-1]))
    status, report, _said = judge.report(log, *options, "--allow", "in-use")
    checks.holds("linux", status == 0 and not faults_of(report), str(report))
    checks.holds("linux", report[-1] == {"lawful": True, "faults": 0, "allowed": len(KNOWN)}, str(report[-1]))
    first = report[0]
    counts = {"allocs": log.count(": mm_page_alloc:"), "frees": log.count(": mm_page_free:"),
              "onlines": log.count("begin memory32/state online") + log.count("begin memory33/state online"),
              "ends": log.count(": end memory"), "lines": log.count("\n")}
    checks.holds("linux", all(first[key] == count for key, count in counts.items()), f"{first} {counts}")
    by_block = {one["block"]: one for one in report if "block" in one}
    wanted = {"onlines": 3, "failed_onlines": 0, "offlines": 3, "failed_offlines": 0}
    checks.holds("linux", all(by_block[32][key] == count for key, count in wanted.items()), str(by_block[32]))
    wanted = {"onlines": 1, "failed_onlines": 0, "offlines": 0, "failed_offlines": 2}
    checks.holds("linux", all(by_block[33][key] == count for key, count in wanted.items()), str(by_block[33]))
    total = 0
    for block in by_block:
        _status, report, _said = judge.report(log, *options, "--blocks", f"{block}..{block + 1}")
        total += len(faults_of(report))
        counted = [one for one in report if "lines" not in one and "lawful" not in one and "fault" not in one]
        checks.holds(f"block {block}", counted == [by_block[block]], f"{counted} {by_block[block]}")
    checks.holds("blocks", total == len(KNOWN), str(total))
    check_changes(checks, judge, lines, options)


def check_changes(checks, judge, lines, options):
    """Changes the log in one place each, and looks whether the event is named."""

    def change(name, kind, at, changed):
        """The fault has to be of the kind, and on line `at`, from 0, of the changed log. Faults that the
        log has anyway are left out."""
        shift = len(changed) - len(lines)
        also = {line + (shift if line - 1 >= at else 0) for line in KNOWN}
        _status, report, _said = judge.report("\n".join(changed), *options, "--most", "100000")
        found = [(one["fault"], one["line"] - 1) for one in faults_of(report) if one["line"] not in also]
        checks.holds(name, found[:1] == [(kind, at)], f"{found[:3]}, wanted {kind} at {at}")

    def doubled(at):
        return lines[:at + 1] + lines[at:at + 1] + lines[at + 1:]

    def replaced(at, line):
        return lines[:at] + [line] + lines[at + 1:]

    alloc = index_of(lines, lambda line: ": mm_page_alloc:" in line and order_of(line) == 0)
    free = index_of(lines, lambda line: ": mm_page_free:" in line and order_of(line) == 0)
    change("an alloc doubled", "once", alloc + 1, doubled(alloc))
    change("a free doubled", "in-use", free + 1, doubled(free))
    # A free taken out shows at the next alloc of its frame.
    free, later = free_before_alloc(lines)
    change("a free taken out", "once", later, replaced(free, "# taken out"))
    offline_ok = index_of(lines, lambda line: "end memory32/state offline ok" in line)
    gone = index_of(lines, lambda line: ": mm_page_alloc:" in line and order_of(line) == 0, offline_ok)
    change("an alloc from a block that is gone", "present", gone,
           replaced(gone, lines[gone].replace(f"pfn={frame_of(lines[gone]):#x}", "pfn=0x100123")))
    busy = index_of(lines, lambda line: "end memory33/state offline Device" in line)
    change("a failed offline that succeeded", "empty", busy,
           replaced(busy, lines[busy].replace("Device or resource busy", "ok")))
    online_end = index_of(lines, lambda line: "end memory32/state online_movable ok" in line)
    movable = index_of(lines, lambda line: ": mm_page_alloc:" in line
                       and frame_of(line) // BLOCK_FRAMES == 32, online_end)
    flags = lines[movable].split("gfp_flags=")
    change("an unmovable page in zone Movable", "movable", movable,
           replaced(movable, flags[0] + "gfp_flags=GFP_KERNEL"))
    odd = index_of(lines, lambda line: ": mm_page_free:" in line and frame_of(line) % 2 == 1)
    change("a piece that is not aligned", "malformed", odd,
           replaced(odd, lines[odd].replace("order=0", "order=1")))
    online = index_of(lines, lambda line: "begin memory32/state online" in line)
    change("an online that begins twice", "going-online", online + 1, doubled(online))
    offline = index_of(lines, lambda line: "begin memory32/state offline" in line)
    change("an offline that begins twice", "going-offline", offline + 1, doubled(offline))
    change("an offline that ends twice", "offline", offline_ok + 1, doubled(offline_ok))
    change("an offline with no begin", "online", offline_ok, replaced(offline, "# taken out"))
    far = index_of(lines, lambda line: ": mm_page_free:" in line)
    change("a frame past the machine", "malformed", far,
           replaced(far, lines[far].replace(f"pfn={frame_of(lines[far]):#x}", "pfn=0x4000000")))


# ---- random logs of a small machine

BLOCKS = 3
ORDER = 3
SIZE = 1 << ORDER


def is_well_formed(event):
    kind = event[0]
    if kind in ("alloc", "free"):
        _kind, frame, order, *_rest = event
        return order <= ORDER and frame % (1 << order) == 0 and frame < MACHINE * SIZE
    if kind == "move":
        return event[1] < MACHINE * SIZE and event[2] < MACHINE * SIZE and event[1] != event[2]
    return kind == "other" or event[1] < MACHINE


# As many blocks as 2^26 frames are.
MACHINE = (1 << 26) // SIZE


def allocated(event):
    """The frames that an event hands out."""
    if not is_well_formed(event):
        return range(0)
    if event[0] == "alloc":
        return range(event[1], event[1] + (1 << event[2]))
    return range(event[2], event[2] + 1) if event[0] == "move" else range(0)


def freed(event):
    if not is_well_formed(event):
        return range(0)
    if event[0] == "free":
        return range(event[1], event[1] + (1 << event[2]))
    return range(event[1], event[1] + 1) if event[0] == "move" else range(0)


def is_online_begin(event, block):
    return event[0] == "online" and event[1] == block


def is_of(event, block):
    return event[0] in ("online", "online_end", "offline", "offline_end") and event[1] == block


def leaves_offline(event):
    return (event[0] == "online_end" and not event[2]) or (event[0] == "offline_end" and event[2])


def leaves_online(event):
    return (event[0] == "online_end" and event[2]) or (event[0] == "offline_end" and not event[2])


def frames_at(event):
    """The places at which an event can break a law of frames."""
    if event[0] in ("alloc", "free", "move"):
        return sorted({*allocated(event), *freed(event)})
    if event[0] == "other":
        return []
    return range(event[1] * SIZE, (event[1] + 1) * SIZE)


# Each law: its name, the test of an earlier event, of a later one, and of what settles it, at a place.
FRAME_LAWS = [
    ("once", lambda e, f: f in allocated(e), lambda e, f: f in allocated(e),
     lambda e, f: f in freed(e) or is_online_begin(e, f // SIZE)),
    ("in-use", lambda e, f: f in freed(e), lambda e, f: f in freed(e),
     lambda e, f: f in allocated(e) or is_online_begin(e, f // SIZE)),
    ("present", lambda e, f: is_of(e, f // SIZE) and leaves_offline(e), lambda e, f: f in allocated(e),
     lambda e, f: is_online_begin(e, f // SIZE)),
    ("empty", lambda e, f: f in allocated(e), lambda e, f: is_of(e, f // SIZE) and leaves_offline(e),
     lambda e, f: f in freed(e) or is_online_begin(e, f // SIZE)),
    ("movable", lambda e, f: is_online_begin(e, f // SIZE) and e[2] == "movable",
     lambda e, f: e[0] == "alloc" and not e[3] and f in allocated(e),
     lambda e, f: is_online_begin(e, f // SIZE)),
]
BLOCK_LAWS = [
    ("going-online", lambda e, b: is_of(e, b) and e[0] == "online",
     lambda e, b: is_of(e, b) and e[0] != "online_end", is_of),
    ("going-offline", lambda e, b: is_of(e, b) and e[0] == "offline",
     lambda e, b: is_of(e, b) and e[0] != "offline_end", is_of),
    ("online", lambda e, b: is_of(e, b) and leaves_online(e),
     lambda e, b: is_of(e, b) and e[0] != "offline", is_of),
    ("offline", lambda e, b: is_of(e, b) and leaves_offline(e),
     lambda e, b: is_of(e, b) and e[0] != "online", is_of),
]


def contradicted(log, number, law, place):
    """The latest earlier event that event `number` contradicts: one of the law's first kind, with none
    between the two that settles it."""
    _name, earlier, later, settles = law
    if not later(log[number], place):
        return None
    for at in range(number - 1, -1, -1):
        if earlier(log[at], place):
            return at
        if settles(log[at], place):
            return None
    return None


def fault_of(log, number):
    """The first law that an event breaks, the lowest place, and the earlier event."""
    event = log[number]
    if not is_well_formed(event):
        return ("malformed", number, None, None)
    for law in FRAME_LAWS:
        for frame in frames_at(event):
            at = contradicted(log, number, law, frame)
            if at is not None:
                return (law[0], number, frame, at)
    for law in BLOCK_LAWS:
        if event[0] in ("online", "online_end", "offline", "offline_end"):
            at = contradicted(log, number, law, event[1])
            if at is not None:
                return (law[0], number, event[1], at)
    return None


def faults_by_laws(log):
    return [fault for fault in (fault_of(log, number) for number in range(len(log))) if fault]


def told_faults(report):
    """The faults of a report, in the form of `fault_of`."""
    told = []
    for one in faults_of(report):
        place = one.get("frame", one.get("block"))
        told.append((one["fault"], one["event"], place, one.get("since_event")))
        assert one["line"] == one["event"] + 1
    return told


def counts_by_hand(log):
    """What is counted of each block."""
    rows, phases, used = {}, {}, {}

    def row(block):
        return rows.setdefault(block, {"block": block, "onlines": 0, "failed_onlines": 0, "offlines": 0,
                                       "failed_offlines": 0, "most_in_use": 0, "handed_out": 0, "moved": 0})

    for event in log:
        if not is_well_formed(event):
            continue
        kind = event[0]
        for frame in {*allocated(event), *freed(event)}:
            row(frame // SIZE)
        for frame in allocated(event):
            if phases.get(frame // SIZE) == "offline":
                row(frame // SIZE)["handed_out"] += 1
        for frame in freed(event):
            used.setdefault(frame // SIZE, set()).discard(frame)
            if kind == "move":
                row(frame // SIZE)["moved"] += 1
        for frame in allocated(event):
            used.setdefault(frame // SIZE, set()).add(frame)
        if kind == "online":
            used[event[1]] = set()
        if kind in ("online", "online_end", "offline", "offline_end"):
            phases[event[1]] = kind
            row(event[1])
        if kind in ("online_end", "offline_end"):
            row(event[1])[("" if event[2] else "failed_") + kind.replace("_end", "s")] += 1
        for block, frames in used.items():
            if block in rows:
                row(block)["most_in_use"] = max(row(block)["most_in_use"], len(frames))
    return [rows[block] for block in sorted(rows)]


def line_of(event):
    kind = event[0]
    if kind == "alloc":
        return json.dumps({"alloc": event[1], "order": event[2], "movable": event[3]})
    if kind == "free":
        return json.dumps({"free": event[1], "order": event[2]})
    if kind == "move":
        return json.dumps({"move": event[1], "to": event[2]})
    if kind == "online":
        return json.dumps({"online": event[1], "zone": event[2]})
    if kind == "offline":
        return json.dumps({"offline": event[1]})
    if kind == "other":
        return random.choice(["", "{}", json.dumps({"note": [1, {"a": None}]})])
    return json.dumps({kind.replace("_end", ""): event[1], "end": "ok" if event[2] else "failed"})


def random_event():
    frame, order = random.randrange(BLOCKS * SIZE), random.choice([0, 0, 0, 1, 2, 3])
    frame -= frame % (1 << order) if random.random() < 0.97 else 0
    block = random.randrange(BLOCKS)
    ok = random.random() < 0.7
    return random.choice([
        ("alloc", frame, order, random.random() < 0.7), ("alloc", frame, order, True),
        ("free", frame, order), ("free", frame, order),
        ("move", frame, random.randrange(BLOCKS * SIZE)),
        ("online", block, random.choice(["normal", "movable"])), ("online_end", block, ok),
        ("offline", block), ("offline_end", block, ok), ("other",)])


def lawful_log(length):
    """Random events, each taken only if it may follow those before it."""
    log = []
    while len(log) < length:
        event = random_event()
        if fault_of(log + [event], len(log)) is None:
            log.append(event)
    return log


def changed_log(log):
    """The log with one event taken out, doubled, replaced, or moved to another place."""
    log, at = list(log), random.randrange(len(log))
    how = random.randrange(4)
    if how == 0:
        del log[at]
    elif how == 1:
        log.insert(at, log[at])
    elif how == 2:
        log[at] = random_event()
    else:
        log.insert(random.randrange(len(log)), log.pop(at))
    return log


def part_of(event, first, end):
    """What an event is for some memory blocks."""
    def inside(frame):
        return first <= frame // SIZE < end

    if event[0] in ("alloc", "free"):
        return event if inside(event[1]) else ("other",)
    if event[0] == "move":
        leaves, comes = inside(event[1]), inside(event[2])
        if leaves and comes:
            return event
        if leaves:
            return ("free", event[1], 0)
        return ("alloc", event[2], 0, True) if comes else ("other",)
    return event if event[0] == "other" or first <= event[1] < end else ("other",)


# ---- pictures

LEFT, PLOT, TOP, PITCH, BAND = 80, 1024, 92, 24, 20
FILLS = {"online": "#7dd3fc", "offline": "#fdba74", "gone": "#d4d4d8"}
SIGNS = {"online_end": "l4 8h-8z", "offline_end": "m-4 0h8l-4 8z"}


def elements(picture, name):
    return [one for one in xml.fromstring(picture).iter() if one.tag.endswith("}" + name)]


def names_in(picture):
    """The numbers of the blocks that have a band, from above."""
    texts = [one.text for one in elements(picture, "text")]
    return [int(text[6:]) for text in texts if text.startswith("block ")]


def signs_in(picture):
    """The sign of each end: what ended, whether it went well, and where."""
    signs = []
    for one in elements(picture, "path"):
        for kind, path in SIGNS.items():
            at = re.fullmatch(r"M(\d+) (\d+)" + re.escape(path), one.get("d"))
            if at and int(at[2]) >= TOP:
                ok = one.get("fill") == "#16a34a"
                signs.append((kind, ok, int(at[1]), (int(at[2]) - TOP) // PITCH))
    return sorted(signs)


def shades_in(picture):
    rects = elements(picture, "rect")
    kinds = {fill: kind for kind, fill in FILLS.items()}
    return sorted((kinds[one.get("fill")], int(one.get("x")), int(one.get("width")),
                   (int(one.get("y")) - TOP) // PITCH)
                  for one in rects if one.get("fill") in kinds and int(one.get("y")) >= TOP)


def areas_in(picture):
    """The area of the frames in use of each band, from above."""
    paths = [one.get("d") for one in elements(picture, "path")]
    return [path for path in paths if path.startswith(f"M{LEFT} ") and path.endswith("Z")]


def picture_by_hand(log):
    """The blocks, signs, shades and areas of a log of at most 1,024 events."""
    def x_of(at):
        return LEFT + at * PLOT // len(log)

    blocks = [row["block"] for row in counts_by_hand(log)]
    most = max([row["most_in_use"] for row in counts_by_hand(log)] + [1])
    signs, shades, areas = [], [], []
    for band, block in enumerate(blocks):
        used, phase, counts, phases = set(), None, [], []
        for at, event in enumerate(log):
            if is_well_formed(event):
                used -= {frame for frame in freed(event) if frame // SIZE == block}
                used |= {frame for frame in allocated(event) if frame // SIZE == block}
                if is_of(event, block):
                    used = set() if event[0] == "online" else used
                    phase = event[0] if event[0] in FILLS else "gone" if leaves_offline(event) else None
                    if event[0] in SIGNS:
                        signs.append((event[0], event[2], x_of(at), band))
            counts.append(len(used))
            phases.append(phase)
        base, path, drawn = TOP + band * PITCH + BAND, "", 0
        for at, count in enumerate(counts):
            height = min(-(-count * BAND // most), BAND)
            if height != drawn:
                path, drawn = f"{path}H{x_of(at)}V{base - height}", height
        areas.append(f"M{LEFT} {base}{path}H{LEFT + PLOT}V{base}Z")
        for kind in FILLS:
            runs = "".join("x" if phase == kind else " " for phase in phases)
            for run in re.finditer("x+", runs):
                end = x_of(run.end())
                shades.append((kind, x_of(run.start()), end - x_of(run.start()), band))
    return blocks, sorted(signs), sorted(shades), areas


def check_picture(checks, judge, where, log, text, wanted):
    options = ["--block-frames", str(SIZE), "--svg"]
    status, picture, said = judge.call(text, *options)
    checks.holds(where, status == (3 if wanted else 0) and said == "", f"{status} {said}")
    found = names_in(picture), signs_in(picture), shades_in(picture), areas_in(picture)
    drawn = picture_by_hand(log)
    checks.holds(where, found == drawn, f"{found}\n{drawn}\n{text}")


def check_pictures(checks, judge):
    """A picture of many events, one of the log of Linux, and what excludes a picture."""
    lines = ["{}"] * 5000
    lines[1234], lines[1235] = '{"alloc": 0, "order": 3}', '{"free": 0, "order": 3}'
    status, picture, _said = judge.call("\n".join(lines), "--block-frames", "8", "--svg")
    # 625 columns of eight events: the one with both events, 1232 to 1239, is full.
    first, last = LEFT + 1232 * PLOT // 5000, LEFT + 1240 * PLOT // 5000
    area = f"M80 112H{first}V92H{last}V112H1104V112Z"
    checks.holds("long", status == 0 and areas_in(picture) == [area], f"{areas_in(picture)} {area}")
    checks.holds("long", "5000 events, lawful: 0 faults, 0 allowed" in picture, picture[:600])
    log = lzma.open(ROOT / "docs/linux/first.trace.xz").read().decode()
    options = ["--ftrace", "--block-frames", str(BLOCK_FRAMES)]
    status, picture, said = judge.call(log, *options, "--svg")
    _status, report, _said = judge.report(log, *options)
    rows = [one for one in report if "block" in one and "fault" not in one]
    checks.holds("linux", status == 3 and said == "", f"{status} {said}")
    checks.holds("linux", names_in(picture) == [one["block"] for one in rows], str(names_in(picture)))
    ends = sum(one[key] for one in rows for key in ("onlines", "failed_onlines", "offlines", "failed_offlines"))
    checks.holds("linux", len(signs_in(picture)) == ends, f"{signs_in(picture)} {ends}")
    for words in (["--json", "--svg"], ["--svg", "--json"]):
        status, out, said = judge.call("", "--block-frames", "8", *words)
        checks.holds(" ".join(words), status == 2 and out == "" and said != "", f"{status} {out} {said}")


# ---- logs that say how many frames a memory block has

def check_first_lines(checks, judge):
    first, twice = '{"block_frames": 8}\n', '{"alloc": 9}\n{"alloc": 9}\n'
    for words in ([], ["--block-frames", "8"]):
        status, report, said = judge.report(first + twice, *words)
        faults = [(one["fault"], one["line"], one["block"]) for one in faults_of(report)]
        checks.holds("first line", status == 3 and faults == [("once", 3, 1)], f"{status} {faults} {said}")
        checks.holds("first line", report[0]["lines"] == 3 and report[0]["others"] == 1, str(report[0]))
    for name, log, words, status, text in [
            ("other frames", first, ["--block-frames", "16"], 1, "line 1: block_frames is not that of --block-frames"),
            ("no power of two", '{"block_frames": 7}', [], 1, "line 1: block_frames may be a power of two up to"),
            ("too many frames", '{"block_frames": 134217728}', [], 1, "line 1: block_frames may be a power of two"),
            ("negative", '{"block_frames": -8}', [], 1, "line 1: wrong value of a key"),
            ("with an event", '{"block_frames": 8, "alloc": 1}', [], 1, "line 1: keys of no event"),
            ("on another line", "{}\n" + first, ["--block-frames", "8"], 1, "line 2: block_frames may be on the"),
            ("twice", first + first, [], 1, "line 2: block_frames may be on the first line alone"),
            ("unsaid", twice, [], 2, "judge needs --block-frames"),
            ("unsaid in ftrace", "", ["--ftrace"], 2, "judge needs --block-frames"),
            ("nothing", "", [], 2, "judge needs --block-frames")]:
        found, out, said = judge.call(log, *words)
        is_right = found == status and out == "" and said.startswith(f"hotplug_lab: {text}")
        checks.holds(name, is_right, f"{found} {out} {said}")


def check_random(checks, judge):
    random.seed(60)
    unlawful = 0
    for number in range(LOGS):
        log = lawful_log(random.choice([10, 30, 60]))
        if number % 3:
            log = changed_log(log)
        if number % 3 == 2:
            log = [random_event() for _event in range(random.choice([20, 60]))]
        text = "\n".join(map(line_of, log)) + random.choice(["", "\n"])
        wanted = faults_by_laws(log)
        unlawful += bool(wanted)
        options = ["--block-frames", str(SIZE)]
        status, report, said = judge.report(text, *options, "--most", "1000")
        where = f"log {number}"
        checks.holds(where, told_faults(report) == wanted, f"{told_faults(report)} {wanted} {said}\n{text}")
        checks.holds(where, status == (3 if wanted else 0), str(status))
        counted = [one for one in report if "block" in one and "fault" not in one]
        checks.holds(where, counted == counts_by_hand(log), f"{counted} {counts_by_hand(log)}\n{text}")
        # A line without an event that no newline ends is none.
        check_picture(checks, judge, where, log[:report[0]["lines"]], text, wanted)
        kind = random.choice(["once", "in-use", "present", "empty", "movable", "malformed", "online"])
        status, report, _said = judge.report(text, *options, "--allow", kind, "--most", "2")
        left = [fault for fault in wanted if fault[0] != kind]
        last = {"lawful": not left, "faults": len(left), "allowed": len(wanted) - len(left)}
        checks.holds(where, told_faults(report) == left[:2] and report[-1] == last, f"{report} {left}")
        first = random.randrange(BLOCKS)
        end = random.randrange(first + 1, BLOCKS + 1)
        part = [part_of(event, first, end) for event in log]
        status, report, _said = judge.report(text, *options, "--most", "1000", "--blocks", f"{first}..{end}")
        checks.holds(where, told_faults(report) == faults_by_laws(part), f"blocks {first}..{end}\n{text}")
        # The parts together have every block that the log names.
        parts = [(0, first), (end, BLOCKS)]
        rest = [judge.call(text, *options, "--blocks", f"{low}..{high}")[0] for low, high in parts if low < high]
        is_lawful = all(one == 0 for one in [status, *rest])
        checks.holds(where, is_lawful == (not wanted), f"parts by {first}..{end}: {status} {rest}\n{text}")
    checks.holds("random", LOGS // 3 < unlawful < LOGS, str(unlawful))


def check_missing(checks, judge):
    """A lawful log that lacks the alloc or the free of one frame has at most one fault."""
    random.seed(62)
    told = Counter()
    for number in range(LOGS):
        log = lawful_log(random.choice([30, 60]))
        single = [at for at, event in enumerate(log) if event[0] in ("alloc", "free") and event[2] == 0]
        del log[random.choice(single)]
        text = "\n".join(map(line_of, log))
        _status, report, said = judge.report(text, "--block-frames", str(SIZE), "--most", "1000")
        faults = told_faults(report)
        told[len(faults)] += 1
        checks.holds(f"one missing, log {number}", len(faults) < 2, f"{faults} {said}\n{text}")
    checks.holds("one missing", told[1] > LOGS // 10, str(told))


# ---- logs of our own machine

MORE = ("online {block} normal", "begin normal {block}", "begin movable {block}", "undo {late}", "undo {late}",
        "echo 0x{address:x} probe", "echo online_movable auto_online_blocks", "kalloc 1", "kfree {frame}")


def own_call(draw, cpu, cpus, at):
    """A call of a processor, or a plan, drawn at random, after so many others."""
    if draw.random() < 0.7:
        return drawn_call(draw, cpu, cpus)
    block, late = draw.randrange(BLOCKS), max(0, at - draw.randrange(5))
    text = draw.choice(MORE).format(block=block, late=late, address=block * SIZE * 8, frame=draw.randrange(SIZE))
    return f"{cpu} {text}"


def has_plan(call):
    return call.split()[1] in ("plan", "echo")


def own_scenario(draw):
    """A scenario whose calls name operations by their numbers, unless a plan's calls come before."""
    cpus, order = draw.choice((1, 2)), draw.randrange(3)
    layout = {"order": order, "pageblocks": SIZE >> order, "blocks": BLOCKS, "cpus": cpus,
              "batch": draw.choice((1, 2)), "high": 2, "owners": 2, "pages": 2, "words": 1, "history": 1000,
              "boot": ["normal", draw.choice(("normal", "movable")), draw.choice(("movable", "offline", "absent"))]}
    drawn = [own_call(draw, draw.randrange(cpus), cpus, at) for at in range(draw.choice((5, 15, 40)))]
    if draw.random() < 0.6:
        drawn = [call for call in drawn if not has_plan(call)]
    calls = numbered([(int(cpu), text) for cpu, text in (call.split(" ", 1) for call in drawn)], 0)
    for _seal in range(draw.randrange(3)):
        calls.insert(draw.randrange(len(calls) + 1), "0 seal")
    return {"layout": layout, "calls": calls}


def event_of(line):
    """The event of a line of a log."""
    said = json.loads(line)
    if "alloc" in said:
        return ("alloc", said["alloc"], said["order"], said["movable"])
    if "free" in said:
        return ("free", said["free"], said["order"])
    if "move" in said:
        return ("move", said["move"], said["to"])
    kind = "online" if "online" in said else "offline"
    if "end" in said:
        return (f"{kind}_end", said[kind], said["end"] == "ok")
    return (kind, said[kind], said["zone"]) if kind == "online" else (kind, said[kind])


def altered(draw, event):
    """The event with its frame, block, order, zone or end changed."""
    kind, place, *more = event
    at = draw.randrange(len(event) - 1)
    if at == 0:
        last = BLOCKS * SIZE if kind in ("alloc", "free", "move") else BLOCKS
        return (kind, draw.randrange(last + 1), *more)
    changed = {bool: lambda old: not old, int: lambda old: draw.randrange(ORDER + 2) if kind != "move"
               else draw.randrange(BLOCKS * SIZE), str: lambda old: "normal" if old == "movable" else "movable"}
    more[at - 1] = changed[type(more[at - 1])](more[at - 1])
    return (kind, place, *more)


def one_changed(draw, log):
    """The log with one event taken out, doubled or changed."""
    log, at, how = list(log), draw.randrange(len(log)), draw.randrange(4)
    if how == 0:
        del log[at]
    elif how == 1:
        log.insert(at, log[at])
    else:
        log[at] = altered(draw, log[at])
    return log


def used_by(log):
    """The frames that are in use after a log."""
    used = set()
    for event in log:
        used.difference_update(freed(event))
        used.update(allocated(event))
    return used


def used_in(row):
    """The frames that a row of a trace draws as the kernel's or an owner's."""
    cells = "".join(drawn.replace("|", "") for _head, drawn in BLOCK.findall(row))
    return {frame for frame, cell in enumerate(cells) if cell == "K" or cell.islower()}


def check_own(checks, judge):
    draw, kinds, unlawful = random.Random(61), Counter(), 0
    for number in range(SCENARIOS):
        scenario = own_scenario(draw)
        where = f"scenario {number}: {json.dumps(scenario)}"
        status, text, said = judge.trace(scenario, "--log")
        checks.holds(where, status == 0 and said == "", f"{status} {said}")
        first, *lines = text.splitlines()
        log = [event_of(line) for line in lines]
        kinds.update(event[0] for event in log)
        checks.holds(where, [first, *lines] == [json.dumps({"block_frames": SIZE}), *map(line_of, log)], text)
        status, out, said = judge.call(text)
        checks.holds(where, status == 0 and out.endswith("lawful: 0 faults, 0 allowed\n"), f"{out} {said}\n{text}")
        if number % 10 == 0:
            row = judge.trace(scenario, "--width", "1000000")[1].splitlines()
            drawn = [line for line in row if BLOCK.search(line)][-1]
            checks.holds(where, used_by(log) == used_in(drawn), f"{drawn}\n{text}")
        if log:
            unlawful += check_changed(checks, judge, where, one_changed(draw, log))
    checks.holds("scenarios", SCENARIOS // 3 < unlawful < SCENARIOS, str(unlawful))
    wanted = {"alloc", "free", "move", "online", "online_end", "offline", "offline_end"}
    checks.holds("scenarios", set(kinds) == wanted, str(kinds))


def check_changed(checks, judge, where, log):
    """Compares the faults of a log with those of the slow judge. Returns whether there are any."""
    text, wanted = "\n".join(map(line_of, log)), faults_by_laws(log)
    status, report, said = judge.report(text, "--block-frames", str(SIZE), "--most", "1000")
    is_right = status == (3 if wanted else 0) and told_faults(report) == wanted
    checks.holds(where, is_right, f"{status} {told_faults(report)} {wanted} {said}\n{text}")
    return bool(wanted)


# ---- odd inputs

def check_odd(checks, judge):
    json_options = ["--block-frames", "8"]
    ftrace_options = ["--block-frames", "8", "--ftrace"]
    alloc = '{"alloc": 0}'
    far = '{"move": 0, "to": 67108864}'
    for name, log, last in [
            ("empty", "", "lawful: 0 faults, 0 allowed"),
            ("blank", "\n\n", "lawful: 0 faults, 0 allowed"),
            ("no newline", alloc, "lawful: 0 faults, 0 allowed"),
            ("carriage returns", f"{alloc}\r\n{alloc}\r\n", "unlawful: 1 faults, 0 allowed"),
            ("the longest line", alloc + " " * (65536 - len(alloc)) + "\n{}", "lawful: 0 faults, 0 allowed"),
            ("and a carriage return", " " * 65536 + "\r\n{}", "lawful: 0 faults, 0 allowed"),
            ("the deepest note", '{"note": ' + "[" * 128 + "]" * 128 + "}", "lawful: 0 faults, 0 allowed"),
            ("order 40", '{"alloc": 0, "order": 40}', "unlawful: 1 faults, 0 allowed"),
            ("order 4294967295", '{"free": 0, "order": 4294967295}', "unlawful: 1 faults, 0 allowed"),
            ("past the last frame", '{"alloc": 67108864}', "unlawful: 1 faults, 0 allowed"),
            ("a move past the last frame", far, "unlawful: 1 faults, 0 allowed"),
            ("past the last block", '{"online": 8388608}', "unlawful: 1 faults, 0 allowed")]:
        status, out, said = judge.call(log, *json_options)
        wanted = 0 if last.startswith("lawful") else 3
        is_right = status == wanted and out.splitlines()[-1] == last and said == ""
        checks.holds(name, is_right, f"{status} {out} {said}")
    for name, log, number, text in [
            ("not JSON", f"{alloc}\nalloc 1", 2, "no object of JSON"),
            ("an array", "[1]", 1, "no object of JSON"),
            ("two objects", alloc + alloc, 1, "no object of JSON"),
            ("cut off", '{"alloc": 1', 1, "no object of JSON"),
            ("not UTF-8", b'\n\n{"alloc": "\xff"}', 3, "no object of JSON"),
            ("an unknown key", '{"allok": 1}', 1, "unknown key"),
            ("a key twice", '{"alloc": 1, "alloc": 1}', 1, "a key comes twice"),
            ("a note twice", '{"note": 1, "alloc": 1, "note": 1}', 1, "a key comes twice"),
            ("a deeper note", '{"note": ' + "[" * 129 + "]" * 129 + "}", 1, "no object of JSON"),
            ("a negative number", '{"alloc": -1}', 1, "wrong value of a key"),
            ("a fraction", '{"alloc": 1.5}', 1, "wrong value of a key"),
            ("a large number", '{"alloc": 4294967296}', 1, "wrong value of a key"),
            ("two events", '{"alloc": 1, "free": 1}', 1, "keys of no event"),
            ("a move to nowhere", '{"move": 1}', 1, "keys of no event"),
            ("a long line", alloc + "\n" + " " * 65537, 2, "longer than 65536 bytes"),
            ("a long line and more", f"{alloc}\n{' ' * 65537}\n{alloc}", 2, "longer than 65536 bytes"),
            ("100000 bytes", f"{alloc}\n{' ' * 100000}\r\n{alloc}", 2, "longer than 65536 bytes")]:
        status, out, said = judge.call(log, *json_options)
        is_right = status == 1 and out == "" and said == f"hotplug_lab: line {number}: {text}\n"
        checks.holds(name, is_right, f"{status} {out} {said}")
    for name, log, text in [
            ("a malformed event", far, "malformed: no aligned piece of one memory block, a block or a frame "
             "outside the machine, or a move to the same frame"),
            ("an unmovable alloc", '{"online": 0, "zone": "movable"}\n{"alloc": 1}', "movable: frame 1 (0x1, of "
             "block 0) is handed out as unmovable, and has been in zone Movable since line 1, event 0")]:
        status, out, said = judge.call(log, *json_options)
        checks.holds(name, status == 3 and f": {text}\n" in out and said == "", f"{status} {out} {said}")
    event = "  a-1 [000] d..1. 1.000000: mm_page_free: page=0 pfn={} order={}"
    hostile = "  \x1b[31m\u202e-1 [000] d..1. 1.000000: mm_page_free: page=0 pfn=0x1 order=0"
    status, out, said = judge.call(f"{hostile}\n{hostile}\n", *ftrace_options)
    is_right = status == 3 and "\\u001b" in out and "\x1b" not in out and "\u202e" not in out
    checks.holds("hostile", is_right, f"{status} {out} {said}")
    lost = event.format("0x1", 0) + "\nCPU:1 [LOST 12 EVENTS]\n"
    status, out, said = judge.call(lost, *ftrace_options)
    is_right = status == 1 and said == ("hotplug_lab: line 2: the kernel's buffer was full, and events"
                                        " are missing\n")
    checks.holds("lost", is_right, f"{status} {out} {said}")
    counts = "# tracer: nop\n# entries-in-buffer/entries-written: {}/12   #P:2\n" + event.format("0x1", 0)
    status, out, said = judge.call(counts.format(12), *ftrace_options)
    checks.holds("all kept", (status, said) == (0, ""), f"{status} {out} {said}")
    status, out, said = judge.call(counts.format(5), *ftrace_options)
    is_right = status == 1 and said == ("hotplug_lab: line 2: the kernel's buffer was full, and events"
                                        " are missing\n")
    checks.holds("overwritten", is_right, f"{status} {out} {said}")
    status, out, said = judge.call(event.format("zero", 0), *ftrace_options)
    is_right = status == 1 and said == "hotplug_lab: line 1: no frame or order that can be read\n"
    checks.holds("no frame", is_right, f"{status} {out} {said}")
    for words in [[], ["--block-frames", "0"], ["--block-frames", "3"], ["--block-frames", "134217728"],
                  [*json_options, "--blocks", "5..5"], [*json_options, "--blocks", "5"],
                  [*json_options, "--blocks", "a..b"], [*json_options, "--blocks", "0..536870912"],
                  [*json_options, "--allow", "all"], [*json_options, "--most", "x"],
                  [*json_options, "--svg", "x", "y"]]:
        status, out, said = judge.call(alloc, *words)
        checks.holds(" ".join(words), status == 2 and out == "" and said != "", f"{status} {out} {said}")
    status, out, said = judge.call("", *json_options, "/no/such/file")
    is_right = status == 1 and said == "hotplug_lab: /no/such/file: file not opened\n"
    checks.holds("no file", is_right, f"{status} {out} {said}")
    twice = f"{alloc}\n{alloc}\n{alloc}\n"
    status, out, _said = judge.call(twice, *json_options, "--most", "0")
    is_right = status == 3 and out.splitlines()[-2:] == ["and 2 more", "unlawful: 2 faults, 0 allowed"]
    checks.holds("--most 0", is_right, f"{status} {out}")
    status, out, _said = judge.call(twice, *json_options, "--blocks", "1..536870911")
    is_right = status == 0 and out.splitlines()[-1] == "lawful: 0 faults, 0 allowed"
    checks.holds("past 2^26 frames", is_right, f"{status} {out}")
    # The part does not know whether the machine has that frame.
    status, out, _said = judge.call(far, *json_options, "--blocks", "0..1")
    is_right = status == 0 and out.startswith("1 lines: 0 allocs, 1 frees, 0 moves")
    checks.holds("a move past 2^26 frames", is_right, f"{status} {out}")


def main():
    crates = Path(sys.argv[1]) if len(sys.argv) > 1 else ROOT / "crates"
    checks, judge = Checks(), Judge(crates.resolve())
    check_linux(checks, judge)
    check_random(checks, judge)
    check_missing(checks, judge)
    check_pictures(checks, judge)
    check_first_lines(checks, judge)
    check_own(checks, judge)
    check_odd(checks, judge)
    for failure in checks.failures:
        print(f"failed: {failure}")
    print(f"judge: {checks.passed} passed, {len(checks.failures)} failed")
    return 1 if checks.failures else 0


if __name__ == "__main__":
    sys.exit(main())
