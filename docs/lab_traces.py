"""What check_lab.py compares of `hotplug_lab trace`, with its options, and of its pictures."""
import json
import re
from collections import Counter
from xml.etree import ElementTree


# Traces

COLUMNS = 55
HOSTILE = "\x1b[31m\n\x9b]0:N[....]\u2028\u061c\u200e\u200f\u2066"


def shown(call):
    """A text of a scenario as a trace has it."""
    hidden = r'["\\\x00-\x1f\x7f-\x9f\u061c\u200e\u200f\u2028-\u202e\u2066-\u2069\[\]]'
    short = {'"': '\\"', "\\": "\\\\", "\n": "\\n", "\r": "\\r", "\t": "\\t"}
    return re.sub(hidden, lambda m: short.get(m[0], f"\\u{ord(m[0]):04x}"), call)


def unfolded(text):
    """The rows and the other lines of a trace; what is below the columns goes on with a row, after a
    null character."""
    rows = []
    for line in text.splitlines():
        if line.startswith(" " * 29):
            rows[-1] += "\0" + line[29:]
        else:
            rows.append(line)
    return rows


MORE = re.compile(r"     \((\d+) more (rounds?) like this, serials (\d+) to (\d+)\)")
CALL = re.compile(r"(.{30})(\d+): ([A-Za-z0-9 ]*?) *((?: \d+:[^ \[]*\[.*| =)?)")


def grouped(text):
    """The lines of each row of a trace."""
    rows = []
    for line in text.splitlines():
        if line.startswith(" " * 29):
            rows[-1].append(line)
        else:
            rows.append([line])
    return rows


def memory_of(row):
    """The memory of a row, in lines without its columns."""
    first = CALL.fullmatch(row[0])[4]
    return ([first] if first else []) + [line[COLUMNS:] for line in row[1:]]


def again(row, by, memory):
    """The row of the same call with a serial that much higher, and this memory."""
    asked, serial, words, _ = CALL.fullmatch(row[0]).groups()
    answer = f"{int(serial) + by}: {words}"
    if len(answer) > 25:
        return [asked + answer, *(" " * COLUMNS + line for line in memory)]
    return [asked + answer.ljust(25) + memory[0], *(" " * COLUMNS + line for line in memory[1:])]


def more_rounds(done, more, memory):
    """The rows of the rounds that a line only counts, from the rows above it. It raises a ValueError
    if the line has other serials than they."""
    begin = max(at for at, row in enumerate(done) if row[0].startswith("     migrate "))
    above, count = done[begin:], int(more[1])
    rows = [again(row, turn * len(above), memory or memory_of(done[-1]))
            for turn in range(1, count + 1) for row in above]
    ends = [int(CALL.fullmatch(row[0])[2]) for row in (rows[0], rows[-1])]
    if ends != [int(more[3]), int(more[4])] or more[2] != ("round" if count == 1 else "rounds"):
        raise ValueError(f"{more[0]!r} below {above}, where the serials are {ends}")
    return rows


def spread(text):
    """A trace with the rows of all rounds, also of those that it only counts: each of their calls is
    that of the round above, with the serial counted on and the memory as it was."""
    rows = grouped(text)
    has_changes_only = len(rows[0]) > 1 or re.search(r"\[\d+: ", rows[0][0])
    done = []
    for row in rows:
        more = MORE.fullmatch(row[0])
        done += more_rounds(done, more, [" ="] if has_changes_only else []) if more else [row]
    return "".join(f"{line}\n" for row in done for line in row)


def traced(text, calls):
    """What each line answers in a trace, and the lines that it lacks. A row of a plan's call begins
    with five spaces, and the memory in a row with block 0."""
    answers = []
    lacking = [f"{number:>4} {shown(call)}" for number, call in enumerate(calls, 1)]
    for line in unfolded(spread(text))[1:]:
        if lacking and line.startswith(lacking[0]):
            answer = line.removeprefix(lacking.pop(0)).partition(" 0:")[0].strip(" \0")
            answers += [answer] if answer else []
        elif not line.startswith(" " * 5):
            answers.append(line)
    return answers, lacking


def check_trace(checks, programs, name, scenario):
    layout, calls = scenario["layout"], scenario["calls"]
    expected = programs.serial(layout, calls).rpartition("state\nblock 0 ")[0].splitlines()
    text = programs.trace(scenario)
    answers, lacking = traced(text, calls)
    checks.holds(f"trace of {name}", not lacking, f"lacks {lacking}")
    checks.holds(f"trace of {name}", answers == expected, f"{answers} in place of {expected}")
    checks.holds(f"trace of {name}", is_harmless(text), "has a control character")


def is_harmless(text):
    hidden = r"[\x00-\x09\x0b-\x1f\x7f-\x9f\u061c\u200e\u200f\u2028-\u202e\u2066-\u2069]"
    return not re.search(hidden, text)


def check_columns(checks, programs, name, scenario):
    for line in programs.trace(scenario, "--width", "100").splitlines():
        first = re.search(r" [0-9]+:[^ \[]*\[", line)
        where = f"trace --width 100 of {name}"
        checks.holds(where, not first or first.start() == COLUMNS, f"not in its column: {line!r}")
        checks.holds(where, not first or len(line) <= 100, f"too long: {line!r}")


# Free blocks by their orders

BLOCK = re.compile(r" [0-9]+:([^ \[]*)\[([^]]*)\]")
BRACKETS = re.compile(r"\([0-9]*\.*\)|\{[0-9]*:*\}|[.:]")


def order_of(block):
    """The order of a free block between its brackets, and whether it has that many frames."""
    order = len(block).bit_length() - 1
    digits = "" if order < 2 else str(order)
    return order, len(block) == 1 << order and block[1:-1].rstrip(".:") == digits


def plain(text):
    """A trace with orders as one without."""
    return BRACKETS.sub(lambda m: (":" if m[0][0] in ":{" else ".") * len(m[0]), text)


def counted(row, orders):
    """As `cat buddyinfo` says it: the free blocks of each order in each zone of a row."""
    counts = {"N": [0] * orders, "M": [0] * orders}
    for head, cells in BLOCK.findall(row):
        for block in BRACKETS.findall(cells):
            counts[head[0]][order_of(block)[0]] += 1
    return [counts["N"], counts["M"]]


def check_orders(checks, programs, name, scenario):
    where, wide = f"trace --orders of {name}", ("--width", "1000000")
    text = programs.trace(scenario, "--orders", *wide)
    drawn = "".join(cells + "|" for _, cells in BLOCK.findall(text))
    sizes = all(order_of(block)[1] for block in BRACKETS.findall(drawn))
    again = BLOCK.sub(lambda m: plain(m[0]), text)
    checks.holds(where, sizes, "a free block has not 2^order frames")
    checks.holds(where, again == programs.trace(scenario, *wide), "not the trace but for brackets")
    asked = [call for line in scenario["calls"] for call in (line, "0 cat buddyinfo")]
    rows = unfolded(programs.trace({**scenario, "calls": asked}, "--orders", *wide))
    said = [at for at, row in enumerate(rows) if row[4:].startswith(" 0 cat buddyinfo ")]
    checks.holds(where, len(said) == asked.count("0 cat buddyinfo"), "lacks rows")
    for at in said:
        info = [[int(word) for word in line.split()[4:]] for line in rows[at + 1:at + 3]]
        here = counted(rows[at], scenario["layout"]["order"] + 1)
        checks.holds(where, here == info, f"{here} in place of {info} in {rows[at]!r}")


# Pictures

SVG = "{http://www.w3.org/2000/svg}"
MEANINGS = {".": "free", ":": "free and isolated", "-": "offline", " ": "absent", "K": "the kernel"}


def meaning(mark, names):
    """What a character of a trace means, as the legend has it; the owners' names in their order."""
    if mark.isdigit():
        return f"list of processor {mark}"
    if mark in MEANINGS:
        return MEANINGS[mark]
    return f"page of {names[ord(mark) - ord('a')]}"


def owners(calls):
    """The names of owners, in the order in which lines name them."""
    accesses = [call.split(" ")[2] for call in calls
                if call.split(" ")[1] in ("map", "unmap", "write", "read")]
    return list(dict.fromkeys(accesses))


def texts_in(elements):
    """The texts that are not written on cells."""
    texts = [element for element in elements if element.tag == SVG + "text"]
    return [text.text for text in texts if text.get("font-size") is None]


def is_cell(element):
    return element.get("height") == "12"


FREE, KERNEL = "#14532d", "#fbbf24"


def pictured(svg, cell=8):
    """The texts of a picture's rows, how many cells of each meaning they have, and how many
    outlines of each colour and width, if a cell is this wide."""
    root = ElementTree.fromstring(svg)
    rows = root.find(SVG + "g")
    above = list(root)[:list(root).index(rows)]
    fills = [element.get("fill") for element in above if is_cell(element)]
    legend = {}
    for fill, text in zip(fills, texts_in(above)):
        legend.setdefault(fill, text)
    cells, outlines = Counter(), Counter()
    for box in rows.iter(SVG + "rect"):
        if is_cell(box):
            cells[legend[box.get("fill")]] += int(box.get("width")) // cell
        elif box.get("fill") == "none":
            outlines[box.get("stroke"), (int(box.get("width")) + 2) // cell] += 1
    return texts_in(rows), cells, outlines


def lines_of(svg):
    """The ends of the lines of a picture, each as the colour of the cell in which it lies."""
    root = ElementTree.fromstring(svg)
    cells = [(*(int(box.get(name)) for name in ("x", "y", "width")), box.get("fill"))
             for box in root.find(SVG + "g").iter(SVG + "rect") if is_cell(box)]

    def colour(x, y):
        return [fill for left, top, width, fill in cells
                if left <= x < left + width and top <= y < top + 12]

    lines = root.find(f"{SVG}defs/{SVG}g[@id='moves']")
    ends = [[int(number) for number in re.findall(r"\d+", path.get("d"))] for path in lines]
    return [(colour(*end[:2]), colour(*end[2:]), end[1] < end[3]) for end in ends]


def check_lines(checks, where, trace, svg):
    """There is a line for each page that moved, from its cell in a row above to its cell."""
    lines, moves = lines_of(svg), re.findall(r" \d+: moved \d+ \d+ ", trace)
    checks.holds(where, len(lines) == len(moves), f"{len(lines)} lines for {len(moves)} moves")
    for before, after, is_down in lines:
        checks.holds(where, len(before) == 1 and before == after and is_down,
                     f"a line from {before} to {after}, downwards: {is_down}")


def check_kernel(checks, where, svg, outlines, kernel):
    """The outlines of the kernel's blocks have 2^order frames each, and together all its frames;
    each begins at a cell of the kernel. They are in the legend if there are any."""
    sizes = {size: count for (stroke, size), count in outlines.items() if stroke == KERNEL}
    powers = all(size & (size - 1) == 0 for size in sizes)
    checks.holds(where, powers, f"kernel blocks of {sorted(sizes)} frames")
    frames = sum(size * count for size, count in sizes.items())
    checks.holds(where, frames == kernel, f"{frames} frames in kernel blocks, not {kernel}")
    checks.holds(where, ("kernel block, order" in svg) == (kernel > 0), "the legend is wrong")


def numbers_in(layout, cell):
    """The numbers of frames that a picture has, each with where it begins: of each frame if cells
    have room, else of the first in each pageblock, else of the first in each block."""
    size, pageblocks, blocks = 1 << layout["order"], layout["pageblocks"], layout["blocks"]
    frames = size * pageblocks
    room = 5 * len(str(frames * blocks - 1)) + 2
    step = 1 if cell >= room else size if cell * size >= room else frames
    width = 48 + cell * (frames + pageblocks - 1)
    side_by_side = max(1216 - width, 0) // width + 1
    for number in range(0, frames * blocks, step):
        block, offset = divmod(number, frames)
        left = 384 + block % side_by_side * width + cell * (offset + offset // size)
        yield left, f"frame {number}" if step == frames else str(number)


def check_numbers(checks, where, svg, layout, cell=8):
    root = list(ElementTree.fromstring(svg))
    below = [text for text in root[root.index(next(e for e in root if e.tag == SVG + "use")):]
             if text.tag == SVG + "text" and re.fullmatch("(frame )?[0-9]+", text.text)]
    drawn = [(int(text.get("x")), text.text) for text in below]
    wanted = list(numbers_in(layout, cell))
    checks.holds(where, drawn == wanted, f"numbers {drawn[:9]} in place of {wanted[:9]}")


def label_of(label):
    """What was asked and what was answered, which stand before the memory blocks."""
    first, _, second = label.partition("\0")
    if second and not re.match(" [0-9]+: ", first[29:]):
        return first, second
    return first[:29], first[29:]


def words_of(text):
    """The texts of a trace as a picture has them: what was asked, what was answered, and the head
    of each memory block; and lines without memory blocks."""
    words = []
    for line in unfolded(text):
        block = BLOCK.search(line)
        line = line.strip() if MORE.fullmatch(line) else line
        asked, answer = label_of(line[:block.start()]) if block else (line, "")
        words += [part for part in (asked.rstrip(), answer.strip()) if part]
        words += [f" {head}" for head in re.findall(r" ([0-9]+:[^ \[]*)\[", line)]
    return words


def check_picture(checks, programs, name, scenario):
    text = programs.trace(scenario, "--width", "1000000")
    orders = programs.trace(scenario, "--orders", "--width", "1000000")
    marks = "".join(cells for _, cells in BLOCK.findall(text)).replace("|", "")
    drawn = "".join(cells + "|" for _, cells in BLOCK.findall(orders))
    svg = programs.trace(scenario, "--svg")
    texts, cells, outlines = pictured(svg)
    where, wanted = f"picture of {name}", words_of(text)
    checks.holds(where, texts == wanted, f"{texts} in place of {wanted}")
    names = owners(scenario["calls"])
    counts = Counter(meaning(mark, names) for mark in marks)
    checks.holds(where, cells == counts, f"{cells} in place of {counts}")
    sizes = Counter(map(len, BRACKETS.findall(drawn)))
    free = {size: count for (stroke, size), count in outlines.items() if stroke == FREE}
    checks.holds(where, free == sizes, f"{free} in place of {sizes}")
    check_kernel(checks, where, svg, outlines, marks.count("K"))
    check_numbers(checks, where, svg, scenario["layout"])
    checks.holds(where, is_harmless(svg), "has a control character")
    check_lines(checks, where, text, svg)


SCREEN = 1600
WIDE = [(2, 1, 64), (0, 2, 256), (10, 1, 4), (6, 2, 20)]
WIDE_CALLS = ["0 map db 0", "0 cat buddyinfo", "0 echo offline memory1/state"]
WIDE_ROWS = 9  # at boot, for each line, and for the five calls of its driver


def check_wide(checks, programs):
    """Layouts wider than a screen: their pictures have all cells, within their frame, whatever a
    cell's width, and the line of a page that moves; they are wider than a screen only where one
    block is."""
    for order, pageblocks, blocks in WIDE:
        layout = {"order": order, "pageblocks": pageblocks, "blocks": blocks, "cpus": 1, "batch": 1,
                  "high": 1, "owners": 1, "pages": 2, "words": 1, "history": 20,
                  "boot": (["normal", "movable", "offline", "absent"] * blocks)[:blocks]}
        scenario = {"layout": layout, "calls": WIDE_CALLS}
        trace = programs.trace(scenario)
        frames = pageblocks << order
        check_narrow(checks, programs, f"trace of {blocks} blocks of {frames} frames", scenario)
        for cell in (1, 3, 8, 32):
            where = f"picture of {blocks} blocks of {frames} frames, --cell {cell}"
            svg = programs.trace(scenario, "--svg", "--cell", str(cell))
            cells = pictured(svg, cell)[1]
            drawn = sum(cells.values())
            checks.holds(where, drawn == WIDE_ROWS * blocks * frames, f"cells: {cells}")
            check_lines(checks, where, trace, svg)
            check_numbers(checks, where, svg, layout, cell)
            check_frame(checks, where, svg, 384 + 48 + cell * (frames + pageblocks - 1))


def check_letters(checks, programs):
    """A letter outside ASCII takes one column, as any other letter."""
    layout = {"order": 0, "pageblocks": 4, "blocks": 3, "cpus": 1, "batch": 1, "high": 1, "owners": 1,
              "pages": 2, "words": 1, "history": 20, "boot": ["normal", "movable", "offline"]}
    for options in ((), ("--svg",)):
        texts = [programs.trace({"layout": layout, "calls": [
            f"0 cat {word}2/state", f"0 echo {word} probe"]}, *options)
            for word in ("память", "pamyat")]
        checks.holds(f"trace {options} of letters outside ASCII",
                     texts[0].replace("память", "pamyat") == texts[1], f"has {texts[0]!r}")


def check_narrow(checks, programs, where, scenario):
    """No row is longer than its width, unless it has a single word of the memory."""
    calls = [call for call in scenario["calls"] if " cat " not in call]
    for width in (70, 100):
        text = programs.trace({**scenario, "calls": calls}, "--orders", "--width", str(width))
        for line in text.splitlines():
            is_word = " " not in line[COLUMNS:].strip()
            checks.holds(f"{where}, --width {width}", len(line) <= width or is_word,
                         f"too long: {line!r}")


def check_from(checks, programs, name, scenario):
    """From a line on, a trace is the whole one from there, below the memory before it."""
    whole = programs.trace(scenario, "--width", "1000000").splitlines()
    for number, call in list(enumerate(scenario["calls"], 1))[1:]:
        head = f"{number:>4} {shown(call)}"
        at = next((at for at, line in enumerate(whole) if line.startswith(head)), 0)
        rows = programs.trace(scenario, "--width", "1000000", "--from", str(number)).splitlines()
        drawn = [row for row in whole[:at] if BLOCK.search(row)][-1]
        first = f"     before line {number}".ljust(COLUMNS) + drawn[BLOCK.search(drawn).start():]
        checks.holds(f"trace --from {number} of {name}", rows == [first] + whole[at:],
                     f"begins with {rows[:1]}, ends with {rows[-1:]}")


def check_frame(checks, where, svg, block):
    """All boxes stand within a picture, which is no wider than a screen or one block, and no two
    cells stand on one another."""
    root = ElementTree.fromstring(svg)
    width, height = int(root.get("width")), int(root.get("height"))
    checks.holds(where, width <= max(SCREEN, block), f"{width} wide")
    rows = root.find(SVG + "g")
    top = int(re.search(r"translate\(0 (\d+)\)", rows.get("transform"))[1])
    boxes = [[int(box.get(name)) for name in ("x", "y", "width", "height")]
             for box in rows.iter(SVG + "rect")]
    within = all(x + w <= width and top + y + h <= height for x, y, w, h in boxes)
    checks.holds(where, within, "a box stands outside")
    ends = {}
    for x, y, w, h in boxes:
        if h == 12:
            checks.holds(where, ends.get(y, 0) <= x, f"cells on one another at {x} {y}")
            ends[y] = x + w


LONG = {"order": 2, "pageblocks": 1, "blocks": 3, "cpus": 2, "batch": 2, "high": 2, "owners": 1,
        "pages": 16, "words": 1, "history": 4000, "boot": ["normal", "movable", "movable"]}
LONG_CALLS = ["0 kalloc 2", *(f"{page % 2} map db {page}" for page in range(5)),
              "0 echo offline memory1/state", "0 plan 1 off 1", "1 plan 3 off 1", "0 read db 0 0"]
LONG_ROWS, LONG_HEIGHT = 60, 1000


def check_long(checks, programs):
    """A plan that finds no room: all its equal rounds take a line. The last calls are shown."""
    scenario = {"layout": LONG, "calls": LONG_CALLS}
    check_drawn(checks, programs, "a plan without room", scenario)
    text = programs.trace(scenario)
    counts = [int(count) for count, *_ in MORE.findall(text)]
    checks.holds("a plan without room", counts and max(counts) > 1000, f"counts {counts}")
    rows = len(text.splitlines())
    checks.holds("a plan without room", rows < LONG_ROWS, f"{rows} rows")
    for options in ("--width", "60"), ("--width", "80"), ("--orders", "--width", "70"):
        lines = spread(programs.trace(scenario, *options)).splitlines()
        missing = programs.trace(scenario, "--json").count('"serial"') - len(
            [line for line in lines if re.match(r".{29} \d+: ", line)])
        checks.holds(f"a plan without room, {options}", missing == 0, f"lacks {missing} calls")
    root = ElementTree.fromstring(programs.trace(scenario, "--svg"))
    height = int(root.get("height"))
    checks.holds("a plan without room", height < LONG_HEIGHT, f"its picture is {height} high")


def hostile(root):
    """The tour, with texts that look like memory blocks and have what a terminal obeys."""
    scenario = json.loads((root / "examples/tour.json").read_text())
    calls = [f"0 echo {HOSTILE} memory1/state", f"0 cat {HOSTILE}", f"0 echo 1 memory0/{HOSTILE}"]
    return {**scenario, "calls": scenario["calls"] + calls}


def check_drawn(checks, programs, name, scenario):
    check_trace(checks, programs, name, scenario)
    check_columns(checks, programs, name, scenario)
    check_orders(checks, programs, name, scenario)
    check_from(checks, programs, name, scenario)
    check_picture(checks, programs, name, scenario)
    text = programs.check({**scenario, "calls": scenario["calls"] + [f"0 {HOSTILE}"]})
    checks.holds(f"check of {name}", is_harmless(text), "has a control character")
