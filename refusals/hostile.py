"""Texts that no scenario is, and histories that are full."""
import json

NESTED = 1 << 20
LIMIT = 16_777_216  # bytes of an input

BAD_LINES = ["", " 0 kalloc 1", "0 kalloc 1 ", "0  kalloc 1", "00 kalloc 1", "-1 kalloc 1",
             "0 kalloc 4294967296", "4294967296 kalloc 1", "0 write db 0 0 18446744073709551616",
             "0 map Db 0", "0 map 1db 0", "0 map db", "0 map db 0 0", f"0 map {'a' * 33} 0",
             "0 begin off", "0 begin on 2", "0 plan off 2", "0 online 3 offline", "0 kalloc",
             "kalloc 1", "0 alloc 1", "0 undo -1", "0 undo 00", "0 echo offline",
             "0 echo  memory3/state", "0 echo online memory3/state now", "0 cat", "0 cat ",
             "0 cat memory3/state now", "0 plan", "0 plan 4294967296 off 2", "0 plan 5 off",
             "0 plan 5 gone 2", "0 remove 03", "0 seal 1", "0 seal ", "seal", "0 kalloc\t1",
             "0 kalloc 1\n", "0 kalloc\0001"]

# Parts of a stored scenario, and what is a fault in their place.
OTHER_FORMS = [(b'"order":2', b'"order":2.0', "wrong shape"),
               (b'"order":2', b'"order":2e0', "wrong shape"),
               (b'"order":2', b'"order":"2"', "wrong shape"),
               (b'"order":2', b'"order":02', "not JSON"),
               (b'"0 kalloc 1"', b"0", "wrong shape"),
               (b'"0 undo 0"', b'"0 undo 0",', "not JSON"),
               (b'{"layout"', b'\xef\xbb\xbf{"layout"', "not JSON")]

# A history that is full in the middle of a plan, and of a cancel: records, lines, what is printed.
FULL = [
    ("a plan's begin", 1, ["0 map db 0", "0 plan 2 off 2"],
     "1: done\nplan: left - HistoryFull\nstate\nblock 0 online normal\nblock 1 online normal\n"
     "block 2 online movable\nblock 3 offline\nNM 2: 0 4\nMM 1: 10\ncpu 0 MM: 9\n"
     "page db 0 at 8: 0 0\n"),
    ("a plan", 4, ["0 map db 0", "0 plan 2 off 2"],
     "1: done\nplan: left 2 HistoryFull\nstate\nblock 0 online normal\nblock 1 online normal\n"
     "block 2 going movable op 2\nblock 3 offline\nisolated: 2\nNM 2: 0 4\nIM 0: 9\nIM 1: 10\n"
     "page db 0 at 8: 0 0\n"),
    ("a cancel", 3, ["0 map db 0", "0 begin off 2", "0 migrate 2", "0 cancel 2"],
     "1: done\n2: opened 2\n3: moved 8 0\n-: fault HistoryFull\nstate\nblock 0 online normal\n"
     "block 1 online normal\nblock 2 going movable op 2\nblock 3 offline\nisolated: 2\nNM 0: 1\n"
     "NM 1: 2\nNM 2: 4\nIM 0: 8\nIM 1: 10\ncpu 0 MM: 9\npage db 0 at 0: 0 0\n"),
]


def scenario_text(layout, calls):
    return json.dumps({"layout": layout, "calls": calls}).encode()


def without(table, key):
    return {name: part for name, part in table.items() if name != key}


def malformed(stored):
    """Texts that are no JSON, or too long, each with its fault."""
    for end in range(stored.rindex(b"}")):
        yield f"the first {end} bytes", stored[:end], "not JSON"
    yield "200 open brackets", b"[" * 200, "not JSON"
    yield "127 brackets", b"[" * 127 + b"]" * 127, "wrong shape"
    yield "128 brackets", b"[" * 128 + b"]" * 128, "not JSON"
    yield "200 brackets", b"[" * 200 + b"]" * 200, "not JSON"
    yield "deep lists", b"[" * NESTED, "not JSON"
    yield "deep objects", b'{"a":' * NESTED, "not JSON"
    yield f"{LIMIT:,} spaces", b" " * LIMIT, "not JSON"
    yield f"{LIMIT + 1:,} spaces", b" " * (LIMIT + 1), "input too long"


def misshapen(scenario):
    """Texts of another shape than a scenario, each with its fault."""
    layout = scenario["layout"]
    yield "a key more", {**scenario, "more": 1}
    for key in scenario:
        yield f"no {key}", without(scenario, key)
    layouts = [("a key more", {**layout, "more": 1}), ("order -1", {**layout, "order": -1}),
               ("boot on", {**layout, "boot": ["on"]})]
    layouts += [(f"no {key}", without(layout, key)) for key in layout]
    for name, other in layouts:
        yield f"{name} in the layout", {**scenario, "layout": other}


def hostile_texts(stored):
    """Texts made of a stored scenario, each with its name and the fault that it has to end in."""
    yield from malformed(stored)
    for old, new, fault in OTHER_FORMS:
        yield f"{new!r} for {old!r}", stored.replace(old, new), fault
    scenario = json.loads(stored)
    for name, value in misshapen(scenario):
        yield name, json.dumps(value).encode(), "wrong shape"
    for line in BAD_LINES:
        text = scenario_text(scenario["layout"], [line])
        yield f"the line {line!r}", text, "line 1 not understood"
