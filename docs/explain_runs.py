"""What check_explain.py checks of runs in threads: those of `hotplug run`, those of bench/peer, and
two long ones, each of which `hotplug_lab explain` has to explain."""
import json
import random
import shutil
import subprocess
import tempfile
import time

from check_lab import LAYOUT, ROOT, SECONDS
from explain_orders import Orders
from explain_texts import expected_of, seen_in

SCENARIOS = 60
RUNS = 4
PEER_SCENARIOS = 120
RACES = 500
NUMBERS = (1, 2, 3, 5)
OVERLAP = 21
LIMIT_SECONDS = 30
RACE = ["0 begin off 1", "0 commit 1", "0 map db 0", "1 undo 0", "1 cancel 1", "1 map web 0",
        "1 read web 0 0"]
BUILD_SECONDS = 600


def run_of(program, scenario):
    """What a program prints of a run in threads."""
    ran = subprocess.run([program, "run"], input=json.dumps(scenario).encode(), capture_output=True,
                         timeout=SECONDS)
    return ran.stdout.decode()


def check_run(checks, programs, who, program, scenario):
    """A run is explained, unless it has filled the history itself or the search is ended, as some
    with an `undo` are, since these try orders that meet again one by one; whether it is."""
    answers = run_of(program, scenario)
    status, text, said = programs.explain(scenario, answers, "--seconds", str(LIMIT_SECONDS))
    is_full = "HistoryFull" in answers
    is_ended = (status, text) == (3, "explained: unknown\n") and any(
        " undo " in line for line in scenario["calls"])
    if is_ended:
        print(f"{who}: ended after {LIMIT_SECONDS} s: {json.dumps(scenario)} {answers!r}")
    checks.holds(f"{who} of {json.dumps(scenario)}",
                 is_full or is_ended or status == 0 and text.startswith("changes: "),
                 f"{answers!r} has {status}, {text!r}, {said!r}")
    return status == 0


def drawn_runs(draw, drawn_scenario, count):
    """Scenarios whose operations have numbers, since `run` takes 0 for no operation."""
    for _ in range(count):
        yield drawn_scenario(draw, NUMBERS, draw.choice((2, 2, 3, 4)), draw.randrange(4, 17))


def check_all_runs(checks, programs, who, program, scenarios, times):
    """Runs of some scenarios are explained, nearly all of which have room in the history."""
    explained = [check_run(checks, programs, who, program, scenario)
                 for scenario in scenarios for _ in range(times)]
    checks.holds(who, sum(explained) > len(explained) * 9 // 10,
                 f"only {sum(explained)} of {len(explained)} are explained")


def check_runs(checks, programs, draw, drawn_scenario):
    scenarios = drawn_runs(draw, drawn_scenario, SCENARIOS)
    check_all_runs(checks, programs, "run", programs.hotplug, scenarios, RUNS)


# Long runs

def check_fast(checks, programs, name, scenario, answers, seconds):
    """A run is explained within some seconds, in one of three tries."""
    for _ in range(3):
        start = time.monotonic()
        status, text, said = programs.explain(scenario, answers)
        took = time.monotonic() - start
        checks.holds(name, status == 0, f"has {status}, {text[:200]!r}, {said!r}")
        if took < seconds:
            break
    checks.holds(name, took < seconds, f"takes {took:.2f} s")
    print(f"{name}: {took:.2f} s")


def check_kallocs(checks, programs, slack):
    """Two processors with 50 lines each, as `hotplug run` has them, without times."""
    layout = dict(LAYOUT, order=7, blocks=1, boot=["normal"], history=200)
    scenario = {"layout": layout, "calls": ["0 kalloc 0", "1 kalloc 0"] * 50}
    check_fast(checks, programs, "100 kallocs", scenario, run_of(programs.hotplug, scenario), slack)


def check_wide(checks, programs, slack):
    """64 processors with 50 lines each, with times by which a line overlaps the next few ones of
    others."""
    draw, cpus = random.Random(64), 64
    layout = dict(LAYOUT, order=8, blocks=2, boot=["normal", "movable"], cpus=cpus, owners=cpus,
                  pages=2, history=50 * cpus)
    texts = ("kalloc 0", "map o{cpu} {page}", "map o{cpu} {page}", "unmap o{cpu} {page}",
             "write o{cpu} {page} 0 {value}", "read o{other} {page} 0", "drain {other}")
    order = draw.sample([cpu for cpu in range(cpus) for _ in range(50)], 50 * cpus)
    calls = [f"{cpu} " + draw.choice(texts).format(cpu=cpu, page=draw.randrange(2),
                                                   value=draw.randrange(9), other=draw.randrange(cpus))
             for cpu in order]
    replies = programs.serial(layout, calls).splitlines()
    answers, last = "", [0] * cpus
    for at, (cpu, line) in enumerate(zip(order, replies), 1):
        last[cpu] = max(last[cpu], 10 * at + draw.randrange(OVERLAP))
        answers += json.dumps({"cpu": cpu, "answer": line.partition(": ")[2],
                               "from": max(0, 10 * at - draw.randrange(OVERLAP)),
                               "to": last[cpu]}) + "\n"
    check_fast(checks, programs, "3200 lines", {"layout": layout, "calls": calls}, answers, 4 * slack)


def check_speed(checks, programs, slack):
    check_kallocs(checks, programs, slack)
    check_wide(checks, programs, slack)


# The peer

def peer_built(folder, *features):
    """The program of bench/peer with some features, built in a folder."""
    subprocess.run(["cargo", "build", "--quiet", "--offline", "--locked", "--bin", "hotplug",
                    "--target-dir", folder, *features], cwd=ROOT / "bench/peer", check=True,
                   timeout=BUILD_SECONDS, capture_output=True)
    return shutil.copy(f"{folder}/debug/hotplug", f"{folder}/hotplug{len(features)}")


def check_race(checks, programs, peer):
    """Each run with the race is explained where an order explains it, and some is not."""
    scenario = {"layout": LAYOUT, "calls": RACE}
    orders = Orders(programs, scenario, 1000).all
    for number in range(1, RACES + 1):
        answers = run_of(peer, scenario)
        told = programs.explain(scenario, answers)[:2]
        _, expected = expected_of(orders, seen_in(answers))
        checks.holds("a race", told == expected[:2], f"{answers!r} has {told}, not {expected[:2]}")
        if told[0] == 3:
            print(f"peer: the race is found in run {number}")
            return
    checks.holds("a race", False, f"is not found in {RACES} runs")


def check_peer(checks, programs, draw, drawn_scenario):
    """What the peer prints of runs, where cargo builds it."""
    if shutil.which("cargo") is None:
        print("peer: skipped, there is no cargo")
        return
    with tempfile.TemporaryDirectory() as folder:
        try:
            peer, racing = peer_built(folder), peer_built(folder, "--features", "race")
        except subprocess.SubprocessError as error:
            print(f"peer: skipped, cargo does not build it: {error}")
            return
        scenarios = drawn_runs(draw, drawn_scenario, PEER_SCENARIOS)
        check_all_runs(checks, programs, "run of the peer", peer, scenarios, 1)
        check_race(checks, programs, racing)
