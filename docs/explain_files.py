"""What check_explain.py checks of the answers that `hotplug_lab explain` reads, and of its command
line."""
import json

from check_lab import LAYOUT
from explain_orders import LAST

MOST = 2**32 - 1
REFUSALS = ("NoOwner", "NoPage", "NoWord", "AlreadyMapped", "NotMapped", "BadOrder", "NoFrame",
            "NoSuchFrame", "NotKernel", "NoCpu", "NoBlock", "EmptyPlan", "NoOp", "NothingToMove",
            "Gone", "BadAddress")
NUMBERED = ("Twice", "Busy", "NotOnline", "NotOffline", "Unmovable", "NotFree", "NotAbsent")
WHOLE = [*REFUSALS, *(f"{name} {number}" for name in NUMBERED for number in (0, 7, MOST))]
READ = ["restored", "released", "plan: done", "plan: undone", "frame 0", f"frame {MOST}", "word 0",
        f"word {LAST}", "moved 0 1", f"moved {MOST} {MOST}", "opened 1", f"opened {LAST}", "undone 0",
        f"undone {LAST}", "plan: cancelled - restored", "plan: cancelled - released",
        *(f"refused {refusal}" for refusal in WHOLE), *(f"plan: refused {refusal}" for refusal in WHOLE),
        *(f"plan: cancelled {refusal} {end}" for refusal in WHOLE for end in ("restored", "released"))]
NOT_READ = ["Done", "done ", " done", "done done", "frame", "frame 00", "frame 01", "frame -1",
            "frame +1", f"frame {MOST + 1}", "frame 1 2", "frame x", f"word {LAST + 1}", "moved 1",
            "moved 1 2 3", "moved 1  2", "opened", "opened 01", "opened x", f"opened {LAST + 1}",
            "undone", "refused", "refused Nonsense", "refused NoFrame 1", "refused nofree", "plan:",
            *(f"refused {name}{rest}" for name in NUMBERED for rest in ("", " x", " 1 2", f" {MOST + 1}")),
            "plan:done", "plan:  done", "plan: Done", "plan: refused", "plan: refused Busy",
            "plan: refused Nonsense", "plan: cancelled", "plan: cancelled restored", "plan: done ",
            "plan: cancelled NoFrame", "plan: cancelled Busy restored", "plan: cancelled - ended",
            "plan: cancelled - - restored", "plan: frame 1", "echo: fault NoFile", "0: done", "1: done"]
NO_CALL = ["fault HistoryFull", "fault OutOfMemory", "plan: left 2 HistoryFull",
           "plan: left - OutOfMemory", "sealed 0", "sealed 12"]


def scenario_of(*calls, **layout):
    return {"layout": {**LAYOUT, **layout}, "calls": list(calls)}


# Answers

def check_answers(checks, programs):
    """Each answer that a call can get is read, and nothing else."""
    scenario = scenario_of("0 drain 0", cpus=1)
    for text in READ:
        for answers in (f"cpu 0\n{text}\n", json.dumps({"cpu": 0, "answer": text})):
            told = programs.explain(scenario, answers)
            expected = (3, "explained: none\nlongest beginning: 0 calls\ncpu 0: line 1 of 1 would be "
                        f"answered `done`, not `{text}`\n", "")
            checks.holds(f"answer {text!r}", told == expected, f"says {told}")
    for text in NOT_READ:
        check_fault(checks, programs, scenario, f"cpu 0\n{text}\n",
                    "line 2 of the answers not understood")
        check_fault(checks, programs, scenario, "\n" + json.dumps({"cpu": 0, "answer": text}),
                    "line 2 of the answers not understood")
    for text in NO_CALL:
        said = "line 2 of the answers: no call gets this answer"
        check_fault(checks, programs, scenario, f"cpu 0\n{text}\n", said)
        check_fault(checks, programs, scenario, "\n" + json.dumps({"cpu": 0, "answer": text}), said)


def check_fault(checks, programs, scenario, answers, said, forms=((),)):
    """Answers that are none have status 1, nothing on standard output, and a text that says why."""
    for words in forms:
        told = programs.explain(scenario, answers, *words)
        checks.holds(f"{words} answers {answers!r}", told == (1, "", f"hotplug_lab: {said}\n"),
                     f"says {told}, not {said!r}")


PLAIN = "cpu 0\ndone\nframe 0\ncpu 1\ndone\n"
ACCEPTED = (PLAIN, PLAIN + "3 records\n", PLAIN[:-1], PLAIN + "3 records", PLAIN + "\n\n",
            PLAIN + "3 records\n\n", PLAIN.replace("\n", "\r\n"), PLAIN + f"{LAST} records\n")
SPOILED = (
    ("cpu 0\ndone\nframe 0\ncpu 2\ndone\n", "line 4 of the answers: there is no processor 2"),
    ("cpu 0\ndone\nframe 0\ncpu 1\ndone\ncpu 2\n", "line 6 of the answers: there is no processor 2"),
    ("cpu 1\ndone\ncpu 0\ndone\nframe 0\n", "line 1 of the answers is not `cpu 0`"),
    ("cpu 00\ndone\nframe 0\ncpu 1\ndone\n", "line 1 of the answers is not `cpu 0`"),
    ("done\nframe 0\ncpu 1\ndone\n", "line 1 of the answers is not `cpu 0`"),
    ("", "line 1 of the answers is not `cpu 0`"),
    ("\n" + PLAIN, "line 1 of the answers is not `cpu 0`"),
    ("cpu 0\ndone\nframe 0\ndone\ncpu 1\ndone\n", "line 4 of the answers: processor 0 has fewer lines"),
    (PLAIN + "done\n", "line 6 of the answers: processor 1 has fewer lines"),
    ("cpu 0\ndone\ncpu 1\ndone\n", "processor 0: answers to 1 of 2 lines"),
    ("cpu 0\ndone\nframe 0\ncpu 1\n", "processor 1: answers to 0 of 1 lines"),
    ("cpu 0\ndone\nframe 0\ncpu 1\n3 records\n", "processor 1: answers to 0 of 1 lines"),
    ("cpu 0\ndone\nframe 0\n", "line 4 of the answers is not `cpu 1`"),
    ("cpu 0\ndone\n\nframe 0\ncpu 1\ndone\n", "line 3 of the answers not understood"),
    ("cpu 0\ndone\ndome\ncpu 1\ndone\n", "line 3 of the answers not understood"),
    (PLAIN + "03 records\n", "line 6 of the answers not understood"),
    (PLAIN + "records\n", "line 6 of the answers not understood"),
    (PLAIN + "3 records\n3 records\n", "line 6 of the answers not understood"),
    (b"cpu 0\ndone\nframe \xff\ncpu 1\ndone\n", "the answers are not UTF-8"),
    (b"\xef\xbb\xbf" + PLAIN.encode(), "line 1 of the answers is not `cpu 0`"),
    (b"cpu 0\ndo\0ne\nframe 0\ncpu 1\ndone\n", "line 2 of the answers not understood"))


def objects(*lines):
    """JSON lines of texts, and of tuples: cpu, answer, from, to."""
    keys = ("cpu", "answer", "from", "to")
    return "".join((line if isinstance(line, str) else json.dumps(
        {key: value for key, value in zip(keys, line) if value is not None})) + "\n" for line in lines)


FIRST, SECOND, OTHER = (0, "done"), (0, "frame 0"), (1, "done")
WRONG_OBJECTS = (
    '{"cpu": 0}', '{"answer": "done"}', '{}', '[]', '0', '"done"', 'done', 'cpu 0', '{', '{"cpu": 0,',
    '{"cpu": 0, "answer": "done"', '{"cpu": 0, "answer": "done"} {}', '{"cpu": 0, "answer": "done"},',
    '{"cpu": "0", "answer": "done"}', '{"cpu": -1, "answer": "done"}', '{"cpu": 0.0, "answer": "done"}',
    '{"cpu": 1e0, "answer": "done"}', '{"cpu": null, "answer": "done"}', '{"cpu": 0, "answer": 1}',
    '{"cpu": 0, "answer": null}', '{"cpu": 0, "answer": ["done"]}', '{"cpu": 00, "answer": "done"}',
    '{"cpu": 0, "answer": "done", "line": 1}', '{"cpu": 0, "answer": "done", "from": null}',
    '{"cpu": 0, "answer": "done", "to": "7"}', '{"cpu": 0, "answer": "done", "to": 7.5}',
    '{"cpu": 0, "answer": "done", "to": 18446744073709551616}', '{"cpu": 0, "cpu": 0, "answer": "done"}',
    '{"cpu": 0, "answer": "done", "from": -1}', '{"cpu": 0, "answer": "done", "to": {}}', '[' * 5000,
    '{"cpu":' * 5000, "{'cpu': 0, 'answer': 'done'}", '{"cpu": 0, "answer": "done"} // note')
SPOILED_OBJECTS = (
    ((FIRST, (2, "done"), SECOND, OTHER), "line 2 of the answers: there is no processor 2"),
    ((FIRST, (LAST, "done"), SECOND, OTHER), f"line 2 of the answers: there is no processor {LAST}"),
    ((FIRST, (2**32, "done"), SECOND, OTHER), f"line 2 of the answers: there is no processor {2**32}"),
    ((FIRST, SECOND, FIRST, OTHER), "line 3 of the answers: processor 0 has fewer lines"),
    ((FIRST, OTHER), "processor 0: answers to 1 of 2 lines"),
    ((SECOND, FIRST), "processor 1: answers to 0 of 1 lines"),
    (((0, "done", 5, 4), SECOND, OTHER), "line 1 of the answers: its times are out of order"),
    (((0, "done", 1, 9), OTHER, (0, "frame 0", 1, 8)), "line 3 of the answers: its times are out of order"),
    (((0, "done", 9), OTHER, (0, "frame 0", 1, 8)), "line 3 of the answers: its times are out of order"))
TIMED = (
    ((0, "done", 0, LAST), (0, "frame 0", LAST, LAST), (1, "done", 5)),
    ((1, "done", None, 3), "", FIRST, "", SECOND, ""),
    ((0, "done", 9, 9), (0, "frame 0", 3, 9), (1, "done", None, 0)),
    ('\t{"answer" : "d\\u006fne","cpu":0}  ', SECOND, OTHER),
    (FIRST, OTHER, SECOND))


def check_spoiled(checks, programs):
    """Each fault of the answers is named; a file with none is read, however its lines end."""
    scenario = scenario_of("0 drain 0", "0 kalloc 0", "1 drain 1")
    orders = '"0 drain 0",\n"0 kalloc 0",\n"1 drain 1"\n'
    for text in ACCEPTED:
        told = programs.explain(scenario, text)
        expected = 0, f"changes: 1\nfirst:\n{orders}", ""
        checks.holds(f"answers {text!r}", told == expected, f"says {told}")
    for text, said in SPOILED:
        check_fault(checks, programs, scenario, text, said, ((), ("--json",), ("--scenario", "1")))
    for lines in TIMED:
        text = objects(*lines)
        for given in (text, text.replace("\n", "\r\n"), "\n\n" + text.rstrip("\n")):
            status, _, said = programs.explain(scenario, given)
            checks.holds(f"answers {given!r}", (status, said) == (0, ""), f"says {status}, {said!r}")
    for line in WRONG_OBJECTS:
        text = objects(FIRST, line, SECOND, OTHER)
        check_fault(checks, programs, scenario, text, "line 2 of the answers not understood")
    for lines, said in SPOILED_OBJECTS:
        check_fault(checks, programs, scenario, objects(*lines), said)


# Scenarios and command lines

def check_scenarios(checks, programs):
    """A scenario that cannot be searched has the fault that `explore` names."""
    no_script = "line 1 not for a script: "
    long = [f"{cpu} drain 0" for cpu in (0, 1) for _ in range(3)]
    done = "cpu 0\ndone\ndone\ndone\ncpu 1\ndone\ndone\ndone\n"
    for scenario, answers, said in (
            (scenario_of("0 seal"), "cpu 0\nsealed 0\ncpu 1\n", no_script + "seal makes no call"),
            (scenario_of("0 drain 0", "1 cat probe"), "", "line 2 not for a script: cat makes no call"),
            (scenario_of("2 drain 0"), PLAIN, no_script + "its processor is not in the layout"),
            (scenario_of("0 drain"), PLAIN, "line 1 not understood"),
            (scenario_of("0 drain 0", cpus=0), PLAIN, "layout fault BadCpus")):
        status, text, told = programs.explain(scenario, answers)
        is_so = (status, text) == (1, "") and told.startswith(f"hotplug_lab: {said}")
        checks.holds(f"{scenario['calls']} {answers!r}", is_so, f"says {status}, {text!r}, {told!r}")
    status, text, told = programs.explain(scenario_of(*long, history=5), done)
    is_so = (status, told) == (3, "") and text.startswith("explained: none\nlongest beginning: 5 calls\n")
    checks.holds("a history that is full too soon",
                 is_so and text.endswith("cpu 0: finished\ncpu 1: line 3 of 3 has no room in the history\n"),
                 f"says {status}, {text!r}, {told!r}")
    status, text, told = programs.explain(scenario_of(*long, history=5), done, "--json")
    last = json.loads(text)["processors"][1]
    is_so = (status, told, last) == (3, "", {
        "finished": 2, "lines": 3, "no_room": True, "answer": "done"})
    checks.holds("a history that is full too soon, as JSON", is_so, f"says {status}, {text!r}, {told!r}")
    told = programs.explain(scenario_of(*long, history=6), done)
    checks.holds("a full history", told[0] == 0, f"says {told}")
    told = programs.explain(scenario_of(), "cpu 0\ncpu 1\n0 records\n")
    checks.holds("no lines", told == (0, "changes: 0\nfirst:\n", ""), f"says {told}")


def check_words(checks, programs):
    """One of the two files may be standard input; other words have status 2."""
    scenario, folder = scenario_of("0 drain 0", cpus=1), programs.folder
    whole = programs.explain(scenario, "cpu 0\ndone\n")
    files = [folder / "scenario.json", folder / "answers"]
    for at in (0, 1):
        words = ["-" if it == at else file for it, file in enumerate(files)]
        told = programs.told(*words, text=files[at].read_bytes())
        checks.holds(f"explain {words}", told == whole, f"says {told}")
    status, text, _ = programs.explain(scenario, "cpu 0\ndone\n", "--progress")
    checks.holds("explain --progress", (status, text) == whole[:2], f"says {status}, {text!r}")
    for words in ((), files[:1], [*files, files[1]], ["-", "-"], [*files, "--setup", "1"],
                  [*files, "--scenario", "2"], [*files, "--scenario", "0"], [*files, "--limit", "x"],
                  [*files, "--json", "--scenario", "1"], [*files, "--find", "done"], [*files, "--no"]):
        status, text, said = programs.told(*words)
        is_so = (status, text) == (2, "") and said
        checks.holds(f"explain {words}", is_so, f"says {status}, {text!r}, {said!r}")
    for at in (0, 1):
        for name, fault in (("missing", "file not opened"), ("", "reading failed")):
            words = [folder / name if it == at else file for it, file in enumerate(files)]
            told = programs.told(*words)
            expected = 1, "", f"hotplug_lab: {words[at]}: {fault}\n"
            checks.holds(f"explain {words}", told == expected, f"says {told}")


def check_files(checks, programs):
    check_answers(checks, programs)
    check_spoiled(checks, programs)
    check_scenarios(checks, programs)
    check_words(checks, programs)
