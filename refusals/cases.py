"""The cases of crates/refusals: calls that may be out of memory, take none, ask for it once, or ask
for it as often whatever the layout."""
import os

from refusing import ROOT, Refused, run

CASES = ROOT / "crates" / "refusals" / "out" / "refusals"
FIXED = ["fixed", "steps-in-room", "undo-in-room"]
ONCE = ["undo-after-map", "cancel-after-map"]
# Cases whose call asks for memory as often, whatever the greatest order or the processors.
AS_OFTEN = [("areas-of-order-0", "areas-of-order-10"),
            ("lists-of-1-processor", "lists-of-64-processors")]
AS_WITH_AMPLE = "as with ample memory\n"


def check_case(checks, refuser, name):
    """A case, with each request for memory refused in turn. The last line on standard error says
    how many calls were out of memory."""
    answered, whole = 0, 0
    for number, ran in refuser.each("memory", [CASES, name]):
        noted = ran.err.splitlines()[-1:]
        is_right = (ran.status, ran.out) == (0, AS_WITH_AMPLE) and noted in (["0"], ["1"])
        checks.holds(f"case {name}, request {number}", is_right, f"ended with {ran}")
        whole += noted == ["0"]
        answered += noted != ["0"]
    checks.holds(f"case {name}", answered > 0, "was never out of memory")
    print(f"case {name}: {answered + whole} requests for memory refused: {answered} answered, "
          f"{whole} not needed")
    return answered + whole


def check_fixed(checks, refuser, name):
    """A case of calls that take no memory, with every request after the first write refused."""
    ran = refuser.run(Refused("memory", 1, 0, after=1), [CASES, name])
    checks.holds(f"case {name}", ran.ends_as(0, AS_WITH_AMPLE, "set up\n0\n") and not ran.refused,
                 f"ended with {ran}")
    print(f"case {name}: {len(ran.refused)} requests where every one would be refused")


def check_once(checks, refuser, name):
    """A case of a call that asks for memory once: no request after its first one is there to be
    refused, and the first is refused, and the case run again."""
    further = refuser.run(Refused("memory", 2, 0, after=1), [CASES, name])
    checks.holds(f"case {name}, further requests",
                 further.ends_as(0, AS_WITH_AMPLE, "set up\n0\n") and not further.refused,
                 f"ended with {further}")
    first = refuser.run(Refused("memory", 1, 1, after=1), [CASES, name])
    checks.holds(f"case {name}, first request",
                 first.ends_as(0, AS_WITH_AMPLE, "set up\nset up\n1\n") and first.refused,
                 f"ended with {first}")
    print(f"case {name}: one request, and no further one")


def count_requests(refuser, name):
    """How many requests a case makes after its first write."""
    return sum(1 for _ in refuser.each("memory", [CASES, name], after=1))


def check_as_often(checks, refuser, least, most):
    """Two cases of one call, which ask for memory equally often, and at least once."""
    counts = [count_requests(refuser, name) for name in (least, most)]
    checks.holds(f"cases {least} and {most}", counts[0] == counts[1] > 0,
                 f"made {counts[0]} and {counts[1]} requests")
    print(f"cases {least} and {most}: {counts[0]} and {counts[1]} requests")


def check_refusing(checks, refuser):
    """That requests after the first write are refused where there are any: all cases in turn."""
    ran = refuser.run(Refused("memory", 1, 0, after=1), [CASES])
    checks.holds("all cases", ran.status == 1 and ran.refused, f"ended with {ran}")


def check_cases(checks, refuser):
    if not os.access(CASES, os.X_OK):
        checks.holds("cases", False, f"no program at {CASES}: `rt run` in its crate builds it")
        return
    names = run([CASES, "names"]).out.removesuffix(AS_WITH_AMPLE).split()
    checks.holds("cases", len(names) > 1, "there are none")
    memory = sum(check_case(checks, refuser, name) for name in names)
    for name in FIXED:
        check_fixed(checks, refuser, name)
    for name in ONCE:
        check_once(checks, refuser, name)
    for pair in AS_OFTEN:
        check_as_often(checks, refuser, *pair)
    check_refusing(checks, refuser)
    print(f"{len(names)} cases: {memory} requests for memory refused")
