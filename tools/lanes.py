#!/usr/bin/env python3
"""Prints how many crates are to be proved side by side: one a processor, as far as memory holds.

`./build` and `./check` hand it to rt as RT_JOBS. By its own plan rt wants several times the memory that most checks
take, and so leaves processors idle; and where few crates are ready it gives each several processes, of which each
reads all again. Where the kit says nothing of processors and memory, the line is empty, and rt plans by itself.
"""
from wrong_bodies import rt

# Memory for the check of a crate, in bytes: the tests of lab_tests took the most, 3.4 GB, and then refusals, 3.2 GB.
CHECK = 3_500_000_000


def lanes():
    return max(1, min(rt.processors(), int(rt.free()) // CHECK))


if __name__ == "__main__":
    print(lanes() if hasattr(rt, "processors") and hasattr(rt, "free") else "")
