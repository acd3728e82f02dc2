"""Runs checks of drawn scenarios in several processes, one for each processor."""
import os
import random
import subprocess
from concurrent.futures import ProcessPoolExecutor
from itertools import repeat

from check_lab import Checks


def check_side_by_side(checks, check, tasks, seed):
    """Runs `check` on each task, with its own random numbers, and adds what was checked, in the
    order of the tasks. `check` takes a task, where to note what was checked, and a source of random
    numbers."""
    tasks = list(tasks)
    with ProcessPoolExecutor(len(os.sched_getaffinity(0))) as pool:
        for one in pool.map(checked, repeat(check), tasks, repeat(seed), range(len(tasks))):
            checks.passed += one.passed
            checks.failures += one.failures


def checked(check, task, seed, number):
    """What one task checked. A check that cannot go on is a failure."""
    checks = Checks()
    try:
        check(task, checks, random.Random(f"{seed} {number}"))
    except (ValueError, LookupError, OSError, subprocess.SubprocessError) as error:
        checks.holds(f"task {number}", False, f"cannot be checked: {error!r}")
    return checks


def chunks(count, size):
    """Sizes of at most `size` each that add up to `count`."""
    return [min(size, count - at) for at in range(0, count, size)]
