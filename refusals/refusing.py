"""Runs programs with their requests for memory, reads and writes refused by refuse.c."""
import os
import subprocess
from concurrent.futures import ThreadPoolExecutor
from dataclasses import dataclass
from pathlib import Path

ROOT = Path(__file__).resolve().parent.parent
SECONDS = 60
MOST = 20_000  # requests of one program
WORKERS = os.cpu_count() or 1
NO_END = f"no end after {SECONDS} s\n"


@dataclass(frozen=True)
class Ran:
    """How a run ended, and a letter for each request that was refused."""
    status: int
    out: str
    err: str
    refused: str = ""

    def ends_as(self, status, out, err):
        return (self.status, self.out, self.err) == (status, out, err)


@dataclass(frozen=True)
class Refused:
    """Which requests are refused: a kind, the first, the last (0: all further ones), and after how
    many writes they are counted."""
    kind: str
    first: int
    last: int
    after: int = 0

    def settings(self):
        return {"REFUSE": self.kind, "FROM": str(self.first), "TO": str(self.last),
                "AFTER": str(self.after)}


class Checks:
    """What was checked, and what failed."""

    def __init__(self):
        self.passed, self.failures = 0, []

    def holds(self, where, is_right, message):
        if is_right:
            self.passed += 1
        else:
            self.failures.append(f"{where}: {message}")

    def report(self):
        for failure in self.failures:
            print(failure)
        print(f"refusals: {self.passed} passed, {len(self.failures)} failed")


def decoded(stream):
    return (stream or b"").decode(errors="replace")


def ran_of(command, text, **settings):
    """How a command ended; one that does not end in time ended by a signal."""
    try:
        ran = subprocess.run(command, input=text, stdout=subprocess.PIPE, stderr=subprocess.PIPE,
                             timeout=SECONDS, **settings)
    except subprocess.TimeoutExpired as late:
        return Ran(-1, decoded(late.stdout), decoded(late.stderr) + NO_END)
    return Ran(ran.returncode, decoded(ran.stdout), decoded(ran.stderr))


def run(command, text=b""):
    """Runs a command on a text; all that it asks for is granted."""
    return ran_of(command, text, env={})


def run_on_stack(kibibytes, command, text):
    """Runs a command on a text, where a stack has so many KiB."""
    limited = ["bash", "-c", 'ulimit -S -s "$0" && exec "$@"', str(kibibytes), *command]
    return ran_of(limited, text, env={})


class Refuser:
    """Runs programs with refuse.c between them and the C library."""

    def __init__(self, folder):
        self.library = Path(folder) / "refuse.so"
        guide = subprocess.run(["rt", "doc"], cwd=ROOT, stdout=subprocess.PIPE, check=True)
        tools = Path(guide.stdout.decode().strip()).parent / "toolchain" / "bin"
        subprocess.run([tools / "clang", "-O2", "-fno-builtin", "-shared", "-fPIC", "-nostdlib",
                        f"--ld-path={tools / 'ld.lld'}", ROOT / "refusals" / "refuse.c",
                        "-o", self.library], check=True)

    def run(self, refused, command, text=b""):
        """Runs a command on a text, with these requests refused."""
        reader, writer = os.pipe()
        try:
            environment = {"LD_PRELOAD": str(self.library), "REPORT": str(writer)}
            ran = ran_of(command, text, env={**environment, **refused.settings()},
                         pass_fds=[writer])
        finally:
            os.close(writer)
        with os.fdopen(reader, "rb") as reports:
            letters = reports.read().decode()
        return Ran(ran.status, ran.out, ran.err, letters)

    def each(self, kind, command, text=b"", after=0):
        """The runs with the first, second, .. request of a kind refused, counted from after so many
        writes on, until one has none refused, with their numbers."""
        first = 1
        with ThreadPoolExecutor(WORKERS) as pool:
            while first <= MOST:
                numbers = range(first, first + 4 * WORKERS)
                runs = pool.map(
                    lambda nth: self.run(Refused(kind, nth, nth, after), command, text), numbers)
                for number, ran in zip(numbers, runs):
                    if not ran.refused:
                        return
                    yield number, ran
                first += len(numbers)
        raise ValueError(f"more than {MOST} requests")
