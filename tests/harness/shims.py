"""Runs of a program with an allocation, a start of a thread, a read or a write refused, by a library that is preloaded into it: `refusing.c`.

The compiler that comes with the toolchain builds it.
"""

import shutil
import subprocess
from pathlib import Path
from typing import NamedTuple

from harness import answer, environment

FOLDER = Path(__file__).resolve().parent


def kit():
    """The folder of the toolchain that `rt` belongs to."""
    rt = shutil.which("rt")
    assert rt, "rt is not on the path"
    return Path(rt).resolve().parents[1]


def compiler():
    return kit() / "toolchain/bin/clang"


def c_compiler(*headers):
    """A C compiler of this machine that finds the system's headers and these, or None."""
    text = "".join(f"#include <{it}>\n" for it in ("stdio.h", "pthread.h", *headers)).encode()
    for name in filter(None, map(shutil.which, ("cc", "gcc", "clang"))):
        if subprocess.run([name, "-E", "-x", "c", "-"], input=text, capture_output=True, check=False).returncode == 0:
            return name
    return None


def built(name, folder):
    library = folder / f"{name}.so"
    flags = ["-O2", "-Wall", "-Werror", "-shared", "-fPIC", "-nostdlib", "-fuse-ld=lld"]
    subprocess.run([compiler(), *flags, "-o", library, FOLDER / f"{name}.c"], check=True)
    return library


class Counts(NamedTuple):
    allocations: int
    greatest: int  # bytes that one allocation asks for
    starts: int  # of threads
    reads: int  # of standard input
    writes: int  # to standard output


class Refusing:
    """Runs of a command with some of its calls refused, by the settings that `refusing.c` describes."""

    def __init__(self, folder):
        self.library, self.report = built("refusing", folder), folder / "report"

    def environment(self, **settings):
        return environment(LD_PRELOAD=self.library, FAIL_REPORT=self.report, **settings)

    def run(self, command, text=b"", **settings):
        return answer(command[0], command[1:], text, env=self.environment(**settings))

    def counted(self, command, text=b"", **steps):
        """What the command asks for where nothing is refused, and how it ends then."""
        self.report.unlink(missing_ok=True)
        ample = self.run(command, text, **steps)
        assert self.report.exists(), f"{command[0]} ended without a report"
        counts = Counts(*map(int, self.report.read_text().split()))
        assert counts.allocations, f"{command[0]} asks the shim for no memory"
        return counts, ample

    def spread(self, command, text, most):
        """The environments that refuse one allocation each, spread evenly over the command's run."""
        total = self.counted(command, text)[0].allocations
        return [self.environment(FAIL_ALLOC=n) for n in range(1, total + 1, max(1, total // most))]
