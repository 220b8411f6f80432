"""Databases of the VFS `yieldcleat` over the double of a volume, in this process and in others.

The VFS is one for a process, so each check runs in a process of its own (`python3 -m harness.sqlite_worlds LIBRARY FOLDER SEED SECONDS CHECK`),
and so do its helpers, which are the functions `work_..` of the same module.
"""

import contextlib
import ctypes
import importlib
import random
import sqlite3
import subprocess
import sys
from pathlib import Path

from harness import ROOT, environment, ran
from harness.sqlite_transactions import MANY

TESTS = ROOT / "tests"
CHECKS = ("harness.sqlite_checks", "harness.sqlite_crashes", "harness.sqlite_faults", "harness.sqlite_rivals")
SECONDS = 120  # until a check counts as not ended
FENCED, NO_QUORUM, TIMEOUT, FULL, NOT_FOUND, BELOW, ABOVE, IO, NO_MEMORY, MISUSE = range(1, 11)  # of yieldcleat_volume.h
KILLED = -1


def build(folder, target="double", root=ROOT, words=(), **settings):
    """The extension over the double or another target, built out of the sources below a folder; its compiler's messages fail the test."""
    command = ["make", "-s", "-C", root / "sqlite", f"BUILD={folder}", *words, target]
    _, said = ran(command, timeout=None, env=environment(**settings))
    assert said == "", said[-3000:]
    return Path(folder) / target / "yieldcleat.so"


def sanitizer(leaks=0):
    """The settings under which a program that has no sanitizer loads a library that has one. What it finds ends the program with a status that
    SQLite's shell has not. Python's own leaks are not ours."""
    library = subprocess.run(["gcc", "-print-file-name=libasan.so"], capture_output=True, text=True, check=True).stdout.strip()
    return {"LD_PRELOAD": library, "ASAN_OPTIONS": f"exitcode=99:detect_leaks={leaks}", "UBSAN_OPTIONS": "exitcode=99:print_stacktrace=1"}


def run(name, library, folder, seed, seconds, settings=None):
    """Runs a check in a process of its own, and returns what it wrote where it failed, else an empty text."""
    folder.mkdir(exist_ok=True)
    command = [sys.executable, "-m", "harness.sqlite_worlds", library, folder, str(seed), str(seconds), name]
    try:
        done = subprocess.run(command, cwd=TESTS, env=environment(**(settings or {})), capture_output=True, text=True, timeout=SECONDS + 4 * seconds)
    except subprocess.TimeoutExpired:
        return f"{name} has not ended"
    return "" if done.returncode == 0 else f"seed {seed}: status {done.returncode}\n{done.stdout[-2000:]}{done.stderr[-4000:]}"


def load(extension):
    """Registers the VFS, for this process and those that are forked from it."""
    with contextlib.closing(sqlite3.connect(":memory:")) as first:
        first.enable_load_extension(True)
        first.load_extension(str(Path(extension).with_suffix("")))


def connect(place, busy=10.0, **parameters):
    """A connection to a volume; for so many seconds it waits for a lock."""
    words = "".join(f"&{key}={value}" for key, value in parameters.items())
    return sqlite3.connect(f"file:{place}?vfs=yieldcleat{words}", uri=True, isolation_level=None, timeout=busy, check_same_thread=False)


class World:
    """The databases of one check."""

    def __init__(self, library, folder, seed, seconds, name):
        self.library, self.folder, self.seed, self.seconds, self.name = Path(library), Path(folder), seed, float(seconds), name
        self.rng = random.Random(f"{seed} {name}")
        load(library)
        self.double = ctypes.CDLL(str(self.library))
        self.double.memory_volume_die.argtypes = [ctypes.c_int, ctypes.c_long]

    def place(self, name):
        return self.folder / name

    def open(self, name="volume", busy=0.0, **parameters):
        return connect(self.place(name), busy, **parameters)

    def plain(self, name=":memory:"):
        return sqlite3.connect(name if name == ":memory:" else self.place(name), isolation_level=None, timeout=0)

    def size(self):
        return self.place("volume").stat().st_size

    # Faults of the double

    def fail(self, call, fault, skip=0):
        self.double.memory_volume_fail(call.encode(), skip, 1, fault)

    def nodes(self, count):
        self.double.memory_volume_nodes(count)

    def doubt(self, is_durable):
        self.double.memory_volume_doubt(int(is_durable))

    def end(self):
        self.double.memory_volume_end()

    def calls(self, call):
        return self.double.memory_volume_calls(call.encode())

    def heal(self):
        self.double.memory_volume_reset()

    # Other processes

    def helper(self, name, *words):
        """Starts a function `work_..` of this check's module in another process."""
        command = [sys.executable, "-m", "harness.sqlite_worlds", self.library, self.folder, str(self.seed), str(self.seconds), name, *map(str, words)]
        return subprocess.Popen(command, cwd=TESTS, stdout=subprocess.PIPE, text=True)

    def ask(self, name, *words):
        """What a helper prints, which is to end well."""
        helper = self.helper(name, *words)
        said = helper.communicate(timeout=SECONDS)[0]
        assert helper.returncode == 0, f"{name} ended with {helper.returncode}"
        return said


@contextlib.contextmanager
def refused(code, word="", connection=None):
    """A block that is to fail with this error of SQLite, and with a message that has a word."""
    try:
        yield
    except MemoryError:
        assert code == "SQLITE_NOMEM", f"SQLITE_NOMEM instead of {code}"
    except sqlite3.Error as error:
        assert error.sqlite_errorname == code, f"{error.sqlite_errorname} ({error}) instead of {code}"
    else:
        raise AssertionError(f"no error instead of {code}")
    if connection:
        message = last_message(connection)
        assert word in message, f"the message is {message!r}"


def last_message(connection):
    return one(connection, "pragma yieldcleat_error")


def one(connection, sql, *values):
    """The one value of the first row."""
    return connection.execute(sql, values).fetchone()[0]


def point(connection):
    return int(one(connection, "pragma yieldcleat_point"))


def is_whole(connection):
    return connection.execute("pragma integrity_check").fetchall() == [("ok",)]


def filled(connection, count, body):
    """The connection, which has made a table of so many rows."""
    connection.execute("create table t(a integer primary key, b)")
    connection.execute(f"{MANY.format(count)} insert into t select n, {body} from c")
    return connection


def content(connection):
    """All rows of all tables, with the statements that made them."""
    names = connection.execute("select name, sql from sqlite_schema order by name").fetchall()
    tables = connection.execute("select name from sqlite_schema where type = 'table' and rootpage > 0 order by name").fetchall()
    return names, [connection.execute(f'select * from "{name}"').fetchall() for (name,) in tables]


def main(library, folder, seed, seconds, name, *words):
    world = World(library, folder, seed, seconds, name)
    for module in map(importlib.import_module, CHECKS):
        if function := getattr(module, name, None):
            return function(world, *words)
    raise SystemExit(f"there is no {name}")


if __name__ == "__main__":
    main(*sys.argv[1:])
