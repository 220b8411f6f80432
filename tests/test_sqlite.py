"""The VFS of `sqlite/` over the double of a volume: what databases do there, beside plain ones, in crashes, and where the volume fails."""

import importlib
import re
import shutil
import sqlite3
import subprocess

import pytest

from harness import CASES, ROOT, environment
from harness.shims import c_compiler
from harness.sqlite_worlds import CHECKS, build, run, sanitizer


MODULES = map(importlib.import_module, CHECKS)
NAMES = [name.removeprefix("check_") for module in MODULES for name in vars(module) if name.startswith("check_")]
SCRIPTS = dict(re.findall(r"(?ms)^-- == (.*?)\n(.*?)(?=^-- == |\Z)", (CASES / "sqlite.sql").read_text()))

pytestmark = [
    pytest.mark.xdist_group("sqlite"),  # which builds the extension once
    pytest.mark.skipif(not hasattr(sqlite3.Connection, "enable_load_extension"), reason="this Python loads no extension; Debian's does"),
    pytest.mark.skipif(not c_compiler("sqlite3ext.h"), reason="no C compiler with SQLite's headers is on the path"),
]
needs_shell = pytest.mark.skipif(not shutil.which("sqlite3"), reason="no sqlite3 is on the path")
needs_valgrind = pytest.mark.skipif(not shutil.which("valgrind"), reason="no valgrind is on the path")


@pytest.fixture(scope="module")
def sanitized(tmp_path_factory):
    return build(tmp_path_factory.mktemp("sanitized"), "sanitized")


@pytest.mark.parametrize("name", NAMES)
def test_database(double, tmp_path, seed, seconds, name):
    assert run(f"check_{name}", double, tmp_path / "databases", seed, seconds) == ""


@pytest.mark.parametrize("name", NAMES)
def test_database_sanitized(sanitized, tmp_path, seed, seconds, name):
    assert run(f"check_{name}", sanitized, tmp_path / "databases", seed, seconds / 4, sanitizer()) == ""


# The shell


def shell(library, script, folder, over=(), settings=None, place=None):
    """What the shell prints of a script, run on a volume in a folder or at a place, or on a file where there is no library."""
    folder.mkdir()
    uri = f"file:{place or folder / 'database'}" + ("?vfs=yieldcleat" if library else "")
    text = (f".load {library.with_suffix('')}\n" if library else "") + f".open {uri}\n{script}"
    done = subprocess.run([*over, "sqlite3", "-batch"], input=text, capture_output=True, text=True, timeout=300, env=environment(**(settings or {})), check=False)
    assert done.returncode in (0, 1), f"{done.returncode}\n{done.stdout[-500:]}{done.stderr[-3000:]}"
    return done.stdout, re.sub(r"near line \d+", "", done.stderr)


@needs_shell
@pytest.mark.parametrize("name", SCRIPTS)
def test_shell(double, tmp_path, name):
    """A script prints what it prints over a plain file."""
    ours, plain = shell(double, SCRIPTS[name], tmp_path / "ours"), shell(None, SCRIPTS[name], tmp_path / "plain")
    assert ours == plain and "ok" in ours[0].split()
    assert [path.name for path in (tmp_path / "ours").iterdir()] == ["database"]


@needs_shell
def test_shell_sanitized(sanitized, tmp_path):
    """All scripts one after another; the shell frees all that it has, so what is left is a leak."""
    script = "\n".join(SCRIPTS.values())
    assert shell(sanitized, script, tmp_path / "ours", settings=sanitizer(leaks=1))[0].count("ok\n") >= len(SCRIPTS)


@needs_shell
@needs_valgrind
def test_shell_under_valgrind(double, tmp_path):
    over = ["valgrind", "--quiet", "--error-exitcode=99", "--leak-check=full", "--errors-for-leak-kinds=definite"]
    assert shell(double, SCRIPTS["first"], tmp_path / "ours", over) == shell(None, SCRIPTS["first"], tmp_path / "plain")


# Programs in C


def ran(folder, name, *words, flags=(), settings=None):
    """What a program of `sqlite/tests` prints."""
    warnings = ["-Wall", "-Wextra", "-Wconversion", "-Wshadow", "-Werror"]
    program = folder / name
    command = [c_compiler(), "-std=gnu11", "-g", "-O1", *warnings, *flags, "-o", program, ROOT / f"sqlite/tests/{name}.c", "-lsqlite3"]
    subprocess.run(command, check=True)
    done = subprocess.run([program, *map(str, words)], capture_output=True, text=True, env=environment(**(settings or {})), timeout=200, check=False)
    assert (done.returncode, done.stderr) == (0, ""), f"{words}\n{done.stdout[-2000:]}{done.stderr[-3000:]}"
    return done.stdout


def test_changes(tmp_path, rng):
    """The patches of random pairs of pages."""
    flags = ["-fsanitize=address,undefined", "-I", ROOT / "volume/include", ROOT / "sqlite/src/changes.c"]
    assert ran(tmp_path, "changes", rng.randrange(1 << 32), 1000, flags=flags) == "all as expected\n"


def test_batches(sanitized, tmp_path):
    """Batches of writes, which Debian's library does not make, are kept or dropped as a whole."""
    words = [sanitized.with_suffix(""), f"file:{tmp_path}/database?vfs=yieldcleat"]
    assert ran(tmp_path, "batch", *words, settings=sanitizer()) == "all as expected\n"


def test_memory(sanitized, tmp_path, rng):
    """Allocations that fail, one a round."""
    said = ran(tmp_path, "memory", sanitized.with_suffix(""), tmp_path, rng.randrange(80, 120), settings=sanitizer(leaks=1))
    assert said.startswith("all as expected, up to allocation ")
