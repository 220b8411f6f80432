"""Python's own tests of its module `sqlite3`, over volumes in place of files and memory.

They run in a process of their own: python3 -m harness.sqlite_python TESTS FOLDER [EXTENSION [STORE DISK]]. TESTS is the folder `test` of a
Python. Without an extension each database is a plain file, without a store it is over the double of a volume, else over a server of its own.
"""

import importlib
import itertools
import json
import os
import shutil
import sqlite3
import subprocess
import sys
import sysconfig
import tempfile
import unittest
from pathlib import Path
from urllib.parse import quote, unquote_to_bytes

from harness.sqlite_crashes import Child
from harness.sqlite_rounds import load
from harness.stores import Store

# What passes over files and does not apply to volumes, and why.
NOT_FOR_VOLUMES = {
    "test_backup.BackupTests.test_database_source_name": "a backup into a volume is of a database whose pages reserve 8 bytes",
    "test_dbapi.MultiprocessTests.test_ctx_mgr_rollback_if_commit_failed": "it opens its file in a process that has not loaded the VFS",
}


def folder_of_tests():
    """The folder `test` of a Python of this version that has the tests, or None: Debian has none in its packages."""
    ask = "import sys, test; print(*sys.version_info[:2], test.__path__[0])"
    found = [Path(sysconfig.get_path("stdlib")) / "test"]
    names = [f"python{sys.version_info[0]}.{sys.version_info[1]}", "python3"]
    for place, name in itertools.product(os.environ["PATH"].split(":"), names):
        if shutil.which(name, path=place):
            said = subprocess.run([f"{place}/{name}", "-c", ask], capture_output=True, text=True, check=False).stdout.split(maxsplit=2)
            found += [Path(said[2].strip())] if said[:2] == [str(it) for it in sys.version_info[:2]] else []
    return next((it for it in found if (it / "test_sqlite3").is_dir()), None)


# Volumes


class Places:
    """Makes a place for each database that a test opens. A file of its own name leads to the place."""

    def __init__(self, folder, vfs="", store=None, disk=None):
        self.folder, self.vfs, self.store, self.disk, self.servers = Path(folder), vfs, store, disk, []

    def new(self):
        place = Path(tempfile.mkdtemp(dir=self.folder, prefix="v")) / "volume"
        if self.store:
            self.servers.append(Store(self.store, place.parent / "n", shim=self.disk).start())
            place.write_text(f"{self.servers[-1].address}\n")
        return place

    def at(self, path):
        """The place that a file leads to, which is made where there is none and may be one."""
        if not os.path.lexists(path) and os.path.isdir(os.path.dirname(os.path.abspath(path))):
            os.symlink(os.fsencode(self.new()), os.fsencode(path))
        return os.path.realpath(path)

    def close(self):
        for it in self.servers:
            it.close()
        self.servers.clear()

    def redirected(self, database, is_uri):
        """The URI of a volume in place of a name of a database, or None where it stays."""
        if database == ":memory:":
            return self.uri(self.new())
        if not isinstance(database, (str, bytes, os.PathLike)) or not (name := os.fsdecode(database)):
            return None
        path, _, words = name.removeprefix("file:").partition("?")
        if not is_uri or not name.startswith("file:"):
            return self.uri(self.at(name))
        path = os.fsdecode(unquote_to_bytes(os.fsencode(path)))
        if path.startswith(":memory:") or "mode=memory" in words:
            return None
        # One that is only read is not made.
        return self.uri(path if "mode=ro" in words and not os.path.lexists(path) else self.at(path), words)

    def uri(self, place, words=""):
        return f"file:{quote(os.fsencode(place))}?{'&'.join(it for it in (self.vfs, words) if it)}"


def redirect(places):
    """Has `sqlite3.connect` and `sqlite3.Connection` open what these places have."""
    plain = sqlite3.connect

    class Connection(sqlite3.Connection):
        def __init__(self, database, *words, **named):
            place = places.redirected(database, named.get("uri", words[6] if len(words) > 6 else False))
            if place and len(words) > 6:
                words = (*words[:6], True)
            elif place:
                named["uri"] = True
            super().__init__(place or database, *words, **named)

    def connect(*words, **named):
        if len(words) < 6:
            named.setdefault("factory", Connection)
        return plain(*words, **named)

    Connection.__qualname__, Connection.__module__ = "Connection", "sqlite3"
    for module in (sqlite3, sqlite3.dbapi2):
        module.connect, module.Connection = connect, Connection


# The run


def tests(folder):
    """The tests, out of a folder that another Python may have."""
    importlib.import_module("test").__path__.append(str(folder))
    for path in sorted((Path(folder) / "test_sqlite3").glob("test_*.py")):
        suites = [unittest.defaultTestLoader.loadTestsFromName(f"test.test_sqlite3.{path.stem}")]
        while suites:
            suite = suites.pop()
            suites += suite if isinstance(suite, unittest.TestSuite) else []
            if not isinstance(suite, unittest.TestSuite):
                yield suite


def run_one(pipe, test, places):
    """Runs a test in this process, and sends why it fails, or nothing where it passes."""
    outcome = unittest.TestResult()
    try:
        unittest.TestSuite([test]).run(outcome)
    finally:
        places.close()
    pipe.send("".join(trace for _, trace in outcome.failures + outcome.errors))


def main(folder_of_them, folder, extension=None, store=None, disk=None):
    os.chdir(folder)  # where tests make files
    places = Places(folder, "vfs=yieldcleat" if extension else "", store, disk)
    if extension:
        load(extension)
    redirect(places)
    failed, count = {}, 0
    for test in tests(folder_of_them):
        said = Child(run_one, test, places).said()
        count += 1
        if said != [""]:
            failed[test.id().removeprefix("test.test_sqlite3.")] = "".join(said) or "its process died"
    print(json.dumps({"count": count, "failed": failed}))


if __name__ == "__main__":
    main(*sys.argv[1:])
