"""Storage servers in processes of their own, and what a crash does to their files."""

import contextlib
import os
import shutil
import signal
import socket
import subprocess
import time
from pathlib import Path

from harness import ROOT, SECONDS, environment, ran
from harness.shims import kit
from model.wire import framed, read_frame


def build(archive, target, package=ROOT / "store", profile="debug", warnings=False):
    """The folder of a package's programs, or None without cargo; without warnings of the compiler, unless they may be."""
    if not shutil.which("cargo"):
        return None
    settings = environment(YIELDCLEAT_ARCHIVE=archive.parent, RATTLE_C=kit() / "c", CARGO_TARGET_DIR=target)
    command = ["cargo", "build", "--offline", "--locked", *["--release"] * (profile == "release")]
    _, said = ran(command, timeout=None, cwd=package, env=settings)
    assert warnings or "warning" not in said, said[-2000:]
    return target / profile


class Client:
    """A connection to a server."""

    def __init__(self, address):
        family, place = socket.AF_UNIX, address.removeprefix("unix:")
        if place == address:
            host, _, port = address.rpartition(":")
            family, place = socket.AF_INET, (host, int(port))
        self.socket = socket.socket(family)
        self.socket.settimeout(SECONDS)
        self.socket.connect(place)
        self.answers = self.socket.makefile("rb")

    def send(self, *requests):
        self.socket.sendall(framed(requests))

    def answer(self):
        """The next answer, or None where the server has closed the connection."""
        with contextlib.suppress(ConnectionResetError):
            return read_frame(self.answers)
        return None

    def ask(self, request):
        with contextlib.suppress(BrokenPipeError):
            self.send(request)
        return self.answer()

    def complete(self):
        """The complete point of the front."""
        return int(self.ask(b"front").split()[2])

    def close(self):
        self.answers.close()
        self.socket.close()


class Store:
    """A server over a folder, which may be killed and started again. Its socket, its log lines and its reports are beside the files."""

    def __init__(self, program, folder, *words, shim=None, **settings):
        self.program, self.folder, self.words, self.settings = program, Path(folder), words, settings
        self.folder.mkdir(exist_ok=True)
        self.data, self.socket, self.said = self.folder / "data", self.folder / "socket", self.folder / "said"
        self.flushed, self.full = self.folder / "flushed", self.folder / "full"
        if shim:
            self.settings |= {"LD_PRELOAD": shim, "DISK_FLUSHED": self.flushed, "DISK_FULL": self.full}
        self.process, self.starts = None, 0  # how often it had taken connections before the last start

    @property
    def address(self):
        return f"unix:{self.socket}"

    def run(self):
        """Starts the process, and waits for nothing."""
        command = [self.program, "--data", self.data, "--listen", self.address, *map(str, self.words)]
        self.starts = self.log().count("ready\n")
        with open(self.said, "ab") as said:
            self.process = subprocess.Popen(command, stderr=said, env=environment(**self.settings))
        return self

    def start(self):
        """Starts it, and waits until it takes connections."""
        return self.run().wait()

    def wait(self):
        """Waits until it takes connections."""
        end = time.monotonic() + SECONDS
        while self.log().count("ready\n") == self.starts:
            assert self.process.poll() is None, self.log()
            assert time.monotonic() < end, self.log()
            time.sleep(0.005)
        return self

    def log(self):
        return self.said.read_text() if self.said.exists() else ""

    def client(self):
        return Client(self.address)

    def ask(self, request):
        with contextlib.closing(self.client()) as client:
            return client.ask(request)

    def kill(self):
        self.process.kill()
        self.process.wait()

    def restart(self):
        """Kills it, starts it again, and waits until it takes connections."""
        self.kill()
        return self.start()

    def stop(self, number=signal.SIGTERM):
        """The status of a graceful end."""
        self.process.send_signal(number)
        return self.process.wait(SECONDS)

    def refused(self):
        """The status of a start that is to fail, and the last line of its log."""
        self.run()
        assert until(lambda: self.process.poll() is not None or self.log().count("ready\n") > self.starts)
        assert self.process.poll() is not None, "it serves"
        assert "panicked" not in self.log()
        return self.process.returncode, self.log().splitlines()[-1]

    def close(self):
        if self.process and self.process.poll() is None:
            self.kill()

    def file(self, kind):
        """The one file of the kind, `log` or `snapshot`."""
        found = [it for it in self.data.glob(f"{kind}.*") if it.suffix != ".draft"]
        assert len(found) == 1, found
        return found[0]

    def lose_unflushed(self):
        """Cuts each file at the length that it had at its last flush. A log of this process alone has to be kept for that."""
        lengths = {}
        for line in self.flushed.read_text().splitlines() if self.flushed.exists() else ():
            length, _, path = line.partition(" ")
            lengths[path.removesuffix(".draft")] = int(length)
        for path in self.data.iterdir():
            if path.name != "lock" and path.stat().st_size > (kept := lengths.get(str(path).removesuffix(".draft"), 0)):
                os.truncate(path, kept)

    def metrics(self):
        """The values of the metrics, by name and labels."""
        lines = self.ask(b"metrics").decode().splitlines()
        return {name: float(value) for name, _, value in (it.rpartition(" ") for it in lines if not it.startswith("#"))}


def until(holds):
    """Whether something holds in time."""
    end = time.monotonic() + SECONDS
    while time.monotonic() < end:
        if holds():
            return True
        time.sleep(0.02)
    return False
