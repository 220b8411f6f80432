"""Six storage servers, and proxies before them that let a process die within what it sends."""

import contextlib
import signal
import socket
import subprocess
import threading
import time
from pathlib import Path

from harness import sqlite_worlds
from harness.shims import kit
from harness.sqlite_crashes import Child
from harness.stores import Client, Store, until
from model.wire import frame, framed, frames_of, read_frame

NODES, QUORUM = 6, 4


def build_extension(archive, folder, root):
    """The extension over the driver and the archive of the machine."""
    return sqlite_worlds.build(folder, "volume", root, YIELDCLEAT_VOLUME_ARCHIVE=archive.parent, RATTLE_C=kit() / "c")


# The servers


class Cluster:
    """Servers in a folder, with the files that name them: `volume`, and `proxied` behind proxies."""

    def __init__(self, program, folder, disk, gossip_every=50, words=()):
        """Servers that gossip every so many milliseconds, with more words of their command line."""
        self.folder = folder
        folder.mkdir()
        places = [self.place(number) for number in range(NODES)]
        self.stores = []
        for number in range(NODES):
            peers = [word for place in places if place != places[number] for word in ("--peer", place)]
            more = (*words, *self.words(number))
            self.stores.append(Store(self.program(program, number), folder / f"n{number}", "--gossip-every", gossip_every, *peers, *more, shim=disk))
        (folder / "volume").write_text("".join(f"{place}\n" for place in places))
        (folder / "proxied").write_text("".join(f"unix:{folder}/p{number}\n" for number in range(NODES)))
        self.stopped, self.lost, self.tool = set(), [], Path(program).with_name("yieldcleat-soundness")

    def place(self, number):
        """Where engines and peers reach a server."""
        return f"unix:{self.folder}/n{number}/socket"

    def program(self, program, _number):
        return program

    def words(self, _number):
        return ()

    def start(self, *numbers, delay=0):
        """Starts those of the servers that do not run, at once; each flush takes so many microseconds."""
        stores = [self.stores[number] for number in numbers or range(NODES)]
        started = [store for store in stores if not store.process or store.process.poll() is not None]
        for store in started:
            store.settings["DISK_DELAY"] = delay
            store.full.unlink(missing_ok=True)
            store.run()
        for store in started:
            store.wait()

    def kill(self, *numbers):
        for number in numbers:
            self.resume(number)
            self.stores[number].close()

    def wipe(self, *numbers):
        """Their files are gone; for whoever asks what engines have sent they are kept elsewhere."""
        for number in numbers:
            self.kill(number)
            if (data := self.stores[number].data).exists():
                self.lost.append(self.folder / f"lost{len(self.lost)}")
                data.rename(self.lost[-1])

    def pause(self, number):
        self.stores[number].process.send_signal(signal.SIGSTOP)
        self.stopped.add(number)

    def resume(self, *numbers):
        for number in self.stopped & set(numbers or range(NODES)):
            self.stores[number].process.send_signal(signal.SIGCONT)
            self.stopped.discard(number)

    def heal(self):
        """All run, with room on their disks."""
        self.resume()
        for store in self.stores:
            store.full.unlink(missing_ok=True)
        self.start()

    def status(self, number):
        """Generation, birth, membership, epoch, complete point and minimum read point of a server that runs; else nothing."""
        store = self.stores[number]
        if number in self.stopped or not store.process or store.process.poll() is not None:
            return None
        with contextlib.suppress(OSError):
            return [int(word) for word in store.ask(b"status").split()[1:7]]
        return None

    def members(self):
        return [number for number in range(NODES) if (status := self.status(number)) and status[2]]

    def fronts(self):
        return [status[3:5] if (status := self.status(number)) else None for number in range(NODES)]

    def unsound(self, fleet):
        """What the proved checker finds wrong with all facts that the servers were sent, or nothing. They are stopped, and have made no snapshot."""
        folders = [*(store.data for store in self.stores), *self.lost]
        done = subprocess.run([self.tool, "--fleet", fleet, *folders], capture_output=True, text=True, check=False)
        is_sound = done.returncode == 0 and done.stdout.startswith("sound ")
        return "" if is_sound else f"status {done.returncode}: {done.stdout[-300:]}{done.stderr[-300:]}"

    def settled(self):
        """Whether all have the same front after a while."""
        return until(lambda: len({tuple(front or ()) for front in self.fronts()}) == 1)

    def close(self):
        self.resume()
        for store in self.stores:
            store.close()


# The proxies


class Proxy:
    """Passes the requests of an engine on to a server one by one, until so many are spent; then it holds back what comes."""

    def __init__(self, folder, number, spent):
        self.place, self.server, self.spent = f"{folder}/p{number}", f"unix:{folder}/n{number}/socket", spent
        self.lock = threading.Lock()
        self.left = None  # no bound
        self.drops = 0  # how often what was held back has been dropped
        self.listener = socket.socket(socket.AF_UNIX)
        self.listener.bind(self.place)
        self.listener.listen(64)
        threading.Thread(target=self.accept, daemon=True).start()

    def accept(self):
        while True:
            threading.Thread(target=self.serve, args=(self.listener.accept()[0],), daemon=True).start()

    def may_pass(self, request):
        """Questions for the status and reads spend nothing."""
        with self.lock:
            if self.left is None or request.startswith((b"status", b"read ", b"front")):
                return True
            self.left -= 1
            if self.left < 0:
                self.spent.set()
            return self.left >= 0

    def bound(self, left, drops):
        """Sets how many requests may still pass; None lets all pass. With `drops`, requests that wait are dropped."""
        with self.lock:
            self.drops += drops
            self.left = left

    def serve(self, engine):
        """Until either side closes its connection."""
        with contextlib.suppress(OSError), engine, contextlib.closing(Client(self.server)) as server:
            requests = engine.makefile("rb")
            while (request := read_frame(requests)) is not None:
                many = request.startswith(b"many ")
                answers = [self.ask(server, it) for it in (frames_of(request[5:]) if many else [request])]
                engine.sendall(frame(framed(answers) if many else answers[0]))

    def ask(self, server, request):
        drops = self.drops
        while not self.may_pass(request):
            time.sleep(0.02)
        if self.drops != drops:
            raise ConnectionError
        if (answer := server.ask(request)) is None:
            raise ConnectionError
        return answer


def run_proxies(pipe, folder):
    """Sets what each proxy may still pass on, and says when the first one has spent that."""
    spent = threading.Event()
    proxies = [Proxy(folder, number, spent) for number in range(NODES)]
    pipe.send("ready")
    while True:
        word, value, drops = pipe.recv()
        if word == "bound":
            spent.clear()
            for proxy, left in zip(proxies, value or [None] * NODES):
                proxy.bound(left, drops)
            pipe.send("done")
        else:
            pipe.send(spent.wait(value))


class Proxies(Child):
    """The proxies in a process of their own."""

    def __init__(self, folder):
        super().__init__(run_proxies, folder)
        self.pipe.recv()

    def bound(self, counts, drops=False):
        """How many requests each server still gets, or None for all; what was held back is dropped, or arrives late."""
        self.pipe.send(("bound", counts, drops))
        self.pipe.recv()

    def wait(self, seconds):
        """Whether a bound is spent within the time."""
        self.pipe.send(("wait", seconds, False))
        return self.pipe.recv()

    def close(self):
        self.kill()
