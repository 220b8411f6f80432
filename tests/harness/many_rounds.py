"""Plays crash rounds in several processes at the same time, each over clusters of its own, until so many are played or the time is up.

    python3 -m harness.many_rounds FOLDER --rounds 20000

`make sqlite` builds what it needs. It prints the seed first, a line each minute, each fault with its files and the command that plays it again,
and a sum in the end. A process waits more than it computes, so there are three times as many as processors. An interrupt lets each process end
its round; a second one kills them. Status 0: no fault, 1: a fault, 2: bad command line, 77: no network namespaces, 130: interrupted.
"""

import argparse
import contextlib
import math
import multiprocessing.connection
import os
import secrets
import shlex
import signal
import sys
import time
import traceback
from pathlib import Path

from harness import ROOT
from harness.network import Network, NotAllowed
from harness.shims import built
from harness.sqlite_crashes import Child
from harness.sqlite_network import SKIPPED, NetworkRounds
from harness.sqlite_rounds import ROUNDS, Parts, Rounds, add, load, play_cluster

EXTENSION, STORE = ROOT / "sqlite/build/volume/yieldcleat.so", ROOT / "store/target/release/yieldcleat-store"
MOST_FAULTS = 20  # after which no more rounds are played
SILENT = 300  # seconds without the end of a round after which a process counts as stuck
INTERRUPTED = 130


def words():
    parser = argparse.ArgumentParser(prog="many_rounds", description=__doc__, formatter_class=argparse.RawDescriptionHelpFormatter)
    parser.add_argument("folder", type=Path, help="for the files of servers: new or empty, and of a short name, since sockets are in it")
    parser.add_argument("--extension", type=Path, default=EXTENSION, metavar="FILE", help="the VFS over servers, %(default)s")
    parser.add_argument("--store", type=Path, default=STORE, metavar="PROGRAM", help="the server, beside yieldcleat-soundness, %(default)s")
    parser.add_argument("--rounds", type=int, default=math.inf, metavar="N", help="ends after N rounds")
    parser.add_argument("--seconds", type=float, default=math.inf, metavar="N", help="ends after N seconds")
    parser.add_argument("--processes", type=int, default=3 * len(os.sched_getaffinity(0)), metavar="N", help="%(default)s here")
    parser.add_argument("--seed", type=int, default=None, metavar="N", help="a seed that was printed; drawn by default")
    parser.add_argument("--fleet", type=Path, default=None, metavar="PROGRAM", help="makes no snapshots, and checks the log of each cluster with `fleet`")
    parser.add_argument("--network", action="store_true", help="over TCP between network namespaces, which needs root")
    parser.add_argument("--only", type=int, default=None, metavar="N", help="plays the rounds of this process alone")
    parser.add_argument("--first", type=int, default=0, metavar="N", help="begins with round N, the first one of a cluster")
    parser.add_argument("--every", type=float, default=60, metavar="N", help="seconds between two lines of progress")
    return parser


# What runs in processes of their own


def play(pipe, kind, given, number):
    """Plays rounds over cluster after cluster, and sends the counts after each round, until something comes or its parent has ended. It leads a
    group of processes, so that the terminal interrupts neither it nor its servers."""
    os.setpgid(0, 0)
    for it in (signal.SIGINT, signal.SIGTERM):
        signal.signal(it, signal.SIG_DFL)
    parent, place, before, now = os.getppid(), given.first, {}, {}

    def goes_on(counts):
        nonlocal now
        now = counts
        pipe.send(("counts", add(before, now)))
        return not pipe.poll() and os.getppid() == parent

    while goes_on({}):
        first = place
        try:
            now, place, wrong = play_cluster(kind, given.parts, given.folder / f"p{number}", f"{given.seed}/{number}", first, goes_on)
        except Exception:  # a server that does not start, say: the next cluster may have better luck
            place, wrong = first + 1, traceback.format_exc()
        before = add(before, now)
        if wrong:
            pipe.send(("fault", first, wrong))
    pipe.send(("end",))


class Player(Child):
    """A process that plays, and starts others."""

    def __init__(self, kind, given, number):
        self.number, self.counts, self.heard, self.has_ended = number, {}, time.monotonic(), False
        (given.folder / f"p{number}").mkdir(parents=True)
        super().__init__(play, kind, given, number, daemon=False)

    def stop(self):
        with contextlib.suppress(OSError):
            self.pipe.send("stop")

    def kill(self):
        """Kills it with all that it has started."""
        with contextlib.suppress(ProcessLookupError, PermissionError):
            os.killpg(self.process.pid, signal.SIGKILL)
        self.has_ended = True

    def hear(self):
        """What it says: the first round of a cluster, and what is wrong with that; else nothing."""
        try:
            message = self.pipe.recv()
        except (EOFError, ConnectionResetError):
            self.kill()  # the process is not joined: its number is not another one's
            self.process.join()
            return None, f"the process has ended with {self.process.exitcode}"
        self.heard = time.monotonic()
        if message[0] == "counts":
            self.counts = message[1]
        self.has_ended |= message[0] == "end"
        return message[1:] if message[0] == "fault" else None


# All of them


class Game:
    """All processes, and what they have said."""

    def __init__(self, given):
        self.given, self.begun, self.faults, self.interrupts, self.players = given, time.monotonic(), 0, 0, []

    def interrupt(self, *_):
        self.interrupts += 1

    def counts(self):
        total = {"rounds": 0}
        for player in self.players:
            total = add(total, player.counts)
        return total

    def is_over(self):
        are_enough = self.counts()["rounds"] >= self.given.rounds or time.monotonic() - self.begun >= self.given.seconds
        return are_enough or self.interrupts > 0 or self.faults >= MOST_FAULTS

    def play(self, kind, numbers):
        """Starts processes, and listens until all have ended."""
        self.players = [Player(kind, self.given, number) for number in numbers]
        is_over, line = False, self.begun + self.given.every
        while left := [it for it in self.players if not it.has_ended]:
            self.hear(left)
            if not is_over and (is_over := self.is_over()):
                for player in left:
                    player.stop()
            if self.interrupts > 1:
                for player in left:
                    player.kill()
            if time.monotonic() >= line:
                line += self.given.every
                print(self.progress(), flush=True)

    def hear(self, left):
        """Hears what comes, and kills processes that say nothing."""
        for pipe in multiprocessing.connection.wait([it.pipe for it in left], 0.5):
            player = next(it for it in left if it.pipe is pipe)
            if found := player.hear():
                self.blame(player, *found)
        for player in left:
            if not player.has_ended and time.monotonic() - player.heard > SILENT:
                player.kill()
                self.blame(player, None, f"no round has ended for {SILENT} seconds")

    def blame(self, player, first, wrong):
        """Prints a fault of a cluster, or of the last one of a process."""
        self.faults += 1
        place = self.given.folder / f"p{player.number}"
        print(f"FAULT {self.faults}, process {player.number}: {wrong.rstrip()}")
        print(f"  files: {place if first is None else place / f'c{first}'}")
        print(f"  again: {self.again(player.number, first)}", flush=True)

    def again(self, number, first):
        given = self.given
        command = [sys.executable, "-m", "harness.many_rounds", "NEW_FOLDER", "--extension", given.extension, "--store", given.store]
        command += ["--seed", given.seed, "--only", number, "--rounds", ROUNDS]
        command += ["--first", first] if first is not None else []
        command += ["--fleet", given.fleet] if given.fleet else []
        command += ["--network"] if given.network else []
        return shlex.join(map(str, command))

    def progress(self):
        counts, seconds = self.counts(), time.monotonic() - self.begun
        rest = ", ".join(f"{count:,} {name}" for name, count in counts.items() if name != "rounds")
        return f"{seconds:,.0f} s: {counts['rounds']:,} rounds, {counts['rounds'] / seconds:.2f} a second, {self.faults} faults; {rest}"

    def close(self):
        for player in self.players:
            if not player.has_ended:
                player.kill()
            player.process.join()
            with contextlib.suppress(OSError):
                (self.given.folder / f"p{player.number}").rmdir()  # where it is empty

    def status(self):
        return 1 if self.faults else INTERRUPTED if self.interrupts else 0


def prepared(parser, given, kind):
    """Checks the words and completes them. Loads what all processes share, unless their kind needs nothing. The kind of rounds."""
    if given.folder.exists() and any(given.folder.iterdir()):
        parser.error(f"{given.folder} is not empty")
    given.folder = given.folder.resolve()
    given.seed = secrets.randbits(32) if given.seed is None else given.seed
    given.parts = Parts(given.extension, given.store, None, given.fleet)
    if kind:
        return kind
    if missing := [it for it in (given.extension, given.store, given.fleet) if it and not it.exists()]:
        parser.error(f"{missing[0]} is not there; `make sqlite` builds the extension and the server")
    given.folder.mkdir(parents=True, exist_ok=True)
    given.extension, given.store, given.fleet = (it and it.resolve() for it in (given.extension, given.store, given.fleet))
    given.parts = Parts(given.extension, given.store, built("disk", given.folder), given.fleet)
    load(given.extension)
    return NetworkRounds if given.network else Rounds


def main(argv=None, kind=None):
    parser = words()
    given = parser.parse_args(argv)
    if given.network:
        try:
            Network(1, 0).close()
        except NotAllowed as why:
            print(why)
            return SKIPPED
    kind = prepared(parser, given, kind)
    numbers = range(given.processes) if given.only is None else [given.only]
    print(f"seed {given.seed}: {len(numbers)} processes in {given.folder}", flush=True)
    game = Game(given)
    for it in (signal.SIGINT, signal.SIGTERM):
        signal.signal(it, game.interrupt)
    try:
        game.play(kind, numbers)
    finally:
        game.close()
    print(f"seed {given.seed}, {game.progress()}", flush=True)
    return game.status()


if __name__ == "__main__":
    sys.exit(main())
