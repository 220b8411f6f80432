#!/usr/bin/env python3
"""Three storage nodes, one process of `fleet-node` each, behind a network that loses, repeats, delays and reorders what it carries.

A database writes redo records, truncates them once, and lets its readers advance. One node is killed and comes back from the files
that this program keeps for it: its last snapshot and what it has taken since. Another one loses its files as well, and comes back
empty: what it lacks is too large for one answer, so it stages the pieces of a peer's snapshot, and unites them with what it has taken
meanwhile. In the end all three send the same summary, byte for byte, and each page that may be read is that of a plain replay.

    examples/cluster.py                      with ./fleet-node, which is built where it is not there
    examples/cluster.py --program PROGRAM    with another program that answers the same lines
    examples/cluster.py --seed N             another run; the same seed gives the same run
"""

import argparse
import itertools
import pathlib
import random
import subprocess
import sys
import tempfile

from client import Client, advance, record, truncation

ROOT = pathlib.Path(__file__).resolve().parent.parent
PAGES = 6
NODES = 3
PAGE_LEN = 4096
MOST = 2 * PAGE_LEN  # bytes of an answer that the network carries
PATIENCE = 30  # moments until a node looks again whether all pieces have come


class Database:
    """Writes a sound log, and replays it plainly."""

    def __init__(self, choose):
        self.choose, self.epoch, self.number = choose, 0, 0
        self.alive = []  # (number, page, offset, data), rising by number

    def write(self):
        """A record of a few bytes, linked to the last alive one and to the last alive one of its page."""
        choose = self.choose
        self.number += choose.randrange(1, 4)
        page, offset, data = choose.randrange(PAGES), choose.randrange(64), choose.randbytes(choose.randrange(1, 9))
        back = self.alive[-1][0] if self.alive else 0
        block_back = next((it[0] for it in reversed(self.alive) if it[1] == page), 0)
        self.alive.append((self.number, page, offset, data))
        return record(self.epoch, self.number, back, page, block_back, offset, data)

    def truncate(self, count):
        """Annuls the last so many records: the database has crashed, and begins its next epoch after what it keeps."""
        del self.alive[-count:]
        self.epoch += 1
        lo, self.number = self.alive[-1][0], self.number + 10
        return truncation(self.epoch, lo, self.number)

    def advance(self):
        """No reader needs anything below the first half of what is written."""
        return advance(self.epoch, self.alive[len(self.alive) // 2][0])

    def page(self, page, point):
        image = bytearray(PAGE_LEN)
        for number, written, offset, data in self.alive:
            if written == page and number <= point:
                image[offset : offset + len(data)] = data
        return image.hex()


# A node, and what its owner keeps for it


class Node(Client):
    """A process, and the files from which it comes back: the request lines of its last snapshot, and those taken since."""

    def __init__(self, program, folder, name):
        self.name, self.snapshot, self.tail = name, folder / f"{name}.snapshot", folder / f"{name}.tail"
        super().__init__(program)

    def start(self):
        self.staging = None  # the name of the snapshot whose pieces it stages
        super().start()

    def take(self, *words):
        """A request that changes the node is written down before it is answered to anybody."""
        with open(self.tail, "a") as tail:
            print(*words, file=tail)
        return self.ask(*words)

    def checkpoint(self, name):
        """A snapshot takes the place of the older one and of the tail; how many pieces it has."""
        pieces = self.freeze(name)
        lines = [f"stage {name} {len(pieces)}", *(f"add {it}" for it in pieces), "finish"]
        fresh = self.snapshot.with_suffix(".new")
        fresh.write_text("".join(f"{it}\n" for it in lines))
        fresh.replace(self.snapshot)
        self.tail.unlink(missing_ok=True)
        return len(pieces)

    def restart(self):
        """Starts a new process and sends it all that is kept of the old one; returns the number of lines."""
        self.start()
        lines = [line for file in (self.snapshot, self.tail) if file.exists() for line in file.read_text().splitlines()]
        for line in lines:
            self.ask(line)
        return len(lines)

    def lose_files(self):
        for file in (self.snapshot, self.tail):
            file.unlink(missing_ok=True)

    def front(self):
        return tuple(map(int, self.ask("front")[1:]))


class Network:
    """Carries what is handed to it at some later moment, or never, or twice."""

    def __init__(self, choose):
        self.choose, self.carried, self.lost, self.repeated = choose, [], 0, 0

    def send(self, moment, deliver):
        if self.choose.random() < 0.2:
            self.lost += 1
            return
        copies = 2 if self.choose.random() < 0.2 else 1
        self.repeated += copies - 1
        self.carried += [(moment + self.choose.randrange(1, 40), deliver) for _ in range(copies)]

    def wake(self, moment, act):
        """What a node means to do later is sent over no network."""
        self.carried.append((moment, act))

    def deliver(self, moment):
        due = [it for it in self.carried if it[0] <= moment]
        self.carried = [it for it in self.carried if it[0] > moment]
        self.choose.shuffle(due)
        for _, deliver in due:
            deliver()


class Cluster:
    def __init__(self, program, folder, seed):
        self.choose = random.Random(seed)
        self.database = Database(self.choose)
        self.network = Network(self.choose)
        self.nodes = [Node(program, folder, f"node {number + 1}") for number in range(NODES)]
        self.moment = 0
        self.names = itertools.count(1)  # of snapshots: each of the cluster has its own
        self.counts = {"absorbed": 0, "uncovered": 0, "large": 0, "united": 0}

    def write(self, fact):
        """A fact is written where at least two of the three nodes have it, however often it has to be sent; one may miss it."""
        homes = self.choose.sample(self.nodes, self.choose.choice([2, 2, 3]))
        for node in homes:
            node.take("take", fact)
        for node in self.nodes:
            self.network.send(self.moment, lambda node=node: node.take("take", fact))

    def gossip(self):
        """A node asks another one what it lacks. The answer comes late, twice or never, and perhaps when it is of no use. Where it would
        be too large, the pieces of a snapshot come in its place."""
        asking, asked = self.choose.sample(self.nodes, 2)
        summary = asking.ask("ask")[1]

        def answered():
            word, *delta = asked.ask("answer", summary, MOST)
            if word == "large":
                self.counts[word] += 1
                self.hydrate(asking, asked)
            else:
                self.network.send(self.moment, lambda: absorbed(*delta))

        def absorbed(delta):
            outcome = asking.take("absorb", summary, delta)[0]
            self.counts[outcome] += 1

        self.network.send(self.moment, answered)

    def hydrate(self, node, peer):
        """Brings a node what a peer has, by the pieces of a snapshot. What the node takes meanwhile stays."""
        if node.staging is not None:
            return
        name = node.staging = next(self.names)
        pieces = peer.freeze(name)
        node.take("stage", name, len(pieces))

        def send(piece):
            self.network.send(self.moment, lambda: node.take("add", piece))

        def unite():
            if node.staging != name:
                return
            word, *index = node.take("unite")
            if word == "missing":
                send(pieces[int(index[0])])
                self.network.wake(self.moment + PATIENCE, unite)
            else:
                self.counts[word] += 1
                node.staging = None

        for piece in pieces:
            send(piece)
        self.network.wake(self.moment + PATIENCE, unite)

    def tend(self):
        """Work that changes no answer: a page is folded, and what is folded is dropped."""
        node = self.choose.choice(self.nodes)
        node.take("fold", self.choose.randrange(PAGES))
        node.take("discard")

    def tick(self):
        self.moment += 1
        self.network.deliver(self.moment)
        if self.choose.random() < 0.3:
            self.gossip()
        if self.choose.random() < 0.2:
            self.tend()

    def run(self, moments, fact):
        for _ in range(moments):
            self.write(fact())
            self.tick()
            if self.choose.random() < 0.05:
                self.write(self.database.advance())

    def settle(self):
        """Gossip until all summaries are the same; how many moments that took."""
        begun = self.moment
        while len({tuple(node.ask("ask")) for node in self.nodes}) > 1:
            self.tick()
            if self.moment > begun + 5000:
                sys.exit("the nodes do not come together")
        return self.moment - begun

    def told(self, text):
        fronts = "   ".join("front {} {} {}".format(*node.front()) for node in self.nodes)
        print(f"{self.moment:5}  {text:<58} {fronts}", flush=True)


def is_right(cluster):
    """Whether each node answers each page, at every point that may be read, as a plain replay does; how many reads that were."""
    reads = 0
    for node in cluster.nodes:
        _, complete, least = node.front()
        points = {complete, least, *(it[0] for it in cluster.database.alive if least <= it[0] <= complete)}
        for page in range(PAGES):
            for point in points:
                reads += 1
                if node.ask("read", page, point, 0, PAGE_LEN) != ["page", cluster.database.page(page, point)]:
                    print(f"{node.name} answers page {page} at {point} otherwise")
                    return False, reads
    return True, reads


def show(cluster):
    database, (first, second, third) = cluster.database, cluster.nodes
    print("moment what happens" + " " * 46 + "epoch, complete point and minimum read point of each node")
    cluster.run(120, database.write)
    cluster.told("120 records are written, each to two nodes or three")
    cluster.told(f"{first.name}: a snapshot of {first.checkpoint(next(cluster.names))} pieces is kept")
    cluster.run(60, database.write)
    first.kill()
    came = first.restart()
    cluster.told(f"{first.name} was killed; {came} lines bring it back")
    cluster.write(database.truncate(7))
    cluster.told("the database crashed: 7 records are annulled")
    cluster.run(60, database.write)
    third.kill()
    third.lose_files()
    third.restart()
    cluster.told(f"{third.name} lost all that it had")
    cluster.run(60, database.write)
    cluster.told("60 records more are written")
    cluster.told(f"{cluster.settle()} moments later all summaries are the same")
    right, reads = is_right(cluster)
    network, counts = cluster.network, cluster.counts
    print(f"lost {network.lost}, repeated {network.repeated}; absorbed {counts['absorbed']} answers, {counts['uncovered']} came too late")
    print(f"{counts['large']} answers were too large; {counts['united']} snapshots were united")
    print(f"{reads} reads are {'those of a plain replay' if right else 'NOT those of a plain replay'}")
    return right and all(node.close() == 0 for node in (first, second, third))


def main():
    parser = argparse.ArgumentParser(description=__doc__, formatter_class=argparse.RawDescriptionHelpFormatter)
    parser.add_argument("--program", default=str(ROOT / "fleet-node"), help="what answers request lines")
    parser.add_argument("--seed", type=int, default=1, help="which run")
    given = parser.parse_args()
    if subprocess.run([given.program, "--version"], stdout=subprocess.DEVNULL).returncode != 0:
        sys.exit(f"{given.program} does not run")
    with tempfile.TemporaryDirectory() as folder:
        sys.exit(0 if show(Cluster([given.program], pathlib.Path(folder), given.seed)) else 1)


if __name__ == "__main__":
    main()
