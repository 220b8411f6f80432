"""Crash rounds over TCP between network namespaces: packets are late, overtake each other and get lost, and servers and engines are cut off.

python3 -m harness.sqlite_network EXTENSION STORE DISK FOLDER SEED SECONDS [FLEET] ends with status 77 and says why, where this machine has no
such network.
"""

import sys
import time

from harness.network import Network, NotAllowed
from harness.sqlite_cluster import NODES, Cluster
from harness.sqlite_crashes import Child
from harness.sqlite_rounds import Rounds, run, work

PORT, ENGINE, SKIPPED = 7001, NODES, 77


class Apart(Cluster):
    """Servers of which each is in a namespace of its own."""

    def __init__(self, network, *words, **more):
        self.network = network
        super().__init__(*words, **more)

    def place(self, number):
        return f"{self.network.address(number)}:{PORT}"

    def words(self, number):
        return "--listen", self.place(number)

    def program(self, program, number):
        made = self.folder / f"enter{number}"
        made.write_text(f'#!/bin/sh\nexec ip netns exec {self.network.names[number]} {program} "$@"\n')
        made.chmod(0o755)
        return made

    def heal(self):
        super().heal()
        self.network.set(cut=[False] * (NODES + 1), loss=[0.0] * (NODES + 1), delay=[0.5] * (NODES + 1))


def inside(pipe, network, function, *words):
    """Runs what an engine does, in its namespace."""
    network.enter(ENGINE)
    function(pipe, *words)


class NetworkRounds(Rounds):
    lasting = ("cut", "lossy", "kill")

    def servers(self, store, folder, disk, words):
        self.network = Network(NODES + 1, self.seed)
        return Apart(self.network, store, folder, disk, words=words)

    def child(self, function, *words):
        return Child(inside, self.network, function, *words)

    def disturb(self, choose):
        """Something that happens to the links of all, and more to at most two servers."""
        kind, victims = choose.choice(["nothing", "cut", "cut", "lossy", "kill"]), choose.sample(range(NODES), choose.choice([1, 2]))
        loss = [choose.choice([0.0, 0.0, 0.01, 0.05]) for _ in range(NODES + 1)]
        for number in victims if kind == "lossy" else ():
            loss[number] = choose.uniform(0.2, 0.6)
        if kind == "kill":
            self.cluster.kill(*victims)
        delay = [choose.choice([0.1, 1.0, 5.0, 20.0]) for _ in range(NODES + 1)]
        self.network.set(loss=loss, delay=delay, cut=[kind == "cut" and number in victims for number in range(NODES)] + [False])
        return kind, victims

    def run_and_kill(self, choose, mode):
        """The engine is killed at some time, perhaps after it is cut off from all servers."""
        child = self.child(work, self.folder / "volume", self.seed, mode)
        time.sleep(choose.randrange(200, 2000) / 1000)
        is_cut_off, before = choose.random() < 0.5, self.network.links.cut
        if is_cut_off:
            self.network.set(cut=[*before[:ENGINE], True])
            time.sleep(choose.choice([0, 0.01, 0.1, 1]))
        child.kill()
        said = child.said()
        self.network.set(cut=before)
        how = "cut off" if is_cut_off else "time"
        return how, [it for it in said if isinstance(it, int)], [it for it in said if isinstance(it, str)]

    def close(self):
        super().close()
        self.network.close()


def main(extension, store, disk, folder, seed, seconds, fleet=None):
    try:
        Network(1, 0).close()
    except NotAllowed as why:
        print(why)
        return SKIPPED
    counts, wrong = run(extension, store, disk, folder, int(seed), float(seconds), fleet, NetworkRounds)
    print(f"seed {seed}: {counts}", wrong)
    return bool(wrong)


if __name__ == "__main__":
    sys.exit(main(*sys.argv[1:]))
