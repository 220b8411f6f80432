"""Schedules over the machine's model: those of the volume model, some that the machine's choices need, and random ones."""

from .volume_machine import Machines
from .volume_schedules import OPTIONS, SCHEDULES, Doubled, Random, Schedule, cut_of


class MachineSchedule(Schedule):
    kind = Machines

    def give(self, engine, nodes, kind, *rest, **more):
        """Of a quorum, the nodes that are asked already for what they have come first. Another one is asked as its connection breaks."""
        if kind != "pull":
            return super().give(engine, nodes, kind, *rest, **more)
        for i in sorted(nodes, key=lambda i: not self.requests(engine, i, kind)):
            asker = self.world.engines[engine]
            if not self.requests(engine, i, kind) and asker.phase == "pull" and i in asker.quorum:
                self.do("fail", engine, i)
            super().give(engine, [i], kind, *rest, **more)


class DoubledMachineSchedule(Doubled, MachineSchedule):
    pass


class RandomMachines(Random):
    """Random schedules with broken connections, and nodes that discard or restart."""

    kind = Machines
    scripts = {3: MachineSchedule, 6: DoubledMachineSchedule}

    def blow(self):
        rng, world = self.rng, self.world
        if world.engines and rng.random() < 0.03:
            self.do("fail", rng.randrange(len(world.engines)), rng.randrange(world.n))
        elif rng.random() < 0.03:
            self.do(rng.choice(("discard", "restart")), rng.randrange(world.n))
        else:
            super().blow()


# ---- directed schedules


def creation(s):
    """A volume is created over fresh nodes, of which one answers twice and one is asked again, and an engine opens it."""
    s.do("create")
    for _ in range(2):
        s.give(0, [0, 0, 1], "status")
        s.do("fail", 0, 2)
        s.give(0, [2], "status")
    s.give(0, [0, 1, 2], "admit")
    s.give(0, [0], "admit")
    a = s.opened()
    s.transaction(a, [0, 1])


def creation_of_a_wiped_node(s):
    """A node loses its files between the two rounds of a creation."""
    s.do("create")
    s.give(0, [0, 1, 2], "status")
    s.do("wipe", 2)
    s.give(0, [0, 1, 2], "status")


def creation_over_facts(s):
    """A fresh node that gossip has brought facts is asked to begin another volume."""
    s.committed()
    s.gossip_all([2])
    s.do("create")
    s.give(1, [2], "status")


def two_truncations_of_one_epoch(s):
    """A's transaction is at node 2 alone. Node 0 accepted B's truncation, which annuls it, nodes 1 and 2 then C's, which keeps it."""
    a = s.opened()
    s.give(a, [2], "fence")
    s.give(a, [2], "take")
    s.transaction(a, [2])
    b = s.united(3, [0, 1])
    s.give(b, [0], "propose", "lost")
    c = s.united(4, [1, 2])
    s.give(c, [1, 2], "propose")
    s.opened(5, [0, 1])


def overlapping_numbers(s):
    """Node 2 has records of A's epoch under the numbers that B's own records have."""
    a = s.committed()
    s.give(a, [2], "fence")
    s.gossip_all([2])
    s.transaction(a, [2])
    b = s.opened(3, [0, 1])
    s.give(b, [2], "fence")
    s.transaction(b, [0])
    s.give(b, [2], "front")
    s.give(b, [1], "take")
    s.opened(4, [1, 2])


def read_points(s):
    """Nodes discard what readers are past; engines recover from the pages that are left."""
    a = s.committed()
    s.do("advance", a, False)
    s.give(a, [0, 1], "take")
    s.do("discard", 0)
    s.transaction(a, [0, 1])
    s.do("discard", 1)
    b = s.opened(3, [0, 1])
    s.give(b, [2], "fence")
    s.give(b, [2], "take")
    s.do("copy", 2, 0)
    s.do("discard", 2)
    s.do("wipe", 1)
    c = s.start(4)
    s.give(c, [1], "fence")
    s.known(c, [0, 2])
    s.readmit(c, 1)
    s.choose(c, [0, 1, 2])
    s.transaction(c, [1, 2])


def advance_before_the_records(s):
    """Node 2 takes the truncation and an advance, and no record: it may read nothing that it has reached."""
    a = s.opened()
    s.give(a, [2], "fence")
    s.transaction(a, [0, 1])
    s.do("advance", a, False)
    s.give(a, [2], "take", having=cut_of(1))
    s.give(a, [2], "take", having=lambda request: request[4][0] == "advance")


def restarted_nodes(s):
    """Nodes come back with their files between the steps of an opening, and after a commit."""
    a = s.committed()
    b = s.start(3)
    for kind in ("fence", "pull", "push", "propose", "take"):
        s.give(b, [0, 1], kind)
        for i in 0, 1, 2:
            s.do("restart", i)
    s.transaction(b, [0, 1])
    s.do("restart", 0)
    s.give(a, [0], "take")
    s.do("wipe", 1)
    s.do("copy", 1, 0)
    s.do("restart", 1)


def broken_connections(s):
    """Connections break in each phase, and what was asked comes again; an engine that finds no quorum stops, and one that is fenced."""
    a = s.start(2)
    s.do("fail", a, 2)
    s.give(a, [0, 1], "fence")
    for kind in ("pull", "push", "propose", "take"):
        for i in 0, 1, 2:
            s.do("fail", a, i)
        s.give(a, [0, 1], kind)
    s.do("write", a, 1, 0)
    s.do("write", a, 1, 0)
    s.do("fail", a, 0)
    s.give(a, [2], "fence")
    s.give(a, [0, 1, 2], "take")
    s.do("fail", a, 2)
    b = s.united(3, [1, 2])
    s.do("fail", b, 0)
    s.give(a, [1], "take")
    s.do("fail", a, 1)
    s.do("write", a, 1, 0)
    c = s.start(4)
    for i in 0, 1:
        s.do("fail", c, i)


OWN = (creation, creation_of_a_wiped_node, creation_over_facts, two_truncations_of_one_epoch, overlapping_numbers, read_points)
OWN += (advance_before_the_records, restarted_nodes, broken_connections)
DIRECTED = {**SCHEDULES, **{it.__name__: it for it in OWN}}
WORLDS = {
    **OPTIONS,
    "creation": {"created": ()},
    "creation_of_a_wiped_node": {"created": ()},
    "creation_over_facts": {"created": (0, 1)},
}

# The schedules in which a machine with this fault would differ, where that is not the model's own one.
SHOWN_BY = {
    "adopts_a_pending_truncation_by_epoch": "two_truncations_of_one_epoch",
    "counts_a_front_of_an_older_epoch": "overlapping_numbers",
}


def directed(name, nodes, mutants=()):
    """A directed schedule over three nodes or six."""
    schedule = RandomMachines.scripts[nodes](mutants=mutants, **WORLDS.get(name, {}))
    DIRECTED[name](schedule)
    return schedule
