"""Schedules of the volume model: a directed one for each wrong implementation, random ones, shrinking, and their text."""

import itertools
import time

from harness import shrunk

from .volume import Violation, World


class Schedule:
    """A world, and the moves that brought it where it is. After a violation it makes no further move."""

    kind = World

    def __init__(self, **world):
        self.options, self.world, self.moves, self.violation = world, self.kind(**world), [], None

    def do(self, *move):
        if self.violation is None and not self.world.gone:
            self.moves.append(move)
            try:
                self.world.do(move)
            except Violation as violation:
                self.violation = violation

    def start(self, generation, margin="lo"):
        self.do("start", generation, margin)
        return len(self.world.engines) - 1

    def requests(self, engine, i, kind):
        """The engine's requests of a kind to a node, the newest last."""
        return [request for node, request in self.world.sent if node == i and request[0] == kind and request[1] == engine]

    def give(self, engine, nodes, kind, fate="heard", having=lambda request: True):
        """Delivers the engine's newest fitting request to each node."""
        for i in nodes:
            if fitting := [request for request in self.requests(engine, i, kind) if having(request)]:
                self.do("deliver", i, fitting[-1], fate)

    def hear_late(self, engine, i):
        if answers := [late for late in self.world.late if late[:2] == (engine, i)]:
            self.do("hear", *answers[-1])

    def give_each(self, engine, nodes, *kinds):
        """Delivers the engine's newest request to each node, of one kind after the other."""
        for kind in kinds:
            self.give(engine, nodes, kind)

    def known(self, engine, nodes):
        self.give_each(engine, nodes, "fence", "pull", "push")

    def choose(self, engine, nodes):
        """Proposes and takes truncations until the volume is open."""
        for _ in range(3):
            if self.world.engines[engine].phase != "open":
                self.give_each(engine, nodes, "propose", "take", "push")

    def write_both(self, engine):
        """A record of page 1, and that of page 0 which ends the mini-transaction; the result is its number."""
        self.do("write", engine, 1, 0)
        self.do("write", engine, 1, 0)
        return self.world.engines[engine].last

    def transaction(self, engine, nodes):
        last = self.write_both(engine)
        for number in last - 1, last:
            self.give(engine, nodes, "take", having=record_of(number))

    def united(self, generation, nodes, margin="lo"):
        """A new engine that has made its union known at these nodes."""
        engine = self.start(generation, margin)
        self.known(engine, nodes)
        return engine

    def opened(self, generation=2, nodes=(0, 1), margin="lo"):
        """A new engine that has opened the volume over these nodes."""
        engine = self.united(generation, list(nodes), margin)
        self.choose(engine, list(nodes))
        return engine

    def committed(self, nodes=(0, 1)):
        """An engine of generation 2 that has opened the volume, and a transaction of it whose records reached these nodes."""
        engine = self.opened()
        self.transaction(engine, list(nodes))
        return engine

    def readmit(self, engine, i):
        self.give_each(engine, [i], "gossip", "admit")

    def gossip_all(self, nodes, count=None):
        for fact in list(self.world.gossip)[:count]:
            for i in nodes:
                self.do("fact", i, fact)

    def end(self):
        if self.violation is None and not self.world.gone:
            try:
                self.world.check()
            except Violation as violation:
                self.violation = violation
        return self.violation


def replay(moves, **world):
    """The violation that a schedule causes, or None."""
    run = Schedule(**world)
    for move in moves:
        run.do(*move)
    return run.end()


def cut_of(epoch):
    return lambda request: request[4][:2] == ("cut", epoch)


def record_of(number):
    return lambda request: request[4][0] == "record" and request[4][2] == number


def both(i):
    """The two nodes that replace one in a doubled schedule."""
    return 2 * i, 2 * i + 1


class Doubled(Schedule):
    """A schedule of three nodes over six: each of its nodes is two, and its quorums of two are quorums of four."""

    def __init__(self, **world):
        created = [j for i in world.pop("created", range(3)) for j in both(i)]
        super().__init__(**{**world, "nodes": 6, "quorum": 4, "created": created})

    def give(self, engine, nodes, kind, fate="heard", having=lambda request: True):
        """A list names nodes of the three, a tuple is a quorum of the six."""
        named = nodes if isinstance(nodes, tuple) else [j for i in nodes for j in both(i)]
        super().give(engine, named, kind, fate, having)

    def hear_late(self, engine, i):
        for j in both(i):
            super().hear_late(engine, j)

    def do(self, *move):
        kind, *rest = move
        if kind in ("wipe", "open_plainly", "read", "fact", "discard", "restart"):
            moves = [(kind, j, *rest[1:]) for j in both(rest[0])]
        elif kind in ("plain_front", "fail"):
            moves = [(kind, rest[0], j) for j in both(rest[1])]
        elif kind == "copy":
            moves = [(kind, *nodes) for nodes in zip(both(rest[0]), both(rest[1]))]
        elif kind == "deliver" and rest[1][1] < 0:
            moves = [(kind, j, (*rest[1][:3], j, *rest[1][4:]), rest[2]) for j in both(rest[0])]
        else:
            moves = [move]
        for each in moves:
            super().do(*each)


# ---- directed schedules


def torn_transaction(s):
    """Half a transaction reaches node 0; the next engine recovers from it."""
    a = s.opened()
    s.do("write", a, 1, 0)
    s.give(a, [0, 1], "take")
    b = s.opened(3, [0, 1])
    s.transaction(b, [0, 1])


def fronts_of_two_epochs(s):
    """Node 2 is ahead by epoch, and lacks records."""
    a = s.committed()
    s.give(a, [2], "fence")
    s.give(a, [2], "take", having=cut_of(1))
    b = s.united(3, [0, 1])
    s.give(b, [0, 1], "propose")
    s.give_each(b, [2], "fence", "take")
    s.opened(4, [1, 2])


def two_proposals(s):
    """Node 0 accepted one truncation, nodes 1 and 2 another of a greater generation."""
    a = s.united(2, [0, 1])
    s.give(a, [0], "propose", "lost")
    b = s.united(3, [1, 2], "more")
    s.give(b, [1, 2], "propose")
    s.opened(4, [0, 1])


def pending_ignored(s):
    a = s.united(2, [0, 1])
    s.give(a, [0, 1], "propose")
    s.opened(3, [0, 1], "more")


def repaired_by_gossip(s):
    s.committed()
    s.gossip_all([2], 2)
    s.do("wipe", 1)
    s.do("copy", 1, 2)
    s.opened(3, [1, 2])


def wiped_after_a_commit(s):
    s.committed()
    s.do("wipe", 1)
    s.opened(3, [1, 2])


def member_opened_plainly(s):
    """A node that reported a commit gets a new segment, and the next engine recovers from it."""
    s.committed()
    s.do("open_plainly", 1)
    s.opened(3, [1, 2])


def last_record_alone(s):
    """A commit's last record reaches two nodes, the record before it none."""
    a = s.opened()
    s.give(a, [0, 1], "take", having=record_of(s.write_both(a)))
    s.opened(3, [1, 2])


def plain_fronts_after_a_fence(s):
    """Gossip brings a dead engine's records to nodes that the next engine has already asked."""
    a = s.committed([])
    b = s.united(3, [0, 1])
    s.gossip_all([0, 1])
    for i in 0, 1:
        s.do("plain_front", a, i)
        s.do("read", i)
    s.choose(b, [0, 1])


def reported_late(s):
    """A pending truncation is finished by an engine that goes on before W nodes report it."""
    a = s.united(2, [0, 1])
    s.give(a, [0], "propose", "lost")
    b = s.united(3, [0, 1])
    s.give(b, [0, 1], "propose")
    s.give(b, [0, 1], "propose", "lost")
    s.opened(4, [1, 2], "more")


def commits(s):
    a = s.committed()
    s.transaction(a, [0, 1])
    s.opened(3, [1, 2])


def admitted_behind(s):
    s.committed()
    s.do("wipe", 0)
    b = s.start(3)
    s.give(b, [0, 1, 2], "fence")
    s.give(b, [1, 2], "pull")
    s.give(b, [0], "admit")
    s.opened(4, [0, 2])


def old_admit(s):
    """Create's admit reaches a node that lost its files."""
    s.committed()
    s.do("wipe", 1)
    s.do("deliver", 1, ("admit", -1, 1, 1, 0, 0, None), "lost")
    s.opened(3, [1, 2])


def birth_learnt_late(s):
    """A stale engine admits a node that lost its files after a newer engine had fenced it."""
    a = s.start(2)
    s.give_each(a, [1, 2], "fence", "pull")
    s.give(a, [1], "push")
    s.give(a, [2], "push", "late")
    b = s.start(3, "more")
    s.give_each(b, [0, 2], "fence", "pull")
    s.do("wipe", 0)
    s.give(a, [0], "fence")
    s.hear_late(a, 2)
    s.readmit(a, 0)
    s.give(a, [0], "fence")
    s.give(a, [0, 1], "propose")
    s.give(b, [1], "fence")
    s.give_each(b, [1, 2], "push", "propose")


def old_proposal_again(s):
    """The proposal of an earlier epoch of the same generation is delivered once more."""
    a = s.united(2, [0, 1])
    s.give(a, [0], "propose", "lost")
    b = s.united(3, [0, 1])
    s.give_each(b, [0, 1], "propose", "take", "push")
    s.give(b, [0, 1], "propose", "lost", cut_of(2))
    s.give(b, [0, 1], "propose", "lost", cut_of(1))
    s.opened(4, [0, 1], "more")


def old_acceptance(s):
    """The acceptance of the pending truncation comes after the engine proposed the next one."""
    a = s.united(2, [0, 1])
    s.give(a, [0], "propose", "lost")
    b = s.united(3, [0, 1])
    s.give(b, [2], "fence")
    s.give(b, [0, 2], "propose", "late")
    s.give_each(b, [0, 1], "propose", "take", "push")
    s.hear_late(b, 0)
    s.hear_late(b, 2)
    s.opened(4, [1, 2], "more")
    s.give(b, [0], "propose", "lost", cut_of(2))
    s.give(b, [0, 1, 2], "take", "lost", cut_of(2))


def advance_ahead(s):
    a = s.committed([])
    s.do("advance", a, True)
    s.opened(3, [0, 1])


def asked_one_by_one(s):
    """Each node is asked for its facts as soon as it is fenced."""
    a = s.start(3)
    s.give_each(a, [0], "fence", "pull")
    s.do("wipe", 0)
    c = s.start(2, "more")
    s.give(c, [0], "fence")
    s.known(c, [1, 2])
    s.readmit(c, 0)
    s.give(c, [0, 2], "propose")
    s.give_each(a, [1], "fence", "pull")
    s.give(a, [2], "fence")
    s.give_each(a, [1, 2], "push", "propose")


def pulled_from_another_life(s):
    """A node answers the question of step 2 in another life than the fence."""
    a = s.start(3)
    s.give(a, [0], "fence")
    s.do("wipe", 0)
    c = s.start(2)
    s.give(c, [0], "fence")
    s.known(c, [1, 2])
    s.readmit(c, 0)
    s.give(a, [1], "fence")
    b = s.start(3, "more")
    s.give(b, [0, 2], "fence")
    for engine in a, b:
        s.give_each(engine, s.world.engines[engine].quorum, "pull", "push", "propose")


def second_create(s):
    """A second Create hears of nodes that were fresh at different times."""
    a = len(s.world.engines)
    s.do("create")
    s.give(a, [2], "status")
    s.do("deliver", 2, ("admit", -1, 1, 2, 0, 0, None), "lost")
    b = s.opened(2, [0, 1, 2])
    s.transaction(b, [0, 1, 2])
    for i in 0, 1:
        s.do("wipe", i)
        s.give(a, [i], "status")
    s.give(a, [0, 1], "admit")
    s.opened(3, [0, 1])


def pair_lost_by_an_admission(s):
    a = s.united(2, [0, 1])
    s.give(a, [0, 1], "propose")
    s.do("wipe", 0)
    b = s.start(3)
    s.give(b, [0], "fence")
    s.known(b, [1, 2])
    s.readmit(b, 0)
    s.opened(4, [0, 2], "more")


def front_of_an_older_epoch(s):
    """hi equals lo, so the numbers of two epochs overlap."""
    a = s.committed()
    s.give(a, [2], "fence")
    for number in 1, 2:
        s.give(a, [2], "take", having=record_of(number))
    s.give(a, [2], "take", having=cut_of(1))
    s.transaction(a, [2])
    b = s.opened(3, [0, 1])
    s.give(b, [2], "fence")
    s.transaction(b, [0])
    s.give(b, [2], "front")
    s.opened(4, [1, 2])


def not_known_at_a_quorum(s):
    """A truncation keeps a commit that only one living node has."""
    a = s.opened()
    s.transaction(a, [0])
    b = s.start(3)
    s.give_each(b, [0, 1], "fence", "pull")
    s.choose(b, [0, 1])
    s.do("wipe", 0)
    c = s.start(4)
    s.give(c, [0], "fence")
    s.known(c, [1, 2])
    s.choose(c, [1, 2])


SCHEDULES = {
    "truncates_at_the_complete_point": torn_transaction,
    "compares_fronts_without_a_union": fronts_of_two_epochs,
    "adopts_a_pending_truncation_by_epoch": two_proposals,
    "ignores_a_pending_truncation": pending_ignored,
    "counts_unchanged": last_record_alone,
    "counts_plain_fronts": plain_fronts_after_a_fence,
    "fresh_node_answers_fenced": wiped_after_a_commit,
    "repaired_node_counts": repaired_by_gossip,
    "proposes_before_the_last_epoch_is_reported": reported_late,
    "writes_before_the_truncation_is_chosen": torn_transaction,
    "leaves_out_block_backlinks": commits,
    "writes_page_0_first": torn_transaction,
    "admits_a_node_that_is_behind": admitted_behind,
    "admits_any_birth": old_admit,
    "admits_a_birth_learnt_late": birth_learnt_late,
    "overwrites_a_later_proposal": old_proposal_again,
    "counts_an_old_acceptance": old_acceptance,
    "advances_above_the_durable_point": advance_ahead,
    "asks_before_the_quorum_is_fenced": asked_one_by_one,
    "counts_an_answer_of_another_birth": pulled_from_another_life,
    "creates_with_one_status_round": second_create,
    "admits_without_the_accepted_pair": pair_lost_by_an_admission,
    "counts_a_front_of_an_older_epoch": front_of_an_older_epoch,
    "reader_counts_plain_fronts": plain_fronts_after_a_fence,
    "skips_known_at_a_quorum": not_known_at_a_quorum,
    "replaces_the_segment_of_a_member": member_opened_plainly,
}
OPTIONS = {"creates_with_one_status_round": {"created": (0, 1)}}


def directed(name, mutants=()):
    """The directed schedule of this name over three nodes, with these wrong implementations."""
    schedule = Schedule(mutants=mutants, **OPTIONS.get(name, {}))
    SCHEDULES[name](schedule)
    return schedule


# ---- random schedules


class Random(Schedule):
    """Blows of a random schedule: an engine's next requests to a node or a quorum, old messages, lost nodes, gossip, reads."""

    scripts = {3: Schedule, 6: Doubled}  # what runs a directed schedule over so many nodes

    def __init__(self, rng, **world):
        super().__init__(**world)
        self.rng, self.quorums = rng, {}
        self.engines_left, self.wipes_left, self.writes_left = rng.randint(2, 5), rng.choice((0, 1, 1, 2, 2, 3)), rng.choice((2, 4, 6, 9))
        self.odds = {
            "wipe": rng.choice((0, 0.03, 0.08)),
            "gossip": rng.choice((0, 0.02, 0.08)),
            "start": rng.choice((0.03, 0.08, 0.15)),
            "old": rng.choice((0, 0.03, 0.1)),
            "skip": rng.choice((0, 0.02, 0.06)),
        }

    def fate(self):
        return self.rng.choices(("heard", "lost", "late"), (0.92, 0.04, 0.04))[0]

    def begin(self):
        """Often a directed schedule with moves left out and put in, so that the rest of the run starts from a tense state."""
        fitting = [schedule for name, schedule in SCHEDULES.items() if name not in OPTIONS]
        if self.world.n not in self.scripts or self.rng.random() < 0.4:
            return
        script = self.scripts[self.world.n](**self.options)
        self.rng.choice(fitting)(script)
        for move in script.moves[: self.rng.choice((999, self.rng.randint(5, 40)))]:
            if self.rng.random() >= self.odds["skip"]:
                self.do(*move)
            if self.rng.random() < self.odds["skip"]:
                self.blow()

    def start_engine(self):
        self.engines_left -= 1
        if self.rng.random() < 0.05:
            self.do("create")
            return
        generations = [engine.generation for engine in self.world.engines] or [1]
        newest = max(generations + [node.generation for node in self.world.nodes]) + 1
        generation = self.rng.choices((newest, self.rng.choice(generations), self.rng.randint(2, newest)), (0.7, 0.2, 0.1))[0]
        self.do("start", generation, self.rng.choice(("lo", "complete", "seen", "more")))

    def blow(self):
        rng, world = self.rng, self.world
        if not world.engines or (self.engines_left and rng.random() < self.odds["start"]):
            self.start_engine()
        elif self.wipes_left and rng.random() < self.odds["wipe"]:
            self.wipes_left -= 1
            self.do("wipe", rng.randrange(world.n))
        elif rng.random() < self.odds["gossip"]:
            if world.gossip and rng.random() < 0.5:
                self.do("fact", rng.randrange(world.n), rng.choice(list(world.gossip)[-8:]))
            elif rng.random() < 0.1:
                self.do("open_plainly", rng.randrange(world.n))
            else:
                self.do("copy", rng.randrange(world.n), rng.randrange(world.n))
        elif rng.random() < self.odds["old"]:
            node, request = rng.choice(list(world.sent)[-60:] if rng.random() < 0.5 else list(world.sent))
            self.do("deliver", node, request, self.fate())
        elif rng.random() < 0.05:
            kind = rng.choice(("read", "read", "plain_front"))
            for i in rng.sample(range(world.n), world.w):
                self.do(*(("read", i) if kind == "read" else (kind, rng.randrange(len(world.engines)), i)))
        elif world.late and rng.random() < 0.1:
            self.do("hear", *rng.choice(list(world.late)))
        else:
            self.serve_engine(rng.choice((world.engines[-1], rng.choice(world.engines))))

    def nodes_for(self, engine):
        """Mostly a quorum that the engine keeps, else one node or any number."""
        size = self.rng.choices((self.world.w, 1, self.rng.randint(1, self.world.n)), (0.6, 0.2, 0.2))[0]
        nodes = self.rng.sample(range(self.world.n), size)
        return self.quorums.setdefault(engine.number, nodes) if size == self.world.w and self.rng.random() < 0.75 else nodes

    def serve_engine(self, engine):
        rng, nodes = self.rng, self.nodes_for(engine)
        if rng.random() < 0.15:
            self.deliver(engine, "fence", nodes[:1])
        elif rng.random() < 0.15:
            self.readmit(engine.number, nodes[0])
        elif engine.phase == "open":
            self.use(engine, nodes)
        else:
            kinds = {"create": "status", "fence": "fence", "pull": "pull", "known": "push", "propose": "propose", "take": "take", "dead": "admit"}
            self.deliver(engine, kinds[engine.phase], engine.quorum or nodes if engine.phase == "pull" else nodes)

    def deliver(self, engine, kind, nodes):
        for i in nodes:
            self.give(engine.number, [i], kind, self.fate())

    def use(self, engine, nodes):
        """An open engine writes, advances, or asks for fronts."""
        rng = self.rng
        if self.writes_left and rng.random() < 0.6:
            self.writes_left -= 1
            self.do("write", engine.number, rng.choice((1, 1, 2)), rng.choice((0, 0, 0, 1)))
            if rng.random() < 0.7:
                self.deliver(engine, "take", nodes)
            if rng.random() < 0.8:
                self.do("write", engine.number, 1, 0)
                self.deliver(engine, "take", nodes)
        elif rng.random() < 0.1:
            self.do("advance", engine.number, rng.random() < 0.3)
        elif rng.random() < 0.4:
            requests = self.requests(engine.number, nodes[0], "take")
            if requests:
                self.do("deliver", nodes[0], rng.choice(requests), self.fate())
        else:
            self.deliver(engine, "front", nodes)

    def run(self, blows):
        self.begin()
        for _ in range(blows):
            if self.violation or self.world.gone:
                break
            self.blow()
        return self.end()


def explore(rng, seconds, promise=None, **world):
    """Random schedules for a time: how many schedules and moves, and the first that broke a promise, or None."""
    end, schedules, moves = time.monotonic() + seconds, 0, 0
    while time.monotonic() < end:
        run = Random(rng, **world)
        violation = run.run(rng.choice((30, 60, 100, 150)))
        schedules, moves = schedules + 1, moves + len(run.moves)
        if violation and promise in (None, violation.promise):
            return schedules, moves, run
    return schedules, moves, None


def shrink(run):
    """The moves of a schedule that broke a promise, without such as this needs not."""

    def breaks_it(moves):
        violation = replay(moves, **run.options)
        return violation and violation.promise == run.violation.promise

    return shrunk(run.moves, breaks_it)


def show(moves, **world):
    """A schedule as text, with what changes at the engines; `moves_of` reads it again."""
    run, lines = World(**world), []
    for number, move in enumerate(moves, 1):
        before = [(engine.phase, engine.durable) for engine in run.engines]
        note = ""
        try:
            run.do(move)
        except Violation as violation:
            note = f"   ** {violation}"
        for engine, old in itertools.zip_longest(run.engines, before, fillvalue=(None, 0)):
            if engine.phase != old[0]:
                note += f"   [engine {engine.number}: {engine.phase} lo {engine.lo} {engine.cut or ''}]"
            if engine.durable != old[1]:
                note += f"   [engine {engine.number}: durable {engine.durable} of epoch {engine.epoch}]"
        lines.append(f"{move!r},  # {number}{note}")
    return "\n".join([*lines, f"# ends with: {replay(moves, **world)}"])


def moves_of(text):
    """The moves of a schedule that `show` printed."""
    return eval(f"[{text}\n]", {"__builtins__": {}, "frozenset": frozenset})
