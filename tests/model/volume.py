"""The engine's side of a volume as a small executable model: guards around nodes, engines, messages, promises.

A fact is a tuple: ("record", epoch, number, back, page, block_back), ("cut", epoch, lo, hi) or ("advance", epoch, point).
What a node stores is a frozenset of facts; `view` gives its complete epoch, complete point, linked records and commit point.
A page is the list of its records. A wrong implementation is a name of MUTANTS; the model then behaves like that implementation.
"""

import functools
import itertools

MUTANTS = {
    "truncates_at_the_complete_point": "lo is the complete point of the union and not its last commit point",
    "compares_fronts_without_a_union": "recovers from the node with the greatest front alone",
    "adopts_a_pending_truncation_by_epoch": "the pending truncation is the one of the greatest epoch, not generation",
    "ignores_a_pending_truncation": "proposes its own truncation where one is pending",
    "counts_unchanged": "an answer to a take counts as an acknowledgement",
    "counts_plain_fronts": "a front that was not asked under the generation counts",
    "fresh_node_answers_fenced": "a node that lost its files answers `fenced`",
    "repaired_node_counts": "a fresh node is a member as soon as gossip repaired it",
    "proposes_before_the_last_epoch_is_reported": "goes on to the next epoch when the pending one is accepted",
    "writes_before_the_truncation_is_chosen": "opens when it has proposed",
    "leaves_out_block_backlinks": "each block backlink is 0",
    "writes_page_0_first": "the record of page 0 begins the mini-transaction",
    "admits_a_node_that_is_behind": "`admit` ignores the front, and comes before the union is known at W nodes",
    "admits_any_birth": "`admit` ignores the birth",
    "admits_a_birth_learnt_late": "admits fresh nodes that answered after the first question",
    "overwrites_a_later_proposal": "`propose` of a lower epoch overwrites one of the same generation",
    "counts_an_old_acceptance": "an `accepted` of the former proposal counts",
    "advances_above_the_durable_point": "`advance` may pass what was reported durable",
    "asks_before_the_quorum_is_fenced": "asks each node as soon as it is fenced",
    "counts_an_answer_of_another_birth": "an answer of a node's other life counts",
    "creates_with_one_status_round": "Create asks for the status once",
    "admits_without_the_accepted_pair": "`admit` carries no accepted pair",
    "counts_a_front_of_an_older_epoch": "a front of an older epoch acknowledges a commit",
    "reader_counts_plain_fronts": "a reader counts fronts of any node",
    "skips_known_at_a_quorum": "proposes before the union is known at W nodes",
    "replaces_the_segment_of_a_member": "a member that is asked plainly for a new segment makes one, and stays a member",
}

# Deviations from the rules that break no promise by themselves, each with the rule that makes it harmless.
HARMLESS = {
    "fences_too_few": "fences N - W + 1 nodes: every later step waits for W nodes that the engine fenced or admitted",
    "executes_a_later_generation": "`as` and `propose` execute where the generation is above the node's, which stays: an engine names "
    "only births that it fenced or admitted, and such a birth is at the engine's generation or above",
}


class Violation(Exception):
    def __init__(self, promise, text):
        super().__init__(f"{promise}: {text}")
        self.promise = promise


# ---- what a set of facts means


def complete_epoch(cuts):
    """The last epoch up to which each one has a truncation."""
    return next(epoch for epoch in itertools.count() if epoch + 1 not in cuts)


class View:
    """Complete epoch k, linked records, complete point and commit point of a set of facts; in the view of epoch k where it is given."""

    def __init__(self, facts, k=None):
        self.cuts = {fact[1]: fact for fact in facts if fact[0] == "cut"}
        self.k = complete_epoch(self.cuts) if k is None else k
        records = [fact for fact in facts if fact[0] == "record"]
        self.greatest = max((record[2] for record in records), default=0)
        self.alive = [record for record in records if self.is_alive(record[1], record[2])]
        followers = {}
        for record in self.alive:
            followers.setdefault(record[3], []).append(record)
        linked, todo = {}, [0]
        while todo:
            for record in followers.get(todo.pop(), ()):
                if record[2] not in linked:
                    linked[record[2]] = record
                    todo.append(record[2])
        self.linked = [linked[number] for number in sorted(linked)]
        self.complete = max(linked, default=0)
        self.commit = max((record[2] for record in self.linked if record[4] == 0), default=0)

    def is_alive(self, epoch, number):
        if epoch > self.k or (epoch and number <= self.cuts[epoch][3]):
            return False
        return all(number <= self.cuts[later][2] for later in range(epoch + 1, self.k + 1))

    def pages(self, point):
        pages = {}
        for _, epoch, number, _, page, _ in self.linked:
            if number <= point:
                pages.setdefault(page, []).append((epoch, number))
        return pages


@functools.lru_cache(maxsize=100_000)
def view(facts, k=None):
    return View(facts, k)


def law_fault(records, cuts, advances):
    """The first law that the emitted facts break, or None. `cuts` has the chosen truncation of each epoch."""
    facts, top, keys = frozenset(records) | frozenset(cuts.values()), complete_epoch(cuts), {}
    for record in records:
        _, epoch, number, back, page, block_back = record
        if keys.setdefault((epoch, number), record) != record:
            return f"law 1: two records {epoch} {number}"
        if epoch > top or (epoch and number <= cuts[epoch][3]):
            return f"law 2: {record}"
        below = [other for other in view(facts, epoch).alive if other[2] < number]
        if back != max((other[2] for other in below), default=0):
            return f"law 3: {record}"
        if block_back != max((other[2] for other in below if other[4] == page), default=0):
            return f"law 4: {record}"
    for advance in advances:
        if any(cut[1] > advance[1] and cut[2] < advance[2] for cut in cuts.values()):
            return f"law 5: {advance}"
    return None


# ---- a node with its guard


class Node:
    def __init__(self, birth, is_member=False, generation=0):
        self.birth, self.is_member, self.generation = birth, is_member, generation
        self.accepted, self.facts = None, frozenset()

    def front(self):
        seen = view(self.facts)
        return seen.k, seen.complete


# ---- an engine


class Engine:
    """What one engine knows. Phases: create, fence, pull, known, propose, take, open, dead."""

    def __init__(self, number, generation, margin, phase="fence"):
        self.number, self.generation, self.margin, self.phase = number, generation, margin, phase
        self.births, self.pairs, self.fresh, self.pulls = {}, {}, {}, {}
        self.quorum, self.union, self.pending, self.cut = (), frozenset(), None, None
        self.lo = self.epoch = self.last = self.back = self.durable = 0
        self.known, self.accepts, self.reports, self.fronts, self.takes = set(), set(), set(), {}, {}
        self.blocks, self.commits, self.half, self.round = {}, [], None, 1
        self.sent = []  # the requests of the present phase, for nodes that are fenced or admitted later


# ---- the world: nodes, engines, messages, and what was promised


class World:
    def __init__(self, nodes=3, quorum=2, mutants=(), created=None):
        """`created` are the nodes that a first Create has admitted; all by default."""
        self.n, self.w, self.mutants = nodes, quorum, frozenset(mutants)
        members = range(nodes) if created is None else created
        self.nodes = [Node(i, i in members, 1 if i in members else 0) for i in range(nodes)]
        self.births, self.engines = nodes, []
        self.sent, self.late = {(i, ("admit", -1, 1, i, 0, 0, None)): None for i in range(nodes)}, {}
        self.records, self.advances, self.gossip = {}, {}, {}
        self.accepts, self.chosen, self.durables, self.claims = {}, {}, {}, set()
        self.writers, self.ends, self.reader = {}, {}, {}
        self.gone = False

    def broken(self, mutant):
        return mutant in self.mutants

    # -- promises

    def log_view(self, k):
        return view(frozenset(self.records) | frozenset(self.chosen.values()), k)

    def check(self):
        """The promises that are about the whole run so far."""
        if fault := law_fault(self.records, self.chosen, self.advances):
            raise Violation("sound", fault)
        for (point, epoch), pages in self.durables.items():
            for k in range(epoch, complete_epoch(self.chosen) + 1):
                if self.log_view(k).pages(point) != pages:
                    raise Violation("durable", f"pages at {point} of epoch {epoch} differ in view {k}")
            for node in self.nodes:
                seen = view(node.facts)
                if seen.k >= epoch and seen.complete >= point and seen.pages(point) != pages:
                    raise Violation("durable", f"pages at {point} differ at a node of epoch {seen.k}")
        text = "a reader took {point} of epoch {epoch} for durable, but chosen is {cut}"
        self.need_kept("readers", self.claims, self.chosen.values(), text)

    def need_kept(self, promise, points, cuts, text):
        """No truncation of a later epoch may be below one of these points, each with its epoch."""
        for (point, epoch), cut in itertools.product(points, cuts):
            if cut[1] > epoch and cut[2] < point:
                raise Violation(promise, text.format(point=point, epoch=epoch, cut=cut))

    def on_accepted(self, node, generation, cut):
        nodes = self.accepts.setdefault((generation, cut), set())
        nodes.add(node)
        if len(nodes) < self.w or self.chosen.get(cut[1]) == cut:
            return
        if cut[1] in self.chosen:
            raise Violation("one truncation", f"chosen {self.chosen[cut[1]]} and {cut}")
        self.chosen[cut[1]] = cut
        self.check_whole(cut)
        self.need_kept("durable", self.durables, [cut], "chosen {cut} below durable {point} of epoch {epoch}")
        for other in self.chosen.values():
            if (other[1] < cut[1] and other[2] > cut[2]) or (other[1] > cut[1] and other[2] < cut[2]):
                raise Violation("durable", f"lo falls from {other} to {cut}")
        advances = [(point, epoch) for _, epoch, point in self.advances]
        self.need_kept("sound", advances, [cut], "law 5: advance to {point} of epoch {epoch} above lo of {cut}")

    def check_whole(self, cut):
        """lo ends a mini-transaction, the last one that is alive at or below it."""
        alive = self.log_view(cut[1] - 1) if all(epoch in self.chosen for epoch in range(1, cut[1])) else None
        if cut[2] == 0 or alive is None:
            return
        ends = [end for (epoch, first), end in self.ends.items() if first <= cut[2] and epoch < cut[1] and alive.is_alive(epoch, first)]
        if max(ends, default=None) != cut[2]:
            raise Violation("whole", f"lo of {cut} is inside a mini-transaction")

    def on_durable(self, point, epoch):
        self.need_kept("durable", [(point, epoch)], self.chosen.values(), "durable {point} of epoch {epoch}, but chosen is {cut}")
        self.durables.setdefault((point, epoch), self.log_view(epoch).pages(point))

    def on_opened(self, engine):
        self.need_kept("durable", self.durables, [engine.cut], "opened with {cut}, below durable {point}")
        early = self.broken("writes_before_the_truncation_is_chosen")
        if engine.epoch in self.writers and not early:
            raise Violation("sound", f"two engines opened epoch {engine.epoch}")
        self.writers[engine.epoch] = engine.generation
        if not early:
            self.on_durable(engine.lo, engine.epoch)

    # -- nodes

    def gain(self, i, facts):
        node = self.nodes[i]
        for fact in facts - node.facts:
            if fact[0] == "cut" and self.chosen.get(fact[1]) != fact:
                raise Violation("one truncation", f"a node takes {fact}, which was never chosen")
        node.facts |= facts
        if self.broken("repaired_node_counts") and node.front()[1] > 0:
            node.is_member = True

    def serve(self, i, request):
        """Node i executes a request; its answer, or None."""
        node, kind = self.nodes[i], request[0]
        if kind == "status":
            return "status", node.birth, node.is_member, node.front() == (0, 0), request[2]
        if kind == "gossip":
            self.gain(i, request[2])
            return None
        if kind == "fence":
            return self.serve_fence(node, request[2])
        if kind == "admit":
            return self.serve_admit(node, *request[2:])
        return self.serve_as(i, node, *request)

    def serve_fence(self, node, generation):
        if not node.is_member and not self.broken("fresh_node_answers_fenced"):
            return "fresh", node.birth
        if generation <= node.generation:
            return "stale", node.generation
        node.generation = generation
        return "fenced", generation, node.birth, node.accepted

    def serve_admit(self, node, generation, birth, epoch, complete, accepted):
        if node.is_member:
            return ("member",)
        if birth != node.birth and not self.broken("admits_any_birth"):
            return "stranger", node.birth
        k, reached = node.front()
        if (k != epoch or reached < complete) and not self.broken("admits_a_node_that_is_behind"):
            return "behind", k, reached
        node.is_member, node.generation, node.accepted = True, generation, accepted
        return "admitted", generation, node.birth

    def serve_as(self, i, node, kind, _engine, generation, birth, *rest):
        """A request that the guard executes only under its own generation and birth."""
        if not node.is_member and not self.broken("fresh_node_answers_fenced"):
            return "fresh", node.birth
        later = generation > node.generation and self.broken("executes_a_later_generation")
        if generation != node.generation and not later:
            return "stale", node.generation
        if birth != node.birth and not self.broken("counts_an_answer_of_another_birth"):
            return "stale", node.generation
        if kind == "propose":
            return self.serve_propose(i, node, generation, rest[0])
        if kind == "pull":
            return "pulled", generation, node.birth, node.facts
        fact = None
        if kind == "push":
            self.gain(i, rest[0])
        elif kind == "take":
            fact = rest[0]
            self.gain(i, frozenset((fact,)))
        return "front", generation, node.birth, *node.front(), fact

    def serve_propose(self, i, node, generation, cut):
        pair = node.accepted
        if pair and pair[0] == generation and pair[1][1] > cut[1] and not self.broken("overwrites_a_later_proposal"):
            return "stale", node.generation
        node.accepted = generation, cut
        self.on_accepted(i, generation, cut)
        return "accepted", generation, node.birth, cut[1]

    # -- what an engine sends

    def send(self, i, request):
        self.sent[i, request] = None

    def send_all(self, *request):
        for i in range(self.n):
            self.send(i, request)

    def send_under(self, engine, i, kind, *rest):
        """Sends a request under the generation, to a node whose birth is known."""
        self.send(i, (kind, engine.number, engine.generation, engine.births[i], *rest))

    def send_fenced(self, engine, kind, *rest):
        """Sends such a request to every node whose birth is known, and later to those that become known."""
        engine.sent.append((kind, rest))
        for i in engine.births:
            self.send_under(engine, i, kind, *rest)

    def send_again(self, engine, i):
        for kind, rest in engine.sent:
            self.send_under(engine, i, kind, *rest)

    def learn_birth(self, engine, i, birth):
        engine.births[i] = birth
        self.send_again(engine, i)

    def start(self, generation, margin):
        """An engine opens the volume. `margin` says how far hi is above lo: "lo", "complete", "seen" or "more"."""
        self.engines.append(Engine(len(self.engines), generation, margin))
        self.send_all("fence", len(self.engines) - 1, generation)

    def create(self):
        self.engines.append(Engine(len(self.engines), 1, "lo", "create"))
        self.send_all("status", len(self.engines) - 1, 1)

    # -- what an engine hears

    def hear(self, number, i, answer):
        engine = self.engines[number]
        handler = getattr(self, f"hear_{answer[0]}", None)
        if handler and engine.phase != "dead":
            handler(engine, i, *answer[1:])

    def hear_status(self, engine, i, birth, is_member, is_empty, asked):
        if engine.phase != "create" or asked != engine.round:
            return
        if is_member or (asked == 1 and not is_empty) or (asked == 2 and engine.fresh[i] != birth):
            engine.phase = "dead"
            return
        engine.fresh[i] = birth
        engine.known.add(i)
        if len(engine.known) < self.n:
            return
        if asked == 1 and not self.broken("creates_with_one_status_round"):
            engine.round, engine.known = 2, set()
            return self.send_all("status", engine.number, 2)
        engine.phase = "dead"
        for node, fresh in engine.fresh.items():
            self.send(node, ("admit", engine.number, 1, fresh, 0, 0, None))

    def hear_fresh(self, engine, i, birth):
        if engine.phase == "fence" or (self.broken("admits_a_birth_learnt_late") and engine.phase in ("pull", "known")):
            engine.fresh[i] = birth
            if engine.phase == "fence":
                engine.births.pop(i, None)
        elif engine.phase == "pull" and i in engine.quorum:
            engine.phase = "dead"

    def hear_fenced(self, engine, i, generation, birth, accepted):
        if generation != engine.generation or engine.phase == "create":
            return
        if engine.phase != "fence":
            if i not in engine.quorum:
                self.learn_birth(engine, i, birth)
            return
        engine.births[i], engine.pairs[i] = birth, accepted
        engine.fresh.pop(i, None)
        if self.broken("asks_before_the_quorum_is_fenced"):
            self.send_under(engine, i, "pull")
        if len(engine.births) >= (self.n - self.w + 1 if self.broken("fences_too_few") else self.w):
            engine.quorum, engine.phase = tuple(sorted(engine.births)), "pull"
            self.pull_quorum(engine, i)
            self.unite_if_whole(engine)

    def pull_quorum(self, engine, _last):
        for i in engine.quorum:
            self.pull(engine, i)

    def pull(self, engine, i):
        self.send_under(engine, i, "pull")

    def hear_pulled(self, engine, i, generation, birth, facts):
        early = engine.phase == "fence" and self.broken("asks_before_the_quorum_is_fenced") and i in engine.births
        if generation != engine.generation or not (early or (engine.phase == "pull" and i in engine.quorum)):
            return
        if birth != engine.births[i] and not self.broken("counts_an_answer_of_another_birth"):
            return
        engine.pulls[i] = facts
        if engine.phase == "pull":
            self.unite_if_whole(engine)

    def unite_if_whole(self, engine):
        if not all(i in engine.pulls for i in engine.quorum):
            return
        if self.broken("compares_fronts_without_a_union"):
            best = max(engine.quorum, key=lambda i: (view(engine.pulls[i]).k, view(engine.pulls[i]).complete))
            engine.union |= engine.pulls[best]
        else:
            engine.union = engine.union.union(*(engine.pulls[i] for i in engine.quorum))
        self.make_known(engine)

    def greatest_pair(self, engine):
        by_epoch = self.broken("adopts_a_pending_truncation_by_epoch")
        pairs = [engine.pairs[i] for i in engine.quorum if engine.pairs[i]]
        return max(pairs, key=lambda pair: (pair[1][1], -pair[0]) if by_epoch else (pair[0], pair[1][1]), default=None)

    def make_known(self, engine):
        """Makes the union known at W nodes, with the pending truncation's lo or the last commit point."""
        seen, pair = view(engine.union), self.greatest_pair(engine)
        engine.pending = pair[1] if pair and pair[1][1] == seen.k + 1 and not self.broken("ignores_a_pending_truncation") else None
        whole = seen.complete if self.broken("truncates_at_the_complete_point") else seen.commit
        engine.lo = engine.pending[2] if engine.pending else whole
        engine.known, engine.phase, engine.sent = set(), "known", []
        if self.broken("admits_a_node_that_is_behind"):
            self.admit_fresh(engine)
        if self.broken("skips_known_at_a_quorum"):
            self.admit_fresh(engine)
            self.propose(engine)
        else:
            self.send_fenced(engine, "push", engine.union)

    def admit_fresh(self, engine):
        seen = view(engine.union)
        pair = None if self.broken("admits_without_the_accepted_pair") else self.greatest_pair(engine)
        for i, birth in engine.fresh.items():
            self.send(i, ("gossip", engine.number, engine.union))
            self.send(i, ("admit", engine.number, engine.generation, birth, seen.k, seen.complete, pair))
        engine.fresh = {}

    def hear_admitted(self, engine, i, generation, birth):
        if generation == engine.generation and engine.phase != "create" and i not in engine.quorum:
            self.learn_birth(engine, i, birth)

    def propose(self, engine):
        seen = view(engine.union)
        numbers = {"lo": 0, "complete": seen.complete, "seen": seen.greatest, "more": seen.greatest + 1}
        engine.cut = engine.pending or ("cut", seen.k + 1, engine.lo, max(engine.lo, numbers[engine.margin]))
        engine.accepts, engine.reports, engine.phase, engine.sent = set(), set(), "propose", []
        self.send_fenced(engine, "propose", engine.cut)
        if self.broken("writes_before_the_truncation_is_chosen") and not engine.pending:
            self.open(engine)

    def hear_accepted(self, engine, i, generation, birth, epoch):
        if engine.phase != "propose" or generation != engine.generation or birth != engine.births.get(i):
            return
        if epoch != engine.cut[1] and not self.broken("counts_an_old_acceptance"):
            return
        engine.accepts.add(i)
        if len(engine.accepts) < self.w:
            return
        if engine.pending and self.broken("proposes_before_the_last_epoch_is_reported"):
            engine.union |= {engine.cut}
            engine.pending, engine.lo = None, view(engine.union).commit
            self.propose(engine)
            return
        engine.phase, engine.sent = "take", []
        self.gossip[engine.cut] = None
        self.send_fenced(engine, "take", engine.cut)

    def hear_front(self, engine, i, generation, birth, k, complete, fact):
        plain = generation is None and self.broken("counts_plain_fronts")
        other = birth != engine.births.get(i) and not self.broken("counts_an_answer_of_another_birth")
        if not plain and (generation != engine.generation or other):
            return
        if engine.phase == "known":
            self.hear_known(engine, i, k, complete)
        elif engine.phase == "take" and k >= engine.cut[1]:
            engine.reports.add(i)
            if len(engine.reports) < self.w:
                return
            if engine.pending:
                engine.union |= {engine.cut}
                self.make_known(engine)
            else:
                self.open(engine)
        elif engine.phase == "open":
            self.hear_acknowledgement(engine, i, k, complete, fact)

    def hear_known(self, engine, i, k, complete):
        seen = view(engine.union)
        if k > seen.k and i in engine.quorum:
            engine.pulls.pop(i)
            engine.phase = "pull"
            self.pull(engine, i)
        elif k == seen.k and complete >= engine.lo:
            engine.known.add(i)
            if len(engine.known) >= self.w:
                self.admit_fresh(engine)
                self.propose(engine)

    def open(self, engine):
        engine.phase, engine.epoch, engine.half, engine.sent = "open", engine.cut[1], None, [("take", (engine.cut,))]
        engine.back, engine.last = engine.lo, engine.cut[3]
        engine.blocks = {page: records[-1][1] for page, records in view(engine.union).pages(engine.lo).items()}
        self.on_opened(engine)
        self.send_fenced(engine, "front")

    def hear_acknowledgement(self, engine, i, k, complete, fact):
        if self.broken("counts_unchanged"):
            if fact and fact[0] == "record":
                engine.takes.setdefault(fact[2], set()).add(i)
            done = [n for n, nodes in engine.takes.items() if n in engine.commits and len(nodes) >= self.w]
        elif k == engine.epoch or self.broken("counts_a_front_of_an_older_epoch"):
            engine.fronts[i] = max(complete, engine.fronts.get(i, 0))
            reached = sorted(engine.fronts.values(), reverse=True)[self.w - 1 : self.w]
            done = [n for n in engine.commits if reached and n <= reached[0]]
        else:
            return
        if done and max(done) > engine.durable:
            engine.durable = max(done)
            self.on_durable(engine.durable, engine.epoch)

    # -- an open engine writes

    def record(self, engine, page, gap):
        number = engine.last + 1 + gap
        block = 0 if self.broken("leaves_out_block_backlinks") else engine.blocks.get(page, 0)
        record = "record", engine.epoch, number, engine.back, page, block
        engine.last = engine.back = engine.blocks[page] = number
        if page == 0:
            engine.commits.append(number)
        if any(epoch not in self.chosen for epoch in range(1, engine.epoch + 1)):
            raise Violation("sound", f"law 2: {record} before its truncation was chosen")
        self.records[record] = self.gossip[record] = None
        self.send_fenced(engine, "take", record)
        return number

    def write(self, number, page, gap):
        """The first half of a mini-transaction, or its end: a record of a page, then one of page 0."""
        engine, first = self.engines[number], 0 if self.broken("writes_page_0_first") else page
        if engine.half is None:
            engine.half = self.record(engine, first, gap), page
            self.ends[engine.epoch, engine.half[0]] = engine.last + 1
        else:
            start, page = engine.half
            self.ends[engine.epoch, start] = engine.last + 1
            self.record(engine, page if first == 0 and self.broken("writes_page_0_first") else 0, 0)
            engine.half = None

    def advance(self, number, far):
        engine = self.engines[number]
        loose = self.broken("advances_above_the_durable_point")
        point = (engine.last if far else max(engine.commits, default=engine.lo)) if loose else max(engine.durable, engine.lo)
        if point:
            advance = "advance", engine.epoch, point
            self.advances[advance] = None
            self.send_fenced(engine, "take", advance)

    # -- a reader

    def read(self, i):
        node, seen = self.nodes[i], view(self.nodes[i].facts)
        if not self.broken("reader_counts_plain_fronts"):
            record = next((record for record in seen.linked if record[2] == seen.commit), None)
            if not node.is_member or record is None:
                return
            if record[1] < seen.k:  # at or below the truncation that began the epoch
                self.claims.add((seen.commit, seen.k))
            if record[1] < seen.k or self.writers[record[1]] < node.generation:
                return
        self.reader[i] = seen.k, seen.commit
        newest = max(k for k, _ in self.reader.values())
        points = sorted((point for k, point in self.reader.values() if k == newest), reverse=True)
        if len(points) >= self.w and points[self.w - 1]:
            self.claims.add((points[self.w - 1], newest))

    # -- moves of a schedule

    def do(self, move):
        """Makes one move. A move that does not fit the state does nothing."""
        kind, *rest = move
        if kind == "deliver":
            i, request, fate = rest
            if (i, request) not in self.sent:
                return
            answer = self.serve(i, request)
            if answer is None or request[1] < 0 or fate == "lost":
                return
            if fate == "late":
                self.late[request[1], i, answer] = None
            else:
                self.hear(request[1], i, answer)
        elif kind == "hear":
            if tuple(rest) in self.late:
                self.hear(*rest)
        elif kind in ("write", "advance"):
            if rest[0] < len(self.engines) and self.engines[rest[0]].phase == "open":
                getattr(self, kind)(*rest)
        elif kind == "wipe":
            had_members = any(node.is_member for node in self.nodes)
            self.nodes[rest[0]] = Node(self.births)
            self.births += 1
            self.gone = self.gone or (had_members and not any(node.is_member for node in self.nodes))
        elif kind == "open_plainly":
            node = self.nodes[rest[0]]
            if not node.is_member or self.broken("replaces_the_segment_of_a_member"):
                node.facts = frozenset()
        elif kind == "copy":
            self.gain(rest[0], self.nodes[rest[1]].facts)
        elif kind == "fact":
            if rest[1] in self.gossip:
                self.gain(rest[0], frozenset((rest[1],)))
        elif kind == "plain_front":
            if rest[0] < len(self.engines):
                node = self.nodes[rest[1]]
                self.hear(rest[0], rest[1], ("front", None, node.birth, *node.front(), None))
        else:
            {"start": self.start, "create": self.create, "read": self.read}[kind](*rest)
