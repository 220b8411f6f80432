"""The rules of `crates/volume_theorems` as checks of an execution of the volume model.

`Traced` is a world that writes down what the theorems speak of: the nodes at each moment, the move that leads from one moment to the next,
and what each engine decided, with the moments of the answers that it had heard by then. `faults` lists where that breaks a rule.
"""

import contextlib
import functools
from typing import NamedTuple

from .volume import Violation, World, view


class Content(NamedTuple):
    """The complete epoch, the commit points at or below the complete point with 0, and the truncations."""

    epoch: int
    points: frozenset
    cuts: frozenset


class Node(NamedTuple):
    birth: int
    is_member: bool
    generation: int
    accepted: tuple
    content: Content


@functools.lru_cache(maxsize=100_000)
def content_of(facts):
    seen = view(facts)
    return Content(seen.k, frozenset(record[2] for record in seen.linked if record[4] == 0) | {0}, frozenset(fact for fact in facts if fact[0] == "cut"))


def node_of(node):
    return Node(node.birth, node.is_member, node.generation, node.accepted, content_of(node.facts))


def grows(old, new):
    since = [cut for cut in new.cuts if old.epoch < cut[1] <= new.epoch]
    kept = {point for point in old.points if all(point <= cut[2] for cut in since)}
    return old.epoch <= new.epoch and old.cuts <= new.cuts and kept <= new.points


def up_to(vote, other):
    return vote is None or (other is not None and (vote[0], vote[1][1]) <= (other[0], other[1][1]))


class Decided:
    """What an engine decided: its quorum and when it was gathered, the union of each proposal and admission, and what it heard, when."""

    def __init__(self, generation):
        self.generation, self.quorum, self.gathered, self.fenced = generation, (), None, {}
        self.cuts, self.unions, self.opens, self.admissions, self.heard = {}, {}, None, {}, []


class Traced(World):
    def __init__(self, **options):
        super().__init__(**options)
        self.decided, self.answered, self.durable_claims, self.repeated = {}, {}, [], []
        self.begin([Node(node.birth, False, 0, None, content_of(node.facts)) for node in self.nodes])
        for i, node in enumerate(self.nodes):
            if node.is_member:
                self.note(i, "created")

    def begin(self, nodes):
        self.states, self.steps = [tuple(nodes)], []

    def now(self):
        return len(self.steps)

    def note(self, i, kind, *rest):
        self.steps.append((i, kind, *rest))
        self.states.append((*self.states[-1][:i], node_of(self.nodes[i]), *self.states[-1][i + 1 :]))

    def do(self, move):
        super().do(move)
        kinds = {"wipe": "comes fresh", "open_plainly": "is replaced"}
        for i, node in enumerate(self.nodes):
            if node_of(node) != self.states[-1][i]:
                self.note(i, kinds.get(move[0], "learns"))

    # -- promises: a broken one does not end the run

    def gain(self, i, facts):
        with contextlib.suppress(Violation):
            super().gain(i, facts)
        self.nodes[i].facts |= facts

    def on_accepted(self, node, generation, cut):
        with contextlib.suppress(Violation):
            super().on_accepted(node, generation, cut)

    def on_opened(self, engine):
        with contextlib.suppress(Violation):
            super().on_opened(engine)

    def on_durable(self, point, epoch):
        self.durable_claims.append((point, epoch, self.now()))
        with contextlib.suppress(Violation):
            super().on_durable(point, epoch)

    # -- nodes

    def serve(self, i, request):
        answer, engine = super().serve(i, request), request[1]
        if answer and answer[0] == "fenced":
            self.note(i, "fenced", engine)
        elif answer and answer[0] == "accepted":
            self.note(i, "accepts", engine, answer[3])
        elif answer and answer[0] == "admitted":
            creates = engine < 0 or engine not in self.decided
            self.note(i, "created") if creates else self.note(i, "admitted", engine)
        elif node_of(self.nodes[i]) != self.states[-1][i]:
            self.note(i, "learns")
        if answer and isinstance(engine, int):
            self.answered.setdefault((engine, i, answer), []).append(self.now())
        self.note(i, "rests")  # whoever hears the answer does so at a later moment
        return answer

    # -- engines

    def start(self, generation, margin):
        super().start(generation, margin)
        self.decided[len(self.engines) - 1] = Decided(generation)

    def hear(self, number, i, answer):
        engine = self.engines[number]
        if decided := self.decided.get(number):
            decided.heard += [(self.now(), i, answer[0], moment) for moment in self.answered.get((number, i, answer), [self.now()])]
        round_before = engine.round
        super().hear(number, i, answer)
        if engine.round != round_before and not any(node.is_member for node in self.nodes):
            self.begin([node_of(node) for node in self.nodes])

    def hear_fenced(self, engine, i, generation, birth, accepted):
        if engine.phase == "fence":
            moments = [t for t, step in enumerate(self.steps) if step == (i, "fenced", engine.number) and self.states[t][i].birth == birth]
            self.decided[engine.number].fenced[i] = moments[-1] if moments else self.now()
        super().hear_fenced(engine, i, generation, birth, accepted)
        decided = self.decided.get(engine.number)
        if engine.quorum and decided.gathered is None:
            decided.quorum, decided.gathered = engine.quorum, self.now()

    def admit_fresh(self, engine):
        decided = self.decided[engine.number]
        decided.admissions.update({(i, birth): (content_of(engine.union), self.now()) for i, birth in engine.fresh.items()})
        super().admit_fresh(engine)

    def propose(self, engine):
        decided = self.decided[engine.number]
        super().propose(engine)
        epoch = engine.cut[1]
        if decided.cuts.setdefault(epoch, engine.cut) != engine.cut or epoch in decided.unions:
            self.repeated.append(f"engine {engine.number} proposes two truncations for epoch {epoch}")
        decided.unions[epoch] = content_of(engine.union), self.now()
        if not engine.pending:
            decided.opens = epoch


# ---- the rules


class Rules:
    def __init__(self, run):
        self.run, self.states, self.steps = run, run.states, run.steps

    def is_under(self, e, i, t):
        node = self.states[t][i]
        return node.is_member and node.generation == self.run.decided[e].generation

    def has_chosen(self, t, e, epoch):
        return len({step[0] for step in self.steps[:t] if step[1:] == ("accepts", e, epoch)}) >= self.run.w

    def sent(self, t, cut):
        return any(d.cuts.get(cut[1]) == cut and self.has_chosen(t, e, cut[1]) for e, d in self.run.decided.items())

    def has_gathered(self, e):
        d = self.run.decided[e]
        fenced = all(d.fenced[i] < d.gathered and self.steps[d.fenced[i]] == (i, "fenced", e) for i in d.quorum)
        return d.gathered is not None and len(d.quorum) >= self.run.w and fenced

    def shown(self, e, i, t):
        """The moments before t at which node i has shown what it has, in answers that the engine had heard by then."""
        d = self.run.decided[e]
        for heard, node, kind, p in d.heard:
            same = heard <= t and node == i and kind == "pulled" and d.gathered <= p
            if same and self.is_under(e, i, p) and self.states[p][i].birth == self.states[d.fenced[i]][i].birth:
                yield p

    def has_asked(self, e, t):
        return self.has_gathered(e) and all(any(True for _ in self.shown(e, i, t)) for i in self.run.decided[e].quorum)

    def is_union(self, e, t, content):
        parts = all(any(grows(self.states[p][i].content, content) for p in self.shown(e, i, t)) for i in self.run.decided[e].quorum)
        return self.has_gathered(e) and parts and all(self.sent(t, cut) for cut in content.cuts)

    def reporters(self, e, t, fits):
        """The nodes whose reports of a front, heard before t under the engine's generation, fit."""
        heard = {(i, s) for when, i, kind, s in self.run.decided[e].heard if kind == "front" and when <= t}
        return {i for i, s in heard if self.is_under(e, i, s) and self.has_asked(e, s) and fits(self.states[s][i].content)}

    def best(self, e):
        d = self.run.decided[e]
        votes = [self.states[d.fenced[i]][i].accepted for i in d.quorum]
        return next(vote for vote in votes if all(up_to(other, vote) for other in votes))

    def proposal_fault(self, e, epoch):
        d = self.run.decided[e]
        (union, t), cut, best = d.unions[epoch], d.cuts[epoch], self.best(e)
        if not self.is_union(e, t, union):
            return "the union lacks what a node of the quorum had"
        if epoch != union.epoch + 1:
            return "the epoch is not the next one"
        known = self.reporters(e, t, lambda content: content.epoch == union.epoch and cut[2] in content.points)
        if len(known) < self.run.w:
            return "the union is not known at a quorum"
        pending = best is not None and best[1][1] == epoch
        adopts = best is not None and best[1] == cut and (d.opens is None or epoch < d.opens)
        makes = not pending and epoch == d.opens and cut[2] == max(union.points) and cut[2] <= cut[3]
        return None if adopts or makes else "neither pending nor its own"

    def admission_fault(self, e, i, t, new):
        d, old = self.run.decided[e], self.states[t][i]
        if (i, old.birth) not in d.admissions:
            return "the birth was not admitted"
        union, when = d.admissions[i, old.birth]
        if not self.is_union(e, when, union):
            return "the union lacks what a node of the quorum had"
        if not any(not self.states[s][i].is_member and self.states[s][i].birth == old.birth for s in range(d.gathered)):
            return "the birth was heard too late"
        if old.content.epoch != union.epoch or not union.points <= old.content.points:
            return "the node is not as far as the union"
        member = new == old._replace(is_member=True, generation=d.generation, accepted=self.best(e))
        return None if not old.is_member and member else "the admission leaves another node"

    def move_fault(self, t):
        i, kind, *rest = self.steps[t]
        old, new = self.states[t][i], self.states[t + 1][i]
        if kind == "rests":
            return None if new == old else "a node at rest changes"
        if kind == "comes fresh":
            return None if all(state[i].birth != new.birth for state in self.states[: t + 1]) else "a birth comes back"
        if kind in ("learns", "is replaced"):
            taken = all(self.sent(t, cut) for cut in new.content.cuts - old.content.cuts)
            fits = grows(old.content, new.content) if kind == "learns" else not old.is_member
            return None if taken and fits and new == old._replace(content=new.content) else "facts are lost or made up"
        if kind == "created":
            first = not old.is_member and old.birth == self.states[0][i].birth
            return None if first and new == old._replace(is_member=True, generation=1, accepted=None) else "not as created"
        d = self.run.decided[rest[0]]
        if kind == "fenced":
            raised = old.is_member and old.generation < d.generation and new == old._replace(generation=d.generation)
            return None if raised else "not as fenced"
        if kind == "admitted":
            return self.admission_fault(rest[0], i, t, new)
        later = old.accepted and old.accepted[0] == d.generation and old.accepted[1][1] > rest[1]
        votes = self.is_under(rest[0], i, t) and not later and new == old._replace(accepted=(d.generation, d.cuts[rest[1]]))
        return self.proposal_fault(*rest) if votes else "not as accepted"

    def durable_fault(self, point, epoch, t):
        for e, d in self.run.decided.items():
            if d.opens == epoch and self.has_chosen(t, e, epoch):
                if point == d.cuts[epoch][2]:
                    return None
                reported = self.reporters(e, t, lambda content: content.epoch == epoch and point in content.points)
                return None if len(reported) >= self.run.w else f"{point} of epoch {epoch} is not durable"
        return f"epoch {epoch} is not open"


def trace(moves, kind=Traced, **options):
    """The run that a schedule makes, up to a violation or to where no node is a member."""
    run = kind(**options)
    with contextlib.suppress(Violation):
        for move in moves:
            run.do(move)
            if run.gone:
                break
    return run


def faults(run):
    """Where the run breaks a rule of the theorems, or a promise that they make durable."""
    rules, found = Rules(run), list(run.repeated)
    for t, step in enumerate(run.steps):
        if fault := rules.move_fault(t):
            found.append(f"moment {t}, {step}: {fault}")
    for claim in run.durable_claims:
        if fault := rules.durable_fault(*claim):
            found.append(fault)
    return found
