"""The volume model with the choices of the built machine (`crates/volume`), which writes down what the machine asks and reports.

Each choice is one that the model leaves open, since an engine may stop, and a message may be lost or come twice:

- hi is the complete point of the union, and numbers of records have no gaps.
- Of two answers to one question the first counts, and the birth of a node of which one is known stays.
- An engine stops once it knows of a later generation, or that no quorum is left.
- A node that is learnt late in an open volume gets the truncation, the records that are not durable, and a question for its front.
- A push is a question for the node's summary, and what the union has beyond that. The engine makes the second part only while it spreads
  that union; so a push whose second part was never made does nothing.
- Where a connection breaks, the engine asks again.
- The node that makes the quorum whole is asked first for what it has. Once it has answered, each node is asked for what it has beyond that:
  the request names these facts.

A letter is what the machine asks of a node, a part of a request of the model: ("ask", generation, birth), for one.
"""

from .volume import World


def letters_of(request):
    """The letters that ask what a request of the model asks; of a push the first alone."""
    kind, _, *rest = request
    if kind == "status":
        return [("status",) if rest[0] == 1 else ("fence", 0)]
    if kind == "push":
        return [("ask", *rest[:2])]
    if kind == "gossip":
        return [("join",)]
    if kind == "take" and ends_part(rest[2]):
        return [("take", *rest), ("front", *rest[:2])]
    return [(kind, *rest)]


def ends_part(fact):
    """Whether the engine asks for the node's front after this fact: a truncation, or the last record of a mini-transaction."""
    return fact[0] == "cut" or (fact[0] == "record" and fact[4] == 0)


class Machines(World):
    """`did` has what the engines did in the last move: (engine, node, letter), or (engine, words) of what is no letter."""

    def __init__(self, **options):
        super().__init__(**options)
        self.did, self.answer = [], None
        self.lost, self.filled, self.founders, self.asked = {}, set(), {}, {}

    # -- what the engines do

    def say(self, engine, words):
        self.did.append((engine.number, words))

    def end(self, engine, words):
        engine.phase = "dead"
        self.say(engine, words)

    def send(self, i, request):
        super().send(i, request)
        self.did += [(request[1], i, letter) for letter in letters_of(request)]

    def send_fenced(self, engine, kind, *rest):
        """The machine asks for no front when it opens: each node was asked for it with the truncation."""
        super().send_fenced(engine, kind, *rest)
        if kind == "front":
            del self.did[len(self.did) - len(engine.births) :]

    def learn_birth(self, engine, i, birth):
        if i in engine.births:
            return
        engine.births[i] = birth
        if engine.phase != "pull":
            self.bring(engine, i)

    def bring(self, engine, i):
        """Asks a node what the others were asked; in an open volume what is left of that."""
        if engine.phase == "open":
            self.bring_open(engine, i)
        else:
            self.send_again(engine, i)

    def bring_open(self, engine, i):
        """The machine asks for the front after the truncation, and at the end."""
        durable, head = max(engine.durable, engine.lo), (engine.generation, engine.births[i])
        for fact in (rest[0] for kind, rest in engine.sent if kind == "take"):
            if fact[0] == "cut" or (fact[0] == "record" and fact[2] > durable):
                super().send(i, ("take", engine.number, *head, fact))
                self.did.append((engine.number, i, ("take", *head, fact)))
            if fact[0] == "cut":
                self.did.append((engine.number, i, ("front", *head)))
        self.send_under(engine, i, "front")

    # -- calls

    def start(self, generation, _margin):
        super().start(generation, "complete")
        self.lost[len(self.engines) - 1] = set()

    def write(self, number, page, _gap):
        engine = self.engines[number]
        commits = len(engine.commits)
        super().write(number, page, 0)
        if len(engine.commits) > commits:
            self.say(engine, f"committed {engine.commits[-1]}")

    def advance(self, number, far):
        super().advance(number, far)
        engine = self.engines[number]
        if not max(engine.durable, engine.lo):
            self.say(engine, "shape")

    def fail(self, number, i):
        """The connection to a node breaks: the engine asks again what the node has not answered."""
        engine = self.engines[number]
        if engine.phase == "create":
            self.send(i, ("status", number, engine.round))
        elif number in self.founders:
            self.send(i, ("admit", number, 1, engine.fresh[i], 0, 0, None))
        elif engine.phase == "fence":
            if i not in engine.births and self.lose(engine, i):
                self.send(i, ("fence", number, engine.generation))
        elif engine.phase != "dead":
            self.ask_again(engine, i)

    def ask_again(self, engine, i):
        if i not in engine.births:
            self.send(i, ("fence", engine.number, engine.generation))
        elif engine.phase != "pull":
            self.bring(engine, i)
        elif i in engine.quorum and i not in engine.pulls:
            self.pull(engine, i)

    def pull_quorum(self, engine, last):
        self.pull(engine, last)

    def pull(self, engine, i):
        self.send_under(engine, i, "pull", self.asked.get(engine.number, frozenset()))

    # -- what an engine hears

    def hear(self, number, i, answer):
        super().hear(number, i, answer)
        founders, engine = self.founders.get(number), self.engines[number]
        is_own = answer[0] == "member" or (answer[0] == "admitted" and answer[2] == engine.fresh.get(i))
        if founders is not None and is_own and i not in founders:
            founders.add(i)
            if len(founders) == self.n:
                self.say(engine, "created")

    def hear_status(self, engine, i, *status):
        before = len(self.did)
        super().hear_status(engine, i, *status)
        if engine.phase == "dead" and len(self.did) == before:
            self.say(engine, "not fresh")
        elif engine.phase == "dead":
            self.founders[engine.number] = set()

    def lose(self, engine, i):
        """Counts a node as one that is not fenced, and answers whether the others can make a quorum."""
        self.lost[engine.number].add(i)
        have = self.n - len(self.lost[engine.number])
        if have < self.w:
            self.end(engine, f"no quorum {have} {self.w}")
        return have >= self.w

    def hear_fresh(self, engine, i, birth):
        phase = engine.phase
        super().hear_fresh(engine, i, birth)
        if phase == "fence":
            self.lose(engine, i)
        elif phase == "pull" and engine.phase == "dead":
            self.say(engine, f"no quorum {len(engine.quorum) - 1} {self.w}")

    def hear_stale(self, engine, i, generation):
        if generation > engine.generation:
            self.end(engine, f"fenced {generation}")
        elif engine.phase == "fence" and generation == engine.generation and i not in engine.births:
            self.lose(engine, i)

    def hear_fenced(self, engine, i, generation, birth, accepted):
        if engine.phase == "fence" and generation == engine.generation:
            self.lost[engine.number].discard(i)
        super().hear_fenced(engine, i, generation, birth, accepted)

    def hear_pulled(self, engine, i, generation, birth, facts):
        if i not in engine.pulls:
            super().hear_pulled(engine, i, generation, birth, facts)
        if engine.phase == "pull" and engine.pulls and engine.number not in self.asked:
            self.asked[engine.number] = frozenset(facts)
            for node in sorted(engine.births):
                self.pull(engine, node)

    def open(self, engine):
        super().open(engine)
        self.say(engine, f"opened {engine.epoch} {engine.lo}")

    def hear_acknowledgement(self, engine, i, k, complete, fact):
        before = engine.durable
        super().hear_acknowledgement(engine, i, k, complete, fact)
        if engine.durable != before:
            self.say(engine, f"durable {engine.durable}")

    # -- moves

    def serve(self, i, request):
        self.answer = super().serve(i, request)
        return self.answer

    def way_of_push(self, i, request):
        """How a push reaches a node: "declined", "made" now, "repeated", or "void", where the engine makes no second part of it."""
        _, number, generation, birth, union = request
        node, engine = self.nodes[i], self.engines[number]
        if not node.is_member or (node.generation, node.birth) != (generation, birth):
            return "declined"
        if engine.phase == "known" and engine.union == union and engine.births.get(i) == birth:
            return "made"
        return "repeated" if (i, request) in self.filled else "void"

    def do(self, move):
        """The moves of the model, ("fail", engine, node), and ("discard", node) and ("restart", node), after which a node is what it was."""
        self.did, self.answer = [], None
        kind, *rest = move
        if kind == "fail":
            if rest[0] < len(self.engines):
                self.fail(*rest)
        elif kind == "deliver" and rest[1][0] == "push" and tuple(rest[:2]) in self.sent:
            self.push(*rest)
        elif kind not in ("discard", "restart"):
            super().do(move)

    def push(self, i, request, fate):
        way = self.way_of_push(i, request)
        if way == "made":
            self.filled.add((i, request))
            self.did += [(request[1], i, (letter, *request[2:4])) for letter in ("absorb", "front")]
        if way != "void":
            super().do(("deliver", i, request, fate))
