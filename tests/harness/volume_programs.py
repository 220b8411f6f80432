"""Schedules of the volume model, played with a process for each node and each engine, and compared with it move by move.

`Play` carries what the engines' processes ask to the nodes' processes, and the answers back, as a schedule says: at once, late, again or
never. The model's side is `model.volume_machine`, which makes the machine's choices. After each move these are compared:

| Compared | The program's | The model's |
|---|---|---|
| answer | the frame of the node's answer | the answer, with the minimum read point, which the model's fronts lack |
| node | `status` of each; `ask`, and pages at the complete point, of the one that is asked | the guard; what its facts mean |
| engine | the requests that it makes, byte by byte and in order for each node | the letters of the model's requests |
| engine | `created`, `opened`, `committed`, `durable`, a fault | the same words |

`volume_bytes` has the bytes of what the model speaks of. Where a node has discarded records, its answer to an engine has pages in their
place; its base point shows whether it has. What an engine makes of its union for a node is not compared, but what the node then means.

Of a take without a question for the front, the network repeats an earlier one, so that each take is answered by a front as in the model.
The second round of a creation is `fence 0`, and its answer that of a status. Requests that reach a node together come in one frame or each
in its own, by turns. A node that restarts is a new process of the same birth, to which its requests come again that changed it.
"""

import functools
import socket
import subprocess

from harness import SECONDS
from harness.volume_bytes import (PAGES, delta_of, fact_of, header_of, meaning_of, pair_of, request_bytes, summary_of, under, words,
                                  write_bytes)
from model import wire
from model.volume import Violation
from model.volume_machine import Machines, letters_of

# The answers to requests that changed a node, which its owner keeps.
CHANGES = {b"changed", b"absorbed", b"opened", b"fenced", b"accepted", b"admitted"}
MOVES_OF_NODES = {"deliver", "wipe", "restart", "open_plainly", "copy", "fact", "read", "discard"}  # the node comes first in each


def need_same(what, seen, wanted):
    assert seen == wanted, f"{what}: {seen!r} in place of {wanted!r}"


# ---- processes


class Process:
    """A program that answers each frame by one."""

    def __init__(self, *command):
        self.own, other = socket.socketpair()
        with other:
            self.process = subprocess.Popen(command, stdin=other, stdout=other)
        self.own.settimeout(SECONDS)
        self.answers = self.own.makefile("rb")

    def ask(self, frame):
        return self.ask_all([frame])[0]

    def ask_all(self, frames):
        """The answers to frames that are sent together; they fit into the socket."""
        self.send(frames)
        return [self.receive() for _ in frames]

    def send(self, frames):
        self.own.sendall(wire.framed(frames))

    def receive(self):
        try:
            answer = wire.read_frame(self.answers)
        except (TimeoutError, ConnectionResetError) as fault:
            raise AssertionError(f"{self.process.args} does not answer: {fault}") from fault
        assert answer is not None, f"{self.process.args} ended with {self.process.wait(SECONDS)}"
        return answer

    def close(self):
        self.process.kill()
        self.process.wait(SECONDS)
        self.answers.close()
        self.own.close()


class Node(Process):
    """A node, and the requests that changed it, with their answers."""

    def __init__(self, *command):
        super().__init__(*command)
        self.kept, self.turns = [], 0

    def ask_all(self, frames):
        return self.keep(frames, super().ask_all(frames))

    def ask_together(self, frames):
        """In one frame or each in its own, by turns."""
        self.turns += 1
        if len(frames) == 1 or self.turns % 2:
            return self.ask_all(frames)
        self.send([b"many " + wire.framed(frames)])
        return self.keep(frames, wire.frames_of(self.receive()))

    def keep(self, frames, answers):
        self.kept += [it for it in zip(frames, answers) if has_changed(it[1])]
        return answers


def has_changed(answer):
    parts = answer.split(b" ")
    return (parts[3] if parts[0] == b"as" and len(parts) > 3 else parts[0]) in CHANGES


class Programs:
    """Where the two programs are."""

    def __init__(self, node, engine):
        self.node, self.engine = node, engine

    def new_node(self, birth):
        return Node(self.node, "--frames", "--birth", str(birth))

    def new_engine(self, nodes, quorum):
        return Process(self.engine, str(nodes), str(quorum))


# ---- a play


class Play:
    """A world of the model, and the same of processes. A difference is an `AssertionError`."""

    def __init__(self, programs, **options):
        self.programs, self.world = programs, Machines(**options)
        self.nodes = [programs.new_node(node.birth) for node in self.world.nodes]
        self.engines = []
        self.made = {}  # what an engine made of its union for a node, by the node and the model's request
        self.late = {}  # the program's answers, by the model's late one
        self.told = []  # what the engines' processes did in this move: (engine, frame)
        for i, node in enumerate(self.world.nodes):
            if node.is_member:
                need_same("the first admission", self.nodes[i].ask(words("admit", 1, node.birth, 0, 0)), words("admitted", 1, node.birth))

    def close(self):
        for process in self.nodes + self.engines:
            process.close()

    def do(self, move):
        """Makes a move in both worlds, and compares them. What the processes do first may leave something for after the model's move."""
        self.told, (kind, *rest) = [], move
        then = getattr(self, f"do_{kind}", lambda *_: None)(*rest)
        self.world.do(move)
        if then:
            then()
        if kind in MOVES_OF_NODES:
            self.compare_node(rest[0])
        self.compare_engines()
        for node in self.nodes:
            node.send([b"status"])
        for i, node in enumerate(self.nodes):
            need_same(f"the status of node {i}", node.receive(), self.status_of(self.world.nodes[i]))

    # -- nodes

    def facts_of(self, facts):
        return frozenset(fact_of(fact, self.world.writers) for fact in facts)

    def meaning(self, i):
        return meaning_of(self.facts_of(self.world.nodes[i].facts))

    def status_of(self, node):
        meaning = meaning_of(self.facts_of(node.facts))
        front = meaning.epoch, meaning.complete, meaning.min
        return words("status", node.generation, node.birth, int(node.is_member), front, pair_of(node.accepted))

    def compare_node(self, i):
        """What a node's facts mean, by its summary and its pages."""
        meaning = self.meaning(i)
        shown, *pages = self.nodes[i].ask_all([b"ask", *(words("read", page, meaning.complete, 0, 4096) for page in range(PAGES))])
        need_same(f"the summary of node {i}", shown, b"summary " + summary_of(meaning))
        # An advance may come before the records that it is about: then no point that the node has reached may be read.
        is_below = meaning.complete < meaning.min
        for page, read in enumerate(pages):
            need_same(f"page {page} of node {i}", read, words("below", meaning.min) if is_below else b"page " + meaning.page(page, meaning.complete))

    def answer_of(self, i, request, answer):
        """The frame of what a node of the model answers; None is the answer to what it takes plainly."""
        node, kind, rest = self.world.nodes[i], answer and answer[0], answer and answer[1:]
        if kind is None:
            return b"absorbed"
        if kind == "status" and rest[-1] == 1:
            return self.status_of(node)
        if kind == "status":
            return words("stale", node.generation) if node.is_member else words("fresh", node.birth)
        if kind == "fenced":
            return words(kind, *rest[:2], pair_of(rest[2]))
        if kind == "front":
            return under(*rest[:2], kind, *rest[2:4], self.meaning(i).min)
        if kind == "pulled":
            return under(*rest[:2], "delta ") + delta_of(self.facts_of(rest[2]), self.base_of(i), self.facts_of(request[4]))
        return words(kind, *rest)

    def base_of(self, i):
        state = self.nodes[i].ask(b"state").split(b" ")
        return int(state[state.index(b"base") + 1])

    # -- engines

    def call(self, number, event):
        """What an engine does upon an event."""
        told = wire.frames_of(self.engines[number].ask(event))
        self.told += [(number, frame) for frame in told]
        return told

    def hear(self, number, i, answers):
        for answer in answers:
            self.call(number, words("answered", i) + b" " + answer)

    def compare_engines(self):
        """What the engines did. What is asked of one node comes in order; what is asked of two need not."""
        for number in range(len(self.engines)):
            told = [frame for engine, frame in self.told if engine == number]
            did = [it[1:] for it in self.world.did if it[0] == number]
            reports = [self.report_of(number, it[0]) for it in did if len(it) == 1]
            need_same(f"engine {number} reports", [it for it in told if not it.startswith(b"ask ")], reports)
            for i in range(self.world.n):
                asked = [it.split(b" ", 2)[2] for it in told if it.startswith(b"ask %d " % i)]
                self.compare_letters(number, i, asked, [it[1] for it in did if len(it) == 2 and it[0] == i])

    def report_of(self, number, report):
        """The frame of what an engine reports. That of an opening has the header of the commit that it found."""
        if not report.startswith("opened"):
            return report.encode()
        engine = self.world.engines[number]
        facts = self.facts_of(engine.union)
        commits = [it for it in meaning_of(facts).linked if it.page == 0 and it.number == engine.lo]
        return report.encode() + b" " + b"".join(header_of(*it.key()) for it in commits)

    def compare_letters(self, number, i, asked, letters):
        what = f"engine {number} asks of node {i}"
        need_same(f"{what} so many requests", len(asked), len(letters))
        for frame, letter in zip(asked, letters):
            if letter[0] == "join":
                begin = words("absorb", len(wire.NOTHING)) + b" " + wire.NOTHING
                need_same(what, frame[: len(begin)], begin)
                self.made[number, i] = frame
            elif letter[0] != "absorb":  # which `push` compares
                need_same(what, frame, request_bytes(letter, self.world.writers))

    # -- requests

    def do_deliver(self, i, request, fate):
        if (i, request) not in self.world.sent:
            return None
        answers = self.push(i, request) if request[0] == "push" else self.nodes[i].ask_together(self.frames_of(i, request))
        return functools.partial(self.pass_on, i, request, fate, answers)

    def frames_of(self, i, request):
        if request[0] == "gossip":
            return [self.made[request[1], i]]
        letters = letters_of(request)
        if request[0] == "take" and len(letters) == 1:
            letters.append(("front", *request[2:4]))
        return [request_bytes(letter, self.world.writers) for letter in letters]

    def pass_on(self, i, request, fate, answers):
        """Compares the last answer with the model's, and lets the engine hear all of them, or keeps them for later."""
        answer, number = self.world.answer, request[1]
        if not answers:
            return
        need_same(f"node {i} answers {request[0]}", answers[-1], self.answer_of(i, request, answer))
        if number >= 0 and fate == "heard":
            self.hear(number, i, answers)
        elif number >= 0 and fate == "late" and answer:
            self.late[number, i, answer] = answers

    def push(self, i, request):
        """Asks for the node's summary, and then sends what the engine makes of it, or made before. An engine that spreads another union
        does not hear the summary: it would answer with that one."""
        number, head, way = request[1], request[2:4], self.world.way_of_push(i, request)
        first = self.nodes[i].ask(under(*head, "ask"))
        if way == "declined":
            return [first]
        shown = summary_of(self.meaning(i))
        need_same(f"node {i} answers ask", first, under(*head, "summary ") + shown)
        hears = way == "made" or self.world.engines[number].phase != "known"
        told = self.call(number, words("answered", i) + b" " + first) if hears else []
        if way == "made":
            self.made[i, request] = [frame.split(b" ", 2)[2] for frame in told]
            begin = under(*head, "absorb", len(shown)) + b" " + shown
            need_same(f"engine {number} asks of node {i}", self.made[i, request][0][: len(begin)], begin)
        answers = [] if way == "void" else self.nodes[i].ask_together(self.made[i, request])
        need_same(f"node {i} answers absorb", answers[:1], [under(*head, "absorbed")][: len(answers)])
        return answers

    def do_hear(self, number, i, answer):
        if (number, i, answer) in self.world.late:
            self.hear(number, i, self.late[number, i, answer])

    # -- calls of an engine

    def begin(self, event):
        self.engines.append(self.programs.new_engine(self.world.n, self.world.w))
        self.call(len(self.engines) - 1, event)

    def do_start(self, generation, _margin):
        self.begin(words("open", generation))

    def do_create(self):
        self.begin(b"create")

    def do_write(self, number, page, _gap):
        if number < len(self.engines):
            engine = self.world.engines[number]
            key = engine.epoch, engine.last + 1
            self.call_open(number, b"write " + write_bytes(page, *key) if engine.half is None else b"commit " + header_of(*key))

    def do_advance(self, number, _far):
        if number < len(self.engines):
            engine = self.world.engines[number]
            self.call_open(number, words("advance", 1, max(engine.durable, engine.lo)))

    def call_open(self, number, event):
        if self.world.engines[number].phase == "open":
            self.call(number, event)
        else:
            need_same(f"engine {number}, which is not open,", wire.frames_of(self.engines[number].ask(event)), [b"not open"])

    def do_fail(self, number, i):
        if number < len(self.engines):
            self.call(number, words("failed", i))

    # -- what happens to a node

    def replace(self, i):
        """A new process, of the birth that the model's node has."""
        self.nodes[i].close()
        self.nodes[i] = self.programs.new_node(self.world.nodes[i].birth)

    def do_wipe(self, i):
        return functools.partial(self.replace, i)

    def do_restart(self, i):
        kept = self.nodes[i].kept
        self.replace(i)
        need_same(f"node {i} after a restart", self.nodes[i].ask_all([asked for asked, _ in kept]), [answer for _, answer in kept])

    def do_open_plainly(self, i):
        wanted = b"member" if self.world.nodes[i].is_member else b"opened"
        need_same(f"node {i} answers open", self.nodes[i].ask(b"open 1"), wanted)

    def do_copy(self, i, j):
        shown = self.nodes[i].ask(b"ask").removeprefix(b"summary ")
        delta = self.nodes[j].ask(b"answer " + shown).removeprefix(b"delta ")
        answer = self.nodes[i].ask(words("absorb", len(shown)) + b" " + shown + delta)
        need_same(f"node {i} answers a plain absorb", answer, b"absorbed")

    def do_fact(self, i, fact):
        if fact not in self.world.gossip:
            return None
        before = self.meaning(i).parts()
        answer = self.nodes[i].ask(b"take " + wire.fact_bytes(fact_of(fact, self.world.writers)))

        def compare():
            wanted = b"unchanged" if self.meaning(i).parts() == before else b"changed"
            need_same(f"node {i} answers a plain take", answer, wanted)

        return compare

    def do_plain_front(self, number, i):
        if number < len(self.engines):
            meaning = self.meaning(i)
            answer = self.nodes[i].ask(b"front")
            need_same(f"node {i} answers a plain front", answer, words("front", meaning.epoch, meaning.complete, meaning.min))
            self.hear(number, i, [answer])

    def do_discard(self, i):
        """Folds each page and discards, by plain requests."""
        asked = [*(words("fold", page) for page in range(PAGES)), b"discard", b"tidy"]
        need_same(f"node {i} folds", self.nodes[i].ask_all(asked), [b"folded"] * PAGES + [b"discarded", b"tidied"])


def difference(programs, moves, **options):
    """What the programs do otherwise than the model in a schedule, and in which move, or nothing. It ends where no node is a member."""
    play = Play(programs, **options)
    try:
        for place, move in enumerate(moves):
            play.do(move)
            if play.world.gone:
                break
        play.world.check()
    except (AssertionError, Violation) as fault:
        return f"in move {place + 1}, {move!r}: {fault}"
    finally:
        play.close()
    return ""
