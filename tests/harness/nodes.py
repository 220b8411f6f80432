"""Nodes over lines or frames, and scripts of nodes that gossip, played with a process or a segment for each node."""

import contextlib
import re
import select
import subprocess

from harness import ROOT, SECONDS, Answer, answer
from model import guards, oracle
from model.wire import fact_bytes, frame, framed

LIMIT = 67_108_864  # the most bytes of a frame, and of the answers to one of many requests
LEFT_OUT = ("same", "covers")  # steps that no request asks for
FREEZE_EACH = 50  # one of so many steps comes after a freeze and a restart
GAP_EACH = 3  # after one of so many steps the gap is asked for
ENGINE_EACH = 8  # before one of so many steps an engine asks for something
UNDER_EACH = 4  # one of so many steps is asked under a generation
WITH_BYTES = ("page", "record", "summary", "delta", "piece")  # the answers that end in bytes
BYTES = "(?:[0-9a-fA-F]{2})*"
ASKS_WITH_BYTES = re.compile(f"(?:take|add|answer) {BYTES}|answer {BYTES} [0-9]+|absorb {BYTES} {BYTES}")
HEADS = re.compile("(?:as [^ ]* [^ ]* )*")


# Lines and frames


def headed(text):
    """What an engine's line or answer has in front of the request or the answer of a segment, and the latter; nothing in front of others."""
    end = HEADS.match(text).end()
    return text[:end], text[end:]


def as_frame(line):
    """The bytes of the frame that asks what a request line asks."""
    head, own = headed(line)
    word, *fields = own.split(" ")
    if word not in ("take", "add", "answer", "absorb"):
        return line.encode()
    if word == "answer" and len(fields) == 2:
        word = f"within {fields.pop()}"
    values = [bytes.fromhex(it) for it in fields]
    if word == "absorb":
        word = f"absorb {len(values[0])}"
    return f"{head}{word} ".encode() + b"".join(values)


def as_line(text):
    """The answer line that says what the bytes of an answer frame say."""
    line = text.decode("latin-1")
    head, own = headed(line)
    word, _, rest = own.partition(" ")
    is_long = rest == "too long" and word != "page"
    return f"{head}{word} {rest.encode('latin-1').hex()}" if word in WITH_BYTES and not is_long else line


def has_frame(line):
    """Whether a frame asks the same: digits are wherever the line's word takes bytes."""
    own = headed(line)[1]
    return own.split(" ")[0] not in ("take", "add", "answer", "absorb") or bool(ASKS_WITH_BYTES.fullmatch(own))


def many(requests):
    """The frame of many requests, or of none."""
    return frame(b"many " + framed(requests))


def pairs_of(requests, answers):
    """The request lines of a file, each with its answer line of another one."""
    return list(zip((ROOT / requests).read_bytes().decode().split("\n")[:-1], (ROOT / answers).read_text().splitlines()))


def framed_pairs(pairs):
    """Those that a frame can ask, with the answers that frames have."""
    return [(line, answer.replace("bad line", "bad request")) for line, answer in pairs if has_frame(line)]


EXAMPLE = pairs_of("examples/node.requests", "examples/node.answers")
OWN = pairs_of("crates/fleet_node/stdin", "crates/fleet_node/stdout")


# Nodes


class Node:
    """A process that answers lines. With an environment of its own it may well end early, and says nothing on standard error."""

    words = ()  # of its command line

    def __init__(self, program, settings=None):
        said = None if settings is None else subprocess.DEVNULL
        self.process = subprocess.Popen([program, *self.words], stdin=subprocess.PIPE, stdout=subprocess.PIPE, stderr=said, env=settings)

    def ask(self, *words):
        """The answer line to a request line, in whichever form both go."""
        self.send(" ".join(map(str, words)))
        self.process.stdin.flush()
        if not select.select([self.process.stdout], [], [], SECONDS)[0]:
            self.process.kill()
            return "no answer"
        return self.receive()

    def send(self, line):
        self.process.stdin.write(line.encode() + b"\n")

    def receive(self):
        answer = self.process.stdout.readline().decode()
        return answer.removesuffix("\n") if answer.endswith("\n") else f"{answer} and an end"

    def snapshot(self, name):
        """The pieces of a snapshot that the node takes."""
        total = int(self.ask("freeze", name).split()[1])
        return [self.ask("piece", index).split()[1] for index in range(total)]

    def stage(self, name, pieces):
        """Whether the node takes the pieces, which come in another order."""
        told = [self.ask("stage", name, len(pieces)), *(self.ask("add", it) for it in reversed(pieces))]
        return told == ["staged", *["added"] * len(pieces)]

    def restart(self, name):
        """Whether the node takes a snapshot, and is put together again from the pieces."""
        pieces = self.snapshot(name)
        return self.ask("open", 15) == "opened" and self.stage(name, pieces) and self.ask("finish") == "restored"

    def unite(self, other, name):
        """Joins another node into this one, by the pieces of its snapshot; the answer is that of a join."""
        if not self.stage(name, other.snapshot(name)):
            return "not staged"
        answer = self.ask("unite")
        return "joined" if answer == "united" else answer

    def close(self):
        """The status, and what it wrote that nobody asked for."""
        with contextlib.suppress(BrokenPipeError):
            self.process.stdin.close()
        left = self.process.stdout.read()
        self.process.stdout.close()
        return self.process.wait(10), left


class FramedNode(Node):
    """The same over frames."""

    words = ("--frames",)

    def __init__(self, program, settings=None):
        super().__init__(program, settings)
        self.asked, self.told = [], []  # the frames, each with its length in front

    def send(self, line):
        self.asked.append(frame(as_frame(line)))
        self.process.stdin.write(self.asked[-1])

    def receive(self):
        size = self.process.stdout.read(4)
        answer = self.process.stdout.read(int.from_bytes(size, "big"))
        self.told.append(size + answer)
        return as_line(answer) if answer and frame(answer) == self.told[-1] else f"{answer!r} and an end"


def is_repeated(program, node, choose):
    """Whether a node that is asked what this one was asked, many requests in a frame, answers the same."""
    text, wanted, at = [], [], 0
    while at < len(node.asked):
        end = at + choose.choice((0, 1, 2, 7, 30))
        text.append(frame(b"many " + b"".join(node.asked[at:end])))
        wanted.append(frame(b"".join(node.told[at:end])))
        at = end
    return answer(program, node.words, b"".join(text)) == Answer(0, b"".join(wanted))


def unlike(asked, answer, wanted):
    """In words that an answer is not the expected one, or nothing."""
    return "" if answer == wanted else f"{asked}: {answer!r} in place of {wanted!r}"


class Play:
    """A script: what the oracle's fleet replies to each step, and what the nodes answer."""

    def __init__(self, nodes, text):
        script = oracle.Script(text)
        self.nodes, self.facts, self.steps, self.roster = nodes, script.facts, script.steps, script.roster
        self.fleet = oracle.Fleet(script)
        self.messages = []  # of each: the words that stand for it in a line
        self.answers = []  # of the steps that were compared
        self.guards = [guards.Guard() for _ in nodes]
        for node in nodes[: script.nodes]:
            node.ask("open", script.roster)

    def told(self, ask, kind, number, *values):
        """What is answered to a step, in the oracle's words, where `ask` asks its node; a message that this makes is kept."""
        if kind == "take":
            return ask("take", fact_bytes(self.facts[values[0] - 1]).hex())
        if kind == "ask":
            return self.sent("summary", ask("ask"))
        if kind == "answer":
            return self.answered(ask, *self.messages[values[0] - 1])
        if kind == "join":
            return self.nodes[number - 1].unite(self.nodes[values[0] - 1], len(self.answers))
        if kind == "absorb":
            return ask("absorb", *self.messages[values[0] - 1])
        if kind == "wipe":
            return "wiped" if ask("open", self.roster) == "opened" else "no wipe"
        if kind == "read" and values[3] == 0:
            return None
        return ask(kind, *values)

    def answered(self, ask, summary):
        """A delta. Within its size it is sent again, and within one byte less it is large."""
        answer = ask("answer", summary)
        size = len(answer.partition(" ")[2]) // 2
        within = [ask("answer", summary, most) for most in (size, size - 1)]
        return self.sent("delta", answer, summary) if within == [answer, "large"] else f"{within} within {size}"

    def sent(self, kind, answer, *before):
        word, _, digits = answer.partition(" ")
        self.messages.append((*before, digits))
        return f"message {len(self.messages)}" if word == kind else answer

    def asks_of_engines(self, choose, number):
        """What a node answers to some engine, and what it is to answer; at times also to one that asks under its generation."""
        front = tuple(map(int, self.fleet.front(number).split(" ")[1:]))
        node, guard = self.nodes[number - 1], self.guards[number - 1]
        word, numbers = guards.a_request(guard, front, choose)
        wanted = getattr(guard, word)(front, *numbers)
        yield unlike(f"{word} {numbers}", node.ask(word, *numbers), wanted)
        if choose.randrange(ENGINE_EACH) == 0:
            words = ("as", guard.generation, guard.birth, choose.choice(guards.NOT_UNDER))
            yield unlike(words, node.ask(*words), "unguarded")

    def step_under(self, choose, step):
        """The answer to a step that an engine asks for, or the node's own answer after it has declined."""
        kind, number, *_ = step
        node, guard = self.nodes[number - 1], self.guards[number - 1]
        generation = choose.choice((guard.generation, guard.generation, choose.randrange(9)))
        head = f"as {generation} {guard.birth} "

        def ask(*words):
            """An answer that has another head than the request stays as it is."""
            return node.ask(head + " ".join(map(str, words))).removeprefix(head)

        if guard.is_under(generation, guard.birth):
            return self.told(ask, *step)
        declined = ask("fold", 7) if kind == "fold" else ask("front")
        return self.told(node.ask, *step) if declined == guard.declined() else f"{declined!r} to an engine"

    def differences(self, choose):
        """Of each answer, in words, how it differs from the expected one, or nothing."""
        for place, step in enumerate(self.steps):
            kind, number, *_ = step
            if kind == "wipe" and number <= len(self.fleet.nodes) and self.guards[number - 1].is_member:
                yield unlike(step, self.nodes[number - 1].ask("open", self.roster), "member")
                continue
            wanted = "no " if kind in LEFT_OUT else self.fleet.step(step)
            if wanted.startswith("no "):
                continue
            node, guard = self.nodes[number - 1], self.guards[number - 1]
            if choose.randrange(FREEZE_EACH) == 0 and not guard.is_member:
                yield unlike(f"restart before {step}", node.restart(place), True)
            if choose.randrange(UNDER_EACH) == 0 and kind not in ("join", "wipe"):
                answer = self.step_under(choose, step)
            else:
                answer = self.told(node.ask, *step)
            self.answers.append(answer)
            if answer is not None:
                yield unlike(step, answer, wanted)
            if choose.randrange(GAP_EACH) == 0:
                yield unlike(f"the gap after {step}", node.ask("gap"), self.fleet.gap(number))
            if choose.randrange(ENGINE_EACH) == 0:
                yield from self.asks_of_engines(choose, number)

    def difference(self, choose):
        """The first difference in words, or nothing."""
        return next(filter(None, self.differences(choose)), "")
