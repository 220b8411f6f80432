"""Pictures of a volume: the messages between engines and nodes in a run of the model, from the top down.

The model makes the choices of the built machine (`tests/model/volume_machine.py`). The requests, the answers and the states of the nodes
come from it; the headings say what each step is for. Nodes and births count from 1 here, and from 0 in the model.
"""

from typing import NamedTuple

import svg_forms as forms
from model.machine_schedules import MachineSchedule
from model.volume import view
from model.volume_machine import Machines

MARGIN, WIDTH = 16, 956
ENGINE, APART = 64, 96  # where the first engine is, and how far the next one is to its right
NODE, NODES_APART = 560, 154
TOP, HEAD, FOOT = 70, 66, 64
HIGH = {"Heading": 34, "Exchange": 42, "Note": 28}  # without an answer an exchange is as high as a note
BAND = "#f1f1f1"
HOW_TO_READ = "as GENERATION BIRTH: answered only by a member of both. front EPOCH COMPLETE. Dashed: answers"


class Heading(NamedTuple):
    words: str


class Exchange(NamedTuple):
    """A request to a node, with the answer; without one where the request was lost."""

    request: tuple
    node: int
    answer: object


class Note(NamedTuple):
    """What an engine concludes."""

    engine: int
    words: str


# Runs


class Recorder(Machines):
    """A world that keeps what its nodes are asked and answer."""

    def __init__(self):
        super().__init__()
        self.rows = []

    def serve(self, i, request):
        answer = super().serve(i, request)
        self.rows.append(Exchange(request, i, beyond_asked(request, answer)))
        return answer


def beyond_asked(request, answer):
    """The answer as it is sent: the model's answer to a pull has all facts of the node, also those that the request names."""
    if request[0] != "pull" or answer[0] != "pulled":
        return answer
    return (*answer[:-1], answer[-1] - request[-1])


class Story(MachineSchedule):
    """A schedule of which a part is drawn: from `begin` on."""

    kind = Recorder

    def __init__(self):
        super().__init__()
        self.before = []

    def begin(self):
        self.world.rows = []
        self.before = [state(node) for node in self.world.nodes]

    def heading(self, words):
        self.world.rows.append(Heading(words))

    def note(self, engine, words):
        self.world.rows.append(Note(engine, words))

    def lose(self, engine, i, kind):
        self.world.rows.append(Exchange(self.requests(engine, i, kind)[-1], i, None))

    def write(self, engine, page):
        """The next record of the engine's transaction, which is of this page and then of page 0."""
        self.do("write", engine, page, 0)
        return self.world.engines[engine]

    def crashed(self):
        """A committed transaction, which gossip brings node 3, and half of another at node 2; then node 1 loses its files."""
        a = self.committed()
        self.gossip_all([2])
        self.do("write", a, 1, 0)
        self.give(a, [1], "take")
        self.do("wipe", 0)
        return a

    def recovered(self):
        """And the next engine opens the volume over nodes 2 and 3, and admits node 1."""
        a = self.crashed()
        b = self.start(3, "seen")
        self.give(b, [0], "fence")
        self.known(b, [1, 2])
        self.readmit(b, 0)
        self.choose(b, [0, 1, 2])
        return a, b


def opening(story):
    story.crashed()
    story.begin()
    b = story.start(3, "seen")
    engine = story.world.engines[b]
    story.heading("1  Fence all nodes, and go on with two that answer; they answer no older engine any more")
    story.give(b, [0, 1, 2], "fence")
    story.note(b, f"quorum: nodes {' and '.join(str(i + 1) for i in engine.quorum)}; node 1 may be admitted under its new birth")
    story.heading("2  Ask, now that both are fenced, one for all that it has, and then each for what U lacks; U is the union")
    story.give(b, [engine.quorum[-1]], "pull")
    story.give(b, engine.quorum, "pull")
    story.heading("3  Find lo")
    seen = view(engine.union)
    story.note(b, f"no truncation is pending; U is complete up to {seen.complete}, and its last commit point is lo = {engine.lo}")
    story.heading("4  Make U known at two nodes")
    story.give(b, [1, 2], "push")
    story.heading("5  Admit the fresh node; U reaches it first")
    story.readmit(b, 0)
    story.heading("6  Propose the truncation that begins the next epoch, and send it when it is chosen")
    story.give(b, [1, 2], "propose")
    story.note(b, f"the truncation of epoch {engine.cut[1]} is chosen")
    story.give(b, [0, 1, 2], "take")
    dead = f"record {seen.complete} is dead, numbers go on above {engine.cut[3]}"
    story.note(b, f"the volume is open: epoch {engine.epoch}, commit point {engine.lo}; {dead}")


def commit(story):
    a, b = story.recovered()
    story.begin()
    story.heading("The first record of the transaction, of page 1, goes to all members; the one to node 3 is lost")
    engine = story.write(b, 1)
    story.give(b, [0, 1], "take")
    story.lose(b, 2, "take")
    story.heading("The record of page 0 ends the transaction: its number is the commit point")
    story.write(b, 1)
    story.give(b, [0], "take")
    story.give(b, [2], "take")
    story.note(b, "node 3 has a gap at 4, so its front is not at 5")
    story.give(b, [1], "take")
    story.note(b, f"durable: {engine.durable}. Nodes 1 and 2 have reported a front of epoch {engine.epoch} that has reached it")
    story.heading("The engine of generation 2 is still alive, and writes as well")
    story.write(a, 1)
    story.give(a, [1], "take")
    story.note(a, "fenced: it can report nothing durable any more, and ends")


RUNS = {
    "opening": ("An opening, three nodes and a write quorum of two", opening),
    "commit": ("A commit, three nodes and a write quorum of two", commit),
}


# In words


def cut_words(cut):
    return f"epoch {cut[1]}, lo {cut[2]}, hi {cut[3]}"


def pair_words(pair):
    return f"accepted {pair[0]}: {cut_words(pair[1])}" if pair else "nothing accepted"


def fact_words(fact):
    if fact[0] == "cut":
        return f"truncation: {cut_words(fact)}"
    return f"record {fact[2]} of epoch {fact[1]}, page {fact[4]}"


def set_words(facts):
    """A set of facts: the numbers of its records, and the epochs of its truncations."""
    numbers = sorted(fact[2] for fact in facts if fact[0] == "record")
    epochs = sorted(fact[1] for fact in facts if fact[0] == "cut")
    words = [f"{kind} {', '.join(map(str, found))}" for kind, found in (("records", numbers), ("epoch", epochs)) if found]
    return "; ".join(words) or "nothing"


def admit_words(generation, birth, epoch, complete, pair):
    return f"admit {generation} {birth + 1} epoch {epoch}, complete {complete}; {pair_words(pair)}"


REQUESTS = {
    "fence": lambda generation: f"fence {generation}",
    "gossip": lambda union: f"absorb U ({set_words(union)})",
    "admit": admit_words,
    "propose": lambda generation, birth, cut: f"propose {generation} {birth + 1} {cut_words(cut)}",
    "take": lambda generation, birth, fact: f"as {generation} {birth + 1} take {fact_words(fact)}",
    "pull": lambda generation, birth, asked: f"as {generation} {birth + 1} what do you have{' beyond U' if asked else ''}?",
    "push": lambda generation, birth, _: f"as {generation} {birth + 1} absorb U",
}
ANSWERS = {
    "fresh": lambda birth: f"fresh {birth + 1}",
    "stale": lambda generation: f"stale {generation}",
    "fenced": lambda generation, birth, pair: f"fenced {generation} {birth + 1}; {pair_words(pair)}",
    "pulled": lambda generation, birth, facts: f"{generation} {birth + 1} {set_words(facts)}",
    "front": lambda generation, birth, epoch, complete, _: f"{generation} {birth + 1} front {epoch} {complete}",
    "accepted": lambda generation, birth, epoch: f"accepted {generation} {birth + 1} epoch {epoch}",
    "admitted": lambda generation, birth: f"admitted {generation} {birth + 1}",
}


def request_words(request):
    return REQUESTS[request[0]](*request[2:])


def answer_words(answer):
    return ANSWERS[answer[0]](*answer[1:]) if answer else ""


def state(node):
    """A node in two lines: its guard, and its front."""
    guard = f"generation {node.generation}, birth {node.birth + 1}" if node.is_member else f"fresh, birth {node.birth + 1}"
    return guard, "front {} {}".format(*node.front())


# Drawing


def node_at(i):
    return NODE + i * NODES_APART


def height_of(row):
    is_plain = isinstance(row, Exchange) and row.request[0] == "gossip"
    return HIGH["Note" if is_plain else type(row).__name__]


def draw_box(canvas, x, y, half, tint, name, *lines):
    canvas.rect(x - half, y, 2 * half, 54, rx=4, fill=tint, stroke=forms.INK)
    canvas.centred(x, y + 17, name, 12, font_weight="bold")
    for down, line in zip((33, 48), lines):
        canvas.centred(x, y + down, line, 10)


def draw_nodes(canvas, y, states):
    """A box for each node with its name and its state."""
    for i, lines in enumerate(states):
        draw_box(canvas, node_at(i), y, 72, forms.TINTS[0], f"node {i + 1}", *lines)


def draw_lifelines(canvas, places, nodes, begin, end):
    for x in (*places.values(), *map(node_at, range(nodes))):
        canvas.line(x, begin, x, end, forms.QUIET, stroke_dasharray="2 4")


def draw_exchange(canvas, row, start, left, y):
    """The request from left to right above the answer, each with its words at the left."""
    goal = node_at(row.node)
    canvas.text(left, y + 11, request_words(row.request), 11)
    if row.answer is None and row.request[0] != "gossip":
        forms.arrow(canvas, f"M{start},{y + 16} H{goal - 60}")
        forms.cross(canvas, goal - 52, y + 16)
        canvas.text(left, y + 31, "lost", 11, fill=forms.RED)
        return
    forms.arrow(canvas, f"M{start},{y + 16} H{goal}")
    if row.answer is not None:
        canvas.text(left, y + 31, answer_words(row.answer), 11, fill=forms.GREEN)
        canvas.path(f"M{goal},{y + 35} H{start}", stroke=forms.GREEN, stroke_dasharray="5 3", marker_end="url(#to)")


def draw_row(canvas, row, places, y):
    if isinstance(row, Heading):
        canvas.rect(MARGIN, y + 6, WIDTH - 2 * MARGIN, 22, fill=BAND)
        canvas.text(MARGIN + 8, y + 21, row.words, 12, font_weight="bold")
    elif isinstance(row, Note):
        x, width = places[row.engine], forms.width_of(row.words, 11) + 12
        canvas.rect(x - 8, y + 4, width, 20, rx=4, fill=forms.TINTS[4], stroke=forms.INK)
        canvas.text(x, y + 18, row.words, 11)
    else:
        draw_exchange(canvas, row, places[row.request[1]], max(places.values()) + 10, y)


def in_words(rows):
    """The rows as sentences, for those who do not see the picture."""
    for row in rows:
        if isinstance(row, Exchange):
            answer = answer_words(row.answer) or ("no answer" if row.request[0] == "gossip" else "lost")
            yield f"Node {row.node + 1}, {request_words(row.request)}: {answer}."
        else:
            yield f"{row.words}."


def engines_of(rows):
    """The engines that occur, each with its place."""
    numbers = sorted({row.request[1] if isinstance(row, Exchange) else row.engine for row in rows if not isinstance(row, Heading)})
    return {number: ENGINE + i * APART for i, number in enumerate(numbers)}


def drawn(name):
    """The picture of a run."""
    title, run = RUNS[name]
    story, canvas = Story(), forms.Canvas()
    run(story)
    if story.end():
        raise ValueError(f"{name}: {story.violation}")
    rows, places = story.world.rows, engines_of(story.world.rows)
    end = TOP + HEAD + sum(map(height_of, rows))
    canvas.text(MARGIN, 30, title, 17, font_weight="bold")
    canvas.text(MARGIN, 50, HOW_TO_READ, 12, fill=forms.QUIET)
    draw_lifelines(canvas, places, len(story.world.nodes), TOP, end + 8)
    for number, x in places.items():
        draw_box(canvas, x, TOP, 44, forms.TINTS[1], "engine", f"generation {story.world.engines[number].generation}")
    draw_nodes(canvas, TOP, story.before)
    y = TOP + HEAD
    for row in rows:
        draw_row(canvas, row, places, y)
        y += height_of(row)
    draw_nodes(canvas, y + 8, [state(node) for node in story.world.nodes])
    return canvas.svg(WIDTH, y + 8 + FOOT + MARGIN, title, " ".join(in_words(rows)))
