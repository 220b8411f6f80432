"""The forms of a picture of a log, as SVG: a canvas that collects them, the marks on it, and the legend of those that were drawn.

Each place is a whole number and nothing goes by the order of a set, so one picture has one encoding in bytes. No two marks
differ in colour alone: each has its own shape, or its own dashes.
"""

from html import escape

INK, QUIET, GRID, PAPER = "#222222", "#5f5f5f", "#e4e4e4", "#ffffff"
RED, BLUE, GREEN = "#b3261e", "#a9c9ec", "#1b7a43"
TINTS = ("#cfe3f6", "#fbdcc0", "#cdebd8", "#f0d3e6", "#ece4b8", "#d9d6f2")
BOX_DASHES = {"dead": "5 3", "waiting": "1 3"}

PATTERNS = (
    '<defs><marker id="to" viewBox="0 0 8 8" refX="8" refY="4" markerWidth="7" markerHeight="7" orient="auto">'
    f'<path d="M0,0 L8,4 L0,8 z" fill="{INK}"/></marker>'
    '<pattern id="annulled" width="8" height="8" patternUnits="userSpaceOnUse" patternTransform="rotate(45)">'
    f'<line x1="0" y1="0" x2="0" y2="8" stroke="{RED}" stroke-opacity="0.45" stroke-width="1.5"/></pattern></defs>'
)


def width_of(words, size=12):
    """About how wide words are; a little more than most fonts make them."""
    return len(words) * size * 31 // 50


class Canvas:
    """Forms in the order in which they cover each other, and the kinds of mark among them."""

    def __init__(self):
        self.forms = []
        self.kinds = set()

    def add(self, name, content="", **attributes):
        encoded = "".join(f' {key.replace("_", "-")}="{escape(str(value))}"' for key, value in attributes.items())
        self.forms.append(f"<{name}{encoded}>{escape(content)}</{name}>" if content else f"<{name}{encoded}/>")

    def line(self, x1, y1, x2, y2, stroke=INK, **more):
        self.add("line", x1=x1, y1=y1, x2=x2, y2=y2, stroke=stroke, **more)

    def rect(self, x, y, width, height, **more):
        self.add("rect", x=x, y=y, width=width, height=height, **more)

    def circle(self, x, y, r, fill=PAPER, **more):
        self.add("circle", cx=x, cy=y, r=r, fill=fill, **more)

    def path(self, steps, fill="none", stroke=INK, **more):
        self.add("path", d=steps, fill=fill, stroke=stroke, **more)

    def text(self, x, y, words, size=12, **more):
        self.add("text", words, x=x, y=y, font_size=size, **{"fill": INK, **more})

    def centred(self, x, y, words, size=12, **more):
        self.text(x, y, words, size, text_anchor="middle", **more)

    def mark(self, kind, x, y):
        """Draws what the legend has for this kind."""
        self.kinds.add(kind)
        LEGEND[kind][1](self, x, y)

    def svg(self, width, height, title, description):
        """The whole picture; `description` says in words what it shows."""
        head = (
            f'<svg xmlns="http://www.w3.org/2000/svg" width="{width}" height="{height}" viewBox="0 0 {width} {height}" '
            'role="img" aria-labelledby="title description" font-family="DejaVu Sans, Verdana, Arial, sans-serif">'
        )
        words = (f'<title id="title">{escape(title)}</title>', f'<desc id="description">{escape(description)}</desc>')
        ground = f'<rect width="{width}" height="{height}" fill="{PAPER}"/>'
        return "\n".join([head, *words, PATTERNS, ground, *self.forms, "</svg>", ""])


# Records of the log


def cross(canvas, x, y):
    canvas.circle(x, y, 7)
    canvas.path(f"M{x - 5},{y - 5} L{x + 5},{y + 5} M{x - 5},{y + 5} L{x + 5},{y - 5}", stroke=RED, stroke_width=2)


def box(canvas, kind, x, y, half, high, tint):
    """A record: filled where it is linked; in dashes and with a cross where it is dead."""
    dashes = {"stroke_dasharray": BOX_DASHES[kind]} if kind in BOX_DASHES else {}
    canvas.rect(x - half, y - high // 2, 2 * half, high, rx=4, fill=tint if kind == "linked" else PAPER, stroke=INK, **dashes)
    canvas.kinds.add(f"{kind} box")
    if kind == "dead":
        cross(canvas, x + half, y - high // 2)


def init_edge(canvas, x, y, half, high):
    """What shows that the record's page begins again there: a thick edge, where the walk down the page's chain ends."""
    canvas.kinds.add("init")
    canvas.rect(x - half, y - high // 2, 6, high, fill=INK)


def flag(canvas, x, y):
    """What marks a record that breaks a law, at a corner of its box."""
    canvas.circle(x, y, 8, RED)
    canvas.centred(x, y + 5, "!", 13, fill=PAPER, font_weight="bold")


def arrow(canvas, steps):
    canvas.kinds.add("backlink")
    canvas.path(steps, marker_end="url(#to)")


def annulled(canvas, x, y, width, height):
    canvas.kinds.add("annulled")
    canvas.rect(x, y, width, height, fill="url(#annulled)")
    canvas.path(f"M{x},{y} V{y + height} H{x + width}", stroke=RED, stroke_width=2)


def hi(canvas, x, y):
    """Where the numbers of an epoch begin, on its lane."""
    canvas.path(f"M{x + 6},{y - 13} H{x} V{y + 13} H{x + 6}", stroke=RED, stroke_width=2)


# What a node has


def waiting(canvas, x, y):
    canvas.path(f"M{x - 8},{y} L{x},{y - 8} L{x + 8},{y} L{x},{y + 8} z", PAPER, stroke_width=2, stroke_dasharray="3 2")


def absent(canvas, x, y):
    canvas.circle(x, y, 5)
    canvas.circle(x, y, 2, QUIET)


def point(canvas, x, y, fill=INK, **dashes):
    canvas.path(f"M{x},{y - 6} L{x + 6},{y + 5} H{x - 6} z", fill, **dashes)


def cut(canvas, x, y, half=18):
    canvas.kinds.add("cut")
    canvas.line(x, y - half, x, y + half, RED, stroke_width=2, stroke_dasharray="4 3")


def settled(canvas, begin, end, y):
    """What is at or below a node's anchor."""
    canvas.kinds.add("anchor")
    canvas.rect(begin, y - 10, end - begin, 20, fill=BLUE)
    canvas.line(end, y - 14, end, y + 14, INK, stroke_width=3)


def readable(canvas, begin, end, y, half=15):
    canvas.kinds.add("readable")
    canvas.rect(begin, y - half, end - begin, 2 * half, rx=6, fill="none", stroke=GREEN, stroke_width=2)


# The legend


def small_box(kind):
    return lambda canvas, x, y: box(canvas, kind, x, y, 12, 16, TINTS[0])


def small_init(canvas, x, y):
    small_box("linked")(canvas, x, y)
    init_edge(canvas, x, y, 12, 16)


# Of each kind: its words, and how it is drawn beside them
LEGEND = {
    "linked box": ("record, with LSN and page", small_box("linked")),
    "dead box": ("dead record", small_box("dead")),
    "waiting box": ("record of an epoch not begun", small_box("waiting")),
    "apart box": ("record that is not linked", small_box("apart")),
    "init": ("its page begins with zeros (init)", small_init),
    "fault": ("the record breaks a law", flag),
    "backlink": ("backlink to the record before", lambda canvas, x, y: arrow(canvas, f"M{x + 14},{y} H{x - 14}")),
    "annulled": ("annulled by a truncation", lambda canvas, x, y: annulled(canvas, x - 12, y - 9, 24, 16)),
    "hi": ("hi: its epoch's numbers begin", hi),
    "point": ("advance, or a reader's point", point),
    "later point": ("advance that waits", lambda canvas, x, y: point(canvas, x, y, PAPER, stroke_dasharray="2 2")),
    "linked": ("linked", lambda canvas, x, y: canvas.circle(x, y, 6, INK)),
    "apart": ("came, but is after a gap", lambda canvas, x, y: canvas.circle(x, y, 6, stroke=INK, stroke_width=2)),
    "waiting": ("waits for its epoch", waiting),
    "dead": ("came, and is dead", cross),
    "absent": ("has not come", absent),
    "cut": ("truncation that came, at its lo", lambda canvas, x, y: cut(canvas, x, y, 10)),
    "early cut": ("truncation: annuls nothing yet", lambda canvas, x, y: canvas.centred(x, y + 4, "( )", 12, fill=RED)),
    "anchor": ("up to the anchor", lambda canvas, x, y: settled(canvas, x - 12, x + 10, y)),
    "readable": ("where pages may be read", lambda canvas, x, y: readable(canvas, x - 14, x + 14, y, 9)),
}


def legend(canvas, y, width):
    """Explains the kinds that were drawn, three beside each other; how high it is."""
    shown = [entry for kind, entry in LEGEND.items() if kind in canvas.kinds]
    for i, (words, draw) in enumerate(shown):
        x, line = 34 + (i % 3) * (width // 3), y + 14 + (i // 3) * 30
        draw(canvas, x, line)
        canvas.text(x + 24, line + 4, words, 12)
    return (len(shown) + 2) // 3 * 30
