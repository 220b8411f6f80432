"""That documents, help pages, messages and the docstrings of public items are plain: the words that they avoid, and limits of length.

Names in backquotes and blocks of code are left out, so formats, commands and signatures keep their words.
"""

import ast
import re

import pytest

from harness import ROOT

PAGES = [ROOT / "README.md", *sorted((ROOT / "docs").glob("*.md")), *sorted(ROOT.glob("*/README.md")), *sorted(ROOT.glob("crates/*/README.md"))]
HEADERS = sorted(ROOT.glob("*/include/*.h"))
HELP = sorted((ROOT / "docs/help").glob("*.txt"))
SOURCES = [f"{crate}/src/**/*.rs" for crate in ("client", "embedding", "store", "volume", "volume/c")]
SOURCES += [f"crates/{path.name}/src/**/*.rt" for path in sorted((ROOT / "crates").iterdir()) if (path / "src").is_dir()]
TOOLS = ["bench/*.py", "examples/*.py", "tools/*.py", "sqlite/src/*.c", "sqlite/src/*.h"]

# What to write in place of a word; the words are those that mean several things, or that the field has another term for.
PLAIN = {
    r"tell|tells|told|telling": "report, return, describe, send, export",
    r"stands?|stood": "is, are, is listed in, depends on",
    r"(?:is|are) due|due (?:to|at|in|for) (?:be|the)|pages? due": "pending, scheduled",
    r"spell(?:s|ed|ing|ings)?|spelt": "encode, encoding",
    r"wants?|wanted|wanting": "require, need; memory runs out",
    r"behind(?! (?:an? |one\b|standard\b))": "after, following",
    r"lend|lends|lent|lending": "borrow",
    r"floors?": "layer, default version",
    r"headlines?": "main theorem",
    r"hydrat\w+": "snapshot, restore",
    r"wrong bod(?:y|ies)|must-fail edits?": "mutant",
    r"held records?|records? (?:that (?:is|are) |is |are )?held|held under": "stored",
    r"plain (?:slow )?(?:model|program)": "reference model",
    r"settled": "stable, verified",
    r"hangs?(?: on)?|hung": "is blocked by",
    r"strays?": "orphan record",
    r"is shown|are shown": "is reported, appears",
    r"over any facts": "for any facts",
    r"anew": "again, from scratch",
    r"throws? away|threw away|thrown away|let go|lets go": "drop, discard",
    r"goes? over|goes through|going over|comes? to|looks? at": "scan, visit, reach",
    r"laws?(?= `)|laws of (?:facts|merging|those|its changes)": "theorem",
    r"by rows|rows alone": "by test cases",
    r"processor (?:time|seconds?)|in a hundred|times as long": "CPU time, percent",
}
AVOIDED = {re.compile(rf"\b(?:{words})\b", re.I): instead for words, instead in PLAIN.items()}

BLOCK = r"^```[\s\S]*?^```$|^    .*$"
CODE = re.compile(BLOCK + r"|`[^`\n]*`", re.M)
WORD = re.compile(r"\S*\w\S*")
# A comment, a character, bytes or a text of a source file; the text alone is a group.
TOKEN = re.compile(r"""//.*|/\*[\s\S]*?\*/|'(?:\\.|[^'\\])'|b"(?:[^"\\]|\\.)*"|"((?:[^"\\]|\\[\s\S])*)\"""")
LONGEST_MEAN = 20  # words of a sentence, on each page
# Words of a page, without its blocks of code.
MOST_WORDS = {
    "README.md": 1350,
    "docs/CONCEPTS.md": 2800,
    "docs/CONTRIBUTING.md": 1500,
    "docs/DECISIONS.md": 6250,
    "docs/EMBEDDING.md": 3850,
    "docs/FORMATS.md": 5000,
    "docs/GATE.md": 890,
    "docs/GLOSSARY.md": 1600,
    "docs/HOW_IT_IS_PROVED.md": 1500,
    "docs/LIMITS.md": 1500,
    "docs/MAP.md": 2100,
    "docs/OPERATING.md": 2600,
    "docs/PROMISES.md": 9000,
    "docs/RULES.md": 2900,
    "docs/RUNNING_THREADS.md": 1300,
    "docs/VOLUMES.md": 2700,
    "bench/README.md": 600,
    "embedding/README.md": 600,
    "examples/README.md": 2600,
    "tests/README.md": 600,
    "tools/README.md": 600,
}
MOST_WORDS_OF_A_CRATE = 300
MOST_WORDS_OF_ANOTHER_PAGE = 1500
MOST_WORDS_TOGETHER = 40000  # of README.md and docs, with their blocks of code, but for the pages of volumes
OF_VOLUMES = ("docs/OPERATING.md", "docs/VOLUMES.md")


def name_of(path):
    return str(path.relative_to(ROOT))


def avoided(text):
    """The avoided words of a text, each with what to write in its place."""
    text = CODE.sub(lambda found: re.sub(r"[^\n`]", " ", found[0]), text)
    for number, line in enumerate(text.splitlines(), 1):
        for words, instead in AVOIDED.items():
            for found in words.finditer(line):
                yield f"line {number}: {found[0]} (write: {instead})"


def meanings(text):
    """A glossary without its first column, which has the words themselves."""
    return re.sub(r"(?m)^\| [^|]* \|", "|", text)


def docstrings(text):
    """A source file of which only the docstrings of public items, and of the file itself, are left, each on its line."""
    kept, block = [], 0
    for line in map(str.strip, text.splitlines()):
        kept.append(line[3:].strip() if line.startswith(("///", "//!")) else "")
        if line.startswith("///") or line.startswith("#["):
            block += 1
            continue
        if not line.startswith("pub "):
            kept[len(kept) - 1 - block : len(kept) - 1] = [""] * block
        block = 0
    return "\n".join(kept)


def messages(path):
    """The texts in a source file that have a space, a line each, without what a format fills in. Modules of tests are left out."""
    if path.suffix == ".py":
        found = [it.value for it in ast.walk(ast.parse(path.read_text())) if isinstance(it, ast.Constant) and isinstance(it.value, str)]
    else:
        source = re.sub(r"#\[cfg\(test\)\][\s\S]*", "", path.read_text())
        found = [it[1] for it in TOKEN.finditer(source) if it[1]]
    return "\n".join(re.sub(r"\{[^}]*\}|\n", " ", it) for it in found if " " in it)


def without_code(text):
    return re.sub(BLOCK, "", text, flags=re.M)


def sentences(text):
    """The sentences of a page's paragraphs and lists, in words. Tables, headings, pictures and the users of a crate are left out."""
    lines = [line for line in without_code(text).splitlines() if not line.startswith(("|", "#", "!", "**Used by**"))]
    for paragraph in re.split(r"\n\s*\n|\n(?=\s*(?:-|\d+\.) )", "\n".join(lines)):
        for sentence in re.split(r"(?<=[.!?])\s+", paragraph.strip()):
            if WORD.search(sentence):
                yield len(WORD.findall(sentence))


@pytest.mark.parametrize("page", PAGES + HELP + HEADERS, ids=name_of)
def test_pages_avoid_words(page):
    text = page.read_text()
    assert list(avoided(meanings(text) if page.name == "GLOSSARY.md" else text)) == []


@pytest.mark.parametrize("place", SOURCES)
def test_docstrings_avoid_words(place):
    assert [f"{name_of(path)}, {word}" for path in sorted(ROOT.glob(place)) for word in avoided(docstrings(path.read_text()))] == []


@pytest.mark.parametrize("place", [place for place in SOURCES + TOOLS if "_cases/" not in place])
def test_messages_avoid_words(place):
    assert [f"{name_of(path)}, {word}" for path in sorted(ROOT.glob(place)) for word in avoided(messages(path))] == []


@pytest.mark.parametrize("page", PAGES, ids=name_of)
def test_pages_are_short(page):
    words = len(WORD.findall(without_code(page.read_text())))
    most = MOST_WORDS_OF_A_CRATE if name_of(page).startswith("crates/") else MOST_WORDS_OF_ANOTHER_PAGE
    assert words <= MOST_WORDS.get(name_of(page), most)


@pytest.mark.parametrize("page", PAGES, ids=name_of)
def test_sentences_are_short(page):
    lengths = list(sentences(page.read_text()))
    assert not lengths or sum(lengths) / len(lengths) <= LONGEST_MEAN


def test_documents_are_short():
    pages = [page for page in PAGES if page.parent in (ROOT, ROOT / "docs") and name_of(page) not in OF_VOLUMES]
    assert sum(len(WORD.findall(page.read_text())) for page in pages) <= MOST_WORDS_TOGETHER


def test_avoided_words_are_found():
    assert [word.split(" (")[0] for word in avoided("It is told\nbehind the last, anew.")] == ["line 1: told", "line 2: behind", "line 2: anew"]
    assert list(avoided("A node behind a lock; `told`, and\n\n    told\n\n```\nanew\n```\n")) == []
    assert docstrings("//! Of the file.\n\n/// Kept.\n#[derive(Drop)]\npub struct A;\n/// Not.\nstruct B;\n").split("\n") == ["Of the file.", "", "Kept.", "", "", "", ""]
    assert list(sentences("# No\n\nOne two. Three.\n\n- Four five six\n\n    no\n")) == [2, 1, 3]
