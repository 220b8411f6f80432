"""That the documents say what is: the map, the files that they name, the code that they quote, pictures, counts and limits of length."""

import re

import pytest

from harness import ROOT, ran

import build  # of tools/
import draw

CRATES = build.read_crates()
PAGES = [ROOT / "README.md", *sorted((ROOT / "docs").glob("*.md")), *sorted(ROOT.glob("*/README.md"))]
EACH_PAGE = pytest.mark.parametrize("page", PAGES, ids=lambda page: str(page.relative_to(ROOT)))
FOLDERS = "crates|docs|examples|tests|tools|bench|client|embedding|store|volume|sqlite|.ci"
FILE = re.compile(r"`((?:\.\./)?[\w./*-]+\.(?:md|py|rt|rs|antt|txt|texts|requests|sql|sh|c|h))`")
MAP_ROW = re.compile(r"^\| `([a-z_]+)` \| [^|]* \|([^|]*)\|$", re.M)


def test_map_has_the_crates():
    """Each row names what the crate depends on, a library of the kit in backquotes, in the order of crates.txt."""
    rows = build.read_rows()
    named = [(name, deps.strip()) for name, deps in MAP_ROW.findall((ROOT / "docs/MAP.md").read_text()) if name in rows]
    assert named == [(name, ", ".join(dep if dep in rows else f"`{dep}`" for dep in deps)) for name, deps in rows.items()]


@pytest.mark.parametrize("name", CRATES)
def test_readme_names_the_users(name):
    users = re.search(r"(?m)^\*\*Used by\*\* (.*)$", (ROOT / "crates" / name / "README.md").read_text()).group(1)
    assert {word for word in re.findall(r"`(\w+)`", users) if word in CRATES} == {other for other in CRATES if name in CRATES[other]}


@EACH_PAGE
def test_named_files_are_there(page):
    """A file is named by its path from the top, or by its name in the same folder or in docs/; in the page of a folder also from its `src` on."""
    named = [name for name in FILE.findall(page.read_text()) if "NAME" not in name]
    if page.parent in (ROOT, ROOT / "docs"):  # whose other names are of files in crates
        named = [name for name in named if name.split("/")[0] in FOLDERS.split("|") or ("/" not in name and name.endswith((".md", ".py")))]
    places = (ROOT, ROOT / "docs", ROOT / "crates", page.parent, page.parent / "src", page.parent / "c")
    assert [name for name in named if not any(any(place.glob(name)) for place in places)] == []


@EACH_PAGE
def test_named_sources_are_there(page):
    """A file of a crate is named from `crates/` or from the crate on, with its ending or without."""
    names = re.findall(r"`(?:crates/)?([a-z_]+/(?:src|specs|proofs)/[A-Za-z_/]+(?:\.rt|\.antt)?)`", page.read_text())
    assert [name for name in names if not any(ROOT.glob(f"crates/{name}")) and not any(ROOT.glob(f"crates/{name}.*"))] == []


@EACH_PAGE
def test_shown_pictures_are_there(page):
    shown = re.findall(r"!\[[^]]*\]\(([^)]*)\)", page.read_text())
    assert [name for name in shown if not (page.parent / name).exists()] == []


def test_the_embedding_of_threads():
    """Each block of RUNNING_THREADS is a part of the example that is built, whole lines of it."""
    blocks = re.findall(r"^```rust\n(.*?)^```$", (ROOT / "docs/RUNNING_THREADS.md").read_text(), re.DOTALL | re.MULTILINE)
    source = "\n" + (ROOT / "crates/serve_example/src/main.rt").read_text()
    assert blocks and [block for block in blocks if "\n" + block not in source] == []


def test_pictures_are_made():
    """Each picture is byte for byte what the command makes that a document has for it (`make pictures`)."""
    made = draw.pictures()
    assert set(made) == set((ROOT / "docs/pictures").iterdir())
    assert [path.name for path, content in made.items() if path.read_bytes() != content] == []


def test_readme_names_the_kit():
    """The program logic of the kit at hand, on which all proofs rest. A kit of another name with the same logic is no fault."""
    kit = ran(["rt", "version"])[0].strip()
    assert kit[kit.index("logic ") :] in (ROOT / "README.md").read_text()


def test_readme_counts_crates():
    """How many crates the first `make` proves."""
    assert f"proves {len(build.closure(CRATES, ['fleet', 'fleet_node']))} crates" in (ROOT / "README.md").read_text()


def test_mutants_are_few():
    assert len(list(ROOT.glob("crates/*/must-fail/*.edit"))) <= 100


@pytest.mark.parametrize("page, lines, characters", [("README.md", 150, 9000), ("docs/GATE.md", 60, 9000)])
def test_page_is_short(page, lines, characters):
    text = (ROOT / page).read_text()
    assert text.count("\n") <= lines and len(text) <= characters


TOOLS = [it for folder in ("tools", "bench", "examples") for it in sorted((ROOT / folder).iterdir()) if it.is_file() and it.stat().st_mode & 1]


@pytest.mark.parametrize("tool", TOOLS, ids=lambda it: it.name)
def test_tool_answers_help(tool):
    output, said = ran([tool, "--help"])
    assert output.startswith("usage: ") and said == ""
