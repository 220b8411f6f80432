"""That each clause, theorem and definition that docs/PROMISES.md names is in the source, in the file that its row names.

A row is `| promise | calls | clauses | files |`. Each call is in one of the files. A clause is the label of an `ensures` or `requires` of
the call, `ensures` or `requires` itself where it has no label, a ghost field or ghost item of a type, or a field of a record of `specs/`.
In place of clauses a row may say `type`, for what a signature or a type excludes, or `definition`.
"""

import functools
import re

import pytest

from harness import ROOT

PAGE = ROOT / "docs/PROMISES.md"
CRATES = ROOT / "crates"
QUOTED = re.compile(r"`([^`]+)`")
FUNCTION = re.compile(r"(?:pub(?:\([a-z]+\))? )?(?:extern \"C\" )?fn (\w+)")
TYPE = re.compile(r"(?:pub(?:\([a-z]+\))? )?(?:struct|enum|trait) (\w+)")
OWNER = re.compile(r"impl(?:<(?:[^<>]|<[^<>]*>)*>)? (?:.* for )?(\w+)")
CLAUSE = re.compile(r"(ensures|requires)\*?(?: (\w+))? \{")
GHOST = re.compile(r"ghost (\w+)(?::| =)")
DEFINITION = re.compile(r"(?:(?:pub|abbrev|unfoldable|record|data|constructor) )*([^\s(){}]+) ")


def clauses_of_code(text):
    """The clauses of each function and type of a source file, by its name; of a method as `Owner::name`."""
    found, owner, current = {}, None, None
    for line in text.splitlines():
        head = line.strip()
        if typed := OWNER.match(line) or TYPE.match(line):
            owner = current = typed[1]
            found.setdefault(owner, set())
        elif line.startswith("}"):
            owner = current = None
        if named := FUNCTION.match(head):
            current = f"{owner}::{named[1]}" if owner else named[1]
            found[current] = set()
        if (clause := CLAUSE.match(head)) and current:
            found[current].add(" ".join(filter(None, clause.groups())).removeprefix("ensures "))
        elif (ghost := GHOST.match(head)) and owner:
            found[owner].add(ghost[1])
    return found


def clauses_of_definitions(text):
    """The definitions of a file of `specs/`, each with the fields of its record."""
    found, current = {}, None
    for line in text.splitlines():
        named = DEFINITION.match(line.strip())
        if line.startswith("  ") and named and current:
            found[current].add(named[1])
        elif named and not line.startswith(("use ", "--")):
            current = named[1]
            found.setdefault(current, set())
    return found


@functools.cache
def clauses_in(name):
    path = CRATES / name
    if not path.is_file():
        return None
    return (clauses_of_code if path.suffix == ".rt" else clauses_of_definitions)(path.read_text())


@functools.cache
def names_of_crates():
    """Every word of the code and of the definitions."""
    files = [*CRATES.glob("*/src/**/*.rt"), *CRATES.glob("*/specs/**/*.antt")]
    return {word for path in files for word in re.findall(r"\w+", path.read_text())}


def rows_of(text):
    """The rows of the page's tables, each as its four cells. A heading and the line under it are none."""
    for line in text.splitlines():
        cells = [cell.strip() for cell in re.split(r"(?<!\\)\|", line)[1:-1]]
        if len(cells) == 4 and cells[1] != "Call" and set(cells[0]) != {"-"}:
            yield cells


def faults_of(row):
    promise, calls, clauses, files = row
    sources = {name: clauses_in(name) for name in QUOTED.findall(files)}
    if not sources or None in sources.values():
        yield f"no such file: {files}"
        return
    for name in QUOTED.findall(promise):
        if name[0].isupper() and name.isidentifier() and name not in names_of_crates():
            yield f"no such name: {name}"
    if not QUOTED.search(clauses) and clauses not in ("type", "definition"):
        yield f"no clause: {clauses}"
    for call in QUOTED.findall(calls) or [calls]:
        places = [found for found in sources.values() if call in found]
        if not places:
            yield f"no {call} in {files}"
        for clause in QUOTED.findall(clauses):
            if places and not any(clause in found[call] for found in places):
                yield f"{call} has no clause {clause} in {files}"


ROWS = list(rows_of(PAGE.read_text()))


def test_there_are_promises():
    assert len(ROWS) > 150


@pytest.mark.parametrize("row", ROWS, ids=lambda row: re.sub(r"[^\w ]", "", f"{row[1]} {row[2]}"))
def test_clauses_are_in_the_source(row):
    assert list(faults_of(row)) == [], row[0]


FALSE = [
    ("| p | `Segment::take` | `meant` | `segment_core/src/segment.rt` |", "has no clause meant"),
    ("| p | `Segment::taken` | `means` | `segment_core/src/segment.rt` |", "no Segment::taken in"),
    ("| p | `take` | `means` | `segment_core/src/segment.rt` |", "no take in"),
    ("| p | `Segment::take` | `means` | `segment_core/src/segments.rt` |", "no such file"),
    ("| p | `Segment::take` | means | `segment_core/src/segment.rt` |", "no clause"),
    ("| p | `IsSounder` | definition | `redo_core/specs/Sound.antt` |", "no IsSounder in"),
    ("| `IsSounder` | `IsSound` | definition | `redo_core/specs/Sound.antt` |", "no such name"),
]


@pytest.mark.parametrize("line, fault", FALSE, ids=[fault for _, fault in FALSE])
def test_a_false_row_is_refused(line, fault):
    (row,) = rows_of(line)
    assert fault in "".join(faults_of(row))
