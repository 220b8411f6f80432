"""The transcript of a mutant in the documents: the change that they name, made in a copy, is refused in the words that they print."""

import itertools
import re
import shutil
import subprocess

import pytest

from harness import ROOT, spoilt

SOURCE = "crates/segment_core/src/segment.rt"
COMMAND = "$ cd crates/segment_core && rt check "
CONDITION = "        if front.complete < point {\n"
CHANGED = re.compile(r"`(?:if )?(front\.complete < [^`{]*[^`{ ])(?: \{)?`")
SECONDS = 1800  # until the check counts as not ended; a minute or two where the crates below are checked already


def printed_below(lines):
    """The lines that a command is shown to print: those that are indented as it is, up to the next command."""
    indent = lines[0][: -len(lines[0].lstrip())]
    printed = itertools.takewhile(lambda line: line.strip() and line.startswith(indent) and not line.startswith(f"{indent}$ "), lines[1:])
    return [line.removeprefix(indent) for line in printed]


def transcripts():
    """Of each document that has the command: its name, the change that it names before it, the command, and the lines that this prints."""
    for path in [*ROOT.glob("*.md"), *ROOT.glob("docs/*.md")]:
        lines = path.read_text().split("\n")
        for place, line in enumerate(lines):
            if line.strip().startswith(COMMAND):
                changes = CHANGED.findall("\n".join(lines[:place]))
                yield path.name, changes[-1] if changes else None, line.strip().removeprefix("$ "), printed_below(lines[place:])


def test_the_documents_have_one_transcript():
    found = {name: told for name, *told in transcripts()}
    assert found and all(change and printed for change, _, printed in found.values()), found
    assert len({str(told) for told in found.values()}) == 1, found


@pytest.mark.skipif(shutil.which("rt") is None, reason="rt is not on the path")
def test_the_mutant_is_refused_as_printed(tmp_path):
    """In a copy of the crates without what was built: rt begins there with what it kept of crates that are the same."""
    _, change, command, printed = next(transcripts())
    shutil.copytree(ROOT / "crates", tmp_path / "crates", ignore=shutil.ignore_patterns("out"))
    for name in ("crates.txt", "HANDLES"):
        shutil.copy2(ROOT / name, tmp_path / name)
    with spoilt(tmp_path / SOURCE, {CONDITION: f"        if {change} {{\n"}):
        done = subprocess.run(["bash", "-c", command], cwd=tmp_path, capture_output=True, text=True, timeout=SECONDS)
    assert done.stdout.splitlines() == printed, f"{command} with {change}\n{done.stderr[-2000:]}"
    shutil.rmtree(tmp_path / "crates")
