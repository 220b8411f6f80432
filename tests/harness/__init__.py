"""What the tests share: runs of programs, copies of sources, cases in files, rounds of random inputs, and failures made small."""

import ast
import contextlib
import os
import random
import re
import shutil
import subprocess
import time
from pathlib import Path
from typing import NamedTuple

ROOT = Path(__file__).resolve().parents[2]
CASES = ROOT / "tests/cases"
SECONDS = 60  # until a run counts as not ended


class Answer(NamedTuple):
    status: int  # None where the run did not end
    output: bytes
    said: bytes = b""  # on standard error


def answer(program, words, text=b"", **streams):
    """What a run of the program ends with; the text is its standard input."""
    streams = {"stdout": subprocess.PIPE, "stderr": subprocess.PIPE, **streams}
    try:
        done = subprocess.run([program, *words], timeout=SECONDS, input=text, check=False, **streams)
    except subprocess.TimeoutExpired:
        return Answer(None, b"", b"no end after %d seconds" % SECONDS)
    return Answer(done.returncode, done.stdout, done.stderr)


def ran(words, status=0, timeout=5 * SECONDS, **settings):
    """Standard output and standard error of a command that is to end with this status."""
    done = subprocess.run(words, capture_output=True, text=True, timeout=timeout, check=False, **settings)
    assert done.returncode == status, f"{words}\n{done.stdout[-2000:]}{done.stderr[-2000:]}"
    return done.stdout, done.stderr


# Copies of sources


def copy_of(folder, *names):
    """Copies folders of the repository into another folder, without what was built of them."""
    for name in names:
        shutil.copytree(ROOT / name, folder / name, ignore=shutil.ignore_patterns("build", "target"))


@contextlib.contextmanager
def spoilt(path, changes):
    """A block in which a file has other texts in place of some that it has once each."""
    text = changed = path.read_text()
    for old, new in changes.items():
        assert changed.count(old) == 1, f"{path.name} has {changed.count(old)} places of {old}"
        changed = changed.replace(old, new)
    path.write_text(changed)
    try:
        yield
    finally:
        path.write_text(text)


# Cases in files


class Case(NamedTuple):
    name: str
    task: str
    text: bytes
    output: bytes
    said: bytes = None  # what --explain says, where the case has it

    @property
    def status(self):
        return 0 if self.task == "inspect" else {b"bad": 2, b"unsound": 3}.get(self.output.split(b" ")[0], 0)


def encoded(text):
    """The bytes of a text: `\\` at the end of a line joins it with the next one, `\\n` is LF, `\\xNN` a byte, `\\{TEXT*N}` a text N times."""
    text = re.sub(r"\\\{([^}]*)\*([0-9]+)\}", lambda it: it[1] * int(it[2]), text.replace("\\\n", ""))
    return re.sub(r"\\(n|r|x[0-9a-f]{2})", lambda it: ast.literal_eval(f"'{it[0]}'"), text).encode("latin-1")


def of_row(row):
    """Task, text, answer and explanation of a row `TASK: TEXT -> ANSWER -> EXPLANATION`; the explanation may be left out."""
    task, _, rest = row.partition(": ")
    text, output, *said = rest.split(" -> ")
    return task, text, output + "\n" * bool(output), "".join(said)


def of_block(block):
    """The same of a block: the head `TASK NAME`, and lines `TEXT -> ANSWER`, either of which may be left out."""
    head, *lines = block.rstrip("\n").split("\n")
    parts = [line.partition("-> ") for line in lines]
    text = "".join(given.removesuffix(" " * bool(arrow)) + "\n" for given, arrow, _ in parts if given or not arrow)
    return head, text, "".join(answer + "\n" for _, arrow, answer in parts if arrow), ""


def blocks(path):
    """The blocks and rows of a file of cases."""
    for block in re.split(r"^== ", path.read_text(), flags=re.M)[1:]:
        is_table = block.startswith("rows\n")
        yield from map(of_row, block.rstrip("\n").split("\n")[1:]) if is_table else [of_block(block)]


def cases():
    """The cases of tests/cases/*.texts, as README.md describes them."""
    for path in sorted(CASES.glob("*.texts")):
        log = ""
        for head, text, output, said in blocks(path):
            task, _, name = head.partition(" ")
            text = encoded(re.sub(r"(?m)^log\n", lambda _: log, text))
            if task == "log":
                log = text.decode("latin-1")
            else:
                yield Case(f"{path.stem}: {task} {name or last_line(text)}", task, text, encoded(output), said.encode() or None)


def last_line(text):
    line = text.removesuffix(b"\n").rpartition(b"\n")[2]
    return "".join(c if c.isprintable() else "." for c in line[:40].decode("latin-1")) or "empty"


# Random inputs


def rounds(seed, name, seconds):
    """A generator of random numbers for each round, until the time is up; at least one. The seed and the round fix each."""
    end, place = time.monotonic() + seconds, 0
    while place == 0 or time.monotonic() < end:
        yield random.Random(f"{seed} {name} {place}")
        place += 1
    print(f"{name}: {place} rounds")


def expect_agreement(made, difference, smaller):
    """Fails with the least input that was found for which `difference` returns words, where it returns some for this one."""

    def differs(it):
        try:
            return bool(difference(it))
        except AssertionError:  # the oracle says of this input that its rules are wrong, so it is no smaller case
            return False

    if seen := difference(made):
        least = smaller(made, differs)
        raise AssertionError(f"{difference(least) or seen}\nthe least input that differs:\n{least}")


def shrunk(parts, fails):
    """The shortest list that still fails, by leaving out ranges, ever shorter ones, and then again, until a minute is up."""
    end, size = time.monotonic() + SECONDS, max(1, len(parts) // 2)
    while size and time.monotonic() < end:
        at, before = 0, len(parts)
        while at < len(parts) and time.monotonic() < end:
            fewer = parts[:at] + parts[at + size :]
            if fails(fewer):
                parts = fewer
            else:
                at += size
        size = min(size, len(parts)) // 2 if size > 1 else int(len(parts) < before)
    return parts


def text_of(lines):
    return "".join(f"{line}\n" for line in lines)


def shrunk_script(text, fails):
    """The least script or log that still fails, by leaving out lines; the facts that `take` names keep their names, and takes of those
    that go, go too."""
    lines = text.removesuffix("\n").split("\n")
    end = lines.index("go") if "go" in lines else len(lines)
    facts = range(int(lines[0].startswith("roster ")), end)

    def script(places):
        """The text of the lines at these places."""
        kept = [place for place in facts if place in places]
        names = {str(place - facts.start + 1): str(kept.index(place) + 1) if place in kept else None for place in facts}
        left = []
        for place in places:
            take = re.fullmatch(r"(take \S+) ([0-9]+)", lines[place]) if place > end else None
            if take and (name := names.get(take[2], take[2])):
                left.append(f"{take[1]} {name}")
            elif not take:
                left.append(lines[place])
        return text_of(left)

    return script(shrunk(list(range(len(lines))), lambda places: fails(script(places))))


def environment(**settings):
    return {**os.environ, **{name: str(value) for name, value in settings.items()}}
