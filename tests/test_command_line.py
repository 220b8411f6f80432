"""The command line of `fleet`: bad ones, the help, a version, names of any bytes, and drills."""

import itertools
import os
import shutil

import pytest

from harness import ROOT, Answer, answer, rounds
from model import drill

SOUND = b"rec 0 3 0 7 0 0:61\nmin 0 3\n"
TASKS = ("run", "check", "inspect", "drill")

# Words, parted by blanks; a word that has a blank or none at all stands in the list below
BAD = """
walk / Drill / help / Run / Inspect / --run / --nodes 3 / run run / run check / run - / run -- / check x / check first.txt
--explain run / run --explain --explain / check --explain=yes / run -- --explain / run --explai / inspect --explain / drill --explain
run -explain / run explain / run --explain -- / inspect 04 / inspect --loud / run --nodes 3 / --nodes 3 drill / -- drill
drill --nodes 0 / drill --nodes 7 / drill --nodes=7 / drill --nodes -1 / drill --workers 0 / drill --workers 17 / drill --workers=17
drill --workers -1 / drill --nodes 3.0 / drill --nodes three / drill --nodes 0x3 / drill --nodes 18446744073709551619
drill --workers 1180591620717411303424 / drill --size Small / drill --size medium / drill --size smal / drill --size 64
drill --size small,large / drill --nodes / drill --nodes= / drill --workers / drill --size / drill --nodes --workers 4
drill --nodes 3 --nodes 3 / drill --workers=4 --workers=4 / drill --size small --size small / drill 3 / drill small / drill drill
drill run / drill help / help drill / drill -- 3 / drill -- / drill --nodes 3 -- / drill --nodes 3 4 / drill --size small large
drill --node 3 / drill --seed 3 / drill -n 3 / drill -n3 / drill --version
"""
BAD_LINES = [line.split(" ") for row in BAD.split("\n") if row for line in row.split(" / ")]
BAD_LINES += [[], [""], ["drill", "--nodes", ""], ["drill", "--nodes", " 3"], ["drill", "--size", ""], ["drill", "--size", "small "]]

# Words behind the drill's own, the nodes and the size that they stand for
DRILLS = [
    ("", 3, "small"),
    ("--size small", 3, "small"),
    ("--nodes=2", 2, "small"),
    ("--workers 1", 3, "small"),
    ("--workers=16 --nodes=6", 6, "small"),
    ("--size=large --workers=2 --nodes 1", 1, "large"),
    ("--nodes +2 --workers=008", 2, "small"),
]
ALL_SIZES = itertools.product(drill.SIZES, range(1, 7), (1, 4, 8, 16))
DRILLS += [(f"--nodes={nodes} --workers={workers} --size {size}", nodes, size) for size, nodes, workers in ALL_SIZES]


@pytest.mark.parametrize("words", BAD_LINES, ids=lambda words: " ".join(words) or "none")
def test_bad_command_line(fleet, words):
    """The first line says that the command line is bad; what follows says how the program is used."""
    status, output, said = answer(fleet, words, SOUND)
    first, _, more = said.partition(b"\n")
    assert (status, output, first) == (2, b"", b"fleet: bad command line")
    assert not more or b"--help" in more or b"Usage: fleet" in more


def test_the_misspelt_word_is_named(fleet):
    assert b"'walk'" in answer(fleet, ["walk"]).said


@pytest.mark.parametrize("task", ["", *TASKS])
def test_help(fleet, task):
    """The pages of docs/help, which the script shows before there is a program, are what the program prints, and name what there is."""
    kept = (ROOT / f"docs/help/{'_'.join(filter(None, ('fleet', task)))}.txt").read_bytes()
    for flag in ("--help", "-h"):
        assert answer(fleet, [*filter(None, [task]), flag]) == Answer(0, kept)
    drill_words = (b"--nodes", b"1 to 6", b"--workers", b"1 to 16", b"--size", b"small", b"large")
    wanted = {"": (*map(str.encode, TASKS), *drill_words), "drill": drill_words}.get(task, (task.encode(),))
    assert [word for word in wanted if word not in kept] == []


def test_version(fleet):
    status, version, said = answer(fleet, ["--version"])
    assert (status, version.split(b" ")[0], version.count(b"\n"), said) == (0, b"fleet", 1, b"")


def test_names_of_any_bytes(fleet, tmp_path):
    """A path that is no UTF-8 names the program as well as another one; a word that is none names no task."""
    called = os.fsencode(tmp_path) + b"/\xff\xfe"
    shutil.copy2(fleet, called)
    assert answer(called, ["--help"]) == answer(fleet, ["--help"])
    assert answer(called, ["check"], SOUND) == Answer(0, b"sound 2\n")
    assert answer(called, ["run"], b"go\nnodes 65\n") == Answer(2, b"bad line 2\n")
    assert answer(called, ["check"], b"rec 0 3 2 7 0 -\n") == Answer(3, b"unsound 1 law 3\n")
    assert answer(fleet, [b"\xff"]) == Answer(2, b"", b"fleet: bad command line\n")


@pytest.mark.parametrize("words, nodes, size", DRILLS, ids=lambda it: str(it))
def test_drill(fleet, words, nodes, size):
    """What a drill writes is fixed by its nodes and its size, however many workers it has."""
    assert answer(fleet, ["drill", *words.split()]) == Answer(0, drill.text(nodes, size).encode())


def test_drill_reads_nothing(fleet):
    assert answer(fleet, ["drill"], b"x\n") == Answer(0, drill.text(3, "small").encode())


def test_random_drills(fleet, seed, seconds):
    for choose in rounds(seed, "drills", seconds / 2):
        nodes, size = choose.randint(1, 6), choose.choice(list(drill.SIZES))
        words = ["drill", f"--nodes={nodes}", f"--workers={choose.randint(1, 16)}", f"--size={size}"]
        assert answer(fleet, words) == Answer(0, drill.text(nodes, size).encode()), words
