"""The scripts `fleet` and `fleet-node` in a tree of their own, with a stand-in for `rt` that builds a stand-in for the program."""

import os
import pty
import shutil
import signal
import subprocess
import time

import pytest

from harness import ROOT, environment

PROGRAM = '#!/bin/sh\necho "words: $*"\ncat\nexit 7\n'
RT = """#!/bin/sh
echo "checked low::first, 3 of 7"
sleep "${RT_SLEEPS:-0}"
[ -z "$RT_FAILS" ] || { echo 'fn low::first: proved'; echo 'fn low::second: not proved'; exit 1; }
mkdir -p out/rlib && touch out/rlib/stamp
printf '%s' "$PROGRAM" > "out/${PWD##*/}"
chmod +x "out/${PWD##*/}"
"""
ANSWER = b"words: run two words\ngiven\n"


class Tree:
    """A repository of four crates, and a folder with `rt`."""

    def __init__(self, folder):
        self.top, self.bin = folder / "a tree", folder / "bin"
        for name in ("low", "other", "fleet", "fleet_node"):
            (self.top / "crates" / name / "src").mkdir(parents=True)
            (self.top / "crates" / name / "src" / ("main.rt" if "fleet" in name else "lib.rt")).write_text("\n")
        (self.top / "crates.txt").write_text("# the floors\nlow: bytes\nother: low\nfleet: low\nfleet_node: low other\n")
        for name in ("docs/help", "tools"):
            shutil.copytree(ROOT / name, self.top / name)
        for script in ("fleet", "fleet-node"):
            shutil.copy(ROOT / script, self.top / script)
        self.bin.mkdir()
        (self.bin / "rt").write_text(RT)
        (self.bin / "rt").chmod(0o755)

    def settings(self, **more):
        return environment(**{"PATH": f"{self.bin}:{os.environ['PATH']}", "PROGRAM": PROGRAM, "TMPDIR": self.bin, **more})

    def run(self, script="fleet", words=("run", "two words"), **more):
        """The status, the output, and whether anything was said on standard error."""
        done = subprocess.run([self.top / script, *words], input=b"given\n", capture_output=True, env=self.settings(**more), timeout=60)
        self.said = done.stderr.decode()
        return done.returncode, done.stdout, bool(done.stderr)

    def start(self, sleeps, **streams):
        return subprocess.Popen([self.top / "fleet", "run"], env=self.settings(RT_SLEEPS=sleeps), start_new_session=True, **streams)

    def leftovers(self):
        return [path.name for path in self.bin.iterdir() if path.name != "rt"]


@pytest.fixture
def tree(tmp_path):
    return Tree(tmp_path)


def test_builds_once(tree):
    """Words, input, output and status pass through; the build speaks on standard error alone."""
    assert tree.run() == (7, ANSWER, True)
    assert tree.run() == (7, ANSWER, False)
    time.sleep(0.01)
    (tree.top / "crates.txt").touch()
    assert tree.run() == (7, ANSWER, True)
    assert tree.leftovers() == []


def test_what_make_has_built_is_not_built_again(tree):
    subprocess.run([tree.top / "tools/build.py", "fleet", "fleet_node"], env=tree.settings(), capture_output=True, check=True)
    for script in ("fleet", "fleet-node"):
        assert tree.run(script) == (7, ANSWER, False)


def test_follows_links(tree):
    link = tree.bin / "linked"
    link.symlink_to(tree.top / "fleet")
    assert tree.run(link) == (7, ANSWER, True)
    assert tree.run(CDPATH=f"{tree.top}:/") == (7, ANSWER, False)


def test_fleet_node_runs_its_own_program(tree):
    assert tree.run("fleet-node") == (7, ANSWER, True)
    assert tree.run("fleet-node", ["run", "--help"]) == (7, b"words: run --help\ngiven\n", False)
    assert not (tree.top / "crates/fleet/out").exists()


@pytest.mark.parametrize("page", sorted(ROOT.glob("docs/help/*.txt")), ids=lambda page: page.stem)
def test_helps_before_it_is_built(tree, page):
    script, task = ("fleet-node", []) if page.stem == "fleet_node" else ("fleet", page.stem.split("_")[1:])
    for flag in ("--help", "-h"):
        assert tree.run(script, [*task, flag]) == (0, page.read_bytes(), False)


def test_once_built_the_program_says_its_help(tree):
    assert tree.run(words=["run --help"]) == (7, b"words: run --help\ngiven\n", True)
    assert tree.run(words=["--help"]) == (7, b"words: --help\ngiven\n", False)


def test_misses_the_toolchain(tree):
    (tree.bin / "rt").unlink()
    path = ":".join(it for it in os.environ["PATH"].split(":") if not os.path.exists(f"{it}/rt"))
    assert tree.run(PATH=path) == (1, b"", True)
    assert "rt is not on the path" in tree.said


def test_shows_faults_alone(tree):
    assert tree.run(RT_FAILS=1) == (1, b"", True)
    assert "fn low::second: not proved\n" in tree.said and "first" not in tree.said
    assert tree.leftovers() == []
    assert tree.run() == (7, ANSWER, True)


def test_tells_a_terminal(tree):
    """Soon the terminal shows how many crates are built and which is at work; output has the answer alone."""
    inner, outer = pty.openpty()
    child, told = tree.start(3, stdin=subprocess.DEVNULL, stdout=subprocess.PIPE, stderr=outer), b""
    os.close(outer)
    while b"crates, at work on low" not in told:
        told += os.read(inner, 1000)
    assert child.communicate(timeout=60)[0] == b"words: run\n"
    os.close(inner)


def test_leaves_nothing_when_interrupted(tree):
    """Also where a shell has interrupts ignored by all that it starts in the background."""
    child = tree.start(30, stderr=subprocess.PIPE, preexec_fn=lambda: signal.signal(signal.SIGINT, signal.SIG_DFL))
    child.stderr.readline()
    time.sleep(0.5)
    os.killpg(child.pid, signal.SIGINT)
    assert child.wait(timeout=10) == 130
    child.stderr.close()
    assert tree.leftovers() == []
