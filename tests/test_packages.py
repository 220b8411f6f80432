"""The Rust packages and the C program, where cargo or a C compiler with headers is found: their own tests, what links the archive, and that
it finds the toolchain also where `rt` on the path is a link, by the commands of docs/EMBEDDING.md and by build.rs."""

import os
import re
import shutil

import pytest

from harness import ROOT, environment, ran
from harness.archive import heap
from harness.shims import c_compiler

PACKAGE = ROOT / "embedding"
C_FLAGS = "-std=gnu11 -O2 -Wall -Wextra -Wpedantic -Werror -pthread".split()
pytestmark = pytest.mark.xdist_group("embedding")  # which builds the package once
needs_cargo = pytest.mark.skipif(not shutil.which("cargo"), reason="no cargo is on the path")
needs_c = pytest.mark.skipif(not c_compiler(), reason="no C compiler with headers is on the path")


def check_own_tests(name, folder, **settings):
    """A Rust package, built in a folder, has tests of its own, and all pass; the compiler does not warn."""
    settings = environment(CARGO_TARGET_DIR=folder / "target", TMPDIR=folder, **settings)
    output, said = ran("cargo test --offline --locked".split(), cwd=ROOT / name, env=settings)
    assert "warning" not in said, said[-2000:]
    counts = re.findall(r"(\d+) passed; (\d+) failed; (\d+) ignored", output)
    assert sum(int(it[0]) for it in counts) and {it[1:] for it in counts} == {("0", "0")}


@needs_cargo
def test_client(tmp_path):
    check_own_tests("client", tmp_path)


@needs_cargo
def test_volume(volume_node, fleet_node, tmp_path):
    check_own_tests("volume", tmp_path, YIELDCLEAT_VOLUME_NODE=volume_node, YIELDCLEAT_FLEET_NODE=fleet_node)


@needs_cargo
def test_store(archive, tmp_path):
    check_own_tests("store", tmp_path, YIELDCLEAT_ARCHIVE=archive.parent, RATTLE_C=heap().parent)


# What links the archive


@needs_cargo
def test_rust_own_tests(archive, tmp_path):
    check_own_tests("embedding", tmp_path, YIELDCLEAT_ARCHIVE=archive.parent, RATTLE_C=heap().parent)


def test_rust_gossip(embedding):
    assert ran([embedding / "gossip"], cwd=PACKAGE)[0].count("the page is that of a plain replay") == 2


@pytest.mark.parametrize("run", range(3))
def test_rust_durable(embedding, tmp_path, rng, run):
    """A store that is killed again and again loses nothing that it acknowledged."""
    output, _ = ran([embedding / "durable", str(rng.randrange(1, 10**6))], env=environment(TMPDIR=tmp_path))
    assert "nothing that was acknowledged is lost" in output


def test_rust_durable_can_fail(embedding, tmp_path):
    """A store that answers before its file has the request is found out."""
    _, said = ran([embedding / "durable", "--forgetful", "1"], status=1, env=environment(TMPDIR=tmp_path))
    assert "acknowledged records are lost" in said


@needs_c
def test_c_gossip(archive, tmp_path):
    made = tmp_path / "gossip"
    ran([c_compiler(), *C_FLAGS, "-I", PACKAGE / "include", "-o", made, PACKAGE / "c/gossip.c", archive, heap()])
    assert len(re.findall(r"after \d round: front 0 1000 0", ran([made])[0])) == 2


# Where `rt` is a link


@pytest.fixture
def path(tmp_path):
    """A path whose `rt` is a link to what the path has."""
    command = shutil.which("rt")
    assert command, "rt is not on the path"
    (tmp_path / "bin").mkdir()
    (tmp_path / "bin/rt").symlink_to(command)
    return f"{tmp_path / 'bin'}:{os.environ['PATH']}"


@needs_c
@pytest.mark.skipif(not shutil.which("cc"), reason="no cc is on the path")
def test_the_commands_of_the_page(archive, path, tmp_path):
    commands = re.search(r"^    KIT=.*\n    cc .*$", (ROOT / "docs/EMBEDDING.md").read_text(), re.MULTILINE)
    assert commands, "the page has the commands"
    package, built = tmp_path / "embedding", tmp_path / "crates/node_c"
    for folder in (package, built):
        folder.mkdir(parents=True)
    for name in ("c", "include"):
        (package / name).symlink_to(PACKAGE / name)
    (built / "out").symlink_to(archive.parent)
    output, _ = ran(["sh", "-c", f"set -e\n{commands[0]}\n./gossip\n"], cwd=package, env=environment(PATH=path))
    assert output.count(": front 0 1000 0") == 2


@needs_cargo
def test_the_build_script(archive, path, tmp_path):
    """Also where the first `rt` on the path is of no toolchain."""
    other = tmp_path / "other"
    other.mkdir()
    (other / "rt").write_text("#!/bin/sh\n")
    settings = environment(PATH=f"{other}:{path}", YIELDCLEAT_ARCHIVE=archive.parent, CARGO_TARGET_DIR=tmp_path / "target")
    settings.pop("RATTLE_C", None)
    ran("cargo build --bin takes --offline --locked".split(), cwd=PACKAGE, env=settings)
