"""Fixtures that every test file shares: the built programs, the seed of random tests, and what refuses memory and devices."""

import contextlib
import functools
import random
import secrets
import subprocess
import warnings
from pathlib import Path

import pytest

from harness import ROOT, shims, sqlite_cluster, sqlite_worlds, stores


def pytest_addoption(parser):
    parser.addoption("--seed", type=int, default=None, help="seed of the random tests; drawn from the system by default")
    parser.addoption("--seconds", type=float, default=10, help="how long each random test runs; 10 by default")
    parser.addoption("--bin", type=Path, default=None, help="a folder with the programs to test, in place of crates/NAME/out")


def pytest_configure(config):
    if config.getoption("--seed") is None:
        config.option.seed = getattr(config, "workerinput", {}).get("seed") or secrets.randbits(32)


@pytest.hookimpl(optionalhook=True)
def pytest_configure_node(node):
    """The workers of pytest-xdist have the seed that this process prints."""
    node.workerinput["seed"] = node.config.getoption("--seed")


def pytest_report_header(config):
    return f"seed: {config.getoption('--seed')} (give it again with --seed)"


def pytest_terminal_summary(terminalreporter, config):
    terminalreporter.write_line(f"seed: {config.getoption('--seed')}")


@pytest.fixture
def seed(request):
    """The seed of this run; the same for every test, so that a printed seed reproduces each of them."""
    return request.config.getoption("--seed")


@pytest.fixture
def rng(seed, request):
    """A generator of random numbers that depends on the seed and on the name of the test."""
    return random.Random(f"{seed} {request.node.name}")


@pytest.fixture
def seconds(request):
    """How long a random test is to run."""
    return request.config.getoption("--seconds")


# Programs


def place_of(crate, ending=""):
    return ROOT / "crates" / crate / "out" / (f"lib{crate}.a" if crate in ("node_c", "volume_c") else f"{crate}{ending}")


def pytest_generate_tests(metafunc):
    """The program `fleet` that Rattle's own compiler has built too is tested beside the one that LLVM built."""
    is_free = not metafunc.config.getoption("--bin") and not metafunc.definition.get_closest_marker("llvm_only")
    if "fleet" in metafunc.fixturenames and is_free and place_of("fleet", ".by-rattle").exists():
        metafunc.parametrize("fleet", ["", ".by-rattle"], ids=["llvm", "rattle"], indirect=True, scope="session")


def program(request, crate):
    """The path of a built program or archive. Builds and proves the crate where it is missing; warns where a source is newer."""
    if request.config.getoption("--bin"):
        return request.config.getoption("--bin").resolve() / place_of(crate).name
    place = place_of(crate, getattr(request, "param", ""))
    if not place.exists():
        subprocess.run([ROOT / "tools/build.py", crate], stdin=subprocess.DEVNULL, check=False)
    if not place.exists():
        pytest.fail(f"{crate} could not be built")
    if any(it.stat().st_mtime > place.stat().st_mtime for it in ROOT.glob("crates/*/src/*.rt")):
        warnings.warn(f"{place.relative_to(ROOT)} is older than a source; tools/build.py {crate} builds it")
    return place


def built(crate, name=None):
    """The fixture of a crate's program or archive."""
    return pytest.fixture(lambda request: program(request, crate), scope="session", name=name or crate)


fleet, fleet_node, volume_node, call_cases, thread_cases = map(built, ("fleet", "fleet_node", "volume_node", "call_cases", "thread_cases"))
archive, volume_archive = built("node_c", "archive"), built("volume_c", "volume_archive")


# What is built in a folder of its own


def made(name, make):
    return pytest.fixture(lambda tmp_path_factory: make(tmp_path_factory.mktemp(name)), scope="session", name=name)


refusing = made("refusing", shims.Refusing)  # refuses allocations, starts of threads, reads and writes, and cuts reads and writes short
disk = made("disk", functools.partial(shims.built, "disk"))  # delays, reports and refuses flushes, and refuses writes
double = made("double", sqlite_worlds.build)  # the VFS over the double of a volume


@pytest.fixture(scope="session")
def extension(volume_archive, tmp_path_factory):
    """The VFS over the driver and the machine."""
    return sqlite_cluster.build_extension(volume_archive, tmp_path_factory.mktemp("extension"), ROOT)


@pytest.fixture(scope="session")
def parts(extension, store_program, disk):
    """What databases over servers need."""
    return extension, store_program, disk


# Storage servers


@pytest.fixture(scope="session")
def store_program(archive, tmp_path_factory):
    programs = stores.build(archive, tmp_path_factory.mktemp("store")) or pytest.skip("no cargo is on the path")
    return programs / "yieldcleat-store"


@pytest.fixture(scope="session")
def embedding(archive, tmp_path_factory):
    """The folder of the programs of `embedding/`."""
    programs = stores.build(archive, tmp_path_factory.mktemp("embedding"), ROOT / "embedding", "release")
    return programs or pytest.skip("no cargo is on the path")


@pytest.fixture
def store(store_program, tmp_path):
    """Makes a server of a name, with more words of its command line."""
    with contextlib.ExitStack() as stack:

        def make(name="one", *words, **settings):
            return stack.enter_context(contextlib.closing(stores.Store(store_program, tmp_path / name, *words, **settings)))

        yield make
