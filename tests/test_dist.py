"""What `make dist` packs runs from any folder, and without the toolchain on the path."""

import os
import shutil
import subprocess
import sys
from pathlib import Path

import pytest

from harness import ROOT, answer, ran

pytestmark = pytest.mark.xdist_group("dist")  # which packs once


@pytest.fixture(scope="module")
def unpacked(request, tmp_path_factory):
    """The folder that the packed file has, unpacked."""
    if request.config.getoption("--bin"):
        pytest.skip("packs what is in crates/, not what --bin names")
    for fixture in ("fleet", "fleet_node", "archive"):
        request.getfixturevalue(fixture)
    folder = tmp_path_factory.mktemp("dist")
    packed = ran([sys.executable, ROOT / "tools/dist.py", "--to", folder, "--as-built"])[0].strip()
    shutil.unpack_archive(packed, folder)
    return Path(packed.removesuffix(".tar.gz"))


def test_programs_run_without_the_toolchain(unpacked):
    without_path = {name: value for name, value in os.environ.items() if name != "PATH"}
    for program, words, text, wanted in [("fleet", ["run"], "first.txt", "first.run.out"), ("fleet-node", [], "node.requests", "node.answers")]:
        seen = answer(unpacked / "bin" / program, words, (unpacked / "share/examples" / text).read_bytes(), env=without_path)
        assert (seen.status, seen.output) == (0, (ROOT / "examples" / wanted).read_bytes())


def test_programs_need_no_library_of_the_toolchain(unpacked):
    kit = os.path.dirname(os.path.realpath(ran(["rt", "doc"])[0].split()[-1]))
    for program in ("fleet", "fleet-node"):
        linked = subprocess.run(["ldd", unpacked / "bin" / program], capture_output=True, text=True, check=False)
        assert kit not in linked.stdout + linked.stderr


@pytest.mark.parametrize("name", ["README", "lib/libnode_c.a", "include/yieldcleat.h", "share/EMBEDDING.md", "share/help/fleet.txt"])
def test_has(unpacked, name):
    assert (unpacked / name).stat().st_size > 0
