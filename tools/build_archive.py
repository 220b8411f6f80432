#!/usr/bin/env python3
"""Builds the archives over the libraries that `rt ci` has built, and proves their crates on the way.

    build_archive.py        crates/node_c/out/libnode_c.a, crates/volume_c/out/libvolume_c.a

`rt lib` in a crate's folder makes the same file, and proves again what is below it: `rt ci` keeps its proofs for itself.
So this calls the prover as `rt` does, by the functions of `rt` itself. Status 1 where a library is missing or a crate is not proved.
"""

import argparse
import importlib.machinery
import importlib.util
import os
import shutil
import sys
from pathlib import Path

ROOT = Path(__file__).resolve().parents[1]
NAMES = ("node_c", "volume_c")


def load_rt():
    """The script `rt`, as a module."""
    path = shutil.which("rt")
    if path is None:
        sys.exit("rt is not on the path; README.md says what is needed")
    path = os.path.realpath(path)
    sys.path.insert(0, os.path.dirname(path))
    loader = importlib.machinery.SourceFileLoader("rt", path)
    rt = importlib.util.module_from_spec(importlib.util.spec_from_loader("rt", loader))
    loader.exec_module(rt)
    return rt


def build(rt, crate):
    """Whether the archive of the crate is built."""
    os.chdir(crate.folder)
    os.makedirs("out", exist_ok=True)
    words = [*crate.words(["--jobs", "1"], keeps=False), "--toolchain", f"{rt.KIT}/toolchain"]
    return not crate.prove(["build", *words, "--backend", "llvm", "-o", f"out/lib{crate.name}.a"])


def main():
    argparse.ArgumentParser(description=__doc__, formatter_class=argparse.RawDescriptionHelpFormatter).parse_args()
    rt = load_rt()
    rt.rtlib.Crate = rt.Crate
    rt.Crate.allowed = rt.handles_of(str(ROOT))
    rt.rtlib.guarded()
    crates = {it.name: it for it in rt.rtlib.crates_below(str(ROOT))}
    return 0 if all([build(rt, crates[name]) for name in NAMES]) else 1


if __name__ == "__main__":
    sys.exit(main())
