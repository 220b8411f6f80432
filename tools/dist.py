#!/usr/bin/env python3
"""Packs the proved programs, the archive with its header, and the help pages into one file that runs without the toolchain.

    dist.py [--to FOLDER] [--as-built]      dist/yieldcleat-VERSION-COMMIT-KIT.tar.gz

What is missing or older than its sources is built and proved first. Prints the path of the file.
"""

import argparse
import shutil
import subprocess
import tempfile
from pathlib import Path

ROOT = Path(__file__).resolve().parents[1]
FILES = {
    "bin/fleet": "crates/fleet/out/fleet",
    "bin/fleet-node": "crates/fleet_node/out/fleet_node",
    "lib/libnode_c.a": "crates/node_c/out/libnode_c.a",
    "include/yieldcleat.h": "embedding/include/yieldcleat.h",
    "share/EMBEDDING.md": "docs/EMBEDDING.md",
    "share/FORMATS.md": "docs/FORMATS.md",
}
README = """Yieldcleat {version}, commit {commit}, proved with {kit}.

bin/fleet, bin/fleet-node   the programs; --help has their tasks, and share/help the same pages
lib/libnode_c.a             one segment as a static library; include/yieldcleat.h, share/EMBEDDING.md
share/examples              scripts, logs and captures with their answers: bin/fleet run < share/examples/first.txt
"""


def printed(*command):
    return subprocess.run(command, cwd=ROOT, check=True, capture_output=True, text=True).stdout.strip()


def main():
    parser = argparse.ArgumentParser(description=__doc__, formatter_class=argparse.RawDescriptionHelpFormatter)
    parser.add_argument("--to", type=Path, default=ROOT / "dist", help="the folder of the packed file")
    parser.add_argument("--as-built", action="store_true", help="pack what is there, whatever is newer")
    args = parser.parse_args()
    if not args.as_built:
        subprocess.run([ROOT / "tools/build.py", "fleet", "fleet_node", "node_c"], check=True)
    version = printed(ROOT / FILES["bin/fleet"], "--version").split()[-1]
    commit, kit = printed("git", "describe", "--always", "--dirty"), printed("rt", "version")
    name = f"yieldcleat-{version}-{commit}-{kit.split(' ')[0]}"
    files = {target: ROOT / source for target, source in FILES.items()}
    files |= {f"share/help/{path.name}": path for path in sorted((ROOT / "docs/help").iterdir())}
    files |= {f"share/examples/{path.name}": path for path in sorted((ROOT / "examples").iterdir()) if path.is_file()}
    with tempfile.TemporaryDirectory() as folder:
        for target, source in files.items():
            place = Path(folder, name, target)
            place.parent.mkdir(parents=True, exist_ok=True)
            shutil.copy(source, place)
        Path(folder, name, "README").write_text(README.format(version=version, commit=commit, kit=kit))
        args.to.mkdir(parents=True, exist_ok=True)
        print(shutil.make_archive(args.to / name, "gztar", folder, name, owner="root", group="root"))


if __name__ == "__main__":
    main()
