#!/usr/bin/env python3
"""Looks for a schedule that breaks a promise of the volume model, and prints it shortened.

    explore_volume.py --seconds 60 --nodes 6 --quorum 4
    explore_volume.py --mutant counts_unchanged
    explore_volume.py --replay FILE --mutant counts_unchanged
    explore_volume.py --replay FILE --programs FOLDER

With --programs the programs fleet_node and volume_node of the folder play the schedule too, and what they do otherwise is printed.
"""

import argparse
import random
import secrets
import sys
from pathlib import Path

sys.path.insert(0, str(Path(__file__).resolve().parents[1]))
from harness.volume_programs import Programs, difference  # noqa: E402
from model import volume, volume_schedules  # noqa: E402


def main():
    parser = argparse.ArgumentParser(description=__doc__, formatter_class=argparse.RawDescriptionHelpFormatter)
    parser.add_argument("--seconds", type=float, default=30)
    parser.add_argument("--nodes", type=int, default=3)
    parser.add_argument("--quorum", type=int, default=2)
    parser.add_argument("--seed", type=int, default=secrets.randbits(32))
    parser.add_argument("--mutant", action="append", default=[], choices=sorted(volume.MUTANTS | volume.HARMLESS), metavar="NAME", help=", ".join(volume.MUTANTS | volume.HARMLESS))
    parser.add_argument("--created", type=lambda text: tuple(int(it) for it in text.split(",") if it), help="the nodes that are members at first, as 0,1")
    parser.add_argument("--replay", type=Path, help="a schedule as this prints it")
    parser.add_argument("--programs", type=Path, help="the folder of the programs")
    args = parser.parse_args()
    world = {"nodes": args.nodes, "quorum": args.quorum, "mutants": tuple(args.mutant), "created": args.created}
    if args.replay and args.programs:
        programs = Programs(args.programs / "fleet_node", args.programs / "volume_node")
        print(difference(programs, volume_schedules.moves_of(args.replay.read_text()), **world) or "no difference")
        return 0
    if args.replay:
        print(volume_schedules.show(volume_schedules.moves_of(args.replay.read_text()), **world))
        return 0
    schedules, moves, run = volume_schedules.explore(random.Random(args.seed), args.seconds, **world)
    print(f"# seed {args.seed}: {schedules} schedules, {moves} moves")
    if run is None:
        return 0
    print(volume_schedules.show(volume_schedules.shrink(run), **world))
    return 1


if __name__ == "__main__":
    sys.exit(main())
