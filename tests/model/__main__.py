"""Answers a text as the program does, from the rules alone: `python3 tests/model check|run|inspect < TEXT`, or `drill NODES SIZE`."""

import sys
from pathlib import Path

sys.path.insert(0, str(Path(__file__).resolve().parents[1]))

from model import drill, oracle, wire

if sys.argv[1:] in (["check"], ["run"]):
    output, status = oracle.TASKS[sys.argv[1]](sys.stdin.buffer.read().decode("latin-1"))
    print(output, end="")
    sys.exit(status)
elif sys.argv[1:] == ["inspect"]:
    sys.stdout.buffer.write(wire.inspected(sys.stdin.buffer.read()))
elif len(sys.argv) == 4 and sys.argv[1] == "drill" and sys.argv[2].isdigit() and sys.argv[3] in drill.SIZES:
    print(drill.text(int(sys.argv[2]), sys.argv[3]), end="")
else:
    print(__doc__)
    sys.exit(0 if sys.argv[1:] == ["--help"] else 2)
