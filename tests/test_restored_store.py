"""The store of `embedding/` without memory and without a disk: each allocation of a restart is refused in turn, and each flush of a file.
Either all that was acknowledged is there, or the store does not serve."""

import contextlib
import subprocess

from harness import SECONDS, environment
from harness.store_checks import takes
from model.wire import frame, framed, frames_of

LAST = 130  # records: the store makes a snapshot behind the first 100 and a restart
MOST = 400  # how many allocations are refused, spread evenly over a restart
FLUSHES = 40  # more than a run has


def contents(folder):
    return {it.name: it.read_bytes() for it in folder.iterdir()}


def test_a_restart_without_memory(embedding, refusing, tmp_path):
    folder = tmp_path / "folder"
    command = [embedding / "durable", "serve", folder]
    folder.mkdir()
    for batch in (takes(1, 110), takes(111, LAST)):
        subprocess.run(command, input=framed(batch), capture_output=True, timeout=SECONDS, check=True)
    kept, question = contents(folder), frame(b"front")
    assert any(name.startswith("snapshot") for name in kept)
    there, lost = frame(f"front 0 {LAST} 0".encode()), 0
    for settings in refusing.spread(command, question, MOST):
        done = subprocess.run(command, input=question, capture_output=True, env=settings, timeout=SECONDS, check=False)
        assert done.stdout in (b"", there, frame(b"memory")), (settings["FAIL_ALLOC"], frames_of(done.stdout))
        assert contents(folder) == kept
        if not done.stdout:
            assert done.returncode != 0
            lost += 1
    assert lost, "no refused allocation was one of the node's"


def taken(command, settings):
    """How many records a store acknowledges, of batches with a checkpoint between them, and whether it serves to the end."""
    piped = {"stdin": subprocess.PIPE, "stdout": subprocess.PIPE, "stderr": subprocess.DEVNULL}
    done = 0
    with contextlib.suppress(BrokenPipeError), subprocess.Popen(command, env=settings, **piped) as process:
        for batch in (takes(1, 60), takes(61, 120), takes(121, 140), takes(141, 160)):
            process.stdin.write(framed(batch))
            process.stdin.flush()
            wanted = framed([b"changed"] * len(batch))
            answers = process.stdout.read(len(wanted))
            if answers != wanted:
                assert answers == b"", frames_of(answers)
                break
            done += len(batch)
        with contextlib.suppress(BrokenPipeError):
            process.stdin.close()
    return done, process.returncode == 0


def test_each_flush_refused(embedding, disk, tmp_path):
    """A batch whose flush is refused is not answered; one that was answered is there."""
    ends = []
    for refused in range(1, FLUSHES):
        folder = tmp_path / str(refused)
        command = [embedding / "durable", "serve", folder]
        settings = environment(LD_PRELOAD=disk, DISK_FAIL_FLUSH=refused)
        done, is_served = taken(command, settings)
        there = subprocess.run(command, input=frame(b"front"), capture_output=True, timeout=SECONDS, check=True).stdout
        complete = int(frames_of(there)[0].split(b" ")[2])
        assert done <= complete <= 160, f"flush {refused}: {done} acknowledged, {complete} there"
        assert is_served == (done == 160)
        ends.append(done)
    # Batches were refused, checkpoints failed while all was acknowledged, and in the end no flush was left to refuse.
    assert {0, 60, 120, 160} <= set(ends)
    assert ends[-1] == 160
