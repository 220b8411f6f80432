"""Peers that send no frames, or frames of no values, to the programs that gossip over TCP: the C program under AddressSanitizer, and the
Rust program. Each ends by itself with a reason, and touches no memory that is not its own."""

import contextlib
import functools
import resource
import socket
import struct
import subprocess
import threading
import time

import pytest

from harness import ROOT
from harness.shims import c_compiler, kit
from model.wire import NOTHING, frame

PACKAGE = ROOT / "embedding"
LONGEST = 1 << 26  # bytes of a frame
PATIENCE = 3  # seconds that the C program gives its peer
SECONDS = 60  # after which a program hangs
SANITIZERS = ["-fsanitize=address,undefined", "-fno-sanitize-recover=all", "-fno-omit-frame-pointer"]
length = struct.Struct(">I").pack  # what a frame of so many bytes begins with
FLAGS = ["-std=gnu11", "-O1", "-g", "-Wall", "-Wextra", "-Wpedantic", "-Werror", "-pthread", f"-DSECONDS={PATIENCE}"]


# The programs


@pytest.fixture(scope="module")
def c_gossip(archive, tmp_path_factory):
    compiler = c_compiler()
    if compiler is None:
        pytest.skip("no C compiler with headers is on the path")
    made = tmp_path_factory.mktemp("c") / "gossip"
    sources = [PACKAGE / "c/gossip.c", archive, kit() / "c/liblibc_c.a"]
    subprocess.run([compiler, *FLAGS, *SANITIZERS, "-I", PACKAGE / "include", "-o", made, *sources], check=True)
    return made


# Peers: each gets a connection, and may leave it open


def resets(peer):
    peer.setsockopt(socket.SOL_SOCKET, socket.SO_LINGER, struct.pack("ii", 1, 0))
    peer.close()


def sends(*parts, leaves=False):
    """A peer that sends these bytes, and reads nothing; it may leave then."""

    def behave(peer):
        for part in parts:
            peer.sendall(part)
        if leaves:
            peer.close()

    return behave


def drips(peer):
    """A frame that comes so slowly that it would take minutes."""
    peer.sendall(length(1000))
    with contextlib.suppress(OSError):
        for _ in range(20 * PATIENCE):
            peer.sendall(b"\x10")
            time.sleep(0.1)


def floods(peer):
    """Whole frames without an end, of summaries that are none of the other side's."""
    with contextlib.suppress(OSError):
        for number in range(1, 1000):
            peer.sendall(frame(NOTHING[:-4] + bytes([0, 0, 0, 1, 0, 0]) + number.to_bytes(6, "big")))


TOO_LONG = "the frame is too long"
LEFT = "the peer has left"
SLOW = "the peer is too slow"
OTHERWISE = "the segment answers otherwise"
PEERS = {
    "a header of ones, and some bytes": (sends(b"\xff\xff\xff\xff" + bytes(64)), TOO_LONG),
    "a header of ones, and many bytes": (sends(b"\xff\xff\xff\xff", bytes(100_000)), TOO_LONG),
    "a header of ones alone": (sends(b"\xff\xff\xff\xff"), TOO_LONG),
    "a header of ones, one byte at a time": (sends(b"\xff", b"\xff", b"\xff", b"\xff", b"\xff"), TOO_LONG),
    "a length above the limit": (sends(length(LONGEST + 1)), TOO_LONG),
    "a length with the highest bit": (sends(length(1 << 31)), TOO_LONG),
    "a length at the limit, and an end": (sends(length(LONGEST) + b"\x10", leaves=True), LEFT),
    "a delta's header of ones": (sends(frame(NOTHING), b"\xff\xff\xff\xff" + bytes(64)), TOO_LONG),
    "an end at once": (sends(leaves=True), LEFT),
    "a reset at once": (resets, LEFT),
    "an end within a header": (sends(b"\0\0", leaves=True), LEFT),
    "an end within a frame": (sends(length(100) + NOTHING, leaves=True), LEFT),
    "an end behind a summary": (sends(frame(NOTHING), leaves=True), LEFT),
    "an empty summary": (sends(frame(b"")), OTHERWISE),
    "a summary of another kind": (sends(frame(b"\x99" * 30)), OTHERWISE),
    "a summary that promises many keys": (sends(frame(NOTHING[:-4] + b"\xff\xff\xff\xff")), OTHERWISE),
    "an empty delta": (sends(frame(NOTHING), frame(b"")), OTHERWISE),
    "a delta of another kind": (sends(frame(NOTHING), frame(b"\0" * 50)), OTHERWISE),
    "silence": (sends(), SLOW),
    "silence behind a summary": (sends(frame(NOTHING)), SLOW),
    "a frame that drips": (drips, SLOW),
    "summaries without an end": (floods, OTHERWISE),
}


class Run:
    """A run of a program, and how it ended, once that was asked for."""

    def __init__(self, *words):
        piped = {"stdout": subprocess.PIPE, "stderr": subprocess.PIPE, "stdin": subprocess.DEVNULL, "text": True, "errors": "replace"}
        no_core = functools.partial(resource.setrlimit, resource.RLIMIT_CORE, (0, 0))
        self.begun, self.process = time.monotonic(), subprocess.Popen(list(map(str, words)), preexec_fn=no_core, **piped)

    def end(self):
        self.told, self.said = self.process.communicate(timeout=SECONDS)
        self.status, self.seconds = self.process.returncode, time.monotonic() - self.begun
        return self

    def is_unharmed(self):
        return self.status == 1 and not any(word in self.said for word in ("Sanitizer", "runtime error", "panicked"))


@contextlib.contextmanager
def listening():
    with socket.create_server(("127.0.0.1", 0)) as listener:
        listener.settimeout(SECONDS)
        yield listener


def met(words, behave):
    """How a program ends that connects to a peer of this behaviour; {} is the place of the port."""
    with listening() as listener:
        run = Run(*(str(word).format(listener.getsockname()[1]) for word in words))
        try:
            peer, _ = listener.accept()
            with contextlib.suppress(OSError):
                behave(peer)
            return run.end()
        finally:
            run.process.kill()
            with contextlib.suppress(NameError):
                peer.close()


@pytest.mark.parametrize("name", PEERS)
def test_the_c_program_survives_a_peer(c_gossip, name):
    behave, wanted = PEERS[name]
    outcome = met([c_gossip, "second", "{}"], behave)
    assert outcome.is_unharmed(), outcome.said
    assert wanted in outcome.said
    assert outcome.seconds < PATIENCE + 20


@pytest.mark.parametrize("place", range(10))
def test_the_c_program_survives_noise(c_gossip, rng, place):
    """Random cuts and changes of what an honest peer sends."""
    for _ in range(3):
        text = bytearray(frame(NOTHING) + frame(bytes([0x11]) + bytes(22)))
        for _ in range(rng.randrange(1, 6)):
            text[rng.randrange(len(text))] = rng.choice((0, 1, 0x10, 0x7F, 0x80, 0xFF, rng.randrange(256)))
        cut = bytes(text[: rng.randrange(1, len(text) + 1)])
        outcome = met([c_gossip, "second", "{}"], sends(cut, leaves=True))
        assert outcome.is_unharmed(), (cut.hex(), outcome.said)


def test_honest_c_programs_gossip(c_gossip):
    outcome = Run(c_gossip).end()
    assert (outcome.status, outcome.said) == (0, "")
    assert outcome.told.count(": front 0 1000 0") == 2


def relay(source, target, step):
    """Carries bytes from one connection to the other, a few at a time."""
    with contextlib.suppress(OSError):
        while data := source.recv(step):
            target.sendall(data)
        target.shutdown(socket.SHUT_WR)


def test_frames_come_in_small_parts(c_gossip):
    """Short reads: two honest programs whose bytes are carried 97 at a time."""
    with listening() as listener:
        port = listener.getsockname()[1]
        runs = [Run(c_gossip, name, port) for name in ("first", "second")]
        ends = [listener.accept()[0] for _ in runs]
        for end in ends:
            end.setsockopt(socket.IPPROTO_TCP, socket.TCP_NODELAY, 1)
        carriers = [threading.Thread(target=relay, args=(*pair, 97), daemon=True) for pair in (ends, ends[::-1])]
        for carrier in carriers:
            carrier.start()
        outcomes = [it.end() for it in runs]
        for end in ends:
            end.close()
    assert [(it.status, it.said) for it in outcomes] == [(0, ""), (0, "")]


def test_a_bad_command_line_is_refused(c_gossip):
    for words in (["second"], ["third", "1"], ["second", "0"], ["second", "65536"], ["second", "1x"], ["second", ""], ["a", "b", "c"]):
        assert Run(c_gossip, *words).end().status == 2


RUST = {name: peer for name, peer in PEERS.items() if peer[1] in (TOO_LONG, LEFT, OTHERWISE)}


@pytest.mark.parametrize("name", RUST)
def test_the_rust_program_survives_a_peer(embedding, name):
    """It waits for no more of a frame that is too long, and allocates nothing for it."""
    outcome = met([embedding / "gossip", "127.0.0.1:{}"], RUST[name][0])
    assert outcome.is_unharmed(), outcome.said
    assert outcome.seconds < 20
    if RUST[name][1] == TOO_LONG:
        assert TOO_LONG in outcome.said
