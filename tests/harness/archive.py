"""The archive `libnode_c.a` in this process: the toolchain's own linker makes a shared object of it, or a program that serves."""

import ctypes
import socket
import subprocess
import threading

from harness import SECONDS
from harness.nodes import Node, as_frame, as_line
from harness.shims import compiler, kit
from model.wire import framed, read_frame

STACK = 1 << 20  # of a segment's thread
MAIN = b"unsigned char yieldcleat_serve(int, int);\nint main(void) { return yieldcleat_serve(0, 1); }\n"


def heap():
    """What calls malloc, realloc and free."""
    return kit() / "c/liblibc_c.a"


def library(archive, folder):
    """The call, out of a shared object that has the whole archive."""
    made = folder / "node.so"
    parts = ["-Wl,--whole-archive", archive, heap(), "-Wl,--no-whole-archive"]
    subprocess.run([compiler(), "-shared", "-nostdlib", "-fuse-ld=lld", "-o", made, *parts], check=True)
    serve = ctypes.CDLL(str(made)).yieldcleat_serve
    serve.argtypes, serve.restype = [ctypes.c_int, ctypes.c_int], ctypes.c_ubyte
    return serve


def program(archive, folder):
    """A program that serves its standard input and output by the archive."""
    made, main = folder / "served", folder / "main.o"
    subprocess.run([compiler(), "-x", "c", "-c", "-o", main, "-"], input=MAIN, check=True)
    words = ["--target", "x86_64-unknown-linux-gnu", "--toolchain", kit() / "toolchain", "-o", made, main, archive, heap()]
    subprocess.run([kit() / "bin/rattle-link", *words], check=True, stderr=subprocess.PIPE)
    return made


class Segment(Node):
    """A segment on a thread of this process, behind a pair of sockets."""

    def __init__(self, serve):
        self.own, self.other = socket.socketpair()
        self.own.settimeout(SECONDS)
        self.answers = self.own.makefile("rb")
        self.status = None
        threading.stack_size(STACK)
        self.thread = threading.Thread(target=self.run, args=(serve,), daemon=True)
        self.thread.start()

    def run(self, serve):
        self.status = serve(self.other.fileno(), self.other.fileno())
        self.other.close()

    def ask(self, *words):
        return as_line(self.told(as_frame(" ".join(map(str, words)))))

    def told(self, *requests):
        """The bytes that answer the last of these requests, which come at once; the answers before are dropped."""
        self.own.sendall(framed(requests))
        return [self.answer() for _ in requests][-1]

    def answer(self):
        answer = read_frame(self.answers)
        assert answer is not None, f"the segment ended with status {self.ended()}"
        return answer

    def ended(self):
        self.thread.join(SECONDS)
        return self.status

    def close(self):
        """The status, and what it wrote that nobody asked for."""
        self.own.shutdown(socket.SHUT_WR)
        left = self.answers.read()
        self.answers.close()
        self.own.close()
        return self.ended(), left
