"""Network namespaces whose packets a process of this machine passes on: late, in another order, or not at all.

Each namespace has one device, at which the process reads what is sent and writes what arrives. It needs root, /dev/net/tun and `ip`, and no
queueing discipline of the kernel.
"""

import atexit
import contextlib
import ctypes
import fcntl
import heapq
import multiprocessing
import os
import random
import select
import shutil
import struct
import subprocess
import time

TUNSETIFF, TUN_WITHOUT_HEADS = 0x400454CA, 0x1001
NETWORK_NAMESPACES = 0x40000000
LONGEST = 65536
LIBC = ctypes.CDLL(None, use_errno=True)


class NotAllowed(Exception):
    """Why this machine has no such network."""


def ip(*words):
    done = subprocess.run(["ip", *words], capture_output=True, text=True, check=False)
    if done.returncode:
        raise NotAllowed(f"ip {' '.join(words)}: {done.stderr.strip()}")


def move(it):
    """Moves this thread into a namespace, of which this is a file."""
    if LIBC.setns(it.fileno(), NETWORK_NAMESPACES):
        raise NotAllowed(f"setns: {os.strerror(ctypes.get_errno())}")


def device():
    """A new device of the namespace of this thread."""
    it = os.open("/dev/net/tun", os.O_RDWR | os.O_NONBLOCK)
    fcntl.ioctl(it, TUNSETIFF, struct.pack("16sH22x", b"yc0", TUN_WITHOUT_HEADS))
    return it


class Links:
    """What happens to the packets of each place: how late they are, in milliseconds, which share is lost, and whether all are."""

    def __init__(self, count):
        self.delay, self.loss, self.cut = [0.0] * count, [0.0] * count, [False] * count

    def loses(self, one, other, choose):
        share = 1 - (1 - self.loss[one]) * (1 - self.loss[other])
        return self.cut[one] or self.cut[other] or choose.random() < share

    def wait(self, one, other, choose):
        """Seconds on the way: packets overtake each other."""
        return choose.uniform(0.5, 1.5) * (self.delay[one] + self.delay[other]) / 1000


def pass_on(pipe, devices, seed):
    """Passes packets on until the pipe closes, over which the links come."""
    choose, links, waiting, number = random.Random(seed), Links(len(devices)), [], 0
    while True:
        patience = max(0, waiting[0][0] - time.monotonic()) if waiting else None
        ready = select.select([pipe, *devices], [], [], patience)[0]
        if pipe in ready:
            try:
                links = pipe.recv()
            except EOFError:
                return
            pipe.send("done")
        for place, it in enumerate(devices):
            if it in ready:
                packet = os.read(it, LONGEST)
                # The last byte of an address of version 4; nothing else is passed on.
                other = packet[19] - 1 if packet[0] >> 4 == 4 else len(devices)
                if other < len(devices) and not links.loses(place, other, choose):
                    number += 1
                    heapq.heappush(waiting, (time.monotonic() + links.wait(place, other, choose), number, other, packet))
        while waiting and waiting[0][0] <= time.monotonic():
            _, _, other, packet = heapq.heappop(waiting)
            with contextlib.suppress(OSError):
                os.write(devices[other], packet)


class Network:
    """So many namespaces, each with an address of its own."""

    def __init__(self, count, seed):
        if not shutil.which("ip"):
            raise NotAllowed("there is no command ip: it is in Debian's package iproute2")
        self.names, self.links, self.process = [], Links(count), None
        atexit.register(self.close)
        try:
            devices = [self.add(number) for number in range(count)]
        except (NotAllowed, OSError) as error:
            self.close()
            raise NotAllowed(str(error)) from error
        fork = multiprocessing.get_context("fork")
        self.pipe, theirs = fork.Pipe()
        self.process = fork.Process(target=self.run, args=(theirs, devices, seed), daemon=True)
        self.process.start()
        theirs.close()
        for it in devices:
            os.close(it)

    def run(self, pipe, devices, seed):
        self.pipe.close()
        pass_on(pipe, devices, seed)

    def add(self, number):
        """Makes a namespace, and returns its device."""
        name = f"yc{os.getpid()}-{number}"
        ip("netns", "add", name)
        self.names.append(name)
        with open("/proc/thread-self/ns/net", "rb") as before:
            self.enter(number)
            try:
                made = device()
            finally:
                move(before)
        for words in (["addr", "add", f"{self.address(number)}/24", "dev", "yc0"], ["link", "set", "yc0", "up"], ["link", "set", "lo", "up"]):
            ip("-n", name, *words)
        return made

    def enter(self, number):
        """Moves this thread to a place."""
        with open(f"/run/netns/{self.names[number]}", "rb") as it:
            move(it)

    @staticmethod
    def address(number):
        return f"10.77.0.{number + 1}"

    def set(self, **changes):
        """Changes links: a value for each place."""
        for name, values in changes.items():
            setattr(self.links, name, values)
        self.pipe.send(self.links)
        self.pipe.recv()

    def close(self):
        if self.process:
            self.process.kill()
            self.process.join()
        while self.names:
            subprocess.run(["ip", "netns", "del", self.names.pop()], capture_output=True, check=False)

