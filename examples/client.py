"""A client of `fleet-node`: a process that is asked by lines, and facts as the hexadecimal digits that such lines take."""

import subprocess


def digits(*fields):
    """Numbers as (value, bytes) or bytes themselves, one after the other."""
    return b"".join(it if isinstance(it, bytes) else it[0].to_bytes(it[1], "big") for it in fields).hex()


def record(epoch, number, back, page, block_back, offset, data):
    """A redo record that writes `data` to its page at `offset`; `back` and `block_back` are its backlinks."""
    links = (1, 1), (epoch, 2), (number, 6), (back, 6), (page, 2), (block_back, 6)
    return digits(*links, (1, 1), (offset, 2), (len(data), 2), data)


def truncation(epoch, lo, hi):
    """Opens an epoch and annuls what is above `lo`; records of the epoch have numbers above `hi`."""
    return digits((2, 1), (epoch, 2), (lo, 6), (hi, 6))


def advance(epoch, point):
    """The minimum read point moves up to `point`."""
    return digits((3, 1), (epoch, 2), (point, 6))


class Client:
    """A process of `fleet-node`."""

    def __init__(self, command):
        self.command = command
        self.start()

    def start(self):
        self.process = subprocess.Popen(self.command, stdin=subprocess.PIPE, stdout=subprocess.PIPE)

    def ask(self, *words):
        """The words of the answer to one request; raises `EOFError` where the process has ended."""
        self.process.stdin.write(" ".join(map(str, words)).encode() + b"\n")
        self.process.stdin.flush()
        answer = self.process.stdout.readline().decode()
        if not answer.endswith("\n"):
            raise EOFError(f"the node ended at: {words}")
        return answer.split()

    def freeze(self, name):
        """The pieces of a snapshot, which has a name among those of its peers."""
        total = int(self.ask("freeze", name)[1])
        return [self.ask("piece", index)[1] for index in range(total)]

    def kill(self):
        self.process.kill()
        self.process.communicate()

    def close(self):
        """The status with which the process ends."""
        self.process.stdin.close()
        return self.process.wait(10)
