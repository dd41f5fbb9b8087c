"""Nodes on this machine, their clients, and links of peers."""
import os
import socket
import struct
import subprocess
import threading
import time

TOP = os.path.dirname(os.path.dirname(os.path.dirname(os.path.realpath(__file__))))
PROGRAM = os.path.join(TOP, "crates", "hamsaz", "out", "hamsaz")
PORTS = 13        # a replica's ports are its base and the twelve after it
TRIES = 300
PAUSE = 0.02
HOST = "127.0.0.1"


class Wrong(Exception):
    """Something isn't as it must be."""


def is_so(what, got, wanted):
    if got != wanted:
        raise Wrong(f"{what}: {got!r} in place of {wanted!r}")


def until(what, ask, wanted):
    """Asks until this is answered."""
    for _ in range(TRIES):
        got = ask()
        if got == wanted:
            return
        time.sleep(PAUSE)
    is_so(what, got, wanted)


# ---- ports


def is_free(port):
    with socket.socket() as probe:
        probe.setsockopt(socket.SOL_SOCKET, socket.SO_REUSEADDR, 1)
        try:
            probe.bind((HOST, port))
        except OSError:
            return False
    return True


NEXT = [10_000 + os.getpid() % 1_000 * 20]


def free_bases(count):
    """Bases whose ports nobody has now, below those that the system gives to whoever dials."""
    found = []
    while len(found) < count:
        base = NEXT[0]
        NEXT[0] = base + 20 if base < 32_000 else 10_000
        if all(is_free(base + at) for at in range(PORTS)):
            found.append(base)
    return found


def connected(port, tries=TRIES):
    """A socket to a port, which may be open only in a moment."""
    for _ in range(tries):
        try:
            link = socket.create_connection((HOST, port), timeout=10)
        except OSError:
            time.sleep(PAUSE)
            continue
        link.setsockopt(socket.IPPROTO_TCP, socket.TCP_NODELAY, 1)
        return link
    raise Wrong(f"nobody listens at {port}")


# ---- nodes


class Node:
    """A node, whose output is a pipe; it is ready."""

    all = []

    def __init__(self, program, me, bases, file):
        self.me, self.base = me, bases[me - 1]
        words = [program, "node", file, str(me), *map(str, bases)]
        self.process = subprocess.Popen(words, stdout=subprocess.PIPE, stdin=subprocess.DEVNULL)
        Node.all.append(self)
        is_so(f"node {me}'s first line", self.process.stdout.readline(), b"ready\n")

    def client(self, worker=1):
        return Client(self.base + 8 + worker)

    def peer_port(self, peer):
        return self.base + peer

    def stop(self, worker=4):
        """Stops it: how many entries its journal has."""
        client = self.client(worker)
        is_so("stop", client.ask("stop"), "stopping")
        is_so("after stop", client.rest(), b"")
        return self.stopped()

    def stopped(self):
        """Waits for its end: how many entries its journal has."""
        try:
            rest, _ = self.process.communicate(timeout=10)
        except subprocess.TimeoutExpired:
            raise Wrong(f"node {self.me} doesn't end") from None
        words = rest.split(b" ")
        is_so("the last line", (words[0], rest.endswith(b"\n"), rest.count(b"\n"), len(words)), (b"stopped", True, 1, 2))
        is_so("the status", self.process.returncode, 0)
        return int(words[1])

    def kill(self):
        self.process.kill()
        self.process.communicate()


def kill_all():
    for node in Node.all:
        if node.process.poll() is None:
            node.kill()
    Node.all.clear()


class Client:
    def __init__(self, port):
        self.socket = connected(port)
        self.held = b""

    def send(self, text):
        self.socket.sendall(text if isinstance(text, bytes) else text.encode())

    def line(self):
        """The next line; none where the link ends."""
        while b"\n" not in self.held:
            piece = self.socket.recv(65_536)
            if not piece:
                return None
            self.held += piece
        line, _, self.held = self.held.partition(b"\n")
        return line.decode()

    def ask(self, line):
        self.send(line + "\n")
        return self.line()

    def all(self, lines):
        """Sends lines at once, and takes as many."""
        self.send("".join(f"{line}\n" for line in lines))
        return [self.line() for _ in lines]

    def flood(self, line, count, batch=2_000):
        """Sends a line so many times, and takes as many answers: the last of each batch."""
        last = []
        while count > 0:
            size = min(batch, count)
            self.send(f"{line}\n" * size)
            got = b""
            while size > 0:
                got = self.socket.recv(65_536)
                size -= got.count(b"\n")
            last.append((b"\n" + got).split(b"\n")[-2].decode())
            count -= batch
        return last

    def rows(self, relation):
        count = int(self.ask(f"rows {relation}").split()[1])
        return [self.line() for _ in range(count)]

    def record(self):
        """The lines of the calls of the log."""
        word, count = self.ask("record").split()
        is_so("the first word of a record", word, "record")
        return [self.line() for _ in range(int(count))]

    def until(self, line, wanted):
        until(line, lambda: self.ask(line), wanted)

    def rest(self):
        """What comes until the link ends, or is reset."""
        try:
            while piece := self.socket.recv(65_536):
                self.held += piece
        except ConnectionResetError:
            pass
        rest, self.held = self.held, b""
        return rest

    def close(self):
        self.socket.close()

    def reset(self):
        """Closes so that the other end is told of a reset."""
        self.socket.setsockopt(socket.SOL_SOCKET, socket.SO_LINGER, struct.pack("ii", 1, 0))
        self.socket.close()


# ---- what peers send


def number(n, size):
    return n.to_bytes(size, "big")


def hello(digest, sender, of, version=1):
    return bytes([1, version]) + digest + bytes([sender, of])


def call(lane, at, method, arguments, counts=()):
    words = b"".join(number(a, 8) for a in arguments)
    needs = b"".join(number(c, 4) for c in counts)
    return bytes([2, lane]) + number(at, 4) + bytes([method, len(arguments)]) + words + number(len(counts), 2) + needs


def ack(lane, count):
    return bytes([3, lane]) + number(count, 4)


def request(group, at, method, arguments):
    words = b"".join(number(a, 8) for a in arguments)
    return bytes([4, group]) + number(at, 4) + bytes([method, len(arguments)]) + words


def verdict(group, at, code, rest=b""):
    return bytes([5, group]) + number(at, 4) + bytes([code]) + rest


BYE = b"\x06"


class Relay:
    """Passes on what one end sends to another, until it is cut; while it is cut nobody is taken."""

    def __init__(self, at, to):
        self.at, self.to = at, to
        self.ends, self.server, self.passed = [], None, 0
        self.mend()

    def mend(self):
        self.server = socket.create_server((HOST, self.at))
        threading.Thread(target=self.take, args=(self.server,), daemon=True).start()

    def take(self, server):
        while True:
            try:
                near, _ = server.accept()
            except OSError:
                return
            try:
                far = socket.create_connection((HOST, self.to), timeout=10)
            except OSError:
                near.close()
                continue
            self.ends += [near, far]
            for one, other in ((near, far), (far, near)):
                threading.Thread(target=self.carry, args=(one, other), daemon=True).start()

    def carry(self, one, other):
        try:
            while piece := one.recv(4_096):
                other.sendall(piece)
                self.passed += len(piece)
        except OSError:
            pass
        for end in (one, other):
            try:
                end.shutdown(socket.SHUT_RDWR)
            except OSError:
                pass

    def cut(self):
        """Nobody is taken any more, and each link that stands is cut."""
        try:
            self.server.shutdown(socket.SHUT_RDWR)
        except OSError:
            pass
        self.server.close()
        for end in self.ends:
            try:
                end.shutdown(socket.SHUT_RDWR)
            except OSError:
                pass
            end.close()
        self.ends = []
