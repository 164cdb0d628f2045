"""Descriptors whose close waits, and honest clients that ask without rest and look at each reply."""

import multiprocessing
import socket
import struct
import threading
import time
from contextlib import contextmanager

from running import NO_REPLY, PASSWD_BY_NAME, check, connected, read_all, request

LONG = 3600  # seconds that a close waits
SLOW = 1.0  # seconds that no reply may take
LOST = 2.0  # seconds after which a client gives its request up
AGAIN = 0.005  # seconds until a client that was sent away asks again
CLIENTS, AT_GATE = 40, 8  # honest clients, and how many of them have a connection to the gate
MISSES = 20  # in as many requests one asks for a name that was never asked


def send_with(peer, sent, descriptor):
    """Sends these bytes and a descriptor with them."""
    peer.sendmsg([sent], [(socket.SOL_SOCKET, socket.SCM_RIGHTS, struct.pack("i", descriptor))])


class Windows:
    """TCP connections over loopback whose windows are full. A close at the writing end waits until the reading ends are closed here."""

    def __init__(self):
        self.listener = socket.socket()
        self.listener.setsockopt(socket.SOL_SOCKET, socket.SO_RCVBUF, 1)
        self.listener.bind(("127.0.0.1", 0))
        self.listener.listen(64)
        self.readers = []

    def writer(self, seconds=LONG):
        """The writing end of a new one, whose close waits for so long."""
        writer = socket.socket()
        writer.setsockopt(socket.SOL_SOCKET, socket.SO_SNDBUF, 1)
        writer.connect(self.listener.getsockname())
        self.readers.append(self.listener.accept()[0])
        writer.setsockopt(socket.SOL_SOCKET, socket.SO_LINGER, struct.pack("ii", 1, seconds))
        writer.setblocking(False)
        try:
            while True:
                writer.send(bytes(1 << 14))
        except BlockingIOError:
            return writer

    def send(self, peer, sent, seconds=LONG):
        """Sends the front of a request or of a line, and a writing end with it, which the receiver leaves alone until it is closed here."""
        with self.writer(seconds) as writer:
            send_with(peer, sent, writer.fileno())

    def give_up(self, writer):
        """Lets no close of this writing end wait."""
        writer.setsockopt(socket.SOL_SOCKET, socket.SO_LINGER, struct.pack("ii", 0, 0))

    def close(self):
        for reader in self.readers:
            reader.close()
        self.listener.close()


@contextmanager
def windows():
    made = Windows()
    try:
        yield made
    finally:
        made.close()


def user_of(number):
    return b"honest%d" % number, b"honest%d:x:%d:100:::/bin/sh\n" % (number, 5000 + number)


def reply_of(name, uid):
    return struct.pack("<4i2I3i", 2, 1, len(name) + 1, 2, uid, 100, 1, 1, 8) + name + b"\0x\0\0\0/bin/sh\0"


HONEST_LINES = b"".join(user_of(number)[1] for number in range(CLIENTS))


class Client(threading.Thread):
    """Asks for its own user until it is told to end: one of a socket by a connection for each request, one of the gate by lines."""

    def __init__(self, folder, number, ends, may_be_sent_away):
        super().__init__()
        self.folder, self.number, self.ends, self.may_be_sent_away = folder, number, ends, may_be_sent_away
        self.name_asked, self.line = user_of(number)
        self.count = self.sent_away = 0
        self.longest, self.fault = 0.0, None

    def connect(self, name):
        return connected(f"{self.folder}/{name}", LOST)

    def once(self):
        """A request and its reply, and what that is to be; of each twenty one is for a name that is asked once."""
        missing = self.count % MISSES == 0
        name = b"%s-%d" % (self.name_asked, self.count) if missing else self.name_asked
        with self.connect("socket") as peer:
            peer.sendall(request(PASSWD_BY_NAME, name + b"\0"))
            said = read_all(peer)
        return said, NO_REPLY if missing else reply_of(name, 5000 + self.number)

    def ask(self):
        while not self.ends.is_set():
            yield self.once

    def at_gate(self):
        """Lines at one connection, as long as it stays open."""
        with self.connect("gate") as peer:
            lines = peer.makefile("rwb")

            def once():
                lines.write(b"passwd %s\n" % self.name_asked)
                lines.flush()
                return lines.readline(), self.line

            while not self.ends.is_set():
                yield once

    def answered(self, once):
        """Whether it was answered, and not sent away."""
        began = time.monotonic()
        said, wanted = once()
        took = time.monotonic() - began
        if said == b"" and took < SLOW:
            return False
        self.longest = max(self.longest, took)
        check(said == wanted, f"client {self.number} is answered {said!r}, and not {wanted!r}, after {took:.2f} s")
        check(took < SLOW, f"client {self.number} is answered after {took:.2f} s")
        self.count += 1
        return True

    def round(self):
        for once in self.at_gate() if self.number < AT_GATE else self.ask():
            if not self.answered(once):
                return

    def run(self):
        try:
            while not self.ends.is_set():
                try:
                    self.round()
                except (ConnectionError, FileNotFoundError):
                    pass
                if not self.ends.is_set():
                    self.sent_away += 1
                    check(self.may_be_sent_away, f"client {self.number} is sent away without an answer")
                    time.sleep(AGAIN)
        except Exception as fault:
            self.fault = repr(fault)


def clients(folder, ends, told, may_be_sent_away):
    made = [Client(folder, number, ends, may_be_sent_away) for number in range(CLIENTS)]
    for client in made:
        client.start()
    for client in made:
        client.join()
    faults = [client.fault for client in made if client.fault]
    told.put((sum(client.count for client in made), max(client.longest for client in made), sum(client.sent_away for client in made), faults))


@contextmanager
def honest_clients(folder, may_be_sent_away=False):
    """Honest clients in a process of their own, as a list that has how many replies they had, the longest time, and how often they asked again."""
    context = multiprocessing.get_context("fork")
    ends, told, found = context.Event(), context.Queue(), []
    process = context.Process(target=clients, args=(folder, ends, told, may_be_sent_away))
    process.start()
    try:
        yield found
    finally:
        ends.set()
        *numbers, faults = told.get(timeout=10 * LOST)
        process.join()
        found += numbers
    check(not faults, f"{len(faults)} of {CLIENTS} honest clients: {'; '.join(faults[:2])}")
