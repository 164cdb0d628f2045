"""Connections at random that split, break off, half close and carry descriptors, each answer held against what that peer asked."""

import errno
import multiprocessing
import os
import random
import socket
import struct
import time

from gates import STAY
from running import PASSWD_BY_NAME, PATIENCE, Fault, check, daemon, request
from windows import Windows, send_with

COUNT, SEED = 1_000_000, 1
THREADS = ("1", "2", "5")
USERS = 1200  # with their numbers as ids and in their names, so that each front of a number is a user too
NUMBERS = 1400  # those that are asked for
UID_BEHIND = 1  # the kind of request by id
OPEN = 30  # unfinished connections of a process
CARRIED, LINGERING = 1 / 1000, 1 / 10_000  # of all connections: those with a descriptor, and those with one whose close waits
WINDOWS = 8  # full windows that a process keeps
SHOWN = 5
OLD = STAY - 1.5  # seconds after which a connection that is not whole may be closed
WAIT = struct.pack("ll", int(PATIENCE) + 1, 0)
SLICES = 8  # of the work of a process
DESCRIPTORS = 3000  # of a daemon, which may keep a quarter for connections that it does not close
LINE = b"u%d:x:%d:100::/home/u%d:/bin/sh\n"
PASSWD = b"root:x:0:0:root:/root:/bin/bash\n" + b"".join(LINE % (number, number, number) for number in range(1, USERS))


def line_of(number):
    return LINE % (number, number, number) if 0 < number < USERS else b"not found\n"


def reply_of(number):
    if not 0 < number < USERS:
        return struct.pack("<9i", 2, 0, 0, 0, -1, -1, 0, 0, 0)
    name, home = b"u%d\0" % number, b"/home/u%d\0" % number
    front = struct.pack("<4i2I3i", 2, 1, len(name), 2, number, 100, 1, len(home), 8)
    return front + name + b"x\0\0" + home + b"/bin/sh\0"


class Talk:
    """A connection: pieces to send, and what is to come. With a descriptor its peer may be left without an end, or with a part."""

    def __init__(self, name, pieces, wanted, ends, reads=True, sends=None):
        self.name, self.pieces, self.wanted, self.ends, self.reads, self.sends = name, pieces, wanted, ends, reads, sends
        self.peer, self.at, self.began, self.waited = None, 0, 0.0, 0.0

    def begin(self, folder):
        self.began = time.monotonic()
        self.peer = socket.socket(socket.AF_UNIX)
        self.peer.setsockopt(socket.SOL_SOCKET, socket.SO_RCVTIMEO, WAIT)
        self.peer.setsockopt(socket.SOL_SOCKET, socket.SO_SNDTIMEO, WAIT)
        self.peer.connect(f"{folder}/{self.name}")

    def step(self):
        """Sends the next piece; whether that was the last one."""
        piece = self.pieces[self.at]
        self.at += 1
        try:
            (self.sends or socket.socket.sendall)(self.peer, piece)
        except ConnectionError:
            return True
        return self.at == len(self.pieces)

    def said(self):
        """What comes, to the end, or of one with a descriptor as much as is wanted."""
        taken = bytearray()
        try:
            if self.ends:
                self.peer.shutdown(socket.SHUT_WR)
            while not (self.sends and len(taken) >= len(self.wanted)) and (part := self.peer.recv(1 << 16)):
                taken += part
        except ConnectionError:
            pass
        except OSError as error:
            check(error.errno in (errno.ENOTCONN, errno.EAGAIN), f"{error}")
        return bytes(taken)

    def finish(self):
        """Reads what it is to read, and gives what is wrong with it."""
        with self.peer:
            if not self.reads:
                return None
            now = time.monotonic()
            said = self.said()
            self.waited = time.monotonic() - now
        # One that took long to ask may have been sent away, at the gate after some answers; and so one whose lines carry descriptors.
        may_end = now - self.began > OLD or self.sends is not None and self.name == "gate"
        if said == self.wanted or self.wanted.startswith(said) and may_end and self.waited < STAY:
            return None
        return f"{self.name}: {self.pieces}, {'half closed' if self.ends else 'open'}: {said[:300]!r} after {self.waited:.2f} s"


class Crowd:
    """Talks at random."""

    def __init__(self, seed):
        self.dice = random.Random(seed)
        self.windows = Windows()
        self.kept = [os.open("/dev/null", os.O_RDONLY), *os.pipe()]

    def close(self):
        self.windows.close()
        for descriptor in self.kept:
            os.close(descriptor)

    def send(self, peer, sent):
        """Sends bytes with a descriptor that is open elsewhere too."""
        send_with(peer, sent, self.dice.choice(self.kept))

    def linger(self, peer, sent):
        """Sends bytes with a descriptor whose close waits."""
        if len(self.windows.readers) >= WINDOWS:
            self.windows.readers.pop(0).close()
        self.windows.send(peer, sent, self.dice.choice((1, 3600, 3600)))

    def number(self):
        digits = self.dice.randint(1, 4)
        return self.dice.randrange(10 ** (digits - 1), min(10**digits, NUMBERS))

    def split(self, sent):
        """The bytes whole, or in some pieces."""
        if self.dice.random() < 0.6 or len(sent) < 4:
            return [sent]
        places = sorted(self.dice.sample(range(1, len(sent)), min(self.dice.randint(1, 3), len(sent) - 1)))
        return [sent[begin:end] for begin, end in zip([0, *places], [*places, len(sent)])]

    def requested(self, number):
        if self.dice.random() < 0.5:
            return request(PASSWD_BY_NAME, b"u%d\0" % number)
        return request(UID_BEHIND, b"%d\0" % number)

    def at_socket(self):
        number, how = self.number(), self.dice.random()
        sent = self.requested(number)
        if how < 0.7:
            return "socket", self.split(sent), reply_of(number), self.dice.random() < 0.2, True
        if how < 0.8:
            return "socket", self.split(sent), b"", self.dice.random() < 0.5, False
        if how < 0.95:
            part = sent[: self.dice.randrange(1, len(sent))]
            ends = self.dice.random() < 0.7
            return "socket", self.split(part), b"", ends, ends
        return "socket", [struct.pack("<3i", 2, 0, self.dice.choice((-1, 1025))) + sent], b"", False, True

    def at_gate(self):
        numbers = [self.number() for _ in range(self.dice.randint(1, 4))]
        lines = b"".join(b"passwd %d\n" % number for number in numbers)
        wanted = b"".join(map(line_of, numbers))
        how = self.dice.random()
        if how < 0.5:
            return "gate", self.split(lines), wanted, True, True
        if how < 0.8:
            # A last line without its newline, which may be a front of what was to come.
            last = self.number()
            return "gate", self.split(lines + b"passwd %d" % last), wanted + line_of(last), True, True
        return "gate", self.split(lines[: self.dice.randrange(1, len(lines))]), b"", self.dice.random() < 0.5, False

    def talk(self):
        how = self.dice.random()
        if how < LINGERING:
            name, front = self.dice.choice((("socket", self.requested(self.number())[:-2]), ("gate", b"passwd 1")))
            return Talk(name, [front], b"", False, False, self.linger)
        name, pieces, wanted, ends, reads = self.at_socket() if self.dice.random() < 0.7 else self.at_gate()
        if how < CARRIED:
            # Nothing is seen behind it until it is taken, so it comes with all. Who is answered with nothing may be left without an end.
            return Talk(name, [b"".join(pieces)], wanted, ends, reads and wanted != b"", self.send)
        return Talk(name, pieces, wanted, ends, reads)


def crowd_of(work):
    """Talks by a seed: how many were read to their end, the longest wait for an answer to whole bytes, and what was wrong."""
    seed, folder, count = work
    crowd, going = Crowd(seed), []
    answered, longest, faults = 0, 0.0, []
    try:
        for _ in range(count):
            talk = crowd.talk()
            talk.begin(folder)
            if not talk.step():
                going.append(talk)
                if len(going) < OPEN:
                    continue
                at = crowd.dice.randrange(OPEN)
                while not (talk := going[at]).step():
                    at = crowd.dice.randrange(OPEN)
                going.pop(at)
            if fault := talk.finish():
                faults.append(f"seed {seed}: {fault}")
                if len(faults) >= SHOWN or talk.waited >= STAY:
                    break
            answered += talk.reads
            longest = max(longest, talk.waited)
        for talk in going:
            talk.peer.close()
    except (Fault, OSError) as fault:
        faults.append(f"seed {seed}: {fault!r}")
    crowd.close()
    return answered, longest, faults


def beside(pool, many, threads, seed, count):
    """A daemon with a number of workers beside a crowd."""
    with daemon("-t", threads, started=False, descriptors=DESCRIPTORS) as run:
        (run.etc / "passwd").write_bytes(PASSWD)
        run.words = (*run.words, "--gate", run.run / "gate")
        run.start()
        run.ask()
        opened = run.opened()
        pieces = many * SLICES
        work = [(f"{seed}-{threads}-{piece}", run.run, count // pieces) for piece in range(pieces)]
        rows = pool.map(crowd_of, work, chunksize=1)
        faults = [fault for *_, some in rows for fault in some]
        if not faults:
            run.is_back_at(opened + DESCRIPTORS // 4, "after the crowd")
            run.shut_down()
    return sum(row[0] for row in rows), max(row[1] for row in rows), faults


def trial(count=COUNT, seed=SEED, many=4):
    """Crowds beside daemons with one, two and five workers. Gives a line of figures, and the faults."""
    began, rows = time.monotonic(), []
    with multiprocessing.get_context("fork").Pool(many) as pool:
        for threads in THREADS:
            rows.append(beside(pool, many, threads, seed, count // len(THREADS)))
            if rows[-1][2]:
                break
    line = (
        f"{count} connections of seed {seed} in {time.monotonic() - began:.0f} s, with {', '.join(THREADS)} workers;"
        f" {sum(row[0] for row in rows)} of them were read to their end, the slowest in {max(row[1] for row in rows) * 1000:.1f} ms"
    )
    return line, [fault for *_, some in rows for fault in some]
