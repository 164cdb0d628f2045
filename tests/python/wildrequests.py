"""Requests of any bytes to a daemon over its three sockets, each reply held against a second reading of the protocol."""

import errno
import multiprocessing
import random
import re
import socket
import struct
import time
from pathlib import Path

import contents
import frames
import protocol
from gates import ROOT_LINE, some_line
from running import ASK_ROOT, PATIENCE, ROOT_REPLY, Fault, check, daemon, request

SEED, COUNT = 1, 1_000_000
HONEST = 2  # honest clients beside the others
PAUSE = 0.001  # seconds between two requests of one of them
LONGEST_LINES = 20  # of one connection
MEMORY = 320  # MiB
SHOWN = 5  # differences of one seed
TRIES = 3
WAIT = struct.pack("ll", 4 * int(PATIENCE), 0)
GOOD = (("socket", ASK_ROOT, ROOT_REPLY), ("gate", b"passwd root\n", ROOT_LINE))
PIECES = {"socket": 16, "admin": 2, "gate": 2}  # of all requests
LENGTHS = (-(2**31), -1, 0, 1, 3, 4, 11, 1023, 1024, 1025, 65536, 2**31 - 1)


def exchange(path, sent, is_last):
    """What comes for these bytes until the connection ends, or is cut off."""
    taken = bytearray()
    with socket.socket(socket.AF_UNIX) as peer:
        peer.setsockopt(socket.SOL_SOCKET, socket.SO_RCVTIMEO, WAIT)
        peer.setsockopt(socket.SOL_SOCKET, socket.SO_SNDTIMEO, WAIT)
        peer.connect(path)
        try:
            peer.sendall(sent)
            if is_last:
                peer.shutdown(socket.SHUT_WR)
        except ConnectionError:
            pass
        except OSError as error:
            # It was cut off between the last byte and the end.
            check(error.errno == errno.ENOTCONN, f"{error}")
        try:
            while part := peer.recv(1 << 18):
                taken += part
        except ConnectionError:
            pass
    return bytes(taken)


class Wild:
    """Requests at random: valid ones, and such that are cut, lengthened, lie, or are any bytes."""

    def __init__(self, seed):
        self.dice = random.Random(seed)
        self.maker = contents.Maker(0)
        self.maker.dice = self.dice
        self.kinds = list(frames.TYPES)

    def key(self, kind):
        dice = self.dice.random()
        if dice < 0.2:
            return self.dice.randbytes(self.dice.choice((0, 1, 4, 16, 17, 100, 1024)))
        key = self.maker.key(kind)
        return self.maker.altered(key) if dice < 0.6 else key

    def good(self):
        kind = self.dice.choice(self.kinds)
        key = self.key(kind)
        ending = b"" if kind in protocol.ADDRESSES or len(key) >= protocol.LONGEST_KEY else self.dice.choice((b"\0", b"\0", b""))
        return request(frames.TYPES[kind], key + ending)

    def any_number(self):
        return self.dice.choice((self.dice.randint(-3, 30), self.dice.randint(-(2**31), 2**31 - 1)))

    def request(self):
        sent, how = self.good(), self.dice.random()
        if how < 0.35:
            return sent
        if how < 0.5:
            return sent[: self.dice.randrange(len(sent))]
        if how < 0.6:
            return sent + self.dice.randbytes(self.dice.choice((1, 12, 100, 1036, 4000)))
        if how < 0.72:
            length = self.dice.choice((len(sent) - 12 + self.dice.randint(-2, 2), self.dice.choice(LENGTHS), self.any_number()))
            return sent[:8] + struct.pack("<i", length) + sent[12:]
        if how < 0.82:
            return sent[:4] + struct.pack("<i", self.any_number()) + sent[8:]
        if how < 0.9:
            return struct.pack("<i", self.any_number()) + sent[4:]
        return self.dice.randbytes(self.dice.choice((0, 1, 11, 12, 13, 40, 1035, 1036, 1037, 3000)))

    def order(self):
        """A request to the administrator, which is none to end."""
        sent = self.request()
        if self.dice.random() < 0.3:
            name = self.dice.choice((*frames.DATABASES, "netgroup", "", "Passwd", "passw"))
            sent = request(self.dice.choice((9, 10)), name.encode() + self.dice.choice((b"\0", b"", b"\0x")))
        return sent[:4] + struct.pack("<i", 9) + sent[8:] if protocol.asked(sent)[1] == 8 else sent

    def line(self):
        """A line, mostly good, or one of any bytes, or of a length at the limits."""
        how = self.dice.random()
        if how < 0.75:
            return some_line(self.maker, self.dice)
        if how < 0.85:
            return self.dice.randbytes(self.dice.choice((0, 1, 7, 40, 400))).replace(b"\n", b"\r")
        if how < 0.99:
            front = self.dice.choice((b"passwd ", b"group ", b"hosts ", b"services "))
            return front + bytes([self.dice.randint(33, 255)]) * self.dice.choice((1, 1023, 1024, 1025))
        return b"x" * self.dice.choice((1099, 1100, 1101, 1102, 5000))

    def lines(self):
        return b"\n".join(self.line() for _ in range(self.dice.randint(1, LONGEST_LINES))) + self.dice.choice((b"\n", b""))


def judged(name, path, sent, chance, answers):
    """Sends these bytes: what came, whether that is right, and how many requests it was."""
    if name == "gate":
        wanted, closes = answers.to_lines(sent)
        came = exchange(path, sent, not closes or chance < 0.5)
        return came, came == wanted, max(1, wanted.count(b"\n"))
    came = exchange(path, sent, protocol.asked(sent)[0] == protocol.PART or chance < 0.3)
    return came, answers.is_answer_to_order(sent, came) if name == "admin" else came == answers.to_request(sent), 1


def judged_in_time(name, path, sent, chance, answers):
    """Sends these bytes, and again if the peer was so slow that the daemon sent it away."""
    for _ in range(TRIES):
        began = time.monotonic()
        came, is_right, number = judged(name, path, sent, chance, answers)
        if is_right or came != b"" or time.monotonic() - began < PATIENCE:
            break
    return came, is_right, number


def at_sockets(work):
    """`count` requests of one seed at a socket: how many they were, how many connections had an answer, and the first differences."""
    seed, name, path, count, files = work
    wild, answers = Wild(f"{seed}"), protocol.Answers(files)
    makes = {"socket": wild.request, "admin": wild.order, "gate": wild.lines}[name]
    asked = answered = 0
    faults = []
    while asked < count and len(faults) < SHOWN:
        sent = makes()
        try:
            came, is_right, number = judged_in_time(name, path, sent, wild.dice.random(), answers)
        except (Fault, OSError) as fault:
            came, is_right, number = repr(fault), False, 1
        asked += number
        answered += bool(came)
        if not is_right:
            faults.append(f"seed {seed} at {name}: {sent.hex()}: the answer is {came[:400]!r}")
    return name, asked, answered, faults


def honest(folder, ends, told):
    """A client that asks until the others are done, and tells how often it did, and the longest time that it waited."""
    count, longest = 0, 0.0
    try:
        while not ends.is_set():
            for name, sent, wanted in GOOD:
                began = time.monotonic()
                came = exchange(f"{folder}/{name}", sent, name == "gate")
                longest = max(longest, time.monotonic() - began)
                check(came == wanted, f"another answer at {name}: {came!r}")
                count += 1
                time.sleep(PAUSE)
        told.put((count, longest, None))
    except (Fault, OSError) as fault:
        told.put((count, longest, f"an honest client after {count} requests: {fault!r}"))


def written(run, seed):
    """Puts files at random into the daemon's folder, with root in front, and gives them."""
    maker = contents.Maker(seed)
    files = {name: maker.file(name) for name in frames.FILES}
    files["switch"] = b"passwd: files extrausers\ngroup: compat [NOTFOUND=continue] extrausers\ngroup_compat: files\n"
    files["passwd"] = ROOT_LINE + files["passwd"]
    (run.etc / "extrausers").mkdir()
    for name, text in files.items():
        (run.etc / name.replace("switch", "nsswitch.conf").replace("extra-", "extrausers/")).write_bytes(text)
    return files


def memory_of(run, name):
    text = Path(f"/proc/{run.process.pid}/status").read_text()
    return int(re.search(rf"^{name}:\s*(\d+) kB$", text, re.M).group(1)) // 1024


def phase(pool, folder, seed, count, files):
    """`count` requests, by pieces with a seed each; what they found, by socket."""
    work = []
    for name, pieces in PIECES.items():
        each = count * pieces // sum(PIECES.values()) // pieces
        work += [(f"{seed}-{name}-{piece}", name, f"{folder}/{name}", each, files) for piece in range(pieces)]
    return pool.map(at_sockets, work, chunksize=1)


def trial(count=COUNT, seed=SEED, many=4):
    """All requests, half of them beside honest clients. Gives a line of figures, and the faults."""
    context = multiprocessing.get_context("fork")
    with daemon(started=False) as run, context.Pool(many) as pool:
        files = written(run, seed)
        run.words = ("--gate", run.run / "gate")
        run.start()
        run.ask()
        opened, began = run.opened(), time.monotonic()
        found = phase(pool, run.run, f"{seed}-alone", count // 2, files)
        ends, told = context.Event(), context.Queue()
        clients = [context.Process(target=honest, args=(run.run, ends, told)) for _ in range(HONEST)]
        for client in clients:
            client.start()
        found += phase(pool, run.run, f"{seed}-beside", count - count // 2, files)
        ends.set()
        honests = [told.get(timeout=10 * PATIENCE) for _ in clients]
        for client in clients:
            client.join()
        faults = [fault for *_, some in found for fault in some] + [fault for *_, fault in honests if fault]
        took, most = time.monotonic() - began, memory_of(run, "VmHWM")
        run.is_back_at(opened, "after all requests")
        if most > MEMORY:
            faults.append(f"it had {most} MiB of memory, and {MEMORY} are the most that it may")
        run.shut_down()
    asked = {name: sum(row[1] for row in found if row[0] == name) for name in PIECES}
    answered = sum(row[2] for row in found)
    line = (
        f"{sum(asked.values())} requests of seed {seed} in {took:.0f} s: {asked['socket']} at the socket of everyone, {asked['admin']} at the administrator's,"
        f" {asked['gate']} lines at the gate, {answered} connections with an answer; beside them {sum(row[0] for row in honests)} of honest clients,"
        f" the slowest in {max(row[1] for row in honests) * 1000:.1f} ms; {most} MiB of memory at most"
    )
    return line, faults
