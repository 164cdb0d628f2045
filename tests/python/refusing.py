"""Programs whose allocations are refused, one after the other, by a small library in C that is loaded before them."""

import mmap
import multiprocessing
import os
import shlex
import shutil
import socket
import struct
import subprocess
import tempfile
import time
from collections import Counter
from contextlib import contextmanager
from pathlib import Path

from running import PATIENCE, ROOT, SHUTDOWN, Daemon, check, request

SOURCE = ROOT / "tests" / "c" / "refuse.c"
FIELDS = ("counting", "first", "last", "count", "refused", "size", "ahead", "wait", "waits", "rests")
WAIT = 5  # milliseconds that the daemon waits for peers before it looks at its clock
TICK = 16  # seconds that bring the next tick about
STILL = 3  # looks, ten milliseconds apart, at which no thread has worked
FOREVER = 2**63
WORKERS = 2
MOST = 5000  # allocations of a subject
MOST_FAULTS = 20


class Skipped(Exception):
    """What is missing here."""


def library(folder):
    """Makes the library in a folder."""
    words = shlex.split(os.environ.get("CC", "cc"))
    if not shutil.which(words[0]):
        raise Skipped(f"skipped, since there is no {words[0]}")
    made = Path(folder) / "refuse.so"
    done = subprocess.run([*words, "-shared", "-fPIC", "-O1", "-o", made, SOURCE], capture_output=True, check=False)
    if done.returncode != 0:
        raise Skipped(f"skipped, since {words[0]} makes no library that is loaded before a program here")
    return made


class Orders:
    """What the library is told, and tells."""

    def __init__(self, path):
        path.write_bytes(bytes(8 * len(FIELDS)))
        with open(path, "r+b") as file:
            self.map = mmap.mmap(file.fileno(), 0)

    def get(self, name):
        return struct.unpack_from("<Q", self.map, 8 * FIELDS.index(name))[0]

    def set(self, **values):
        for name, value in values.items():
            struct.pack_into("<Q", self.map, 8 * FIELDS.index(name), value)

    def refuse(self, first, last):
        """From now on the allocations with these numbers are refused; 0 refuses none."""
        self.set(counting=0, first=first, last=last, count=0, refused=0, size=0)
        self.set(counting=1)

    def stop(self):
        """Refuses no more. Tells how many were refused."""
        self.set(counting=0, first=0)
        return self.get("refused")


class Refusable(Daemon):
    """A daemon over the files of its folder, with orders for its allocations."""

    def __init__(self, made, *words, settings=b""):
        super().__init__("-t", str(WORKERS), *words)
        (self.etc / "nscd.conf").write_bytes(settings)
        self.orders = Orders(self.folder / "orders")
        self.orders.set(wait=WAIT)
        self.environment = {**os.environ, "LD_PRELOAD": str(made), "REFUSE": str(self.folder / "orders")}

    def start(self, **how):
        super().start(env=self.environment, **how)

    def closed_or(self, sent, name="socket", is_last=False):
        """All that is sent for these bytes until the connection ends, or is cut off. After the last ones the peer sends no more."""
        taken = bytearray()
        try:
            with self.connect(name, 4 * PATIENCE) as peer:
                peer.sendall(sent)
                if is_last:
                    peer.shutdown(socket.SHUT_WR)
                while part := peer.recv(1 << 20):
                    taken += part
        except ConnectionError:
            pass
        return bytes(taken)

    def settles(self):
        """Waits until its first thread has started the others and waits for peers, and these wait for something to do."""
        ends, quiet = time.monotonic() + 4 * PATIENCE, 0
        while quiet < 2:
            check(time.monotonic() < ends, "its threads do not come to rest")
            time.sleep(0.002)
            tasks = [task for task in Path(f"/proc/{self.process.pid}/task").iterdir() if task.name != str(self.process.pid)]
            rests = self.orders.get("waits") > 0 and all((task / "stat").read_text().rsplit(")", 1)[1].split()[0] == "S" for task in tasks)
            quiet = quiet + 1 if rests else 0

    def rises(self, name, patience=4 * PATIENCE):
        """Whether a count of the daemon's first thread becomes greater within this time."""
        before, ends = self.orders.get(name), time.monotonic() + patience
        while self.orders.get(name) == before and time.monotonic() < ends:
            time.sleep(0.002)
        return self.orders.get(name) > before

    def goes_on(self, seconds):
        self.orders.set(ahead=self.orders.get("ahead") + seconds)

    def worked(self):
        """The time of the processor that each of its threads has had, but the one that waits for peers."""
        first = str(self.process.pid)
        tasks = Path(f"/proc/{first}/task").glob("*/schedstat")
        return {path.parent.name: path.read_text().split()[0] for path in tasks if path.parent.name != first}

    def settles(self):
        """Waits until none of its threads works, since one of its own makes a tick."""
        ends, was, still = time.monotonic() + 4 * PATIENCE, None, 0
        while still < STILL:
            check(time.monotonic() < ends, "its threads work on")
            time.sleep(0.01)
            now = self.worked()
            was, still = now, still + 1 if now == was else 0

    def tick(self, seconds=TICK):
        """Lets so much time pass. The daemon has seen it once it waited for peers, rested, looked at its clock, and waits again; then the
        thread that ticks has its order."""
        self.goes_on(seconds)
        check(self.rises("waits"), "it waits for no peers any more")
        ends = time.monotonic() + 4 * PATIENCE
        while not self.rises("rests", 0.03):
            check(time.monotonic() < ends, "it rests no more")
            # This ends its wait for peers.
            self.goes_on(1)
        check(self.rises("waits"), "it waits for no peers after a rest")
        self.settles()

    def tells_and_ends(self):
        """Sees that it ends with status 0 where it is told to, and gives what it has said on standard error."""
        check(self.ask(request(SHUTDOWN, b""), "admin") == bytes(4), "it was told to end, and says something else")
        output, told = self.process.communicate(timeout=4 * PATIENCE)
        check((output, self.process.returncode) == (b"", 0), f"at the end: {output}, {self.process.returncode}")
        return told

    def ends_well(self):
        told = self.tells_and_ends()
        check(told == b"", f"it told {told}")


@contextmanager
def refusable(made, *words, started=True, **options):
    run = Refusable(made, *words, **options)
    try:
        if started:
            run.start()
            run.settles()
        yield run
    finally:
        run.remove()


class Subject:
    """Something whose allocations are refused: a name, and a function that refuses those from a first to a last number and judges what comes.

    The function answers how many were refused, and a word for what came. It raises a fault where what came is wrong.
    """

    def __init__(self, name, trial, *given):
        self.name, self.trial, self.given = name, trial, given


def refuse_all(work):
    """Tries a subject with an allocation refused, then the one `step` later, and so on until there are no more.

    Each is refused alone, or with all that follow. Answers how many there were, how often each word came, and the faults.
    """
    subject, made, is_alone, begin, step = work
    words, faults = Counter(), []
    for number in range(begin, MOST, step):
        last = number if is_alone else FOREVER
        try:
            refused, word = subject.trial(made, number, last, *subject.given)
        except Exception as fault:  # pylint: disable=broad-exception-caught
            # Whatever goes wrong in a trial is a fault of that allocation, and the next one is tried.
            refused, word = 1, "fault"
            faults.append(f"{subject.name}, allocation {number}{'' if is_alone else ' and all that follow'}: {fault!r}")
        if not refused or len(faults) == MOST_FAULTS:
            break
        words[word] += 1
    else:
        faults.append(f"{subject.name}: more than {MOST} allocations")
    return words.total(), words, faults


def listed(words):
    """How often each word came, the most frequent first."""
    return ", ".join(f"{number} {word}" for word, number in words.most_common())


@contextmanager
def workers(count):
    """`count` processes, and the library."""
    with tempfile.TemporaryDirectory(prefix="nscd-refuse-") as folder:
        made = library(folder)
        with multiprocessing.get_context("fork").Pool(count) as pool:
            yield pool, made
