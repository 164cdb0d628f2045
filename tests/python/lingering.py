"""Bytes with descriptors whose close waits: no thread that serves or accepts may read or drop one. Cases of tests/daemon."""

import multiprocessing
import resource
import signal
import subprocess
import time
from contextlib import contextmanager
from pathlib import Path

from gates import STAY, gated
from running import ASK_ROOT, FILES, PATIENCE, check, request
from windows import HONEST_LINES, honest_clients, send_with, windows

THREADS = ("1", "2", "5")
USERS = {"passwd": FILES["passwd"] + HONEST_LINES}
END = 2.0  # seconds from -K to the end of the process
ORDER = 2.0  # seconds for -g
SWEEP = 1.5  # seconds after which who stayed too long has left
FEW, SOME, MANY = 1, 40, 2000
MORE = 10  # rounds of the longer forms
LIMIT = 3000  # descriptors of a daemon
OURS = 3 * MANY  # descriptors of a process that attacks
GROUP = 10  # connections of each kind that come at once
PAUSE = 0.1  # seconds until the next ones come, so that nobody is sent away as one of too many
TURNS, TURN = 160, 0.05  # closes that wait one after another, and seconds of each, less than it takes until a closer counts as held
SCARCE = 256  # descriptors of a daemon, of which as many closes take all that may wait for a closer

# What comes with a descriptor, where, and whether the peer stays. Requests that are whole, refused and cut off, and lines so too.
KINDS = (
    ("socket", b"\2", True),
    ("socket", ASK_ROOT, True),
    ("gate", b"passwd root\n", True),
    ("gate", b"passwd ro", False),
    ("socket", request(22, b"root\0"), True),
    ("socket", ASK_ROOT, False),
    ("socket", ASK_ROOT[:9], False),
    ("gate", b"a" * 1200, True),
)


def state_of(process):
    """The letter of what it does, `T` if it is stopped, `Z` if it has ended."""
    try:
        return Path(f"/proc/{process}/stat").read_text().rsplit(")", 1)[1].split()[0]
    except (FileNotFoundError, ProcessLookupError):
        return "Z"


@contextmanager
def stopped(run):
    """The daemon does nothing meanwhile, so nobody closes a descriptor there before it is closed here."""
    run.process.send_signal(signal.SIGSTOP)
    try:
        while run.process.poll() is None and state_of(run.process.pid) not in ("T", "Z"):
            time.sleep(0.0001)
        yield
    finally:
        run.process.send_signal(signal.SIGCONT)


def attack(run, made, kinds):
    """Sends descriptors whose close waits, by a connection each. The peers that stay are given back."""
    peers = [run.connect(name) for name, *_ in kinds]
    writers = [made.writer() for _ in kinds]
    with stopped(run):
        for peer, writer, (_, sent, _) in zip(peers, writers, kinds):
            try:
                send_with(peer, sent, writer.fileno())
            except (BrokenPipeError, ConnectionResetError):
                # It was sent away before, as the oldest of too many, or the daemon has ended.
                made.give_up(writer)
            writer.close()
    for peer, (*_, stays) in zip(peers, kinds):
        if not stays:
            peer.close()
    return [peer for peer, (*_, stays) in zip(peers, kinds) if stays]


def ends_in_time(run, text):
    began = time.monotonic()
    said = run.command("-K")
    check(said == (b"", b"", 0), f"{text}: -K: {said}")
    try:
        status = run.process.wait(END)
    except subprocess.TimeoutExpired:
        status = "no end"
    took = time.monotonic() - began
    check(status == 0 and took <= END, f"{text}: after -K: {status} after {took:.1f} s")
    return took


def is_ordered(run, text):
    began = time.monotonic()
    _, lines, status = run.command("-g")
    took = time.monotonic() - began
    check(status == 0 and took <= ORDER, f"{text}: -g: {lines}, status {status}, after {took:.1f} s")


def some_beside(threads):
    """One connection of each kind, and forty of each kind, beside honest clients."""
    times, count = [], 0
    with gated("-t", threads, files=USERS) as run, windows() as made:
        peers = []
        for each in (FEW, SOME):
            text = f"{each} of each kind, with {threads} workers"
            with honest_clients(run.run) as found:
                for done in range(0, each, GROUP):
                    peers += attack(run, made, KINDS * min(GROUP, each - done))
                    time.sleep(PAUSE)
                time.sleep(STAY + SWEEP)
            is_ordered(run, text)
            count += found[0]
            times.append(found[1])
        ended = ends_in_time(run, text)
        for peer in peers:
            peer.close()
    return count, max(times), ended, 0


def begin_again(run, text):
    """Plays the unit: one that has ended by itself is started again. Whether it had."""
    status = run.process.poll()
    if status is None:
        return 0
    lines = run.process.stderr.read().splitlines()
    check(status == 8 and lines, f"{text}: it ended with {status}, and says {lines}")
    run.process.stdout.close()
    run.process.stderr.close()
    run.start()
    return 1


def many_beside(threads):
    """Two thousand connections, of all kinds in turn. The daemon may end and be started again."""
    text = f"{MANY} connections with {threads} workers"
    resource.setrlimit(resource.RLIMIT_NOFILE, (OURS, resource.getrlimit(resource.RLIMIT_NOFILE)[1]))
    starts = 0
    with gated("-t", threads, files=USERS, descriptors=LIMIT) as run, windows() as made:
        peers = []
        with honest_clients(run.run, may_be_sent_away=True) as found:
            for _ in range(MANY // (GROUP * len(KINDS))):
                try:
                    peers += attack(run, made, KINDS * GROUP)
                except (ConnectionError, FileNotFoundError):
                    pass
                starts += begin_again(run, text)
            ends = time.monotonic() + STAY + SWEEP
            while time.monotonic() < ends:
                starts += begin_again(run, text)
                time.sleep(0.02)
        is_ordered(run, text)
        ended = ends_in_time(run, text)
        for peer in peers:
            peer.close()
    return found[0], found[1], ended, starts


def in_turn(threads):
    """Closes that wait one after another, so no closer is held by one for long. The daemon may end and be started again."""
    text = f"{TURNS} closes in turn with {threads} workers"
    starts = 0
    with gated("-t", threads, files=USERS, descriptors=SCARCE) as run, windows() as made:
        with honest_clients(run.run, may_be_sent_away=True) as found:
            writers = [made.writer() for _ in range(TURNS)]
            with stopped(run):
                for writer in writers:
                    with run.connect() as peer:
                        send_with(peer, ASK_ROOT, writer.fileno())
                    writer.close()
            for reader in made.readers:
                time.sleep(TURN)
                reader.close()
                starts += begin_again(run, text)
        ended = ends_in_time(run, text)
    return found[0], found[1], ended, starts


def tried(trial, threads, rounds, told):
    try:
        told.put((None, [trial(threads) for _ in range(rounds)]))
    except Exception as fault:
        told.put((fault, []))


def side_by_side(trial, rounds):
    """A trial with each number of workers, in processes of their own; all that they gave."""
    context = multiprocessing.get_context("fork")
    told = context.Queue()
    processes = [context.Process(target=tried, args=(trial, threads, rounds, told)) for threads in THREADS]
    for process in processes:
        process.start()
    outcomes = [told.get(timeout=rounds * 20 * PATIENCE) for _ in processes]
    for process in processes:
        process.join()
    faults = [str(fault) for fault, _ in outcomes if fault]
    check(not faults, "; ".join(faults))
    return [row for _, rows in outcomes for row in rows]


def told_of(rows, what):
    count, longest, ended, starts = (sum(row[0] for row in rows), *(max(row[at] for row in rows) for at in (1, 2, 3)))
    again = f", which starts again {starts} times at most" if starts else ""
    return (
        f"beside {what} whose descriptors linger{again}, with {', '.join(THREADS)} workers, {count} replies are right,"
        f" the slowest after {longest * 1000:.0f} ms; -K ends it after {ended:.2f} s at most"
    )


def lingering(rounds=1):
    rows = side_by_side(some_beside, rounds)
    return told_of(rows, f"{FEW} and {SOME} connections of {len(KINDS)} kinds")


def lingering_many(rounds=1):
    most = resource.getrlimit(resource.RLIMIT_NOFILE)[1]
    if most != resource.RLIM_INFINITY and most < OURS:
        return f"skipped, since a process may have only {most} descriptors"
    return told_of(side_by_side(many_beside, rounds), f"{MANY} connections")


def lingering_in_turn():
    return told_of(side_by_side(in_turn, 1), f"{TURNS} connections one after another")


CASES = {"lingering": lingering, "lingering-many": lingering_many, "lingering-in-turn": lingering_in_turn}
LONG_CASES = {"lingering-ten": lambda: lingering(MORE), "lingering-many-ten": lambda: lingering_many(MORE)}
