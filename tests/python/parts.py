"""Requests that come in two parts, beside clients that ask without rest: a case of tests/daemon."""

import socket
import subprocess
import sys
import time
from contextlib import contextmanager

from askers import asking
from running import ASK_ROOT, ROOT_REPLY, check, daemon, read_all

CLIENTS = 16
WORKERS = (1, 2, 5)
ASKED = 30  # requests in two parts
APART = 0.02  # seconds between the parts
FRONTS = (12, 5, 15)  # bytes of the first part: the header, less, and more
LATE = 0.1  # seconds until the reply is there
TURNS = 10  # of the scheduler that a reply and its end take, where a byte to an echo takes one: the daemon's, a worker's, a closer's
TRIES = 3
RUN = 6.0  # seconds of the clients, which is longer than the requests take on a machine that is not busy

# Sends back each byte that comes, as the least that another process can do for one that asks.
ECHO = """
import socket, sys
with socket.socket(socket.AF_UNIX, fileno=int(sys.argv[1])) as peer:
    while part := peer.recv(1):
        peer.sendall(part)
"""


@contextmanager
def echo():
    """A peer that sends back each byte."""
    here, there = socket.socketpair()
    with here, subprocess.Popen([sys.executable, "-c", ECHO, str(there.fileno())], pass_fds=[there.fileno()]):
        there.close()
        yield here
        here.shutdown(socket.SHUT_RDWR)


def in_parts(run, front):
    """The seconds from the second part of a request to the whole reply."""
    with run.connect() as peer:
        peer.sendall(ASK_ROOT[:front])
        time.sleep(APART)
        began = time.monotonic()
        peer.sendall(ASK_ROOT[front:])
        check(read_all(peer) == ROOT_REPLY, "a request in two parts: another reply")
        return time.monotonic() - began


def to_echo(peer):
    """The seconds until a byte is back, after a pause as long as that between the parts."""
    time.sleep(APART)
    began = time.monotonic()
    peer.sendall(b"a")
    check(peer.recv(1) == b"a", "no byte is back")
    return time.monotonic() - began


def taken_at_load(workers):
    """The longest time of a request in two parts beside clients that ask without rest, and of a byte to an echo at that time."""
    with daemon("-t", str(workers)) as run, echo() as peer:
        check(run.ask() == ROOT_REPLY, "another reply")
        to_echo(peer)
        with asking(run, CLIENTS, RUN, ASK_ROOT, ROOT_REPLY) as clients:
            time.sleep(1)
            taken = []
            for number in range(ASKED):
                taken.append((in_parts(run, FRONTS[number % len(FRONTS)]), to_echo(peer)))
            hits = clients.times()
        check(len(hits) > ASKED, f"the clients have {len(hits)} replies")
        return max(part for part, _ in taken), max(back for _, back in taken)


def parts_at_load():
    said = []
    for workers in WORKERS:
        for _ in range(TRIES):
            late, back = taken_at_load(workers)
            if late <= LATE + TURNS * back:
                break
        check(late <= LATE + TURNS * back, f"with {workers} workers a request in two parts takes {late:.3f} s, and a byte to an echo {back:.3f} s")
        said.append(f"{late * 1000:.0f} ({back * 1000:.0f})")
    return (
        f"with {', '.join(map(str, WORKERS))} workers, beside {CLIENTS} clients that ask without rest, {ASKED} requests in two parts take up to"
        f" {', '.join(said)} ms (a byte to an echo)"
    )


CASES = {"parts-at-load": parts_at_load}
