"""Connections that wait for a worker, and whose peers have gone meanwhile: a case of tests/daemon."""

import socket
import time

from holding import holding
from running import NO_REPLY, PASSWD_BY_NAME, PATIENCE, check, daemon, read_all, request
from scopes import counts

GONE, STAYING, ENDED = 50, 10, 10  # peers that close, that wait, and that send no more but wait
WAITED = 0.3  # seconds that they wait for the worker at least
COUNTED = ("hits", "negative hits", "misses", "negative misses")


def ask_nobody(number):
    return request(PASSWD_BY_NAME, b"nobody%03d\0" % number)


def lookups(run):
    """How many lookups of users are counted."""
    told = counts(run, "passwd")
    return sum(int(told[name]) for name in COUNTED)


def wait_until(is_so, text):
    ends = time.monotonic() + PATIENCE
    while not is_so():
        check(time.monotonic() < ends, text)
        time.sleep(0.01)


def sent(run, numbers):
    """Connections that asked for these names of no user, each for its own."""
    peers = [run.connect() for _ in numbers]
    for peer, number in zip(peers, numbers):
        peer.sendall(ask_nobody(number))
    return peers


def answers_who_is_there(run, held):
    """Has connections wait for the only worker, lets some of their peers go, and gives how many lookups came of all of them."""
    check(run.ask(ask_nobody(0)) == NO_REPLY, "another reply")
    before, opened = lookups(run), run.opened()
    held.hold()
    with run.connect() as first:
        first.sendall(ask_nobody(1))
        wait_until(lambda: held.held_since is not None, "no worker opens the file")
        gone = sent(run, range(100, 100 + GONE))
        staying = sent(run, range(200, 200 + STAYING))
        ended = sent(run, range(300, 300 + ENDED))
        for peer in ended:
            peer.shutdown(socket.SHUT_WR)
        wait_until(lambda: run.opened() >= opened + 1 + GONE + STAYING + ENDED, "the connections are not accepted")
        for peer in gone:
            peer.close()
        time.sleep(WAITED)
        held.let_go()
        for peer in [first, *staying, *ended]:
            with peer:
                check(read_all(peer) == NO_REPLY, "a peer that waits gets another reply")
    run.is_back_at(opened, "afterwards")
    return lookups(run) - before


def gone_unasked():
    """A request whose peer has gone is not looked up."""
    with daemon("-t", "1") as run:
        held = holding(run.etc / "passwd")
        if held is None:
            return "skipped, since the system cannot hold a read (fanotify)"
        try:
            found = answers_who_is_there(run, held)
        finally:
            held.close()
        wanted = 1 + STAYING + ENDED
        check(found == wanted, f"of {wanted} lookups whose peers wait and {GONE} whose peers have gone {found} were made")
        run.shut_down()
        return f"of connections that wait for the only worker {GONE} whose peers have gone are not looked up, and {wanted} whose peers wait are answered"


CASES = {"gone-unasked": gone_unasked}
