"""Connections that leave their seat while the system still tells of them: no event of one may move another. Cases of tests/daemon."""

import socket
import time

from gates import gated
from running import ASK_BIG, FILES, PASSWD_BY_NAME, PATIENCE, check, is_sent_away, read_all, request
from windows import windows

THREADS = ("1", "2", "5")
ROUNDS, MORE = 2, 10
SEATED = 0.05  # seconds after which a connection without a whole request sits
TAKEN = 0.1  # seconds after which an event has been seen
AHEAD = 0.4  # seconds of work before a request that is to wait
WAIT = 0.005  # seconds that a worker waits at most for a peer that does not read, but for two
SEATS = 256
CROWD = 6  # peers more than there are seats

USER = "u{0}:x:{0}:100::/home/u{0}:/bin/sh\n"
USERS = {"passwd": FILES["passwd"] + "".join(map(USER.format, (1050, 10500))).encode()}
SHORT, LONG = (USER.format(number).encode() for number in (1050, 10500))
ASK_LONG = request(PASSWD_BY_NAME, b"u10500\0")
HALF = len(ASK_LONG) - 2
BIG_FRONT = 7  # bytes of a request that are sent first


def asks_big(run):
    peer = run.connect(patience=3 * PATIENCE)
    peer.sendall(ASK_BIG)
    return peer


def work_ahead(run, threads, seconds):
    """Peers that keep each worker from later requests for so long, since none of them reads."""
    return [asks_big(run) for _ in range(int(seconds / WAIT) * int(threads))]


def close_all(peers):
    for peer in peers:
        peer.close()


def leaves_a_seat(run):
    """A peer whose request came in two parts, so that it sat until then, and whose reply is not read."""
    peer = run.connect(patience=3 * PATIENCE)
    peer.sendall(ASK_BIG[:BIG_FRONT])
    time.sleep(SEATED)
    peer.sendall(ASK_BIG[BIG_FRONT:])
    time.sleep(SEATED)
    return peer


def sits_down(run, name, front):
    peer = run.connect(name, 3 * PATIENCE)
    peer.sendall(front)
    time.sleep(SEATED)
    return peer


def is_silent(peer):
    """Whether nothing came to this peer, and not the end either."""
    peer.setblocking(False)
    try:
        return peer.recv(1, socket.MSG_PEEK) is None
    except BlockingIOError:
        return True
    finally:
        peer.settimeout(3 * PATIENCE)


def one_round(run, threads, text):
    """One leaves its seat and shuts its side, and its seat is another's by then: first at the gate, then at the socket of requests."""
    wanted = run.ask(ASK_LONG)
    for name, front, rest, answer in (("gate", b"passwd 1050", b"0\n", LONG), ("socket", ASK_LONG[:HALF], ASK_LONG[HALF:], wanted)):
        # One worker alone waits for nobody, so the request waits for it; else a worker waits for the peer that does not read.
        before = work_ahead(run, threads, AHEAD) if threads == "1" else []
        left = leaves_a_seat(run)
        other = sits_down(run, name, front)
        left.shutdown(socket.SHUT_WR)
        time.sleep(TAKEN)
        is_left_alone = is_silent(other)
        try:
            other.sendall(rest)
            other.shutdown(socket.SHUT_WR)
            said = read_all(other)
        except (BrokenPipeError, ConnectionResetError):
            said = b"(closed)"
        close_all([*before, left, other])
        check(said == answer, f"{text}: who sits at {name} is answered {said!r}")
        check(is_left_alone, f"{text}: who sits at {name} is sent something before its question is whole")


def anothers_answer(rounds=ROUNDS):
    for threads in THREADS:
        with gated("-t", threads, files=USERS) as run:
            for turn in range(rounds):
                one_round(run, threads, f"with {threads} workers, round {turn}")
            run.shut_down()
    return (
        f"who sits where one left that then shuts its side gets its own answer: {rounds} rounds at the gate and at the socket,"
        f" with {', '.join(THREADS)} workers"
    )


def one_lease(run, made, threads, text):
    """A line waits for its worker, and its connection is the oldest of a crowd. Each of these asks the first part of a line meanwhile.

    Whoever closes the connection then takes a while, so that an event of it is seen if the system is asked for one.
    """
    before = work_ahead(run, threads, 2 * AHEAD)
    leased = run.connect("gate", 3 * PATIENCE)
    leased.sendall(b"passwd root\n")
    made.send(leased, b"p", 1)
    leased.shutdown(socket.SHUT_WR)
    time.sleep(TAKEN)
    others = [run.connect("gate", 3 * PATIENCE) for _ in range(SEATS + CROWD)]
    for other in others:
        other.sendall(b"passwd 1050")
    # The line is served meanwhile, and its connection is to come back to its seat.
    time.sleep(3 * AHEAD)
    answers = {}
    for other in others:
        if is_silent(other):
            other.sendall(b"0\n")
            other.shutdown(socket.SHUT_WR)
            said = read_all(other)
        else:
            said = b"" if is_sent_away(other) else b"an answer to " + SHORT
        answers[said] = answers.get(said, 0) + 1
    close_all([*before, leased, *others])
    check(set(answers) <= {b"", LONG} and answers.get(LONG, 0) > SEATS // 2, f"{text}: {answers}")
    return answers[LONG]


def anothers_lease():
    """A connection of the gate that a worker has loses its seat, and comes back."""
    counts = []
    for threads in THREADS:
        with gated("-t", threads, files=USERS) as run, windows() as made:
            counts.append(one_lease(run, made, threads, f"with {threads} workers"))
            run.shut_down()
    return f"of {SEATS + CROWD} that sit while another loses its seat and comes back, {min(counts)} or more get their own answers, and none another's"


CASES = {"anothers-answer": anothers_answer, "anothers-lease": anothers_lease}
LONG_CASES = {"anothers-answer-ten": lambda: anothers_answer(MORE)}
