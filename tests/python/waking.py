"""Wakes of the helpers, none of which is lost: cases of tests/daemon."""

import os
import time
from pathlib import Path

from askers import asking
from running import ASK_ROOT, GETSTAT, ROOT_REPLY, check, daemon, read_all, request

BURST = 24  # connections that come at once, of which the daemon finds eight at its first look
FEW, MANY = 2_000, 1_000_000  # wakes that are seen, by default and only by name
SLOW_LIMIT = 4.0  # seconds within which each burst and each request is answered, also on a busy machine
CLIENTS, LOAD, TRIES = 16, 2.0, 10  # processes that ask for seconds, so often until helpers have slept
PROCESSORS = 3  # below these no helper is woken but beside an order


def helpers_of(run):
    """The two threads that the daemon made last: its helpers."""
    time.sleep(0.2)
    return sorted(int(thread) for thread in os.listdir(f"/proc/{run.process.pid}/task"))[-2:]


def sleeps(run, threads):
    """How often these threads have slept."""
    count = 0
    for thread in threads:
        status = Path(f"/proc/{run.process.pid}/task/{thread}/status").read_text()
        count += int(status.split("voluntary_ctxt_switches:")[1].split()[0])
    return count


def burst(run):
    """Asks by many connections at once, and gives the seconds until the last is answered."""
    began = time.monotonic()
    peers = [run.connect() for _ in range(BURST)]
    for peer in peers:
        peer.sendall(ASK_ROOT)
    for peer in peers:
        with peer:
            check(read_all(peer) == ROOT_REPLY, "another reply")
    return time.monotonic() - began


def until_slept(run, threads, wanted, turn):
    """Takes turns until the helpers have slept so often, and gives the longest time of one."""
    before, longest, turns = sleeps(run, threads), 0.0, 0
    while sleeps(run, threads) - before < wanted:
        for _ in range(50):
            longest = max(longest, turn(run))
            turns += 1
        check(turns < 10 * wanted, f"after {turns} turns helpers have slept {sleeps(run, threads) - before} times")
    return longest


def after_order(run):
    """Gives an order, beside which a helper is in charge, and then asks."""
    check(run.ask(request(GETSTAT, b""), "admin") != b"", "an order is not answered")
    return run.is_well("after an order")


def by_load(run, threads):
    """How often helpers slept after load by whole requests. A busy machine may give the daemon little, so more is tried."""
    before = sleeps(run, threads)
    for _ in range(TRIES):
        with asking(run, CLIENTS, LOAD, ASK_ROOT, ROOT_REPLY) as askers:
            check(askers.times(), "no request was answered")
        if sleeps(run, threads) > before:
            break
    return sleeps(run, threads) - before


def wakes(wanted):
    """Wakes helpers by bursts, and then by orders, until they have slept so often."""
    with daemon("-t", "2") as run:
        check(run.ask() == ROOT_REPLY, "another reply")
        threads, longest = helpers_of(run), 0.0
        if len(os.sched_getaffinity(0)) >= PROCESSORS:
            check(by_load(run, threads) > 0, f"load by {CLIENTS} clients woke no helper")
            longest = until_slept(run, threads, wanted // 2, burst)
        longest = max(longest, until_slept(run, threads, wanted // 2, after_order))
        check(longest < SLOW_LIMIT, f"a burst or a request is answered only after {longest:.3f} s")
        run.shut_down()
        return f"helpers slept {wanted} times and were woken, half by bursts, half by orders; no burst and no request took more than {longest * 1000:.1f} ms"


CASES = {"wakes": lambda: wakes(FEW)}
LONG_CASES = {"wakes-million": lambda: wakes(MANY)}
