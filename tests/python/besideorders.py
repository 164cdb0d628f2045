"""Hits beside orders of the administrator, which come without rest or wait for a file: cases of tests/daemon."""

import statistics
import threading
import time

from askers import asking, share
from holding import holding
from inplace import ASK_GROUP, ASK_MAUD, ASK_NOBODY
from running import ASK_ROOT, GETSTAT, INVALIDATE, PATIENCE, ROOT_REPLY, check, daemon, request
from scopes import counts

CLIENTS = 16
RUN = 3.0  # seconds of hits with orders, and as many without
SLOW = 0.05  # seconds for 99.9 % of the hits on a machine that is not busy
BUSY = 3  # times as slow as without orders they may be on one that is
TRIES = 3
ORDERS = {"-i services": request(INVALIDATE, b"services\0"), "-g": request(GETSTAT, b"")}
LET = 0.5  # seconds for the hits beside an order that waits


def orders_without_rest(run, over, given):
    """Gives each order again once it is answered, and counts them."""
    while not over.is_set():
        for name, asked in ORDERS.items():
            check(run.ask(asked, "admin") != b"", f"{name} is not answered")
            given[name] += 1


def hits_for(run, seconds, with_orders):
    """The times of the hits of many clients, and how many orders were given meanwhile."""
    over, given, faults = threading.Event(), dict.fromkeys(ORDERS, 0), []

    def gives():
        try:
            orders_without_rest(run, over, given)
        except Exception as fault:
            faults.append(fault)

    thread = threading.Thread(target=gives)
    with asking(run, CLIENTS, seconds, ASK_ROOT, ROOT_REPLY) as clients:
        if with_orders:
            thread.start()
        try:
            times = clients.times()
        finally:
            over.set()
            if with_orders:
                thread.join()
    if faults:
        raise faults[0]
    return times, given


def beside_orders():
    with daemon() as run:
        check(run.ask() == ROOT_REPLY, "another reply")
        for _ in range(TRIES):
            alone, _ = hits_for(run, RUN, False)
            beside, given = hits_for(run, RUN, True)
            late, least = share(beside, 0.999), share(alone, 0.999)
            if late <= max(SLOW, BUSY * least):
                break
        check(late <= max(SLOW, BUSY * least), f"beside orders 99.9 % of the hits take up to {late:.4f} s, and alone {least:.4f} s")
        check(min(given.values()) > 0, f"orders that were given: {given}")
        told = ", ".join(f"{count} times {name}" for name, count in given.items())
        return (
            f"beside {told}, {len(beside)} hits of {CLIENTS} clients take {statistics.median(beside) * 1000:.2f} ms, 99.9 % up to {late * 1000:.1f} ms;"
            f" alone {len(alone)} take {statistics.median(alone) * 1000:.2f} and {least * 1000:.1f} ms"
        )


def wait_until_held(held):
    ends = time.monotonic() + PATIENCE
    while held.held_since is None:
        check(time.monotonic() < ends, "nobody opens the file")
        time.sleep(0.01)


def hits_go_on(run, asked, text):
    """Sees that hits are answered while the file is held, and gives their times."""
    times, ends = [], time.monotonic() + LET
    while time.monotonic() < ends:
        began = time.monotonic()
        for one in asked:
            try:
                said = run.ask(one, patience=1)
            except TimeoutError:
                said = b""
            check(said != b"", f"{text} a hit is not answered within a second")
        times.append((time.monotonic() - began) / len(asked))
    return times


def beside_held_order():
    """A lookup that the administrator asks waits for its file, and so do lookups of everyone, beside which orders come."""
    with daemon("-t", "2") as run:
        held = holding(run.etc / "passwd")
        if held is None:
            return "skipped, since the system cannot hold a read (fanotify)"
        try:
            for one in (ASK_MAUD, ASK_GROUP):
                check(run.ask(one) != b"", "no reply")
            held.hold()
            with run.connect("admin") as order:
                order.sendall(ASK_NOBODY)
                wait_until_held(held)
                times = hits_go_on(run, [ASK_MAUD, ASK_GROUP], "beside an order that waits for a file")
                held.let_go()
                check(order.recv(1) != b"", "the order that waited is not answered")
            held.hold()
            with run.connect() as first:
                first.sendall(ASK_NOBODY.replace(b"nobody1", b"nobody2"))
                wait_until_held(held)
                for words in (("-g",), ("-i", "passwd")):
                    said = run.command(*words)
                    check(said[1:] == (b"", 0), f"beside a lookup that waits: {words}: {said}")
                    times += hits_go_on(run, [ASK_GROUP], f"after {words} beside a lookup that waits")
                held.let_go()
                check(first.recv(1) != b"", "the lookup that waited is not answered")
            told = counts(run, "group")
            check(int(told["hits"]) > 0, f"other counts: {told}")
            run.shut_down()
        finally:
            held.close()
        return f"beside an order that waits for a file, and orders beside a lookup that does, hits take {statistics.median(times) * 1000:.2f} ms"


CASES = {"hits-beside-orders": beside_orders, "hits-beside-held-order": beside_held_order}
