"""Once -i is answered no entry of before is given, to many clients beside the orders: cases of tests/daemon."""

import os
import re
import threading

from inplace import ASK_MAUD
from running import INVALIDATE, check, daemon, request

CLIENTS = 16
ASK_BY = (ASK_MAUD, request(1, b"1\0"))  # by name, which keeps the answer by id, and by id
REPLIES, MANY_REPLIES = 20_000, 1_000_000
SHELL = re.compile(rb"/\0/bin/sh(\d+)\0\Z")


class Changes:
    """A file that changes again and again, with the number of the last change that an order has told of."""

    def __init__(self, run):
        self.run, self.known, self.over = run, 0, threading.Event()
        self.faults, self.counts = [], [0] * CLIENTS

    def change(self, number):
        """Puts another file in place at once, orders its invalidation, and sees that its content is given then."""
        new = self.run.etc / "passwd.new"
        new.write_bytes(b"maud:x:1:1::/:/bin/sh%d\n" % number)
        os.rename(new, self.run.etc / "passwd")
        check(self.run.ask(request(INVALIDATE, b"passwd\0"), "admin") == bytes(4), f"order {number} is not answered")
        self.known = number
        for how in range(len(ASK_BY)):
            check(self.given(how) == number, f"after order {number} another entry is given")

    def given(self, how):
        """The number of the change that is given now, by name or by id."""
        said = self.run.ask(ASK_BY[how])
        found = SHELL.search(said)
        check(found is not None, f"another reply: {said!r}")
        return int(found.group(1))

    def orders(self):
        number = 0
        while not self.over.is_set():
            number += 1
            self.change(number)

    def asks(self, place):
        while not self.over.is_set():
            known = self.known
            given = self.given(place % len(ASK_BY))
            check(given >= known, f"after order {known} an entry of change {given} is given")
            self.counts[place] += 1

    def guarded(self, work, *words):
        try:
            work(*words)
        except Exception as fault:
            self.faults.append(fault)
            self.over.set()


def after_orders(replies):
    """Asks by many clients until they have this number of replies, while the file changes and orders tell of it."""
    with daemon("-t", "3") as run:
        changes = Changes(run)
        changes.change(0)
        threads = [threading.Thread(target=changes.guarded, args=(changes.asks, place)) for place in range(CLIENTS)]
        threads.append(threading.Thread(target=changes.guarded, args=(changes.orders,)))
        for thread in threads:
            thread.start()
        try:
            while sum(changes.counts) < replies and not changes.over.wait(0.05):
                pass
        finally:
            changes.over.set()
            for thread in threads:
                thread.join()
        if changes.faults:
            raise changes.faults[0]
        run.shut_down()
        check(changes.known > 0 and min(changes.counts) > 0, f"{changes.known} orders, and replies {changes.counts}")
        return f"of {sum(changes.counts)} replies to {CLIENTS} clients beside {changes.known} orders none is older than the order before its request"


CASES = {"after-orders": lambda: after_orders(REPLIES)}
LONG_CASES = {"after-orders-million": lambda: after_orders(MANY_REPLIES)}
