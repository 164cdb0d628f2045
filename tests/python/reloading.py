"""Entries in use, which stay however often they are loaded again, and for which hardly a worker is woken: a case of tests/daemon."""

import time

from inplace import TICK, ask_user, set_up, switches, woken, workers_of
from running import check, daemon
from scopes import counts

RELOADS = 2  # after which an entry out of use is dropped
TICKS = 4  # which are more than those
USED, UNUSED = 40, 40  # users that are asked again and again, and once
LIVED = 1  # seconds of an entry's time
REST = 0.5  # seconds between two rounds of hits
LATER = 2.0  # seconds after a tick is due
SWITCHES = 40  # of the workers for other reasons than hits


def misses(run):
    return int(counts(run, "passwd")["misses"])


def ask_used(run):
    for number in range(USED):
        check(run.ask(ask_user(number)).endswith(b"/bin/sh\0"), f"user {number}: another reply")


def reload_survives():
    """A hit in place leaves the count of reloads as it is: the first lookup after a reload, by a worker, sets it back for all of them."""
    with daemon("-t", "2", started=False) as run:
        # Nothing but the time of the entries makes a reload.
        conf = f"positive-time-to-live passwd {LIVED}\nreload-count {RELOADS}\ncheck-files passwd no\n"
        set_up(run, USED + UNUSED, conf)
        began = time.monotonic()
        for number in range(USED + UNUSED):
            run.ask(ask_user(number))
        seen = []
        for tick in range(1, TICKS + 1):
            was, hits = switches(run), 0
            while time.monotonic() < began + tick * TICK + LATER:
                ask_used(run)
                hits += USED
                time.sleep(REST)
            seen.append((was, switches(run)))
        check(misses(run) == USED + UNUSED, f"{misses(run) - USED - UNUSED} entries in use are loaded by lookups")
        workers = workers_of(run, 2)
        most = max(woken(*looks, workers) for looks in seen)
        check(most <= USED + SWITCHES, f"from one reload to the next workers are woken {most} times for {USED} entries")
        for number in range(USED, USED + UNUSED):
            run.ask(ask_user(number))
        check(misses(run) == USED + 2 * UNUSED, f"of {UNUSED} entries out of use {USED + 2 * UNUSED - misses(run)} are there after {TICKS} reloads")
        run.shut_down()
        return (
            f"after {TICKS} ticks {USED} entries in use are there with a count of reloads of {RELOADS}, and {UNUSED} out of use are not; from one tick to"
            f" the next workers are woken {most} times at most, for some {hits} hits"
        )


CASES = {"reload-survives": reload_survives}
