"""A running daemon, each of whose allocations is refused in turn: in a connection, an order, a line at the gate, and a tick."""

import kept
import rules
from gates import ROOT_LINE
from refusing import Subject, refusable
from running import FILES, GETSTAT, INVALIDATE, ROOT_REPLY, check, request

ASKED = [("user", b"root")] + [(kind, key) for pairs in kept.ASKED.values() for kind, key in pairs]
DASH = ROOT_REPLY.replace(b"/bin/bash", b"/bin/dash")
FRESH = """{} cache:
enabled yes
hits 0
negative hits 0
misses 0
negative misses 0
entries 0
used words 0 of 27008
invalidations 0
compactions 0
not added 0

"""
# The second line asks for an answer that the first one has kept.
LINES = b"passwd root\npasswd 0\npasswd maud\n"
ANSWERS = 2 * ROOT_LINE + FILES["passwd"].splitlines(keepends=True)[1]
STATISTICS = "".join(map(FRESH.format, ("passwd", "group", "hosts", "services"))).encode()


def word(came):
    return "answered" if came else "closed"


def told(run, database="passwd"):
    return kept.counts_in(run.ask(request(GETSTAT, b""), "admin"), database)


def check_told(run, text, database="passwd", **wanted):
    """Sees that the daemon tells these counts, by names that have _ for each blank, and that all others of lookups are 0."""
    found = {name: int(value) for name, value in told(run, database).items() if value.isdigit()}
    named = {name.replace("_", " "): value for name, value in wanted.items()}
    check(found and found == {**dict.fromkeys(found, 0), **named}, f"{text}: the counts are {found}, and not {named}")


def lookup(made, first, last, kind, key):
    with refusable(made) as run:
        sent, (wanted, is_absent) = kept.asked(kind, key), kept.answer(run, kind, key)
        run.orders.refuse(first, last)
        came = run.closed_or(sent)
        refused = run.orders.stop()
        check(came in (b"", wanted), f"another reply: {came!r}")
        check(run.ask(sent) == wanted, "the next connection gets another reply")
        hits, misses = ("negative_hits", "negative_misses") if is_absent else ("hits", "misses")
        # Both answers are there before the first of them is kept, so none is where memory was refused for the second.
        counts = {misses: 1, hits: 1 if came else 0, "entries": 2 if rules.by_id(kept.files_of(run), kind, key) else 1}
        check_told(run, f"the first connection was {word(came)}", rules.DATABASE[kind], **counts)
        run.ends_well()
    return refused, word(came)


def statistics(made, first, last):
    with refusable(made) as run:
        run.orders.refuse(first, last)
        came = run.closed_or(request(GETSTAT, b""), "admin")
        refused = run.orders.stop()
        check(came in (b"", STATISTICS), f"other statistics: {came!r}")
        check(run.ask(request(GETSTAT, b""), "admin") == STATISTICS, "the next connection gets other statistics")
        run.is_well("after statistics")
        run.ends_well()
    return refused, word(came)


def invalidation(made, first, last):
    with refusable(made) as run:
        run.is_well("before")
        run.orders.refuse(first, last)
        came = run.closed_or(request(INVALIDATE, b"passwd\0"), "admin")
        refused = run.orders.stop()
        check(came in (b"", bytes(4)), f"another reply: {came!r}")
        done = 1 if came else 0
        check_told(run, f"it was {word(came)}", misses=1, entries=2 * (1 - done), invalidations=done, compactions=done)
        run.is_well("after")
        check(run.ask(request(INVALIDATE, b"passwd\0"), "admin") == bytes(4), "the next one gets another reply")
        check(told(run)["entries"] == "0", "after the next one there are entries")
        run.ends_well()
    return refused, word(came)


def line(made, first, last):
    with refusable(made, started=False) as run:
        run.words += ("--gate", run.run / "gate")
        run.start()
        run.settles()
        run.orders.refuse(first, last)
        came = run.closed_or(LINES, "gate", is_last=True)
        refused = run.orders.stop()
        check(came in (b"", ROOT_LINE, 2 * ROOT_LINE, ANSWERS), f"another answer: {came!r}")
        check(run.closed_or(LINES, "gate", is_last=True) == ANSWERS, "the next connection gets other answers")
        check_told(run, f"{came.count(bytes([10]))} lines were answered", misses=2, entries=4)
        run.is_well("after")
        run.ends_well()
    return refused, ("closed", "closed after a line", "closed after two lines", "answered")[came.count(b"\n")]


# Ticks. Before each one the entry's time is over, or its file has changed.

SHORT = "positive-time-to-live passwd 1\nreload-count {}\n"
# What is told of entries, by name and by id, of invalidations and of compactions before the tick, and what after it.
BEFORE = (2, 0, 0)
EXPIRED, LOADED_AGAIN, CHANGED = (0, 0, 1), (2, 0, 1), (0, 1, 1)


def state(run):
    found = told(run)
    return tuple(int(found[name]) for name in ("entries", "invalidations", "compactions"))


def tick(made, first, last, settings, after, is_changed):
    """A tick that finds no memory has ended nothing, and the next one ends what is due."""
    with refusable(made, settings=settings.encode()) as run:
        run.is_well("before")
        if is_changed:
            (run.etc / "passwd").write_bytes(FILES["passwd"].replace(b"/bin/bash", b"/bin/dash"))
        run.orders.refuse(first, last)
        run.tick()
        refused = run.orders.stop()
        came = state(run)
        check(came in (BEFORE, after), f"after the tick: entries, invalidations and compactions are {came}")
        is_due = came == BEFORE
        wanted = DASH if is_changed and not is_due else ROOT_REPLY
        check(run.ask(request(0, b"root\0")) == wanted, "after the tick: another reply")
        run.tick()
        if is_due:
            check(state(run) == after, f"after the next tick: {state(run)}, and not {after}")
        check(run.ask(request(0, b"root\0")) == (DASH if is_changed else ROOT_REPLY), "after the next tick: another reply")
        run.ends_well()
    return refused, "put off" if is_due else "done"


SUBJECTS = [
    *(Subject(f"a lookup, {kind} {key.decode('latin1') if kind not in ('address', 'address6') else key.hex()}", lookup, kind, key) for kind, key in ASKED),
    Subject("statistics", statistics),
    Subject("an invalidation", invalidation),
    Subject("lines at the gate", line),
    Subject("a tick that ends an entry", tick, SHORT.format(0), EXPIRED, False),
    Subject("a tick that loads an entry again", tick, SHORT.format("unlimited"), LOADED_AGAIN, False),
    Subject("a tick that sees a change", tick, "", CHANGED, True),
]
