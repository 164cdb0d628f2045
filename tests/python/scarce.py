"""A daemon that finds no memory once, at each of its allocations in turn: cases of tests/daemon."""

import tempfile

import refused
import refusedends
from refusing import Skipped, Subject, library, listed, refuse_all
from running import check


def refused_in(subject):
    """A case: each allocation of a subject is refused, and what comes is right."""

    def case():
        with tempfile.TemporaryDirectory(prefix="nscd-refuse-") as folder:
            try:
                made = library(folder)
            except Skipped as skipped:
                return str(skipped)
            count, words, faults = refuse_all((subject, made, True, 1, 1))
        check(not faults, "; ".join(faults))
        check(count, f"{subject.name}: no allocation was refused")
        return f"{subject.name}: {count} allocations, each refused in turn: {listed(words)}"

    return case


SUBJECTS = {
    "refused-lookup": Subject("a lookup", refused.lookup, "user", b"root"),
    "refused-tick": Subject("a tick", refused.tick, refused.SHORT.format(0), refused.EXPIRED, False),
    "refused-lines": Subject("lines at the gate", refused.line),
    "refused-end": Subject("an end with an image", refusedends.end),
}
CASES = {name: refused_in(subject) for name, subject in SUBJECTS.items()}
