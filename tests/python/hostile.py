"""Hostile input to the built program: refused allocations, and requests, replies, files and settings at random; each held against the rules.

The words are names of parts, all where none is given, and NAME=NUMBER for the seed, the count of each part, and how many processes work.
"""

import itertools
import multiprocessing
import os
import subprocess
import sys
import time
from collections import Counter

sys.dont_write_bytecode = True
import forgedreplies
import refused
import refusedends
import refusing
import wildcrowds
import wildfiles
import wildrequests
import wildsettings
from running import PROGRAM, Fault

STEPS = 4  # shares of a subject, each of every fourth allocation
SHOWN = 5  # differences that are shown of a part


def refused_part(seed, count, many):
    """Each allocation of each subject, refused alone, and with all that follow."""
    subjects = refusedends.SUBJECTS + refused.SUBJECTS
    faults = []
    with refusing.workers(many) as (pool, made):
        names = [(subject, is_alone) for subject in subjects for is_alone in (True, False)]
        work = [(subject, made, is_alone, begin, STEPS) for subject, is_alone in names for begin in range(1, STEPS + 1)]
        rows = pool.imap(refusing.refuse_all, work)
        totals = Counter()
        for subject, is_alone in names:
            words = Counter()
            for _, some, wrong in itertools.islice(rows, STEPS):
                words += some
                faults += wrong
            totals[is_alone] += words.total()
            if not words:
                faults.append(f"{subject.name}: no allocation was refused")
            how = "alone" if is_alone else "with all that follow"
            print(f"hostile: refused: {subject.name}: {words.total()} {how}: {refusing.listed(words)}", flush=True)
    return f"{len(subjects)} subjects, {totals[True]} allocations refused alone, and {totals[False]} with all that follow", faults


def pooled(trial):
    def part(seed, count, many):
        with multiprocessing.get_context("fork").Pool(many) as pool:
            return trial(pool, *([count] if count else []), seed=seed)

    return part


def requests_part(seed, count, many):
    return wildrequests.trial(count or wildrequests.COUNT, seed, many)


def crowd_part(seed, count, many):
    return wildcrowds.trial(count or wildcrowds.COUNT, seed, many)


PARTS = {
    "refused": refused_part,
    "requests": requests_part,
    "crowd": crowd_part,
    "replies": pooled(forgedreplies.trial),
    "files": pooled(wildfiles.trial),
    "settings": pooled(wildsettings.trial),
}


def read_words(words):
    """The parts and the numbers that the words name."""
    numbers = {"seed": 1, "count": 0, "processes": os.cpu_count() or 1}
    parts = []
    for word in words:
        name, sign, value = word.partition("=")
        if word in PARTS:
            parts.append(word)
        elif sign and name in numbers and value.isdigit():
            numbers[name] = int(value)
        else:
            sys.exit(f"hostile: no word {word}; there are {', '.join([*PARTS, *(f'{name}=NUMBER' for name in numbers)])}")
    return parts or list(PARTS), numbers


def main(words):
    if not os.access(PROGRAM, os.X_OK):
        sys.exit(f"hostile: there is no {PROGRAM}; run make build")
    parts, numbers = read_words(words)
    broken = 0
    for name in parts:
        began = time.monotonic()
        try:
            line, faults = PARTS[name](numbers["seed"], numbers["count"], numbers["processes"])
        except refusing.Skipped as skipped:
            line, faults = str(skipped), []
        except (Fault, OSError, subprocess.TimeoutExpired) as fault:
            line, faults = "not run to its end", [repr(fault)]
        for fault in faults[:SHOWN]:
            print(f"hostile: {name}: FAULT: {fault}", file=sys.stderr)
        print(f"hostile: {name}: {line}; {len(faults)} faults, {time.monotonic() - began:.0f} s", flush=True)
        broken += len(faults)
    sys.exit(1 if broken else 0)


if __name__ == "__main__":
    main(sys.argv[1:])
