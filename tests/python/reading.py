"""Runs the trials of searches in place, and compares what they tell with what must come.

The rows are typed here. A search loads CYCLE, the word of the bucket, at each entry of another key that word and NEXT, at the entry itself twelve
words, six of them those of its reply, and CYCLE again.

How many interleavings there are of one search with a writer's calls, and with which answers, is counted by interleavings.py in another way; how a
table grows, and what callers beside it find, by growths.py.

Of the threads each reply must have the bytes of the answer over its version, and a search must at times find an entry, none, and a compaction
that began meanwhile.
"""

import os
import re
import subprocess
import sys

sys.dont_write_bytecode = True
from pathlib import Path

import growths
from interleavings import counted
from running import ROOT

PROGRAM = Path(os.environ.get("READING", ROOT / "build" / "nscd-reader-trials")).resolve()

HIT = "Hit { number: 0, version: 0, not_found: false }"

# Each row with what its two readers answer, how many bytes that leaves, and how many steps they still take.
ROWS = {
    "a whole compaction": (("Moved { from: 0, to: 2 }", 0, 12), (HIT, 45, 15)),
    "a compaction under way": (("Moved { from: 0, to: 1 }", 0, 12), ("Odd { cycle: 1 }", 0, 1)),
    "an unlinked entry": ((HIT, 45, 15), (HIT, 45, 15)),
}

COUNT = re.compile(r"(\w+): (\d+)")


def wanted_lines():
    for name, readers in ROWS.items():
        yield f"{name}, calls as they must be: true"
        for answer, size, steps in readers:
            yield f"  Seen {{ answer: Some({answer}), bytes: {size}, steps: {steps} }}"
    answers = counted()
    yield f"interleavings: {sum(answers.values())}, wrong answers: 0"
    yield "  " + ", ".join(f"{kind}: {answers[kind]}" for kind in ("hits", "none", "odd", "moved"))
    yield from growths.lines()


def lines_of(*words):
    """What the program prints, and what is wrong about its end."""
    run = subprocess.run([PROGRAM, *words], capture_output=True, text=True)
    return run.stdout.splitlines(), [] if run.returncode == 0 else [f"it ends with {run.returncode}"]


def row_faults(found):
    """What is wrong about the lines of the rows, the interleavings and the growths."""
    wanted = list(wanted_lines())
    faults = [f"{one!r}, and not {other!r}" for one, other in zip(found, wanted) if one != other]
    return faults if len(found) == len(wanted) else faults + [f"{len(found)} lines"]


def count_faults(line, wanted):
    """What is wrong about the counts of a line: an answer that must not come, or a kind that never came."""
    counts = {name: int(count) for name, count in COUNT.findall(line)}
    faults = [f"no {kind}: {line!r}" for kind in wanted if not counts.get(kind)]
    return faults if counts.get("wrong") == 0 else faults + [f"wrong answers: {line!r}"]


def main():
    seconds = sys.argv[1] if len(sys.argv) > 1 else "10"
    if not os.access(PROGRAM, os.X_OK):
        print(f"reading: there is no {PROGRAM.name}; run make build")
        return 1
    lines, faults = lines_of()
    faults += row_faults(lines)
    told = "; ".join(line for line in lines if line.startswith(("interleavings", "a table")))
    lines, ends = lines_of(seconds)
    threads = lines[-1] if lines else ""
    faults += ends + count_faults(threads, ("hits", "none", "moved", "inserted", "compactions"))
    for fault in faults:
        print(f"reading: {fault}")
    print(f"reading: {len(ROWS)} rows; {told}; threads for {seconds} seconds: {threads}: {len(faults)} faults")
    return 1 if faults else 0


if __name__ == "__main__":
    sys.exit(main())
