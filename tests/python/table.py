"""Follows the calls of a writer that the trial tells, keeps the table's words beside it, and compares them at the end.

The trial itself makes as many events in a replay and in a cache that is a list, and tells whether both replied the same.

The words are sixteen head words, four bucket words and 512 words of nodes. What a call does to them is written here from the layout
alone: a node is its number, its kind and the length of its key, the length of its reply and whether that says that nothing was found, its
version, its last moment, its reloads, whether it is usable, the node before it in its bucket, its key and its reply.
"""

import os
import struct
import subprocess
import sys
from collections import Counter
from pathlib import Path

sys.dont_write_bytecode = True
import rules
from entries import words_for
from running import NO_REPLY, ROOT

PROGRAM = Path(os.environ.get("TABLE", ROOT / "build" / "nscd-table-trials")).resolve()

HEAD, BUCKETS, ARENA = 16, 4, 512
CYCLE, EPOCH, SOURCE, FIRST_FREE, LOADS, HITS, MISSES, NOT_ADDED = 0, 1, 2, 3, 4, 5, 7, 9
NUMBER, RELOADS, STATE, NEXT, TEXTS = 0, 5, 6, 7, 8
USERS, LONGEST = 40, 180
POSITIVE, NEGATIVE = 3600, 20  # seconds
BY_NAME = 0  # the kind of a user by name


def users_of(version):
    """The users of a version of the file, each with the length of a comment."""
    return {user: (user * 37 + version % LONGEST * 11) % LONGEST for user in range(USERS) if (user + version % 3) % 3}


def reply_of(user, users):
    """The reply of the protocol, and whether it says that there is no such user."""
    if user not in users:
        return NO_REPLY, True
    return rules.spelled("user", (b"u%d" % user, b"x", 1000, 1000, b"g" * users[user], b"/home", b"/bin/sh")), False


def words_of(data):
    data += bytes(-len(data) % 8)
    return list(struct.unpack(f"<{len(data) // 8}Q", data))


def bucket_of(key):
    hashed = 5381
    for byte in bytes([BY_NAME]) + key:
        hashed = (hashed * 33 + byte) % 2**32
    return HEAD + hashed % BUCKETS


class Table:
    """The words of a table, and the files that its writer polls."""

    def __init__(self):
        self.words = [0] * (HEAD + BUCKETS + ARENA)
        self.words[FIRST_FREE] = HEAD + BUCKETS
        self.files = self.polled = users_of(0)

    def places(self):
        """The places of all nodes, the oldest first."""
        at = HEAD + BUCKETS
        while at < self.words[FIRST_FREE]:
            yield at
            at += self.length(at)

    def lengths(self, at):
        """How many bytes the key and the reply of a node have."""
        return self.words[at + 1] % 65536, self.words[at + 2] // 2

    def length(self, at):
        """How many words a node takes."""
        return TEXTS + sum(map(words_for, self.lengths(at)))

    def key(self, at):
        length, _ = self.lengths(at)
        count = words_for(length)
        return struct.pack(f"<{count}Q", *self.words[at + TEXTS : at + TEXTS + count])[:length]

    def usable(self, key):
        return next((at for at in self.places() if self.words[at + STATE] and self.key(at) == key), None)

    def link(self, at):
        bucket = bucket_of(self.key(at))
        self.words[at + NEXT] = self.words[bucket]
        self.words[bucket] = at

    def insert(self, user, now, reloads):
        """What the call says, and what it does to the words: a poll, a count, and the node where nothing refuses it."""
        if self.files != self.polled:
            self.polled = self.files
            self.words[SOURCE] += 1
        reply, is_absent = reply_of(user, self.files)
        self.words[MISSES + is_absent] += 1
        key = b"u%d" % user
        if (at := self.usable(key)) is not None:
            return f"present {self.words[at + NUMBER]}"
        texts = words_of(key) + words_of(reply)
        at = self.words[FIRST_FREE]
        need, free = TEXTS + len(texts), len(self.words) - at
        if need > free:
            self.words[NOT_ADDED] += 1
            return f"full {need} {free}"
        number, timeout = self.words[LOADS], now + (NEGATIVE if is_absent else POSITIVE)
        shape, size = BY_NAME * 65536 + len(key), len(reply) * 2 + is_absent
        self.words[at : at + need] = [number, shape, size, self.words[SOURCE], timeout, reloads, 1, 0, *texts]
        self.link(at)
        self.words[FIRST_FREE] += need
        self.words[LOADS] += 1
        return f"done {number}"

    def search(self, user):
        at = self.usable(b"u%d" % user)
        if at is None:
            return "none"
        self.words[at + RELOADS] = 0
        self.words[HITS + self.words[at + 2] % 2] += 1
        return f"hit {self.words[at + NUMBER]}"

    def end(self, number):
        for at in self.places():
            if self.words[at + NUMBER] == number and self.words[at + STATE]:
                self.words[at + STATE] = 0
                return "true"
        return "false"

    def change(self, version):
        self.files = users_of(version)

    def compact(self):
        """The usable nodes slide together, in their order, and the chains are made anew. The words behind them keep what they had."""
        kept = [self.words[at : at + self.length(at)] for at in self.places() if self.words[at + STATE]]
        freed = self.words[FIRST_FREE]
        self.words[HEAD : HEAD + BUCKETS] = [0] * BUCKETS
        at = HEAD + BUCKETS
        for node in kept:
            self.words[at : at + len(node)] = node
            self.link(at)
            at += len(node)
        self.words[FIRST_FREE] = at
        self.words[CYCLE] += 2
        return str(freed - at)

    def invalidate(self):
        for at in self.places():
            self.words[at + STATE] = 0
        self.words[EPOCH] += 1
        return str(self.words[EPOCH])

    def follow(self, line):
        """Sees that a call came to what it must."""
        word, *rest = line.split()
        if word == "insert":
            numbers = list(map(int, rest[:3]))
            said, wanted = " ".join(rest[3:]), self.insert(*numbers)
        elif word in ("search", "end"):
            said, wanted = " ".join(rest[1:]), getattr(self, word)(int(rest[0]))
        elif word == "change":
            said = wanted = self.change(int(rest[0]))
        else:
            said, wanted = " ".join(rest), {"compact": self.compact, "invalidate": self.invalidate}[word]()
        return "" if said == wanted else f"{line!r}, and not {wanted!r}"


def differs(seed, calls):
    """What is wrong with a run, if anything is, and the calls that it told."""
    done = subprocess.run([PROGRAM, str(seed), str(calls)], capture_output=True, text=True, timeout=60, check=False)
    if done.returncode != 0:
        return f"status {done.returncode}", []
    *lines, events = done.stdout.splitlines()
    if events != f"{calls} events: same":
        return events, []
    told, words = [line for line in lines if not line.startswith("word ")], [int(line[5:]) for line in lines if line.startswith("word ")]
    table = Table()
    for turn, line in enumerate(told):
        if said := table.follow(line):
            return f"call {turn}: {said}", told
    # The slide that shows the words has begun.
    table.words[CYCLE] += 1
    free = table.words[FIRST_FREE]
    for at, (found, wanted) in enumerate(zip(words, table.words)):
        if found != wanted and at < free:
            return f"word {at} is {found}, and not {wanted}", told
    if len(told) != calls or len(words) != len(table.words):
        return f"{len(told)} calls and {len(words)} words", told
    return "", told


def kind_of(line):
    """What a call was, and what it came to."""
    return " ".join(word for word in line.split() if word.isalpha())


def main():
    calls, seeds = (int(word) for word in (*sys.argv[1:], *("10000", "20")[len(sys.argv) - 1 :]))
    if not os.access(PROGRAM, os.X_OK):
        print(f"table: there is no {PROGRAM.name}; run make build")
        return 1
    faults, kinds = 0, Counter()
    for seed in range(1, seeds + 1):
        # The words after fewer calls too: a seed makes the same calls each time.
        for count in {calls * seed // seeds, calls}:
            said, told = differs(seed, count)
            if said:
                print(f"table: seed {seed}, {count} calls: {said}")
                faults += 1
            kinds.update(kind_of(line) for line in told)
    shown = ", ".join(f"{count} {kind}" for kind, count in sorted(kinds.items()))
    print(f"table: {seeds} seeds of {calls} calls, and all words after them: {faults} faults; {shown}")
    return 1 if faults else 0


if __name__ == "__main__":
    sys.exit(main())
