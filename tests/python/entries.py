"""Compares the entries of a daemon's database of users, call by call, with a plain list of entries.

The list knows the rules of the room alone: an entry takes eight words, those of its key and those of its reply; an invalidation ends
every entry, and where there was any their words are free again; a reply of more than 65,536 bytes is not kept. Where too few words are
free, the table becomes twice as large, or four times, and so on: the first one with room, if it takes at most max-db-size bytes.

A lookup by name whose entry is new, and which finds a user, also keeps the answer by that user's id, unless one is kept. The table does
not become larger for it.
"""

import random
import re
import resource
import struct
import sys
from dataclasses import dataclass, field
from pathlib import Path

sys.dont_write_bytecode = True
import rules
from frames import TYPES
from running import GETSTAT, INVALIDATE, NO_REPLY, PASSWD_BY_NAME, Fault, check, daemon, request

LONGEST_KEY, LONGEST_KEPT = 1024, 65536
HEAD_WORDS, ROOM_WORDS = 16, 128  # at the head of a table, and for entries for each of its size
MOST_WORDS = 8388608  # for entries, 64 MiB
DEFAULT_SIZE, DEFAULT_LIMIT = 211, 33554432
# The sizes and limits of tables that are used by chance, and whether answers by id are kept beside those by name. With 2,192 bytes the
# least one becomes twice as large, with one less it does not.
RUNS = [
    *[(1, 0, True), (20, 0, False), (211, 0, True), (65536, 0, True)],
    *[(1, DEFAULT_LIMIT, True), (20, DEFAULT_LIMIT, True), (1, 2191, False), (1, 2192, True)],
]
FIRST_ID, SHARED_IDS = 1000, 8
LOOKUPS = ["hits", "negative hits", "misses", "negative misses", "entries"]
ENDS = ["invalidations", "compactions", "not added"]


def words_for(length):
    return -(-length // 8)


@dataclass
class Room:
    """The entries of one database, as a list has them, and what the database counts."""

    size: int  # how many buckets the table has
    limit: int  # bytes that a larger one takes at most
    propagates: bool = True
    replies: dict = field(default_factory=dict)  # by their kind and key
    used: int = 0
    counts: dict = field(default_factory=lambda: dict.fromkeys(LOOKUPS + ENDS, 0))

    def look_up(self, kind, key, reply, beside=None):
        """The reply to a lookup, where the files say this one. Beside it is the request by the id that is found, and its reply."""
        kept = (kind, key) in self.replies
        self.counts[("negative " if reply == NO_REPLY else "") + ("hits" if kept else "misses")] += 1
        if not kept and self.insert(kind, key, reply, self.grows) and beside and self.propagates:
            self.insert(*beside, lambda need: False)
        return reply

    def insert(self, kind, key, reply, grows):
        """Whether the reply is kept. Where there is no room, it says whether the table becomes larger."""
        if len(reply) > LONGEST_KEPT or (kind, key) in self.replies:
            return False
        need = 8 + words_for(len(key)) + words_for(len(reply))
        if self.used + need > self.arena():
            self.counts["not added"] += 1
            if not grows(need):
                return False
        self.replies[kind, key] = reply
        self.counts["entries"] += 1
        self.used += need
        return True

    def arena(self):
        return ROOM_WORDS * self.size

    def grows(self, need):
        """Whether a larger table has room for `need` words more. The first that has goes on."""
        size = 2 * self.size
        while 8 * (HEAD_WORDS + size + ROOM_WORDS * size) <= self.limit and ROOM_WORDS * size <= MOST_WORDS:
            if self.used + need <= ROOM_WORDS * size:
                self.size = size
                self.counts["compactions"] += 1
                return True
            size *= 2
        return False

    def refuse(self):
        """A lookup of no user, which finds no room, nor memory for more."""
        self.counts["negative misses"] += 1
        self.counts["not added"] += 1

    def invalidate(self):
        self.counts["invalidations"] += 1
        self.counts["compactions"] += bool(self.replies)
        self.counts["entries"] = self.used = 0
        self.replies = {}

    def told(self):
        """The statistics as the daemon tells them."""
        lines = [[f"{name} {self.counts[name]}" for name in names] for names in (LOOKUPS, ENDS)]
        return "\n".join(["passwd cache:", "enabled yes", *lines[0], f"used words {self.used} of {self.arena()}", *lines[1]])


def reply_of(name, user, gecos_length):
    return rules.spelled("user", (name, b"x", user, 1000, b"g" * gecos_length, b"/home", b"/bin/sh"))


class Users:
    """The lines of users, each a name with an id and the length of what the user is called, and the replies over them."""

    def __init__(self, rows):
        self.lines = b"".join(b"%s:x:%d:1000:%s:/home:/bin/sh\n" % (name, user, b"g" * length) for name, user, length in rows)
        self.ids = {name: b"%d" % user for name, user, _ in rows}
        self.replies = {}
        for name, user, length in rows:
            reply = reply_of(name, user, length)
            self.replies["user", name] = reply
            # Of the users of one id the first line counts.
            self.replies.setdefault(("uid", b"%d" % user), reply)

    def reply(self, kind, key):
        return self.replies.get((kind, key), NO_REPLY)

    def beside(self, kind, key):
        """The request by id that belongs to one by name, and its reply."""
        return ("uid", self.ids[key], self.reply("uid", self.ids[key])) if kind == "user" and key in self.ids else None


def users_of(dice):
    """Users whose replies have every length modulo eight, the longest that is kept, and one more. Some have an id of their own, and the
    others share a few."""
    least = len(reply_of(b"u000", 0, 0))
    lengths = [*range(64), *(dice.randrange(2000) for _ in range(64)), LONGEST_KEPT - least, LONGEST_KEPT - least + 1]
    numbers = list(range(len(lengths)))
    dice.shuffle(numbers)
    ids = [FIRST_ID + (number if dice.random() < 0.5 else number % SHARED_IDS) for number in numbers]
    return Users([(b"u%03d" % number, ids[number], length) for number, length in enumerate(lengths)])


def names_of_one_hash(count):
    """Each is made of pairs of bytes of which there are two, alike for the hash: thirty-three times the first, and the second."""
    return [b"".join(b"bA" if number >> bit & 1 else b"ab" for bit in range(10)) for number in range(count)]


class Trial:
    """A daemon whose table of users begins with this size, and grows up to `limit` bytes, and the list beside it."""

    def __init__(self, run, size, users, limit=0, propagates=True, settings=None):
        self.run, self.users, self.room = run, users, Room(size, limit, propagates)
        (run.etc / "passwd").write_bytes(users.lines)
        if settings is None:
            settings = f"suggested-size passwd {size}\nmax-db-size passwd {limit}\ncheck-files passwd no\n"
            settings += "" if propagates else "auto-propagate passwd no\n"
        (run.etc / "nscd.conf").write_text(settings)
        run.words = ["-f", run.etc / "nscd.conf"]
        run.start()

    def look_up(self, key, kind="user"):
        came = self.run.ask(request(TYPES[kind], key + b"\0"))
        wanted = self.room.look_up(kind, key, self.users.reply(kind, key), self.users.beside(kind, key))
        check(came == wanted, f"{kind} {key[:40]!r}: another reply")

    def invalidate(self):
        check(self.run.ask(request(INVALIDATE, b"passwd\0"), "admin") == struct.pack("<i", 0), "an invalidation is refused")
        self.room.invalidate()

    def count(self):
        """Compares all counts, and gives the lines that the daemon told."""
        told = self.run.ask(request(GETSTAT, b""), "admin").decode().split("\n\n")[0]
        check(told == self.room.told(), f"it counts {told!r}, and not {self.room.told()!r}")
        return told.splitlines()


def by_chance(size, limit, propagates, steps, dice):
    """Lookups of found and absent names of every length and of ids, and invalidations, in a table of this size and limit."""
    users = users_of(dice)
    names, ids = list(users.ids), sorted({*users.ids.values(), b"0", b"999"})
    absent = [b"n" * length for length in range(LONGEST_KEY)]
    with daemon(started=False) as run:
        trial = Trial(run, size, users, limit, propagates)
        for step in range(steps):
            if dice.random() < 4 / steps:
                trial.invalidate()
            kind, keys = dice.choices([("user", names), ("uid", ids), ("user", absent)], [5, 2, 3])[0]
            trial.look_up(dice.choice(keys), kind)
            if step % 50 == 0:
                trial.count()
        trial.count()
        run.shut_down()
        counts, words = trial.room.counts, trial.room.arena()
        hits = counts["hits"] + counts["negative hits"]
        how = "with ids beside names" if propagates else "each alone"
        return f"size {size}, limit {limit}, {how}: {steps} calls; {hits} hits, {counts['not added']} found no room; {words} words in the end"


def one_chain(dice):
    """A thousand names in the bucket of one hash, each kept, and found again."""
    names = names_of_one_hash(1000)
    with daemon(started=False) as run:
        trial = Trial(run, 211, Users([]))
        for _ in range(2):
            dice.shuffle(names)
            for name in names:
                trial.look_up(name)
            trial.count()
        run.shut_down()
        return f"{len(names)} names of one hash: each is kept, and found again"


def full():
    """The room of the least table, word by word."""
    with daemon(started=False) as run:
        trial = Trial(run, 1, Users([]))
        for number in range(7):
            trial.look_up(b"absent-user-name%d" % number)
        check("used words 112 of 128" in trial.count(), "seven entries take another room than sixteen words each")
        trial.look_up(b"b" * 25)
        check({"used words 112 of 128", "not added 1"} <= set(trial.count()), "an entry of seventeen words is kept in sixteen")
        trial.look_up(b"absent-user-name7")
        check({"used words 128 of 128", "entries 8"} <= set(trial.count()), "an entry that just fits is not kept")
        trial.look_up(b"c")
        check("not added 2" in trial.count(), "an entry is kept where no word is free")
        run.shut_down()
        return "the least table holds 128 words: one entry too long is refused, and one that just fits is kept"


def grown():
    """The least table becomes twice as large, and not four times: that would take 4,256 bytes."""
    with daemon(started=False) as run:
        trial = Trial(run, 1, Users([]), 4096)
        for number in range(7):
            trial.look_up(b"absent-user-name%d" % number)
        check("used words 112 of 128" in trial.count(), "a table grows that is not full")
        trial.look_up(b"b" * 25)
        told = {"used words 129 of 256", "compactions 1", "not added 1"}
        check(told <= set(trial.count()), "an entry of seventeen words is not kept in a table of twice the words")
        for number in range(7, 14):
            trial.look_up(b"absent-user-name%d" % number)
        check({"used words 241 of 256", "compactions 1", "not added 1"} <= set(trial.count()), "the larger table is not filled")
        trial.look_up(b"absent-user-name14")
        check({"used words 241 of 256", "not added 2"} <= set(trial.count()), "an entry of sixteen words is kept in fifteen")
        trial.look_up(b"absent-user-name3")
        check("negative hits 1" in trial.count(), "an entry of the smaller table is lost")
        run.shut_down()
        return "the least table becomes twice as large where it is full, with its entries, and no larger than its limit"


def at_a_limit():
    """A table of twice the least size takes 2,192 bytes."""
    for limit, arena in ((2191, 128), (2192, 256)):
        with daemon(started=False) as run:
            trial = Trial(run, 1, Users([]), limit)
            for number in range(17):
                trial.look_up(b"absent-user-name%02d" % number)
            check(f"used words {arena} of {arena}" in trial.count(), f"with at most {limit} bytes it has not {arena} words")
            run.shut_down()
    return "a table grows where it just may, and not where it takes one byte too many"


def beside():
    """The room of an entry by id that a lookup by name makes, word by word: what does not fit is not kept, and no table grows for it.

    Of ed an entry takes 16 words by name and by id, of anna 17."""
    users = Users([(b"ed", 7, 0), (b"anna", 8, 0)])
    for limit, absent, name, told in (
        (0, 6, b"ed", {"used words 128 of 128", "entries 8", "not added 0", "compactions 0", "misses 1"}),
        (0, 7, b"ed", {"used words 128 of 128", "entries 8", "not added 1", "compactions 0", "misses 1"}),
        (0, 7, b"anna", {"used words 112 of 128", "entries 7", "not added 1", "compactions 0", "misses 1"}),
        (4096, 7, b"ed", {"used words 128 of 128", "entries 8", "not added 1", "compactions 0", "misses 1"}),
        (4096, 7, b"anna", {"used words 146 of 256", "entries 9", "not added 1", "compactions 1", "misses 1"}),
    ):
        with daemon(started=False) as run:
            trial = Trial(run, 1, users, limit)
            for number in range(absent):
                trial.look_up(b"absent-user-name%d" % number)
            trial.look_up(name)
            check(told <= set(trial.count()), f"limit {limit}, {absent} others and {name}: not {told}")
            # What was not kept is asked anew, and the table may grow for that.
            trial.look_up(users.ids[name], "uid")
            trial.count()
            run.shut_down()
    return "an entry by id is kept beside that by name where it just fits, and no table grows for it"


def by_default(dice):
    """Five thousand users of own ids, and no line of settings. An entry by id finds no room where that by name was the last."""
    users = Users([(b"user%04d" % number, FIRST_ID + number, number % 64) for number in range(5000)])
    names = list(users.ids)
    with daemon(started=False) as run:
        trial = Trial(run, DEFAULT_SIZE, users, DEFAULT_LIMIT, settings="")
        for _ in range(2):
            dice.shuffle(names)
            for name in names:
                trial.look_up(name)
            trial.count()
        run.shut_down()
        counts = trial.room.counts
        check(counts["hits"] == len(names), "a user is not kept")
        refused = 2 * len(names) - counts["entries"]
        check(0 < counts["compactions"] == counts["not added"] - refused, "an entry finds no room, and the table does not grow")
        return (
            f"{len(names)} users under the default settings: all are kept by name, all but {refused} by id, and the table grew"
            f" {counts['compactions']} times"
        )


def without_memory():
    """No memory for a larger table: a lookup that wants one has no reply, and nothing is lost."""
    with daemon(started=False) as run:
        trial = Trial(run, DEFAULT_SIZE, Users([]), DEFAULT_LIMIT, settings="")
        names = [b"absent-user-name%04d" % number for number in range(trial.room.arena() // 16 + 1)]
        for name in names[:-1]:
            trial.look_up(name)
        process = run.process.pid
        status = Path(f"/proc/{process}/status").read_text()
        taken = int(re.search(r"VmData:\s+(\d+) kB", status)[1]) << 10
        limits = resource.prlimit(process, resource.RLIMIT_DATA)
        resource.prlimit(process, resource.RLIMIT_DATA, (taken + (128 << 10), limits[1]))
        check(run.ask(request(PASSWD_BY_NAME, names[-1] + b"\0")) == b"", "there is memory for a larger table")
        trial.room.refuse()
        trial.look_up(names[0])
        trial.count()
        resource.prlimit(process, resource.RLIMIT_DATA, limits)
        trial.look_up(names[-1])
        trial.look_up(names[-1])
        told = trial.count()
        check({"compactions 1", "not added 2", "negative hits 2"} <= set(told), "the table does not grow once there is memory")
        run.shut_down()
        return "where memory is wanting for a larger table a lookup has no reply, and all entries stay"


def main():
    steps = int(sys.argv[1]) if len(sys.argv) > 1 else 10000
    dice = random.Random(int(sys.argv[2]) if len(sys.argv) > 2 else 1)
    cases = [full, grown, beside, at_a_limit, without_memory, lambda: one_chain(dice), lambda: by_default(dice)]
    cases += [lambda run=run: by_chance(*run, steps // 4, dice) for run in RUNS]
    broken = 0
    for case in cases:
        try:
            print(f"entries: {case()}")
        except Fault as fault:
            broken += 1
            print(f"entries: {fault}", file=sys.stderr)
    print(f"entries: {len(cases)} cases, {broken} faults")
    sys.exit(bool(broken))


if __name__ == "__main__":
    main()
