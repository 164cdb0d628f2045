"""Counts all interleavings of one search with one insertion, one end, one compaction and one invalidation, by their own reading of the words.

Six entries of users u0 to u5 stand in two chains, and one search is made for each of them and for u6. The words are those of a table: CYCLE is
word 0, FIRST_FREE word 3, the two buckets words 16 and 17, and a node has NUMBER, SHAPE, SIZE, VERSION, TIMEOUT, RELOADS, STATE, NEXT, one word of its
key and six of its reply.
"""

from collections import Counter
from itertools import permutations

CYCLE, FIRST_FREE, BUCKETS, ARENA, END = 0, 3, 16, 18, 18 + 128
STATE, NEXT, KEY, NODE = 6, 7, 8, 15
REPLY_WORDS = 6
USERS = range(7)


def bucket_of(user):
    """The hash begins at 5381, and takes the kind, which is 0, and the two bytes of the key."""
    value = 5381
    for byte in (0, ord("u"), ord("0") + user):
        value = (value * 33 + byte) % 2**32
    return BUCKETS + value % 2


class Search:
    """The steps of a search, each of which loads one word: from a stage and what was loaded to the next stage, or to an answer."""

    def __init__(self, user):
        self.user = user

    def place(self, stage):
        """Which word a stage loads."""
        name, at = stage[0], stage[1]
        return {
            "begin": CYCLE,
            "bucket": at,
            "first word": at + KEY,
            "shape": at + 1,
            "state": at + STATE,
            "next": at + NEXT,
            "size": at + 2,
            "number": at,
            "version": at + 3,
            "reply": at + KEY + 1 + (stage[3] if name == "reply" else 0),
            "end": CYCLE,
        }[name]

    def arrive(self, word, first):
        return ("end", 0, first, "none") if word == 0 or word > END - 8 else ("first word", word, first)

    def step(self, stage, word):
        name, at, first = stage[:3]
        if name == "begin":
            return "odd" if word % 2 else ("bucket", bucket_of(self.user), word)
        if name == "bucket":
            return self.arrive(word, first)
        if name == "first word":
            return ("shape" if word == ("key", self.user) else "next", at, first)
        if name == "next":
            return ("end", 0, first, "none") if word >= at else self.arrive(word, first)
        if name == "state":
            return ("size" if word == 1 else "next", at, first)
        if name == "reply":
            copied = stage[3] + 1
            return ("reply", at, first, copied) if copied < REPLY_WORDS else ("end", 0, first, "hits")
        if name == "end":
            return stage[3] if word == first else "moved"
        following = {"shape": "state", "size": "number", "number": "version"}
        return (following[name], at, first) if name in following else ("reply", at, first, 0)


class Table:
    """The words, and for each user how many ways lead to each stage, and to each answer."""

    def __init__(self):
        self.words = [0] * END
        self.words[FIRST_FREE] = ARENA
        self.loads = 0
        self.places = {}
        self.searches = [Search(user) for user in USERS]
        self.ways = [Counter({("begin", 0, 0): 1}) for _ in USERS]
        self.answers = Counter()
        for user in range(6):
            self.write(user)

    def look(self):
        """Before a store each search takes any number of steps."""
        for search, ways in zip(self.searches, self.ways):
            for stage, count in list(ways.items()):
                while not isinstance(stage, str):
                    stage = search.step(stage, self.words[search.place(stage)])
                    (self.answers if isinstance(stage, str) else ways)[stage] += count

    def finish(self):
        for search, ways in zip(self.searches, self.ways):
            for stage, count in ways.items():
                while not isinstance(stage, str):
                    stage = search.step(stage, self.words[search.place(stage)])
                self.answers[stage] += count

    def store(self, at, word):
        self.look()
        self.words[at] = word

    def write(self, user):
        """Inserts an entry. Only the store that links its node can be found by a search."""
        at, bucket = self.words[FIRST_FREE], bucket_of(user)
        fixed = [self.loads, "shape", "size", 0, 0, 0, 1, self.words[bucket], ("key", user)]
        self.words[at : at + NODE] = fixed + ["reply"] * REPLY_WORDS
        self.words[bucket] = at
        self.words[FIRST_FREE] = at + NODE
        self.places[self.loads] = at
        self.loads += 1

    def nodes(self):
        return range(ARENA, self.words[FIRST_FREE], NODE)

    def has(self, user):
        return any(self.words[at + KEY] == ("key", user) and self.words[at + STATE] == 1 for at in self.nodes())

    def insert(self):
        added = 6 if self.has(4) else 4
        self.look()
        self.write(added)

    def end_one(self, number):
        self.look()
        for at in self.nodes():
            if self.words[at] == number:
                self.words[at + STATE] = 0

    def end(self):
        self.end_one(4)
        for bucket in (BUCKETS, BUCKETS + 1):
            self.look()
            at = self.words[bucket]
            if at != 0 and self.words[at + STATE] == 0:
                self.words[bucket] = self.words[at + NEXT]

    def invalidate(self):
        for number in range(self.loads):
            self.end_one(number)
        self.look()

    def compact(self):
        nodes = self.nodes()
        self.store(CYCLE, self.words[CYCLE] + 1)
        self.store(BUCKETS, 0)
        self.store(BUCKETS + 1, 0)
        self.store(FIRST_FREE, ARENA)
        for at in nodes:
            if self.words[at + STATE] == 1:
                to = self.words[FIRST_FREE]
                for index in range(NODE if to != at else 0):
                    self.store(to + index, self.words[at + index])
                bucket = bucket_of(self.words[to + KEY][1])
                self.store(to + NEXT, self.words[bucket])
                self.store(bucket, to)
                self.store(FIRST_FREE, to + NODE)
        self.store(CYCLE, self.words[CYCLE] + 1)


def counted():
    """How many interleavings there are, by their answers."""
    answers = Counter()
    for calls in permutations((Table.insert, Table.end, Table.compact, Table.invalidate)):
        table = Table()
        for call in calls:
            call(table)
        table.finish()
        answers += table.answers
    return answers


if __name__ == "__main__":
    answers = counted()
    print(sum(answers.values()), dict(answers))
