"""Counts how a table grows by doubling, and what callers beside it find, by their own reading of the words.

An entry takes eight words, and those of its key and of its reply. The reply for a user has nine numbers of four bytes and five texts, each with a
byte 0 behind it; for a name that is not there it has the numbers alone.

At each growth every caller looks for the first entry, for the one for which the table grew, and for one that is not there yet. Where its table was
left, each search answers Odd.
"""

USERS, LETTERS, ABSENT = 4, 11, 920
GROWTHS, LATE, MEETING = 15, 4, 5
LEAP_LETTERS = 7051

KINDS = ("hits", "none", "odd", "moved", "wrong")


def words_of(size):
    return (size + 7) // 8


def user_words(letters):
    texts = sum(size + 1 for size in (len("u0"), len("x"), letters, len("/"), 0))
    return 8 + words_of(len("u0")) + words_of(9 * 4 + texts)


ABSENT_WORDS = 8 + words_of(ABSENT) + words_of(9 * 4)


def doubled(arena, wanted):
    """The arena after as few doublings as give `wanted` words."""
    while arena < wanted:
        arena *= 2
    return arena


def grown():
    """The arena after `GROWTHS` growths, and how many entries were inserted then."""
    arena, used, entries, growths = 128, 0, 0, 0
    while growths < GROWTHS:
        used += user_words(LETTERS) if entries < USERS else ABSENT_WORDS
        entries += 1
        growths += used > arena
        arena = doubled(arena, used)
    return arena, entries


def tally(**counts):
    return "Tally { " + ", ".join(f"{kind}: {counts.get(kind, 0)}" for kind in KINDS) + " }"


def found(times):
    """What a caller found that went on so often."""
    return f"Found {{ before: {tally(odd=3 * GROWTHS)}, after: {tally(hits=2 * times, none=times)} }}"


def layout(arena):
    return f"Layout {{ buckets: {arena // 128}, arena: {arena} }}"


def lines():
    """What the program prints of growths."""
    arena, entries = grown()
    yield f"a table that grows {GROWTHS} times: {layout(arena)}, entries: {entries}"
    yield f"  goes on at once: {found(GROWTHS)}"
    yield f"  goes on late: {found(GROWTHS // LATE)}"
    yield f"  never goes on: {found(0)}"
    yield f"  meets one that went on: {found(GROWTHS // MEETING)}"
    yield f"  each entry at last: {tally(hits=entries)}"
    leap = layout(doubled(128, user_words(LEAP_LETTERS)))
    yield f"entries for which a table doubles more than once: Leap {{ first: Some(0), then: {leap}, second: None, last: {leap} }}"
