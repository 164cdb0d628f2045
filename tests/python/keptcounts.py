"""Images of the version before, and counts of reloads that outlive their daemon: cases of tests/daemon."""

import time
from contextlib import ExitStack

import frames
import images
import torn
from kept import ASKED, FIRST_TICK, LOAD, PERSISTENT, check_answer, check_counts, counts, ends, entries_of, image_of, kept_by, put, root_entry, sets
from running import check, daemon

FORMER = 2  # the version before
MOST = images.MOST_RELOADS
REST = 0.5  # seconds for the rest of a tick
# A found entry is due at each tick, and an image alone says how often it was loaded again.
DUE = "positive-time-to-live passwd 1\ncheck-files passwd no\n"


def former_version():
    """An image of version 2 comes back as one of version 3 whose counts are 0."""
    with daemon(started=False) as run:
        sets(run, PERSISTENT)
        timeout = int(time.time()) + 600
        former = images.image([root_entry(timeout, version=FORMER)], version=FORMER)
        check(len(former) == 152, f"the image has {len(former)} bytes")
        put(run, former)
        run.start()
        check_counts(run, "an image of version 2", entries=1, used_words="17 of 27008", hits=0, misses=0)
        run.is_well("an image of version 2")
        # The hit keeps nothing by id.
        check_counts(run, "an image of version 2", entries=1, hits=1, misses=0)
        ends(run)
        data = image_of(run).read_bytes()
        check(len(data) == 156 and data == images.image([root_entry(timeout)]), f"after an image of version 2: {data}")
        return "an image of version 2 and 152 bytes is brought back, and put in 156 bytes as one of version 3"


def former_versions():
    """The images of all databases, made anew in version 2, bring back what those of version 3 do."""
    with daemon(started=False) as run:
        sets(run, *(f"persistent {database} yes\n" for database in ASKED))
        run.start()
        for pairs in ASKED.values():
            for kind, key in pairs:
                check_answer(run, kind, key, "at first")
        ends(run)
        written = {}
        for database in ASKED:
            path, found = image_of(run, database), entries_of(run, database)
            written[database] = path.read_bytes()
            rows = [images.entry(place, one.kind, one.key, one.reply, one.is_not_found, one.timeout, 0, FORMER) for place, one in enumerate(found)]
            path.write_bytes(images.image(rows, frames.DATABASES.index(database), FORMER))
        run.start()
        for database, pairs in ASKED.items():
            check_counts(run, "images of version 2", database, entries=len(kept_by(run, pairs)))
            for kind, key in pairs:
                check_answer(run, kind, key, "images of version 2")
            check_counts(run, "images of version 2", database, hits=len(pairs) - 1, negative_hits=1, misses=0, negative_misses=0)
        ends(run)
        for database, data in written.items():
            check(image_of(run, database).read_bytes() == data, f"{database}.img: not what it was before it was made anew in version 2")
        return f"images of version 2 of {len(written)} databases are brought back, and put as those of version 3 that they were"


def by_counts(reloads):
    """An image of users that are all due, each with one of these counts."""
    rows = [(torn.user(number), count) for number, count in enumerate(reloads)]
    entries = [images.entry(place, 0, user[0].encode(), images.found(user), 0, 0, count) for place, (user, count) in enumerate(rows)]
    return images.image(entries)


def ticked(run):
    """Waits for the first tick, which ends entries or loads them again, and then ends the daemon. The counts in its image by user."""
    ends_at = time.monotonic() + FIRST_TICK + LOAD
    while counts(run)["compactions"] == "0":
        check(time.monotonic() < ends_at, f"no tick within {FIRST_TICK + LOAD:.0f} s of the start")
        time.sleep(0.1)
    # What is loaded again comes behind the compaction.
    time.sleep(REST)
    ends(run)
    return {int(one.key[1:]): one.reloads for one in entries_of(run)}


def counts_kept():
    """Of two daemons one loads an entry again twice, the other without end. Both are ended and started again after their first tick."""
    saved = (0, 1, 2, 3, MOST, 2)
    asked = len(saved) - 1  # asked before the first tick, which begins the count anew
    stories = {
        "reload-count 2\n": ({0: 1, 1: 2, asked: 1}, {0: 2, asked: 2}),
        "reload-count unlimited\n": ({0: 1, 1: 2, 2: 3, 3: 4, 4: MOST, asked: 1}, {0: 2, 1: 3, 2: 4, 3: 5, 4: MOST, asked: 2}),
    }
    with ExitStack() as stack:
        runs = {conf: stack.enter_context(daemon(started=False)) for conf in stories}
        for conf, run in runs.items():
            (run.etc / "passwd").write_bytes(torn.passwd(len(saved)))
            sets(run, PERSISTENT, DUE, conf)
            put(run, by_counts(saved))
        for turn in range(2):
            for run in runs.values():
                run.start()
                if turn == 0:
                    torn.check_user(run, asked, "an entry with a count of 2")
            for conf, wanted in stories.items():
                found = ticked(runs[conf])
                check(found == wanted[turn], f"{conf.strip()}, tick {turn + 1}: counts of {found}, and not {wanted[turn]}")
    return "counts of reloads go on where the former daemon had them: those that reached the limit are dropped, the greatest stays, a hit begins anew"


CASES = {"former-version": former_version, "former-versions": former_versions, "counts-kept": counts_kept}
