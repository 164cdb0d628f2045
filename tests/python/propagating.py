"""Answers by id that lookups by name keep in a running daemon: cases of tests/daemon."""

import threading
import time

import frames
import rules
from kept import ABSENT_LIVES, ALONE, LIVES, PERSISTENT, SLACK, asked, check_counts, ends, entries_of, sets
from running import INVALIDATE, NO_REPLY, Fault, check, daemon, request

# What the image shows, no tick is to end.
SETTINGS = PERSISTENT + "persistent group yes\ncheck-files passwd no\ncheck-files group no\n"
# By id the compat list finds ann, whom a minus line excludes: bob has no answer by id. Dan's id is that of cid, who is the first.
TEXTS = {
    "switch": b"passwd: compat\npasswd_compat: extrausers\ngroup: files [SUCCESS=merge] extrausers\n",
    "passwd": b"-ann\n+eve::::Eve E.::\n+\n",
    "extra-passwd": b"".join(b"%s:x:%d:100::/:/bin/sh\n" % row for row in ((b"ann", 7), (b"bob", 7), (b"cid", 8), (b"dan", 8), (b"eve", 9))),
    "group": b"adm:x:4:ann\n",
    "extra-group": b"adm:x:4:bob,ann\nops:x:4:cid\n",
}
CHANGED = {**dict.fromkeys(TEXTS, b""), "switch": TEXTS["switch"]}
PLACES = {"switch": "nsswitch.conf", "extra-passwd": "extrausers/passwd", "extra-group": "extrausers/group"}
# The requests by name, and the request by id that each keeps; none where that one is kept already.
NAMED = {
    "passwd": ((b"bob", b"7"), (b"dan", b"8"), (b"cid", None), (b"eve", b"9"), (b"ann", None), (b"zed", None)),
    "group": ((b"adm", b"4"), (b"ops", None), (b"zed", None)),
}
KINDS = {"passwd": ("user", "uid"), "group": ("group", "gid")}


def put_files(run, texts):
    """These files are the daemon's from here on."""
    (run.etc / "extrausers").mkdir(exist_ok=True)
    for name in TEXTS:
        (run.etc / PLACES.get(name, name)).write_bytes(texts[name])


def both_kept(settings, propagates):
    """Asks for all names, changes all files, and asks for the ids. Sees what the image has then; how many ids were kept."""
    files, count = {**dict.fromkeys(frames.FILES), **TEXTS}, 0
    with daemon(started=False) as run:
        sets(run, SETTINGS, *settings)
        put_files(run, TEXTS)
        before = int(time.time())
        run.start()
        wanted = {}
        for database, rows in NAMED.items():
            by_name, by_number = KINDS[database]
            wanted[database] = []
            for name, number in rows:
                check(run.ask(asked(by_name, name)) == rules.answer(files, by_name, name)[0], f"{name}: another reply")
                wanted[database].append((by_name, name))
                if number and propagates:
                    wanted[database].append((by_number, number))
            found = len(rows) - sum(rules.answer(files, by_name, name)[1] for name, _ in rows)
            check_counts(run, "once names were asked", database, entries=len(wanted[database]), misses=found, negative_misses=len(rows) - found)
        put_files(run, CHANGED)
        for database, rows in NAMED.items():
            kind = KINDS[database][1]
            for number in filter(None, (number for _, number in rows)):
                right = rules.answer(files if propagates else {**files, **CHANGED}, kind, number)[0]
                check(run.ask(asked(kind, number)) == right, f"{kind} {number}: another reply once the files were changed")
                count += propagates
        ends(run)
        after = time.time() + SLACK
        for database, pairs in wanted.items() if propagates else ():
            found = entries_of(run, database)
            right = [(frames.TYPES[kind], key, *rules.answer(files, kind, key)) for kind, key in pairs]
            check([one[:4] for one in found] == right, f"{database}.img: {found}, and not {right}")
            lives = [one.timeout - (ABSENT_LIVES if one.is_not_found else LIVES)[database] for one in found]
            check(all(before <= life <= after for life in lives), f"{database}.img: timeouts of {lives}")
        return count


def propagation():
    kept = both_kept((), True)
    both_kept((ALONE, "auto-propagate group no\n"), False)
    return f"by name {kept} ids are kept with their own answers, found or not and until their own times, and none without auto-propagate"


CLIENTS, USERS, ROUNDS = 8, 100, 5


def asks_all(run, pairs, place, faults):
    """Asks for each of these, from a place of its own on."""
    at = place * len(pairs) // CLIENTS
    try:
        for pair, reply in pairs[at:] + pairs[:at]:
            check(run.ask(asked(*pair)) == reply, f"{pair}: another reply")
    except (Fault, OSError) as fault:
        faults.append(fault)


def at_once():
    """Clients ask by name and by id at once, so that each finds entries that another has just made."""
    lines = [b"user%03d:x:%d:100::/:/bin/sh\n" % (number, 1000 + number) for number in range(USERS)]
    files = {**dict.fromkeys(frames.FILES), "passwd": b"".join(lines)}
    keys = [pair for number in range(USERS) for pair in (("user", b"user%03d" % number), ("uid", b"%d" % (1000 + number)))]
    pairs = [(pair, rules.answer(files, *pair)[0]) for pair in keys]
    check(NO_REPLY not in [reply for _, reply in pairs], "a user is not found")
    with daemon("-t", "5", started=False) as run:
        sets(run, PERSISTENT)
        (run.etc / "passwd").write_bytes(files["passwd"])
        run.start()
        for _ in range(ROUNDS):
            check(run.ask(request(INVALIDATE, b"passwd\0"), "admin") == bytes(4), "-i passwd")
            faults = []
            threads = [threading.Thread(target=asks_all, args=(run, pairs, place, faults)) for place in range(CLIENTS)]
            for thread in threads:
                thread.start()
            for thread in threads:
                thread.join()
            if faults:
                raise faults[0]
            check_counts(run, "once all were asked", entries=len(keys), not_added=0)
        ends(run)
        found = sorted(one[:4] for one in entries_of(run))
        right = sorted((frames.TYPES[kind], key, reply, False) for (kind, key), reply in pairs)
        check(found == right, f"the image has {len(found)} entries: not one of each request")
        return f"of {USERS} users, asked by {CLIENTS} clients at once by name and by id, {ROUNDS} times, one entry by each is kept"


CASES = {"propagation": propagation, "propagation-at-once": at_once}
