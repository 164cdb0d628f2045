"""Lookups that the thread that accepts answers by itself, since an entry is there: cases of tests/daemon."""

import os
import statistics
import threading
import time
from pathlib import Path

from askers import asking
from holding import holding
from running import ASK_ROOT, GROUP_BY_NAME, INVALIDATE, NO_REPLY, PASSWD_BY_NAME, PATIENCE, ROOT_REPLY, check, daemon, read_all, request
from scopes import counts

ASK_MAUD = request(PASSWD_BY_NAME, b"maud\0")
ASK_NOBODY = request(PASSWD_BY_NAME, b"nobody1\0")
ASK_GROUP = request(GROUP_BY_NAME, b"root\0")
ASKED = 500  # times
ORDERS = 300
GROWN = 20_000  # users, for each of which the table gets an entry
SOON = 0.1  # seconds after a growth
IN_PLACE = 0.99  # of the hits
DUE = 150_000  # entries whose time is over at one tick
BATCH = 100  # lines that are sent together
NOT_FOUND = b"not found\n"
TICK = 15.0  # seconds
SLOW = 0.05  # seconds for a hit beside a tick, and in the middle a tenth
EMPTY = 52  # bytes of an image without entries
HELD = 4.0  # seconds for which a tick waits at least
LIVED = 1  # seconds of an entry's time
CLIENTS = 16  # at once
AT_ONCE = 1.5  # seconds


def user(number, shell=b"/bin/sh"):
    return b"user%06d:x:%d:%d::/home/user%06d:%s\n" % (number, 10_000 + number, 100, number, shell)


def ask_user(number):
    return request(PASSWD_BY_NAME, b"user%06d\0" % number)


def set_up(run, users, settings):
    (run.etc / "passwd").write_bytes(b"root:x:0:0:root:/root:/bin/bash\n" + b"".join(map(user, range(users))))
    (run.etc / "nscd.conf").write_text(settings)
    run.words = ("-f", run.etc / "nscd.conf", *run.words)
    run.start()


def counted():
    """Each hit is counted once, whoever answers it."""
    with daemon() as run:
        for _ in range(ASKED):
            check(run.ask() == ROOT_REPLY, "another reply for root")
            check(run.ask(ASK_NOBODY) == NO_REPLY, "another reply for nobody1")
        wanted = {"hits": ASKED - 1, "negative hits": ASKED - 1, "misses": 1, "negative misses": 1}
        told = counts(run, "passwd")
        if {name: int(told[name]) for name in wanted} != wanted:
            # A tick may have them, which has not begun.
            time.sleep(1)
            told = counts(run, "passwd")
        check({name: int(told[name]) for name in wanted} == wanted, f"other counts: {told}")
    return f"of {2 * ASKED} lookups each hit is counted, found and not found; {counted_at_once()}"


def lookups_and_misses(run):
    """The counted lookups of users, found and not found, and how many of all were misses."""
    told = {name: int(number) for name, number in counts(run, "passwd").items() if name.endswith(("hits", "misses"))}
    return (told["hits"] + told["misses"], told["negative hits"] + told["negative misses"]), told["misses"] + told["negative misses"]


def counted_at_once():
    """Lookups of many clients at once, each of which is counted too. Few are misses: the first ones, and those after an entry's time."""
    with daemon() as run:
        began = time.monotonic()
        check(run.ask() == ROOT_REPLY and run.ask(ASK_NOBODY) == NO_REPLY, "another reply")
        with asking(run, CLIENTS // 2, AT_ONCE, ASK_ROOT, ROOT_REPLY) as found, asking(run, CLIENTS // 2, AT_ONCE, ASK_NOBODY, NO_REPLY) as absent:
            wanted = (len(found.times()) + 1, len(absent.times()) + 1)
        # A tick may have them, which has not begun.
        ends = time.monotonic() + 2
        while (told := lookups_and_misses(run))[0] != wanted:
            check(time.monotonic() < ends, f"of {wanted} lookups by {CLIENTS} clients at once {told[0]} are counted")
            time.sleep(0.1)
        check(told[1] <= 2 + (time.monotonic() - began) / TICK, f"of {sum(wanted)} lookups {told[1]} are misses")
        return f"and of {CLIENTS} clients at once {wanted[0]} and {wanted[1]}"


def kept_back():
    """Where only found entries are told, an entry that says that there is none is not, though it is there."""
    with daemon("--found-only", "passwd") as run:
        for _ in range(5):
            check(run.ask(ASK_NOBODY) == b"", "a not-found reply is written")
            check(run.ask() == ROOT_REPLY, "another reply for root")
        told = counts(run, "passwd")
        wanted = {"hits": 4, "negative hits": 4, "misses": 1, "negative misses": 1}
        check({name: int(told[name]) for name in wanted} == wanted, f"other counts: {told}")
    with daemon("--leave", "passwd") as run:
        check(run.ask() + run.ask() == b"", "a reply from a database that is left")
    return "a not-found entry is kept back again and again, and counted; a found one is told"


def after_orders():
    """Once -i is answered, no entry of before is given, by whoever answers."""
    with daemon("-t", "2") as run:
        for number in range(ORDERS):
            shell = b"/bin/sh%d" % number
            (run.etc / "passwd").write_bytes(b"maud:x:1:1::/:%s\n" % shell)
            run.ask(request(INVALIDATE, b"passwd\0"), "admin")
            for _ in range(3):
                said = run.ask(ASK_MAUD)
                check(said.endswith(b"/\0%s\0" % shell), f"after order {number}: {said!r}")
    return f"after each of {ORDERS} orders what is answered is what the file says then"


def bytes_read(run):
    """How many bytes each thread of the daemon has read of files."""
    tasks = Path(f"/proc/{run.process.pid}/task")
    return {int(name): int((tasks / name / "io").read_text().split("rchar:")[1].split()[0]) for name in os.listdir(tasks)}


def workers_of(run, count):
    """The workers of the daemon, which are the threads that read its files. Names of no user are asked for that."""
    # Others read a little of /proc.
    before, asked, found, size = bytes_read(run), 0, [], (run.etc / "passwd").stat().st_size
    ends = time.monotonic() + 4 * PATIENCE
    while len(found) < count:
        check(time.monotonic() < ends, f"of {count} workers {len(found)} are seen to read")
        with open(run.etc / "passwd", "ab") as file:
            file.write(b"# another text\n")
        peers = [run.connect() for _ in range(10)]
        for asked, peer in enumerate(peers, asked + 1):
            peer.sendall(request(PASSWD_BY_NAME, b"none%d\0" % asked))
        for peer in peers:
            with peer:
                check(read_all(peer) == NO_REPLY, "another reply for a name of no user")
        found = [thread for thread, read in bytes_read(run).items() if read >= before.get(thread, 0) + size]
    return sorted(found)


def switches(run):
    """How often each thread of the daemon was left and came back by itself."""
    tasks = Path(f"/proc/{run.process.pid}/task")
    return {int(name): int((tasks / name / "status").read_text().split("voluntary_ctxt_switches:")[1].split()[0]) for name in os.listdir(tasks)}


def woken(before, after, threads):
    """How often these threads were woken from one look to another."""
    return sum(after[thread] - before[thread] for thread in threads)


def words(run):
    """The words that the table has for entries."""
    return int(next(number for name, number in counts(run, "passwd").items() if name.startswith("used words")))


def after_growths():
    """A table that becomes larger is another one: soon afterwards hits are answered from it, and no worker is woken for them."""
    with daemon("-t", "2", started=False) as run:
        set_up(run, GROWN, "suggested-size passwd 211\nreload-count unlimited\n")
        run.ask(ask_user(0))
        growths, before, seen = 0, words(run), []
        for number in range(GROWN):
            run.ask(ask_user(number))
            if number % 500 != 499 or (now := words(run)) == before:
                continue
            growths, before = growths + 1, now
            # Hits find that the table was left, and the pass goes on once the writer's lock is free.
            ends = time.monotonic() + SOON
            while time.monotonic() < ends:
                run.ask(ask_user(number))
            was = switches(run)
            for asked in range(ASKED):
                check(run.ask(ask_user(asked)).endswith(b"/bin/sh\0"), f"user {asked}: another reply")
            seen.append((was, switches(run)))
        # To look for the workers changes the file, and so ends the entries.
        workers = workers_of(run, 2)
        least = min(1 - woken(*looks, workers) / ASKED for looks in seen)
        check(growths >= 3, f"the table became larger {growths} times only")
        check(least >= IN_PLACE, f"after a growth {least:.1%} of the hits woke no worker")
        return f"after each of {growths} growths {least:.1%} of the hits or more are answered without a worker"


def hits(run, asked, ends, times):
    """Asks until it is told to end, and notes how long each reply took."""
    while not ends.is_set():
        began = time.monotonic()
        try:
            said = run.ask(asked)
        except OSError as error:
            said = str(error)
        times.append((began, time.monotonic() - began, said))


def warm(run, count):
    """Asks for names of no user at the gate, each of which gets an entry."""
    with run.connect("gate", TICK) as peer:
        for first in range(0, count, BATCH):
            peer.sendall(b"".join(b"passwd user%06d\n" % number for number in range(first, first + BATCH)))
            left = BATCH * len(NOT_FOUND)
            while left and (part := peer.recv(left)):
                left -= len(part)
            check(left == 0, "the gate ends")


def measured(run, asked, ends):
    """Asks these in turn, each by a thread, until this moment: the seconds that each reply took."""
    over, times = threading.Event(), []
    asking = [threading.Thread(target=hits, args=(run, one, over, times)) for one in asked]
    for thread in asking:
        thread.start()
    time.sleep(max(0.0, ends - time.monotonic()))
    over.set()
    for thread in asking:
        thread.join()
    check(len({said for _, _, said in times}) == len(asked), "another reply")
    return [seconds for _, seconds, _ in times]


def beside_due():
    """What hits of another database take beside a tick that replaces many entries: in the middle, at most, and their number."""
    with daemon("-t", "2", started=False) as run:
        run.words = ("--gate", run.run / "gate", *run.words)
        set_up(run, 0, f"negative-time-to-live passwd {LIVED}\nreload-count unlimited\nmax-db-size passwd 67108864\n")
        began = time.monotonic()
        warm(run, DUE)
        warmed = time.monotonic() - began
        check(warmed < TICK - 2, f"{DUE} entries take {warmed:.1f} s")
        check(run.ask(ASK_GROUP) != b"", "no reply for a group")
        taken = measured(run, [ASK_GROUP], began + TICK + 4)
        return statistics.median(taken), max(taken), len(taken)


def beside_a_tick():
    """Beside a full machine a hit may wait for a processor: the best of three ticks counts."""
    for _ in range(3):
        middle, most, count = beside_due()
        if most < SLOW and middle < SLOW / 10:
            return f"beside a tick that replaces {DUE} entries, {count} hits of another database take {middle * 1000:.2f} ms, and {most * 1000:.1f} ms at most"
    check(False, f"beside a tick of {DUE} entries a hit takes {middle:.4f} s, and {most:.4f} s at most")


def beside_a_held_tick():
    """A tick that waits for a file: hits go on, also of its database, and so do orders."""
    with daemon("-t", "2", started=False) as run:
        began = time.monotonic()
        set_up(run, 10, "")
        held = holding(run.etc / "passwd")
        if held is None:
            return "skipped, since the system cannot hold a read (fanotify)"
        try:
            asked = [ask_user(1), ASK_GROUP]
            for one in asked:
                run.ask(one)
            held.hold()
            taken = measured(run, asked, began + TICK + HELD)
            check(held.held_since is not None, "no tick came")
            middle, most = statistics.median(taken), max(taken)
            check(most < HELD / 2 and middle < SLOW, f"beside a tick that waits for a file a hit takes {middle:.4f} s, and {most:.4f} s at most")
            told = counts(run, "group")
            run.shut_down()
        finally:
            held.close()
        check(int(told["hits"]) > 0, f"other counts: {told}")
        return f"beside a tick that waits for a file {len(taken)} hits take {middle * 1000:.2f} ms, and {most * 1000:.1f} ms at most; -g and -K are heard"


def ends_beside_a_held_file():
    """An order to end is heard while a worker waits for a file, and the end does not wait for it for long."""
    with daemon("-t", "2", started=False) as run:
        set_up(run, 10, "persistent group yes\n")
        held = holding(run.etc / "passwd")
        if held is None:
            return "skipped, since the system cannot hold a read (fanotify)"
        try:
            check(run.ask(ASK_GROUP) != b"", "no reply for a group")
            held.hold()
            with run.connect() as waiting:
                waiting.sendall(ASK_NOBODY)
                ends = time.monotonic() + PATIENCE
                while held.held_since is None:
                    check(time.monotonic() < ends, "no worker opens the file")
                    time.sleep(0.01)
                began = time.monotonic()
                said = run.command("-K")
                check(said == (b"", b"", 0), f"-K: {said}")
                check(run.process.wait(PATIENCE) == 0, f"it ended with {run.process.returncode}")
                took = time.monotonic() - began
        finally:
            held.close()
        check((run.run / "group.img").stat().st_size > EMPTY, "the image of another database is not put")
        return f"beside a worker that waits for a file -K ends it after {took:.2f} s, with the images"


def in_use():
    """An entry that is used is loaded again at each tick, however small the count of reloads; one that is not goes."""
    with daemon(started=False) as run:
        set_up(run, 0, f"positive-time-to-live passwd {LIVED}\nreload-count 1\ncheck-files passwd no\n")
        began = time.monotonic()
        (run.etc / "passwd").write_bytes(b"root:x:0:0:root:/root:/bin/bash\nmaud:x:1:1::/:/bin/sh\n")
        for asked in (ASK_MAUD, request(PASSWD_BY_NAME, b"root\0")):
            run.ask(asked)
        for tick in (1, 2, 3):
            while time.monotonic() < began + tick * TICK + 1.5:
                run.ask(ASK_MAUD)
                time.sleep(0.2)
        before = counts(run, "passwd")
        run.ask(ASK_MAUD)
        used = counts(run, "passwd")
        run.ask()
        unused = counts(run, "passwd")
        check(int(used["misses"]) == int(before["misses"]), f"the entry that was used is gone: {before}, {used}")
        check(int(unused["misses"]) == int(used["misses"]) + 1, f"the entry that was not used is there: {used}, {unused}")
        return "after three ticks an entry in use is there with a count of reloads of 1, and one out of use is not"


CASES = {
    "hits-counted": counted,
    "hits-kept-back": kept_back,
    "hits-after-orders": after_orders,
    "hits-after-growths": after_growths,
    "hits-beside-held-tick": beside_a_held_tick,
    "ends-beside-held-file": ends_beside_a_held_file,
    "hits-in-use": in_use,
}

# Beside a busy machine its measure is the machine's.
LONG_CASES = {"hits-beside-tick": beside_a_tick}
