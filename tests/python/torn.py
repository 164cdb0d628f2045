"""Saves of an image that are cut off, and those for which the disk has no room: cases of tests/daemon."""

import os
import resource
import shutil
import statistics
import subprocess
import time
from collections import Counter
from contextlib import contextmanager
from pathlib import Path

import images
from kept import PERSISTENT, asked, check_counts, ends, entries_told, identity, image_of, left_in, not_kept, put, sets
from running import PATIENCE, SHUTDOWN, Fault, check, daemon, request

KILLS = 200
MEASURED = 5  # saves, to know how long one takes
OVERLAPS = 20
BEYOND = 1.3  # of that time there are kills
SOME, MANY, CROWD = 500, 3000, 20_000  # users
ROOMY = "suggested-size passwd 4096\n"
PAGE = 4096  # bytes by which a file takes room
DISK = 256 * 1024  # bytes


def user(number):
    return (f"u{number:04}", "x", 1000 + number, 100, f"User {number}", f"/home/u{number:04}", "/bin/sh")


def passwd(count):
    return "".join(":".join(map(str, user(number))) + "\n" for number in range(count)).encode()


def two_images(count):
    """Images of `count` users, whose numbers rise by three, and by one: a daemon that brings back those of the first puts the second."""
    timeout = int(time.time()) + 1800
    rows = [(number, f"u{number:04}".encode(), images.found(user(number))) for number in range(count)]
    return [images.image([images.entry(step * number, 0, key, reply, 0, timeout) for number, key, reply in rows]) for step in (3, 1)]


def check_user(run, number, text):
    check(run.ask(asked("user", b"u%04d" % number)) == images.found(user(number)), f"{text}: another reply for user {number}")


def told_to_end(run):
    """The moment at which the daemon said that it ends."""
    check(run.ask(request(SHUTDOWN, b""), "admin") == bytes(4), "it was told to end, and says something else")
    return time.monotonic()


def length_of_save(run, old, new):
    """How long it takes from there to the end of the process, in seconds."""
    times = []
    for _ in range(MEASURED):
        put(run, old)
        run.start()
        began = told_to_end(run)
        check(run.process.wait(PATIENCE) == 0, f"it ended with {run.process.returncode}")
        times.append(time.monotonic() - began)
        check(image_of(run).read_bytes() == new, "a save that nobody disturbs: another image")
    return statistics.median(times)


def killed_after(run, seconds):
    """Kills the daemon so long after it was told to end."""
    began = told_to_end(run)
    time.sleep(max(0.0, began + seconds - time.monotonic()))
    run.process.kill()
    run.process.wait(PATIENCE)


def torn_saves():
    old, new = two_images(MANY)
    seen = Counter()
    with daemon(started=False) as run:
        (run.etc / "passwd").write_bytes(passwd(MANY))
        sets(run, PERSISTENT, ROOMY)
        length = length_of_save(run, old, new)
        for turn in range(KILLS):
            run.start()
            check(left_in(run) == ["passwd.img"], f"after kill {turn} and another start there are {left_in(run)}")
            check(entries_told(run) == MANY, f"after kill {turn} not all entries are there")
            check_user(run, turn * 7 % MANY, f"after kill {turn}")
            # From here on either stands there.
            put(run, old)
            killed_after(run, BEYOND * length * turn / (KILLS - 1))
            data = image_of(run).read_bytes()
            check(data in (old, new), f"kill {turn} leaves an image of {len(data)} bytes that is neither the former nor the new one")
            seen["new" if data == new else "old"] += 1
            seen["half"] += left_in(run) != ["passwd.img"]
        run.start()
        check(left_in(run) == ["passwd.img"], f"after the last kill and another start there are {left_in(run)}")
        ends(run)
    check(seen["old"] and seen["new"], f"of {KILLS} kills {seen['new']} came after the save")
    return (
        f"{KILLS} kills within {BEYOND * length * 1000:.0f} ms of a save's beginning leave the former image {seen['old']} times and the new one"
        f" {seen['new']} times, always whole; {seen['half']} times a new file beside it, which is gone after the next start"
    )


def start_soon(run):
    """Starts the daemon as soon as the former one lets it."""
    ends_at = time.monotonic() + PATIENCE
    while True:
        try:
            return run.start()
        except Fault:
            check(time.monotonic() < ends_at, f"{PATIENCE:.0f} s after the former daemon was told to end another one is still refused")
            run.process.communicate()


def overlaps():
    """The next daemon starts while the former one may still save."""
    old, new = two_images(SOME)
    met = 0
    with daemon(started=False) as run:
        (run.etc / "passwd").write_bytes(passwd(SOME))
        sets(run, PERSISTENT, ROOMY)
        put(run, old)
        for turn in range(OVERLAPS):
            run.start()
            put(run, old)
            former = run.process
            told_to_end(run)
            time.sleep(turn % 4 / 1000)
            met += former.poll() is None
            start_soon(run)
            check(entries_told(run) == SOME, f"turn {turn}: not all entries are there")
            check_user(run, turn, f"turn {turn}")
            said, status = former.communicate(timeout=PATIENCE)[1], former.returncode
            check((said, status) == (b"", 0), f"turn {turn}: the former daemon ends with status {status}, and tells {said}")
            check(image_of(run).read_bytes() == new, f"turn {turn}: the former daemon's image is lost")
            ends(run)
            check(image_of(run).read_bytes() == new and left_in(run) == ["passwd.img"], f"turn {turn}: at the end {left_in(run)}")
        check(met, f"each of {OVERLAPS} daemons was gone before the next one was started")
        return f"each of {OVERLAPS} daemons whose next one is started while it ends puts its image; {met} were still there then"


@contextmanager
def small_disk(path):
    """A disk of little room at this path, in a mount namespace of its own: the path from here; None where none may be had."""
    words = ["unshare", "-m", "sh", "-c", f'mount -t tmpfs -o size={DISK},mode=755 none "$1" && echo && exec cat', "sh", path]
    path.mkdir(mode=0o755)
    with subprocess.Popen(words, stdin=subprocess.PIPE, stdout=subprocess.PIPE, stderr=subprocess.DEVNULL) as holder:
        made = holder.stdout.readline() == b"\n"
        yield Path(f"/proc/{holder.pid}/root{path}") if made else None


def fill(path, free):
    """Fills the disk but for `free` pages."""
    with open(path, "wb", buffering=0) as sink:
        try:
            while sink.write(bytes(PAGE)):
                pass
        except OSError:
            pass
        sink.truncate(max(0, os.path.getsize(path) // PAGE - free) * PAGE)


def full_disk():
    if os.geteuid() != 0 or not all(map(shutil.which, ("unshare", "mount"))):
        return "skipped, since only root may mount a small disk, by unshare and mount"
    old, new = two_images(SOME)
    with daemon(started=False) as run, small_disk(run.run) as place:
        if place is None:
            return "skipped, since no mount namespace may be had here"
        run.run = place
        (run.etc / "passwd").write_bytes(passwd(SOME))
        sets(run, PERSISTENT, ROOMY)
        put(run, old)
        before, filler = identity(image_of(run)), run.run / "filler"
        frees = (0, 1, 2, 8, len(new) // PAGE)
        for free in frees:
            run.start()
            check_counts(run, f"{free} pages free", entries=SOME)
            fill(filler, free)
            check_user(run, free, f"{free} pages free")
            ends(run, not_kept(image_of(run)))
            check(identity(image_of(run)) == before, f"with {free} pages free the former image is not as it was")
            check(left_in(run) == ["passwd.img"], f"with {free} pages free there are {left_in(run)}")
            filler.unlink()
        run.start()
        ends(run)
        check(image_of(run).read_bytes() == new, "once there is room the new image is not put")
        return f"on a disk with room for none, and for {frees[1]} to {frees[-1]} pages of the new image, the former one stays, and that is told"


def no_memory():
    """The daemon may take no more memory than it has when it is told to end, and the image is longer than what it has given back by then."""
    old, _ = two_images(CROWD)
    with daemon(started=False) as run:
        (run.etc / "passwd").write_bytes(passwd(CROWD))
        sets(run, PERSISTENT, ROOMY)
        put(run, old)
        before = identity(image_of(run))
        run.start()
        check(entries_told(run) == CROWD, f"{entries_told(run)} entries of {CROWD}")
        resource.prlimit(run.process.pid, resource.RLIMIT_DATA, (0, 0))
        told_to_end(run)
        said = run.process.communicate(timeout=PATIENCE)[1], run.process.returncode
        check(said == (b"nscd: no memory\n", 10), f"without memory for the image it ends with {said}")
        check(identity(image_of(run)) == before and left_in(run) == ["passwd.img"], f"without memory: the image is touched, or {left_in(run)}")
        return "a daemon without memory for its image says so, ends with status 10, and leaves the former one"


CASES = {"torn-saves": torn_saves, "overlaps": overlaps, "full-disk": full_disk, "no-memory": no_memory}
