"""Caches that outlive their daemon, by images in its folder: cases of tests/daemon. Images are read and made by images.py.

A lookup by name keeps the answer by id, too, where its entry is new. Cases that are about images alone switch that off.
"""

import os
import re
import stat
import time
from pathlib import Path

import frames
import images
import rules
from running import FILES, GETSTAT, NO_REPLY, PATIENCE, ROOT_REPLY, check, check_refused, daemon, request

PERSISTENT = "persistent passwd yes\n"
ALONE = "auto-propagate passwd no\n"  # no answer by id beside one by name
LIVES = {"passwd": 3600, "group": 3600, "hosts": 3600, "services": 28800}  # seconds that what is found is kept
ABSENT_LIVES = {"passwd": 20, "group": 60, "hosts": 20, "services": 20}
SLACK = 1  # seconds by which a clock of whole seconds may be ahead
FIRST_TICK = 15.0  # seconds after the start
LOAD = 4.0  # seconds that a busy machine may take
ROOM = 128  # words for each of the suggested size, which is 211
MODE = 0o600
V6 = b"\x20\1\x0d\xb8" + bytes(11) + b"\7"
# Requests of each database: what is found, and what is not.
ASKED = {
    "passwd": (("user", b"maud"), ("uid", b"4242"), ("user", b"nobody1")),
    "group": (("group", b"friends"), ("gid", b"4243"), ("groups-of", b"maud"), ("groups-of", b"nobody1")),
    "hosts": (("host", b"box"), ("host6", b"ip6-localhost"), ("address", b"\xc0\0\2\7"), ("address6", V6), ("addresses", b"box"), ("host", b"nobody1")),
    "services": (("service", b"www/tcp"), ("service", b"domain"), ("port", b"20480/tcp"), ("service", b"nobody1/tcp")),
}
EVE = b"eve:x:7:7:Eve:/home/eve:/bin/sh\n"


def image_of(run, database="passwd"):
    return run.run / f"{database}.img"


def left_in(run):
    """The names of images that stand in the folder, whole or half written."""
    return sorted(name for name in os.listdir(run.run) if ".img" in name)


def sets(run, *lines):
    """These are the settings from the next start on."""
    (run.etc / "nscd.conf").write_text("".join(lines))


def counts_in(text, database):
    """The counts of a database in a text of statistics, by their names."""
    part = next((part for part in text.decode().split("\n\n") if part.startswith(f"{database} cache:")), None)
    check(part is not None, f"no counts of {database}: {text!r}")
    return dict(re.findall(r"^([a-z ]+) (\d.*)$", part, re.M))


def counts(run, database="passwd"):
    """What -g tells of a database, by the names of its counts."""
    text, said, status = run.command("-g")
    check((said, status) == (b"", 0), f"-g: {said}, {status}")
    return counts_in(text, database)


def check_counts(run, text, database="passwd", **wanted):
    """Sees that -g tells these counts; a name has _ for each blank."""
    found = counts(run, database)
    names = {name.replace("_", " "): str(value) for name, value in wanted.items()}
    check(all(found[name] == value for name, value in names.items()), f"{text}: {found}, and not {names}")


def entries_told(run):
    """How many entries of passwd it tells at the socket of the administrator: what -g does, but for a process."""
    text = run.ask(request(GETSTAT, b""), "admin")
    told = re.search(rb"^entries (\d+)$", text, re.M)
    check(told, f"no count of entries: {text!r}")
    return int(told.group(1))


def files_of(run):
    """The daemon's files as they are."""
    texts = {name: (run.etc / name).read_bytes() for name in FILES}
    return {**dict.fromkeys(frames.FILES), "switch": texts.pop("nsswitch.conf"), **texts}


def answer(run, kind, key):
    """The right reply over the files as they are, and whether it says that there is none."""
    return rules.answer(files_of(run), kind, key)


def asked(kind, key):
    """The bytes of a request. The key ends with a zero byte, but for that of an address."""
    return request(frames.TYPES[kind], key if kind in ("address", "address6") else key + b"\0")


def check_answer(run, kind, key, text):
    said, wanted = run.ask(asked(kind, key)), answer(run, kind, key)[0]
    check(said == wanted, f"{text}: {kind} {key!r}: {said!r}, and not {wanted!r}")


def not_got(path):
    """The line that tells that what stands at this path cannot be read."""
    return rf"nscd: {re.escape(str(path))}: .+(?<!: the image is not kept)"


def not_kept(path):
    return rf"nscd: {re.escape(str(path))}: .+: the image is not kept"


def ends(run, *told):
    """Sees that -K ends the daemon with status 0, and that it told these lines on standard error, and no others."""
    check(run.command("-K") == (b"", b"", 0), "-K")
    check(run.process.wait(PATIENCE) == 0, f"it ended with {run.process.returncode}")
    lines = run.process.stderr.read().decode().splitlines()
    check(len(lines) == len(told) and all(map(re.fullmatch, told, lines)), f"it told {lines}, and not {list(told)}")


def root_entry(timeout, reloads=0, version=images.SAVED):
    return images.entry(0, 0, b"root", ROOT_REPLY, 0, int(timeout), reloads, version)


def put(run, data):
    """Puts an image of passwd into the folder, which may not be there yet."""
    run.run.mkdir(mode=0o755, exist_ok=True)
    fresh = run.run / "fresh"
    fresh.write_bytes(data)
    fresh.chmod(MODE)
    fresh.replace(image_of(run))


def entries_of(run, database="passwd"):
    """What stands in the image of a database, which must be in form, of the version that is written, and its owner's alone."""
    path = image_of(run, database)
    data = path.read_bytes()
    entries = images.read(data, frames.DATABASES.index(database))
    check(isinstance(entries, list) and stat.S_IMODE(os.lstat(path).st_mode) == MODE, f"{path.name}: {entries}, mode {os.lstat(path).st_mode:o}")
    check(images.version_of(data) == images.SAVED, f"{path.name}: version {images.version_of(data)}")
    return entries


def identity(path):
    """What a file is and holds, so that nobody has written it, nor put another one in its place."""
    seen = os.lstat(path)
    return seen.st_ino, seen.st_mtime_ns, seen.st_mode, Path(path).read_bytes()


def root_alone(run, before, settings, keys, used):
    """The image of a daemon that was asked for root alone, by name, and what the next one has of it. Gives the bytes of the image."""
    sets(run, *settings)
    run.start()
    run.is_well("at first")
    ends(run)
    check(left_in(run) == ["passwd.img"], f"images: {left_in(run)}")
    found = entries_of(run)
    check([one.key for one in found] == keys, f"root alone was asked: {found}")
    timeout = found[0].timeout
    life = timeout - LIVES["passwd"]
    check(before <= life <= time.time() + SLACK, f"root was asked after {before}, and is kept for an hour from {life}")
    data = image_of(run).read_bytes()
    rows = [root_entry(timeout), images.entry(1, 1, b"0", ROOT_REPLY, 0, timeout)]
    check(data == images.image(rows[: len(keys)]), f"another image: {data}")
    run.start()
    check_counts(run, "before anything was asked", entries=len(keys), used_words=f"{used} of 27008", hits=0, misses=0)
    run.is_well("at the second start")
    check_counts(run, "once root was asked", entries=len(keys), hits=1, misses=0, negative_misses=0)
    check_answer(run, "uid", b"0", "at the second start")
    check_counts(run, "once 0 was asked", entries=2, hits=len(keys), misses=2 - len(keys))
    check(run.command("-i", "passwd") == (b"", b"", 0), "-i passwd")
    ends(run)
    check(image_of(run).read_bytes() == images.image([]), "once passwd was invalidated its image is not empty")
    return len(data)


def kept():
    before = int(time.time())
    with daemon(started=False) as run:
        both = root_alone(run, before, (PERSISTENT,), [b"root", b"0"], 34)
        alone = root_alone(run, before, (PERSISTENT, ALONE), [b"root"], 17)
        check((both, alone) == (257, 156), f"images of {both} and {alone} bytes")
        return (
            f"a user is answered as a hit by the next daemon, by name and by id; the image has {both} bytes, or {alone} without auto-propagate, mode 600"
            " and its time, and is empty after -i"
        )


def kept_by(run, pairs):
    """The requests that have an entry once these were made, in the order of the entries."""
    found = []
    for pair in pairs:
        if pair not in found:
            beside = rules.by_id(files_of(run), *pair)
            found += [pair] + [beside] * bool(beside and beside not in found)
    return found


def all_four():
    with daemon(started=False) as run:
        sets(run, *(f"persistent {database} yes\n" for database in ASKED))
        before = int(time.time())
        run.start()
        # A reply that is too long to be kept, by name and so by id.
        check_answer(run, "group", b"big", "at first")
        for pairs in ASKED.values():
            for kind, key in pairs:
                check_answer(run, kind, key, "at first")
        ends(run)
        after = time.time() + SLACK
        check(left_in(run) == sorted(f"{database}.img" for database in ASKED), f"images: {left_in(run)}")
        for database, pairs in ASKED.items():
            found = entries_of(run, database)
            wanted = [(frames.TYPES[kind], key, *answer(run, kind, key)) for kind, key in kept_by(run, pairs)]
            check([entry[:4] for entry in found] == wanted, f"{database}.img: {found}, and not {wanted}")
            lives = [one.timeout - (ABSENT_LIVES if one.is_not_found else LIVES)[database] for one in found]
            check(all(before <= life <= after for life in lives), f"{database}.img: timeouts of {lives}")
        run.start()
        for database, pairs in ASKED.items():
            check_counts(run, "before anything was asked", database, entries=len(kept_by(run, pairs)))
            for kind, key in pairs:
                check_answer(run, kind, key, "at the second start")
            check_counts(run, "once all was asked", database, hits=len(pairs) - 1, negative_hits=1, misses=0, negative_misses=0)
        ends(run)
        return f"{sum(map(len, ASKED.values()))} requests of twelve kinds are hits of the next daemon, found and not found"


def changed_files():
    with daemon(started=False) as run:
        sets(run, PERSISTENT, ALONE)
        run.start()
        run.is_well("at first")
        ends(run)
        passwd = run.etc / "passwd"
        passwd.write_bytes(FILES["passwd"].replace(b"/bin/bash", b"/bin/dash"))
        run.start()
        check_counts(run, "root has another shell", entries=0)
        check(run.ask() == ROOT_REPLY.replace(b"/bin/bash", b"/bin/dash"), "root has another shell: not today's answer")
        for name, is_there in ((b"maud", True), (b"eve", False), (b"nobody1", False)):
            check((run.ask(asked("user", name)) != NO_REPLY) == is_there, f"{name}: another reply")
        ends(run)
        check(len(entries_of(run)) == 4, f"four users were asked: {entries_of(run)}")
        passwd.write_bytes(passwd.read_bytes().splitlines(keepends=True)[0] + EVE)
        run.start()
        # Root, and the one that there is not.
        check_counts(run, "a user went and one came", entries=2, used_words="31 of 27008")
        for name in (b"root", b"maud", b"eve", b"nobody1"):
            check_answer(run, "user", name, "a user went and one came")
        check_counts(run, "once they were asked", hits=1, negative_hits=1, misses=1, negative_misses=1)
        ends(run)
        (run.etc / "nsswitch.conf").write_bytes(b"passwd: extrausers\n")
        run.start()
        check_counts(run, "by another list", entries=2)
        for name in (b"root", b"maud", b"eve", b"nobody1"):
            check_answer(run, "user", name, "by another list")
        ends(run)
        return "of what was kept only what the files say today comes back: no old shell, no user who went, no not-found of one who came"


def left_behind():
    with daemon(started=False) as run:
        sets(run, PERSISTENT)
        root = images.image([root_entry(time.time() + 600)])
        maud = images.image([images.entry(0, 0, b"maud", answer(run, "user", b"maud")[0], 0, int(time.time()) + 600)])
        new = run.run / ".passwd.img.new"
        for what, data in (("half an image", maud[:70]), ("a whole image", maud), ("nothing", b"")):
            put(run, root)
            new.write_bytes(data)
            run.start()
            check(left_in(run) == ["passwd.img"], f"{what} is left behind: {left_in(run)}")
            check_counts(run, f"{what} was left behind", entries=1)
            run.is_well(f"{what} was left behind")
            check_counts(run, f"{what} was left behind", hits=1, misses=0)
            new.write_bytes(data)
            ends(run)
            check(left_in(run) == ["passwd.img"] and len(entries_of(run)) == 1, f"{what} is left behind at the end: {left_in(run)}")
        return "what a save that was broken off has left is gone after the next start and the next save, and never used"


def not_persistent():
    with daemon(started=False) as run:
        put(run, images.image([root_entry(time.time() + 600)]))
        before = identity(image_of(run))
        for conf in ("", "persistent passwd no\n", "persistent group no\npersistent passwd yes\npersistent passwd no\n"):
            sets(run, conf)
            run.start()
            check_counts(run, conf, entries=0)
            run.is_well(conf)
            ends(run)
            check(identity(image_of(run)) == before and left_in(run) == ["passwd.img"], f"{conf!r}: the image is touched")
        sets(run, PERSISTENT, "enable-cache passwd no\n")
        run.start()
        check_counts(run, "without a cache", entries=0)
        run.is_well("without a cache")
        ends(run)
        check(image_of(run).read_bytes() == images.image([]), "without a cache an image has entries")
        image_of(run).unlink()
        image_of(run).mkdir()
        sets(run, "")
        run.start()
        run.is_well("a folder in the image's place")
        ends(run)
        return "without persistent an image is neither read nor touched, and without a cache it is not read, and has no entries at the end"


def refused_start():
    """A second start beside a daemon, which reads the image, and is refused."""
    with daemon(started=False) as run:
        sets(run, PERSISTENT)
        put(run, images.image([root_entry(time.time() + 600)]))
        run.start()
        before = identity(image_of(run))
        new = run.run / ".passwd.img.new"
        new.write_bytes(b"half an image")
        written = identity(new)
        for _ in range(3):
            check_refused(run.second(), "beside a daemon")
            check(identity(image_of(run)) == before, "a start that is refused touches the image")
            check(identity(new) == written, "a start that is refused touches the image that is being written")
        check_answer(run, "user", b"maud", "beside starts that are refused")
        ends(run)
        check([one.key for one in entries_of(run)] == [b"root", b"maud", b"4242"], f"image: {entries_of(run)}")
        check(left_in(run) == ["passwd.img"], f"at the end there are {left_in(run)}")
        return "a second start, which is refused, leaves the image as it is, and the one that is being written"


def over():
    """Files count no more once they were read, so that only time ends an entry."""
    with daemon(started=False) as run:
        sets(run, PERSISTENT, "check-files passwd no\n")
        maud = answer(run, "user", b"maud")[0]
        put(run, images.image([root_entry(time.time() - 1000), images.entry(1, 0, b"maud", maud, 0, int(time.time()) + 1000)]))
        began = time.monotonic()
        run.start()
        check_counts(run, "before anything was asked", entries=2)
        (run.etc / "passwd").write_bytes(FILES["passwd"].replace(b"/bin/bash", b"/bin/dash").replace(b"/bin/sh", b"/bin/ed"))
        today = ROOT_REPLY.replace(b"/bin/bash", b"/bin/dash")
        while run.ask() != today:
            took = time.monotonic() - began
            check(took <= FIRST_TICK + LOAD, f"{took:.1f} s after the start root is answered as before its time was over")
            time.sleep(0.25)
        took = time.monotonic() - began
        check(run.ask(asked("user", b"maud")) == maud, "maud is not kept for her time")
        ends(run)
        return f"an entry whose time is over is answered anew {took:.1f} s after the start, and one whose time is not is kept"


CASES = {
    "kept": kept,
    "all-four": all_four,
    "changed-files": changed_files,
    "left-behind": left_behind,
    "not-persistent": not_persistent,
    "refused-start": refused_start,
    "over": over,
}
