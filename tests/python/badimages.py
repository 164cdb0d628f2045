"""Images that are none, that are of somebody else, or that lie: cases of tests/daemon."""

import os
import random
import re
import struct
import subprocess
import time

import frames
import images
from kept import (
    ALONE, MODE, PERSISTENT, ROOM, SLACK, answer, asked, check_answer, check_counts, ends, entries_of, entries_told, identity, image_of, left_in,
    not_got, not_kept, put, root_entry, sets,
)  # fmt: skip
from running import PATIENCE, PROGRAM, ROOT_REPLY, check, daemon, read_all

NOBODY = 65534
LONGEST = 134_217_728  # bytes of an image
SEED = 3


# ---- bytes that are no image of this database


def with_field(at, value, form="<I", version=images.SAVED):
    """The image of root with another field and the digest of that."""
    body = bytearray(images.image([root_entry(time.time() + 600, 1, version)], version=version)[: -images.DIGEST])
    struct.pack_into(form, body, at, value)
    return images.sealed(bytes(body))


def no_images_of(version):
    """Images of a version with a fault in their entries: what it is, and its bytes."""
    later = int(time.time()) + 600
    entry = root_entry(later, 1, version)
    good = images.image([entry], version=version)
    fixed = len(entry) - len(b"root" + ROOT_REPLY)
    ends = len(good) - images.DIGEST
    for at in (20, 28, 36, 40, 44, 20 + fixed - 1, 20 + fixed, ends - 1, ends, len(good) - 1):
        yield f"byte {at} changed", good[:at] + bytes([good[at] ^ 1]) + good[at + 1 :]
    yield "the entry twice", images.image([entry, entry], version=version)
    yield "numbers that fall", images.image([images.entry(1, 0, b"root", ROOT_REPLY, 0, later, 1, version), entry], version=version)
    for at, value in ((16, 0), (16, 2), (16, 2**32 - 1), (28, 2), (28, 2**32 - 1), (32, 5), (32, 1025), (32, 2**31), (36, 65), (36, 65537), (40, 2)):
        yield f"{value} at byte {at}", with_field(at, value, version=version)
    yield "a time of 2^63", with_field(20 + fixed - 8, 2**63, "<Q", version)
    yield "an entry that ends in its fixed part", images.sealed(good[: 20 + fixed - 1])
    yield "a byte behind the entry", images.sealed(good[: -images.DIGEST] + b"\0")
    yield "the fields of another version", images.image([root_entry(later, 1, 5 - version)], version=version)
    # Where all other fields are 0 by chance, too.
    yield "the fields of another version, of times and counts of 0", images.image([root_entry(0, 0, 5 - version)], version=version)


def no_images():
    """What it is, and its bytes."""
    dice = random.Random(SEED)
    good = images.image([root_entry(time.time() + 600)])
    yield "an image without its last byte", good[:-1]
    yield "an image with a byte more", good + b"\0"
    yield "51 bytes of an image", good[:51]
    yield "no bytes", b""
    for length in (1, 51, 52, 152, 5000, 100_000):
        yield f"{length} bytes by chance", dice.randbytes(length)
        yield f"{length} bytes by chance behind the magic", b"NSCIMAGE" + dice.randbytes(length)
    yield "a head and a digest alone, of two entries", images.sealed(good[:16] + struct.pack("<I", 2))
    for version in (0, 1, 4, 9, 2**32 - 1):
        yield f"version {version}", with_field(8, version)
        yield f"version {version} without entries", images.image([], version=version)
    yield "another magic", with_field(0, b"nSCIMAGE", "8s")
    for database in (1, 2, 3, 4, 2**32 - 1):
        yield f"an image of database {database}", with_field(12, database)
    yield "an image of groups", images.image([images.entry(0, 2, b"friends", b"", 0, 2**62)], 1)
    for at in (0, 8, 12, 16):
        yield f"byte {at} changed", good[:at] + bytes([good[at] ^ 1]) + good[at + 1 :]
    for version in images.FIXED:
        for what, data in no_images_of(version):
            yield f"version {version}: {what}", data
    yield "the head of another daemon's cache", struct.pack("<3i", 2, 92, 0) + bytes(217_032)


def check_root_is_kept(run, text):
    found = entries_of(run)
    check([entry[:4] for entry in found] == [(0, b"root", ROOT_REPLY, False)], f"{text}: at the end the image holds {found}")


def starts_empty(run, text):
    run.start()
    check_counts(run, text, entries=0, used_words="0 of 27008")
    run.is_well(text)


def bad_images():
    with daemon(started=False) as run:
        sets(run, PERSISTENT, ALONE)
        count = 0
        for what, data in no_images():
            put(run, data)
            starts_empty(run, what)
            ends(run)
            check_root_is_kept(run, what)
            count += 1
        for length, told in ((LONGEST, ()), (LONGEST + 1, (not_got(image_of(run)),))):
            put(run, b"NSCIMAGE")
            os.truncate(image_of(run), length)
            starts_empty(run, f"{length} bytes")
            ends(run, *told)
            check_root_is_kept(run, f"{length} bytes")
        check(left_in(run) == ["passwd.img"], f"images: {left_in(run)}")
        return f"{count + 2} files that are no image of the database start an empty cache, and are replaced at the end"


# ---- what is no file that it may read


def no_files(run):
    """What it is, how it is made at the image's place, and how it looks afterwards."""
    path, other = image_of(run), run.folder / "other.img"
    other.write_bytes(images.image([root_entry(time.time() + 600)]))
    other.chmod(MODE)
    seen = identity(other)
    yield "a link to an image", lambda: path.symlink_to(other), lambda: os.readlink(path) == str(other) and identity(other) == seen
    yield "a link to itself", lambda: path.symlink_to(path.name), lambda: os.readlink(path) == path.name
    yield "a link to nothing", lambda: path.symlink_to("none"), lambda: os.readlink(path) == "none" and not (run.run / "none").exists()
    yield "a folder", path.mkdir, lambda: path.is_dir() and os.listdir(path) == []
    yield "a FIFO", lambda: os.mkfifo(path), path.is_fifo


def left_alone():
    with daemon(started=False) as run:
        sets(run, PERSISTENT)
        run.run.mkdir(mode=0o755)
        path, tried = image_of(run), []
        for what, make, is_as_made in no_files(run):
            make()
            run.start()
            check_counts(run, what, entries=0)
            run.is_well(what)
            ends(run, not_got(path), not_kept(path))
            check(is_as_made() and left_in(run) == ["passwd.img"], f"{what} is not as it was: {left_in(run)}")
            path.rmdir() if path.is_dir() and not path.is_symlink() else path.unlink()
            tried.append(what)
        return f"what is no regular file is left alone, told of at the start and at the end, and no start hangs: {', '.join(tried)}"


def unreadable():
    with daemon(started=False) as run:
        sets(run, PERSISTENT, ALONE)
        put(run, images.image([root_entry(time.time() + 600)]))
        image_of(run).chmod(0)
        how = {}
        if os.geteuid() == 0:
            # Root reads every file, so it is another user's daemon.
            how = {"user": NOBODY, "group": NOBODY, "extra_groups": []}
            for path in (run.run, image_of(run)):
                os.chown(path, NOBODY, NOBODY)
        try:
            run.start(**how)
        except PermissionError:
            return "skipped, since another user may not run the program"
        check_counts(run, "an image of mode 000", entries=0)
        run.is_well("an image of mode 000")
        ends(run, not_got(image_of(run)))
        check_root_is_kept(run, "an image of mode 000")
        return "an image that it may not read is told of, starts an empty cache, and is replaced at the end"


def open_folder():
    """A folder that others may write is refused for its sockets, too; so it becomes one while the daemon runs."""
    with daemon(started=False) as run:
        sets(run, PERSISTENT)
        put(run, images.image([root_entry(time.time() + 600)]))
        before = identity(image_of(run))
        words = [PROGRAM, "--etc", run.etc, "--run-dir", run.run]
        for mode in (0o777, 0o775, 0o757, 0o1777):
            run.run.chmod(mode)
            done = subprocess.run(words, capture_output=True, timeout=PATIENCE, check=False)
            lines = done.stderr.decode().splitlines()
            check(done.returncode == 8 and re.fullmatch(not_got(image_of(run)), lines[0]), f"a folder of mode {mode:o}: {done.returncode}, {lines}")
            run.run.chmod(0o755)
            run.start()
            check_counts(run, f"before mode {mode:o}", entries=1)
            run.is_well(f"before mode {mode:o}")
            run.run.chmod(mode)
            check_answer(run, "user", b"maud", f"in a folder of mode {mode:o}")
            ends(run, not_kept(image_of(run)))
            check(identity(image_of(run)) == before and left_in(run) == ["passwd.img"], f"a folder of mode {mode:o}: the image is not as it was")
        return "in a folder that others may write no image is read or put, and the path is told"


# ---- images that lie, with right digests

FORGED = 300
REQUESTS = 60
USERS = 50
# Keys of users, and others that no line has: the last ones cannot be asked, but an image may have them.
NAMES = [b"u%02d" % number for number in range(USERS)] + [b"nobody%d" % number for number in range(8)] + [b"u", b"u0", b"u001", b"U01", b"x", b""]
IDS = [b"%d" % (500 + number) for number in range(USERS)] + [b"0500", b"0", b"7", b"4294967295", b"4294967296", b"99999999999999999999", b"-1", b"+500", b""]
UNASKED = [("user", key) for key in (b"u01\0", b"u01:x", b"u01\n", b"\0", b"k" * 1024)] + [("uid", key) for key in (b"500\0", b"500:", b" 500")]
KEYS = [("user", key) for key in NAMES] + [("uid", key) for key in IDS] + UNASKED
SIZES = (211, 211, 3, 1)


def users():
    """Fifty users, of which one has the name of another, and one its id."""
    names = [b"u%02d" % number for number in range(USERS)]
    ids = [500 + number for number in range(USERS)]
    names[7], ids[9] = names[3], ids[4]
    lines = (b"%s:x:%d:%d:%s:/home/%s:/bin/sh\n" % (name, uid, number, b"g" * number, name) for number, (name, uid) in enumerate(zip(names, ids)))
    return b"".join(lines)


def lies(dice, answers, reply, mark):
    """A reply and a mark that are not those of a request, most often."""
    other = dice.choice(list(answers.values()))
    at = dice.randrange(len(reply))
    return dice.choice(
        (
            other,
            (other[0], mark),
            (reply, not mark),
            (reply[:-1], mark),
            (reply + b"\0", mark),
            (reply[:at] + bytes([reply[at] ^ 1 << dice.randrange(8)]) + reply[at + 1 :], mark),
            (images.ABSENT, True),
            (b"", dice.random() < 0.5),
        )
    )


def forged(dice, answers, now):
    """An image by chance, of either version, and of entries that are true and of others."""
    entries, number, version = [], -1, dice.choice((2, 3))
    for _ in range(dice.choice((1, 5, 20, 60))):
        kind, key = dice.choice(KEYS)
        reply, mark = answers[kind, key]
        if dice.random() < 0.5:
            reply, mark = lies(dice, answers, reply, mark)
        number += dice.choice((1, 1, 2, 10**6))
        timeout = dice.choice((0, now - 10, now + 5, now + 600, now + 10**6, 2**63 - 1))
        reloads = dice.choice((0, 1, 5, images.MOST_RELOADS))
        entries.append(images.entry(number, frames.TYPES[kind], key, reply, mark, timeout, reloads, version))
    return images.image(entries, version=version)


def requests_of(dice, entries):
    """Sixty requests, of which those that the image has an entry for are the first."""
    kinds = {frames.TYPES[kind]: kind for kind in ("user", "uid")}
    wanted = [(kinds[kind], key) for kind, key, *_ in entries] + [dice.choice(KEYS) for _ in range(REQUESTS * 3)]
    return [pair for pair in dict.fromkeys(wanted) if pair not in UNASKED][:REQUESTS]


def replies_of(run, pairs):
    """The replies to requests that are all on their way at once."""
    peers = [run.connect() for _ in pairs]
    for peer, (kind, key) in zip(peers, pairs):
        peer.sendall(asked(kind, key))
    said = [read_all(peer) for peer in peers]
    for peer in peers:
        peer.close()
    return said


def check_saved(run, kept, wanted, more, before):
    """Sees that the image at the end holds what came back, and then what was asked, in any order, until their times."""
    after, found = time.time() + SLACK, entries_of(run)
    held = [entry[:4] for entry in found]
    right = held[: len(kept)] == [entry[:4] for entry in kept] and sorted(held[len(kept) :]) == sorted(more)
    check(right, f"the image at the end holds {found}")
    used = {(frames.TYPES[kind], key) for kind, key in wanted}
    for place, one in enumerate(found):
        life = images.ABSENT_LIFE if one.is_not_found else images.FOUND_LIFE
        # What came back is kept until its own time at most, and a use begins its count anew.
        most = kept[place].timeout if place < len(kept) else one.timeout
        check(min(most, before + life) <= one.timeout <= min(most, after + life), f"entry {place} is kept until {one.timeout}, and the image said {most}")
        reloads = 0 if one[:2] in used else kept[place].reloads
        check(one.reloads == reloads, f"entry {place} has a count of {one.reloads}, and not {reloads}")


def lie(run, dice, answers):
    """Starts a daemon over a forged image, and looks at all that it says. Gives how many entries there were, and how many came back."""
    before, size = int(time.time()), dice.choice(SIZES)
    sets(run, PERSISTENT, ALONE, f"suggested-size passwd {size}\n")
    data = forged(dice, answers, before)
    put(run, data)
    entries = images.read(data)
    kept = images.brought_back(entries, lambda kind, key: answers["uid" if kind else "user", key], ROOM * size, 2**62)
    run.start()
    check(entries_told(run) == len(kept), f"{data.hex()}: {entries_told(run)} entries, and not {len(kept)}")
    known, more = {entry[:2] for entry in kept}, []
    wanted = requests_of(dice, entries)
    for (kind, key), said in zip(wanted, replies_of(run, wanted)):
        reply, mark = answers[kind, key]
        check(said == reply, f"{data.hex()}: {kind} {key!r}: {said!r}")
        if (frames.TYPES[kind], key) not in known:
            more.append((frames.TYPES[kind], key, reply, mark))
    ends(run)
    check_saved(run, kept, wanted, more, before)
    return len(entries), len(kept)


def forged_images():
    dice, there, back = random.Random(SEED), 0, 0
    with daemon(started=False) as run:
        (run.etc / "passwd").write_bytes(users())
        answers = {pair: answer(run, *pair) for pair in KEYS}
        for _ in range(FORGED):
            entries, kept = lie(run, dice, answers)
            there, back = there + entries, back + kept
        return (
            f"after {FORGED} images by chance {REQUESTS} requests each are answered as the files say; of {there} entries {back} came back,"
            f" as a second reading has it"
        )


CASES = {
    "bad-images": bad_images,
    "left-alone": left_alone,
    "unreadable": unreadable,
    "open-folder": open_folder,
    "forged-images": forged_images,
}
