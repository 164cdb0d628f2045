"""A second reading of images of a database, and of what each brings back into a new cache, for tests/images and for cases of tests/daemon."""

import hashlib
import os
import random
import re
import struct
import subprocess
import sys
from collections import Counter
from pathlib import Path
from typing import NamedTuple

ROOT = Path(__file__).resolve().parent.parent.parent
PROGRAM = Path(os.environ.get("IMAGES", ROOT / "build" / "nscd-image-trials")).resolve()
COUNT = 100_000
BATCH = 10_000
SEED = 1
# The users of the program; the first line of a name or of an id counts. Its table has room for `ROOM` words, and the moment is `NOW`.
USERS = (
    ("root", "x", 0, 0, "root", "/root", "/bin/bash"),
    ("ann", "x", 1000, 1000, "Ann,,,", "/home/ann", "/bin/sh"),
    ("root", "x", 7, 7, "", "", ""),
)
ROOM, NOW = 128, 20
FOUND_LIFE, ABSENT_LIFE = 3600, 20  # seconds, by default
NAMES = {0: "PwName", 1: "PwUid", 19: "NetgrEnt", 20: "InNetgr"}  # the kinds of the database
KINDS = ((0, 1, 19, 20), (2, 3, 15), (4, 5, 6, 7, 14), (16, 17))  # of passwd, group, hosts and services
ABSENT = struct.pack("<9i", 2, 0, 0, 0, -1, -1, 0, 0, 0)
NO_NETGROUP = {19: struct.pack("<4i", 2, 0, 0, 0), 20: struct.pack("<3i", 2, 0, 0)}  # no netgroup is found yet
HEAD, DIGEST = 20, 32
# The fixed part of an entry by version: its number, kind, lengths of key and reply, mark, count of reloads from version 3 on, and timeout.
FIXED = {2: "<QIIIIQ", 3: "<QIIIIIQ"}
SAVED = 3  # the version that the program writes
MOST_RELOADS = 2**32 - 1


class Entry(NamedTuple):
    """An entry of an image, or one that came back."""

    kind: int
    key: bytes
    reply: bytes
    is_not_found: bool
    reloads: int
    timeout: int


def found(user):
    name, password, uid, gid, gecos, home, shell = user
    texts = [text.encode() + b"\0" for text in (name, password, gecos, home, shell)]
    lengths = [len(text) for text in texts]
    return struct.pack("<4i", 2, 1, *lengths[:2]) + struct.pack("<2I3i", uid, gid, *lengths[2:]) + b"".join(texts)


def number(key):
    """The id that a key spells, up to 32 bits."""
    value = int(key) if key.isdigit() else 2**32
    return value if value < 2**32 else None


def answer(kind, key):
    """The reply to a request over the users, and whether it says that there is none."""
    if kind in NO_NETGROUP:
        return NO_NETGROUP[kind], True
    for user in USERS:
        if (user[0].encode() == key) if kind == 0 else (user[2] == number(key)):
            return found(user), False
    return ABSENT, True


def entry(number, kind, key, reply, mark, timeout, reloads=0, version=SAVED):
    counted = (reloads,) if version == 3 else ()
    return struct.pack(FIXED[version], number, kind, len(key), len(reply), mark, *counted, timeout) + key + reply


def sealed(body):
    return body + hashlib.sha256(body).digest()


def image(entries, database=0, version=SAVED):
    return sealed(b"NSCIMAGE" + struct.pack("<III", version, database, len(entries)) + b"".join(entries))


def version_of(data):
    return struct.unpack_from("<I", data, 8)[0]


def read(data, database=0):
    """The entries of an image of a database, or the line of the first check that fails."""
    if len(data) < HEAD + DIGEST or data[:8] != b"NSCIMAGE":
        return "no image of a database"
    version, other, count = struct.unpack_from("<III", data, 8)
    if version not in FIXED:
        return f"an image of version {version}"
    end = len(data) - DIGEST
    if hashlib.sha256(data[:end]).digest() != data[end:]:
        return "an image whose digest is not that of its bytes"
    if other != database:
        return "an image at fault at byte 12"
    entries, at, last, fixed = [], HEAD, -1, struct.calcsize(FIXED[version])
    for _ in range(count):
        if end - at < fixed:
            return f"an image at fault at byte {at}"
        number, kind, key, reply, mark, *counted, timeout = struct.unpack_from(FIXED[version], data, at)
        checks = ((0, number > last), (8, kind in KINDS[database]), (12, key <= 1024), (16, reply <= 65536), (20, mark <= 1))
        wrong = [place for place, holds in (*checks, (fixed - 8, timeout < 2**63)) if not holds]
        if wrong:
            return f"an image at fault at byte {at + wrong[0]}"
        if end - at < fixed + key + reply:
            return f"an image at fault at byte {at}"
        key_at = at + fixed
        texts = data[key_at : key_at + key], data[key_at + key : key_at + key + reply]
        entries.append(Entry(kind, *texts, mark == 1, counted[0] if counted else 0, timeout))
        at, last = key_at + key + reply, number
    return entries if at == end else f"an image at fault at byte {at}"


def words(length):
    return (length + 7) // 8


def brought_back(entries, answered, room, now):
    """Those of the entries that come back into a table with `room` words, at a moment at which the requests are answered so."""
    kept, known, used = [], set(), 0
    for one in entries:
        size = 8 + words(len(one.key)) + words(len(one.reply))
        if answered(one.kind, one.key) != (one.reply, one.is_not_found) or used + size > room or one[:2] in known:
            continue
        used += size
        known.add(one[:2])
        kept.append(one._replace(timeout=min(one.timeout, now + (ABSENT_LIFE if one.is_not_found else FOUND_LIFE))))
    return kept


def told(data):
    """The lines that the program must print of an image."""
    entries = read(data)
    if isinstance(entries, str):
        return [entries]
    kept = brought_back(entries, answer, ROOM, NOW)
    rows = [
        f"{place} {NAMES[kind]} {key.hex()} {reply.hex()} {str(mark).lower()} {reloads} {timeout}"
        for place, (kind, key, reply, mark, reloads, timeout) in enumerate(kept)
    ]
    return [f"kept {len(kept)} dropped {len(entries) - len(kept)}", *rows]


def made(dice):
    """An image of either version and some entries: most of them true, some of another shell, mark or name."""
    entries, last, version = [], -1, dice.choice((2, 3))
    for _ in range(dice.choice((0, 1, 1, 2, 3, 6, 12))):
        kind = dice.choice((0, 0, 1))
        key = dice.choice((b"root", b"ann", b"nobody", b"a" * 40, b"") if kind == 0 else (b"0", b"00", b"7", b"1000", b"12", b"4294967296", b"x"))
        reply, mark = answer(kind, key)
        if dice.random() < 0.15:
            reply, mark = dice.choice(((found(USERS[1]), False), (reply[:-1], mark), (reply, not mark), (ABSENT, True)))
        last += dice.choice((1, 1, 2, 1000))
        timeout, reloads = dice.choice((0, 19, 600, 3600, 10**6, 2**63 - 1)), dice.choice((0, 1, 5, 254, 2**31, MOST_RELOADS))
        entries.append(entry(last, kind, key, reply, mark, timeout, reloads, version))
    return image(entries, version=version)


def changed(dice, data):
    """The image with a byte, a field, a length, an entry or its version changed; its digest is made right again, but for some."""
    body = bytearray(data[:-DIGEST])
    how = dice.randrange(7)
    if how == 0:
        body[dice.randrange(len(body))] ^= 1 << dice.randrange(8)
    elif how == 1:
        at = dice.randrange(8, len(body) - 3)
        struct.pack_into("<I", body, at, dice.choice((0, 1, 2, 3, 1024, 1025, 65536, 65537, 2**31, 2**32 - 1)))
    elif how == 2:
        del body[dice.randrange(len(body)) :]
    elif how == 3:
        body += bytes(dice.randrange(1, 60))
    elif how == 4:
        at = dice.randrange(len(body))
        body[at:at] = body[HEAD : HEAD + dice.randrange(1, 140)]
    elif how == 5:
        # Most often the other version, which has the fields of this one then.
        struct.pack_into("<I", body, 8, dice.choice((0, 1, 4, MOST_RELOADS, *[5 - version_of(data)] * 8)))
    else:
        struct.pack_into("<I", body, 16, max(0, struct.unpack_from("<I", body, 16)[0] + dice.choice((-1, 1))))
    if dice.random() < 0.9:
        return sealed(bytes(body))
    return bytes(body) + data[-DIGEST:]


def compare(images, seen):
    """Has the program read the images, and counts what comes of them, each number in a line taken for N."""
    asked = b"".join(struct.pack("<I", len(one)) + one for one in images)
    done = subprocess.run([PROGRAM], input=asked, capture_output=True, check=False)
    if done.returncode != 0:
        sys.exit(f"images: status {done.returncode}: {done.stderr.decode()}")
    lines, at = done.stdout.decode().splitlines(), 0
    for one in images:
        right = told(one)
        if lines[at : at + len(right)] != right:
            sys.exit(f"images: {one.hex()}: it says {lines[at : at + len(right)]}, and not {right}")
        at += len(right)
        seen[re.sub(r"\d+", "N", right[0])] += 1
    if at != len(lines):
        sys.exit(f"images: {len(lines) - at} lines too many")


def main():
    if not os.access(PROGRAM, os.X_OK):
        sys.exit(f"images: there is no {PROGRAM}; run make build")
    count = int(sys.argv[1]) if sys.argv[1:] else COUNT
    dice, seen, versions = random.Random(SEED), Counter(), Counter()
    for first in range(0, count, BATCH):
        images = [made(dice) for _ in range(min(BATCH, count - first))]
        versions.update(map(version_of, images))
        compare([changed(dice, one) if dice.random() < 0.8 else one for one in images], seen)
    made_of = ", ".join(f"{many} of version {version}" for version, many in sorted(versions.items()))
    print(f"images: {made_of}, each as another reading has it: {', '.join(f'{many} {what}' for what, many in seen.most_common())}")


if __name__ == "__main__":
    main()
