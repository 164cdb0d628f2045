"""The frames of a replay as bytes, and runs of the program over them. All numbers are little-endian."""

import os
import subprocess
import sys
import tempfile
from pathlib import Path

ROOT = Path(__file__).resolve().parent.parent.parent
FILES = ["switch", "passwd", "group", "hosts", "services", "extra-passwd", "extra-group", "netgroup"]
DATABASES = ["passwd", "group", "hosts", "services"]
TYPES = {
    "user": 0,
    "uid": 1,
    "group": 2,
    "gid": 3,
    "host": 4,
    "host6": 5,
    "address": 6,
    "address6": 7,
    "addresses": 14,
    "groups-of": 15,
    "service": 16,
    "port": 17,
}
END = b"E"


def number(value, size=4):
    return value.to_bytes(size, "little")


def set_file(name, content):
    """The file becomes this content; None makes it absent."""
    front = b"F" + number(FILES.index(name), 1)
    if content is None:
        return front + b"\0"
    return front + b"\x01" + number(len(content)) + content


def connection(content):
    """The input of one connection."""
    return b"Q" + number(len(content)) + content


def look_up(kind, key):
    """A look-up by a key that is complete: a text key has its zero byte."""
    return connection(number(2) + number(TYPES[kind]) + number(len(key)) + key)


def pass_time(moment):
    return b"T" + number(moment, 8)


def invalidate(database):
    return b"I" + number(DATABASES.index(database), 1)


def program():
    """The built program: the one that NSCD names, or build/nscd."""
    path = Path(os.environ.get("NSCD") or ROOT / "build" / "nscd").absolute()
    if not os.access(path, os.X_OK):
        sys.exit(f"there is no {path}; run make build")
    return str(path)


def replay(program, frames, conf=None):
    """The status, the output and what is said of a replay under the settings of a text, or without any."""
    words = [program, "--replay"]
    with tempfile.NamedTemporaryFile(prefix="nscd-conf-") as file:
        if conf is not None:
            file.write(conf)
            file.flush()
            words += ["-f", file.name]
        done = subprocess.run(words, input=frames, capture_output=True, timeout=60)
    return done.returncode, done.stdout, last_line(done.stderr)


def last_line(text):
    """Why the program ended. A line before it may name the file."""
    return "".join(text.decode(errors="replace").splitlines()[-1:])


def replies(output):
    """The replies of an output, and the bytes behind them that are no whole reply."""
    found = []
    while len(output) >= 4:
        size = int.from_bytes(output[:4], "little")
        if len(output) < 4 + size:
            break
        found.append(output[4 : 4 + size])
        output = output[4 + size :]
    return found, output
