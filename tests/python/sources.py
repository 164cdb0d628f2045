"""Source files that change under the daemon's hands: cases of tests/daemon."""

import os
import struct
import subprocess
import sys
from contextlib import contextmanager

from running import FILES, NO_REPLY, PASSWD_BY_NAME, check, daemon, request

# Makes a link to one file and then to the other stand at a path, as fast as it can.
EXCHANGE = """
import os, sys
path, *targets = sys.argv[1:]
while True:
    for target in targets:
        os.symlink(target, path + ".next")
        os.replace(path + ".next", path)
"""


@contextmanager
def exchanging(path, *targets):
    process = subprocess.Popen([sys.executable, "-c", EXCHANGE, path, *targets])
    try:
        yield
    finally:
        process.kill()
        process.wait()


def exchanged_file():
    """A terminal, whose reads wait for ever, takes the place of a file again and again, also between two looks at it."""
    count, answered = 40_000, 0
    with daemon("-t", "2") as run:
        real = run.folder / "passwd"
        real.write_bytes(FILES["passwd"])
        ours, theirs = os.openpty()
        try:
            with exchanging(run.etc / "passwd", real, os.ttyname(theirs)):
                for number in range(count):
                    # A reply, or none, but within the client's time.
                    said = run.ask(request(PASSWD_BY_NAME, b"nobody%d\0" % number))
                    check(said in (b"", NO_REPLY), f"request {number}: another reply")
                    answered += said != b""
        finally:
            os.close(ours)
            os.close(theirs)
        return f"of {count} lookups in a file that a terminal exchanges places with, {answered} are answered and the others sent away"


def user_reply(name, uid, shell):
    """The reply of the protocol for a user of group 100 without a comment."""
    texts = [text + b"\0" for text in (name, b"x", b"", b"/home/" + name, shell)]
    lengths = list(map(len, texts))
    return struct.pack("<4i2I3i", 2, 1, lengths[0], lengths[1], uid, 100, *lengths[2:]) + b"".join(texts)


def changes():
    """A file of several parts, of which each change is seen by the next user that is asked for the first time."""
    with daemon() as run:
        shells = {number: b"/bin/sh" for number in range(3000)}
        passwd = run.etc / "passwd"

        def write():
            passwd.write_bytes(b"".join(b"u%d:x:%d:100::/home/u%d:%s\n" % (number, 1000 + number, number, shell) for number, shell in shells.items()))

        def asks(number, what):
            wanted = user_reply(b"u%d" % number, 1000 + number, shells[number]) if number in shells and passwd.exists() else NO_REPLY
            check(run.ask(request(PASSWD_BY_NAME, b"u%d\0" % number)) == wanted, f"{what}: another reply for u{number}")

        write()
        asks(0, "at first")
        asks(1, "unchanged")
        shells[2999] = b"/bin/sx"
        write()
        asks(2999, "the last line, as long as before")
        shells[1500] = b"/bin/sx"
        write()
        asks(1500, "a line in the middle, as long as before")
        shells[3000] = b"/bin/sx"
        write()
        asks(3000, "a line more")
        del shells[2998], shells[3000]
        write()
        asks(2998, "two lines fewer")
        passwd.unlink()
        asks(2997, "no file")
        asks(2996, "still no file")
        write()
        asks(2995, "the file again")
        passwd.write_bytes(b"")
        asks_none = run.ask(request(PASSWD_BY_NAME, b"u2994\0"))
        check(asks_none == NO_REPLY, "an empty file: another reply for u2994")
        run.shut_down()
        return "each change of a long file is seen by the next lookup: in place, longer, shorter, absent, empty"


CASES = {"changes": changes, "exchanged-file": exchanged_file}
