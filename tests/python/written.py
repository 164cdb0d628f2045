"""A source file that is read while it is written in place: cases of tests/daemon."""

import subprocess
import sys
from contextlib import contextmanager

from running import FILES, NO_REPLY, PASSWD_BY_NAME, check, daemon, request

FRONT = 8 << 20  # bytes that stand still, so that a read takes milliseconds
PIECES, USERS = 300, 300  # the rest, by pieces and by users
LOOKUPS, AFTERWARDS = 40, 5
TORN = 20  # lookups whose read may fall between two pieces wholly
ROUNDS = 6  # in which a busy machine may let the writer stand still for longer

# Cuts the rest of a file off and writes it anew by small pieces, and then lets it stand a while, without an end.
WRITER = """
import sys, time
path, front, pieces = sys.argv[1], int(sys.argv[2]), int(sys.argv[3])
with open(path, "r+b", buffering=0) as file:
    file.seek(front)
    rest = file.read()
    size = -(-len(rest) // pieces)
    print("ready", flush=True)
    while True:
        file.truncate(front)
        file.seek(front)
        for at in range(0, len(rest), size):
            file.write(rest[at : at + size])
            time.sleep(0.0002)
        time.sleep(0.06)
"""


def user(number):
    return b"torn%d:x:%d:100:::/bin/sh\n" % (number, 20_000 + number)


@contextmanager
def writing(path, front):
    words = [sys.executable, "-c", WRITER, path, str(front), str(PIECES)]
    with subprocess.Popen(words, stdout=subprocess.PIPE) as process:
        try:
            process.stdout.readline()
            yield
        finally:
            process.kill()


def ask_while_written():
    """Asks for users at the end of a long file while it is written. How many are found, closed unanswered and not found."""
    with daemon("-t", "2") as run:
        path = run.etc / "passwd"
        front = FILES["passwd"] + (b"#" * 127 + b"\n") * (FRONT // 128)
        whole = front + b"".join(user(number) for number in range(USERS))
        path.write_bytes(whole)
        found = closed = torn = 0
        with writing(path, len(front)):
            for number in range(USERS - LOOKUPS, USERS):
                said = run.ask(request(PASSWD_BY_NAME, b"torn%d\0" % number))
                if said == NO_REPLY:
                    torn += 1
                elif said == b"":
                    closed += 1
                else:
                    check(b"torn%d\0x\0" % number in said, f"torn{number}: {said!r}")
                    found += 1
        path.write_bytes(whole)
        for number in range(AFTERWARDS):
            said = run.ask(request(PASSWD_BY_NAME, b"torn%d\0" % number))
            check(b"torn%d\0x\0" % number in said, f"once the file stands still: torn{number}: {said!r}")
        return found, closed, torn


def written_in_place():
    """Each user is found, or the lookup is closed unanswered, but where the writer stood still for the whole read."""
    seen = []
    while len(seen) < ROUNDS and (not seen or seen[-1][2] > TORN):
        seen.append(ask_while_written())
    found, closed, torn = seen[-1]
    check(torn <= TORN, f"of {LOOKUPS} users in a file that is written in place these are found, unanswered and not found: {seen}")
    check(found, f"of {LOOKUPS} users in a file that is written in place none is found")
    return f"of {LOOKUPS} users in a file that is written in place {found} are found, {closed} lookups are closed unanswered, and {torn} find a torn file"


CASES = {"written-in-place": written_in_place}
