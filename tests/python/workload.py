"""Workloads on the built program, against a plain reading of the rules."""

import hashlib
import os
import struct
import subprocess
import sys

ROOT = os.path.dirname(os.path.dirname(os.path.dirname(os.path.abspath(__file__))))
PROGRAM = os.environ.get("NSCD", os.path.join(ROOT, "build", "nscd"))


def reply(user, users):
    """The reply on a user, where there are `users` users."""
    if user >= users:
        return struct.pack("<9i", 2, 0, 0, 0, -1, -1, 0, 0, 0)
    name = f"u{user}"
    texts = [name, "x", "", f"/home/{name}", "/bin/sh"]
    sizes = [len(text) + 1 for text in texts]
    head = struct.pack("<9i", 2, 1, sizes[0], sizes[1], 1000 + user, 100, *sizes[2:])
    return head + b"".join(text.encode() + b"\0" for text in texts)


def lines(number):
    """What the workload of a number writes."""
    replies = [reply(7 * place % (16 * number), 8 * number) for place in range(64 * number)]
    found = sum(one[4] for one in replies)
    digest = hashlib.sha256(b"".join(replies)).hexdigest()
    return f"found {found}\nnot found {len(replies) - found}\nsha256 {digest}\n"


def main(numbers):
    for number in numbers:
        wanted = lines(number)
        for workers in (1, 2, 8):
            words = [PROGRAM, "--workload", str(number), "-t", str(workers)]
            run = subprocess.run(words, stdin=subprocess.DEVNULL, capture_output=True, timeout=120)
            if run.returncode != 0 or run.stdout.decode() != wanted:
                print(f"workload {number} by {workers}: wrong: status {run.returncode}\n{run.stdout.decode()}wanted\n{wanted}")
                return 1
        print(f"workload {number}: ok")
    return 0


if __name__ == "__main__":
    sys.exit(main([int(word) for word in sys.argv[1:]] or [7, 1]))
