"""Processes that ask a daemon without rest, each in a connection of its own for each request, and note how long the replies take.

As a program: askers.py SOCKET, with lines on standard input: SECONDS, the request and the reply in hexadecimal digits. An empty reply is any. In
a request this part `NUMBER####` is a number, another one each time. It writes the seconds of each reply as doubles.
"""

import array
import os
import socket
import subprocess
import sys
import time
from contextlib import contextmanager
from pathlib import Path

PATIENCE = 5.0  # seconds for a reply
MARK = b"NUMBER####"


def asked_once(path, request):
    """The bytes that answer a request; None if the daemon has no room for the connection."""
    with socket.socket(socket.AF_UNIX) as peer:
        peer.settimeout(PATIENCE)
        try:
            peer.connect(path)
        except BlockingIOError:
            return None
        peer.sendall(request)
        taken = b""
        while part := peer.recv(1 << 16):
            taken += part
        return taken



def main():
    path = sys.argv[1]
    seconds = float(sys.stdin.readline())
    request, wanted = (bytes.fromhex(sys.stdin.readline()) for _ in range(2))
    times, number = array.array("d"), os.getpid() % 1000 * 10_000_000
    ends = time.monotonic() + seconds
    while (began := time.monotonic()) < ends:
        number += 1
        said = asked_once(path, request.replace(MARK, b"%010d" % number))
        if said is None:
            time.sleep(0.001)
            continue
        if wanted and said != wanted:
            sys.exit(f"another reply: {said[:80]!r}")
        times.append(time.monotonic() - began)
    sys.stdout.buffer.write(times.tobytes())


class Askers:
    """Processes that were started, and what they tell once they end."""

    def __init__(self, processes):
        self.processes = processes

    def times(self):
        """The seconds that each reply took, of all of them. A reply that is another one is an error."""
        found = array.array("d")
        for process in self.processes:
            told, said = process.communicate()
            if process.returncode != 0:
                raise OSError(f"a process that asks ended with {process.returncode}: {said.decode(errors='replace').strip()[-300:]}")
            found.frombytes(told)
        return sorted(found)


@contextmanager
def asking(run, count, seconds, request, reply=b""):
    """`count` processes, which ask the daemon for `seconds` seconds."""
    words = [sys.executable, "-B", Path(__file__).resolve(), run.run / "socket"]
    pipes = {"stdin": subprocess.PIPE, "stdout": subprocess.PIPE, "stderr": subprocess.PIPE}
    made = [subprocess.Popen(words, **pipes) for _ in range(count)]
    try:
        for process in made:
            process.stdin.write(b"%f\n%s\n%s\n" % (seconds, request.hex().encode(), reply.hex().encode()))
            process.stdin.flush()
        yield Askers(made)
    finally:
        for process in made:
            if process.poll() is None:
                process.kill()
            process.wait()
            for pipe in (process.stdin, process.stdout, process.stderr):
                pipe.close()


def share(times, part):
    """The time that this part of all was not longer than."""
    return times[min(len(times) - 1, int(part * len(times)))]


if __name__ == "__main__":
    main()
