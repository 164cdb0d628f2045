"""Standard error is a pipe that is full and that nobody reads: nobody who serves or ticks may wait for it. Cases of tests/daemon."""

import fcntl
import os
import re
import resource
import subprocess
import time
from contextlib import contextmanager

from running import GROUP_BY_NAME, NO_REPLY, PASSWD_BY_NAME, PROGRAM, SERVICE_BY_NAME, check, daemon, request
from telling import lines_of

HOST_BY_NAME = 4
PAGE = 4096  # bytes that the pipe takes
END = 3.0  # seconds, of which the last lines have one, from -K to the end of the process, and for a start that fails
TICK = 17.0  # seconds in which a tick comes
ASKED = {
    "passwd": (PASSWD_BY_NAME, b"nobody%d\0"),
    "group": (GROUP_BY_NAME, b"nobody%d\0"),
    "hosts": (HOST_BY_NAME, b"nobody%d\0"),
    "services": (SERVICE_BY_NAME, b"nobody%d/tcp\0"),
}
DROPPED = re.compile(r"lines that were not written: (\d+)")


def fill(reader):
    """Fills the pipe that is read here, as its writers would."""
    writer = os.open(f"/proc/self/fd/{reader}", os.O_WRONLY | os.O_NONBLOCK)
    try:
        fcntl.fcntl(writer, fcntl.F_SETPIPE_SZ, PAGE)
        while True:
            os.write(writer, b"." * 63 + b"\n")
    except BlockingIOError:
        pass
    finally:
        os.close(writer)


@contextmanager
def deaf():
    """A daemon whose standard error is full."""
    with daemon("-t", "2") as run:
        run.is_well("before")
        fill(run.process.stderr.fileno())
        yield run


def ask_each(run, number):
    """The replies to a new question about each file."""
    said = {}
    for name, (kind, key) in ASKED.items():
        try:
            said[name] = run.ask(request(kind, key % number), patience=2)
        except TimeoutError:
            said[name] = "no end"
    return said


def complain(run):
    """Makes each file one that cannot be read and then again what it was; how many lines that is."""
    kept = {}
    for name in ASKED:
        path = run.etc / name
        kept[name] = path.read_bytes()
        path.unlink()
        path.symlink_to(name)
    said = ask_each(run, 1)
    check(set(said.values()) == {b""}, f"files that cannot be read, beside a full pipe: {said}")
    for name, text in kept.items():
        (run.etc / name).unlink()
        (run.etc / name).write_bytes(text)
    said = ask_each(run, 2)
    check("no end" not in said.values() and b"" not in said.values(), f"files that can be read again, beside a full pipe: {said}")
    return 2 * len(ASKED)


def want_descriptors(run):
    """Descriptors are wanting for a while, which the thread that accepts tells of."""
    process, before = run.process.pid, run.opened()
    limits = resource.prlimit(process, resource.RLIMIT_NOFILE)
    resource.prlimit(process, resource.RLIMIT_NOFILE, (before + 20, limits[1]))
    peers = [run.connect() for _ in range(200)]
    run.is_well("while descriptors are wanting, beside a full pipe", 2)
    resource.prlimit(process, resource.RLIMIT_NOFILE, limits)
    for peer in peers:
        peer.close()


def ends(run, text):
    began = time.monotonic()
    said = run.command("-K")
    check(said == (b"", b"", 0), f"{text}: -K: {said}")
    try:
        status = run.process.wait(END)
    except subprocess.TimeoutExpired:
        status = "no end"
    took = time.monotonic() - began
    check(status == 0 and took <= END, f"{text}: after -K: {status} after {took:.1f} s")
    return took


def told(lines, wanted):
    """Sees that lines of the daemon were written, or that it was told how many were not."""
    own = [line for line in lines if line.startswith("nscd: ")]
    dropped = [int(match.group(1)) for line in own if (match := DROPPED.search(line))]
    count = len(own) - len(dropped) + sum(dropped)
    check(count >= wanted, f"of {wanted} lines {len(own) - len(dropped)} were written and {sum(dropped)} are told to be dropped: {own}")
    return sum(dropped)


def full_pipe():
    with deaf() as run:
        lines = complain(run)
        want_descriptors(run)
        run.is_well("beside a full pipe")
        # The pipe is read again, so what waited is written.
        dropped = told(lines_of(run), lines + 1)
        fill(run.process.stderr.fileno())
        took = ends(run, "beside a full pipe")
    return f"beside a full pipe lookups go on, {lines + 1} lines are written later, of which {dropped} are told to be dropped; -K ends it after {took:.2f} s"


def full_pipe_at_tick():
    """A tick finds the file that cannot be read."""
    with deaf() as run:
        path = run.etc / "services"
        run.ask(request(SERVICE_BY_NAME, b"http\0"))
        path.unlink()
        path.symlink_to(path.name)
        ends_at = time.monotonic() + TICK
        while time.monotonic() < ends_at:
            try:
                said = run.ask(request(PASSWD_BY_NAME, b"nobody1\0"), patience=2)
            except TimeoutError:
                said = "no end"
            check(said == NO_REPLY, f"a lookup around a tick that tells of a file, beside a full pipe: {said!r}")
            time.sleep(0.1)
        lines = lines_of(run)
        check(any(str(path) in line for line in lines), f"no tick has told of {path}: {lines[-3:]}")
        fill(run.process.stderr.fileno())
        took = ends(run, "after a tick beside a full pipe")
    return f"a tick that tells of a file goes on beside a full pipe; -K ends it after {took:.2f} s"


def full_pipe_at_start():
    """A start that fails, and a start that serves, both with a pipe that is full from the beginning."""
    with daemon() as run:
        reader, writer = os.pipe()
        try:
            fill(reader)
            words = [PROGRAM, "--etc", run.etc, "--run-dir", run.run]
            began = time.monotonic()
            with subprocess.Popen(words, stdout=subprocess.PIPE, stderr=writer) as second:
                try:
                    status = second.wait(END)
                except subprocess.TimeoutExpired:
                    second.kill()
                    status = "no end"
            took = time.monotonic() - began
            check(status == 8, f"a second start beside a full pipe: {status} after {took:.1f} s")
        finally:
            os.close(reader)
            os.close(writer)
        run.is_well("after a second start")
        said = run.second()
        check(len(said[1].splitlines()) == 2, f"a second start whose pipe is read: {said}")
        run.shut_down()
    return f"a start that fails ends with 8 within {took:.2f} s though its pipe is full, and says its lines otherwise"


CASES = {"full-pipe": full_pipe, "full-pipe-at-tick": full_pipe_at_tick, "full-pipe-at-start": full_pipe_at_start}
