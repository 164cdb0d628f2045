"""Starts the program as a daemon over a folder of files, and looks at what its peers see.

Each case has a daemon of its own, and ends with a sentence of what it showed. With the names of cases only those are tried.
"""

import os
import random
import resource
import signal
import socket
import stat
import struct
import subprocess
import sys
import time

sys.dont_write_bytecode = True
import afterorders
import badimages
import besideorders
import crowds
import ending
import folders
import gates
import gateturns
import gone
import inplace
import invented
import kept
import keptcounts
import lines
import lingering
import parts
import propagating
import reloading
import scarce
import scopes
import sources
import starts
import telling
import tokens
import torn
import unread
import waking
import written
from clients import real_clients
from running import (
    ASK_BIG, ASK_ROOT, FILES, GETSTAT, INVALIDATE, NO_REPLY, PASSWD_BY_NAME, PATIENCE, PROGRAM, ROOT_REPLY, SHUTDOWN,
    Fault, check, check_refused, daemon, is_sent_away, read_all, request,
)  # fmt: skip

STAY = 5.0  # seconds after which a peer without a whole request is sent away
PROMPT = 0.05  # seconds for a good request beside silent peers
DESCRIPTORS = 3000  # of this process and of a daemon


def milliseconds(seconds):
    return f"{seconds * 1000:.2f} ms"


def lookups():
    with daemon() as run:
        check(run.ask(request(PASSWD_BY_NAME, b"nobody1\0")) == NO_REPLY, "nobody1: another reply")
        middle, longest = run.takes("again", 200)
        run.shut_down()
        return f"a reply takes {milliseconds(middle)}, and {milliseconds(longest)} at most; -K ends it with status 0"


def places():
    with daemon() as run:
        modes = [stat.S_IMODE(os.stat(path).st_mode) for path in (run.run, run.run / "socket", run.run / "admin")]
        check(modes == [0o755, 0o666, 0o600], f"modes {list(map(oct, modes))}")
        run.shut_down()
        run.start()
        run.is_well("a second start")
        return "its folder has mode 755, the sockets 666 and 600; a later start takes the place over"


def orders():
    with daemon() as run:
        run.is_well("before")
        text, _, status = run.command("-g")
        check(status == 0 and text.startswith(b"passwd cache:\nenabled yes\n"), f"-g: {text!r}, {status}")
        (run.etc / "passwd").write_bytes(FILES["passwd"].replace(b"/bin/bash", b"/bin/dash"))
        run.is_well("from the cache")
        check(run.command("-i", "passwd") == (b"", b"", 0), "-i passwd")
        check(run.ask() == ROOT_REPLY.replace(b"/bin/bash", b"/bin/dash"), "after -i passwd: not what the file holds now")
        check(b"\ninvalidations 1\n" in run.command("-g")[0], "-i passwd is not counted")
        (run.etc / "passwd").write_bytes(FILES["passwd"])
        check(run.command("-i", "passwd") == (b"", b"", 0), "-i passwd again")
        for kind in (SHUTDOWN, GETSTAT, INVALIDATE):
            check(run.ask(request(kind, b"passwd\0")) == b"", f"an order on the socket of everyone: {kind}")
        run.is_well("after refused orders")
        run.shut_down()
        said = run.command("-K")
        check(said == (b"", b"nscd: socket failed\n", 8), f"-K where none runs: {said}")
        return (
            "-g and -i do what they say, and only on the socket of the administrator; after -i a lookup reads the file again;"
            " -K where none runs ends with status 8"
        )


def second_start():
    with daemon() as run:
        check_refused(run.second(), "the second one")
        run.is_well("beside a second one")
        check(run.command("-i", "group") == (b"", b"", 0), "-i beside a second one")
        run.shut_down()
        return "a second start says 'nscd: socket failed', status 8, and the first one goes on"


def no_folder():
    with daemon() as run:
        run.shut_down()
        check_refused(run.second(run.etc / "passwd" / "run"), "in a file")
        closed = run.folder / "closed"
        closed.mkdir(mode=0o555)
        how = {"user": 65534, "group": 65534, "extra_groups": []} if os.geteuid() == 0 else {}
        try:
            said = run.second(closed, **how)
        except PermissionError:
            return "a folder that cannot be made: status 8; not tried as a user who may not write, who may not run the program"
        check_refused(said, "in a folder that cannot be written")
        return "in a folder that cannot be made or written it says 'nscd: socket failed', status 8"


def killed():
    with daemon() as run:
        run.is_well("before")
        run.process.send_signal(signal.SIGKILL)
        run.process.wait()
        check((run.run / "socket").is_socket(), "a kill leaves no socket")
        check(run.command("-g") == (b"", b"nscd: socket failed\n", 8), "-g after a kill")
        run.start()
        run.is_well("after a kill")
        run.shut_down()
        return "after kill -9 a new start replaces the sockets that stand"


def silent_peers():
    count = 1000
    with daemon() as run:
        before = run.opened()
        began = time.monotonic()
        peers = [run.connect(patience=STAY + 4) for _ in range(count)]
        middle, longest = run.takes(f"beside {count} silent peers")
        check(middle <= PROMPT, f"beside {count} silent peers a reply takes {milliseconds(middle)}")
        check(all(map(is_sent_away, peers)), "a silent peer gets bytes")
        took = time.monotonic() - began
        check(took <= STAY + 3, f"silent peers stay for {took:.1f} s")
        for peer in peers:
            peer.close()
        run.is_back_at(before, "after silent peers")
        run.is_well("after silent peers")
        return (
            f"beside {count} silent peers a reply takes {milliseconds(middle)}, and {milliseconds(longest)} at most;"
            f" all of them are sent away within {took:.1f} s"
        )


def slow_writers():
    with daemon() as run:
        peers = [run.connect(patience=STAY + 4) for _ in range(32)]
        began = time.monotonic()
        times = []
        for at in range(4):
            for peer in peers:
                peer.send(ASK_ROOT[at : at + 1])
            time.sleep(1)
            times.append(run.is_well("beside peers of a byte a second"))
        check(all(map(is_sent_away, peers)), "a peer of a byte a second gets bytes")
        took = time.monotonic() - began
        check(took <= STAY + 3, f"peers of a byte a second stay for {took:.1f} s")
        peer = run.connect()
        for byte in ASK_ROOT:
            peer.send(bytes([byte]))
            time.sleep(0.02)
        check(read_all(peer) == ROOT_REPLY, "a request byte by byte: another reply")
        return (
            f"beside 32 peers of a byte a second a reply takes {milliseconds(max(times))} at most;"
            f" they are sent away within {took:.1f} s; a request whose bytes come 20 ms apart is answered"
        )


def never_read():
    with daemon("-t", "3") as run:
        before = run.opened()
        began = time.monotonic()
        size = len(run.ask(ASK_BIG))
        alone = time.monotonic() - began
        check(size > 500_000, f"the large reply has {size} bytes")
        peers = [run.connect() for _ in range(64)]
        for peer in peers:
            peer.sendall(ASK_BIG)
        # Two of the three workers may wait for such a peer for their whole patience; the third one goes on.
        took = run.is_well("beside peers that do not read", 2 * PATIENCE)
        check(took <= PATIENCE + len(peers) * alone, f"beside peers that do not read a reply took {took:.1f} s")
        later = run.is_well("beside peers that still do not read")
        for peer in peers:
            peer.close()
        check(len(run.ask(ASK_BIG, patience=2 * PATIENCE)) == size, "a large reply afterwards")
        run.is_back_at(before, "after peers that do not read")
        return (
            f"behind 64 peers that never read their {size} bytes a reply comes after {took:.2f} s,"
            f" the next one after {milliseconds(later)}, with three workers"
        )


def half_closed():
    with daemon() as run:
        for part, want in ((ASK_ROOT, ROOT_REPLY), (ASK_ROOT[:-1], b""), (ASK_ROOT[:5], b""), (b"", b"")):
            with run.connect(patience=1) as peer:
                peer.sendall(part)
                peer.shutdown(socket.SHUT_WR)
                check(read_all(peer) == want, f"{len(part)} bytes and the end: another reply")
        return "a peer that sends no more is answered, and one whose request is a part of one is sent away at once"


def lying_headers():
    with daemon() as run:
        for length in (-1, 1025, 2**31 - 1, -(2**31)):
            check(run.ask(request(PASSWD_BY_NAME, b"root\0", length), patience=1) == b"", f"a key of {length} bytes: a reply")
        for bad in (struct.pack("<3i", 1, 0, 5) + b"root\0", request(22, b"root\0"), request(11, b"passwd\0")):
            check(run.ask(bad, patience=1) == b"", f"{bad!r}: a reply")
        with run.connect(patience=STAY + 2) as peer:
            peer.sendall(request(PASSWD_BY_NAME, b"root\0", 1000))
            check(peer.recv(1) == b"", "a key that is shorter than told: a reply")
        run.is_well("after headers that lie")
        return "a header with a length out of range is refused at once, and one that tells too much after its time"


def random_bytes():
    dice = random.Random(7)
    with daemon() as run:
        before = run.opened()
        sent = 0
        while sent < 1_000_000:
            part = dice.randbytes(dice.randrange(1, 4000))
            sent += len(part)
            with run.connect() as peer:
                try:
                    peer.sendall(part)
                except (BrokenPipeError, ConnectionResetError):
                    pass
        run.is_well("after random bytes")
        with run.connect() as peer:
            try:
                peer.sendall(dice.randbytes(1_000_000))
            except (BrokenPipeError, ConnectionResetError, TimeoutError):
                pass
        run.is_well("after random bytes in one connection")
        run.is_back_at(before, "after random bytes")
        return "a million random bytes in many connections, and as many in one, harm nothing"


def gone_peers():
    with daemon() as run:
        before = run.opened()
        for part in (ASK_ROOT, ASK_BIG, ASK_ROOT[:7], b""):
            for _ in range(50):
                with run.connect() as peer:
                    peer.sendall(part)
        run.is_well("after peers that are gone")
        run.is_back_at(before, "after peers that are gone")
        return "200 peers that close before their reply leave no descriptor open"


def few_descriptors():
    with daemon(descriptors=64) as run:
        peers = [run.connect() for _ in range(300)]
        middle, longest = run.takes("with 64 descriptors")
        for name in (b"maud\0", b"nobody1\0"):
            check(run.ask(request(PASSWD_BY_NAME, name)) != b"", f"with 64 descriptors: no reply for {name!r}")
        for peer in peers:
            peer.close()
        run.is_well("afterwards")
        run.shut_down()
        return (
            f"with 64 descriptors and 300 silent peers it reads its files and answers,"
            f" in {milliseconds(middle)}, and {milliseconds(longest)} at most"
        )


def idle():
    with daemon() as run:
        run.is_well("before")
        before = run.ticks()
        time.sleep(3)
        took = (run.ticks() - before) * 1000 // os.sysconf("SC_CLK_TCK")
        check(took <= 60, f"it works for {took} ms while nobody asks")
        return f"idle for three seconds it takes {took} ms of the processor"


CASES = {
    "lookups": lookups,
    "places": places,
    "orders": orders,
    "second-start": second_start,
    "no-folder": no_folder,
    "killed": killed,
    "real-clients": real_clients,
    "silent-peers": silent_peers,
    "slow-writers": slow_writers,
    "never-read": never_read,
    "half-closed": half_closed,
    "lying-headers": lying_headers,
    "random-bytes": random_bytes,
    "gone-peers": gone_peers,
    "few-descriptors": few_descriptors,
    "idle": idle,
    **ending.CASES,
    **crowds.CASES,
    **folders.CASES,
    **gates.CASES,
    **gateturns.CASES,
    **gone.CASES,
    **inplace.CASES,
    **afterorders.CASES,
    **besideorders.CASES,
    **parts.CASES,
    **reloading.CASES,
    **waking.CASES,
    **scopes.CASES,
    **sources.CASES,
    **starts.CASES,
    **telling.CASES,
    **tokens.CASES,
    **unread.CASES,
    **written.CASES,
    **kept.CASES,
    **keptcounts.CASES,
    **propagating.CASES,
    **lines.CASES,
    **lingering.CASES,
    **badimages.CASES,
    **torn.CASES,
    **scarce.CASES,
}
# Longer forms, which are tried only by name.
LONG_CASES = {**afterorders.LONG_CASES, **inplace.LONG_CASES, **invented.LONG_CASES, **tokens.LONG_CASES, **lingering.LONG_CASES, **waking.LONG_CASES}


def main(names):
    if not os.access(PROGRAM, os.X_OK):
        sys.exit(f"daemon: there is no {PROGRAM}; run make build")
    cases = {**CASES, **LONG_CASES}
    unknown = [name for name in names if name not in cases]
    if unknown:
        sys.exit(f"daemon: no case {unknown[0]}; there are {', '.join(cases)}")
    most = resource.getrlimit(resource.RLIMIT_NOFILE)[1]
    if most != resource.RLIM_INFINITY and most < DESCRIPTORS:
        print(f"daemon: skipped, since a process may have only {most} descriptors")
        return
    resource.setrlimit(resource.RLIMIT_NOFILE, (DESCRIPTORS, most))
    faults = 0
    for name in names or CASES:
        try:
            print(f"daemon: {name}: {cases[name]()}", flush=True)
        except (Fault, OSError, subprocess.TimeoutExpired) as fault:
            faults += 1
            print(f"daemon: {name}: FAULT: {fault!r}", file=sys.stderr)
    print(f"daemon: {len(names or CASES)} cases, {faults} faults")
    sys.exit(1 if faults else 0)


if __name__ == "__main__":
    main(sys.argv[1:])
