"""How the daemon ends, and how long a peer that takes no reply may keep it: cases of tests/daemon."""

import socket
import subprocess
import threading
import time

from running import ASK_BIG, FILES, PATIENCE, check, daemon, read_all, request

CROWD = 64  # peers that never read
END = 2.0  # seconds from -K to the end of the process, beside such a crowd
LOAD = 1.0  # seconds more, where the machine is busy
AT_ONCE = 0.5  # seconds for who is sent away

GROUP_BY_NAME = 2
LONG_MEMBERS = ",".join(f"member{number:06d}" for number in range(240_000)).encode()  # some three million bytes
ASK_LONG = request(GROUP_BY_NAME, b"long\0")


def crowd_of(run, count=CROWD):
    """Peers that ask for a reply that is longer than what the system takes for them, and never read it."""
    check(len(run.ask(ASK_BIG)) > 500_000, "the large reply is short")
    peers = [run.connect() for _ in range(count)]
    for peer in peers:
        peer.sendall(ASK_BIG)
    return peers


def ends_soon():
    times = []
    for threads in ("1", "2", "5"):
        with daemon("-t", threads) as run:
            peers = crowd_of(run)
            began = time.monotonic()
            check(run.command("-K") == (b"", b"", 0), "-K")
            try:
                status = run.process.wait(END + LOAD)
            except subprocess.TimeoutExpired:
                status = "no end"
            times.append(time.monotonic() - began)
            check(status == 0, f"with {threads} workers: {status} after {times[-1]:.1f} s")
            for peer in peers:
                peer.close()
    return f"beside {CROWD} peers that never read it ends {max(times):.2f} s after -K at most, with one, two and five workers"


def closes_first():
    with daemon("-t", "1") as run:
        silent = run.connect()
        peers = crowd_of(run)
        check(run.command("-K") == (b"", b"", 0), "-K")
        began = time.monotonic()
        try:
            late = run.connect(patience=PATIENCE)
            late.sendall(ASK_BIG)
            how = "is sent away" if late.recv(1) == b"" else "is answered"
        except (ConnectionError, FileNotFoundError):
            how = "is refused"
        except TimeoutError:
            how = "waits"
        took = time.monotonic() - began
        check(how not in ("waits", "is answered") and took <= AT_ONCE + LOAD, f"who connects after -K {how}, after {took:.1f} s")
        check(silent.recv(1) == b"", "who was silent at the end gets bytes")
        took = time.monotonic() - began
        check(took <= AT_ONCE + LOAD, f"who was silent stays for {took:.1f} s after -K")
        for peer in peers:
            peer.close()
        return f"who connects after -K {how}, and who was silent is sent away, within {took * 1000:.0f} ms"


def one_stays_free():
    times = []
    for threads in ("1", "2", "3", "5"):
        with daemon("-t", threads) as run:
            peers = crowd_of(run, 8)
            times.append(run.is_well(f"with {threads} workers, beside peers that do not read", 3 * PATIENCE))
            check(times[-1] <= LOAD, f"with {threads} workers a reply beside 8 peers that do not read took {times[-1]:.1f} s")
            for peer in peers:
                peer.close()
    return f"beside 8 peers that do not read a reply takes {max(times):.2f} s at most, with one, two, three and five workers"


def patience():
    """Who begins to read late is waited for, but by no more than all workers but one."""
    with daemon("-t", "2") as run:
        size = len(run.ask(ASK_BIG))
        for which in ("first", "second"):
            with run.connect() as peer:
                peer.sendall(ASK_BIG)
                time.sleep(2)
                run.is_well("beside a late reader")
                check(len(read_all(peer)) == size, f"the {which} late reader gets a part of its reply")
    return "with two workers a peer that begins to read after two seconds gets its whole reply, and so does the next one"


def trickle():
    """Each of this peer's reads makes room for a part of the reply, so no wait of the daemon is in vain."""
    with daemon("-t", "2") as run:
        (run.etc / "group").write_bytes(FILES["group"] + b"long:x:4246:" + LONG_MEMBERS + b"\n")
        size = len(run.ask(ASK_LONG))
        check(size > 3_000_000, f"the long reply has {size} bytes")
        with run.connect() as peer:
            peer.sendall(ASK_LONG)
            began = time.monotonic()
            taken, now = 0, 0
            while part := peer.recv(1 << 15):
                taken += len(part)
                now = time.monotonic() - began
                check(now <= PATIENCE + 2 * LOAD, f"after {now:.1f} s and {taken} bytes it is still sent some")
                time.sleep(0.09)
            check(taken < size, f"it was sent all {size} bytes in {now:.1f} s")
        run.is_well("afterwards")
        return f"a peer that takes 32,768 bytes at a time is sent away after {now:.1f} s"


def orders_without_patience():
    with daemon("-t", "2") as run:
        size = len(run.ask(ASK_BIG))
        with run.connect("admin") as peer:
            peer.sendall(ASK_BIG)
            took = run.is_well("beside an administrator that does not read", 2 * PATIENCE)
            check(took <= LOAD, f"beside an administrator that does not read a reply took {took:.1f} s")
            # It may be served after the other, and has five milliseconds then.
            time.sleep(0.2)
            check(len(read_all(peer)) < size, "who does not read at the socket of the administrator gets all")
        check(run.command("-g")[2] == 0, "-g afterwards")
        return f"beside an administrator that does not read its reply another takes {took * 1000:.1f} ms"


def trickle_to(server, ends):
    """Sends whoever connects a byte every fifth of a second, for longer than an order may take."""
    peer, _ = server.accept()
    with peer:
        while not ends.wait(0.2):
            try:
                peer.send(b"x")
            except OSError:
                return


def slow_daemon():
    """An order to a daemon that answers byte by byte has one time for the whole connection."""
    times = []
    with daemon(started=False) as run:
        run.run.mkdir()
        for words in (("-g",), ("-i", "passwd"), ("-K",)):
            path = run.run / "admin"
            with socket.socket(socket.AF_UNIX) as server:
                server.bind(str(path))
                server.listen()
                ends = threading.Event()
                sender = threading.Thread(target=trickle_to, args=(server, ends))
                sender.start()
                began = time.monotonic()
                try:
                    said = run.command(*words)
                except subprocess.TimeoutExpired:
                    said = "no end"
                times.append(time.monotonic() - began)
                ends.set()
                sender.join()
            path.unlink()
            check(said == (b"", b"nscd: socket failed\n", 8), f"{words}: {said}")
            check(PATIENCE - LOAD <= times[-1] <= PATIENCE + LOAD, f"{words}: {times[-1]:.1f} s")
    return f"an order to a daemon that sends a byte now and then ends with 8 after {max(times):.2f} s at most"


CASES = {
    "slow-daemon": slow_daemon,
    "ends-soon": ends_soon,
    "closes-first": closes_first,
    "one-stays-free": one_stays_free,
    "patience": patience,
    "trickle": trickle,
    "orders-without-patience": orders_without_patience,
}
