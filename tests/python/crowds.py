"""More connections than the daemon may hold: cases of tests/daemon."""

import resource
import signal
import time

from running import ASK_BIG, ASK_ROOT, FILES, NO_REPLY, PASSWD_BY_NAME, PATIENCE, ROOT_REPLY, check, daemon, read_all, request

LOAD = 1.0  # seconds that a busy machine may take
OLD = 5.0  # seconds after which the client of a request has gone
FEW = 64  # descriptors


def ask_for(name):
    return request(PASSWD_BY_NAME, name + b"\0")


def whole_requests():
    count = 2000
    with daemon("-t", "4", descriptors=FEW) as run:
        check(len(run.ask(ASK_BIG)) > 500_000, "the large reply is short")
        peers = []
        for _ in range(count):
            peers.append(run.connect())
            peers[-1].sendall(ASK_BIG)
        times = []
        for turn in range(10):
            times.append(run.is_well(f"beside {count} whole requests"))
            began = time.monotonic()
            said = run.ask(ask_for(b"nobody%d" % turn))
            check(said == NO_REPLY, f"a miss beside {count} whole requests: {len(said)} bytes")
            times.append(time.monotonic() - began)
        for peer in peers:
            peer.close()
        return (
            f"with {FEW} descriptors, beside {count} whole requests whose replies nobody reads, lookups from the cache and from the files"
            f" take {max(times):.2f} s at most"
        )


def old_requests():
    """The process is stopped while requests wait for its one worker, behind peers that do not read."""
    with daemon("-t", "1") as run:
        run.is_well("at first")
        before = [asking(run, ASK_BIG) for _ in range(60)]
        # Names of no user, each asked once: no entry answers.
        peers = [asking(run, request(PASSWD_BY_NAME, b"nobody%d\0" % number)) for number in range(100)]
        # They are taken in while the worker waits for those before them, five milliseconds for each.
        time.sleep(0.1)
        run.process.send_signal(signal.SIGSTOP)
        time.sleep(OLD + 0.5)
        run.process.send_signal(signal.SIGCONT)
        said = [read_all(peer) for peer in peers]
        for peer in before + peers:
            peer.close()
        unanswered = sum(reply == b"" for reply in said)
        check(unanswered > 0, f"all of {len(peers)} requests are answered, {OLD} seconds later")
        run.is_well("afterwards")
        return f"of {len(peers)} requests that waited for {OLD} seconds {unanswered} are closed unanswered, and a new one is answered"


def asking(run, asked):
    """A peer whose request is there as soon as it is."""
    peer = run.connect(patience=3 * PATIENCE)
    peer.sendall(asked)
    return peer


def room_again():
    """Descriptors are wanting for a while, and then there are enough again."""
    with daemon() as run:
        process, before = run.process.pid, run.opened()
        limits = resource.prlimit(process, resource.RLIMIT_NOFILE)
        resource.prlimit(process, resource.RLIMIT_NOFILE, (before + 40, limits[1]))
        peers = [run.connect() for _ in range(300)]
        time.sleep(0.5)
        run.is_well("while descriptors are wanting")
        for turn in range(5):
            check(run.ask(ask_for(b"nobody%d" % turn)) == NO_REPLY, f"while descriptors are wanting: another reply to miss {turn}")
        for peer in peers:
            peer.close()
        resource.prlimit(process, resource.RLIMIT_NOFILE, limits)
        run.is_back_at(before, "after the crowd")
        # Twice as many may wait each second.
        time.sleep(OLD + 3)
        count = 200
        peers = [run.connect() for _ in range(count)]
        time.sleep(1)
        stayed = run.opened() - before
        for peer in peers:
            peer.close()
        check(stayed >= count * 9 // 10, f"once descriptors are there again, {stayed} of {count} silent peers may stay")
        return f"once descriptors are there again, {stayed} of {count} silent peers may stay"


def burst():
    """All come while the process is stopped, so the system tells of them at most once."""
    with daemon() as run:
        run.is_well("at first")
        run.process.send_signal(signal.SIGSTOP)
        peers = [run.connect() for _ in range(20)]
        for peer in peers:
            peer.sendall(ASK_ROOT)
        run.process.send_signal(signal.SIGCONT)
        began = time.monotonic()
        said = [read_all(peer) for peer in peers]
        took = time.monotonic() - began
        for peer in peers:
            peer.close()
        check(said == [ROOT_REPLY] * len(peers), "another reply to one of those that came at once")
        check(took <= LOAD, f"the last of {len(peers)} that came at once is answered after {took:.2f} s")
        return f"of {len(peers)} that came at once the last is answered after {took * 1000:.1f} ms"


def oldest_leave():
    count = 400
    with daemon() as run:
        peers = [run.connect() for _ in range(count)]
        time.sleep(0.5)
        gone = [number for number, peer in enumerate(peers) if is_gone(peer)]
        check(gone == list(range(len(gone))) and gone, f"of {count} silent peers {len(gone)} are sent away, which are not the oldest")
        late = peers[-1]
        late.sendall(ASK_ROOT)
        check(read_all(late) == ROOT_REPLY, "the newest of many silent peers gets another reply")
        for peer in peers:
            peer.close()
        return f"of {count} silent peers the {len(gone)} oldest are sent away, and the newest is answered"


def is_gone(peer):
    """Whether the peer has been told the end by now."""
    peer.setblocking(False)
    try:
        return peer.recv(1) == b""
    except BlockingIOError:
        return False
    except ConnectionResetError:
        return True
    finally:
        peer.settimeout(PATIENCE)


CASES = {
    "whole-requests": whole_requests,
    "old-requests": old_requests,
    "room-again": room_again,
    "burst": burst,
    "oldest-leave": oldest_leave,
}
