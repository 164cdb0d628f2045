"""How the gate writes its answers: together, but not behind a lookup that waits, and no more than a peer may hold: cases of tests/daemon."""

import ctypes
import fcntl
import os
import select
import socket
import struct
import termios
import threading
import time

from gates import ROOT_LINE, gated
from holding import holding
from running import MEMBERS, PATIENCE, check

LINES = 100  # that are sent together
WRITES = 4  # by which their answers may come
ROOM = 16_384  # bytes of answers that are gathered
LONG_MEMBERS = b",".join(b"m%06d" % number for number in range(4000))
LONG_LINE = b"long:x:5000:" + LONG_MEMBERS + b"\n"  # kept, and longer than the room
BIG_LINE = b"big:x:4245:" + MEMBERS + b"\n"  # longer than what is kept
MIDDLE_LINE = b"middle:x:5001:" + LONG_MEMBERS[:3199] + b"\n"
GROUPS = b"root:x:0:\n" + LONG_LINE + MIDDLE_LINE + BIG_LINE
PEERS = 200  # that do not read
UNREAD = 400  # lines of each
MOST_UNREAD = 49_152  # bytes that are left for one of them
PAUSE = 0.0005  # seconds between the parts that a slow reader takes
PIDFD_GETFD = 438
SIOCOUTQ = 0x5411


def in_number(descriptor, what):
    return struct.unpack("i", fcntl.ioctl(descriptor, what, bytes(4)))[0]


def come(peer):
    """How many bytes wait at this peer."""
    return in_number(peer, termios.FIONREAD)


def outgoing(descriptor):
    """The bytes of memory that what was sent and is not read takes."""
    return in_number(descriptor, SIOCOUTQ)


def cost_of_writes(count, size):
    """What as many writes of this size cost that nobody has read."""
    here, there = socket.socketpair()
    with here, there:
        for _ in range(count):
            here.sendall(b"a" * size)
        return outgoing(here)


def outgoing_of(run, descriptors):
    """What is sent and not read of these descriptors of the daemon; None if the system shows no others' sockets."""
    library = ctypes.CDLL(None, use_errno=True)
    try:
        process = os.pidfd_open(run.process.pid)
    except (AttributeError, OSError):
        return None
    total = 0
    try:
        for number in descriptors:
            shared = library.syscall(PIDFD_GETFD, process, number, 0)
            if shared < 0:
                return None
            try:
                total += outgoing(shared)
            except OSError:
                pass
            finally:
                os.close(shared)
    finally:
        os.close(process)
    return total


def sockets(run):
    """The descriptors of the daemon that are sockets."""
    folder, found = f"/proc/{run.process.pid}/fd", set()
    for name in os.listdir(folder):
        try:
            if os.readlink(f"{folder}/{name}").startswith("socket:"):
                found.add(int(name))
        except FileNotFoundError:
            pass
    return found


def waits_for(peer, size, text):
    """Waits until as many bytes have come for this peer, and leaves them there."""
    ends = time.monotonic() + PATIENCE
    while (there := come(peer)) < size:
        check(time.monotonic() < ends, f"{text}: {there} bytes of {size} come")
        time.sleep(0.01)


def taken(peer, size):
    """The next bytes of a connection that goes on."""
    part = bytearray()
    while len(part) < size:
        more = peer.recv(size - len(part))
        check(more != b"", f"the gate closes after {len(part)} bytes of {size}")
        part += more
    return bytes(part)


def gate_together():
    """The memory that unread answers take tells by how many writes they came."""
    with gated("-t", "2") as run:
        check(run.ask() != b"", "no reply")
        before = sockets(run)
        with run.connect("gate") as peer:
            peer.sendall(b"passwd root\n" * LINES)
            waits_for(peer, LINES * len(ROOT_LINE), "together")
            cost = outgoing_of(run, sockets(run) - before)
            check(taken(peer, LINES * len(ROOT_LINE)) == LINES * ROOT_LINE, "other answers")
        if cost is None:
            return "skipped, since the system shows no sockets of others (pidfd_getfd)"
        apart = cost_of_writes(LINES, len(ROOT_LINE))
        most = cost_of_writes(WRITES, LINES * len(ROOT_LINE) // WRITES)
        check(0 < cost <= most, f"{LINES} answers take {cost} bytes, where {WRITES} writes take {most} and {LINES} take {apart}")
        return f"{LINES} answers that entries give come by {WRITES} writes or fewer: unread they take {cost} bytes, and by a write each {apart}"


def gate_beside_held():
    """What entries give is sent before a lookup that waits, also if it is less than the room."""
    with gated("-t", "2") as run:
        held = holding(run.etc / "passwd")
        if held is None:
            return "skipped, since the system cannot hold a read (fanotify)"
        try:
            check(run.ask() != b"", "no reply")
            for count in (1, LINES):
                held.hold()
                with run.connect("gate") as peer:
                    peer.sendall(b"passwd root\n" * count + b"passwd nobody%d\npasswd root\n" % count)
                    waits_for(peer, count * len(ROOT_LINE), "beside a lookup that waits")
                    check(taken(peer, count * len(ROOT_LINE)) == count * ROOT_LINE, "other answers")
                    ends = time.monotonic() + PATIENCE
                    while held.held_since is None:
                        check(time.monotonic() < ends, "no lookup waits for the file")
                        time.sleep(0.01)
                    check(come(peer) == 0, "a lookup that waits is answered")
                    held.let_go()
                    rest = b"not found\n" + ROOT_LINE
                    check(taken(peer, len(rest)) == rest, "other answers after the lookup that waited")
        finally:
            held.close()
        run.shut_down()
        return f"1 and {LINES} answers that entries give come before that of a lookup that waits for its file, and the rest behind it"


def takes_slowly(peer, wanted):
    """Takes the answers by small parts, with a pause behind each."""
    part = bytearray()
    while len(part) < len(wanted):
        more = peer.recv(min(4096, len(wanted) - len(part)))
        check(more != b"", f"to a slow reader: the gate closes after {len(part)} bytes of {len(wanted)}")
        part += more
        time.sleep(PAUSE)
    check(bytes(part) == wanted, "to a slow reader: other answers")


def gate_long_answer():
    """Answers longer than the room, kept and not kept, among short ones, three times in a row in one connection."""
    asked = b"passwd root\n" * 30 + b"group long\n" + b"passwd nobody1\n" * 30 + b"group big\n" + b"group 5000\ngroup root\ngroup middle\n" * 8
    answers = ROOT_LINE * 30 + LONG_LINE + b"not found\n" * 30 + BIG_LINE + (LONG_LINE + b"root:x:0:\n" + MIDDLE_LINE) * 8
    with gated("-t", "2", files={"group": GROUPS}) as run:
        with run.connect("gate") as peer:
            for turn in range(3):
                peer.sendall(asked)
                check(taken(peer, len(answers)) == answers, f"turn {turn}: other answers")
        with run.connect("gate") as peer:
            peer.sendall(asked)
            takes_slowly(peer, answers)
            peer.sendall(b"group root\n")
            check(taken(peer, 10) == b"root:x:0:\n", "after a slow reader: another answer")
        return f"answers of {len(LONG_LINE)} bytes, which are kept, and of {len(BIG_LINE)}, which are not, come whole among short ones, also to a slow reader"


def send_until_full(peer, lines):
    """Sends as much of these lines as the daemon takes for now."""
    peer.setblocking(False)
    try:
        while lines:
            lines = lines[peer.send(lines) :]
    except (BlockingIOError, BrokenPipeError, ConnectionResetError):
        pass
    peer.setblocking(True)


def all_gone(peers):
    """Whether the daemon has let all of them go."""
    told = select.poll()
    for peer in peers:
        told.register(peer, select.POLLRDHUP)
    return len(told.poll(0)) == len(peers)


def left_for(peers):
    """How many bytes are left for each peer, once the daemon has let all of them go."""
    found, lock = [], threading.Lock()

    def reads(peer):
        peer.settimeout(PATIENCE)
        count = 0
        try:
            while part := peer.recv(1 << 16):
                count += len(part)
        except OSError:
            pass
        with lock:
            found.append(count)

    threads = [threading.Thread(target=reads, args=(peer,)) for peer in peers]
    for thread in threads:
        thread.start()
    for thread in threads:
        thread.join()
    return found


def gate_room():
    """Peers that ask for much and read nothing are let go; what they find then is what the system held for them."""
    with gated("-t", "3", files={"group": GROUPS}) as run:
        with run.connect("gate") as peer:
            peer.sendall(b"group middle\n")
            check(taken(peer, len(MIDDLE_LINE)) == MIDDLE_LINE, "another answer")
        before = run.opened()
        peers = [run.connect("gate", 2 * PATIENCE) for _ in range(PEERS)]
        for peer in peers:
            send_until_full(peer, b"group middle\n" * UNREAD)
        ends = time.monotonic() + 4 * PATIENCE
        # Who is not accepted yet has no descriptor of the daemon, and is not let go.
        while (run.opened() > before or not all_gone(peers)) and time.monotonic() < ends:
            time.sleep(0.1)
        check(run.opened() <= before, f"{run.opened() - before} peers that do not read are not let go")
        found = left_for(peers)
        for peer in peers:
            peer.close()
        check(max(found) > 0, "none of them is sent an answer")
        check(max(found) <= MOST_UNREAD, f"{max(found)} bytes are left for one of {PEERS} peers that do not read")
        run.is_well("afterwards")
        return f"for each of {PEERS} peers of the gate that read nothing of {UNREAD * len(MIDDLE_LINE)} bytes at most {max(found)} bytes are held"


CASES = {
    "gate-together": gate_together,
    "gate-beside-held": gate_beside_held,
    "gate-long-answer": gate_long_answer,
    "gate-room": gate_room,
}
