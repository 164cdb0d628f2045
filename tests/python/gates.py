"""Lines at the gate of a daemon, and peers there that are silent, slow, endless or deaf: cases of tests/daemon."""

import random
import signal
import socket
import threading
import time
from contextlib import contextmanager

import frames
import gate
import seeded
from contents import NAMES, Maker
from running import ASK_BIG, FILES, PATIENCE, ROOT_REPLY, check, daemon, is_sent_away, read_all, request

STAY = 5.0  # seconds of silence after which a connection is closed
PROMPT = 0.05  # seconds for a good request or line beside hostile peers
ROOT_LINE = b"root:x:0:0:root:/root:/bin/bash\n"
LONGEST = 1100  # bytes of a line

# Addresses of IPv6 by their eight groups, with the texts that they must have by RFC 5952, 4: no zero at the front of a group, `::` for the
# longest run of zeros and for the first of two, lower case.
PRINTED = [
    ("0000:0000:0000:0000:0000:0000:0000:0000", "::"),
    ("2001:0DB8:0000:0000:0001:0000:0000:0001", "2001:db8::1:0:0:1"),
    ("2001:0DB8:0000:0001:0001:0001:0001:0001", "2001:db8:0:1:1:1:1:1"),
    ("2001:0000:0000:0001:0000:0000:0000:0001", "2001:0:0:1::1"),
    ("0000:0000:0000:0000:0000:FFFF:C000:0280", "::ffff:c000:280"),
    ("0000:0001:0002:0003:0004:0005:0006:0007", "0:1:2:3:4:5:6:7"),
    ("0000:0000:0003:0004:0005:0006:0007:0008", "::3:4:5:6:7:8"),
    ("0001:0002:0003:0004:0005:0006:0000:0000", "1:2:3:4:5:6::"),
    ("0001:0000:0002:0000:0003:0000:0004:0000", "1:0:2:0:3:0:4:0"),
    ("000A:00B0:0C00:D000:0000:0000:0000:0000", "a:b0:c00:d000::"),
    ("0000:0000:0000:0000:0000:0000:0D01:4403", "::d01:4403"),
]

# Lines, typed with the answers that they must have.
WORKED_FILES = {
    "passwd": b"root:x:0:0:root:/root:/bin/bash\n",
    "group": b"adm:x:4:syslog,ann\nstaff:x:50:\nusers:x:100:ann\n",
    "hosts": b"10.0.0.1 alpha a1\n10.0.0.2 alpha\nfd00::1 alpha # six\n::1 localhost\nfd00::2 beta\n10.0.0.9\n192.0.2.235 dotted\n"
    + b"".join(b"%s printed%d\n" % (groups.encode(), n) for n, (groups, _) in enumerate(PRINTED)),
    "services": b"ssh 22/tcp\ndomain 53/udp nameserver dns\n7 99/tcp\n",
}
WORKED = [
    (b"passwd root", ROOT_LINE),
    (b"hosts ::1", b"::1 localhost\n"),
    (b"services 22/tcp", b"ssh 22/tcp\n"),
    (b"passwd nobody1", b"not found\n"),
    (b"shadow root", b"bad line\n"),
    (b"passwd 0", ROOT_LINE),
    (b"passwd 00", ROOT_LINE),
    (b"passwd 4294967296", b"not found\n"),
    (b"group adm", b"adm:x:4:syslog,ann\n"),
    (b"group 50", b"staff:x:50:\n"),
    (b"hosts alpha", b"10.0.0.1 alpha a1\n"),
    (b"hosts ALPHA", b"10.0.0.1 alpha a1\n"),
    (b"hosts beta", b"fd00::2 beta\n"),
    (b"hosts FD00:0:0:0:0:0:0:1", b"fd00::1 alpha\n"),
    (b"hosts 10.0.0.2", b"10.0.0.2 alpha\n"),
    (b"hosts 10.0.0.9", b"not found\n"),
    (b"hosts dotted", b"192.0.2.235 dotted\n"),
    *((b"hosts printed%d" % n, b"%s printed%d\n" % (text.encode(), n)) for n, (_, text) in enumerate(PRINTED)),
    (b"services 22", b"ssh 22/tcp\n"),
    (b"services ssh", b"ssh 22/tcp\n"),
    (b"services ssh/udp", b"not found\n"),
    (b"services dns/udp", b"domain 53/udp nameserver dns\n"),
    (b"services 65536", b"not found\n"),
    (b"", b"bad line\n"),
    (b"passwd", b"bad line\n"),
    (b"passwd ", b"bad line\n"),
    (b" passwd root", b"bad line\n"),
    (b"passwd  root", b"bad line\n"),
    (b"passwd root ", b"bad line\n"),
    (b"passwd\troot", b"bad line\n"),
    (b"Passwd root", b"bad line\n"),
    (b"passwd " + b"a" * 1024, b"not found\n"),
    (b"passwd " + b"a" * 1025, b"bad line\n"),
    (b"a" * LONGEST, b"bad line\n"),
]


@contextmanager
def gated(*words, files=None, **options):
    """A daemon with a gate beside its sockets."""
    with daemon(*words, started=False, **options) as run:
        for name, text in (files or {}).items():
            (run.etc / name).write_bytes(text)
        run.words = (*run.words, "--gate", run.run / "gate")
        run.start()
        yield run


def told(run, sent, patience=PATIENCE):
    """All that the gate answers to these bytes and then the end."""
    with run.connect("gate", patience) as peer:
        peer.sendall(sent)
        peer.shutdown(socket.SHUT_WR)
        return read_all(peer)


def line_of(peer):
    """The next line that the peer is sent."""
    taken = bytearray()
    while not taken.endswith(b"\n"):
        part = peer.recv(1 << 16)
        check(part != b"", f"the gate closes after {bytes(taken)!r}")
        taken += part
    return bytes(taken)


def asks_a_line(run, peer, text):
    """The seconds that a good line takes at a connection that goes on."""
    began = time.monotonic()
    peer.sendall(b"passwd root\n")
    check(line_of(peer) == ROOT_LINE, f"{text}: another answer")
    return time.monotonic() - began


def are_prompt(run, text, count=50):
    """Sees that good requests and good lines are answered soon, and gives the middle and the longest of their times."""
    times = [run.is_well(text) for _ in range(count)]
    with run.connect("gate") as peer:
        lines = [asks_a_line(run, peer, text) for _ in range(count)]
    for what, taken in (("request", times), ("line", lines)):
        middle = sorted(taken)[count // 2]
        check(middle <= PROMPT, f"{text} a {what} takes {middle * 1000:.1f} ms")
    both = sorted(times + lines)
    return f"{both[count] * 1000:.2f} ms, and {both[-1] * 1000:.1f} ms at most"


def gate_lines():
    with gated(files=WORKED_FILES) as run:
        check((run.run / "gate").stat().st_mode & 0o777 == 0o666, "the mode of the gate")
        for line, wanted in WORKED:
            said = told(run, line + b"\n")
            check(said == wanted, f"{line[:40]!r}: {said!r}")
        for turn in range(2):
            said = told(run, b"".join(line + b"\n" for line, _ in WORKED))
            check(said == b"".join(wanted for _, wanted in WORKED), f"all in one connection, turn {turn}: {said!r}")
        check(told(run, b"passwd root") == ROOT_LINE, "a last line without its newline")
        check(told(run, b"passwd root\npasswd ") == ROOT_LINE + b"bad line\n", "a last line that is a part")
        check(told(run, b"") == b"", "no line")
        with run.connect("gate") as peer:
            for line, wanted in WORKED:
                for byte in line[:20]:
                    peer.sendall(bytes([byte]))
                peer.sendall(line[20:] + b"\n")
                check(line_of(peer) == wanted, f"{line[:40]!r} byte by byte: another answer")
        check(told(run, b"a" * (LONGEST + 1), patience=1) == b"", "a line that is too long: an answer")
        with run.connect("gate", 1) as peer:
            peer.sendall(b"passwd root\n" + b"a" * (LONGEST + 1) + b"\npasswd root\n")
            check(line_of(peer) == ROOT_LINE and is_sent_away(peer), "after a line that is too long the connection goes on")
        check(run.ask(b"passwd root\n", patience=STAY + 2) == b"", "a line at the socket of requests: an answer")
        check(told(run, request(0, b"root\0")) == b"bad line\n", "a request at the gate: another answer than to a bad line")
        run.shut_down()
        check(not (run.run / "gate").exists(), "the gate is left after the end")
        return f"{len(WORKED)} lines have the answers that are typed for them, one by one, together, byte by byte; a longer line closes"


def another_folder():
    with daemon(started=False) as run:
        run.words = ("--gate", run.folder / "gates" / "gate")
        run.start()
        with run.connect("../../gates/gate") as peer:
            asks_a_line(run, peer, "in another folder")
        run.shut_down()
        open_to_all = run.folder / "open"
        open_to_all.mkdir()
        open_to_all.chmod(0o777)
        run.words = ("--gate", open_to_all / "gate")
        try:
            run.start()
        except Exception:
            pass
        check(run.process.wait(PATIENCE) == 8, "a gate in a folder that others may write")
        return "a gate may stand in a folder of its own, but in none that others may write"


def seeded_lines():
    """Lines at random over files at random, beside what the other socket says to the same questions."""
    count, dice = 0, random.Random(11)
    kinds = {}
    for seed in range(10):
        maker = Maker(seed)
        files = {name: maker.file(name) for name in ("switch", *frames.DATABASES)}
        files["nsswitch.conf"] = files.pop("switch")
        with gated(files=files) as run:
            lines = [some_line(maker, dice) for _ in range(500)]
            said = told(run, b"".join(line + b"\n" for line in lines), 2 * PATIENCE).splitlines(keepends=True)
            check(len(said) == len(lines), f"seed {seed}: {len(said)} answers to {len(lines)} lines")
            for line, came in zip(lines, said):
                wanted = gate.answer(line, lambda kind, key: run.ask(as_request(kind, key)))
                check(came == wanted, f"seed {seed}: {line!r}: {came!r}, and not {wanted!r}")
                what = came.decode("latin1").strip() if came in (b"bad line\n", b"not found\n") else "found"
                kinds[what] = kinds.get(what, 0) + 1
            count += len(lines)
    check(count >= 5000 and len(kinds) == 3 and min(kinds.values()) > count // 20, f"{kinds}")
    return f"{count} lines at random say what the other socket says: " + ", ".join(f"{number} {what}" for what, number in kinds.items())


def as_request(kind, key):
    return request(frames.TYPES[kind], key if kind.startswith("address") else key + b"\0")


def some_line(maker, dice):
    """A line of which most are good."""
    name, number = dice.choice(NAMES).encode(), dice.randint(0, 13)
    key = dice.choice(
        [
            name,
            name,
            name.swapcase(),
            b"%d" % number,
            b"0%d" % number,
            b"10.0.0.%d" % number,
            b"fd00::%x" % number,
            b"FD00:0:0:0:0:0:0:%d" % (number % 10),
            b"::ffff:10.0.0.%d" % number,
            b"10.0.0.0%d" % number,
            name + b"/tcp",
            name + b"/tcp/x",
            b"%d/tcp" % number,
            b"%d/udp" % number,
            b"65535/tcp",
            b"4294967296",
            b"/",
        ]
    )
    line = dice.choice([b"passwd", b"group", b"hosts", b"services"]) + b" " + key
    if dice.random() < 0.1:
        at = dice.randrange(len(line) + 1)
        line = line[:at] + dice.choice([b" ", b"\t", b"x", b"\0", b"\r", b"#"]) + line[at:]
    return line


def silent_gates():
    count = 1000
    with gated() as run:
        before = run.opened()
        began = time.monotonic()
        peers = [run.connect("gate", STAY + 4) for _ in range(count)]
        took = are_prompt(run, f"beside {count} silent peers of the gate")
        check(all(map(is_sent_away, peers)), "a silent peer of the gate gets bytes")
        stayed = time.monotonic() - began
        check(stayed <= STAY + 4, f"silent peers of the gate stay for {stayed:.1f} s")
        for peer in peers:
            peer.close()
        run.is_back_at(before, "after silent peers of the gate")
        return f"beside {count} silent peers of the gate requests and lines take {took}; they are sent away within {stayed:.1f} s"


def slow_gates():
    """Each sends a line now and then, and then the beginning of one byte by byte."""
    with gated() as run:
        peers = [run.connect("gate", STAY + 4) for _ in range(100)]
        for turn in range(3):
            for peer in peers:
                asks_a_line(run, peer, "a line now and then")
            time.sleep(1)
        began = time.monotonic()
        times = []
        for at in range(4):
            for peer in peers:
                peer.sendall(b"passwd root"[at : at + 1])
            times.append(are_prompt(run, "beside peers of the gate of a byte a second"))
            time.sleep(1)
        check(all(map(is_sent_away, peers)), "a peer of the gate of a byte a second gets bytes")
        took = time.monotonic() - began
        check(took <= STAY + 4, f"peers of the gate of a byte a second stay for {took:.1f} s")
        for peer in peers:
            peer.close()
        return f"100 connections stay open between lines; beside bytes a second apart requests and lines take {times[-1]}"


def endless_gates():
    with gated() as run:
        before = run.opened()
        ended = threading.Event()
        lines = [0]

        def endless():
            while not ended.is_set():
                try:
                    with run.connect("gate") as peer:
                        while not ended.is_set():
                            peer.sendall(b"a" * 4096)
                except OSError:
                    lines[0] += 1

        threads = [threading.Thread(target=endless) for _ in range(4)]
        for thread in threads:
            thread.start()
        try:
            took = are_prompt(run, "beside lines without an end")
        finally:
            ended.set()
            for thread in threads:
                thread.join()
        check(lines[0] > 4, "no line without an end is cut off")
        run.is_back_at(before, "after lines without an end")
        return f"beside lines without an end, of which {lines[0]} are cut off, requests and lines take {took}"


def busy_gates():
    """More peers than there are workers send lines without a pause, and read what they are sent."""
    with gated("-t", "3") as run:
        ended = threading.Event()
        answered = [0] * 4

        def sends(peer):
            try:
                while not ended.is_set():
                    peer.sendall(b"passwd root\npasswd nobody1\n" * 100)
            except OSError:
                pass

        def reads(peer, place):
            try:
                while part := peer.recv(1 << 16):
                    answered[place] += part.count(b"\n")
            except OSError:
                pass

        peers = [run.connect("gate") for _ in answered]
        threads = [threading.Thread(target=sends, args=(peer,)) for peer in peers]
        threads += [threading.Thread(target=reads, args=(peer, place)) for place, peer in enumerate(peers)]
        for thread in threads:
            thread.start()
        try:
            took = are_prompt(run, "beside lines without a pause")
        finally:
            ended.set()
            for peer in peers:
                peer.shutdown(socket.SHUT_RDWR)
            for thread in threads:
                thread.join()
        check(min(answered) > 0, f"of {len(answered)} busy peers one is not answered")
        return f"beside {len(answered)} peers that send lines without a pause, of which each is answered, requests and lines take {took}"


def unread_gates():
    with gated("-t", "3") as run:
        before = run.opened()
        peers = [run.connect("gate", 2 * PATIENCE) for _ in range(64)]
        for peer in peers:
            peer.setblocking(False)
            try:
                while True:
                    peer.send(b"passwd root\npasswd nobody1\n" * 100)
            except BlockingIOError:
                pass
        took = are_prompt(run, "beside peers of the gate that never read")
        time.sleep(PATIENCE + 2)
        for peer in peers:
            peer.close()
        run.is_back_at(before, "after peers of the gate that never read")
        run.is_well("afterwards")
        return f"beside {len(peers)} peers of the gate that never read requests and lines take {took}"


def old_lines():
    """The process is stopped while lines wait for its one worker, behind peers that do not read."""
    with gated("-t", "1") as run:
        before = [run.connect() for _ in range(200)]
        for peer in before:
            peer.sendall(ASK_BIG)
        peers = [run.connect("gate", 3 * PATIENCE) for _ in range(20)]
        for peer in peers:
            peer.sendall(b"passwd root\n")
        # They are taken in while the worker waits for those before them, five milliseconds for each.
        time.sleep(0.1)
        run.process.send_signal(signal.SIGSTOP)
        time.sleep(STAY + 0.5)
        run.process.send_signal(signal.SIGCONT)
        said = [peer.recv(1 << 16) for peer in peers]
        check(set(said) <= {b"", ROOT_LINE} and b"" in said, f"{STAY} seconds later: {said}")
        for peer in before + peers:
            peer.close()
        run.is_well("afterwards")
        return f"of {len(peers)} connections whose lines waited for {STAY} seconds {said.count(b'')} are closed unanswered"


def gate_by_one():
    """One worker alone serves the gate and requests."""
    with gated("-t", "1") as run:
        peers = [run.connect("gate") for _ in range(20)]
        for _ in range(10):
            for peer in peers:
                asks_a_line(run, peer, "by one worker")
            run.is_well("by one worker")
        took = are_prompt(run, "by one worker")
        return f"one worker serves 20 connections of the gate in turn; requests and lines take {took}"


CASES = {
    "gate-lines": gate_lines,
    "another-folder": another_folder,
    "seeded-lines": seeded_lines,
    "silent-gates": silent_gates,
    "slow-gates": slow_gates,
    "endless-gates": endless_gates,
    "busy-gates": busy_gates,
    "unread-gates": unread_gates,
    "old-lines": old_lines,
    "gate-by-one": gate_by_one,
}
