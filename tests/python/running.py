"""The program run as a daemon over a folder of files, and what its peers send and are sent."""

import os
import resource
import shutil
import socket
import struct
import subprocess
import tempfile
import threading
import time
from contextlib import contextmanager
from pathlib import Path

ROOT = Path(__file__).resolve().parent.parent.parent
PROGRAM = Path(os.environ.get("NSCD", ROOT / "build" / "nscd")).resolve()
PATIENCE = 5.0  # seconds: a client of the C library waits so long for a reply
LATE = 60.0  # seconds after which a start that says nothing is given up

MEMBERS = ",".join(f"member{number:06d}" for number in range(32000)).encode()
FILES = {
    "passwd": b"root:x:0:0:root:/root:/bin/bash\nmaud:x:4242:4243:Maud:/home/maud:/bin/sh\n",
    # The C library puts a user's own group first without a daemon, and last with one that does not tell it; here it does.
    "group": b"root:x:0:\nmaud:x:4243:maud\nfriends:x:4244:root,maud\nbig:x:4245:" + MEMBERS + b"\n",
    "hosts": b"127.0.0.1 localhost\n::1 ip6-localhost\n192.0.2.7 box.example box\n2001:db8::7 box.example box\n",
    "services": b"http 80/tcp www\ndomain 53/udp\n",
    "nsswitch.conf": b"passwd: files\ngroup: files\nhosts: files\nservices: files\n",
}

PASSWD_BY_NAME, GROUP_BY_NAME, SERVICE_BY_NAME = 0, 2, 16
SHUTDOWN, GETSTAT, INVALIDATE = 8, 9, 10
ROOT_REPLY = struct.pack("<9i", 2, 1, 5, 2, 0, 0, 5, 6, 10) + b"root\0x\0root\0/root\0/bin/bash\0"
NO_REPLY = struct.pack("<9i", 2, 0, 0, 0, -1, -1, 0, 0, 0)


class Fault(Exception):
    """What a case found wrong."""


def check(holds, text):
    if not holds:
        raise Fault(text)


def request(kind, key, length=None):
    """A request; with a length given its header tells that one."""
    return struct.pack("<3i", 2, kind, len(key) if length is None else length) + key


ASK_ROOT = request(PASSWD_BY_NAME, b"root\0")
ASK_BIG = request(GROUP_BY_NAME, b"big\0")


def check_refused(said, text):
    """Sees that a start, which wrote this and ended so, was refused for its sockets."""
    output, lines, status = said
    check(output == b"" and lines.endswith(b"nscd: socket failed\n") and status == 8, f"{text}: {said}")


def read_all(peer):
    taken = bytearray()
    while part := peer.recv(1 << 20):
        taken += part
    return bytes(taken)


def is_sent_away(peer):
    """Whether the peer is told the end, or that it was cut off, before its patience ends."""
    try:
        return peer.recv(1) == b""
    except ConnectionResetError:
        return True


def connected(path, patience):
    """A connection whose calls have a timeout of `patience` seconds, also to wait for room in the queue of the listening socket.

    A connect with a timeout does not wait for that room by itself, as one without does: it fails with EAGAIN."""
    peer = socket.socket(socket.AF_UNIX)
    peer.settimeout(patience)
    ends = time.monotonic() + patience
    while True:
        try:
            peer.connect(str(path))
            return peer
        except BlockingIOError:
            if time.monotonic() > ends:
                peer.close()
                raise
        except OSError:
            peer.close()
            raise
        time.sleep(0.001)


class Daemon:
    """A running daemon, with the folder of its files and the folder of its sockets."""

    def __init__(self, *words, descriptors=None, program=PROGRAM):
        self.program = program
        self.folder = Path(tempfile.mkdtemp(prefix="nscd-daemon-"))
        self.folder.chmod(0o755)
        self.etc, self.run = self.folder / "etc", self.folder / "run" / "nscd"
        self.etc.mkdir()
        self.run.parent.mkdir()
        for name, text in FILES.items():
            (self.etc / name).write_bytes(text)
        self.words, self.descriptors = words, descriptors
        self.process = None

    def start(self, **how):
        def limit():
            # The modes of what it makes do not hang on this.
            os.umask(0o077)
            if self.descriptors:
                most = resource.getrlimit(resource.RLIMIT_NOFILE)[1]
                resource.setrlimit(resource.RLIMIT_NOFILE, (self.descriptors, most))

        self.process = subprocess.Popen(
            [self.program, "--etc", self.etc, "--run-dir", self.run, *self.words],
            stdout=subprocess.PIPE,
            stderr=subprocess.PIPE,
            preexec_fn=limit,
            **how,
        )
        # One that neither says a word nor ends is killed, and so begins with nothing.
        late = threading.Timer(LATE, self.process.kill)
        late.start()
        line = self.process.stdout.readline()
        late.cancel()
        check(line == b"nscd: ready\n", f"it begins with {line!r}")

    def second(self, run_dir=None, **how):
        """What a further start says, and its status. Where it is not ended by itself, that is a fault."""
        words = [self.program, "--etc", self.etc, "--run-dir", run_dir or self.run]
        done = subprocess.run(words, capture_output=True, timeout=PATIENCE, check=False, **how)
        return done.stdout, done.stderr, done.returncode

    def command(self, *words):
        """What a client command says, and its status."""
        done = subprocess.run([self.program, *words, "--run-dir", self.run], capture_output=True, timeout=2 * PATIENCE, check=False)
        return done.stdout, done.stderr, done.returncode

    def connect(self, name="socket", patience=PATIENCE):
        return connected(self.run / name, patience)

    def ask(self, bytes_sent=ASK_ROOT, name="socket", patience=PATIENCE):
        """All that the daemon sends for these bytes, up to the end of the connection."""
        with self.connect(name, patience) as peer:
            peer.sendall(bytes_sent)
            return read_all(peer)

    def is_well(self, text, patience=PATIENCE):
        """Looks at the reply to a good request, and gives the seconds that it took."""
        began = time.monotonic()
        check(self.ask(patience=patience) == ROOT_REPLY, f"{text}: another reply")
        return time.monotonic() - began

    def takes(self, text, count=50):
        """The middle and the longest time of as many good requests, in seconds."""
        times = sorted(self.is_well(text) for _ in range(count))
        return times[count // 2], times[-1]

    def opened(self):
        return len(os.listdir(f"/proc/{self.process.pid}/fd"))

    def is_back_at(self, before, text):
        """Sees that the connections of peers that are gone are closed within their time."""
        ends = time.monotonic() + PATIENCE + 2
        while self.opened() > before and time.monotonic() < ends:
            time.sleep(0.05)
        check(self.opened() <= before, f"{text}: {self.opened() - before} descriptors are left")

    def ticks(self):
        """The processor time that it took, in clock ticks."""
        fields = Path(f"/proc/{self.process.pid}/stat").read_text().rsplit(")", 1)[1].split()
        return int(fields[11]) + int(fields[12])

    def shut_down(self):
        said = self.command("-K")
        check(said == (b"", b"", 0), f"-K: {said}")
        check(self.process.wait(PATIENCE) == 0, f"it ended with {self.process.returncode}")
        check(self.process.stderr.read() == b"", "it complained")

    def remove(self):
        if self.process is not None:
            if self.process.poll() is None:
                self.process.kill()
                self.process.wait()
            self.process.stdout.close()
            self.process.stderr.close()
        shutil.rmtree(self.folder)


@contextmanager
def daemon(*words, started=True, **options):
    made = Daemon(*words, **options)
    try:
        if started:
            made.start()
        yield made
    finally:
        made.remove()
