"""Starts that cannot serve, each of which says which path is wrong and why: cases of tests/daemon."""

import os
import resource
import socket
import subprocess
import time

from running import ASK_BIG, FILES, PATIENCE, PROGRAM, Fault, check, daemon

OTHER = 65534  # a user who is neither root nor anyone here
LONGEST = 107  # bytes of a socket's path
FEW = 20  # descriptors
WAITING = 4096  # connections that may wait, however many descriptors there are
BESIDE = 700  # others that the daemon may have open then
OURS = 15_000  # descriptors of this process and of that daemon
SENT = 7000
TAKEN, SETTLED = 0.8, 2.0  # seconds until all are accepted, and until those that are too many are closed


class Start:
    """A start over a folder of files that has not been started yet."""

    def __init__(self, run):
        self.run, self.words, self.how = run, [], {}
        self.gate = run.folder / "gate"

    def as_other(self):
        """From now on it starts as another user, whose is the folder of the sockets then."""
        if os.geteuid() != 0:
            return
        self.how = {"user": OTHER, "group": OTHER, "extra_groups": []}
        os.chown(self.run.run, OTHER, OTHER)

    def said(self):
        """What it says, and its status. One that is ready, or says nothing, is killed."""
        words = [PROGRAM, "--etc", self.run.etc, "--run-dir", self.run.run, *self.words]
        with subprocess.Popen(words, stdout=subprocess.PIPE, stderr=subprocess.PIPE, **self.how) as process:
            try:
                output, lines = process.communicate(timeout=2)
            except subprocess.TimeoutExpired:
                process.kill()
                output, lines = process.communicate()
                return output, lines.decode().splitlines(), "no end"
        return output, lines.decode().splitlines(), process.returncode


def gate_at(length):
    def made(start):
        path = f"{start.run.folder}/{'g' * (length - 1 - len(str(start.run.folder)))}"
        start.words += ["--gate", path]
        return path

    return made


def own_socket(name):
    def made(start):
        path = start.run.run / name
        start.words += ["--gate", path]
        return path

    return made


def lock_as(makes):
    def made(start):
        path = start.run.run / "lock"
        makes(path)
        return path

    return made


def few_descriptors(start):
    start.words += ["-t", "64"]
    start.how["preexec_fn"] = lambda: resource.setrlimit(resource.RLIMIT_NOFILE, (FEW, FEW))
    return "descriptor"


def new_in_the_way(is_folder):
    def made(start):
        path = start.run.run / ".new"
        if is_folder:
            path.mkdir()
            (path / "file").write_bytes(b"")
        else:
            path.write_bytes(b"")
        return path

    return made


def file_as(name, makes):
    """A file of the daemon, in whose place this makes something else."""

    def made(start):
        path = start.run.etc / name
        path.unlink(missing_ok=True)
        makes(path)
        return path

    return made


def unreadable(name):
    def made(start):
        path = start.run.etc / name
        path.write_bytes(FILES.get(name, b""))
        path.chmod(0)
        start.as_other()
        return path

    return made


def link_to_nothing(path):
    path.symlink_to(path.with_name("elsewhere"))


STARTS = {
    "a gate of 108 bytes": (8, gate_at(LONGEST + 1)),
    "a gate of 120 bytes": (8, gate_at(120)),
    "a gate at the socket's place": (8, own_socket("socket")),
    "a gate at the administrator's place": (8, own_socket("admin")),
    "a gate at the socket's place, in other words": (8, own_socket("../nscd/socket")),
    "a lock that is a FIFO": (8, lock_as(os.mkfifo)),
    "a lock that is a link": (8, lock_as(link_to_nothing)),
    "a lock that is a folder": (8, lock_as(os.mkdir)),
    "20 descriptors for 64 workers": (8, few_descriptors),
    "a file .new": (8, new_in_the_way(False)),
    "a folder .new with a file": (8, new_in_the_way(True)),
    "nscd.conf as a folder": (7, file_as("nscd.conf", os.mkdir)),
    "nscd.conf as a FIFO": (7, file_as("nscd.conf", os.mkfifo)),
    "nscd.conf that may not be read": (7, unreadable("nscd.conf")),
    "passwd as a folder": (7, file_as("passwd", os.mkdir)),
    "passwd as a FIFO": (7, file_as("passwd", os.mkfifo)),
    "passwd that may not be read": (7, unreadable("passwd")),
    "services as a folder": (7, file_as("services", os.mkdir)),
    "nsswitch.conf as a folder": (7, file_as("nsswitch.conf", os.mkdir)),
}
LAST = {7: "nscd: source file failed", 8: "nscd: socket failed"}


def sockets_in(folder):
    return [path.name for path in folder.iterdir() if path.is_socket()]


def refused(text, status, makes):
    with daemon(started=False) as run:
        run.run.mkdir()
        start = Start(run)
        path = makes(start)
        try:
            output, lines, ended = start.said()
        except PermissionError:
            return f"{text}: not tried as a user who may not run the program"
        left = sockets_in(run.run) + sockets_in(run.folder)
        check((output, ended) == (b"", status), f"{text}: status {ended}, output {output!r}, and it says {lines}")
        check(len(lines) == 2 and lines[1] == LAST[status], f"{text}: it says {lines}")
        front, found, cause = lines[0].partition(str(path))
        check(found and cause.strip(": "), f"{text}: {lines[0]} does not name {path} and the cause")
        check(not left, f"{text}: {left} are left")
        return lines[0]


def starts_refused():
    """All that are wrong are told."""
    faults = []
    for text, (status, makes) in STARTS.items():
        try:
            refused(text, status, makes)
        except Fault as fault:
            faults.append(str(fault))
    check(not faults, "; ".join(faults))
    with daemon(started=False) as run:
        start = Start(run)
        run.words = ("--gate", gate_at(LONGEST)(start))
        run.start()
        with socket.socket(socket.AF_UNIX) as peer:
            peer.connect(run.words[1])
        run.shut_down()
    return f"{len(STARTS)} starts that cannot serve end with 7 or 8, and name the path and the cause; a gate's path of {LONGEST} bytes is taken"


def send_all(run):
    """Peers that ask for a reply that they do not read. One that is sent away before it has asked is one all the same."""
    peers = []
    for _ in range(SENT):
        peers.append(run.connect())
        try:
            peers[-1].sendall(ASK_BIG)
        except (BrokenPipeError, ConnectionResetError):
            pass
    return peers


def most_waiting():
    """More whole requests come than may wait, while the one worker is kept from them."""
    soft, most = resource.getrlimit(resource.RLIMIT_NOFILE)
    if most != resource.RLIM_INFINITY and most < OURS:
        return f"skipped, since a process may have only {most} descriptors"
    resource.setrlimit(resource.RLIMIT_NOFILE, (OURS, most))
    peers = []
    try:
        with daemon("-t", "1", descriptors=OURS) as run:
            before = run.opened()
            peers = send_all(run)
            ends = time.monotonic() + SETTLED
            time.sleep(TAKEN)
            least = run.opened() - before
            while least > WAITING + BESIDE and time.monotonic() < ends:
                time.sleep(0.05)
                least = min(least, run.opened() - before)
            check(least <= WAITING + BESIDE, f"of {SENT} connections {least} wait, with {OURS} descriptors")
            for peer in peers:
                peer.close()
            run.is_well("after the most that may wait", 2 * PATIENCE)
            return f"with {OURS} descriptors {least} of {SENT} connections wait for their one worker, and afterwards a new one is answered"
    finally:
        for peer in peers:
            peer.close()
        resource.setrlimit(resource.RLIMIT_NOFILE, (soft, most))


CASES = {"starts-refused": starts_refused, "most-waiting": most_waiting}
