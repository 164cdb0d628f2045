"""Databases of which only found entries are told, and databases that are left to who asks: cases of tests/daemon."""

import os
import socket
import struct

from gates import gated
from running import FILES, GROUP_BY_NAME, NO_REPLY, PASSWD_BY_NAME, PATIENCE, ROOT_REPLY, SERVICE_BY_NAME, Fault, check, daemon, read_all, request

PASSWD_BY_UID, GROUP_BY_GID, HOST_BY_NAME, HOST6_BY_NAME, HOST_BY_ADDRESS, ADDRESSES, GROUPS_OF_USER, SERVICE_BY_PORT = 1, 3, 4, 5, 6, 14, 15, 17
NETGROUP_TYPES = (19, 20)

# Replies by protocol version 2, typed: the fields of four bytes, and the texts behind them.
MAUD_GROUP = struct.pack("<7i", 2, 1, 5, 2, 4243, 1, 5) + b"maud\0x\0maud\0"
NO_GROUP = struct.pack("<6i", 2, 0, 0, 0, -1, 0)

# What is asked: a type and a key; the first half is found in the files of the daemon.
FOUND = {
    "passwd": [(PASSWD_BY_NAME, b"root\0"), (PASSWD_BY_UID, b"0\0")],
    "group": [(GROUP_BY_NAME, b"maud\0"), (GROUP_BY_GID, b"4243\0")],
    "hosts": [(HOST_BY_NAME, b"localhost\0"), (HOST6_BY_NAME, b"ip6-localhost\0"), (HOST_BY_ADDRESS, socket.inet_aton("192.0.2.7"))],
    "services": [(SERVICE_BY_NAME, b"http/tcp\0"), (SERVICE_BY_PORT, b"20480/tcp\0")],
}
ABSENT = {
    "passwd": [(PASSWD_BY_NAME, b"nobody1\0"), (PASSWD_BY_UID, b"77\0")],
    "group": [(GROUP_BY_NAME, b"nobody1\0"), (GROUP_BY_GID, b"77\0")],
    "hosts": [(HOST_BY_NAME, b"nobody1\0"), (HOST6_BY_NAME, b"box2\0"), (HOST_BY_ADDRESS, socket.inet_aton("192.0.2.8"))],
    "services": [(SERVICE_BY_NAME, b"none/tcp\0"), (SERVICE_BY_PORT, b"77/tcp\0")],
}
JOINING = {"passwd": [], "group": [(GROUPS_OF_USER, b"root\0")], "hosts": [(ADDRESSES, b"box\0")], "services": []}


def found_of(reply):
    """The field of a reply that says whether an entry was found."""
    return struct.unpack_from("<i", reply, 4)[0] if len(reply) >= 8 else None


def looks(run, database, scope):
    """Asks all of a database at both sockets, and sees that what may be told is, and nothing else."""
    for again in ("socket", "admin"):
        for asked in FOUND[database]:
            reply = run.ask(request(*asked), again)
            check(found_of(reply) == (None if scope == "left" else 1), f"{database} {scope}: found {asked} at {again}: {reply[:40]!r}")
        for asked in ABSENT[database]:
            reply = run.ask(request(*asked), again)
            check(found_of(reply) == (0 if scope == "whole" else None), f"{database} {scope}: absent {asked} at {again}: {reply[:40]!r}")
        for asked in JOINING[database]:
            reply = run.ask(request(*asked), again)
            check(found_of(reply) == (1 if scope == "whole" else None), f"{database} {scope}: joining {asked} at {again}: {reply[:40]!r}")


def counts(run, database):
    """The counts that are told of a database."""
    text = run.command("-g")[0].decode()
    block = next(part for part in text.split("\n\n") if part.startswith(f"{database} cache:"))
    return {line.rpartition(" ")[0]: line.rpartition(" ")[2] for line in block.splitlines()[1:]}


def scopes_of_all():
    """Each database in each scope, the others whole."""
    tried = 0
    for database in FOUND:
        for option, scope in ((None, "whole"), ("--found-only", "found only"), ("--leave", "left")):
            with daemon(*((option, database) if option else ())) as run:
                for other in FOUND:
                    looks(run, other, scope if other == database else "whole")
                # The bytes are those of a daemon without scopes.
                if database != "passwd":
                    check(run.ask(request(PASSWD_BY_NAME, b"root\0")) == ROOT_REPLY, f"{database} {scope}: another reply for root")
                    check(run.ask(request(PASSWD_BY_NAME, b"nobody1\0")) == NO_REPLY, f"{database} {scope}: another reply for nobody1")
                if database != "group":
                    check(run.ask(request(GROUP_BY_NAME, b"maud\0")) == MAUD_GROUP, f"{database} {scope}: another reply for maud")
                    check(run.ask(request(GROUP_BY_NAME, b"nobody1\0")) == NO_GROUP, f"{database} {scope}: another reply for nobody1")
                for kind in NETGROUP_TYPES:
                    check(run.ask(request(kind, b"admins\0")) == b"", f"{database} {scope}: netgroups: a reply")
                tried += 1
    return f"{tried} daemons tell, in each database, what its scope says"


def lists_together():
    """Both lists at once, with all that they may name."""
    with daemon("--found-only", "group,services", "--leave=netgroup,hosts") as run:
        for database, scope in (("passwd", "whole"), ("group", "found only"), ("hosts", "left"), ("services", "found only")):
            looks(run, database, scope)
        check(run.ask(request(GROUP_BY_NAME, b"maud\0")) == MAUD_GROUP, "another reply for maud")
        # What is looked up is kept and counted: two names each, asked twice.
        told = counts(run, "services")
        wanted = {"hits": "2", "negative hits": "2", "misses": "2", "negative misses": "2", "entries": "4"}
        check({name: told[name] for name in wanted} == wanted, f"services: other counts: {told}")
        told = counts(run, "hosts")
        check(all(told[name] == "0" for name in ("hits", "negative hits", "misses", "negative misses", "entries")), f"hosts: counts: {told}")
    return "two lists together: what is found is told, kept and counted; what is left is neither"


def unreadable():
    """Files of a database that is left are not read: a folder, a link to itself or a FIFO in their place ends no start."""
    for make, left in (("folder", "passwd,services"), ("loop", "passwd,services"), ("fifo", "passwd,services"), ("folder", "passwd,group,hosts")):
        with daemon("--leave", left, started=False) as run:
            (run.etc / "extrausers").mkdir()
            for name in [*left.split(","), *(f"extrausers/{name}" for name in left.split(",") if name in ("passwd", "group"))]:
                path = run.etc / name
                path.unlink(missing_ok=True)
                if make == "folder":
                    path.mkdir()
                elif make == "loop":
                    path.symlink_to(path.name)
                else:
                    os.mkfifo(path)
            run.start()
            for name in FOUND:
                looks(run, name, "left" if name in left.split(",") else "whole")
            check(run.command("-i", "passwd")[2] == 0, f"{make}: an invalidation fails")
            check(run.command("-K")[2] == 0 and run.process.wait(PATIENCE) == 0, f"{make}: another status")
            check(run.process.stderr.read() == b"", f"{make}: a line")
    return "a folder, a link to itself and a FIFO in the place of files of databases that are left end no start, and are told of to nobody"


def at_the_gate():
    """The gate answers what the files say, whatever is left."""
    with gated("--leave", "passwd", "--found-only", "group") as run:
        with run.connect("gate") as peer:
            peer.sendall(b"passwd root\npasswd nobody1\ngroup nobody1\ngroup maud\n")
            peer.shutdown(socket.SHUT_WR)
            said = read_all(peer)
        wanted = FILES["passwd"].splitlines()[0] + b"\nnot found\nnot found\nmaud:x:4243:maud\n"
        check(said == wanted, f"the gate says {said!r}")
        looks(run, "passwd", "left")
        looks(run, "group", "found only")
    return "the gate answers from the files of databases that are left, and says of each what is not found"


def gate_reads():
    """With a gate the files of a database that is left are read."""
    with daemon("--leave", "passwd", started=False) as run:
        path = run.etc / "passwd"
        path.unlink()
        path.mkdir()
        run.words = (*run.words, "--gate", run.run / "gate")
        try:
            run.start()
        except Fault:
            check(run.process.wait(PATIENCE) == 7, f"it ends with {run.process.returncode}")
            return "with a gate a folder in the place of a file of a database that is left ends the start"
        raise Fault("it starts")


CASES = {
    "scopes": scopes_of_all,
    "scopes-together": lists_together,
    "scopes-unread": unreadable,
    "scopes-gate": at_the_gate,
    "scopes-gate-reads": gate_reads,
}
