"""The folder of the sockets: whose it may be, and who gets it. Cases of tests/daemon."""

import os
import socket
import subprocess

from running import PATIENCE, PROGRAM, ROOT_REPLY, check, check_refused, daemon

NOBODY = 65534


def refused(run, folder, why):
    """Sees that a start in this folder is refused, and leaves no socket there."""
    check_refused(run.second(folder), why)
    check(not any((folder / name).is_socket() for name in os.listdir(folder)), f"{why}: {os.listdir(folder)} are left")


def folders_of_others():
    with daemon(started=False) as run:
        tried = 0
        for mode in (0o777, 0o775, 0o757, 0o1777):
            run.run.mkdir()
            run.run.chmod(mode)
            refused(run, run.run, f"a folder of mode {mode:o}")
            run.run.rmdir()
            tried += 1
        if os.geteuid() == 0:
            run.run.mkdir()
            os.chown(run.run, NOBODY, NOBODY)
            refused(run, run.run, "a folder of another user")
            run.run.rmdir()
            tried += 1
        run.run.mkdir(mode=0o700)
        run.start()
        run.is_well("in a folder of its own")
        run.shut_down()
        return f"{tried} folders that others may write or own are refused, and nothing is left in them"


def starts(run, count):
    """Processes that start all at once: each shell waits for the end of its input, and then becomes the program."""
    waits, ends = os.pipe()
    words = ["sh", "-c", 'read end; exec "$@"', "sh", PROGRAM, "--etc", run.etc, "--run-dir", run.run]
    begun = [subprocess.Popen(words, stdin=waits, stdout=subprocess.PIPE, stderr=subprocess.PIPE) for _ in range(count)]
    os.close(waits)
    os.close(ends)
    return begun


def one_serves(run, begun):
    # One that is not ready has ended, so this waits for nobody.
    served = [process for process in begun if process.stdout.readline() == b"nscd: ready\n"]
    check(len(served) == 1, f"of {len(begun)} starts at once {len(served)} serve")
    check(run.ask() == ROOT_REPLY, "the one that serves: another reply")
    modes = [os.stat(run.run / name).st_mode & 0o777 for name in ("socket", "admin")]
    check(modes == [0o666, 0o600], f"modes {list(map(oct, modes))}")
    check(run.command("-K") == (b"", b"", 0), "-K")
    check(served[0].wait(PATIENCE) == 0, "-K ends another one")
    check(all(process.wait(PATIENCE) == 8 for process in begun if process is not served[0]), "another status")


def at_once():
    rounds, count = 20, 8
    with daemon(started=False) as run:
        for _ in range(rounds):
            begun = starts(run, count)
            try:
                one_serves(run, begun)
            finally:
                for process in begun:
                    process.kill()
                    process.communicate()
        return f"of {count} starts at once one serves, and its sockets have their names, {rounds} times"


def held():
    """The names of the sockets are taken away, as an installation does that puts them into another place."""
    with daemon() as run:
        away = run.folder / "away"
        away.mkdir()
        for name in ("socket", "admin"):
            os.rename(run.run / name, away / name)
        refused(run, run.run, "beside a daemon whose sockets have other names")
        for name in ("socket", "admin"):
            os.rename(away / name, run.run / name)
        run.is_well("beside a second one")
        run.shut_down()
        run.start()
        run.is_well("a later start")
        return "a second start in the folder of a daemon is refused, whatever names its sockets have, and a later one is not"


def nothing_left():
    with daemon(started=False) as run:
        run.run.mkdir()
        (run.run / "admin").mkdir()
        refused(run, run.run, "a folder where the second socket is to stand")
        (run.run / "admin").rmdir()
        with open("/dev/full", "wb") as full:
            words = [PROGRAM, "--etc", run.etc, "--run-dir", run.run]
            done = subprocess.run(words, stdout=full, stderr=subprocess.PIPE, timeout=PATIENCE, check=False)
        check((done.stderr, done.returncode) == (b"nscd: output failed\n", 4), f"a full output: {done.stderr!r}, {done.returncode}")
        left = [name for name in os.listdir(run.run) if (run.run / name).is_socket()]
        check(not left, f"a full output: {left} are left")
        run.start()
        run.is_well("after starts that failed")
        return "a start whose second socket cannot stand, or whose output is full, leaves no socket"


def somebody_there():
    """A socket of another kind stands there, to which nobody can connect."""
    with daemon(started=False) as run:
        run.run.mkdir()
        with socket.socket(socket.AF_UNIX, socket.SOCK_DGRAM) as other:
            other.bind(str(run.run / "socket"))
            check_refused(run.second(), "beside a socket of another kind")
            with socket.socket(socket.AF_UNIX, socket.SOCK_DGRAM) as asker:
                asker.connect(str(run.run / "socket"))
        return "a socket at which a connect fails, but for want of somebody, is left alone"


def broken_off():
    """What a start that was killed while it made its first socket has left."""
    with daemon(started=False) as run:
        (run.run / ".new").mkdir(parents=True)
        with socket.socket(socket.AF_UNIX) as other:
            other.bind(str(run.run / ".new" / "s"))
        run.start()
        run.is_well("after a start that was broken off")
        check(not (run.run / ".new").exists(), "the folder in which sockets are made is left")
        return "what a start that was broken off has left harms no later one"


def linked():
    """A link in the place of a socket, as the user of a daemon could put one for root to follow."""
    with daemon() as run:
        away = run.folder / "away"
        away.mkdir()
        (away / "admin").symlink_to(run.run / "admin")
        for words in (("-g",), ("-i", "passwd"), ("-K",)):
            done = subprocess.run([PROGRAM, *words, "--run-dir", away], capture_output=True, timeout=2 * PATIENCE, check=False)
            said = (done.stdout, done.stderr, done.returncode)
            check(said == (b"", b"nscd: socket failed\n", 8), f"{words} at a link: {said}")
        run.is_well("after orders at a link")
        run.shut_down()
        return "an order follows no link to the socket of another daemon"


CASES = {
    "folders-of-others": folders_of_others,
    "at-once": at_once,
    "held": held,
    "nothing-left": nothing_left,
    "somebody-there": somebody_there,
    "broken-off": broken_off,
    "linked": linked,
}
