"""Starts beside a daemon that runs, and how the C library reads the names of nsswitch.conf."""

import os
import re
import shutil
import signal
import stat
import subprocess
import time

from frames import ROOT
from judged import NOT_RUNNING, all_of, says
from places import a_program, folder, installed
from running import ROOT_REPLY, check
from serving import FILES_ALONE, asked, served
from keeping import NOBODY

# ---- names of nsswitch.conf

# What a file of one line has before its list, and whether the C library reads it as a line of passwd.
NAMES = (
    ("passwd:", True),
    (" \tpasswd:", True),
    ("passwd :", True),
    ("\vpasswd:", True),
    ("\fpasswd:", True),
    ("\rpasswd:", True),
    ("passwd\f:", True),
    ("passwd\v:", True),
    ("passwd\r:", True),
    ("pass wd:", False),
    ("pass\vwd:", False),
    ("passwd2:", False),
    (":passwd:", False),
    ("\u00a0passwd:", False),
)
SERVICE = "zzz"  # that nobody has


def by_library(switch):
    """Whether the C library asks the service for a user under this nsswitch.conf; None if that may not be tried."""
    script = 'mount --bind "$1" /etc/nsswitch.conf || exit 77; LD_DEBUG=files getent passwd nosuch 2>&1; exit 0'
    words = ["unshare", "--mount", "sh", "-c", script, "sh", switch]
    done = subprocess.run(words, capture_output=True, timeout=20, check=False)
    return f"libnss_{SERVICE}.so".encode() in done.stdout if done.returncode == 0 else None


def names_case():
    with folder() as top:
        etc = top / "files"
        etc.mkdir()
        serve = installed(top, a_program(top), ("\netc=/etc\n", f"\netc={etc}\n"))
        switch, tried = etc / "nsswitch.conf", 0
        can_try = os.geteuid() == 0 and all(shutil.which(word) for word in ("unshare", "mount", "getent"))
        for name, is_passwd in NAMES:
            switch.write_text(f"hosts: files\n{name} files {SERVICE}\n")
            theirs = by_library(switch) if can_try else None
            check(theirs in (None, is_passwd), f"{name!r}: the C library {'asks' if theirs else 'does not ask'}")
            tried += theirs is not None
            # nscd parts names by blanks alone: it takes the default then, and that is what the list `files` alone says.
            is_odd = is_passwd and re.search(r"[\v\f\r]", name)
            odd = "passwd: the line of passwd in nsswitch.conf has white space that is no blank" if is_odd else ""
            two = "passwd: nsswitch.conf has two lines of passwd" if is_passwd else ""
            for text, wanted in (
                (f"{name} files {SERVICE}\n", odd or (f"passwd+ {SERVICE}" if is_passwd else "")),
                (f"{name} files\n", ""),
                (f"{name} files extrausers\n", odd),
                (f"passwd: files\n{name} files\n", two),
            ):
                switch.write_text(f"hosts: files\n{text}")
                found = says(serve, "left")
                check(found == NOT_RUNNING + all_of(wanted), f"{text!r}: {found!r}, and not {wanted!r}")
        return f"of {len(NAMES)} spellings of a name nscd-serve takes those for a line of passwd that the C library does, {tried} tried there"


# ---- what the unit says


def terms_case():
    unit = (ROOT / "dist/nscd.service.in").read_text()
    found = dict(re.findall(r"^(\w+)=(.*)$", unit, re.M))
    wanted = {"Restart": "always", "RestartSec": "1", "StartLimitIntervalSec": "0", "RestartPreventExitStatus": "2 6 7 11"}
    for name, value in wanted.items():
        check(found.get(name) == value, f"{name} is {found.get(name)}, and not {value}")
    statuses = dict(re.findall(r"Exit::(\w+)(?: \{ \.\. \})? => (\d+),", (ROOT / "crates/nsc_model/src/exit.rt").read_text()))
    prevented = wanted["RestartPreventExitStatus"].split()
    names = sorted(name for name, status in statuses.items() if status in prevented)
    check("SocketFault" not in names and len(names) == 4, f"statuses that are not tried again: {names}")
    threads = 64 + 32 + 6  # that answer, that close; that accepts, its helpers, and those that watch, tick and write lines
    check(int(found["TasksMax"]) >= threads + 16, f"TasksMax is {found['TasksMax']}")
    return f"the unit starts the daemon again without an end, but for {', '.join(names)}, and lets it have {found['TasksMax']} tasks"


# ---- starts beside a daemon


def seen(path):
    """Each name of the folder with its inode and, of a link or a file, what it holds."""
    found = {}
    for one in sorted(path.rglob("*")):
        text = os.readlink(one) if one.is_symlink() else one.read_bytes() if one.is_file() else b""
        found[str(one.relative_to(path))] = (one.lstat().st_ino, text)
    return found


def is_refused(run, word, text):
    """A second start ends with 8, says why, and leaves the folder as it was."""
    before = seen(run.run)
    done = subprocess.run([run.serve, word], capture_output=True, timeout=20, check=False)
    line = f"nscd: another one runs over {run.run}; nscd -K ends it\n"
    check((done.returncode, done.stderr.decode()) == (8, line), f"{text}: {word} ends with {done.returncode}: {done.stderr!r}")
    check(seen(run.run) == before, f"{text}: {word} changes {set(seen(run.run).items()) ^ set(before.items())}")


def ends_one(run):
    subprocess.run([run.program, "-K", "--run-dir", run.run], timeout=20, check=True)
    run.process.communicate(timeout=20)


def beside(run):
    """Before and after it is open, by nscd-serve and by the program alone."""
    run.switch(FILES_ALONE.replace("hosts: files", "hosts: files dns"))
    run.process = subprocess.Popen([run.serve, "start"], stdout=subprocess.PIPE, stderr=subprocess.PIPE)
    check(run.process.stdout.readline() == b"nscd: ready\n", "it is not ready")
    for word in ("start", "run"):
        is_refused(run, word, "before it is open")
    run.does("open")
    for word in ("start", "run"):
        is_refused(run, word, "while it serves")
    before = seen(run.run)
    done = subprocess.run([run.program, "--etc", run.etc, "--run-dir", run.run], capture_output=True, timeout=20, check=False)
    check(done.returncode == 8 and b"another daemon has its folder\n" in done.stderr, f"the program beside it: {done}")
    check(seen(run.run) == before, "the program beside it changes its folder")
    # A database that is left is still left, and the others answered.
    check(asked(run.run, NOBODY) == b"" and run.ask(b"root") == ROOT_REPLY, "after a refused start: another reply")
    ends_one(run)
    # One that was started by hand has the folder, too, whether it answers or not.
    run.process = subprocess.Popen([run.program, "--etc", run.etc, "--run-dir", run.run], stdout=subprocess.PIPE, stderr=subprocess.PIPE)
    check(run.process.stdout.readline() == b"nscd: ready\n", "by hand it is not ready")
    for stop in (False, True):
        if stop:
            run.process.send_signal(signal.SIGSTOP)
        for word in ("start", "run"):
            is_refused(run, word, "beside one by hand" + (" that does not answer" if stop else ""))
    run.process.send_signal(signal.SIGCONT)
    ends_one(run)


def at_once(run, count):
    """Of many starts at once one serves, and the others say that it does."""
    starts = [subprocess.Popen([run.serve, "start"], stdout=subprocess.PIPE, stderr=subprocess.PIPE) for _ in range(count)]
    run.does("open")
    time.sleep(0.2)
    serving = [one for one in starts if one.poll() is None]
    for one in starts:
        if one.poll() is not None:
            said = one.communicate()[1].decode()
            check((one.returncode, said) == (8, f"nscd: another one runs over {run.run}; nscd -K ends it\n"), f"at once: {one.returncode}: {said}")
    check(len(serving) == 1, f"at once: {len(serving)} serve")
    run.process = serving[0]
    check(run.ask(b"root") == ROOT_REPLY, "at once: another reply")
    ends_one(run)


def in_the_way(run):
    """What is in the place of the daemon's lock is left, and a folder that is not there is told with its path."""
    path = run.run / "lock"
    for make in (lambda: os.mkfifo(path), lambda: path.symlink_to("/dev/null"), path.mkdir):
        path.unlink()
        make()
        done = subprocess.run([run.serve, "start"], capture_output=True, timeout=20, check=False)
        check(done.returncode == 8 and f"{path}: " in done.stderr.decode(), f"a lock that is none: {done}")
        if path.is_dir() and not path.is_symlink():
            path.rmdir()
            path.touch()
    path.unlink()
    away = run.run.with_name("away")
    run.run.rename(away)
    done = subprocess.run([run.serve, "start"], capture_output=True, timeout=20, check=False)
    check(done.returncode == 8 and str(run.run) in done.stderr.decode(), f"without a folder: {done.returncode}: {done.stderr!r}")
    away.rename(run.run)
    run.start()
    check(path.is_file() and stat.S_IMODE(path.stat().st_mode) == 0o600, "the lock is none")
    ends_one(run)


def second_case():
    with served() as run:
        beside(run)
        for _ in range(5):
            at_once(run, 6)
        if shutil.which("flock") is not None:
            in_the_way(run)
        return "a start beside a daemon, whoever started it and whether it answers, or beside five others, ends with 8 and changes nothing"
