"""What the service is started with: its units, and its list of system calls."""

import ctypes
import ctypes.util
import re
import resource
import shutil
import subprocess
import sys

from frames import ROOT
from places import a_program, folder, installed
from running import ASK_ROOT, FILES, PASSWD_BY_NAME, ROOT_REPLY, Fault, check, request
from serving import asked, over
from tables import DATABASES

# ---- the unit

MOST_EXPOSED = 10  # tenths of what systemd-analyze calls exposure


def unit_case():
    if shutil.which("systemd-analyze") is None:
        return "skipped, since there is no systemd-analyze"
    with folder() as top:
        serve = installed(top, a_program(top))
        unit = top / "usr/lib/systemd/system/nscd.service"
        units = [unit, *sorted(unit.parent.glob("nscd-*"))]
        check(len(units) == 4, f"units: {units}")
        done = subprocess.run(["systemd-analyze", "verify", "--man=no", *units], capture_output=True, timeout=60, check=False)
        said = (done.stdout + done.stderr).decode()
        # Only what is said of this unit counts, and not of others that it stands on.
        lines = [line for line in said.splitlines() if "nscd" in line]
        check(not lines, f"systemd-analyze verify: {lines}")
        # Is that a check at all?
        unit.write_text(unit.read_text().replace(str(serve), "/none").replace("ProtectSystem=strict", "ProtectSystem=very"))
        worse = subprocess.run(["systemd-analyze", "verify", "--man=no", unit], capture_output=True, timeout=60, check=False)
        if b"/none" not in worse.stdout + worse.stderr:
            return "systemd-analyze verify checks nothing here"
        installed(top, a_program(top))
        words = ["systemd-analyze", "security", "--no-pager", "--offline=true", f"--threshold={MOST_EXPOSED}", unit]
        safe = subprocess.run(words, capture_output=True, timeout=60, check=False)
        if b"unrecognized option" in safe.stderr:
            return "systemd-analyze verify says nothing of the unit; this one knows no threshold"
        check(safe.returncode == 0, f"systemd-analyze security: {safe.stdout.decode()[-300:]}{safe.stderr.decode()}")
        found = re.search(r"exposure level for nscd.service: ([\d.]+)", safe.stdout.decode())
        return f"systemd-analyze verify says nothing of the units, and finds the daemon's exposure to be {found.group(1) if found else 'low'} of 10"


# ---- the list of system calls


class Argument(ctypes.Structure):
    _fields_ = [("arg", ctypes.c_uint), ("op", ctypes.c_int), ("one", ctypes.c_uint64), ("two", ctypes.c_uint64)]


ALLOW, REFUSE, EQUAL, UNIX = 0x7FFF0000, 0x00050000 | 1, 4, 1  # of seccomp.h: EPERM is 1; and AF_UNIX


def listed(unit):
    """The system calls of a unit's list, and those that are always allowed."""
    words = ["@default"] + " ".join(re.findall(r"^SystemCallFilter=(.*)$", unit, re.M)).split()
    calls = set()
    for word in words:
        if word.startswith("@"):
            done = subprocess.run(["systemd-analyze", "--no-pager", "syscall-filter", word], capture_output=True, timeout=20, check=True)
            lines = [line.strip() for line in done.stdout.decode().splitlines()[1:]]
            check(not [line for line in lines if line.startswith("@")], f"{word} has others within")
            calls |= {line for line in lines if line and not line.startswith("#")}
        else:
            calls.add(word)
    return calls


def filter_of(library, calls):
    """A filter that lets these calls through, sockets of the machine alone among them, and fails all others as the unit does."""
    library.seccomp_init.restype = ctypes.c_void_p
    library.seccomp_syscall_resolve_name.argtypes = [ctypes.c_char_p]
    library.seccomp_rule_add_array.argtypes = [ctypes.c_void_p, ctypes.c_uint32, ctypes.c_int, ctypes.c_uint, ctypes.c_void_p]
    library.seccomp_load.argtypes = [ctypes.c_void_p]
    made = library.seccomp_init(REFUSE)
    check(made, "no filter can be made")
    count = 0
    for call in sorted(calls):
        number = library.seccomp_syscall_resolve_name(call.encode())
        if number < 0:
            continue  # of another architecture
        limit = Argument(0, EQUAL, UNIX, 0) if call in ("socket", "socketpair") else None
        status = library.seccomp_rule_add_array(made, ALLOW, number, 1 if limit else 0, ctypes.byref(limit) if limit else None)
        check(status == 0, f"{call}: no rule of the filter")
        count += 1
    return made, count


def obeys(serve, nscd, etc, run, confined):
    """Starts the daemon as the unit does, each process under the filter, and sees that it does what it is for. How many entries it began with."""

    def under(*words):
        done = subprocess.run(words, capture_output=True, preexec_fn=confined, timeout=30, check=False)
        said = (done.stdout + done.stderr).decode(errors="replace")
        check(done.returncode == 0, f"{words}: status {done.returncode}: {said}")
        return said

    words = [serve, "start", "-t", "64"]
    daemon = subprocess.Popen(words, stdout=subprocess.PIPE, stderr=subprocess.PIPE, preexec_fn=confined)
    try:
        under(serve, "open")
        began = int(re.search(r"^entries (\d+)$", under(nscd, "-g", "--run-dir", run), re.M).group(1))
        check(asked(run, ASK_ROOT) == ROOT_REPLY, "a lookup: another reply")
        check(asked(run, request(PASSWD_BY_NAME, b"nobody1\0")) != b"", "a lookup of nobody: no reply")
        check(asked(run, request(4, b"box.example\0")) == b"", "a host: a reply, where the database is left to the C library")
        (etc / "passwd").write_bytes(FILES["passwd"].replace(b"/bin/bash", b"/bin/dash"))
        for database in DATABASES:
            under(nscd, "-i", database, "--run-dir", run)
        check(b"/bin/dash" in asked(run, ASK_ROOT), "after an order: not what the file holds")
        (etc / "passwd").write_bytes(FILES["passwd"])
        under(nscd, "-i", "passwd", "--run-dir", run)
        check(asked(run, ASK_ROOT) == ROOT_REPLY, "after a second order: not what the file holds")
        check(under(nscd, "-g", "--run-dir", run).count("cache:") == 4, "no counts")
        under(nscd, "-K", "--run-dir", run)
        under(serve, "gone", str(daemon.pid))
        check(daemon.wait(5) == 0, f"the daemon ends with {daemon.returncode}")
        check(daemon.stdout.read() == b"nscd: ready\n", "another output")
        said = daemon.stderr.read().decode()
        check(said == "nscd: hosts is left to the C library, since nsswitch.conf asks dns for it\n", f"it says {said!r}")
        check(under(serve, "ended") == "", "after its end something is said")
        return began
    finally:
        if daemon.poll() is None:
            daemon.kill()
            daemon.wait()
        daemon.stdout.close()
        daemon.stderr.close()


def calls_case():
    if shutil.which("systemd-analyze") is None:
        return "skipped, since there is no systemd-analyze"
    name = ctypes.util.find_library("seccomp")
    if name is None:
        return "skipped, since there is no libseccomp"
    library = ctypes.CDLL(name)
    made, count = filter_of(library, listed((ROOT / "dist/nscd.service.in").read_text()))

    def confined():
        resource.setrlimit(resource.RLIMIT_NOFILE, (1024, 1024))
        if library.seccomp_load(made) != 0:
            raise Fault("the filter is not taken")

    # Does it refuse anything? To choose its processor is not in the list.
    words = [sys.executable, "-c", "import os; os.sched_setaffinity(0, os.sched_getaffinity(0))"]
    try:
        refused = subprocess.run(words, capture_output=True, preexec_fn=confined, timeout=20, check=False)
    except subprocess.SubprocessError:
        return "skipped, since no process may be confined here"
    check(refused.returncode != 0, "the filter refuses nothing")
    with folder() as top:
        etc, run, state = top / "files", top / "run", top / "state"
        for path in (etc, run, state):
            path.mkdir()
        for file, text in FILES.items():
            (etc / file).write_bytes(text)
        (etc / "nsswitch.conf").write_text("passwd: files\nhosts: files dns\n")
        changes = (*over(etc), ("\nrun=/run/nscd\n", f"\nrun={run}\n"))
        serve = installed(top, a_program(top), *changes, ("\nstate=/var/lib/nscd\n", f"\nstate={state}\n"))
        (top / "etc/nscd.conf").write_text("persistent passwd yes\n")
        began = [obeys(serve, top / "usr/sbin/nscd", etc, run, confined) for _ in range(2)]
        # Root by name and by id.
        check(began == [0, 2], f"it begins with {began} entries, and not with those that were kept")
    calls = f"with the {count} system calls of the unit's list, and sockets of the machine alone,"
    return f"{calls} it starts, answers, obeys, ends, and begins again with what it kept"
