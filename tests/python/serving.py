"""How far nscd-serve serves each database, at a start and when it is told to judge anew."""

import ctypes
import os
import shutil
import subprocess
import time
from contextlib import contextmanager

from judged import LISTS, NOT_RUNNING, OTHERWISE, all_of, lines_of, says
from places import a_program, folder, installed
from running import FILES, GROUP_BY_NAME, NO_REPLY, PASSWD_BY_NAME, ROOT_REPLY, Fault, check, connected, read_all, request
from tables import DATABASES

def left_case():
    with folder() as top:
        etc = top / "files"
        serve = installed(top, a_program(top), ("\netc=/etc\n", f"\netc={etc}\n"))
        for switch, files, wanted in LISTS:
            etc.mkdir()
            if switch is not None:
                (etc / "nsswitch.conf").write_text(switch)
            for name, text in files.items():
                (etc / name).write_text(text)
            found = says(serve, "left")
            check(found == NOT_RUNNING + all_of(wanted.replace("ETC", str(etc))), f"{switch!r}, {files}: {found!r}, and not {wanted!r}")
            check(says(serve, "left", NSCD_SERVE="\t\n".join(DATABASES)) == NOT_RUNNING + all_of(""), f"{switch!r}: NSCD_SERVE does not count")
            shutil.rmtree(etc)
        etc.mkdir()
        (etc / "nsswitch.conf").write_text("hosts: files dns\n")
        found = says(serve, "left", NSCD_SERVE="passwd,group hosts * shadow")
        wanted = "".join(f"nscd: NSCD_SERVE: {word} is no database\n" for word in ("passwd,group", "*", "shadow"))
        check(found == NOT_RUNNING + all_of("") + wanted, f"words of NSCD_SERVE: {found!r}")
        return f"of {len(LISTS)} lists of services nscd-serve has those served whole that files decide, found only those that they begin, and leaves others"


# ---- lines that the C library reads otherwise

# A database, a line of its file, and what it has that nscd does not take; nothing where both read it in one way. Each stands behind a good line.
LINES = (
    ("passwd", "ann:x:5:6:Ann:/home/ann:/bin/sh", ""),
    ("passwd", "  ann:x:0005:4294967295::/:", ""),
    ("passwd", "# ann:x:5", ""),
    ("passwd", "ann:x:5", ""),
    ("passwd", "ann:x::6:::", ""),
    ("passwd", "ann:x:five:6:::", ""),
    ("passwd", "ann:x:5 :6:::", ""),
    ("passwd", "ann:x:5:6:Ann:/home/ann", "fewer than seven fields"),
    ("passwd", "ann:x:5:6", "fewer than seven fields"),
    ("passwd", "ann:x:5:6:Ann:/home/ann:/bin/sh:", "more than seven fields"),
    ("passwd", "ann:x:5:6:Ann:/home/ann:/bin/sh:more:fields", "more than seven fields"),
    ("passwd", "ann:x:+5:6:::", "a number with a sign"),
    ("passwd", "ann:x:5:+6:::", "a number with a sign"),
    ("passwd", "ann:x: 5:6:::", "a blank before a number"),
    ("passwd", ":x:5:6:::", "no name"),
    ("passwd", "\vann:x:5:6:::", "a control character"),
    ("group", "crew:x:7:ann,bob", ""),
    ("group", "crew:x:7:", ""),
    ("group", "crew:x:7:ann,,bob,", ""),
    ("group", "crew:x:7:ann ,bob", ""),
    ("group", "crew:x::ann", ""),
    ("group", "crew:x", ""),
    ("group", "crew:x:7:ann, bob", "a blank before a member"),
    ("group", "crew:x:7: ann", "a blank before a member"),
    ("group", "crew:x:7:ann,\tbob", "a blank before a member"),
    ("group", "crew:x:7", "no last colon"),
    ("group", "crew:x:7:ann:bob", "more than four fields"),
    ("group", "crew:x:+7:ann", "a number with a sign"),
    ("group", ":x:7:ann", "no name"),
)
# Some versions of the C library refuse these as nscd does, and others take the largest number for them.
SOMETIMES = (
    ("passwd", "ann:x:-5:6:::", "a number with a sign"),
    ("passwd", "ann:x:5:4294967296:::", "a number above 4294967295"),
    ("group", "crew:x:-7:ann", "a number with a sign"),
    ("group", "crew:x:4294967296:ann", "a number above 4294967295"),
)
GOOD = {"passwd": "root:x:0:0:root:/root:/bin/bash", "group": "root:x:0:"}
# Files of hosts under a host.conf, and the line that is found.
MULTI = "a host of line %d, where host.conf says multi on"
HOSTS = (
    ("multi on\n", "192.0.2.1 box\n192.0.2.2 Box\n", 2, MULTI % 1),
    ("order hosts\n multi  on\n", "192.0.2.1 a box\n# 192.0.2.2 box\n\n192.0.2.3 b c box # d\n", 4, MULTI % 1),
    ("multi on\n", "::1 localhost\n127.0.0.1 localhost box\nfe80::1 localhost\n", 3, MULTI % 1),
    ("multi on\n", "127.0.0.1 localhost localhost\n::1 localhost ip6-localhost\n127.0.1.1 box\nbox localhost\n", 0, ""),
    ("Multi  ON\n", "192.0.2.1 box\n192.0.2.2 Box\n", 2, MULTI % 1),
    ("", "127.0.0.1 localhost\n192.0.2.1 box\r\n", 2, "a control character"),
    ("", "127.0.0.1 localhost # box\r\n", 0, ""),
    ("multi off\n", "192.0.2.1 box\n192.0.2.2 box\n", 0, ""),
    ("# multi on\n", "192.0.2.1 box\n192.0.2.2 box\n", 0, ""),
    ("", "192.0.2.1 box\n192.0.2.2 box\n", 0, ""),
    (None, "192.0.2.1 box\n192.0.2.2 box\n", 0, ""),
)
# Files of services, and the line that the C library takes for another port.
PORTS = "a port in another form"
SERVICES = (
    ("http 80/tcp www\nzero 0/tcp\n# 07/tcp\nlast 65535/udp # 07/tcp\nnone\n", 0, ""),
    ("http 80/tcp\nold 07003/tcp\n", 2, PORTS),
    ("high 65536/tcp\n", 1, PORTS),
    ("hex 0x1b5c/tcp\n", 1, PORTS),
    ("two 7011//tcp\n", 1, PORTS),
    ("http 80/tcp\rwww\n", 1, "a control character"),
)


class Passwd(ctypes.Structure):
    _fields_ = [("name", ctypes.c_char_p), ("word", ctypes.c_char_p), ("uid", ctypes.c_uint32), ("gid", ctypes.c_uint32)]
    _fields_ += [(name, ctypes.c_char_p) for name in ("gecos", "dir", "shell")]


class Group(ctypes.Structure):
    _fields_ = [("name", ctypes.c_char_p), ("word", ctypes.c_char_p), ("gid", ctypes.c_uint32), ("members", ctypes.POINTER(ctypes.c_char_p))]


def by_library(path, kind):
    """The last entry of a file that the C library finds there, as a line of its form."""
    library = ctypes.CDLL(None)
    library.fopen.restype = ctypes.c_void_p
    library.fclose.argtypes = [ctypes.c_void_p]
    call = library.fgetpwent if kind == "passwd" else library.fgetgrent
    call.argtypes, call.restype = [ctypes.c_void_p], ctypes.POINTER(Passwd if kind == "passwd" else Group)
    stream, found = library.fopen(str(path).encode(), b"r"), b""
    while one := call(stream):
        it = one.contents
        if kind == "passwd":
            found = b":".join([it.name, it.word, b"%d" % it.uid, b"%d" % it.gid, it.gecos, it.dir, it.shell])
        else:
            members = []
            while it.members[len(members)]:
                members.append(it.members[len(members)])
            found = b":".join([it.name, it.word, b"%d" % it.gid, b",".join(members)])
    library.fclose(stream)
    return found.decode()


def by_nscd(line, kind):
    """The same of one line by the rules of nscd, or the good line before it."""
    fields = line.strip(" \t").split(":")
    numbers = fields[2:4] if kind == "passwd" else fields[2:3]
    has_form = len(fields) == (7 if kind == "passwd" else 4) and fields[0] and fields[0][0] not in "#+-"
    if not has_form or not all(it.isdigit() and int(it) < 1 << 32 for it in numbers):
        return GOOD[kind]
    fields[2 : 2 + len(numbers)] = [str(int(it)) for it in numbers]
    if kind == "group":
        fields[3] = ",".join(name for name in fields[3].split(",") if name)
    return ":".join(fields)


def check_line(serve, kind, path, line, what):
    """The second line of this file leaves the database to the C library for this reason, if any, but where NSCD_SERVE names the database."""
    found = says(serve, "left")
    wanted = f"{kind}: line 2 of {path} has {what}" if what else ""
    check(found == NOT_RUNNING + all_of(wanted), f"{line!r} of {path}: {found!r}")
    check(says(serve, "left", NSCD_SERVE=kind) == NOT_RUNNING + all_of(""), f"{line!r}: NSCD_SERVE does not count")


def check_hosts(serve, etc):
    (etc / "nsswitch.conf").write_text(FILES_ALONE)
    for conf, hosts, line, what in HOSTS:
        (etc / "host.conf").unlink(missing_ok=True)
        if conf is not None:
            (etc / "host.conf").write_text(conf)
        (etc / "hosts").write_text(hosts)
        found = says(serve, "left")
        wanted = f"hosts: line {line} of {etc}/hosts has {what}" if what else ""
        check(found == NOT_RUNNING + all_of(wanted), f"{hosts!r} under {conf!r}: {found!r}")


def check_services(serve, etc):
    (etc / "nsswitch.conf").write_text(FILES_ALONE)
    for services, line, what in SERVICES:
        (etc / "services").write_text(services)
        found = says(serve, "left")
        wanted = f"services: line {line} of {etc}/services has {what}" if what else ""
        check(found == NOT_RUNNING + all_of(wanted), f"{services!r}: {found!r}")
    (etc / "services").unlink()


def lines_case():
    with folder() as top:
        etc = top / "files"
        etc.mkdir()
        changes = (("\netc=/etc\n", f"\netc={etc}\n"), ("\nextra=/var/lib/extrausers\n", f"\nextra={etc}/extra\n"))
        serve = installed(top, a_program(top), *changes)
        (etc / "extra").mkdir()
        for kind, line, what in LINES + SOMETIMES:
            (etc / kind).write_text(f"{GOOD[kind]}\n{line}\n")
            # Whether the C library does read it otherwise.
            theirs, ours = by_library(etc / kind, kind), by_nscd(line, kind)
            check((theirs != ours) == bool(what) or (kind, line, what) in SOMETIMES, f"{line!r} is {theirs!r} for the C library, and {ours!r} here")
            (etc / "nsswitch.conf").write_text(FILES_ALONE)
            check_line(serve, kind, f"{etc}/{kind}", line, what)
            (etc / kind).unlink()
        for kind, text in (("passwd", "ann:x:5:6\n"), ("group", "crew:x:7\n")):
            what = "fewer than seven fields" if kind == "passwd" else "no last colon"
            (etc / "nsswitch.conf").write_text(FILES_ALONE.replace(f"{kind}: files", f"{kind}: compat"))
            (etc / kind).write_text(f"{GOOD[kind]}\n{text}")
            check_line(serve, kind, f"{etc}/{kind}", text, what)
            (etc / "nsswitch.conf").write_text(FILES_ALONE.replace(f"{kind}: files", f"{kind}: files extrausers"))
            (etc / kind).rename(etc / "extra" / kind)
            check_line(serve, kind, f"{etc}/extra/{kind}", text, what)
            (etc / "extra" / kind).unlink()
        check_services(serve, etc)
        check_hosts(serve, etc)
        count = len(LINES + SOMETIMES)
        return f"of {count} lines of users and groups and {len(HOSTS) + len(SERVICES)} files of hosts and services, a database is left where the C library reads one otherwise"


# ---- a daemon that is started so


def over(etc):
    """What has nscd-serve and the daemon read this folder."""
    return ("\netc=/etc\n", f"\netc={etc}\n"), ('--run-dir "$run" "$@"\n', f'--run-dir "$run" --etc {etc} "$@"\n')


class Served:
    """A daemon that nscd-serve has started over files of ours."""

    def __init__(self, top):
        self.etc, self.run, self.state = top / "files", top / "run", top / "state"
        self.etc.mkdir()
        self.run.mkdir()
        for name, text in FILES.items():
            (self.etc / name).write_bytes(text)
        changes = (*over(self.etc), ("\nrun=/run/nscd\n", f"\nrun={self.run}\n"))
        self.serve = installed(top, a_program(top), *changes, ("\nstate=/var/lib/nscd\n", f"\nstate={self.state}\n"))
        self.settings = top / "etc/nscd.conf"
        self.program = top / "usr/libexec/nscd/nscd"
        self.process = None

    def start(self, word="start", **environment):
        how = {"stdout": subprocess.PIPE, "stderr": subprocess.PIPE, "env": os.environ | environment}
        self.process = subprocess.Popen([self.serve, word], **how)
        if word == "start":
            self.does("open", **environment)
        else:
            self.awaited()

    def awaited(self, *others):
        """Waits until a daemon answers whose number is none of these, and gives its number."""
        ends = time.monotonic() + 10
        while time.monotonic() < ends:
            number = self.number()
            if number not in ("", *others) and self.order("-g").returncode == 0:
                return number
            time.sleep(0.05)
        raise Fault(f"within ten seconds no daemon answers: {self.process.poll()}")

    def number(self):
        """The number of the daemon's process; nothing if none runs."""
        return subprocess.run([self.serve, "runs"], capture_output=True, timeout=20, check=False).stdout.decode().strip()

    def order(self, *words):
        return subprocess.run([self.program, *words, "--run-dir", self.run], capture_output=True, timeout=20, check=False)

    def does(self, word, **environment):
        """What nscd-serve says on standard error."""
        done = subprocess.run([self.serve, word], capture_output=True, timeout=20, check=False, env=os.environ | environment)
        check(done.returncode == 0, f"nscd-serve {word}: status {done.returncode}: {done.stderr.decode()}")
        return done.stderr.decode()

    def ask(self, name):
        """The reply for a user; nothing where the request is closed."""
        return asked(self.run, request(PASSWD_BY_NAME, name + b"\0"))

    def switch(self, text):
        """Another nsswitch.conf takes the place of the one that is there, as an editor does it."""
        (self.etc / "next").write_text(text)
        os.replace(self.etc / "next", self.etc / "nsswitch.conf")


@contextmanager
def served():
    with folder() as top:
        run = Served(top)
        try:
            yield run
        finally:
            if run.process is not None:
                run.order("-K")
                run.process.kill()
                run.process.communicate()


FILES_ALONE = "passwd: files\ngroup: files\nhosts: files\nservices: files\n"


def judged_anew(run, text, wanted):
    """A reload after a change of nsswitch.conf, by which another daemon is started within two seconds; the seconds that it took."""
    before = run.number()
    run.switch(text)
    told = says(run.serve, "left")
    check(told == OTHERWISE + all_of(wanted), f"before a reload left says {told!r}")
    began = time.monotonic()
    check(run.does("reload") == "", "a reload says something")
    run.awaited(before)
    took = time.monotonic() - began
    check(took < 2, f"it is judged anew after {took:.1f} seconds")
    check(says(run.serve, "left") == all_of(wanted), "left does not say what runs")
    # Nothing changes at a second one but that what is kept is forgotten.
    number = run.number()
    check(run.does("reload") == "" and run.number() == number, "a second reload starts another or says something")
    check(run.order("-g").stdout.count(b"invalidations 1\n") == len(DATABASES), "a second reload does not empty all databases")
    return took


def reload_case():
    """Lists that become longer and shorter while the daemon runs."""
    with served() as run:
        run.state.mkdir(mode=0o700)
        run.settings.write_text("persistent group yes\n")
        run.start("run")
        check(run.ask(b"root") == ROOT_REPLY and run.ask(b"nobody1") == NO_REPLY, "files alone: another reply")
        check(says(run.serve, "left") == all_of(""), "files alone: something is left")
        longest, groups = 0, request(GROUP_BY_NAME, b"friends\0")
        for list_, wanted, replies in (
            ("files sss", "passwd+ sss", (ROOT_REPLY, b"")),
            ("sss files", "passwd sss", (b"", b"")),
            ("files", "", (ROOT_REPLY, NO_REPLY)),
            ("files ldap [NOTFOUND=return]", "passwd+ ldap", (ROOT_REPLY, b"")),
            ("files", "", (ROOT_REPLY, NO_REPLY)),
        ):
            asked(run.run, groups)
            longest = max(longest, judged_anew(run, FILES_ALONE.replace("passwd: files", f"passwd: {list_}"), wanted))
            found = run.ask(b"root"), run.ask(b"nobody1")
            check(found == replies, f"passwd: {list_}: {found}, and not {replies}")
        # A line that is read otherwise is told where the daemon says what it has to say.
        (run.etc / "passwd").write_bytes(FILES["passwd"] + b"ann:x:5:6\n")
        wanted = f"passwd: line 3 of {run.etc}/passwd has fewer than seven fields"
        before = run.number()
        run.does("reload")
        run.awaited(before)
        check(says(run.serve, "left") == all_of(wanted), "a line that is read otherwise does not count")
        # What was kept comes back.
        (run.etc / "passwd").write_bytes(FILES["passwd"].replace(b"/bin/bash", b"/bin/dash"))
        asked(run.run, groups)
        before = run.number()
        run.does("reload")
        run.awaited(before)
        counts = run.order("-g").stdout.decode().split("\n\n")[1]
        # A group by name and by id.
        check("entries 2\n" in counts, f"after a reload nothing of its cache is back: {counts}")
        check(b"/bin/dash" in run.ask(b"root"), "a reload empties nothing")
        check(run.order("-K").returncode == 0 and run.process.wait(10) == 0, "it does not end as it is told")
        said = run.process.stderr.read().decode().splitlines()
        check(said.count(lines_of(wanted).strip()) == 1, f"it says {said}")
        refused = subprocess.run([run.serve, "reload"], capture_output=True, timeout=20, check=False)
        check((refused.returncode, refused.stderr) == (1, b"nscd: it does not run\n"), f"a reload of none: {refused}")
        return f"a reload judges anew: within {longest:.1f} s another daemon serves less or more, with what was kept, and tells a line that is read otherwise"


def asked(run, text):
    with connected(run / "socket", 5) as peer:
        peer.sendall(text)
        return read_all(peer)
