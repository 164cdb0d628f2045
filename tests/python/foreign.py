"""The C library's clients under lists that ask more than files, beside the service and without it, in mount namespaces of their own."""

import os
import random
import shlex
import shutil
import subprocess

from clients import NAMESPACES, asks_a_daemon
from frames import ROOT
from places import folder
from running import check
from serving import Served

USERS = 5000
TWICE = 2
ACCOUNTS = ("getpwnam_r", "getpwuid_r", "getgrnam_r", "getgrgid_r", "initgroups_dyn")
# Files of our own over the system's, the module, and the folder of the sockets if one is named.
INSIDE = """set -e
mount --bind "$1" /etc
mount -t tmpfs none "$(readlink -f /var/run)"
if [ -n "$3" ]; then mkdir /var/run/nscd; mount --bind "$3" /var/run/nscd; fi
export LD_LIBRARY_PATH="$2"
set +e
python3 -S "$4" "$5"
for name in user0001 user4999 alien0007 both0003 nosuch root nobody; do id "$name" 2>&1; getent passwd "$name"; getent initgroups "$name"; done
ls -l "$6" | cut -d ' ' -f 3-4
"""


def passwd_line(name, uid, text):
    return f"{name}:x:{uid}:{uid % 97 + 100}:{text}:/home/{name}:/bin/sh\n"


def write_files(etc, theirs):
    """Our files, and those that the module alone knows; users user*, alien* of the module alone, and both* whom both have otherwise."""
    both = "".join(passwd_line(f"both{at:04}", 20000 + at, "files") for at in range(100))
    users = "root:x:0:0:root:/root:/bin/bash\n" + "".join(passwd_line(f"user{at:04}", 10000 + at, "files") for at in range(USERS)) + both
    (etc / "passwd").write_text(users)
    groups = "".join(f"crew{at:03}:x:{100 + at}:user{at:04},alien{at:04},both{at:04}\n" for at in range(97))
    (etc / "group").write_text("root:x:0:\n" + groups)
    (etc / "hosts").write_text("127.0.0.1 localhost\n192.0.2.7 box.example box\n2001:db8::7 box.example box\n192.0.2.8 four.example\n2001:db8::9 six.example\n")
    (etc / "services").write_text("http 80/tcp www\ndomain 53/udp\n")
    (etc / "netgroup").write_text("staff (box,ann,) (,bob,)\n")
    theirs.mkdir()
    aliens = "".join(passwd_line(f"alien{at:04}", 30000 + at, "foreign") for at in range(500))
    (theirs / "passwd").write_text(aliens + "".join(passwd_line(f"both{at:04}", 40000 + at, "foreign") for at in range(100)))
    (theirs / "group").write_text("".join(f"outer{at:03}:x:{500 + at}:user{at:04},alien{at:04},both{at:04}\n" for at in range(97)) + "crew000:x:900:user0001\n")
    (theirs / "hosts").write_text("192.0.2.70 far.example\n2001:db8::70 far.example\n198.51.100.9 box.example\n2001:db8::8 four.example\n")
    (theirs / "services").write_text("farport 7007 tcp\nhttp 8080 udp\n")


def small():
    """Calls of each kind: what files know, what the module alone knows, both, and nobody; and more than a hundred after one that is not answered."""
    names = ["user0001", "user4999", "alien0007", "both0003", "nosuch", "root", "nobody"]
    calls = [f"getpwnam {name}" for name in names] + [f"initgroups {name}" for name in names]
    calls += [f"getpwuid {uid}" for uid in (0, 10001, 30007, 20003, 40003, 65534, 77777)]
    calls += [f"getgrnam {name}" for name in ("root", "crew003", "crew000", "outer003", "nogroup", "nosuch")]
    calls += [f"getgrgid {gid}" for gid in (0, 103, 503, 900, 65534, 77777)]
    hosts = ["box.example", "box", "four.example", "six.example", "far.example", "nosuch.example", "localhost"]
    calls += [f"getaddrinfo {name} {family}" for name in hosts for family in ("any", "four", "six")] + [f"gethostbyname {name}" for name in hosts]
    calls += [f"gethostbyaddr {address}" for address in ("192.0.2.7", "2001:db8::7", "192.0.2.70", "2001:db8::70", "192.0.2.99")]
    calls += [f"getservbyname {words}" for words in ("http", "http tcp", "http udp", "www", "domain udp", "farport", "farport tcp", "nosuch", "nosuch tcp")]
    calls += [f"getservbyport {words}" for words in ("80", "80 tcp", "80 udp", "53 udp", "7007", "7007 tcp", "8080 udp", "9999")]
    calls += [f"netgroup {name}" for name in ("staff", "nosuch")]
    after = []
    for call, unknown, known in (
        ("getpwnam", "nosuch", "user0002"),
        ("getgrnam", "nosuch", "crew002"),
        ("getservbyname", "nosuch", "domain"),
        ("initgroups", "user0002", "user0003"),
    ):
        after += [f"{call} {unknown}"] + [f"{call} {known}"] * 120 + [f"{call} {unknown}"] + [f"{call} {known}"] * 3
    return calls * TWICE + after


def large(seed):
    """All users of both, and some whom nobody knows, each twice, in this order and in the other, and all of them by their numbers."""
    names = [f"user{at:04}" for at in range(USERS)] + [f"alien{at:04}" for at in range(0, 500, 25)] + [f"both{at:04}" for at in range(0, 100, 9)]
    names += [f"nosuch{at}" for at in range(20)]
    random.Random(seed).shuffle(names)
    numbers = [f"getpwuid {uid}" for uid in (*range(10000, 10000 + USERS, 5), 30001, 40002, 99999)]
    twice = [f"getpwnam {name}" for name in names for _ in range(TWICE)]
    return twice + twice[::-1] + numbers


def built(top, theirs, service="foreign"):
    """The folder of the module, whose users and groups are a service of this name; none if there is no compiler."""
    compiler = shlex.split(os.environ.get("CC", "cc"))
    if shutil.which(compiler[0]) is None:
        return None
    where = top / "module"
    where.mkdir()
    names = [f"-D_nss_foreign_{call}=_nss_{service}_{call}" for call in ACCOUNTS] if service != "foreign" else []
    words = [*compiler, "-Wall", "-Wextra", "-Werror", "-O1", "-shared", "-fPIC", f'-DFOLDER="{theirs}"', *names, "-o", where / f"libnss_{service}.so.2"]
    done = subprocess.run([*words, ROOT / "tests/c/foreign.c"], capture_output=True, timeout=60, check=False)
    check(done.returncode == 0, f"foreign.c: {done.stderr.decode()}")
    return where


def said(namespace, etc, module, run, asked, owned):
    """What the clients say, line by line; none if there may be no such namespace."""
    inside = [etc, module, run, ROOT / "tests/python/lookups.py", asked, owned]
    done = subprocess.run([*namespace, "sh", "-c", INSIDE, "sh", *inside], capture_output=True, timeout=300, check=False)
    lines = done.stdout.decode().splitlines()
    return lines if done.returncode == 0 and lines else None


def compared(run, namespace, module, calls, owned):
    """Sees that all is the same with the daemon and without it; how many lines were compared."""
    asked = run.etc.parent / "asked"
    asked.write_text("\n".join(calls) + "\n")
    without = said(namespace, run.etc, module, "", asked, owned)
    check(without is not None, "no namespace may be had any more")
    beside = said(namespace, run.etc, module, run.run, asked, owned)
    for one, other in zip(without, beside or []):
        check(one == other, f"'{one}' without the daemon, '{other}' with it")
    check(beside is not None and len(without) == len(beside), "fewer or more lines with the daemon")
    return without


def lookups(run):
    """How many lookups of each database the daemon was asked and answered by what is found."""
    text = run.order("-g").stdout.decode()
    counts = {}
    for block in text.split("\n\n")[:-1]:
        first, *lines = block.splitlines()
        values = dict(line.rsplit(" ", 1) for line in lines)
        counts[first.split()[0]] = int(values["hits"]) + int(values["misses"])
    return counts


def under(run, namespace, module, service, owned):
    """Both loads under lists that have this service behind files; how many lines were compared, and what the daemon was asked."""
    lists = {name: f"files {service}" for name in ("passwd", "group", "hosts", "services")}
    if service == "systemd":
        lists |= {"hosts": "files myhostname", "services": "files"}
    switch = "".join(f"{name}: {text}\n" for name, text in lists.items()) + "netgroup: files\n"
    (run.etc / "nsswitch.conf").write_text(switch)
    run.start()
    lines = compared(run, namespace, module, small(), owned)
    after = lookups(run)
    check(after["passwd"] > 20 and after["group"] > 20 and after["services"] > 8, f"files {service}: the daemon was asked {after}")
    check(after["hosts"] == 0, f"files {service}: the daemon was asked for {after['hosts']} hosts")
    if service == "foreign":
        text = "\n".join(lines)
        for word in ("pw_gecos='foreign'", "pw_gecos='files'", "outer003", "farport", "192.0.2.70", "KeyError"):
            check(word in text, f"no {word} in {text[:2000]}")
    count = len(lines) + len(compared(run, namespace, module, large(service), owned))
    check(lookups(run)["passwd"] - after["passwd"] > USERS, f"files {service}: of {USERS} users the daemon answered {lookups(run)}")
    run.order("-K")
    run.process.communicate(timeout=20)
    return count


def lacking():
    """What is not there that clients in namespaces of their own need; nothing if all is."""
    for word in ("unshare", "mount", "getent", "id", "python3"):
        if shutil.which(word) is None:
            return f"skipped, since there is no {word}"
    return "" if asks_a_daemon() else "skipped, since the C library of this machine asks no daemon"


def foreign_case():
    if lacking():
        return lacking()
    with folder() as top:
        theirs, owned = top / "theirs", top / "owned"
        module = built(top, theirs)
        if module is None:
            return "skipped, since there is no C compiler"
        run = Served(top)
        write_files(run.etc, theirs)
        owned.mkdir()
        for number, uid in enumerate((10001, 14999, 20003, 30007, 40003, 77777)):
            (owned / str(number)).touch()
            if os.geteuid() == 0:
                os.chown(owned / str(number), uid, 103)
        (run.etc / "nsswitch.conf").write_text("passwd: files foreign\n")
        (top / "asked").write_text("getpwnam alien0007\n")
        namespace = next((words for words in NAMESPACES if said(words, run.etc, module, "", top / "asked", owned) is not None), None)
        if namespace is None:
            return "skipped, since no mount namespace may be had here"
        try:
            shown = [f"{under(run, namespace, module, 'foreign', owned)} lines under `files foreign`"]
            if any(os.path.exists(f"{place}/libnss_systemd.so.2") for place in ("/lib64", "/usr/lib64", *folders_of_libraries())):
                shown.append(f"{under(run, namespace, module, 'systemd', owned)} under `files systemd`")
        finally:
            if run.process is not None:
                run.process.kill()
                run.process.wait()
        return f"the C library's clients say the same with the service as without it: {' and '.join(shown)}"


def folders_of_libraries():
    """The folders of the libraries of this process."""
    with open("/proc/self/maps", encoding="utf-8") as maps:
        return sorted({os.path.dirname(line.split()[-1]) for line in maps if ".so" in line})
