"""The C library's own clients beside the daemon, in mount namespaces of their own.

In one the folder of the sockets stands where the C library looks for a daemon, in the other there is none. In both our files
stand for the system's. Each client must say the same in both.
"""

import re
import shutil
import subprocess
from pathlib import Path

from running import FILES, check, daemon

NAMESPACES = (("unshare", "-m"), ("unshare", "-rm"))

# What both namespaces begin with: our files over those of the system, and no daemon.
FRONT = """set -e
mount -t tmpfs none "$(readlink -f /var/run)"
for file in passwd group hosts services nsswitch.conf; do
    if [ -e "/etc/$file" ]; then mount --bind "$1/$file" "/etc/$file"; fi
done
"""
PLACE = """mkdir /var/run/nscd
mount --bind "$2" /var/run/nscd
"""
ASKS = {
    "passwd": ("getent passwd maud", "getent passwd 4242", "getent passwd nobody1", "id -un 4242", "id maud"),
    "group": ("getent group maud", "getent group 4244", "getent group nobody1", "getent initgroups maud", "id -Gn maud"),
    "hosts": ("getent hosts box", "getent hosts 192.0.2.7", "getent ahosts box", "getent ahostsv4 localhost"),
    "services": ("getent services http", "getent services 53/udp", "getent services nobody1"),
}
OWNED = 'touch "$1/own"; chown 4242:4243 "$1/own" 2> /dev/null; cd "$1"; ls -l own | cut -d " " -f 1-4'


def script(is_placed):
    lines = [ask for asks in ASKS.values() for ask in asks]
    tries = "".join(f"echo '{line}:'; {line} || echo \"status $?\"\n" for line in lines)
    return FRONT + (PLACE if is_placed else "") + "set +e\necho entered\n" + tries + OWNED


def said(run, namespace, is_placed):
    """What the clients say, line by line; none where there may be no such namespace."""
    words = [*namespace, "sh", "-c", script(is_placed), "sh", run.etc, run.run]
    done = subprocess.run(words, capture_output=True, timeout=30, check=False)
    lines = done.stdout.decode().splitlines()
    return lines[1:] if lines[:1] == ["entered"] else None


def counted(run):
    """How many lookups of each database were asked so far."""
    text, _, status = run.command("-g")
    check(status == 0, f"-g: status {status}")
    counts = {}
    for block in text.decode().split("\n\n")[:-1]:
        first, *lines = block.splitlines()
        values = dict(line.rsplit(" ", 1) for line in lines)
        counts[first.split()[0]] = sum(int(values[name]) for name in ("hits", "negative hits", "misses", "negative misses"))
    return counts


def asks_a_daemon():
    """Whether the C library of this machine was built to ask one: then it has a function that ends this."""
    paths = re.findall(r"/\S*/libc\.so\.6", Path("/proc/self/maps").read_text())
    return any(b"__nss_disable_nscd" in Path(path).read_bytes() for path in paths)


def real_clients():
    for word in ("unshare", "mount", "getent", "id"):
        if shutil.which(word) is None:
            return f"skipped, since there is no {word}"
    if not asks_a_daemon():
        return "skipped, since the C library of this machine asks no daemon"
    with daemon() as run:
        namespace = next((words for words in NAMESPACES if said(run, words, False) is not None), None)
        if namespace is None:
            return "skipped, since no mount namespace may be had here"
        without = said(run, namespace, False)
        before = counted(run)
        check(not any(before.values()), f"without a daemon in its place it is asked: {before}")
        beside = said(run, namespace, True)
        after = counted(run)
        for one, other in zip(without, beside):
            check(one == other, f"'{one}' without the daemon, '{other}' with it")
        check(len(without) == len(beside), f"{len(without)} lines without the daemon, {len(beside)} with it")
        check("maud:x:4242:4243:Maud:/home/maud:/bin/sh" in beside, f"the files are not those of the daemon: {beside}")
        for name in ASKS:
            check(after[name] > 0, f"{name}: the daemon was not asked")
        run.shut_down()
        counts = ", ".join(f"{after[name]} of {name}" for name in ASKS)
        return f"getent, id and ls say the same with the daemon as without it, in {len(beside)} lines; it was asked {counts}"
