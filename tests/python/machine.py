"""The program installed on a machine: this one's files, in a root of its own, which is gone with it."""

import atexit
import os
import shutil
import subprocess
import tempfile
from functools import cache
from pathlib import Path

from frames import ROOT
from places import VERSION, a_program, folder
from running import Fault, check


def in_own_root(given, script, *mode):
    """What the script shows, or why it was skipped."""
    for word in ("unshare", "mount", "chroot", "setpriv", "getent", "useradd"):
        if shutil.which(word) is None:
            return f"skipped, since there is no {word}"
    words = [ROOT / "tests/machine/enter", ROOT, given, script, *mode]
    done = subprocess.run(words, stdin=subprocess.DEVNULL, capture_output=True, timeout=160, check=False)
    lines = done.stdout.decode(errors="replace").strip().splitlines()
    said = lines[-1] if lines else ""
    if done.returncode == 77:
        return said or "skipped, since no root of its own may be had here"
    if done.returncode != 0:
        raise Fault("\n".join(lines) + done.stderr.decode(errors="replace"))
    return said


def init_case():
    with folder() as given:
        a_program(given)
        return in_own_root(given, "by-make")


def container_case():
    with folder() as given:
        a_program(given)
        return in_own_root(given, "by-run")


def force_case():
    with folder() as given:
        return in_own_root(given, "by-force")


def repacked(package, where, changes):
    """A package like this one, with other lines in its control file."""
    subprocess.run(["dpkg-deb", "-R", package, where], check=True, timeout=60)
    control = where / "DEBIAN/control"
    text = control.read_text()
    for old, new in changes:
        check(old in text, f"control: no {old!r}")
        text = text.replace(old, new)
    control.write_text(text)
    made = where.with_suffix(".deb")
    subprocess.run(["dpkg-deb", "--root-owner-group", "-Znone", "-b", where, made], check=True, capture_output=True, timeout=60)
    return made


OTHER = """Package: nscd
Version: 2.36-9
Architecture: all
Maintainer: nobody <nobody@localhost>
Description: stands for another nscd
"""


@cache
def packages():
    """A folder with the package, one of a later version, and another nscd. It goes with this process."""
    given = Path(tempfile.mkdtemp(prefix="nscd-packages-"))
    atexit.register(shutil.rmtree, given)
    environment = {**os.environ, "NSCD": str(a_program(given)), "SOURCE_DATE_EPOCH": "1700000000"}
    environment |= {"MAINTAINER": "A. Person <person@example.org>", "HOMEPAGE": "https://example.org/nscd"}
    made = []
    for where in (given, given / "again"):
        done = subprocess.run([ROOT / "dist/make-deb", where], capture_output=True, timeout=60, check=False, env=environment)
        check(done.returncode == 0, f"make-deb: {done.stderr.decode()}")
        made.append(Path(done.stdout.decode().strip()))
    check(made[0].read_bytes() == made[1].read_bytes(), "make-deb makes another package of the same")
    made = made[0]
    fields = subprocess.run(["dpkg-deb", "-f", made], capture_output=True, timeout=60, check=True).stdout.decode()
    # What asks for nscd wants a cache of more than files, so this is none.
    check("Provides:" not in fields, "control: it provides what it does not serve")
    named = ("Maintainer: A. Person <person@example.org>", "Homepage: https://example.org/nscd")
    for line in (f"Version: {VERSION}", "Conflicts: nscd, unscd, nsncd", *named):
        check(line in fields.splitlines(), f"control: no line '{line}'")
    listed = subprocess.run(["dpkg-deb", "-c", made], capture_output=True, timeout=60, check=True).stdout.decode()
    check(not [line for line in listed.splitlines() if " root/root " not in line], "the package has files that are not root's")
    check("trials" not in listed, "the package has more than the program")
    os.rename(made, given / "nscd.deb")
    next_one = repacked(given / "nscd.deb", given / "next", [(f"Version: {VERSION}\n", f"Version: {VERSION}+next\n")])
    os.rename(next_one, given / "nscd-next.deb")
    (given / "other/DEBIAN").mkdir(parents=True)
    (given / "other/DEBIAN/control").write_text(OTHER)
    subprocess.run(["dpkg-deb", "-b", given / "other", given / "nscd-other.deb"], check=True, capture_output=True, timeout=60)
    return given


# What the version before had and this one has not: its sockets were moved once they stood.
MOVED = 'mv -f "$run/new/admin" "$run/admin"'


def version_before(where):
    """The sources of the version before, from the history; nothing if it does not go back so far."""
    words = ["git", "-C", ROOT, "log", "-1", "--format=%H", f"-S{MOVED}", "--", "dist/nscd-serve.in"]
    done = subprocess.run(words, capture_output=True, timeout=60, check=False)
    if done.returncode != 0 or not done.stdout.strip():
        return None
    where.mkdir()
    packed = subprocess.run(["git", "-C", ROOT, "archive", done.stdout.decode().strip() + "^"], capture_output=True, timeout=60, check=False)
    if packed.returncode != 0:
        return None
    subprocess.run(["tar", "-x", "-C", where], input=packed.stdout, timeout=60, check=True)
    return where if MOVED in (where / "dist/nscd-serve.in").read_text() else None


@cache
def package_before(given):
    """The package of the version before, in the folder of the others; whether there is one."""
    sources = version_before(given / "before") if shutil.which("git") else None
    if sources is None:
        return False
    environment = {**os.environ, "NSCD": str(given / "nscd"), "SOURCE_DATE_EPOCH": "1600000000"}
    done = subprocess.run([sources / "dist/make-deb", given / "made"], capture_output=True, timeout=60, check=False, env=environment)
    check(done.returncode == 0, f"make-deb of the version before: {done.stderr.decode()}")
    made = Path(done.stdout.decode().strip())
    os.rename(repacked(made, given / "earlier", [(f"Version: {VERSION}\n", f"Version: {VERSION}~before\n")]), given / "nscd-before.deb")
    return True


def upgrade_case():
    if shutil.which("dpkg-deb") is None:
        return "skipped, since there is no dpkg-deb"
    if not package_before(packages()):
        return "skipped, since the history does not go back to the version before"
    by_init = in_own_root(packages(), "by-upgrade")
    return f"by init: {by_init}; under systemd: {in_own_root(packages(), 'by-upgrade', 'systemd')}"


def package_case(script="by-dpkg", *mode):
    if shutil.which("dpkg-deb") is None:
        return "skipped, since there is no dpkg-deb"
    return in_own_root(packages(), script, *mode)


def systemd_case():
    return package_case("by-systemd", "systemd")
