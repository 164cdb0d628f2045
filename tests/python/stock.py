"""What nscd-serve makes of the lists with which systems are installed, and of C libraries that ask no daemon or ask otherwise."""

import shutil
import subprocess
from pathlib import Path

from judged import NOT_RUNNING, all_of, says
from places import a_program, folder, installed
from running import check

# The nsswitch.conf of libc-bin, whose postinst installs it.
LIBC_BIN = Path("/usr/share/libc-bin/nsswitch.conf")
DEBIAN = """passwd:         files
group:          files
shadow:         files
gshadow:        files

hosts:          files dns
networks:       files

protocols:      db files
services:       db files
ethers:         db files
rpc:            db files

netgroup:       nis
"""


def with_service(text, service, *names):
    """The list after a postinst has put a service at the end of these lines."""
    return "".join(line + f" {service}" * (line.split(":")[0] in names) + "\n" for line in text.splitlines())


def with_hosts(list_):
    return DEBIAN.replace("hosts:          files dns", f"hosts:          {list_}")


USERS = ("passwd", "group", "shadow", "gshadow")
SYSTEMD = with_service(DEBIAN, "systemd", *USERS)
SSS = with_service(SYSTEMD, "sss", "passwd", "group", "shadow", "netgroup", "services") + "automount:  sss\n"
SIGNS = {"passwd": "root:x:0:0:::\n+::::::\n", "group": "root:x:0:\n+:::\n"}
PLAIN = {"passwd": "root:x:0:0:::\n", "group": "root:x:0:\n"}
EXTRA = DEBIAN.replace("passwd:         files", "passwd:         compat extrausers").replace("group:          files", "group:          compat extrausers", 1)
COMPAT = DEBIAN.replace("passwd:         files", "passwd:         compat").replace("group:          files", "group:          compat", 1)

# A system; the package and the file that was read for it; nsswitch.conf, files beside it, and what is not served whole, as in serving.py.
READ = (
    ("Debian 12", "libc-bin 2.36-9+deb12u14, /usr/share/libc-bin/nsswitch.conf", DEBIAN, {}, "hosts dns"),
    ("Debian 12 with libnss-systemd", "libnss-systemd 252.38-1~deb12u1, postinst", SYSTEMD, {}, "passwd+ systemd; group+ systemd; hosts dns"),
    ("Debian 12 with libnss-myhostname", "libnss-myhostname 252.39-1~deb12u2, postinst", with_hosts("files myhostname dns"), {}, "hosts myhostname"),
    ("Debian 12 with libnss-mymachines", "libnss-mymachines 252.39-1~deb12u2, postinst", with_hosts("files mymachines dns"), {}, "hosts mymachines"),
    ("Debian 12 with libnss-resolve", "libnss-resolve 252.39-1~deb12u2, postinst", with_hosts("files resolve [!UNAVAIL=return] dns"), {}, "hosts resolve"),
    (
        "Debian 12 with libnss-mdns",
        "libnss-mdns 0.15.1-3, postinst",
        with_hosts("files mdns4_minimal [NOTFOUND=return] dns"),
        {},
        "hosts mdns4_minimal",
    ),
    (
        "Debian 12 with libnss-systemd and libnss-sss",
        "libnss-sss 2.8.2-4+deb12u1, postinst",
        SSS,
        {},
        "passwd+ systemd; group+ systemd; hosts dns; services+ sss",
    ),
    (
        "Debian 12 with libnss-ldapd for users, groups and hosts",
        "libnss-ldapd 0.9.12-4, postinst",
        with_service(DEBIAN, "ldap", "passwd", "group", "hosts"),
        {},
        "passwd+ ldap; group+ ldap; hosts dns",
    ),
    (
        "Debian 12 with libnss-extrausers",
        "libnss-extrausers 0.6-4.1, README",
        EXTRA,
        PLAIN,
        "group+: the C library joins the groups of a user over its list; hosts dns",
    ),
    ("the same with signs", "libnss-extrausers 0.6-4.1, README", EXTRA, SIGNS, "passwd nis; group nis; hosts dns"),
)
# Lists that are said to be theirs; no package of these systems was read.
TOLD = (
    ("Debian 13", DEBIAN, {}, "hosts dns"),
    ("Debian 13 with libnss-systemd", SYSTEMD, {}, "passwd+ systemd; group+ systemd; hosts dns"),
    ("Ubuntu 22.04 and 24.04", SYSTEMD, {}, "passwd+ systemd; group+ systemd; hosts dns"),
    (
        "Fedora 41",
        "passwd: files systemd\ngroup: files [SUCCESS=merge] systemd\nhosts: files myhostname resolve [!UNAVAIL=return] dns\nservices: files\n",
        {},
        "passwd+ systemd; group: its list in nsswitch.conf has the action merge; hosts myhostname",
    ),
    (
        "RHEL 9 with sss",
        "passwd: sss files systemd\ngroup: sss files systemd\nhosts: files dns myhostname\nservices: files sss\n",
        {},
        "passwd sss; group sss; hosts dns; services+ sss",
    ),
    (
        "Arch",
        "passwd: files systemd\ngroup: files [SUCCESS=merge] systemd\nhosts: mymachines resolve [!UNAVAIL=return] files myhostname dns\nservices: files\n",
        {},
        "passwd+ systemd; group: its list in nsswitch.conf has the action merge; hosts mymachines",
    ),
    ("openSUSE", "passwd: compat\ngroup: compat\nhosts: files dns\nservices: files\n", PLAIN, "hosts dns"),
    ("compat with signs", COMPAT, SIGNS, "passwd nis; group nis; hosts dns"),
    ("compat without signs", COMPAT, PLAIN, "hosts dns"),
    ("compat and systemd without signs", with_service(COMPAT, "systemd", "passwd", "group"), PLAIN, "passwd+ systemd; group+ systemd; hosts dns"),
    ("no file at all", None, {}, "hosts dns"),
)


def is_debian_12():
    done = subprocess.run(["dpkg-query", "-W", "-f", "${Version}", "libc-bin"], capture_output=True, timeout=20, check=False)
    return done.returncode == 0 and done.stdout.startswith(b"2.36-")


def stock_case():
    with folder() as top:
        etc = top / "files"
        serve = installed(top, a_program(top), ("\netc=/etc\n", f"\netc={etc}\n"))
        for system, switch, files, wanted in (*((row[0], *row[2:]) for row in READ), *TOLD):
            etc.mkdir()
            if switch is not None:
                (etc / "nsswitch.conf").write_text(switch)
            for name, text in files.items():
                (etc / name).write_text(text)
            found = says(serve, "left")
            check(found == NOT_RUNNING + all_of(wanted), f"{system}: {found!r}, and not {wanted!r}")
            shutil.rmtree(etc)
        beside = ""
        if shutil.which("dpkg-query") and is_debian_12() and LIBC_BIN.exists():
            text = "".join(line + "\n" for line in LIBC_BIN.read_text().splitlines() if not line.startswith("#")).lstrip("\n")
            check(text == DEBIAN, f"{LIBC_BIN} is another one")
            beside = f", one of them held against {LIBC_BIN}"
        return f"of {len(READ)} lists that were read from packages{beside}, and {len(TOLD)} that are only told, each database becomes what it should"


# ---- C libraries

MAPS = "7f0000000000-7f0000001000 r--p 00000000 fe:00 7 {path}\n"
SILENT = "nscd: no program asks: {path} was built without it\n"
MUSL = "nscd: programs of musl ask for names that its files lack; none of these is left to another service\n"


def library_case():
    with folder() as top:
        etc, maps = top / "files", top / "maps"
        etc.mkdir()
        (etc / "nsswitch.conf").write_text("passwd: files systemd\ngroup: sss files\nhosts: files\n")
        serve = installed(top, a_program(top), ("\netc=/etc\n", f"\netc={etc}\n"), ("\nmaps=/proc/self/maps\n", f"\nmaps={maps}\n"))
        usual, whole = all_of("passwd+ systemd; group sss"), all_of("group sss")
        for name, text, line, rest in (
            ("libc.so.6", b"\0/var/run/nscd/socket\0", "", usual),
            # As compilers part a text that they copy.
            ("libc.so.6", b"\0/var/run/nscd/so.x\0", "", usual),
            ("libc-2.31.so", b"\0__nss_disable_nscd\0", "", usual),
            ("libc.so.6", b"\0/var/run/nscd\0", SILENT, usual),
            ("libc-2.31.so", b"", SILENT, usual),
            ("ld-musl-x86_64.so.1", b"/var/run/nscd/socket", MUSL, whole),
            ("libc.musl-x86_64.so.1", b"/var/run/nscd/socket", MUSL, whole),
            ("libm.so.6", b"", "", usual),
        ):
            path = top / name
            path.write_bytes(text)
            maps.write_text(MAPS.format(path="[heap]") + MAPS.format(path=path))
            found = says(serve, "left")
            check(found == NOT_RUNNING + line.format(path=path) + rest, f"{name} of {text!r}: {found!r}")
            path.unlink()
        return "a C library that was built without its client of nscd is told; beside musl what would be served found only is served whole"
