"""Lists of nsswitch.conf, and what nscd-serve says of each database under them."""

import os
import subprocess

from running import check
from tables import DATABASES

MERGE = "its list in nsswitch.conf has the action merge"
SEVERAL = "the C library joins the groups of a user over its list"
# nsswitch.conf, files beside it, and the databases that are not served whole: by their names alone those that are left to the C library, with
# a + those that are served found only; each with the service that is not known, or with another reason behind a colon.
LISTS = (
    ("", {}, "hosts dns"),
    (None, {}, "hosts dns"),
    ("passwd: files\ngroup: files\nhosts: files\nservices: files\n", {}, ""),
    ("hosts: files dns\n", {}, "hosts dns"),
    ("hosts: files\n", {}, ""),
    ("hosts: files # dns\n", {}, "hosts: the line of hosts in nsswitch.conf has a # behind its name, which some C libraries take for a service"),
    ("#hosts: files\nhosts: files mdns4_minimal [NOTFOUND=return] dns\n", {}, "hosts mdns4_minimal"),
    ("hosts: files\nhosts: dns\n", {}, "hosts: nsswitch.conf has two lines of hosts"),
    ("hosts: dns\n hosts: files\n", {}, "hosts: nsswitch.conf has two lines of hosts"),
    ("hosts: files\n#hosts: dns\nhost: dns\nhostsx: dns\n", {}, ""),
    ("hosts: files\npasswd files sss\n", {}, "passwd: the line of passwd in nsswitch.conf has no colon"),
    ("passwd: files\nhosts: files", {}, "hosts: the line of hosts in nsswitch.conf has no newline"),
    ("hosts: files\npasswd: files\n# remark", {}, ""),
    ("hosts: files\npasswd\n", {}, "passwd: the line of passwd in nsswitch.conf has no colon"),
    ("hosts: files\npasswd:\n", {}, "passwd: its list in nsswitch.conf names no service"),
    ("hosts: files\npasswd: # files\n", {}, "passwd: the line of passwd in nsswitch.conf has a # behind its name, which some C libraries take for a service"),
    ("hosts: files [NOTFOUND=return dns\n", {}, "hosts: its list in nsswitch.conf is not in form"),
    ("hosts: files [NOTFOUND=maybe]\n", {}, "hosts: its list in nsswitch.conf is not in form"),
    ("hosts: files [! NOTFOUND=return]\n", {}, "hosts: its list in nsswitch.conf is not in form"),
    ("hosts: [NOTFOUND=return] files\n", {}, "hosts: its list in nsswitch.conf is not in form"),
    ("hosts: files ! dns\n", {}, "hosts: its list in nsswitch.conf is not in form"),
    ("hosts: files []\n", {}, "hosts: its list in nsswitch.conf is not in form"),
    ("hosts: files ] dns\n", {}, "hosts: its list in nsswitch.conf is not in form"),
    ("hosts: files[!Success = Return  tryagain=CONTINUE][UNAVAIL=return]\n", {}, ""),
    ("hosts: files\npasswd: files[UNAVAIL=return]extrausers\n", {}, ""),
    ("hosts: files\npasswd: files[UNAVAIL=return]sss\n", {}, "passwd+ sss"),
    ("hosts: files\ngroup: files\ninitgroups: files\ninitgroups: sss\n", {}, "group+: nsswitch.conf has a line of initgroups"),
    ("hosts: files\npasswd: compat\npasswd_compat files\n", {"passwd": "+\n"}, "passwd: the line of passwd_compat in nsswitch.conf has no colon"),
    ("hosts:\tfiles [NOTFOUND=return]\n", {}, ""),
    (" hosts : files\npasswd:files systemd\n", {}, "passwd+ systemd"),
    # Groups are merged as the C library merges them only if all services are built in, and each before the last has this rule alone.
    ("hosts: files\ngroup: files [SUCCESS=merge] extrausers\n", {}, ""),
    ("hosts: files\ngroup: compat[ Success = Merge ]extrausers [SUCCESS=merge SUCCESS=merge] files [SUCCESS=merge]\n", {"group": "a:x:1:\n"}, ""),
    ("hosts: files\ngroup: db [SUCCESS=merge] files\n", {}, ""),
    ("hosts: files\ngroup: files [SUCCESS=merge] extrausers\ninitgroups: files\n", {}, "group+: nsswitch.conf has a line of initgroups"),
    ("hosts: files\ngroup: files [SUCCESS=merge] extrausers files\n", {}, f"group: {MERGE}"),
    ("hosts: files\ngroup: extrausers files [SUCCESS=merge] compat\n", {"group": "a:x:1:\n"}, f"group: {MERGE}"),
    ("hosts: files\ngroup: files [SUCCESS=merge] extrausers [SUCCESS=continue]\n", {}, f"group: {MERGE}"),
    ("hosts: files\ngroup: files [SUCCESS=merge NOTFOUND=continue] extrausers\n", {}, f"group: {MERGE}"),
    ("hosts: files\ngroup: files [!NOTFOUND=merge] extrausers\n", {}, f"group: {MERGE}"),
    ("hosts: files\ngroup: files [NOTFOUND=merge] extrausers\n", {}, f"group: {MERGE}"),
    ("hosts: files\ngroup: files [SUCCESS=merge] extrausers [SUCCESS=merge] systemd\n", {}, f"group: {MERGE}"),
    ("hosts: files\ngroup: files [SUCCESS=merge] [\n", {}, "group: its list in nsswitch.conf is not in form"),
    ("hosts: files\ngroup: sss [SUCCESS=merge] files\n", {}, f"group: {MERGE}"),
    ("hosts: files\ngroup: compat\ngroup_compat: files [SUCCESS=merge] extrausers\n", {"group": "+\n"}, f"group: {MERGE}"),
    ("hosts: files\npasswd: files [SUCCESS=merge] extrausers\n", {}, f"passwd: {MERGE}"),
    ("hosts: files [SUCCESS=merge] files\nservices: files [SUCCESS=merge] db\n", {}, f"hosts: {MERGE}; services: {MERGE}"),
    ("hosts: files\npasswd: extrausers files\ngroup: files extrausers\n", {}, f"group+: {SEVERAL}"),
    ("hosts: files\ngroup: extrausers\n", {}, ""),
    ("hosts: files\ngroup: db files\n", {}, ""),
    ("hosts: files\ngroup: compat [NOTFOUND=return] extrausers\n", {"group": "a:x:1:\n"}, f"group+: {SEVERAL}"),
    ("hosts: files extrausers\n", {}, "hosts extrausers"),
    ("hosts: files\nservices: db files\n", {}, ""),
    ("hosts: files\npasswd: compat\ngroup: compat\n", {}, ""),
    ("hosts: files\npasswd: compat\n", {"passwd": "root:x:0:0:::\n+\n"}, "passwd nis"),
    ("hosts: files\npasswd: compat\npasswd_compat: extrausers\n", {"passwd": "root:x:0:0:::\n+\n"}, ""),
    ("hosts: files\npasswd: compat\npasswd_compat: ldap\n", {"passwd": "-nobody\n"}, "passwd ldap"),
    ("hosts: files\npasswd: compat\npasswd_compat: files sss\n", {"passwd": "+\n"}, "passwd sss"),
    ("hosts: files\npasswd: compat\npasswd_compat: files\n", {"passwd": "-@staff\n+\n"}, "passwd: ETC/passwd has lines of netgroups"),
    ("hosts: files\npasswd: compat files\npasswd_compat: compat\n", {"passwd": "a:x:1:1:::\n"}, ""),
    ("hosts: files\ngroup: files\ninitgroups: files sss\n", {}, "group+: nsswitch.conf has a line of initgroups"),
    ("hosts: files\ninitgroups sss\n", {}, "group+: nsswitch.conf has a line of initgroups"),
    ("hosts: files\ngroup: sss files\ninitgroups: files sss\n", {}, "group sss"),
    ("hosts: files\npasswd: files\r\ngroup: files\n", {}, "passwd: its list in nsswitch.conf has a carriage return"),
    ("hosts: files # dns\r\n", {}, "hosts: the line of hosts in nsswitch.conf has a # behind its name, which some C libraries take for a service"),
    ("hosts: dns\npasswd: sss\ngroup: sss\nservices: sss\n", {}, "passwd sss; group sss; hosts dns; services sss"),
    # What is found in files that come first is the answer of the C library, too.
    ("hosts: files\npasswd: files sss\ngroup: files ldap systemd\nservices: files nis\n", {}, "passwd+ sss; group+ ldap; services+ nis"),
    ("hosts: files\npasswd: sss files\ngroup: files sss extrausers\nservices: nis files\n", {}, "passwd sss; group sss; services nis"),
    ("hosts: files\npasswd: files extrausers sss\ngroup: compat systemd\nservices: db files nis\n", {}, "passwd+ sss; group+ systemd; services+ nis"),
    ("hosts: files\npasswd: compat systemd\n", {"passwd": "+\n"}, "passwd nis"),
    ("hosts: files\npasswd: files compat systemd\n", {"passwd": "a:x:1:1:::\n+@staff\n"}, "passwd: ETC/passwd has lines of netgroups"),
    ("hosts: files\npasswd: files [NOTFOUND=return] sss\n", {}, "passwd+ sss"),
    ("hosts: files\npasswd: files [UNAVAIL=return NOTFOUND=continue !UNAVAIL=return] sss\n", {}, "passwd+ sss"),
    ("hosts: files\npasswd: files [SUCCESS=continue] sss\n", {}, "passwd sss"),
    ("hosts: files\npasswd: files [!NOTFOUND = Continue] sss\n", {}, "passwd sss"),
    ("hosts: files\npasswd: files [!SUCCESS=continue] sss\n", {}, "passwd+ sss"),
    ("hosts: files\npasswd: files sss [SUCCESS=continue] ldap\n", {}, "passwd+ sss"),
    ("hosts: files\npasswd: files sss\ngroup: files [SUCCESS=merge] sss\n", {}, f"passwd+ sss; group: {MERGE}"),
    ("hosts: files\npasswd: files sss\npasswd: files\n", {}, "passwd: nsswitch.conf has two lines of passwd"),
    ("hosts: files\npasswd: files sss\n", {"passwd": "ann:x:5:6\n"}, "passwd: line 1 of ETC/passwd has fewer than seven fields"),
    ("hosts: files\npasswd: sss files\n", {"passwd": "ann:x:5:6\n"}, "passwd sss"),
)

NOT_RUNNING = "nscd: it does not run; where it is started:\n"
OTHERWISE = "nscd: it runs as it was judged before; from a reload on:\n"


def verdict(reason):
    """The database that a reason is about, and what is said of it."""
    name, _, why = reason.partition(" ")
    found = name.rstrip(":").endswith("+")
    why = why if name.endswith(":") else f"nsswitch.conf asks {why} for it"
    return name.rstrip(":+"), f"is served found only, since {why}" if found else f"is left to the C library, since {why}"


def lines_of(wanted):
    """What is said of the databases that are not served whole."""
    return "".join("nscd: {} {}\n".format(*verdict(reason)) for reason in wanted.split("; ") if reason)


def all_of(wanted):
    """What is said of each database."""
    said = dict.fromkeys(DATABASES, "is served whole") | dict(verdict(reason) for reason in wanted.split("; ") if reason)
    return "".join(f"nscd: {name} {said[name]}\n" for name in DATABASES)


def says(serve, word, **environment):
    """The output of nscd-serve, which says nothing on standard error and ends with 0."""
    kept = {name: value for name, value in os.environ.items() if name != "NSCD_SERVE"}
    done = subprocess.run([serve, word], capture_output=True, env=kept | environment, timeout=20, check=False)
    check(done.stderr == b"" and done.returncode == 0, f"nscd-serve {word}: status {done.returncode}: {done.stderr!r}")
    return done.stdout.decode()
