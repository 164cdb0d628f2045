"""Lookups of one process by the C library, a line each with what it found: python3 lookups.py FILE, whose lines are a call and its words."""

import ctypes
import grp
import os
import pwd
import socket
import sys

LIBRARY = ctypes.CDLL(None)
FAMILIES = {"any": socket.AF_UNSPEC, "four": socket.AF_INET, "six": socket.AF_INET6}


def addresses(name, family):
    return sorted({(one[0].name, one[4][0], one[3]) for one in socket.getaddrinfo(name, None, FAMILIES[family], 0, 0, socket.AI_CANONNAME)})


def netgroup(name):
    """The triples of a netgroup, and whether a user is in it."""
    words = [ctypes.c_char_p() for _ in range(3)]
    LIBRARY.setnetgrent(name.encode())
    found = []
    while LIBRARY.getnetgrent(*map(ctypes.byref, words)):
        found.append([word.value for word in words])
    LIBRARY.endnetgrent()
    return found, bool(LIBRARY.innetgr(name.encode(), None, b"ann", None))


CALLS = {
    "getpwnam": pwd.getpwnam,
    "getpwuid": lambda uid: pwd.getpwuid(int(uid)),
    "getgrnam": grp.getgrnam,
    "getgrgid": lambda gid: grp.getgrgid(int(gid)),
    "initgroups": lambda name: os.getgrouplist(name, 7),
    "setofgroups": lambda name: sorted(set(os.getgrouplist(name, 7))),
    "getaddrinfo": addresses,
    "gethostbyname": socket.gethostbyname_ex,
    "gethostbyaddr": socket.gethostbyaddr,
    "getservbyname": socket.getservbyname,
    "getservbyport": lambda port, *protocol: socket.getservbyport(int(port), *protocol),
    "netgroup": netgroup,
}


def main(path):
    with open(path, encoding="utf-8") as lines:
        for line in lines:
            call, *words = line.split()
            try:
                found = CALLS[call](*words)
            except (KeyError, OSError) as error:
                found = f"{type(error).__name__} {error}"
            print(line.strip(), found)


main(sys.argv[1])
