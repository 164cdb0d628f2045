"""A second reading of the gate: what a line asks, and the line that answers it, by the bytes of the replies at the daemon's other socket.

A reply is taken apart here by the layout of the protocol alone, and an address is read and printed by python's own library.
"""

import ipaddress
import re
import struct

NUMBER = re.compile(rb"[0-9]+")
KEY = re.compile(rb"[^ \t]+")
LONGEST_KEY = 1024
FAMILIES = {4: "address", 16: "address6"}


def decimal(text, limit):
    """The number that this text is, where it is one below the limit."""
    return int(text) if NUMBER.fullmatch(text) and int(text) < limit else None


def address(text):
    """The bytes of the address that this text is, where it is one."""
    try:
        return ipaddress.ip_address(text.decode("ascii")).packed if b"%" not in text else None
    except ValueError:
        return None


def asked(line):
    """The requests that a line may ask, one after the other until one is found: kinds and keys. None for a bad line."""
    name, blank, key = line.partition(b" ")
    if not blank or not KEY.fullmatch(key) or len(key) > LONGEST_KEY:
        return None
    if name == b"passwd":
        requests = [("uid" if decimal(key, 2**32) is not None else "user", key)]
    elif name == b"group":
        requests = [("gid" if decimal(key, 2**32) is not None else "group", key)]
    elif name == b"hosts":
        packed = address(key)
        requests = [(FAMILIES[len(packed)], packed)] if packed else [("host", key), ("host6", key)]
    elif name == b"services":
        front, slash, back = key.rpartition(b"/")
        front, back = (front, back) if slash else (key, b"")
        port = decimal(front, 2**16)
        if port is None:
            requests = [("service", key)]
        else:
            requests = [("port", b"%d/%s" % ((port & 0xFF) << 8 | port >> 8, back))]
    else:
        return None
    return None if any(len(key) > LONGEST_KEY for _, key in requests) else requests


class Pieces:
    """Bytes that are taken from the front."""

    def __init__(self, taken):
        self.rest = taken

    def numbers(self, count):
        front, self.rest = self.rest[: 4 * count], self.rest[4 * count :]
        return struct.unpack(f"<{count}i", front)

    def part(self, size):
        front, self.rest = self.rest[:size], self.rest[size:]
        return front

    def text(self, size):
        """A text, whose length counts its zero byte."""
        front = self.part(size)
        assert front.endswith(b"\0")
        return front[:-1]


def user_text(pieces):
    name, password = pieces.numbers(2)
    uid, gid = (number & 0xFFFFFFFF for number in pieces.numbers(2))
    sizes = pieces.numbers(3)
    name, password, *texts = (pieces.text(size) for size in (name, password, *sizes))
    return b":".join([name, password, b"%d" % uid, b"%d" % gid, *texts])


def group_text(pieces):
    name, password, gid, count = pieces.numbers(4)
    sizes = pieces.numbers(count)
    name, password = pieces.text(name), pieces.text(password)
    return b":".join([name, password, b"%d" % (gid & 0xFFFFFFFF), b",".join(pieces.text(size) for size in sizes)])


def host_text(pieces):
    name, aliases, _, size, count, _ = pieces.numbers(6)
    name = pieces.text(name)
    sizes = pieces.numbers(aliases)
    packed = pieces.part(size * count)
    printed = str(ipaddress.ip_address(packed[:size])).encode()
    return b" ".join([printed, name, *(pieces.text(size) for size in sizes)])


def service_text(pieces):
    name, protocol, aliases, port = pieces.numbers(4)
    name, protocol = pieces.text(name), pieces.text(protocol)
    sizes = pieces.numbers(aliases)
    port = port & 0xFFFF
    return b" ".join([name, b"%d/%s" % ((port & 0xFF) << 8 | port >> 8, protocol), *(pieces.text(size) for size in sizes)])


TEXTS = {
    "user": user_text, "uid": user_text, "group": group_text, "gid": group_text, "host": host_text, "host6": host_text,
    "address": host_text, "address6": host_text, "service": service_text, "port": service_text,
}  # fmt: skip


def reply_text(kind, reply):
    """The line of a reply, without its newline; None where it has no entry."""
    pieces = Pieces(reply)
    version, found = pieces.numbers(2)
    assert version == 2
    if found != 1:
        return None
    text = TEXTS[kind](pieces)
    assert pieces.rest == b""
    return text


def answer(line, ask):
    """The line that answers a line, where this gives the reply to a kind and a key."""
    requests = asked(line)
    if requests is None:
        return b"bad line\n"
    for kind, key in requests:
        if kind not in FAMILIES.values() and b"\0" in key:
            continue  # No entry has such a name, and the other socket would cut it at that byte.
        text = reply_text(kind, ask(kind, key))
        if text is not None:
            return text + b"\n"
    return b"not found\n"
