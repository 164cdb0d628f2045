"""A second reading of the protocol: what a connection must be answered, by the bytes that it sends and the files."""

import re
import struct

import frames
import gate
import rules
from running import GETSTAT, INVALIDATE, SHUTDOWN

VERSION, LAST_TYPE, LONGEST_KEY, LONGEST_LINE = 2, 21, 1024, 1100
KINDS = {number: kind for kind, number in frames.TYPES.items()}
ADDRESSES = ("address", "address6")
DONE, UNKNOWN = struct.pack("<i", 0), struct.pack("<i", 22)
COUNTS = r"""{} cache:
enabled yes
hits \d+
negative hits \d+
misses \d+
negative misses \d+
entries \d+
used words \d+ of \d+
invalidations \d+
compactions \d+
not added \d+

"""
STATISTICS = re.compile("".join(map(COUNTS.format, frames.DATABASES)).encode())
WHOLE, PART, BAD = "whole", "part", "bad"


def asked(sent):
    """Whether these bytes are a request, a part of one, or none; of a request its type and its key."""
    if len(sent) < 12:
        return PART, None, None
    version, number, length = struct.unpack_from("<3i", sent)
    if version != VERSION or not 0 <= number <= LAST_TYPE or not 0 <= length <= LONGEST_KEY:
        return BAD, None, None
    if len(sent) < 12 + length:
        return PART, None, None
    return WHOLE, number, sent[12 : 12 + length]


def text(key):
    """A key that is a text ends at its first zero byte."""
    return key.split(b"\0")[0]


class Answers:
    """The answers over files, each worked out once."""

    def __init__(self, files):
        self.files, self.known = files, {}

    def look_up(self, kind, key):
        if (kind, key) not in self.known:
            self.known[kind, key] = rules.answer(self.files, kind, key)[0]
        return self.known[kind, key]

    def to_request(self, sent):
        """The bytes that answer these at the socket of everyone."""
        what, number, key = asked(sent)
        if what != WHOLE or number not in KINDS:
            return b""
        kind = KINDS[number]
        return self.look_up(kind, key if kind in ADDRESSES else text(key))

    def is_answer_to_order(self, sent, came):
        """Whether these bytes answer those at the socket of the administrator."""
        what, number, key = asked(sent)
        if what == WHOLE and number == GETSTAT:
            return STATISTICS.fullmatch(came) is not None
        if what == WHOLE and number == INVALIDATE:
            return came == (DONE if text(key).decode("latin1") in frames.DATABASES else UNKNOWN)
        if what == WHOLE and number == SHUTDOWN:
            return came == DONE
        return came == self.to_request(sent)

    def to_lines(self, sent):
        """The lines that answer these bytes at the gate, and whether a line among them is too long, which closes the connection."""
        lines = sent.split(b"\n")
        if not lines[-1]:
            lines.pop()
        found = []
        for line in lines:
            if len(line) > LONGEST_LINE:
                return b"".join(found), True
            found.append(gate.answer(line, self.look_up))
        return b"".join(found), False
