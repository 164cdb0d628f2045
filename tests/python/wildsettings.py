"""Settings by a grammar with faults, and the program's verdict on each, held against a second reading of nscd.conf(5)."""

import os
import random
import re
import tempfile

from frames import last_line
from spawning import Runner

PIECES = 16  # with a seed each
SEED, COUNT = 1, 20_000
SERVICES = (b"passwd", b"group", b"hosts", b"services", b"netgroup")
ANSWER, NUMBER, SIZE, RELOADS, ANY = "answer", "number", "size", "reloads", "any"
# What stands behind each attribute: whether a service does, and which value.
ATTRIBUTES = {
    b"enable-cache": (True, ANSWER),
    b"positive-time-to-live": (True, NUMBER),
    b"negative-time-to-live": (True, NUMBER),
    b"suggested-size": (True, SIZE),
    b"check-files": (True, ANSWER),
    b"persistent": (True, ANSWER),
    b"shared": (True, ANSWER),
    b"max-db-size": (True, NUMBER),
    b"auto-propagate": (True, ANSWER),
    b"threads": (False, NUMBER),
    b"reload-count": (False, RELOADS),
    b"max-threads": (False, NUMBER),
    b"debug-level": (False, NUMBER),
    b"restart-interval": (False, NUMBER),
    b"paranoia": (False, ANSWER),
    b"logfile": (False, ANY),
    b"server-user": (False, ANY),
    b"stat-user": (False, ANY),
}
VALUES = {
    ANSWER: ([b"yes", b"no"], [b"Yes", b"y", b"NO", b"1", b"yes\r", b"no\0"]),
    NUMBER: ([b"0", b"1", b"600", b"007", b"4294967295", b"0" * 30 + b"5"], [b"4294967296", b"-1", b"+1", b"1x", b"0x10", b"1.5", b"9" * 5000, b"\xb2"]),
    SIZE: ([b"1", b"211", b"2", b"00001"] * 8 + [b"65536"], [b"0", b"65537", b"000", b"-1", b"4294967296", b"4294967297", b"two"]),
    RELOADS: (
        [b"0", b"5", b"254", b"255", b"4294967295", b"0x0", b"0xfF", b"0xffffffff", b"0x00000001", b"unlimited", b"UnLimited", b"00"],
        [b"0x", b"0X1", b"0x100000000", b"0x000000001", b"0xg", b"x1", b"unlimite", b"unlimitedx", b"-1", b"4294967296", b"\xb5nlimited"],
    ),
    ANY: ([b"nscd", b"/var/log/nscd.log", b"\xff", b"\0", b"a" * 1100, b"0"], []),
}
BLANKS = (b" ", b"\t", b"  ", b" \t ", b"\t\t\t")


def decimal(word):
    digits = word.lstrip(b"0")
    return int(digits or b"0") if re.fullmatch(rb"[0-9]+", word) and len(digits) <= 10 and int(digits or b"0") < 2**32 else None


def is_value(what, word):
    if what == ANSWER:
        return word in (b"yes", b"no")
    if what == NUMBER:
        return decimal(word) is not None
    if what == SIZE:
        return 1 <= (decimal(word) or 0) <= 65_536
    if what == RELOADS:
        return decimal(word) is not None or re.fullmatch(rb"0x[0-9a-fA-F]{1,8}", word) is not None or word.lower() == b"unlimited"
    return True


def fault_of(line):
    """What is wrong with a line, or None."""
    words = [word for word in re.split(rb"[ \t]+", line.split(b"#")[0]) if word]
    if not words:
        return None
    if words[0] not in ATTRIBUTES:
        return "unknown attribute"
    has_service, what = ATTRIBUTES[words[0]]
    if len(words) != (3 if has_service else 2) or (has_service and words[1] not in SERVICES):
        return "bad line"
    return None if is_value(what, words[-1]) else "bad value"


def verdict(text):
    """The status of the program over these settings, and its last line."""
    for number, line in enumerate(text.split(b"\n"), 1):
        if fault := fault_of(line):
            return 6, f"nscd: configuration line {number}: {fault}"
    return 0, ""


class Maker:
    """Settings at random, most lines of which are right."""

    def __init__(self, seed):
        self.dice = random.Random(seed)

    def line(self):
        pick = self.dice.choice
        attribute = pick(list(ATTRIBUTES))
        has_service, what = ATTRIBUTES[attribute]
        right, wrong = VALUES[what]
        words = [attribute, *([pick(SERVICES)] if has_service else []), pick(right)]
        how = self.dice.random()
        if how < 0.03 and wrong:
            words[-1] = pick(wrong)
        elif how < 0.05:
            words = pick([words[:-1], words + [b"more"], words[:1], words + words])
        elif how < 0.06 and has_service:
            words[1] = pick([b"Passwd", b"passw", b"shadow", b"passwd:", b"networks", b"passwd\0"])
        elif how < 0.08:
            words[0] = pick([attribute.upper(), attribute[:-1], attribute + b"s", b"", b"colour", b"\xef\xbb\xbf" + attribute, attribute.replace(b"-", b"_")])
        return words

    def spelled(self, words):
        """The line of these words, with blanks, a remark or a byte that does not belong there."""
        pick = self.dice.choice
        line = pick([b"", b"", *BLANKS]) + b"".join(pick(BLANKS) + word for word in words)[1:] + pick([b"", b"", *BLANKS])
        how = self.dice.random()
        if how < 0.1:
            return line + pick([b"# a remark", b"#", b" #\0\xff", b"#" * 1100])
        if how < 0.12:
            at = self.dice.randint(0, len(line))
            return line[:at] + pick([b"\0", b"\r", b"\x80", b"\x0b", b"#", b" ", b"="]) + line[at:]
        if how < 0.125:
            return pick([b" " * 70_000, b"#" * 70_000]) + line
        return line

    def text(self):
        empty = [b"", b"# nothing", b"\t", b"#\0"]
        lines = [self.dice.choice(empty) if self.dice.random() < 0.2 else self.spelled(self.line()) for _ in range(self.dice.randint(0, 30))]
        return b"\n".join(lines) + self.dice.choice([b"", b"\n"])


def verdicts(work):
    """Settings of one seed: how often each verdict came, and the first differences."""
    seed, count = work
    maker, runner, came, faults = Maker(f"settings {seed}"), Runner(b"E"), {}, []
    with tempfile.NamedTemporaryFile(prefix="nscd-conf-") as file:
        for number in range(count):
            text = maker.text()
            os.ftruncate(file.fileno(), 0)
            os.pwrite(file.fileno(), text, 0)
            runner.start("--replay", "-f", file.name)
            output, said, status = runner.end()
            wanted = verdict(text)
            kind = wanted[1].rpartition(": ")[2] or "accepted"
            came[kind] = came.get(kind, 0) + 1
            if (status, last_line(said), output) != (*wanted, b""):
                faults.append(f"seed {seed}, settings {number}: it ends with {said!r}, {status}, and not {wanted}: {text[:3000].hex()}")
    runner.close()
    return came, faults[:5]


def trial(pool, count=COUNT, seed=SEED):
    rows = pool.map(verdicts, [(f"{seed}-{piece}", count // PIECES + (piece < count % PIECES)) for piece in range(PIECES)], chunksize=1)
    came = {}
    for some, _ in rows:
        for kind, number in some.items():
            came[kind] = came.get(kind, 0) + number
    named = ", ".join(f"{number} {kind}" for kind, number in sorted(came.items()))
    return f"{sum(came.values())} settings of seed {seed}, of which the program says {named}", [fault for _, faults in rows for fault in faults]
