"""Files by a grammar with faults, and the replies over them, held against the rules, read plainly."""

import sys

sys.dont_write_bytecode = True
import contents
import frames
import seeded
from running import PROGRAM

PIECES = 64
SEED, COUNT = 1, 100_000  # files
TOGETHER = 15  # contents of one replay
KEYS = 2  # of each kind
NO_CACHE = "".join(f"enable-cache {database} no\n" for database in frames.DATABASES).encode()
NUMBERS = ("4294967295", "4294967296", "4294967294", "0", "00", "0000000000007", "-1", "+1", "1a", "", " 1", "65535", "65536", "18446744073709551617")
COMPAT = [
    *seeded.COMPAT,
    *["++", "+ NAME", "- NAME", "+\tNAME", "+@", "-@NAME:x:::::", "+NAME:", "+:::::", "+::::::", "+NAME::::::", "+NAME:P:x:y:G:D:S:", "-NAME\t", "-"],
    *["+NAME:*:ID:OTHER,NAME", "+:::", "-NAME:::", "--NAME", "#+", " +", "\t-NAME:x:1:1:::"],
]
TOKENS = (
    *("files", "extrausers", "compat", "db", "nis", "dns", "Files", "files\r", "[", "]", "[", "]", "!", "=", "#", "\0", "\xff", " ", "\t", " ", ""),
    *("[NOTFOUND=return]", "[ success = CONTINUE ]", "[!UNAVAIL=return]", "[TRYAGAIN=merge]", "[SUCCESS=merge]", "[]", "[ ]", "[!]", "[=]", "[a=b]"),
    *("[NOTFOUND=return NOTFOUND=continue]", "[NOTFOUND=returnSUCCESS=continue]", "[! NOTFOUND=return]", "[!!NOTFOUND=return]", "[NOTFOUND==return]"),
    *("[NOTFOUND return]", "[NOTFOUND=]", "[=return]", "[NOTFOUND=return", "NOTFOUND=return]", "[[NOTFOUND=return]]", "[NOTFOUND=return;]"),
    *("[SUCCESS=continue !SUCCESS=return]", "[UNAVAIL=RETURN\tNOTFOUND=Continue]", "[NOTFOUND = return\r]", "[NOTFOUND=ret\0urn]"),
)
NAMES = ("passwd", "group", "hosts", "services", "passwd_compat", "group_compat")


class Maker(contents.Maker):
    """Contents at random, with faults in most files, the requests over them, and the replies that these must have."""

    def __init__(self, seed):
        super().__init__(seed)
        self.files_made = 0

    def list_line(self):
        """A line of a service list, of right pieces and others."""
        pick = self.dice.choice
        tokens = [pick(TOKENS) for _ in range(self.dice.randint(0, 6))]
        front = pick(["", "", "", " ", "\t", "#", "x"]) + pick([*NAMES, *NAMES, "passwd_", "Passwd", "passw", "hosts_compat", ""])
        text = pick([" ", " ", "", "\t"]).join([pick(["files", "compat", "extrausers", ""]), *tokens])
        return front + pick(["", "", " ", "\t ", "\r"]) + pick([":", ":", ":", ":", "", "::"]) + pick([" ", "", "\t"]) + text

    def switch(self):
        lists = [f"{name}: {self.dice.choice(seeded.GROUP_LISTS if name.startswith('group') else seeded.LISTS)}" for name in NAMES]
        lines = [self.list_line() if self.dice.random() < 0.5 else self.dice.choice(lists) for _ in range(self.dice.randint(0, 10))]
        return "\n".join(lines).encode("latin1") + self.dice.choice([b"", b"\n"])

    def wild(self, line):
        """The line with a fault."""
        how, at = self.dice.randrange(9), self.dice.randint(0, len(line))
        separators = [place for place, byte in enumerate(line) if byte in b":,/ \t"]
        if how == 0:
            return line[:at] + self.dice.choice([b"\0", b"\0\0", b"\r"]) + line[at:]
        if how == 1:
            return line[:at] + bytes(self.dice.randint(128, 255) for _ in range(self.dice.randint(1, 3))) + line[at:]
        if how == 2:
            return line + self.dice.choice([b"\r", b" ", b"\t", b"#", b" #", b":", b",", b"/"])
        if how == 3:
            return line[:at] + self.dice.choice([b" ", b"\t", b" \t ", b"\x0b", b"\x0c"]) + line[at:]
        if how == 4:
            length = self.dice.choice([1100] * 6 + [70_000])
            return line[:at] + self.dice.choice([b"a", b" ", b"9", b"0", b",", b"\xe9", b":"]) * length + line[at:]
        if how == 5 and separators:
            place = self.dice.choice(separators)
            return line[:place] + self.dice.choice([b"", line[place : place + 1] * 2]) + line[place + 1 :]
        if how == 6:
            return line[:at]
        if how == 7:
            return self.dice.randbytes(self.dice.randint(1, 60)).replace(b"\n", b"")
        return line[:at] + self.dice.choice([b"#", b"+", b"-", b"@", b"\x80"]) + line[at:]

    def filled(self, line):
        if self.dice.random() < 0.15:
            line = line.replace("ID", self.dice.choice(NUMBERS), 1)
        return super().filled(line)

    def file(self, name):
        if name == "switch":
            return super().file(name) if self.dice.random() < 0.3 else self.switch()
        pool = {"passwd": seeded.ACCOUNTS, "group": seeded.GROUPS, "hosts": seeded.HOSTS, "services": seeded.SERVICES}
        pool |= {"extra-passwd": seeded.ACCOUNTS, "extra-group": seeded.GROUPS, "netgroup": seeded.NETGROUPS}
        lines = list(pool[name])
        if name in ("passwd", "group"):
            lines += self.dice.choice([[], COMPAT])
        made = [self.filled(self.dice.choice(lines)).encode("latin1") for _ in range(self.dice.choice([0, 1, 10, 30, 40]))]
        made = [self.wild(line) if self.dice.random() < 0.1 else line for line in made]
        return b"\n".join(made) + self.dice.choice([b"", b"\n", b"\n\n", b"\0"])

    def key(self, kind):
        if kind in ("uid", "gid") and self.dice.random() < 0.2:
            return self.dice.choice(NUMBERS).encode()
        return super().key(kind)

    def content(self):
        for name in frames.FILES:
            self.files[name] = self.file(name) if self.dice.random() < 0.95 else None
            self.frames += frames.set_file(name, self.files[name])
            self.files_made += 1
        for kind in frames.TYPES:
            for _ in range(KEYS):
                key = self.key(kind)
                self.ask(kind, self.altered(key) if self.dice.random() < 0.3 else key)

    def make(self):
        for _ in range(TOGETHER):
            self.content()
        self.frames += frames.END


def replays(work):
    """Replays of some seeds: files, lookups, entries found, and the first differences."""
    files = lookups = found = 0
    faults = []
    for seed in work:
        maker = Maker(seed)
        maker.make()
        status, output, said = frames.replay(PROGRAM, maker.frames, NO_CACHE)
        came, rest = frames.replies(output)
        files += maker.files_made
        lookups += len(maker.wanted)
        found += sum(reply[4:5] == b"\x01" for reply in maker.wanted)
        if (status, came, rest) != (0, maker.wanted, b""):
            wrong = [place for place, pair in enumerate(zip(came, maker.wanted)) if pair[0] != pair[1]]
            first = f"; the first is {came[wrong[0]].hex()}, and not {maker.wanted[wrong[0]].hex()}" if wrong else ""
            faults.append(f"{seed}: status {status} {said}, other replies at {wrong[:5]}{first}")
    return files, lookups, found, faults


def trial(pool, count=COUNT, seed=SEED):
    rounds = -(-count // (TOGETHER * len(frames.FILES)))
    seeds = [f"files {seed}-{number}" for number in range(rounds)]
    rows = pool.map(replays, [seeds[place::PIECES] for place in range(PIECES)], chunksize=1)
    files, lookups, found = (sum(row[place] for row in rows) for place in range(3))
    line = f"{files} files of seed {seed} by a grammar with faults, {lookups} lookups over them, {found} entries found"
    return line, [fault for row in rows for fault in row[3]]
