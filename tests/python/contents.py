"""Makes files at random, asks each of every kind of request, and compares each answer with that of the rules, read plainly.

The names of the files differ by a byte, by their case, or by their length; a key is one of them, or one that differs so from one.
"""

import sys

sys.dont_write_bytecode = True
import frames
import rules
import seeded

NAMES = ["ann", "bob", "cid", "eve", "anm", "aob", "evf", "an", "anna", "Bob", "b", "zoe", "cic", "cie", "a-b", "a_b"]
FEWEST, MOST = 0, 40
KEYS = 5  # of each kind
IDS = 12


class Maker(seeded.Maker):
    """Files at random, the requests over them, and the answers that these must have."""

    def __init__(self, seed):
        super().__init__(seed)
        self.conf = b""

    def filled(self, line):
        pick = self.dice.choice
        line = line.replace("NAMES", ",".join(pick(NAMES) for _ in range(self.dice.randint(1, 6))))
        return line.replace("NAME", pick(NAMES)).replace("OTHER", pick(NAMES)).replace("ID", str(self.dice.randint(0, IDS)))

    def file(self, name):
        if name == "switch":
            return super().file(name)
        pool = {"passwd": seeded.ACCOUNTS, "group": seeded.GROUPS, "hosts": seeded.HOSTS, "services": seeded.SERVICES}
        pool |= {"extra-passwd": seeded.ACCOUNTS, "extra-group": seeded.GROUPS, "netgroup": seeded.NETGROUPS}
        lines = list(pool[name])
        if name in ("passwd", "group"):
            lines += self.dice.choice([[], seeded.COMPAT])
        made = [self.filled(self.dice.choice(lines)) for _ in range(self.dice.randint(FEWEST, MOST))]
        return ("\n".join(made) + self.dice.choice(["", "\n"])).encode()

    def altered(self, key):
        """A key that differs from this one by a byte: another one, one more, one less, or the case of one."""
        at = self.dice.randrange(len(key)) if key else 0
        return self.dice.choice(
            [
                key[:at] + bytes([self.dice.randint(1, 255)]) + key[at + 1 :],
                key[:at] + b"a" + key[at:],
                key[:at] + key[at + 1 :],
                key[:at] + key[at : at + 1].swapcase() + key[at + 1 :],
            ]
        )

    def key(self, kind):
        pick, number = self.dice.choice, self.dice.randint(0, IDS)
        if kind in ("uid", "gid"):
            return pick([b"%d", b"%d", b"0%d"]) % number
        if kind in ("address", "address6"):
            return pick([bytes([10, 0, 0, number]), b"\xfd" + bytes(14) + bytes([number])])
        if kind == "service":
            return pick(NAMES).encode() + pick([b"", b"/", b"/tcp", b"/udp", b"/tcp/x"])
        if kind == "port":
            return pick([b"%d" % (number * 256), b"65535"]) + pick([b"", b"/", b"/tcp", b"/udp"])
        return pick(NAMES).encode()

    def ask(self, kind, key):
        is_address = kind in ("address", "address6")
        self.wanted.append(rules.answer(self.files, kind, key if is_address else key.split(b"\0")[0])[0])
        self.frames += frames.look_up(kind, key if is_address else key + b"\0")

    def make(self):
        for name in frames.FILES:
            if self.dice.random() < 0.9:
                self.files[name] = self.file(name)
                self.frames += frames.set_file(name, self.files[name])
        for kind in frames.TYPES:
            for turn in range(KEYS):
                key = self.key(kind)
                self.ask(kind, self.altered(key) if turn % 2 else key)
        self.frames += frames.END


def main():
    program = frames.program()
    count, start = seeded.argument(1, 1000), seeded.argument(2, 0)
    asked = found = broken = 0
    for seed in range(start, start + count):
        maker = Maker(seed)
        maker.make()
        status, output, said = frames.replay(program, maker.frames, maker.conf)
        came, rest = frames.replies(output)
        asked += len(maker.wanted)
        found += sum(reply[4:5] == b"\x01" for reply in maker.wanted)
        if (status, came, rest) != (0, maker.wanted, b""):
            broken += 1
            wrong = [place for place, pair in enumerate(zip(came, maker.wanted)) if pair[0] != pair[1]]
            print(f"seeded-contents: seed {seed}: status {status} {said}, other replies at {wrong[:5]}", file=sys.stderr)
    print(f"seeded-contents: {count} contents, {asked} lookups, {found} entries found, {broken} faults")
    sys.exit(bool(broken))


if __name__ == "__main__":
    main()
