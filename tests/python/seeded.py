"""Makes replays at random, runs the program on them, and compares its replies with those of the rules, read plainly."""

import random
import sys
from dataclasses import dataclass, field

sys.dont_write_bytecode = True
import frames
import rules

READ_BY = {
    "passwd": ["switch", "passwd", "extra-passwd"],
    "group": ["switch", "group", "extra-group"],
    "hosts": ["switch", "hosts"],
    "services": ["switch", "services"],
}
SETTINGS = {
    "enabled": "enable-cache",
    "check": "check-files",
    "propagate": "auto-propagate",
    "size": "suggested-size",
    "positive": "positive-time-to-live",
    "negative": "negative-time-to-live",
}
LIVES = {"passwd": (3600, 20), "group": (3600, 60), "hosts": (3600, 20), "services": (28800, 20)}

# What files are made of: lines in form and out of it.
NAMES = ["ann", "bob", "cid", "eve"]
LISTS = [
    *["files extrausers", "extrausers files", "compat", "compat [NOTFOUND=return] extrausers"] * 4,
    "files",
    "files [UNAVAIL=return] extrausers",
    "extrausers [SUCCESS=continue] files",
    "nis [!UNAVAIL=return] compat",
    "files [!SUCCESS=return TRYAGAIN=continue] extrausers",
    "files [!SUCCESS=return NOTFOUND=continue]\textrausers",
    "files[notfound=MERGE]extrausers",
    "db files",
    "files [",
    "files [NOTFOUND = return extrausers",
    "[SUCCESS=return] extrausers",
    "files ! extrausers",
    "",
]
GROUP_LISTS = LISTS + 3 * [
    *["files [SUCCESS=merge] extrausers", "extrausers [SUCCESS=merge] compat"] * 4,
    "compat [SUCCESS=merge] extrausers [SUCCESS=merge] files",
    "files [SUCCESS=merge] extrausers [SUCCESS=continue] nis",
    "files[Success=Merge]extrausers [SUCCESS=continue]",
    "files [!UNAVAIL=merge] extrausers",
    "extrausers [SUCCESS=merge] files [NOTFOUND=merge UNAVAIL=return] extrausers",
]
ACCOUNTS = [
    *["NAME:x:ID:100:G NAME:/home/NAME:/bin/sh"] * 4,
    *["  NAME::ID:ID:::", "NAME:x:ID", "#NAME:x:ID:1:::", "NAME:x:x:1:::", "NAME:x:ID:1::\0:"],
]
GROUPS = [
    *["NAME:x:ID:NAMES"] * 3,
    *["ann:x:1:NAMES", "bob:x:2:NAMES", "cid:x:3:NAMES", "eve:x:4:NAMES"] * 2,
    *[" NAME::ID:", "NAME:x:ID:NAMES:", "NAME:x:99999999999:NAMES", "NAME:x:ID:,NAMES,,OTHER"],
]
COMPAT = [
    *["+", "-NAME", "+NAME", "-", "-@x", "+@x", " \t-NAME", "-NAME:x", "-NAME\0"],
    *["+NAME:P:1:2:G:/d:/s", "+::::H::", "+NAME:x:1:OTHER"],
]
IN_FORM = {
    "switch": [f"{name}: {own}" for name in ("passwd", "group") for own in ("compat", "files extrausers", "files [SUCCESS=merge] extrausers")]
    + [f"{name}_compat: extrausers" for name in ("passwd", "group")] * 2,
    "passwd": [*ACCOUNTS[:3], "-NAME", "+"],
    "extra-passwd": ACCOUNTS[:1],
    "group": [*GROUPS[:3], "-NAME", "+"],
    "extra-group": GROUPS[:1],
}
HOSTS = [
    *["10.0.0.ID NAME", "10.0.0.ID NAME OTHER # ann", "fd00::ID NAME", "\tFD00::ID\tOTHER NAME"],
    *["::ffff:10.0.0.ID NAME", "10.0.0 NAME", "10.0.0.ID # NAME", "fd00:::ID NAME"],
]
NETGROUPS = ["NAME (,OTHER,) (-,NAME,)", "NAME OTHER", "NAME", "# NAME", "NAME (OTHER,", "NAME \\"]
SERVICES = [
    *["NAME ID/tcp", "NAME ID/udp OTHER # x", "NAME\t65535/tcp", "NAME ID/tcp/x"],
    *["NAME 65536/tcp", "NAME ID", "NAME ID/ OTHER"],
]


@dataclass
class Entry:
    kind: str
    key: bytes
    reply: bytes
    is_not_found: bool
    timeout: int
    reloads: int

    def words(self):
        return 8 + -(-len(self.key) // 8) + -(-len(self.reply) // 8)


@dataclass
class Cache:
    """The cache of one database."""

    database: str
    settings: dict
    reloads: int
    newest: dict = field(default_factory=lambda: dict.fromkeys(frames.FILES))
    version: int = 0
    ticked: int = 0
    entries: list = field(default_factory=list)
    propagated: int = 0  # entries by id that requests by name have made

    def poll(self, files):
        part = {name: files[name] if name in READ_BY[self.database] else None for name in frames.FILES}
        if part != self.newest:
            self.newest = part
            self.version += 1

    def live(self, kind, key):
        """The live entry of a request; None where there is none."""
        return next((entry for entry in self.entries if (entry.kind, entry.key) == (kind, key)), None)

    def insert(self, kind, key, now, reloads):
        """The reply to a request over the newest files, and whether it is kept: where the cache is enabled and it fits."""
        reply, is_not_found = rules.answer(self.newest, kind, key)
        lives = self.settings["negative" if is_not_found else "positive"]
        entry = Entry(kind, key, reply, is_not_found, now + lives, reloads)
        free = 128 * self.settings["size"] - sum(other.words() for other in self.entries)
        is_kept = self.settings["enabled"] and len(reply) <= 65536 and entry.words() <= free
        if is_kept:
            self.entries.append(entry)
        return reply, is_kept

    def propagate(self, kind, key, now):
        """Keeps the answer to the request by the id of the row that a request by name finds, unless one is live."""
        beside = rules.by_id(self.newest, kind, key) if self.settings["propagate"] else None
        if beside and not self.live(*beside):
            self.propagated += self.insert(*beside, now, 0)[1]

    def look_up(self, files, kind, key, now):
        entry = self.live(kind, key)
        if entry:
            entry.reloads = 0
            return entry.reply
        self.poll(files)
        reply, is_kept = self.insert(kind, key, now, 0)
        if is_kept:
            self.propagate(kind, key, now)
        return reply

    def tick(self, files, now):
        if not self.settings["enabled"]:
            return
        self.poll(files)
        changed, self.ticked = self.version != self.ticked, self.version
        if changed and self.settings["check"]:
            self.entries = []
            return
        due = [entry for entry in self.entries if entry.timeout < now]
        self.entries = [entry for entry in self.entries if entry.timeout >= now]
        for entry in due:
            if not entry.is_not_found and entry.reloads < self.reloads:
                self.insert(entry.kind, entry.key, now, entry.reloads + 1)


def spelled(value):
    """A setting as a configuration has it."""
    return {True: "yes", False: "no"}[value] if isinstance(value, bool) else value


class Maker:
    """A replay at random, and the replies that it must have."""

    ASKED = [*frames.DATABASES, "group"]
    REQUESTS = [2, 4, 8]
    STEPS = 60
    SHARES = [40, 8, 12, 1]  # of lookups, changes, times and invalidations

    def __init__(self, seed):
        self.dice = random.Random(seed)
        self.database = self.dice.choice(self.ASKED)  # the one that is asked most
        self.requests = [self.request() for _ in range(self.dice.choice(self.REQUESTS))]
        self.files = dict.fromkeys(frames.FILES)
        self.now = 0
        self.frames = b""
        self.wanted = []
        self.conf, self.caches = self.settings()

    def settings(self):
        """The text of a configuration, and the caches that it makes."""
        lines, caches = [], {}
        reloads = self.dice.choice([5, 0, 1, 1, 2, None])
        if reloads != 5:
            lines.append(f"reload-count {'unlimited' if reloads is None else reloads}")
        for database, (positive, negative) in LIVES.items():
            own = {"enabled": True, "check": True, "propagate": True, "size": 211, "positive": positive, "negative": negative}
            for key, values in {
                "enabled": [False],
                "check": [False, False, True],
                "propagate": [False, True],
                "size": [1, 2],
                "positive": [0, 10, 10, 40],
                "negative": [0, 10, 40],
            }.items():
                if self.dice.random() < (0.1 if key == "enabled" else 0.7):
                    own[key] = self.dice.choice(values)
                    lines.append(f"{SETTINGS[key]} {database} {spelled(own[key])}")
            caches[database] = Cache(database, own, float("inf") if reloads is None else reloads)
        self.dice.shuffle(lines)
        return "\n".join(lines).encode(), caches

    def filled(self, line):
        pick = self.dice.choice
        line = line.replace("NAMES", ",".join(pick(NAMES) for _ in range(pick([1, 2, 3]))))
        return line.replace("NAME", pick(NAMES)).replace("OTHER", pick(NAMES)).replace("ID", str(pick([1, 2, 3, 4])))

    def file(self, name):
        pick = self.dice.choice
        if name == "switch":
            lists = {"passwd": LISTS, "group": GROUP_LISTS}
            lines = [f"{name}{pick(['', ' '])}: {pick(own)}{pick(['', ' # x'])}" for name, own in lists.items()]
            lines += [f"{name}: {pick(['files', 'files', 'db files', pick(LISTS)])}" for name in ("hosts", "services")]
            lines += [f"{name}_compat: {pick(own)}" for name, own in lists.items()]
            lines += [pick(lines), "", "# passwd: nis"]
            self.dice.shuffle(lines)
            lines = lines[pick([0, 0, 2]) :]
        else:
            pool = {"passwd": ACCOUNTS + COMPAT, "group": GROUPS + COMPAT, "hosts": HOSTS, "services": SERVICES}
            pool |= {"extra-passwd": ACCOUNTS, "extra-group": GROUPS, "netgroup": NETGROUPS}
            lines = [self.filled(pick(pool[name])) for _ in range(pick([0, 4, 8, 12]))]
        return ("\n".join(lines) + pick(["", "\n"])).encode()

    def request(self):
        pick = self.dice.choice
        kind = pick([kind for kind in frames.TYPES if rules.DATABASE[kind] == self.database] * 3 + list(frames.TYPES))
        name, number = pick(NAMES * 3 + ["zed", ""]), pick([1, 2, 3, 4])
        if kind in ("uid", "gid"):
            key = pick([f"{number}"] * 3 + [f"0{number}", name, f" {number}", "4294967297"]).encode()
        elif kind in ("address", "address6"):
            key = pick([bytes([10, 0, 0, number]), b"\xfd" + bytes(14) + bytes([number]), b"\n\0\0"])
        elif kind == "service":
            key = (name + pick(["", "/", "/tcp", "/udp", "/tcp/x"])).encode()
        elif kind == "port":
            key = (pick([f"{number * 256}", f"{number}", "65535", "65536", name]) + pick(["", "/", "/tcp", "/udp"])).encode()
        else:
            key = pick([name, name, name.upper()]).encode()
        return kind, key

    def ask(self):
        kind, key = self.dice.choice(self.requests)
        reply = self.caches[rules.DATABASE[kind]].look_up(self.files, kind, key, self.now)
        self.wanted.append(reply)
        self.frames += frames.look_up(kind, key if kind.startswith("address") and kind != "addresses" else key + b"\0")

    def changed(self):
        """The name of the file that changes next."""
        return self.dice.choice(READ_BY[self.database] + frames.FILES)

    def set_file(self):
        name = self.changed()
        self.files[name] = self.file(name) if self.dice.random() < 0.9 else None
        self.frames += frames.set_file(name, self.files[name])

    def pass_time(self):
        moment = max(0, self.now + self.dice.choice([-5, 0, 1, 9, 10, 11, 12, 21, 61]))
        self.now = max(self.now, moment)
        self.frames += frames.pass_time(moment)
        for cache in self.caches.values():
            cache.tick(self.files, self.now)

    def invalidate(self):
        database = self.dice.choice([self.database, *frames.DATABASES])
        self.caches[database].entries = []
        self.frames += frames.invalidate(database)

    def make(self):
        for name in frames.FILES:
            if self.dice.random() < 0.8:
                self.files[name] = self.file(name)
                self.frames += frames.set_file(name, self.files[name])
        for _ in range(self.STEPS):
            self.dice.choices([self.ask, self.set_file, self.pass_time, self.invalidate], self.SHARES)[0]()
        self.frames += frames.END


class AccountMaker(Maker):
    """A replay of users or groups by name and by id, over files that are mostly in form, and whose changes end no entry."""

    ASKED = ["passwd", "group"]
    REQUESTS = [8, 16, 32]
    STEPS = 120
    SHARES = [30, 8, 12, 4]

    def request(self):
        pick = self.dice.choice
        by_name, by_number = {"passwd": ("user", "uid"), "group": ("group", "gid")}[self.database]
        return pick([(by_name, pick(NAMES + ["zed", "yan"]).encode()), (by_number, b"%d" % pick([1, 2, 3, 4, 5, 6]))])

    def settings(self):
        pick, (conf, caches) = self.dice.choice, super().settings()
        own = {"enabled": True, "check": False, "size": pick([1, 1, 211]), "positive": pick([0, 10, 40]), "negative": pick([0, 10, 40])}
        caches[self.database].settings |= own
        # Of two lines the second one counts.
        return conf + "\n".join(["", *(f"{SETTINGS[key]} {self.database} {spelled(value)}" for key, value in own.items())]).encode(), caches

    def file(self, name):
        if name not in IN_FORM or self.dice.random() < 0.2:
            return super().file(name)
        return "\n".join(self.filled(self.dice.choice(IN_FORM[name])) for _ in range(self.dice.choice([2, 4, 8]))).encode()

    def changed(self):
        return self.dice.choice(READ_BY[self.database])


def argument(place, otherwise):
    return int(sys.argv[place]) if place < len(sys.argv) else otherwise


def main():
    program = frames.program()
    count, start = argument(1, 200), argument(2, 0)
    found = propagated = broken = 0
    for seed in range(start, start + count):
        maker = (Maker if seed % 2 else AccountMaker)(seed)
        maker.make()
        status, output, said = frames.replay(program, maker.frames, maker.conf)
        came, rest = frames.replies(output)
        propagated += sum(cache.propagated for cache in maker.caches.values())
        found += sum(reply[4:5] == b"\x01" for reply in maker.wanted)
        if (status, came, rest) != (0, maker.wanted, b""):
            broken += 1
            wrong = [place for place, pair in enumerate(zip(came, maker.wanted)) if pair[0] != pair[1]]
            print(f"seeded-replays: seed {seed}: status {status} {said}, other replies at {wrong[:5]}", file=sys.stderr)
    print(f"seeded-replays: {count} replays, {found} entries found, {propagated} propagated, {broken} faults")
    sys.exit(bool(broken))


if __name__ == "__main__":
    main()
