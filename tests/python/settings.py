"""The settings that are installed mean the same as none: replays and daemons that show each of them."""

import os
import re
import time

from frames import END, TYPES, look_up, pass_time, program, replay, set_file
from running import GETSTAT, check, daemon, request
from tables import DATABASES, DIST, attributes

KINDS = {"passwd": "user", "group": "group", "hosts": "host", "services": "service"}
LONG = 60000  # bytes of a text that makes a long reply, which is kept all the same
SHORT = 700  # and of one whose entry takes less than the words of one size
ABSENT = 200  # names of 1,000 bytes that nobody has: more than the first table of a database has room for, and fewer than twice as many
OF_DAEMON = {"threads", "max-db-size", "persistent"}  # attributes that no replay shows; the last one is in keeping.py


def entry(database, name, tag, length=1):
    """A line of the database's file that has a text of this length and a tag in its reply."""
    text = "t" * length + tag
    return {
        "passwd": f"{name}:x:1:1:{text}:/:/bin/sh\n",
        "group": f"{name}:x:1:{text}\n",
        "hosts": f"192.0.2.1 {name} {text}\n",
        "services": f"{name} 7/tcp {text}\n",
    }[database].encode()


def asks(database, name):
    return look_up(KINDS[database], name.encode() + (b"/tcp" if database == "services" else b"") + b"\0")


class Story:
    """The frames of a replay over one database, and the moment that it has come to."""

    def __init__(self, database):
        self.database, self.frames, self.now = database, b"", 0

    def file(self, names, tag, length=1):
        self.frames += set_file(self.database, b"".join(entry(self.database, name, tag, length) for name in names))

    def ask(self, *names):
        self.frames += b"".join(asks(self.database, name) for name in names)

    def passes(self, seconds):
        self.now += seconds
        self.frames += pass_time(self.now)


def lives(story, seconds, times, names):
    """Asks for the names, lets as many times pass, and then, over another file, asks again: kept entries tell the former one."""
    story.file(["here"], "a")
    story.passes(1)
    story.ask(*names)
    for _ in range(times):
        story.passes(seconds)
    story.file(["here", "gone"], "b")
    story.ask(*names)
    story.passes(1)


def room(story):
    """Fills the cache, and asks again over another file: what found no room tells the new one."""
    long = [f"long{at}" for at in range(3)]
    short = [f"short{at}" for at in range(60)]
    for tag in "ab":
        lines = [entry(story.database, name, tag, LONG) for name in long] + [entry(story.database, name, tag, SHORT) for name in short]
        story.frames += set_file(story.database, b"".join(lines))
        if tag == "a":
            story.passes(1)
        story.ask(*long, *short)
    story.passes(1)


def changes(story):
    """A change is seen by a tick, and not before."""
    story.file(["here"], "a")
    story.ask("here", "gone")
    story.file(["here", "gone"], "b")
    story.ask("here", "gone")
    story.passes(1)
    story.ask("here", "gone")


def propagates(story):
    """By id the answer is that of before a change of the file where the name has kept it."""
    story.file(["here"], "a")
    story.passes(1)
    story.ask("here")
    story.file(["here"], "b")
    story.frames += look_up({"passwd": "uid", "group": "gid"}[story.database], b"1\0")
    story.passes(1)


def shown(database, positive, negative, reloads):
    """Replays that tell a setting of the database from another: the frames, by the name of the attribute."""
    stories = {"enable-cache": changes, "check-files": changes, "suggested-size": room}
    stories["negative-time-to-live"] = lambda story: [lives(story, seconds, 1, ["gone"]) for seconds in (negative, negative + 1)]
    stories["positive-time-to-live"] = lambda story: [
        lives(story, seconds, times, ["here"]) for seconds in (positive, positive + 1) for times in (reloads, reloads + 1)
    ]
    stories["reload-count"] = stories["positive-time-to-live"]
    if database in ("passwd", "group"):
        stories["auto-propagate"] = propagates
    found = {}
    for name, tells in stories.items():
        story = Story(database)
        tells(story)
        found[name] = story.frames + END
    return found


def output(frames, conf):
    status, out, said = replay(program(), frames, conf)
    check(status == 0, f"a replay ends with {status}: {said}")
    return out


def others(attribute, value):
    """Settings that are near this one."""
    if attribute.value == "answer":
        return ["no" if value == "yes" else "yes"]
    return [str(int(value) - 1), str(int(value) + 1)]


def idle_lines(table, at):
    """Lines about this database whose attribute has an effect for others alone."""
    database = DATABASES[at]
    return [f"{one.name} {database} {value}\n" for one in table if database in one.idle for value in others(one, one.defaults[at])]


def threads_of(*words):
    """How many threads a daemon of these words has when it is ready."""
    with daemon(*words) as run:
        run.is_well("a daemon of these settings")
        found = 0
        for _ in range(100):
            found = max(found, len(os.listdir(f"/proc/{run.process.pid}/task")))
            time.sleep(0.01)
        run.shut_down()
        return found


def tables_of(settings):
    """How many words entries may take in each database of a daemon, once each was asked for more than its first table holds."""
    with daemon(started=False) as run:
        (run.etc / "nscd.conf").write_bytes(settings)
        run.start()
        for kind in KINDS.values():
            for at in range(ABSENT):
                run.ask(request(TYPES[kind], b"n%0999d\0" % at))
        told = run.ask(request(GETSTAT, b""), "admin").decode()
        run.shut_down()
        return [int(words) for words in re.findall(r"^used words \d+ of (\d+)$", told, re.M)]


def check_tables(conf, size):
    """Sees that each table becomes twice as large, also under nscd.conf, and that of a database alone stays of which a line says 0."""
    first = 128 * size
    for settings in (b"", conf):
        found = tables_of(settings)
        check(found == [2 * first] * len(DATABASES), f"max-db-size: tables of {found} words")
    for at, database in enumerate(DATABASES):
        wanted = [first if at == other else 2 * first for other in range(len(DATABASES))]
        found = tables_of(conf + b"max-db-size %s 0\n" % database.encode())
        check(found == wanted, f"max-db-size {database} 0: tables of {found} words")
    return len(DATABASES)


def settings_case():
    conf = (DIST / "nscd.conf").read_bytes()
    table = {attribute.name: attribute for attribute in attributes()}
    reloads = int(table["reload-count"].defaults[0])
    near, idle = 0, set()
    for at, database in enumerate(DATABASES):
        positive = int(table["positive-time-to-live"].defaults[at])
        negative = int(table["negative-time-to-live"].defaults[at])
        for name, frames in shown(database, positive, negative, reloads).items():
            plain = output(frames, None)
            check(output(frames, conf) == plain, f"{database}, {name}: another output under nscd.conf")
            attribute = table[name]
            here = attribute.defaults[at] if attribute.is_of_database() else attribute.defaults[0]
            for value in others(attribute, here):
                line = " ".join([name] + ([database] if attribute.is_of_database() else []) + [value])
                check(output(frames, conf + line.encode() + b"\n") != plain, f"{line}: the replay does not show it")
                near += 1
            for line in idle_lines(table.values(), at):
                check(output(frames, conf + line.encode()) == plain, f"{line}: it has an effect")
                idle.add(line)
    told = {name for name, attribute in table.items() if attribute.has_effect} - OF_DAEMON
    check(told == set(shown("passwd", 1, 1, 1)), f"no replay shows {told ^ set(shown('passwd', 1, 1, 1))}")
    near += check_tables(conf, int(table["suggested-size"].defaults[0]))
    threads = threads_of()
    check(threads_of("-f", str(DIST / "nscd.conf")) == threads, f"threads: not {threads} under nscd.conf")
    more = str(int(table["threads"].defaults[0]) + 1)
    check(threads_of("-t", more) == threads + 1, f"threads: a daemon with -t {more} has no thread more")
    return (
        f"replays over each database and a daemon's threads and tables are under nscd.conf what they are without it;"
        f" {near} settings beside those are told from them, and {len(idle)} that have an effect for other databases alone are not"
    )
