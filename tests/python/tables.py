"""The tables of options and attributes, held against the sources, the manual pages, the settings and the program."""

import re
import string
import subprocess
from dataclasses import dataclass

from frames import END, ROOT, last_line, replay
from running import PROGRAM, check

DIST, MAN = ROOT / "dist", ROOT / "man"
DATABASES = ["passwd", "group", "hosts", "services"]
FORMS = "dgikrw"  # of the program, in the order of the manual page's synopsis
OF_COMMAND = "chuv"  # of the command alone, which follow there


@dataclass(frozen=True)
class Option:
    letter: str  # or empty
    long: str
    value: str  # or empty
    forms: str

    def words(self):
        return ([f"-{self.letter}"] if self.letter else []) + [f"--{self.long}"]

    def is_of_program(self):
        return any(form in FORMS for form in self.forms)


@dataclass(frozen=True)
class Attribute:
    name: str
    value: str
    has_effect: bool  # for any database
    idle: tuple  # databases for which it has none, if it has one for others
    defaults: tuple  # of each database, or one of the daemon, or none

    def is_of_database(self):
        return len(self.defaults) == 4


def rows(name, count):
    lines = (DIST / name).read_text().splitlines()
    return [line.split(" ", count - 1) for line in lines if line and not line.startswith("#")]


def options():
    def none(word):
        return "" if word == "-" else word

    return [Option(none(letter), long, none(value), forms) for letter, long, value, forms, _ in rows("options", 5)]


def attributes():
    found = []
    for name, value, effect, defaults in rows("attributes", 4):
        some = [] if effect in ("effect", "none") else effect.split(",")
        check(set(some) < set(DATABASES), f"{name}: {effect}")
        idle = tuple(database for database in DATABASES if some and database not in some)
        found.append(Attribute(name, value, effect != "none", idle, () if defaults == "-" else tuple(defaults.split())))
    return found


def source(path):
    return (ROOT / "crates" / path).read_text()


def alike(what, one, other):
    check(sorted(one) == sorted(other), f"{what}: {sorted(set(one) ^ set(other))}")


# ---- the manual pages


def section(text, title):
    return text.split(f"\n.Sh {title}\n", 1)[1].split("\n.Sh ", 1)[0]


def manual_options():
    """The letter, the long name and the value of each option that the manual page has."""
    pattern = r"^\.It Fl (?:(\w) , |\\&\? , )?-([\w-]+)(?: Ar (\w+))?$"
    page = section((MAN / "nscd.8").read_text(), "DESCRIPTION")
    return [(letter, long, value.upper()) for letter, long, value in re.findall(pattern, page, re.M)]


def manual_forms():
    """For each form of the synopsis, the options that must stand in it and those that may."""
    forms = []
    for line in section((MAN / "nscd.8").read_text(), "SYNOPSIS").splitlines():
        if line == ".Nm":
            forms.append((set(), set()))
        else:
            found = re.fullmatch(r"\.(Op )?Fl (-?[\w-]+)(?: Ar (\w+))?", line)
            check(found, f"synopsis: {line}")
            forms[-1][1 if found.group(1) else 0].add(found.group(2).lstrip("-"))
    return forms


def manual_attributes():
    """The name of each attribute of the manual page, and what is said of it."""
    page = section((MAN / "nscd.conf.5").read_text(), "DESCRIPTION")
    items = re.split(r"^\.It Ic ", page, flags=re.M)[1:]
    return {item.split(None, 1)[0]: item.split(None, 1)[1] for item in items}


def defaults_said(text):
    """The default of each database by a manual page's words: the first for all, and then those of one."""
    said = text.split("By default", 1)[1].replace("\n.Cm ", " ").replace("\n", " ")
    words = re.findall(r"\w+", said)
    found = dict.fromkeys(DATABASES, words[0])
    for at, word in enumerate(words):
        if word in DATABASES:
            found[word] = words[at + 1]
    return tuple(found[name] for name in DATABASES)


def idle_said(text):
    """The databases for which a manual page says that an attribute has no effect; none where it says so of all, or nothing."""
    said = re.search(r"Has no effect for\n(.+?\.)\n", text, re.S)
    return tuple(re.findall(r"\.Cm (\w+)", said.group(1))) if said else ()


# ---- cases


def status_of(*words, text=END):
    done = subprocess.run([PROGRAM, *words], input=text, capture_output=True, timeout=20, check=False)
    return done.returncode, last_line(done.stderr)


def is_refused(*words):
    return status_of(*words) == (2, "nscd: usage")


NO_RUN = "/dev/null/run"  # no folder of sockets can be there
VALUES = {"invalidate": "group", "workload": "2", "found-only": "passwd,group", "leave": "hosts,netgroup"}
VALUES |= {"config-file": "/dev/null", "nthreads": "2", "etc": "/none", "run-dir": NO_RUN, "gate": NO_RUN}
# What stands in each form in any case; a daemon or an order finds no folder of sockets, and so ends with status 8.
ALONE = {"d": [], "g": ["-g"], "i": ["-ihosts"], "k": ["-K"], "r": ["--replay"], "w": ["--workload", "1"]}
ENDS = {"d": 8, "g": 8, "i": 8, "k": 8, "r": 0, "w": 0}


def spelled(option, word):
    return [word] if not option.value else [word, VALUES[option.long]]


def is_errand(option):
    """Whether the option alone says what to do."""
    return option.forms in tuple("gikrw")


def tried(option, form):
    """How often the program takes the option in this form, or refuses it, by each of its names."""
    if is_errand(option) and form == "d":
        return 0
    for word in option.words():
        words = spelled(option, word) if option.forms == form and is_errand(option) else ALONE[form] + spelled(option, word)
        if form in "dgik" and option.long != "run-dir":
            words += ["--run-dir", NO_RUN]
        status, said = status_of(*words)
        wanted = ENDS[form] if form in option.forms else 2
        check(status == wanted, f"{' '.join(words)}: status {status} ({said}), and not {wanted}")
    return len(option.words())


def check_options(table):
    """The options and exits of the sources and of nscd(8); how many exits there are."""
    kinds = {"flag": False, "valued": True}
    pattern = r"\b(flag|valued)\(alloc, \"([\w-]+)\"\)(?:\s*\.short\('(\w)'\))?"
    found = re.findall(pattern, source("nsc_run/src/words.rt"))
    alike(
        "options of the table and of the sources",
        [(option.letter, option.long, bool(option.value)) for option in table if option.is_of_program()],
        [(letter, long, kinds[kind]) for kind, long, letter in found],
    )
    alike("options of the table and of nscd(8)", [(o.letter, o.long, o.value) for o in table], manual_options())
    forms = manual_forms()
    check(len(forms) == len(FORMS + OF_COMMAND), f"synopsis: {len(forms)} forms")
    for form, (must, may) in zip(FORMS + OF_COMMAND, forms):
        alike(f"form {form}", [o.letter or o.long for o in table if form in o.forms], must | may)
        check(len(must) == (form != "d"), f"form {form}: {must} must stand")
    # No form of the command audits a trace, so none ends with that exit.
    statuses = re.findall(r"Exit::(?!AuditNo\b)\w+(?: \{ \.\. \})? => (\d+),", source("nsc_model/src/exit.rt"))
    said = re.findall(r"^\.It (\d+)$", section((MAN / "nscd.8").read_text(), "EXIT STATUS"), re.M)
    # The command alone ends with 1, where no daemon runs.
    alike("exits", [*statuses, "1"], said)
    return len(statuses)


def options_case():
    table = options()
    said = f"{len(table)} options and {check_options(table)} exits are those of the sources and of nscd(8)"
    if not PROGRAM.exists():
        return said + "; there is no program to ask"
    count = sum(tried(option, form) for option in table if option.is_of_program() for form in FORMS)
    letters = {option.letter for option in table if option.is_of_program()}
    others = [letter for letter in string.ascii_letters + string.digits + "?" if letter not in letters]
    for letter in others:
        check(is_refused(f"-{letter}"), f"-{letter} is taken")
    for word in ("check", "debug", "foregroun", "help", "usage", "version", "secure", "gat", "start", "stat"):
        check(is_refused(f"--{word}"), f"--{word} is taken")
    return f"{said}; the program takes and refuses them so in {count} uses, and {len(others)} other letters are refused"


def cached(text):
    """The defaults of the databases that the definitions have, by the name of the attribute."""
    names = ["enabled", "size", "check_files", "persistent", "shared", "max_size", "propagate"]
    attribute = ["enable-cache", "suggested-size", "check-files", "persistent", "shared", "max-db-size", "auto-propagate"]
    of_all = {}
    for name, long in zip(names, attribute):
        value = re.search(rf"cached_for positive negative = record \{{.*?\b{name} = (\w+)", text).group(1)
        of_all[long] = ({"true": "yes", "false": "no"}.get(value, value),) * 4
    lives = [re.search(rf"\b{name} = cached_for (\d+) (\d+)", text).groups() for name in DATABASES]
    of_all["positive-time-to-live"] = tuple(positive for positive, _ in lives)
    of_all["negative-time-to-live"] = tuple(negative for _, negative in lives)
    of_all["reload-count"] = (re.search(r"\breloads = Some (\d+)", text).group(1),)
    of_all["threads"] = (re.search(r"\bthreads = (\d+)", text).group(1),)
    return of_all


def settings_lines():
    """What each line of nscd.conf says that is no remark: attribute, database or empty, and value."""
    found = []
    for line in (DIST / "nscd.conf").read_text().splitlines():
        words = line.split("#", 1)[0].split()
        if words:
            found.append((words[0], words[1] if len(words) == 3 else "", words[-1]))
    return found


WRONG = {"answer": "Yes", "number": "-1", "size": "65537", "reloads": "0x", "word": None}
GOOD = {"answer": "yes", "number": "7", "word": "nobody"}  # where there is no default


def check_sources(table):
    """The names of the attributes and their defaults are those of the sources."""
    listed = re.findall(r'\(b"([\w-]+)", (OfDatabase|OfDaemon)\(', source("nsc_daemonconf/src/attributes.rt"))
    alike(
        "attributes of the table and of the sources",
        [(attribute.name, attribute.is_of_database()) for attribute in table],
        [(name, kind == "OfDatabase") for name, kind in listed],
    )
    for name, defaults in cached(source("nsc_model/specs/Settings.antt")).items():
        wanted = next(attribute.defaults for attribute in table if attribute.name == name)
        check(defaults == wanted, f"{name}: {defaults} in the definitions, {wanted} in the table")


def check_manual(table):
    """What nscd.conf(5) says of each attribute: its words, its default, and whether it has an effect."""
    said = manual_attributes()
    alike("attributes of the table and of nscd.conf(5)", [attribute.name for attribute in table], said)
    for attribute in table:
        text = said[attribute.name]
        is_whole = attribute.has_effect and not attribute.idle
        check(("Has no effect" in text) != is_whole and idle_said(text) == attribute.idle, f"{attribute.name}: its effect in nscd.conf(5)")
        head = text.splitlines()[0]
        check(head.startswith("Ar database ") == attribute.is_of_database(), f"{attribute.name}: {head}")
        check(("Cm yes | no" in head) == (attribute.value == "answer"), f"{attribute.name}: {head}")
        if not attribute.defaults:
            check("No default" in text, f"{attribute.name}: a default in nscd.conf(5)")
            continue
        wanted = attribute.defaults if attribute.is_of_database() else attribute.defaults * 4
        check(defaults_said(text) == wanted, f"{attribute.name}: {defaults_said(text)} in nscd.conf(5), {wanted} in the table")


def check_settings(table):
    """The lines of nscd.conf, each of which says a default, and the remarks on what has none."""
    lines = [(a.name, db, value) for a in table if a.is_of_database() for db, value in zip(DATABASES, a.defaults)]
    lines += [(a.name, "", a.defaults[0]) for a in table if len(a.defaults) == 1]
    alike("lines of nscd.conf and defaults", settings_lines(), lines)
    remarks = (DIST / "nscd.conf").read_text()
    for attribute in table:
        if not attribute.defaults:
            check(re.search(rf"^#\t{attribute.name}\t", remarks, re.M), f"{attribute.name}: no remark in nscd.conf")
    return len(lines)


def check_program(attribute):
    """The program takes the attribute with a good value, and refuses it with a wrong one, with none, and by another name."""

    def fault(*words):
        return replay(PROGRAM, END, " ".join(words).encode())[2]

    front = [attribute.name, "group"] if attribute.is_of_database() else [attribute.name]
    good = attribute.defaults[0] if attribute.defaults else GOOD[attribute.value]
    wrong = WRONG[attribute.value]
    check(fault(*front, good) == "", f"{attribute.name} {good} is refused")
    check(wrong is None or fault(*front, wrong).endswith("bad value"), f"{attribute.name} {wrong} is taken")
    check(fault(attribute.name).endswith("bad line"), f"{attribute.name} alone is taken")
    check(fault(attribute.name + "s", *front[1:], good).endswith("unknown attribute"), f"{attribute.name}s is taken")


def attributes_case():
    table = attributes()
    check_sources(table)
    check_manual(table)
    lines = check_settings(table)
    found = (
        f"{len(table)} attributes with their defaults are those of the sources, of nscd.conf(5) and of nscd.conf, in {lines} lines"
    )
    if not PROGRAM.exists():
        return found + "; there is no program to ask"
    for attribute in table:
        check_program(attribute)
    return found + "; the program takes and refuses them so"
