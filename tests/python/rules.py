"""The rules of a name service, read plainly: what is looked up in files, by which services, and how a reply is spelled.

Files are a dictionary from the name of a file to its bytes, where an absent one is None. Nothing here is made to be fast, but that the addresses of a file are read once.
"""

import functools
import ipaddress
import re

from frames import number

SUCCESS, NOTFOUND, UNAVAIL = "success", "notfound", "unavail"
DATABASE = {
    "user": "passwd",
    "uid": "passwd",
    "group": "group",
    "gid": "group",
    "groups-of": "group",
    "host": "hosts",
    "host6": "hosts",
    "address": "hosts",
    "address6": "hosts",
    "addresses": "hosts",
    "service": "services",
    "port": "services",
}
JOINED_LIMIT = 134_217_728  # bytes of a group's reply
MINUS_ONE = b"\xff\xff\xff\xff"
NOT_FOUND = {
    "passwd": number(2) + number(0) * 3 + MINUS_ONE * 2 + number(0) * 3,
    "group": number(2) + number(0) * 3 + MINUS_ONE + number(0),
    "groups-of": number(2) + number(0) * 2,
    "hosts": number(2) + number(0) * 3 + MINUS_ONE * 2 + number(0) + number(1),
    "addresses": number(2) + number(0) * 4 + number(1),
    "services": number(2) + number(0) * 4 + MINUS_ONE,
}


# Service lists.

WORD = re.compile(rb"[^ \t\[\]!=]+")
RULES = re.compile(rb"\[[ \t]*([^\[\]]*?)[ \t]*\]")
RULE = re.compile(rb"(!?)([^ \t\[\]!=]+)[ \t]*=[ \t]*([^ \t\[\]!=]+)(?:[ \t]+|$)")
STATUSES = [SUCCESS, NOTFOUND, UNAVAIL, "tryagain"]


def rules_of(text, actions):
    """The actions after these rules; None where the text is none."""
    while text:
        rule = RULE.match(text)
        if not rule:
            return None
        turned, status, action = rule.groups()
        status, action = status.decode("latin1").lower(), action.decode("latin1").lower()
        if status not in STATUSES or action not in ("return", "continue", "merge"):
            return None
        for other in STATUSES:
            if (other == status) != bool(turned):
                actions = {**actions, other: action}
        text = text[rule.end() :]
    return actions


def steps_of(text):
    """The steps that the text behind a name and its colon spells: services and actions. None where it spells none."""
    steps = []
    while text:
        word, group = WORD.match(text), RULES.match(text)
        if text[:1] in b" \t":
            text = text[1:]
        elif word:
            plain = {SUCCESS: "return", NOTFOUND: "continue", UNAVAIL: "continue", "tryagain": "continue"}
            steps.append((word.group().decode("latin1"), plain))
            text = text[word.end() :]
        elif group and steps and group.group(1):
            actions = rules_of(group.group(1), steps[-1][1])
            if actions is None:
                return None
            steps[-1] = (steps[-1][0], actions)
            text = text[group.end() :]
        else:
            return None
    return steps or None


def service_list(files, name):
    default = steps_of(b"nis" if name.endswith("_compat") else b"files")
    for line in (files["switch"] or b"").split(b"\n"):
        line = line.split(b"#")[0].strip(b" \t")
        front = re.match(name.encode() + rb"[ \t]*:", line)
        if front:
            return steps_of(line[front.end() :]) or default
    return default


# The lines of files.


def decimal(text):
    digits = text.lstrip(b"0") or b"0"
    if re.fullmatch(rb"[0-9]+", text) and len(digits) <= 10 and int(digits) < 2**32:
        return int(digits)
    return None


def lines_of(text):
    return [line.lstrip(b" \t") for line in text.split(b"\n") if b"\0" not in line]


def account(line, size):
    """The fields of a line that has the form of passwd(5) (7 fields) or group(5) (4 fields), with numbers for ids."""
    fields = line.split(b":")
    if len(fields) != size or not fields[0] or fields[0][:1] in b"+-#":
        return None
    fields[2] = decimal(fields[2])
    if size == 7:
        fields[3] = decimal(fields[3])
    return None if None in fields else fields


def members(group):
    return [piece for piece in group[3].split(b",") if piece]


def is_named(entry, kind, key):
    if kind in ("user", "group"):
        return entry[0] == key
    return entry[2] == decimal(key)


def words_of(line):
    return [word for word in re.split(rb"[ \t]+", line.split(b"#")[0]) if word]


@functools.lru_cache(10_000)
def address_of(text):
    try:
        if b"%" in text or b"/" in text:
            return None
        return ipaddress.ip_address(text.decode("ascii")).packed
    except ValueError:
        return None


def hosts_of(text):
    found = []
    for words in map(words_of, lines_of(text)):
        if len(words) > 1 and address_of(words[0]):
            found.append((address_of(words[0]), words[1], words[2:]))
    return found


def services_of(text):
    found = []
    for words in map(words_of, lines_of(text)):
        if len(words) > 1 and b"/" in words[1]:
            port, proto = words[1].split(b"/", 1)
            port = decimal(port)
            if proto and port is not None and port < 65536:
                found.append((words[0], port, proto, words[2:]))
    return found


def has_name(name, aliases, key):
    return key.lower() in [other.lower() for other in [name, *aliases]]


# The services. An outcome is a status, and a row where it is success; a row is an entry, ids, or a host's addresses.


def first(rows):
    return (SUCCESS, rows[0]) if rows else (NOTFOUND, None)


def in_file(text, kind, key):
    """What a file answers."""
    if text is None:
        return UNAVAIL, None
    if kind in ("user", "uid", "group", "gid"):
        entries = [account(line, 7 if kind in ("user", "uid") else 4) for line in lines_of(text)]
        return first([entry for entry in entries if entry and is_named(entry, kind, key)])
    if kind == "groups-of":
        groups = [account(line, 4) for line in lines_of(text)]
        ids = list(dict.fromkeys(group[2] for group in groups if group and key in members(group)))
        return (SUCCESS, ids) if ids else (NOTFOUND, None)
    if kind in ("host", "host6", "addresses"):
        named = [host for host in hosts_of(text) if has_name(host[1], host[2], key)]
        if kind == "addresses":
            fours, sixes = ([host for host in named if len(host[0]) == size][:1] for size in (4, 16))
            both = sorted(fours + sixes, key=named.index)
            return (SUCCESS, both) if both else (NOTFOUND, None)
        return first([host for host in named if len(host[0]) == (4 if kind == "host" else 16)])
    if kind in ("address", "address6"):
        return first([host for host in hosts_of(text) if host[0] == key])
    name, _, proto = key.rpartition(b"/") if b"/" in key else (key, b"", b"")
    found = [service for service in services_of(text) if not proto or service[2] == proto]
    if kind == "service":
        return first([service for service in found if name in [service[0], *service[3]]])
    asked = decimal(name)
    if asked is None or asked > 65535:
        return NOTFOUND, None
    return first([service for service in found if service[1] == asked % 256 * 256 + asked // 256])


def replaced(entry, line):
    """The entry with what a plus line puts in its place."""
    fields = line.split(b":")
    if len(entry) != 7 or len(fields) != 7:
        return entry
    return [fields[i] if i in (1, 4, 5, 6) and fields[i] else entry[i] for i in range(7)]


def in_compat(files, kind, key):
    database = DATABASE[kind]
    size, by_name = (7, "user") if database == "passwd" else (4, "group")
    if files[database] is None:
        return UNAVAIL, None
    excluded, ids = [], []
    for line in lines_of(files[database]):
        plain, name = account(line, size), line[1:].split(b":")[0]
        if line[:2] in (b"+@", b"-@"):
            return UNAVAIL, None
        if line[:1] == b"-":
            excluded += [name] if name else []
            continue
        if plain:
            found = [plain]
        elif line[:1] == b"+" and name:
            status, row = switch(files, database + "_compat", by_name, name)
            found = [replaced(row, line)] if status == SUCCESS else []
        elif line[:1] == b"+" and kind == "groups-of":
            found = groups_in(files, key)
        elif line[:1] == b"+":
            status, row = switch(files, database + "_compat", kind, key)
            found = [replaced(row, line)] if status == SUCCESS else []
        else:
            found = []
        found = [entry for entry in found if entry[0] not in excluded]
        if kind == "groups-of":
            ids += [entry[2] for entry in found if key in members(entry)]
        else:
            found = [entry for entry in found if is_named(entry, kind, key)]
            if found:
                return SUCCESS, found[0]
    return (SUCCESS, list(dict.fromkeys(ids))) if ids else (NOTFOUND, None)


def groups_in(files, key):
    """The groups of a user in the files of the services whose rows the compat list takes."""
    taken = asked_in_turn(files, "group_compat", "groups-of", key)[2]
    texts_of_them = [files["group" if service == "files" else "extra-group"] for service in taken]
    groups = [account(line, 4) for text in texts_of_them for line in lines_of(text)]
    return [group for group in groups if group and key in members(group)]


def in_service(files, service, name, kind, key):
    database = DATABASE[kind]
    if service == "files":
        return in_file(files[database], kind, key)
    if service == "extrausers" and database in ("passwd", "group"):
        return in_file(files["extra-" + database], kind, key)
    if service == "compat" and name == database and database in ("passwd", "group"):
        return in_compat(files, kind, key)
    return UNAVAIL, None


def joined(kind, held, row):
    """The row that is held, with what a later one adds to it."""
    if kind == "groups-of":
        return held + [group for group in row if group not in held]
    both = [*held[:3], held[3] + b"," + row[3]]
    is_one = held[0] == row[0] and held[2] == row[2]
    return both if is_one and len(spelled(kind, both)) <= JOINED_LIMIT else held


def asked_in_turn(files, name, kind, key):
    """The outcome of a list, and the services whose rows are in it: more than one if rows of groups are merged."""
    held, taken = None, []
    steps = service_list(files, name)
    for place, (service, actions) in enumerate(steps, 1):
        status, row = in_service(files, service, name, kind, key)
        if actions[status] == "continue" and place < len(steps):
            continue
        if status == SUCCESS:
            held = joined(kind, held, row) if taken else row
            taken.append(service)
        if actions[status] != "merge" or status != SUCCESS or DATABASE[kind] != "group":
            break
    return SUCCESS if taken else status, held, taken


def switch(files, name, kind, key):
    return asked_in_turn(files, name, kind, key)[:2]


def by_id(files, kind, key):
    """The request by id that belongs to the row of a request by name; None where no row is found, and for every other request."""
    if kind not in ("user", "group"):
        return None
    status, row = switch(files, DATABASE[kind], kind, key)
    return ("uid" if kind == "user" else "gid", b"%d" % row[2]) if status == SUCCESS else None


# Replies.


def size_of(text):
    return number(len(text) + 1)


def texts(*several):
    return b"".join(text + b"\0" for text in several)


def lengths(several):
    return b"".join(map(size_of, several))


def spelled(kind, row):
    """The reply of a row."""
    found = number(2) + number(1)
    if kind in ("user", "uid"):
        name, password, uid, gid, gecos, folder, shell = row
        head = found + lengths([name, password]) + number(uid) + number(gid) + lengths([gecos, folder, shell])
        return head + texts(name, password, gecos, folder, shell)
    if kind in ("group", "gid"):
        name, password, gid, _ = row
        head = found + lengths([name, password]) + number(gid) + number(len(members(row)))
        return head + lengths(members(row)) + texts(name, password, *members(row))
    if kind == "groups-of":
        return found + number(len(row)) + b"".join(map(number, row))
    if kind == "addresses":
        all_of_them = b"".join(host[0] for host in row)
        families = bytes(2 if len(host[0]) == 4 else 10 for host in row)
        name = row[0][1]
        head = found + number(len(row)) + number(len(all_of_them)) + size_of(name) + number(0)
        return head + all_of_them + families + texts(name)
    if kind in ("service", "port"):
        name, port, proto, aliases = row
        head = found + lengths([name, proto]) + number(len(aliases)) + number(port % 256 * 256 + port // 256)
        return head + texts(name, proto) + lengths(aliases) + texts(*aliases)
    address, name, aliases = row
    family = number(2 if len(address) == 4 else 10)
    head = found + size_of(name) + number(len(aliases)) + family + number(len(address)) + number(1) + number(0)
    return head + texts(name) + lengths(aliases) + address + texts(*aliases)


def answer(files, kind, key):
    """The reply to a request over these files, and whether it is one of not found."""
    status, row = switch(files, DATABASE[kind], kind, key)
    if status == SUCCESS:
        return spelled(kind, row), False
    return NOT_FOUND.get(kind) or NOT_FOUND[DATABASE[kind]], True
