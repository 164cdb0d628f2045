"""What contrib/nscd-prometheus makes of the counts of a daemon."""

import os
import re
import stat
import subprocess

from frames import ROOT
from places import folder
from running import check
from serving import FILES_ALONE, served
from tables import DATABASES, source

SCRIPT = ROOT / "contrib/nscd-prometheus"
LINE = r'nscd_[a-z_]+(\{[a-z]+="[a-z]+"(,[a-z]+="[a-z]+")*\})? \d+'


def told(*words, **environment):
    """The status, the output and what is said on standard error."""
    done = subprocess.run([SCRIPT, *words], capture_output=True, env=os.environ | environment, timeout=20, check=False)
    return done.returncode, done.stdout.decode(), done.stderr.decode()


def check_form(text):
    """Each sample stands behind the head of its name, which stands once."""
    name, seen = None, set()
    for line in text.splitlines():
        head = re.fullmatch(r"# (HELP|TYPE) (nscd_[a-z_]+) (.+)", line)
        if head and head.group(1) == "HELP":
            check(head.group(2) not in seen, f"{line}: a second time")
            name = head.group(2)
            seen.add(name)
        elif head:
            check(head.group(2) == name, f"{line}: no help before")
            wanted = "counter" if name.endswith("_total") else "gauge"
            check(head.group(3) == wanted, f"{line}: no {wanted}")
        else:
            check(re.fullmatch(LINE, line) and re.match(r"[a-z_]+", line).group(0) == name, f"{line}: no sample of {name}")
    return seen


def stands_for(top, status, text):
    """A command in the place of nscd."""
    path = top / "nscd"
    path.write_text(f"#!/bin/sh\necho '{text}' >&2\nexit {status}\n")
    path.chmod(path.stat().st_mode | stat.S_IXUSR)
    return str(path)


# What is told of a daemon that was asked for root three times, nobody1 twice and maud once, reloaded, and asked for root again. Before the
# reload the replies for two users were kept, by name and by id, and one of not found.
PASSWD = 'database="passwd"'
WANTED = (
    "nscd_up 1",
    'nscd_served{database="hosts"} 0',
    *(f'nscd_served{{database="{name}"}} 1' for name in ("passwd", "group", "services")),
    *(f'nscd_served_whole{{database="{name}"}} 0' for name in ("hosts", "services")),
    *(f'nscd_served_whole{{database="{name}"}} 1' for name in ("passwd", "group")),
    *(f'nscd_cache_enabled{{database="{name}"}} 1' for name in DATABASES),
    f'nscd_lookups_total{{{PASSWD},found="yes",kept="yes"}} 2',
    f'nscd_lookups_total{{{PASSWD},found="no",kept="yes"}} 1',
    f'nscd_lookups_total{{{PASSWD},found="yes",kept="no"}} 3',
    f'nscd_lookups_total{{{PASSWD},found="no",kept="no"}} 1',
    # Root by name and by id: a key of up to eight bytes takes one word, a reply of 64 eight, and an entry eight beside them.
    f"nscd_entries{{{PASSWD}}} 2",
    f"nscd_used_words{{{PASSWD}}} 34",
    f"nscd_room_words{{{PASSWD}}} 27008",
    f"nscd_invalidations_total{{{PASSWD}}} 1",
    f"nscd_not_added_total{{{PASSWD}}} 0",
)


def check_absent():
    """No daemon is told as such, and what may not be asked is not guessed."""
    with folder() as top:
        one = told(NSCD=stands_for(top, 8, "nscd: /var/run/nscd/admin: nscd is not running, or does not answer there"))
        check(one == (0, "# HELP nscd_up Whether nscd runs and answers.\n# TYPE nscd_up gauge\nnscd_up 0\n", ""), f"no daemon: {one}")
        for status, text in ((8, "nscd: /var/run/nscd/admin: not allowed; its owner and root may ask there"), (12, "nscd: bad reply from server")):
            one = told(NSCD=stands_for(top, status, text))
            check(one == (1, "", text + "\n"), f"status {status}: {one}")
        check(told("a", "b")[0] == 64, "two words: another status")


def check_document(metrics):
    """docs/MONITORING.md has each name that is told to Prometheus, and each line that the adapters say; how many lines these are."""
    page = (ROOT / "docs/MONITORING.md").read_text()
    lines = []
    for path in ("nsc_outside/src/host_files.rt", "nsc_outside/src/host_images.rt", "nsc_sockets/src/entrance.rt", "nscd/src/main.rt"):
        lines += re.findall(r'"nscd: (?:(?:\{path\}|\{folder\}/\{name\}): )?(?:\{error\}: )?([^"{}]+)"', source(path))
    lines += [line.replace("{length}", "LENGTH") for line in re.findall(r'#\[error\("(the file [^"]+)"\)\]', source("nsc_outside/src/files.rt"))]
    check(len(lines) >= 7, f"lines of the adapters: {lines}")
    for word in [*metrics, *lines]:
        check(word in page, f"docs/MONITORING.md: no {word!r}")
    return len(lines)


def monitoring_case():
    check_absent()
    with served() as run:
        run.switch(FILES_ALONE.replace("hosts: files", "hosts: files dns").replace("services: files", "services: files nis"))
        run.start()
        for name in (b"root", b"root", b"root", b"nobody1", b"nobody1", b"maud"):
            run.ask(name)
        run.does("reload")
        run.ask(b"root")
        status, text, said = told(str(run.run), NSCD=str(run.program), SERVE=str(run.serve))
        check((status, said) == (0, ""), f"status {status}: {said}")
        metrics, lines = check_form(text), text.splitlines()
        count = check_document(metrics)
        for line in WANTED:
            check(line in lines, f"no line {line!r} in {text}")
        check(len([line for line in lines if line.startswith("nscd_compactions_total{")]) == len(DATABASES), "no compactions")
        return (
            f"contrib/nscd-prometheus says the counts of a daemon by {len(metrics)} names, and that none runs; what it may not ask it does not"
            f" guess; docs/MONITORING.md has these names, and {count} lines of the adapters"
        )
