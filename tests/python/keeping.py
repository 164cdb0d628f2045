"""Images of caches that outlive a service which nscd-serve starts, without systemd."""

import os
import re
import shutil
import stat
import subprocess

from running import ROOT_REPLY, check, request
from serving import FILES_ALONE, asked, served
from tables import DATABASES

SETTINGS = "".join(f"persistent {name} yes\n" for name in DATABASES) + "negative-time-to-live hosts 3600\nauto-propagate passwd no\n"
IMAGES = sorted(f"{name}.img" for name in DATABASES)
RUNNING = ["admin", "begun", "lock", "socket", "starting"]
ENDED = ["begun", "lock", "starting"]
HOST_BY_NAME = 4
NOBODY = request(HOST_BY_NAME, b"nobody1.example\0")
EMPTY = 52  # bytes of an image without entries
# A key of five bytes takes one word, a reply of 64 eight, and an entry eight beside them.
USED = "17 of 27008"


def names(where):
    return sorted(os.listdir(where))


def texts(where):
    return {name: (where / name).read_bytes() for name in IMAGES}


def counts(run, database):
    """What -g tells of a database, by the names of its counts."""
    done = subprocess.run([run.program, "-g", "--run-dir", run.run], capture_output=True, timeout=20, check=True)
    part = next(part for part in done.stdout.decode().split("\n\n") if part.startswith(f"{database} cache:"))
    return dict(re.findall(r"^([a-z ]+) (\d.*)$", part, re.M))


def has(run, entries, text, database="passwd"):
    found = counts(run, database)["entries"]
    check(found == str(entries), f"{text}: {found} entries of {database}, and not {entries}")


def ends(run):
    """Ends the daemon by -K; what it and the script have said."""
    done = subprocess.run([run.program, "-K", "--run-dir", run.run], capture_output=True, timeout=20, check=False)
    said = run.process.communicate(timeout=20)[1].decode()
    check((done.returncode, run.process.returncode) == (0, 0), f"it ends with {run.process.returncode}: {said}")
    return said


def is_kept(run, text):
    """The images stand where they outlive the service, for its user alone, and nothing else does."""
    check(names(run.state) == IMAGES, f"{text}: {names(run.state)}")
    for name in IMAGES:
        mode = stat.S_IMODE((run.state / name).lstat().st_mode)
        check(mode == 0o600, f"{text}: {name} has mode {mode:o}")


def stops_and_starts(run):
    run.start()
    check(run.ask(b"root") == ROOT_REPLY, "a lookup: another reply")
    # Without a folder for them they go nowhere, and nothing is said.
    check(ends(run) + run.does("ended") == "" and not run.state.exists(), "without a folder: something is said or made")
    put = texts(run.run)
    run.state.mkdir(mode=0o700)
    check(run.does("ended") == "", "once it has ended, something is said")
    is_kept(run, "once it has ended")
    check(texts(run.state) == put and names(run.run) == ENDED, "other images are kept than those that were put")

    # What was broken off is no image, and the copies go when it runs.
    (run.state / ".passwd.img.new").write_bytes(b"half")
    run.start()
    check(names(run.run) == RUNNING, f"while it runs: {names(run.run)}")
    found = counts(run, "passwd")
    check((found["entries"], found["used words"], found["hits"]) == ("1", USED, "0"), f"before anything is asked: {found}")
    check(run.ask(b"root") == ROOT_REPLY and counts(run, "passwd")["hits"] == "1", "what came back does not answer")
    check(run.ask(b"maud") != b"" and ends(run) == "", "an end: something is said")
    # Where nobody kept them, the next start does so first.
    put = texts(run.run)
    run.start()
    is_kept(run, "by the next start")
    check(texts(run.state) == put, "the next start loses images that nobody kept")
    has(run, 2, "by the next start")
    # One that is killed puts none, and the former ones come back.
    run.process.kill()
    run.process.communicate()
    check(run.does("ended") == "" and texts(run.state) == put, "after a kill other images are there")
    run.start()
    has(run, 2, "after a kill")
    ends(run)
    run.does("ended")


def strange(run):
    """What is no regular file is not read; what may not be replaced is told."""
    aside = run.state.parent / "aside"
    (run.state / "passwd.img").rename(aside)
    (run.state / "passwd.img").symlink_to(aside)
    (run.state / "group.img").unlink()
    os.mkfifo(run.state / "group.img")
    (run.state / "hosts.img").unlink()
    (run.state / "hosts.img").mkdir()
    before = aside.read_bytes()
    run.start()
    has(run, 0, "a link in the place of an image")
    ends(run)
    wanted = f"nscd: {run.state}/hosts.img: the image is not kept\n"
    check((found := run.does("ended")) == wanted, f"where a folder is in the way: {found!r}")
    check(names(run.state) == IMAGES and (run.state / "hosts.img").is_dir(), f"where a folder is in the way: {names(run.state)}")
    (run.state / "hosts.img").rmdir()
    run.does("ended")
    is_kept(run, "after a link and a FIFO")
    check(aside.read_bytes() == before and not (run.state / "passwd.img").is_symlink(), "a link was followed")


def left(run):
    """A database that is left to the C library begins without what was not found while it was served."""
    run.start()
    check(asked(run.run, NOBODY) != b"", "a host that is not there: no reply")
    ends(run)
    run.does("ended")
    check(len((run.state / "hosts.img").read_bytes()) > EMPTY, "a host that is not there is not kept")
    run.start()
    has(run, 1, "while it is served", "hosts")
    ends(run)
    run.does("ended")
    run.switch(FILES_ALONE.replace("hosts: files", "hosts: files dns"))
    run.start()
    has(run, 0, "while it is left", "hosts")
    check(asked(run.run, NOBODY) == b"", "a host is not found, where the C library would ask on")
    ends(run)
    run.does("ended")
    run.switch(FILES_ALONE)


def named(run):
    """systemd says where images are kept; of several folders the first one counts."""
    other = run.state.parent / "other"
    other.mkdir()
    before = texts(run.state)
    where = f"{other}:{run.state}"
    for entries in (0, 1):
        run.start(STATE_DIRECTORY=where)
        has(run, entries, "by STATE_DIRECTORY")
        run.ask(b"root")
        ends(run)
        check(run.does("ended", STATE_DIRECTORY=where) == "" and names(other) == IMAGES, f"by STATE_DIRECTORY: {names(other)}")
    check(texts(run.state) == before, "by STATE_DIRECTORY the images of another folder are changed")
    shutil.rmtree(other)


def kept_case():
    with served() as run:
        run.settings.write_text(SETTINGS)
        for part in (stops_and_starts, strange, left, named):
            part(run)
        # Where no database says so, none is put.
        before = texts(run.state)
        run.settings.write_text("")
        run.start()
        has(run, 0, "without persistent databases")
        run.ask(b"root")
        ends(run)
        check(names(run.run) == ENDED and run.does("ended") == "", "without persistent databases an image is put")
        check(texts(run.state) == before, "without persistent databases other images are there")
        return (
            "images outlive a stop, a kill and a start that follows nobody's keeping; a link, a FIFO and a folder are no images;"
            " a database that is left begins empty; systemd's folder counts, and without one nothing is said"
        )
