"""What an administrator is told on standard error: cases of tests/daemon."""

import resource
import select
import subprocess
import time

from running import FILES, GROUP_BY_NAME, PASSWD_BY_NAME, PATIENCE, PROGRAM, SERVICE_BY_NAME, check, check_refused, daemon, request


def lines_of(run, seconds=0.5):
    """The lines that the daemon has written on standard error since the last look, once it has been silent for a while."""
    text = b""
    while select.select([run.process.stderr], [], [], seconds)[0]:
        part = run.process.stderr.read1(1 << 16)
        if not part:
            break
        text += part
    return text.decode().splitlines()


def ask_anew(run, names):
    return run.ask(request(PASSWD_BY_NAME, b"nobody%d\0" % next(names)))


def faulty_file():
    """A file that cannot be read, and one that is too long; a folder in the place of a file is not told of."""
    names = iter(range(1000))
    with daemon() as run:
        passwd, group = run.etc / "passwd", run.etc / "group"
        group.unlink()
        group.mkdir()
        check(run.ask(request(GROUP_BY_NAME, b"friends\0")) == b"" and lines_of(run) == [], "a folder: a reply, or a line")
        shown = []
        for why in ("could not be read", "too long"):
            passwd.unlink()
            if why == "too long":
                passwd.write_bytes(b"#" * 16_777_217)
            else:
                passwd.symlink_to(passwd.name)
            for _ in range(5):
                check(ask_anew(run, names) == b"", f"{why}: a reply")
            # Of both faults the first alone is told, since the second one comes within a minute.
            lines = lines_of(run)
            check([(str(passwd) in line, why in line) for line in lines] == [(True, True)] * (not shown), f"{why}: {lines}")
            shown += lines
            passwd.unlink()
            # Another content than before, which takes a read.
            passwd.write_bytes(FILES["passwd"] + b"eve:x:7:7:::\n")
            check(ask_anew(run, names) != b"", "a good file: no reply")
            lines = lines_of(run)
            check([(str(passwd) in line, "again" in line) for line in lines] == [(True, True)] * (len(shown) == 1), f"a good file: {lines}")
            shown += lines
        comes_back(run, run.etc / "services", request(SERVICE_BY_NAME, b"none/tcp\0"))
        below_a_file(run, names)
        check(run.command("-K")[2] == 0 and run.process.wait(PATIENCE) == 0, "another status")
        return f"a file that cannot be read is named once, and once when it can be again, and not again within a minute: {shown}"


def comes_back(run, path, asked):
    """A file that could not be read is as it was before, which takes no more than a look."""
    check(run.ask(asked) != b"", f"{path}: no reply")
    away = path.with_name("away")
    path.rename(away)
    path.symlink_to(path.name)
    for name, told in ((b"non1", 1), (b"non2", 0)):
        check(run.ask(asked.replace(b"none", name)) == b"", f"{path}: a reply")
        lines = lines_of(run)
        check([str(path) in line for line in lines] == [True] * told, f"{path}: {lines}")
    away.replace(path)
    check(run.ask(asked.replace(b"none", b"non3")) != b"", f"{path} again: no reply")
    lines = lines_of(run)
    check([str(path) in line and "again" in line for line in lines] == [True], f"{path} again: {lines}")


def below_a_file(run, names):
    """A file takes the place of a folder: what was absent below it cannot be told any more, and is absent no longer."""
    folder = run.etc / "extrausers"
    folder.write_bytes(b"")
    check(ask_anew(run, names) == b"", "below a file: a reply")
    folder.unlink()
    check(ask_anew(run, names) != b"", "below no file: no reply")
    lines = lines_of(run)
    check([str(folder / "passwd") in line for line in lines] == [True, True], f"below a file: {lines}")


def long_file():
    with daemon() as run:
        (run.etc / "passwd").write_bytes(b"#" * 16_777_217)
        check(ask_anew(run, iter(range(1))) == b"", "a long file: a reply")
        lines = lines_of(run)
        check(len(lines) == 1 and str(run.etc / "passwd") in lines[0] and "16777217" in lines[0], f"a long file: {lines}")
        return f"a file that is too long is named, with its length: {lines[0]}"


def configuration():
    with daemon(started=False) as run:
        conf = run.etc / "nscd.conf"
        conf.write_text("reload-count 5\nno-such-word 7\n")
        words = [PROGRAM, "--etc", run.etc, "--run-dir", run.run]
        done = subprocess.run(words, capture_output=True, timeout=PATIENCE, check=False)
        lines = done.stderr.decode().splitlines()
        check(done.returncode == 6 and lines[-1] == "nscd: configuration line 2: unknown attribute", f"{lines}, {done.returncode}")
        check(len(lines) == 2 and str(conf) in lines[0], f"{lines}")
        return f"a configuration that is refused is named: {lines[0]}"


def bound():
    with daemon() as run:
        seen = []
        file = run.folder / "file"
        file.mkdir()
        (file / "socket").write_bytes(b"")
        long = run.folder / ("l" * 100)
        for folder, why in ((run.run, "another daemon"), (file, "in the way"), (long, "too long")):
            said = run.second(folder)
            check_refused(said, why)
            lines = said[1].decode().splitlines()
            check(len(lines) == 2 and str(folder) in lines[0] and why in lines[0], f"{why}: {lines}")
            seen.append(lines[0])
        return f"a socket that cannot be bound is named, and why: {len(seen)} causes"


def wanting():
    with daemon() as run:
        process, before = run.process.pid, run.opened()
        limits = resource.prlimit(process, resource.RLIMIT_NOFILE)
        resource.prlimit(process, resource.RLIMIT_NOFILE, (before + 20, limits[1]))
        peers = [run.connect() for _ in range(200)]
        run.is_well("while descriptors are wanting")
        lines = lines_of(run)
        check(len(lines) == 1 and "descriptor" in lines[0], f"descriptors are wanting: {lines}")
        resource.prlimit(process, resource.RLIMIT_NOFILE, limits)
        for peer in peers:
            peer.close()
        time.sleep(PATIENCE + 1)
        over, tries = [], 0
        while not over and tries < 20:
            run.is_well("once there are enough")
            over, tries = lines_of(run), tries + 1
        check(len(over) == 1 and "descriptor" in over[0], f"descriptors are there again: {over}")
        return f"connections that are closed for want of descriptors are told of once, and that it is over: {lines + over}"


CASES = {"faulty-file": faulty_file, "long-file": long_file, "configuration": configuration, "bound": bound, "wanting": wanting}
