"""Programs each of whose allocations is refused in turn: the daemon's start, also with an image, its end with one, and the other forms."""

import os
import re
import subprocess

import frames
import images
import kept
import torn
import workload
from refused import STATISTICS
from refusing import WORKERS, Orders, Subject, refusable
from running import PATIENCE, PROGRAM, ROOT_REPLY, SHUTDOWN, Fault, check, daemon, request

OUT_OF_MEMORY = rb"nscd: /[^\n]*: out of memory\n"
# How a run without memory ends: a word, the line that may or must stand before its text and names what was at fault, the text, and the status.
ENDINGS = (
    ("no memory", rb"(%s)?" % OUT_OF_MEMORY, rb"nscd: no memory\n", 10),
    ("socket failed", OUT_OF_MEMORY, rb"nscd: socket failed\n", 8),
)
# A command names no path.
COMMAND_ENDINGS = tuple((word, b"", text, status) for word, _, text, status in ENDINGS)
KEPT = 100  # entries of the image that is brought back
LATER = 4_000_000_000  # a moment that no entry reaches before
MAUD_REPLY = images.found(("maud", "x", 4242, 4243, "Maud", "/home/maud", "/bin/sh"))


def refusal(said, first, last, endings=ENDINGS):
    """A word for the output, the text and the status of a run that found no memory. A socket that finds none has failed.

    Where no memory comes back, there may be none for the text either.
    """
    output, told, status = said
    for word, before, text, number in endings:
        if output == b"" and status == number:
            if re.fullmatch(before + text, told):
                return word
            if last > first and re.fullmatch(rb"(%s)?" % before, told):
                return f"{word}, without its text"
    raise Fault(f"it ends with {said}")


def beginning(run, first, last):
    """Starts the daemon. None where it becomes ready, and else a word for how it ended; then it must have left no socket."""
    run.orders.refuse(first, last)
    try:
        run.start()
        run.settles()
        return None
    except Fault as fault:
        check(str(fault) == "it begins with b''", f"{fault}")
        word = refusal((*run.process.communicate(timeout=4 * PATIENCE), run.process.returncode), first, last)
        left = sorted(os.listdir(run.run)) if run.run.exists() else []
        check(not {"socket", "admin"} & set(left), f"it leaves {left}")
        return word


def workers_of(run):
    """How many threads the daemon has beside its first one."""
    return len(os.listdir(f"/proc/{run.process.pid}/task")) - 1


def start(made, first, last):
    with refusable(made, started=False) as run:
        if word := beginning(run, first, last):
            return run.orders.stop(), word
        refused = run.orders.stop()
        run.is_well("it is ready")
        threads = workers_of(run)
        run.ends_well()
    return refused, "ready" if threads == WORKERS else f"ready with {threads} of {WORKERS} workers"


def out_of_memory(run, text=""):
    """The line that tells of an image for which there was no memory."""
    return f"nscd: {kept.image_of(run)}: out of memory{text}\n".encode()


def start_with_image(made, first, last):
    """A start that brings back an image: each name is answered rightly, kept or not."""
    with refusable(made, started=False, settings=kept.PERSISTENT.encode()) as run:
        (run.etc / "passwd").write_bytes(torn.passwd(KEPT))
        kept.put(run, torn.two_images(KEPT)[0])
        before = kept.identity(kept.image_of(run))
        if word := beginning(run, first, last):
            check(kept.identity(kept.image_of(run)) == before and kept.left_in(run) == ["passwd.img"], "the image is touched")
            return run.orders.stop(), word
        refused = run.orders.stop()
        entries = kept.entries_told(run)
        for number in range(KEPT):
            torn.check_user(run, number, "it is ready")
        told = run.tells_and_ends()
    if told == b"":
        check(entries == KEPT, f"it is ready with {entries} entries, and tells nothing")
        return refused, "ready"
    check((told, entries) == (out_of_memory(run), 0), f"with {entries} entries it told {told}")
    return refused, "ready, and told that the image could not be read"


def end(made, first, last):
    """An order to end, and the end with an image: the new one whole, or the former one as it was."""
    former = images.image([kept.root_entry(LATER)])
    with refusable(made, started=False, settings=kept.PERSISTENT.encode()) as run:
        kept.put(run, former)
        before = kept.identity(kept.image_of(run))
        run.start()
        check(run.ask(request(0, b"maud\0")) == MAUD_REPLY, "before the end: another reply for maud")
        run.settles()
        run.orders.refuse(first, last)
        came = run.closed_or(request(SHUTDOWN, b""), "admin")
        check(came in (b"", bytes(4)), f"another reply: {came!r}")
        if not came:
            refused = run.orders.stop()
            run.is_well("the order was not taken")
            run.ends_well()
            check([one.key for one in kept.entries_of(run)] == [b"root", b"maud", b"4242"], "after the next order: another image")
            return refused, "not taken"
        said = (*run.process.communicate(timeout=4 * PATIENCE), run.process.returncode)
        refused = run.orders.stop()
        check(kept.left_in(run) == ["passwd.img"], f"there are {kept.left_in(run)}")
        is_former = kept.identity(kept.image_of(run)) == before
        if said[2] != 0:
            check(is_former, f"it ends with {said}, and the former image is touched")
            return refused, refusal(said, first, last)
        if said[1] != b"":
            check(is_former and said[1] == out_of_memory(run, ": the image is not kept"), f"it ends with {said}")
            return refused, "told that it is not kept"
        check(not is_former, "it ends with 0 and without a word, and the former image is there")
        rows = [row[1:4] for row in kept.entries_of(run)]
        check(rows == [(b"root", ROOT_REPLY, False), (b"maud", MAUD_REPLY, False), (b"4242", MAUD_REPLY, False)], f"another image: {rows}")
        return refused, "put"


# The other forms of the program.


def run_refused(run, made, words, first, last, sent=b""):
    """What a form of the program says with allocations refused, and how many were."""
    orders = Orders(run.folder / "own-orders")
    orders.refuse(first, last)
    environment = {**os.environ, "LD_PRELOAD": str(made), "REFUSE": str(run.folder / "own-orders")}
    done = subprocess.run([PROGRAM, *words], input=sent, capture_output=True, timeout=4 * PATIENCE, check=False, env=environment)
    return orders.stop(), (done.stdout, done.stderr, done.returncode)


def client(made, first, last, *words):
    with daemon("-t", "1") as run:
        wanted = STATISTICS if words == ("-g",) else b""
        refused, said = run_refused(run, made, [*words, "--run-dir", run.run], first, last)
        word = "done" if said == (wanted, b"", 0) else refusal(said, first, last, COMMAND_ENDINGS)
        if words == ("-K",) and said[2] == 0:
            check(run.process.wait(PATIENCE) == 0, f"the daemon ended with {run.process.returncode}")
        elif words != ("-K",):
            run.is_well("after the command")
            run.shut_down()
    return refused, word


def replay(made, first, last):
    """A replay writes a front of its replies."""
    passwd = b"root:x:0:0:root:/root:/bin/bash\n"
    ask = frames.look_up("user", b"root\0")
    rows = [frames.set_file("passwd", passwd), ask, ask, frames.pass_time(4000), ask, frames.invalidate("passwd"), ask, frames.END]
    reply = frames.number(len(ROOT_REPLY)) + ROOT_REPLY
    with daemon(started=False) as run:
        refused, said = run_refused(run, made, ["--replay"], first, last, b"".join(rows))
    fronts = [count * reply for count in range(5)]
    check(said[0] in fronts, f"it writes {said[0]}")
    return refused, "done" if said == (fronts[4], b"", 0) else refusal((b"", *said[1:]), first, last)


def load(made, first, last):
    wanted = workload.lines(1).encode()
    with daemon(started=False) as run:
        refused, said = run_refused(run, made, ["--workload", "1", "-t", "2"], first, last)
    return refused, "done" if said == (wanted, b"", 0) else refusal(said, first, last)


SUBJECTS = [
    Subject("a start", start),
    Subject("a start with an image", start_with_image),
    Subject("an end with an image", end),
    *(Subject(f"nscd {' '.join(words)}", client, *words) for words in (("-g",), ("-i", "passwd"), ("-K",))),
    Subject("a replay", replay),
    Subject("a load", load),
]
