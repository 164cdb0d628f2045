"""A client that asks for users who are not kept yet, beside clients that invent names without rest: a case of tests/daemon.

The program of before, which NSCD_BEFORE names, runs beside this one in turn.
"""

import os
import time
from pathlib import Path

from askers import MARK, asking
from running import NO_REPLY, PASSWD_BY_NAME, PROGRAM, check, daemon, request
from sources import user_reply

CLIENTS = 16
USERS = 1000  # that one client asks, each once
RUN = 6.0  # seconds of the clients that invent names
START = 1.0  # seconds until all of them ask
PATIENCE = 1.0  # seconds for one reply
TURNS = 3  # of each program
TRIES = 3
ALIKE = 0.9  # of the rate of another run of one program, on a machine that is busy
SETTINGS = "max-db-size passwd 268435456\nsuggested-size passwd 4096\n"
INVENTED = request(PASSWD_BY_NAME, MARK + b"\0")


def user(number):
    return b"user%04d:x:%d:100::/home/user%04d:/bin/sh\n" % (number, 10_000 + number, number)


def reply(number):
    return user_reply(b"user%04d" % number, 10_000 + number, b"/bin/sh")


def replies_of(program):
    """How many users one client is told of until the others end, and how many names those invent."""
    with daemon("-t", "2", started=False, program=program) as run:
        (run.etc / "passwd").write_bytes(b"root:x:0:0:root:/root:/bin/bash\n" + b"".join(map(user, range(USERS))))
        (run.etc / "nscd.conf").write_text(SETTINGS)
        run.words = ("-f", run.etc / "nscd.conf", *run.words)
        run.start()
        with asking(run, CLIENTS, RUN, INVENTED, NO_REPLY) as clients:
            time.sleep(START)
            count, ends = 0, time.monotonic() + RUN - START
            for number in range(USERS):
                if time.monotonic() > ends:
                    break
                try:
                    said = run.ask(request(PASSWD_BY_NAME, b"user%04d\0" % number), patience=PATIENCE)
                except OSError:
                    continue
                check(said in (b"", reply(number)), f"user {number}: another reply")
                count += said != b""
            taken = time.monotonic() - (ends - RUN + START)
            return count / taken, len(clients.times())


def invented():
    before = os.environ.get("NSCD_BEFORE")
    if not before:
        return "skipped, since NSCD_BEFORE names no program of before"
    for _ in range(TRIES):
        seen = [(PROGRAM, []), (Path(before).resolve(), [])]
        for _ in range(TURNS):
            for program, turns in seen:
                turns.append(replies_of(program))
        here, there = (sum(rate for rate, _ in turns) / TURNS for _, turns in seen)
        if here >= ALIKE * there:
            break
    check(here >= ALIKE * there, f"beside {CLIENTS} clients that invent names one is told of {here:.0f} users a second, and before of {there:.0f}")
    invents, invented_there = (sum(count for _, count in turns) // TURNS for _, turns in seen)
    return (
        f"beside {CLIENTS} clients that invent {invents} names one is told of {here:.0f} users a second; by the program of before, beside"
        f" {invented_there}, of {there:.0f}"
    )


LONG_CASES = {"invented": invented}
