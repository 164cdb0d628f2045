"""What peers cost the daemon in memory, under the limit of its unit: a case of tests/daemon."""

import os
import re
import time
from contextlib import contextmanager
from pathlib import Path

from running import ASK_BIG, ASK_ROOT, ROOT, check, daemon

UNITS = {"M": 1 << 20, "G": 1 << 30}
PEERS = 400  # that do not read
LONG, SHORT = 256 << 10, 4 << 10  # bytes that one of them may cost, with a long reply and with a short one


def limit_of_unit():
    number, unit = re.search(r"^MemoryMax=(\d+)([MG])$", (ROOT / "dist/nscd.service.in").read_text(), re.M).groups()
    return int(number) * UNITS[unit]


def places():
    """Where control groups of memory may be made, with the names of a limit and of what is used."""
    top = Path("/sys/fs/cgroup")
    if (top / "memory").is_dir():
        yield top / "memory", "memory.limit_in_bytes", "memory.usage_in_bytes"
    elif "memory" in (top / "cgroup.subtree_control").read_text().split():
        yield top, "memory.max", "memory.current"


@contextmanager
def control_group():
    """A new control group with the unit's limit, as its folder and the file of what it uses; None where none may be had."""
    try:
        parent, limit, used = next(places())
        group = parent / f"nscd-tests-{os.getpid()}"
        group.mkdir()
        (group / limit).write_text(str(limit_of_unit()))
    except (OSError, StopIteration):
        yield None
        return
    try:
        yield group, group / used
    finally:
        group.rmdir()


def cost_of(run, used, asked):
    """How many bytes each of many peers costs that asks so and does not read, and all of them together."""
    before = int(used.read_text())
    peers = []
    for _ in range(PEERS):
        peers.append(run.connect())
        peers[-1].sendall(asked)
        # No faster than they are served, so that none is sent away.
        time.sleep(0.01)
    run.is_well("beside peers that do not read")
    cost = int(used.read_text()) - before
    for peer in peers:
        peer.close()
    return cost / PEERS


def unread_replies():
    with control_group() as made:
        if made is None:
            return "skipped, since no control group of memory may be had here"
        group, used = made
        with daemon("-t", "5") as run:
            (group / "cgroup.procs").write_text(str(run.process.pid))
            check(len(run.ask(ASK_BIG)) > 500_000, "the large reply is short")
            costs = [cost_of(run, used, asked) for asked in (ASK_ROOT, ASK_BIG)]
            for cost, most in zip(costs, (SHORT, LONG)):
                check(cost <= most, f"a peer that does not read its reply costs {cost:.0f} bytes")
            run.shut_down()
        return (
            f"a peer that does not read a short reply costs {costs[0] / 1024:.1f} KiB, and one of 500 KB {costs[1] / 1024:.0f} KiB,"
            f" of the {limit_of_unit() >> 20} MiB of the unit"
        )


CASES = {"unread-replies": unread_replies}
