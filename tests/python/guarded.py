"""What keeps a daemon from starting and must not, and lists that cannot be judged: a case of tests/install."""

import fcntl
import os
import subprocess

from running import ROOT_REPLY, check
from serving import served


def guarded_case():
    """A lock that every user may take on the folder of the sockets; and an awk that fails, as if no process were left for it."""
    with served() as run:
        holder = os.open(run.run, os.O_RDONLY)
        fcntl.flock(holder, fcntl.LOCK_EX | fcntl.LOCK_NB)
        run.start()
        check(run.ask(b"root") == ROOT_REPLY, "beside a lock of the folder: another reply")
        check((run.run / "starting").stat().st_mode & 0o777 == 0o600, "others may open the file by which one start has the folder")
        check(run.order("-K").returncode == 0 and run.process.wait(10) == 0, "it does not end as it is told")
        os.close(holder)
        failing = run.run.parent / "failing"
        failing.mkdir()
        (failing / "awk").write_text("#!/bin/sh\nexit 2\n")
        (failing / "awk").chmod(0o755)
        environment = os.environ | {"PATH": f"{failing}:{os.environ['PATH']}"}
        for word in ("start", "left"):
            done = subprocess.run([run.serve, word], capture_output=True, env=environment, timeout=20, check=False)
            check(done.returncode == 1 and b"could not be judged" in done.stderr, f"without awk {word}: {done}")
        check(run.order("-g").returncode != 0, "a daemon runs whose lists were not judged")
        return "a lock of the folder that any user may take keeps no daemon from starting, and none starts if the lists cannot be judged"


CASES = {"guarded": guarded_case}
