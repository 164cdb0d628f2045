"""Many short runs of the program, one after the other, by the cheapest way to start one."""

import os
import signal
import threading

from running import PATIENCE, PROGRAM


class Runner:
    """Starts the program without an environment, and with its output and what it says in files of memory, which are read once it has ended."""

    def __init__(self, given=b""):
        self.input = os.memfd_create("input")
        os.write(self.input, given)
        self.files = [os.memfd_create(name) for name in ("output", "said")]

    def start(self, *words):
        os.lseek(self.input, 0, os.SEEK_SET)
        places = [(os.POSIX_SPAWN_DUP2, file, place) for place, file in enumerate((self.input, *self.files))]
        self.process = os.posix_spawn(PROGRAM, [str(PROGRAM), *words], {}, file_actions=places)

    def end(self):
        """The output, what was said, and the status; one that does not end is killed."""
        limit = threading.Timer(4 * PATIENCE, os.kill, (self.process, signal.SIGKILL))
        limit.start()
        status = os.waitstatus_to_exitcode(os.waitpid(self.process, 0)[1])
        limit.cancel()
        found = []
        for file in self.files:
            size = os.lseek(file, 0, os.SEEK_CUR)
            found.append(os.pread(file, size, 0))
            os.lseek(file, 0, os.SEEK_SET)
        return *found, status

    def close(self):
        for file in (self.input, *self.files):
            os.close(file)
