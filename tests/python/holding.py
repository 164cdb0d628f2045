"""A file whose opening or reading waits as long as a test likes, by fanotify(7)."""

import ctypes
import os
import select
import struct
import subprocess
import threading
import time

CLASS_CONTENT, CLOEXEC = 4, 1
MARK_ADD = 1
OPEN_PERM, ACCESS_PERM = 0x10000, 0x20000
AT_FDCWD = -100
ALLOW = 1
TOLD = 5.0  # seconds until the system tells that a file is opened
EVENT = struct.Struct("<IBBHQii")  # length, version, a byte, length of this, mask, descriptor, process


class Holding:
    """Answers the system's questions whether this file may be opened and read: at once, or once it is let go."""

    def __init__(self, path):
        library = ctypes.CDLL(None, use_errno=True)
        self.events = library.fanotify_init(CLASS_CONTENT | CLOEXEC, os.O_RDONLY)
        if self.events < 0:
            raise OSError(ctypes.get_errno(), "fanotify_init")
        if library.fanotify_mark(self.events, MARK_ADD, ctypes.c_uint64(OPEN_PERM | ACCESS_PERM), AT_FDCWD, os.fsencode(path)) < 0:
            error = ctypes.get_errno()
            os.close(self.events)
            raise OSError(error, "fanotify_mark")
        self.is_held, self.is_over, self.held_since = threading.Event(), threading.Event(), None
        self.thread = threading.Thread(target=self.answer)
        self.thread.start()

    def answer(self):
        while not self.is_over.is_set():
            if not select.select([self.events], [], [], 0.05)[0]:
                continue
            part, at = os.read(self.events, 4096), 0
            while at < len(part):
                size, _, _, _, _, descriptor, process = EVENT.unpack_from(part, at)
                at += size
                if process != os.getpid() and self.is_held.is_set():
                    self.held_since = self.held_since or time.monotonic()
                    while self.is_held.is_set() and not self.is_over.is_set():
                        time.sleep(0.01)
                os.write(self.events, struct.pack("<iI", descriptor, ALLOW))
                os.close(descriptor)

    def hold(self):
        self.held_since = None
        self.is_held.set()

    def let_go(self):
        self.is_held.clear()

    def close(self):
        self.is_over.set()
        self.thread.join()
        os.close(self.events)


def holding(path):
    """What holds this file, or None if the system offers no such thing, or does not tell of another process that opens it."""
    try:
        held = Holding(path)
    except OSError:
        return None
    held.hold()
    with subprocess.Popen(["cat", path], stdout=subprocess.DEVNULL) as other:
        ends = time.monotonic() + TOLD
        while held.held_since is None and time.monotonic() < ends:
            time.sleep(0.01)
        is_told = held.held_since is not None
        held.let_go()
        other.wait()
    if is_told:
        return held
    held.close()
    return None
