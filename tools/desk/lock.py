"""The lock of a folder: the kernel's, so that a killed desk leaves none."""
import fcntl
import os
import time

# Seconds. A desk that was killed a moment ago may still be going, on a busy machine for longer than on a quiet one.
PATIENCE = 3


def take_lock():
    """A descriptor that holds the working directory's lock as long as it is open here or in a child; None if another desk has it."""
    # The folder itself is locked, and only read, so that a folder that may not be written has a lock too.
    folder = os.open(".", os.O_RDONLY | os.O_DIRECTORY)
    until = time.monotonic() + PATIENCE
    while True:
        try:
            fcntl.flock(folder, fcntl.LOCK_EX | fcntl.LOCK_NB)
            return folder
        except BlockingIOError:
            if time.monotonic() > until:
                return None
        time.sleep(0.01)
