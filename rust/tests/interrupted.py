"""interrupted.py TIMES COMMAND..: runs the desk's command on a terminal of its own, and interrupts it between prompt and keys.

The signal is sent so many times, each time when the call that writes the prompt has just returned and the desk does not wait
for keys yet. Then `early` is typed, and Ctrl-D. Prints what was shown; has the command's status.
"""
import ctypes
import os
import pty
import signal
import sys

from on_terminal import hear_signals
from traced import CALLS, ENTRY, become, follow

LONGEST_WAIT = 60
PROMPT = b"desk> "


class Interrupter:
    """Knows what the child has written so far; at the end of a prompt it takes the next step."""

    def __init__(self, child, terminal, times):
        self.child, self.terminal = child, terminal
        self.steps = [None] * times + [b"early\r", b"\x04"]
        self.written = self.handed = b""

    def look(self, info):
        if info.op == ENTRY:
            is_write = (CALLS.get(info.number), info.arguments[0]) == ("write", 1)
            self.handed = self.bytes_at(info.arguments[1], info.arguments[2]) if is_write else b""
            return
        # What a call that is left answers stands in the number's place; one that a signal breaks off has taken nothing.
        taken = ctypes.c_int64(info.number).value
        self.written += self.handed[:max(taken, 0)]
        self.handed = b""
        if self.written.endswith(PROMPT) and self.steps:
            self.written = b""
            self.step(self.steps.pop(0))

    def bytes_at(self, address, length):
        with open(f"/proc/{self.child}/mem", "rb", buffering=0) as memory:
            memory.seek(address)
            return memory.read(length)

    def step(self, keys):
        if keys is None:
            os.kill(self.child, signal.SIGINT)
        else:
            os.write(self.terminal, keys)


def main():
    times, command = int(sys.argv[1]), sys.argv[2:]
    child, terminal = pty.fork()
    if child == 0:
        hear_signals()
        become(command)
    # a desk that waits for a key all the same is killed together with this process
    signal.alarm(LONGEST_WAIT)
    status = follow(child, Interrupter(child, terminal, times).look)
    shown = b""
    while True:
        try:
            shown += os.read(terminal, 4096)
        except OSError:
            break
    sys.stdout.buffer.write(shown)
    sys.exit(status)


main()
