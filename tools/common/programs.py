"""A built program as a child, and what it says on standard error. In bash it is `run_built` of tools/run.bash.

A Rattle program has no exit status of its own: it has failed if it says anything but a note, or that its reader has gone.
"""
import os
import signal
import subprocess

TOOLS = os.path.dirname(os.path.dirname(os.path.realpath(__file__)))
NOTE = b"note: "
READER_GONE = b"standard output: Broken pipe"


def start(name, **how):
    """The program in the working directory, its standard error a pipe to this process."""
    return subprocess.Popen([os.path.join(TOOLS, "program"), name], stderr=subprocess.PIPE, **how)


def shell_status(status):
    """A child's status as a shell tells it: 128 and the signal's number, if a signal ended it."""
    return status if status >= 0 else 128 - status


def unexplained(status):
    return f"the program ended with status {status}, and did not say why"


class ErrorReader:
    """Reads a program's sentences, and hands each to `tell` as it comes; only that the reader has gone is not told."""

    def __init__(self, process, tell):
        self.pipe, self.tell = process.stderr.fileno(), tell
        self.said, self.last_note, self.unfinished = [], b"", b""

    def take(self, sentence):
        if sentence.startswith(NOTE):
            self.last_note = sentence
        else:
            self.said.append(sentence)
        if sentence != READER_GONE:
            self.tell(sentence)

    def read_piece(self):
        """Takes the sentences of the next piece; whether there was one."""
        try:
            piece = os.read(self.pipe, 4096)
        except BlockingIOError:
            return False
        *sentences, self.unfinished = (self.unfinished + piece).split(b"\n")
        for sentence in sentences:
            self.take(sentence)
        return piece != b""

    def read_on(self, is_waiting):
        os.set_blocking(self.pipe, is_waiting)
        while self.read_piece():
            pass

    def read_so_far(self):
        """Takes what the program has said by now, and waits for nothing."""
        self.read_on(is_waiting=False)

    def read_to_end(self):
        self.read_on(is_waiting=True)
        if self.unfinished:
            self.take(self.unfinished)

    def has_failed(self):
        """Whether anything was said that is a failure."""
        return any(sentence != READER_GONE for sentence in self.said)

    def why_ended(self, status):
        """What is left to say of the program's end; None if it did its work, said why not, or lost its reader."""
        return None if self.said or status in (0, -signal.SIGPIPE) else unexplained(status)
