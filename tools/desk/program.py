"""The desk's program, the only child: if this process is killed, so is the program."""
import ctypes
import os
import signal
import subprocess

from common.programs import ErrorReader, start

PR_SET_PDEATHSIG = 1


def tied_to(parent, is_asked_here):
    """What the child does before it becomes the program."""
    libc = ctypes.CDLL(None)

    def tie():
        libc.prctl(PR_SET_PDEATHSIG, signal.SIGKILL)
        if os.getppid() != parent:
            os.kill(os.getpid(), signal.SIGKILL)
        if is_asked_here:
            # At the prompt Ctrl-C gives up a line, not the desk.
            signal.signal(signal.SIGINT, signal.SIG_IGN)

    return tie


class Program:
    """Runs in the working directory, with the lock's descriptor.

    Its standard input and output are this process's own, or pipes to this process. Its standard error is always a pipe
    to this process, and only `tell` and `ended` write what comes out of it: no sentence lands inside an answer.
    """

    def __init__(self, command, lock, is_asked_here):
        pipe = subprocess.PIPE if is_asked_here else None
        # This process ignores the signals of a pipe without reader and of a file grown too long, and so does the
        # child: it then says what could not be written.
        self.process = start(
            "desk",
            stdin=pipe,
            stdout=pipe,
            pass_fds=(lock,),
            restore_signals=False,
            preexec_fn=tied_to(os.getpid(), is_asked_here),
        )
        self.errors = ErrorReader(self.process, lambda sentence: command.say(sentence.decode(errors="replace")))

    def tell(self):
        """Passes on what the program has said by now. What it says of an answer it says before the answer's last line."""
        self.errors.read_so_far()

    def ask(self, line):
        """Whether the program could still be handed the line."""
        try:
            self.process.stdin.write(line + b"\n")
            self.process.stdin.flush()
        except BrokenPipeError:
            return False
        return True

    def ended(self):
        """Waits for the end, and passes on what is still said; what is to be said of the end itself, or None."""
        if self.process.stdin:
            try:
                self.process.stdin.close()
            except BrokenPipeError:
                pass
        self.errors.read_to_end()
        return self.errors.why_ended(self.process.wait())
