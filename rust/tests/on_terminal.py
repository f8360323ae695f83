"""on_terminal.py [PATTERN KEYS].. -- COMMAND..: runs the command on a terminal of its own, prints what is shown there and has its status.

Once what is shown since the last keys has the pattern in it, the keys are pressed. Keys `touch:FILE` make that file instead.
"""
import os
import pty
import re
import select
import signal
import sys
import time

# A step that is not reached by then, from the one before, is never reached. The command is killed.
LONGEST_WAIT = 60


def hear_signals():
    """As a user's shell starts a command: a suite that runs in the background may have been told to ignore these."""
    for number in (signal.SIGINT, signal.SIGQUIT, signal.SIGHUP, signal.SIGTERM):
        signal.signal(number, signal.SIG_DFL)


def press(terminal, keys):
    if keys.startswith(b"touch:"):
        os.close(os.open(keys[len(b"touch:"):], os.O_CREAT | os.O_WRONLY))
    else:
        os.write(terminal, keys)


def watch(terminal, steps):
    """What is shown, and whether the command ended of itself."""
    shown, since, until = b"", 0, time.monotonic() + LONGEST_WAIT
    while select.select([terminal], [], [], max(0, until - time.monotonic()))[0]:
        try:
            more = os.read(terminal, 4096)
        except OSError:
            return shown, True
        if not more:
            return shown, True
        shown += more
        if steps and re.search(steps[0][0], shown[since:], re.DOTALL):
            press(terminal, steps.pop(0)[1])
            since, until = len(shown), time.monotonic() + LONGEST_WAIT
    return shown, False


def main():
    split = sys.argv.index("--")
    command = sys.argv[split + 1:]
    given = [os.fsencode(word) for word in sys.argv[1:split]]
    child, terminal = pty.fork()
    if child == 0:
        hear_signals()
        os.execvp(command[0], command)
    shown, is_over = watch(terminal, list(zip(given[::2], given[1::2])))
    if not is_over:
        os.kill(child, 9)
    _, status = os.waitpid(child, 0)
    sys.stdout.buffer.write(shown)
    sys.stdout.flush()
    sys.exit(128 + os.WTERMSIG(status) if os.WIFSIGNALED(status) else os.WEXITSTATUS(status))


if __name__ == "__main__":
    main()
