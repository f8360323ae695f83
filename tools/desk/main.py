"""main.py FOLDER: keeps the desk on the working directory, which the user called FOLDER. For ./desk, which has built the program.

It takes the folder's lock, starts the program, and makes an exit status of what that says on standard error. At a
terminal it asks the user for lines; else the program itself reads standard input and prints.
"""
import os
import signal
import sys

sys.path.insert(0, os.path.dirname(os.path.dirname(os.path.realpath(__file__))))

from common.command import Command  # noqa: E402
from lock import take_lock  # noqa: E402
from program import Program  # noqa: E402
from prompt import Prompt  # noqa: E402
from terminal import converse  # noqa: E402

COMMAND = Command("desk")


def main():
    folder = sys.argv[1]
    try:
        lock = take_lock()
    except OSError as fault:
        COMMAND.die(f"'{folder}' may not be read: {fault.strerror}")
    if lock is None:
        COMMAND.die(f"another desk is open on '{folder}'")
    if sys.stdin.isatty() and sys.stdout.isatty():
        prompt = Prompt()
        program = Program(COMMAND, lock, is_asked_here=True)
        converse(program, prompt)
    else:
        signal.signal(signal.SIGINT, signal.SIG_DFL)
        program = Program(COMMAND, lock, is_asked_here=False)
    why = program.ended()
    if why:
        COMMAND.die(why)
    sys.exit(2 if program.errors.has_failed() else 0)


main()
