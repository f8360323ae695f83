"""How a command in Python takes its words, prints and fails. For those in bash it is tools/use.bash."""
import os
import sys


class Command:
    """A command: the name that its sentences begin with, and what --help tells."""

    def __init__(self, name, use=""):
        self.name, self.use = name, use

    def say(self, why):
        """One sentence on standard error; bytes, such as a folder's name, are told as they are."""
        words = why if isinstance(why, bytes) else str(why).encode(sys.stderr.encoding, sys.stderr.errors)
        sys.stderr.buffer.write(self.name.encode() + b": " + words + b"\n")
        sys.stderr.buffer.flush()

    def die(self, why, status=2):
        self.say(why)
        sys.exit(status)

    def misused(self, why):
        self.die(f"{why}; --help tells the use")

    def can_print(self):
        if sys.stdout is None:
            self.die("standard output is closed")

    def put(self, printed):
        """Prints the bytes. If the reader goes away early it has what it wanted: that is no failure."""
        try:
            sys.stdout.buffer.write(printed)
            sys.stdout.buffer.flush()
        except OSError as fault:
            # Python would write the rest at its end, and fail once more.
            os.dup2(os.open(os.devnull, os.O_WRONLY), sys.stdout.fileno())
            if not isinstance(fault, BrokenPipeError):
                self.die(f"standard output: {fault.strerror}")

    def tell_use(self, words):
        """Tells the use and ends, if the words ask for it."""
        self.can_print()
        if "--help" in words or "-h" in words:
            self.put(self.use.encode())
            sys.exit(0)

    def check_words(self, words, counts, wanted):
        """No option is left, and there are as many words as one of the counts."""
        for word in words:
            if word.startswith("-"):
                self.misused(f"there is no option {word}")
        if len(words) not in counts:
            self.misused(wanted)
