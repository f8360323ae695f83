"""Hands a list of folder names on to a program that opens files by names in UTF-8 alone; in place of any other, a link's path."""
import errno
import os
import shutil
import signal
import tempfile
import threading

# The longest name that the program takes, and its LF.
LINE_MOST = 4097


class Unhanded(Exception):
    """Why the list was not handed on to its end."""


def is_utf8(name):
    try:
        name.decode()
    except UnicodeDecodeError:
        return False
    return True


def new_folder():
    """A folder whose path the program takes: TMPDIR may be one that it does not."""
    usual = tempfile.gettempdirb()
    return tempfile.mkdtemp(prefix=b"year-", dir=usual if is_utf8(usual) and b"\n" not in usual else b"/tmp")


class Links:
    """Links to folders, in a folder of their own that is made for the first of them."""

    def __init__(self):
        # Reentrant: a signal's handler removes the links too, and may interrupt that very thread in it.
        self.lock = threading.RLock()
        self.folder, self.names, self.are_removed = None, {}, False

    def add(self, name):
        """The path of a new link to the folder of that name; nothing is made once they are removed."""
        with self.lock:
            if self.are_removed:
                return name
            if self.folder is None:
                self.folder = new_folder()
            link = b"%s/%d" % (self.folder, len(self.names))
            os.symlink(os.path.join(os.getcwdb(), name), link)
            self.names[link] = name
            return link

    def remove(self):
        with self.lock:
            self.are_removed = True
            if self.folder is not None:
                shutil.rmtree(self.folder, ignore_errors=True)

    def put_back(self, sentence):
        """The sentence with the user's own name, if it begins with a link's path."""
        for link, name in self.names.items():
            if sentence.startswith(link + b"/"):
                return name + sentence[len(link):]
        return sentence


class Feed(threading.Thread):
    """Copies the list to the program line by line: it may be a pipe, and longer than the program reads."""

    def __init__(self, listing, pipe):
        # The command does not wait for a list that goes on.
        super().__init__(daemon=True)
        self.listing, self.pipe, self.links, self.fault = listing, pipe, Links(), b""

    def run(self):
        # Signals are for the main thread, which waits for the program.
        signal.pthread_sigmask(signal.SIG_BLOCK, signal.valid_signals())
        try:
            self.copy()
        except Unhanded as why:
            self.fault = why.args[0]
        except BrokenPipeError:
            # The program has stopped before the end of the list.
            pass
        finally:
            self.pipe.close()

    def copy(self):
        is_begin, piece = True, self.read()
        while piece:
            is_end = piece.endswith(b"\n")
            # The program takes no longer line, so its parts stay as they are.
            is_line = is_begin and (is_end or len(piece) < LINE_MOST)
            self.write(self.handed_on(piece) if is_line else piece)
            is_begin, piece = is_end, self.read()

    def read(self):
        """The next line with its LF; one that is longer than a name's comes in pieces."""
        try:
            return self.listing.readline(LINE_MOST)
        except OSError as fault:
            # To the program the list is its standard input: the same words as its own.
            raise Unhanded(b"standard input: " + os.fsencode(fault.strerror)) from fault

    def handed_on(self, line):
        name, end, _ = line.partition(b"\n")
        # A NUL byte is in no link.
        if is_utf8(name) or b"\0" in name:
            return line
        try:
            return self.links.add(name) + end
        except OSError as fault:
            if fault.errno == errno.ENAMETOOLONG:
                return line
            raise Unhanded(name + b": " + os.fsencode(fault.strerror)) from fault

    def write(self, piece):
        while piece:
            piece = piece[self.pipe.write(piece):]
