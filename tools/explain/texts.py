"""A folder's texts as they were typed: lines of bytes, and how a line is shown."""
import difflib
import os

from common.texts import lines_of

MOST_BYTES = 32_768
# What stands for a sign that cannot be seen, and what it is called.
MARKS = {
    "\t": ("→", "a tab"),
    "\n": ("¶", "the line's end (LF)"),
    " ": ("·", "a space"),
    "\r": ("␍", "a CR"),
    "\ufeff": ("⍰", "a BOM"),
    "\u00a0": ("⎵", "a space that does not break"),
}
UNSEEN = ("�", "a byte that cannot be shown")
# Of a longer line the part around the column is shown.
BEFORE, BEHIND = 70, 40


class Text:
    """A text of the folder; a missing one counts as empty, as it does for the program."""

    def __init__(self, folder, name):
        self.name, path = name, os.path.join(folder, name)
        self.is_there = os.path.exists(path)
        self.size = os.path.getsize(path) if self.is_there else 0
        self.bytes = b""
        if self.is_there:
            with open(path, "rb") as file:
                self.bytes = file.read(MOST_BYTES + 1)
        self.lines = lines_of(self.bytes)

    def line(self, k):
        """Line k with its end; empty if there is none."""
        return self.lines[k - 1] if 1 <= k <= len(self.lines) else b""


def column_of(line, field):
    """The column, from 1, at which a field begins."""
    return len(b"\t".join(line.split(b"\t")[:field])) + (2 if field else 1)


def visible(part):
    """The bytes as words in which everything can be seen."""
    def seen(sign):
        return MARKS[sign][0] if sign in MARKS else sign if sign.isprintable() else UNSEEN[0]
    return "".join(map(seen, part.decode("utf-8", "replace")))


def shown(line, column=None):
    """The line as typed, and below it the caret; of a long line a part."""
    words, caret = visible(line), len(visible(line[:column - 1])) if column else 0
    begin, end = max(0, caret - BEFORE), caret + BEHIND
    cut = ("…" if begin else "") + words[begin:end] + ("…" if end < len(words) else "")
    return [cut] + ([" " * (caret - begin + (1 if begin else 0)) + "^"] if column else [])


def legend(words):
    """What the marks among the words stand for."""
    used = [f"{mark} is {name}" for mark, name in [*MARKS.values(), UNSEEN] if mark in words]
    return f"({', '.join(used)})" if used else ""


def near_names(folder, name):
    """Files that may have been meant: the stem goes on otherwise, or a letter or two differ."""
    stem = name.partition(".")[0]
    others = [other for other in sorted(os.listdir(folder)) if os.path.isfile(os.path.join(folder, other)) and other != name]
    return [other for other in others if other.lower().startswith(stem) or difflib.get_close_matches(name, [other.lower()], 1, 0.75)]


def folders_with(folder, name):
    return [below for below in sorted(os.listdir(folder)) if os.path.isfile(os.path.join(folder, below, name))]
