"""The lines, fields and numbers of a text."""

# The greatest number of a text.
MOST_NUMBER = 1_000_000


class Unfit(ValueError):
    """A text that is not as it must be, and why."""


def lines_of(text):
    """The lines with their LF; only an LF ends one."""
    lines = [line + b"\n" for line in text.split(b"\n")]
    return lines[:-1] + ([lines[-1][:-1]] if lines[-1] != b"\n" else [])


def fields_of(line, encoding="utf-8"):
    """The fields of a line as words; bytes that are not of the encoding show as such."""
    return [field.decode(encoding, "replace") for field in line.rstrip(b"\n").split(b"\t")]


def rows_of(name, text):
    """The fields of each line, with the line's name for messages."""
    if not text.endswith(b"\n"):
        raise Unfit(f"{name}: it does not end in a whole line")
    return [(f"{name}, line {k}", fields_of(line, "ascii")) for k, line in enumerate(lines_of(text), 1)]


def number(word, where):
    if not (word.isascii() and word.isdigit()) or len(word) > 7 or int(word) > MOST_NUMBER:
        raise Unfit(f"{where}: {word[:20]!r} is no number from 0 to {MOST_NUMBER}")
    return int(word)
