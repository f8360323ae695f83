"""Words that several commands print."""


def many(count, word):
    return f"{count} {word}" + ("" if count == 1 else "s")
