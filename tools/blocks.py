"""The part of a document that a tool writes: what stands between `<!-- NAME -->` and `<!-- /NAME -->`. The tool has that name."""
import difflib
import sys


def read(path):
    with open(path, encoding="utf-8") as f:
        return f.read()


def between_marks(path, name):
    """the text of the document, and where its block begins and ends"""
    text, marks = read(path), ("<!-- %s -->" % name, "<!-- /%s -->" % name)
    begin, end = (text.find(mark) for mark in marks)
    if begin < 0 or end < begin:
        sys.exit("%s: %s has no block between %s and %s" % (name, path, *marks))
    return text, begin + len(marks[0]) + 1, end


def check(path, name, block):
    """0 if the document has this block; else 1, and the difference is printed"""
    text, begin, end = between_marks(path, name)
    old, new = text[begin:end].strip("\n").split("\n"), block.split("\n")
    if old == new:
        return 0
    print("\n".join(difflib.unified_diff(old, new, path, "as it should be", lineterm="")))
    print("%s: %s is not current: tools/%s --write %s" % (name, path, name, path))
    return 1


def write(path, name, block):
    text, begin, end = between_marks(path, name)
    with open(path, "w", encoding="utf-8") as f:
        f.write(text[:begin] + block + "\n" + text[end:])
