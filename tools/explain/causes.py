"""The usual causes of a malformed line, refusals 2 and 3: pairs of what is wrong and what to do."""
import re

from common.texts import fields_of

from .texts import visible

NUMBER = r"(?:0|[1-9][0-9]*)"
SPELT = {
    "holds": re.compile(rf"-|[es]{NUMBER}(?:,[es]{NUMBER})*"),
    "after": re.compile(rf"-|{NUMBER}(?:,{NUMBER})*"),
    "edition": re.compile("[12]"),
    "rule": re.compile("clash"),
}
EXAMPLES = {"holds": "e1,s4", "after": "1,3"}
UTF_16 = (b"\xff\xfe", b"\xfe\xff")
BOM = b"\xef\xbb\xbf"

FIRST = ("word", "edition", "number of boards", "number of tasks")
TASK = {
    1: ("word", "task number", "board", "planned start", "planned finish", "holds", "after"),
    2: ("word", "task number", "board", "ready tick", "planned start", "planned finish", "holds", "after"),
}
END, DROP, RULE = ("word", "task", "tick"), ("word", "task"), ("word", "rule")


def saved_otherwise(text, k):
    """How an editor saved the text, if that shows in line k."""
    line = text.line(k)
    if text.bytes[:2] in UTF_16:
        wrong = f"{text.name} is saved as UTF-16, two bytes a sign."
        yield wrong, "Save it as UTF-8 without BOM; in Notepad: Save as, Encoding UTF-8."
        return
    if k == 1 and line.startswith(BOM):
        wrong = f"{text.name} begins with a BOM, three bytes that some editors put before a text."
        yield wrong, "Save it as UTF-8 without BOM."
    if line.endswith(b"\r\n"):
        wrong = "The line ends with CR and LF, as Windows writes it; an LF alone ends a line."
        yield wrong, f"Save {text.name} with the line ends of Unix, LF alone (sed -i 's/\\r$//' takes the CRs out)."
    elif b"\r" in line:
        yield "The line holds a CR, which ends no line here.", f"Save {text.name} with the line ends of Unix, LF alone."


def cleaned(text, k):
    """Line k without what `saved_otherwise` tells of."""
    line = text.line(k)
    line = line[len(BOM):] if k == 1 and line.startswith(BOM) else line
    return line[:-2] + b"\n" if line.endswith(b"\r\n") else line


def is_spelt(name, value):
    return bool(re.fullmatch(SPELT.get(name, NUMBER), value))


def has_space(value):
    return " " in value or "\u00a0" in value


def quoted(value):
    short = value if len(value) <= 30 else value[:30] + "…"
    return f"`{visible(short.encode())}`"


def word_fault(value, words, k, is_alone):
    """The first field; `words` are those that may stand there."""
    wanted = ", ".join(f"`{word}`" for word in words[:-1]) + (" or " if words[1:] else "") + f"`{words[-1]}`"
    if is_alone and not value.strip():
        return f"Line {k} is empty.", "Remove it: a text has no empty lines."
    if value.startswith(("#", "//")):
        return f"Line {k} is a comment, and a text has none.", "Remove it."
    if value.lower().strip() in words:
        return f"The word {quoted(value)} is spelt with capitals or spaces.", f"Write `{value.lower().strip()}`."
    if value == "rule":
        return "The rule is chosen in the first line alone.", "Move this line to the top of ends.txt, or remove it."
    if words == ("plan",):
        wrong = f"The first line begins with {quoted(value)}; here stands {wanted}."
        return wrong, "Write `plan`, `1` or `2`, boards, tasks as the first line, parted by tabs."
    return f"The line begins with {quoted(value)}; here stands {wanted}.", "Correct the word, or remove the line."


def number_fault(name, value):
    if value == "-":
        return f"The {name} is `-`, which may stand for holds and after alone.", "Write a number."
    if re.fullmatch("0+[0-9]+", value):
        return f"The {name} {quoted(value)} has a leading zero.", f"Write {value.lstrip('0') or '0'}."
    if re.fullmatch("[+-][0-9]+", value):
        return f"The {name} {quoted(value)} has a sign.", "Write a number from 0 on, without a sign."
    if re.fullmatch("[0-9][0-9.,']*", value):
        return f"The {name} {quoted(value)} has more in it than digits.", "Write digits alone: no point, no comma."
    if has_space(value):
        return f"The {name} {quoted(value)} has a space in it.", "Remove the space: a tab alone parts two fields."
    return f"The {name} {quoted(value)} is no number.", "Write decimal digits alone."


def list_fault(name, value):
    if has_space(value):
        return f"The {name} list {quoted(value)} has a space in it.", f"Join the items by commas alone, as in {EXAMPLES[name]}."
    if re.search("(^|,)[es]?0[0-9]", value):
        return f"The {name} list {quoted(value)} has a leading zero.", "Write the numbers without it."
    if re.search("^,|,,|,$", value):
        return f"The {name} list {quoted(value)} has a comma and no item beside it.", "Remove that comma, or fill the item in."
    if name == "holds" and re.search("[ES]", value):
        return f"The holds {quoted(value)} have a capital letter.", "Write `e` and `s` small."
    if name == "holds" and re.search("(^|,)[0-9]", value):
        wrong = f"The holds {quoted(value)} have a drive without its letter."
        return wrong, "Write `e` (exclusive) or, in edition 1 alone, `s` (shared) before each drive."
    return f"The {name} list {quoted(value)} is misspelt.", f"Write items joined by commas, as in {EXAMPLES[name]}, or `-` for none."


def field_fault(name, value):
    """A field other than the first one that is not spelt as it must be."""
    if value == "":
        fill = "Write `-` where there is none." if name in EXAMPLES else "Fill it in; look for two tabs in a row."
        return f"The field {name} is empty.", fill
    if name == "edition":
        return f"The edition is {quoted(value)}.", "Write `1`, or `2` for a plan with ready ticks."
    if name == "rule":
        return f"{quoted(value)} is no rule.", "Write `rule` and `clash`, or remove the line: then it is Early Start."
    return list_fault(name, value) if name in EXAMPLES else number_fault(name, value)


def end_fault(names, fields, line):
    """What is wrong behind the last field that is there."""
    if len(fields) < len(names):
        return f"The line ends too soon: the field {names[len(fields)]} is missing.", "Write it, behind a tab."
    if len(fields) > len(names):
        more = fields[len(names)]
        if more == "" and len(fields) == len(names) + 1:
            return "A tab stands at the end of the line.", "Remove it."
        return f"The line has {len(fields)} fields, {len(names)} may stand there.", f"Remove what is too much, from {quoted(more)} on."
    if not line.endswith(b"\n"):
        return "The last line is not ended: its LF is missing.", "Press Enter behind the last line, and save."
    return None


def of_other_edition(names, fields):
    """The edition whose task line this would be; none if it is of neither."""
    for edition, others in TASK.items():
        if names in TASK.values() and others != names and len(fields) == len(others) and all(map(is_spelt, others[1:], fields[1:])):
            return edition
    return None


def has_spaces_for_tabs(names, line):
    is_comment = line.startswith((b"#", b"//"))
    return has_space(line.decode("utf-8", "replace")) and line.count(b"\t") + 1 < len(names) and not is_comment


def fault_of_line(line, k, names, words, field):
    """The cause in a line that was saved as it must be; none if that alone was its fault."""
    fields = fields_of(line)
    edition = of_other_edition(names, fields)
    if has_spaces_for_tabs(names, line):
        to_do = "Put one tab between each two fields, and no space; look whether your editor makes spaces of tabs."
        return "Spaces stand where a tab parts the fields.", to_do
    if field == 0 and fields[0] not in words:
        return word_fault(fields[0], words, k, len(fields) == 1)
    if edition:
        wrong = f"The line has the {len(fields)} fields of edition {edition}, and the first line of the plan says edition {3 - edition}."
        return wrong, "Correct the edition in line 1, or the fields: a ready tick stands in edition 2 alone, behind the board."
    if 0 < field < min(len(fields), len(names)) and not is_spelt(names[field], fields[field]):
        return field_fault(names[field], fields[field])
    return end_fault(names, fields, line) if field >= len(fields) - 1 or field >= len(names) else None


def malformed(text, k, names, words, field):
    """All causes that show in line k, whose faulty field is named by its place from 0."""
    causes = list(saved_otherwise(text, k))
    fault = None if text.bytes[:2] in UTF_16 else fault_of_line(cleaned(text, k), k, names, words, field)
    return causes + ([fault] if fault else [])
