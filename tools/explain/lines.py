"""Words for 1 to 5, 18 and 20: a text, or a line of it, that is not as it must be."""
from common.plans import MOST_BOARDS, MOST_DRIVES, MOST_TASKS
from common.texts import MOST_NUMBER, fields_of
from common.words import many

from .account import Account, at_line, joined, listed
from .causes import DROP, END, FIRST, RULE, TASK, is_spelt, malformed, quoted
from .texts import MOST_BYTES, column_of, folders_with, near_names

# The numbers of the first line, by their places, from 1 to these.
RANGES = {2: (MOST_BOARDS, "boards"), 3: (MOST_TASKS, "tasks")}


def too_long(case, _first, _second):
    text = case.plan_text if case.plan_text.size > MOST_BYTES else case.ends_text
    wrong = f"{text.name} has {text.size:,} bytes, and a text has at most {MOST_BYTES:,}."
    return Account(wrong, f"Shorten {text.name}. Nothing in it was read.")


def no_plan(case):
    near, below = near_names(case.folder, "plan.txt"), folders_with(case.folder, "plan.txt")
    if near:
        to_do = f"Rename {near[0]} to plan.txt, if that is the plan: small letters, and one .txt."
        return Account(f"There is no plan.txt; the folder has {' and '.join(near)}.", to_do)
    if below:
        wrong = f"There is no plan.txt in this folder; there is one in {' and in '.join(below)}."
        return Account(wrong, f"Name that folder, such as {case.folder.rstrip('/')}/{below[0]}.")
    return Account("There is no plan.txt in the folder.", "Look whether it is the right folder, and whether the plan is called plan.txt.")


def number_of(value):
    """The number of well spelt digits; of more than eight the first ones do, they are over every range."""
    return int(value[:8])


def in_range(place, value):
    """Whether a well spelt field of the first line may have this value."""
    return place not in RANGES or 1 <= number_of(value) <= RANGES[place][0]


def first_bad_field(fields):
    """Its place among the four of the first line; 4 or less if the fault lies behind those that are there."""
    for place, (name, value) in enumerate(zip(FIRST, fields)):
        is_right = value == "plan" if place == 0 else is_spelt(name, value) and in_range(place, value)
        if not is_right:
            return place
    return min(len(fields), len(FIRST))


def out_of_first_range(place, value, look):
    most, what = RANGES[place]
    wrong = f"The first line says {quoted(value)} {what}, and a plan has 1 to {most}."
    return Account(wrong, "Correct the number, or make a second plan of what is too much.", look)


def first_line(case, _first, _second):
    text = case.plan_text
    if not text.is_there:
        return no_plan(case)
    if not text.bytes:
        return Account("plan.txt is empty.", "Write the plan into it: first `plan`, edition, boards, tasks, parted by tabs.")
    line = text.line(1)
    fields = fields_of(line)
    bad = first_bad_field(fields)
    look = at_line(text, 1, min(column_of(line, bad), len(line.rstrip(b"\n")) + 1))
    if bad in RANGES and len(fields) > bad and is_spelt(FIRST[bad], fields[bad]):
        return out_of_first_range(bad, fields[bad], look)
    causes = malformed(text, 1, FIRST, ("plan",), bad)
    later = next((k for k, other in enumerate(text.lines, 1) if other.startswith(b"plan\t")), 1)
    if later > 1:
        causes = [(wrong, "") for wrong, _ in causes]
        causes.append((f"The line that begins with `plan` is line {later}.", "Remove all that stands before that line."))
    generic = ("The first line of plan.txt is not as it must be.", "Write `plan`, `1` or `2`, boards, tasks, parted by tabs.")
    return joined(causes or [generic], look)


def form_of(case, k):
    """The names of the fields that line k of the refused text must have, and the words that may begin it."""
    fields = fields_of(case.refused_text().line(k))
    if not case.morning:
        edition, _, _ = case.first_line()
        return TASK[edition], ("task",)
    if k == 1 and fields[0] == "rule":
        return RULE, ("rule",)
    return (DROP if fields[0] == "drop" else END), ("end", "drop", "rule") if k == 1 else ("end", "drop")


def rest_unread(case, k, account):
    """A refused line of ends.txt ends the log."""
    more = len(case.ends_text.lines) - k
    if case.morning and more > 0:
        account.wrong += f" ends.txt is not read on: {many(more, 'more line')}."
    return account


def missing_line(case, k):
    _, _, tasks = case.first_line()
    wrong = f"plan.txt ends before line {k}: its first line says {many(tasks, 'task')}, and it has {many(k - 2, 'task line')}."
    return Account(wrong, "Add the lines that are missing, or correct the number of tasks in line 1.", at_line(case.plan_text, 1, None))


def misspelt(case, k, column):
    text = case.refused_text()
    if not text.line(k):
        return missing_line(case, k)
    names, words = form_of(case, k)
    causes = malformed(text, k, names, words, text.line(k)[:column - 1].count(b"\t"))
    generic = ("The line is not as it must be.", f"It has {len(names)} fields: {', '.join(names)}.")
    return rest_unread(case, k, joined(causes or [generic], at_line(text, k, column)))


def list_out_of_range(name, value, most):
    wrong = [item for item in value.split(",") if not 1 <= number_of(item.lstrip("es")) <= most]
    what = "drives" if name == "holds" else "tasks"
    if wrong:
        return f"The {name} list {quoted(value)} names {quoted(wrong[0])}, and {what} are 1 to {most}.", "Correct that number."
    return f"The {name} list {quoted(value)} does not rise.", "Write each number once, the smaller ones first."


def field_out_of_range(case, k, name, fields):
    """What is wrong with a field that is well spelt, and what to do."""
    value = dict(zip(form_of(case, k)[0], fields))
    _, boards, tasks = case.first_line()
    if name in ("holds", "after"):
        return list_out_of_range(name, value[name], MOST_DRIVES if name == "holds" else tasks)
    if name == "task number":
        wrong = f"Line {k} is that of task {k - 1}, and says task {quoted(value[name])}."
        return wrong, "Number the task lines 1, 2, 3, … in their order."
    if name == "board":
        wrong = f"The board is {quoted(value[name])}, and the first line says boards 1 to {boards}."
        return wrong, "Correct the board, or the number of boards in line 1."
    if number_of(value[name]) > MOST_NUMBER:
        to_do = "Correct it." if case.morning else "Correct it; where the plan is longer, take larger ticks."
        return f"The {name} {quoted(value[name])} is over {MOST_NUMBER:,}, the greatest number of a text.", to_do
    wrong = f"The planned finish {value[name]} is not after the planned start {value['planned start']}."
    return wrong, "A task takes at least one tick: correct one of the two."


def out_of_range(case, k, column):
    text = case.refused_text()
    line = text.line(k)
    name = form_of(case, k)[0][line[:column - 1].count(b"\t")]
    cause = field_out_of_range(case, k, name, fields_of(line))
    return rest_unread(case, k, joined([cause], at_line(text, k, column)))


def bytes_follow(case, k, _second):
    rest, (_, _, tasks) = case.plan_text.lines[k - 1:], case.first_line()
    look = at_line(case.plan_text, k, None)
    if not b"".join(rest).strip():
        to_do = "Remove them: the text ends with the LF of the last task line."
        return Account("Empty lines stand behind the last task line.", to_do, look)
    more = sum(line.startswith(b"task\t") for line in rest)
    if more:
        wrong = f"The first line says {many(tasks, 'task')}, and there are {tasks + more} task lines."
        return Account(wrong, f"Write {tasks + more} in line 1 (at most {MOST_TASKS}), or remove what is too much.", look)
    return Account("Something stands behind the last task line.", "Remove it: a plan ends with its last task.", look)


def ready_late(case, k, column):
    fields = fields_of(case.plan_text.line(k))
    wrong = f"Task {fields[1]} is ready at {fields[3]}, after its planned start {fields[4]}."
    return Account(wrong, f"Plan it to start at {fields[3]} or later, or make it ready by {fields[4]}.", at_line(case.plan_text, k, column))


def shared_hold(case, k, column):
    fields = fields_of(case.plan_text.line(k))
    drives = [item[1:] for item in fields[6].split(",") if item[0] == "s"]
    wrong = f"Task {fields[1]} shares {listed(drives, 'drive', 'drives')}, and edition 2 has no shared holds."
    to_do = f"Run ./convert {case.folder}: it prints the plan with each `s` made `e`, ready ticks kept; or write `e` yourself."
    return Account(wrong, to_do, at_line(case.plan_text, k, column))
