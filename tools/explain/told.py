"""All that is told of a folder's log."""
from common.words import many

from .account import Account, Case
from .lines import bytes_follow, first_line, misspelt, out_of_range, ready_late, shared_hold, too_long
from .morning import Morning, plan_of
from .pairs import begins_late, one_board, one_drive, order_broken
from .reports import at_start, before_clock, no_drop, not_running, other_overdue, overran, unknown_task
from .texts import legend, near_names

WORDS = {
    1: too_long, 2: first_line, 3: misspelt, 4: out_of_range, 5: bytes_follow, 6: one_board, 7: one_drive, 8: order_broken,
    10: unknown_task, 11: not_running, 12: before_clock, 13: at_start, 14: overran, 15: other_overdue,
    17: begins_late, 18: ready_late, 19: no_drop, 20: shared_hold,
}


def account_of(case, code, first, second):
    if code not in WORDS:
        return Account("This number has no words here.", "Look it up in docs/USING.md.")
    return WORDS[code](case, first, second)


def told_refusal(case, code, first, second):
    account = account_of(case, code, first, second)
    lines = [f"refused {code} {first} {second}", f"  Wrong: {account.wrong}"]
    return lines + ["    " + line for line in account.look] + [f"  To do: {account.to_do}"]


def no_ends(case):
    if case.ends_text.is_there:
        return ""
    near = near_names(case.folder, "ends.txt")
    return ", and there is no ends.txt" + (f" (the folder has {' and '.join(near)})" if near else "")


def told_morning(case):
    """A morning without refusals, in one line."""
    morning = case.morning
    last, left, tasks = morning.plan.last_finish(), len(morning.not_ended()), len(morning.plan.tasks)
    before = f"{many(last - morning.clock, 'tick')} before the last planned finish ({last})"
    if not left:
        return f"No refusals: the morning ended at {morning.clock}, {before}; no task is left."
    not_ended = f"{left} of {many(tasks, 'task')} {'has' if left == 1 else 'have'} not ended"
    return f"No refusals: the clock is {morning.clock}, {before}; {not_ended}{no_ends(case)}."


def told(folder, log):
    case, blocks = Case(folder), []
    for word, *rest in log:
        if word == "run":
            case.morning = Morning(plan_of(case.plan_text), rest[-1] == "clash")
            continue
        numbers = [int(number) for number in rest]
        if case.morning:
            case.morning.note(word, numbers)
        if word == "refused":
            blocks.append("\n".join(told_refusal(case, *numbers)))
    words = "\n\n".join(blocks or [told_morning(case)])
    marks = legend(words)
    return words + "\n" + (f"\n{marks}\n" if marks and blocks else "")
