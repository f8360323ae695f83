"""Words for 10 to 15 and 19: a line of ends.txt that does not fit the morning as it stands."""
from common.words import many

from .account import Account, at_line, listed, planned
from .texts import column_of


def at_entry(case, field):
    k = case.morning.ends_lines
    return at_line(case.ends_text, k, column_of(case.ends_text.line(k), field))


def at_task(case, number):
    """The line that names the task, and the task."""
    return at_entry(case, 1) + planned(case, number)


def wrong_tick(case, number, wrong, to_do):
    return Account(wrong, to_do, at_entry(case, 2) + planned(case, number))


def unknown_task(case, number, _tick):
    tasks = len(case.plan().tasks)
    return Account(f"There is no task {number}: the plan has tasks 1 to {tasks}.", "Correct the task's number.", at_entry(case, 1))


def past(morning, number):
    """What has become of a task that has ended or passed; none if it has not."""
    if number in morning.ended:
        return f"Task {number} has ended already, at {morning.ended[number]}."
    if number in morning.skipped:
        return f"Task {number} was dropped, and was skipped at {morning.skipped[number]}."
    return f"Task {number} is dropped, and waits to be skipped." if number in morning.dropped else None


def not_running(case, number, _tick):
    look = at_task(case, number)
    done = past(case.morning, number)
    if done:
        return Account(done, "Nothing is to be reported of it: remove the line, or correct the task's number.", look)
    waits_for = listed(case.morning.holding_back(number))
    to_do = f"Report the end of {waits_for} first; or correct the task's number."
    return Account(f"Task {number} has not started: it waits for {waits_for}.", to_do, look)


def before_clock(case, number, tick):
    clock = case.morning.clock
    wrong = f"Tick {tick} is before the clock: the last report that was accepted is of tick {clock}."
    to_do = f"Put the lines of ends.txt in order of time, or correct the tick: {clock} or later."
    return wrong_tick(case, number, wrong, to_do)


def at_start(case, number, tick):
    start = case.morning.started[number]
    wrong = f"Task {number} starts at {start}, and a task takes at least one tick, so it cannot have ended at {tick}."
    to_do = f"Correct the tick: it is {start + 1} to {case.morning.limit(number)}."
    return wrong_tick(case, number, wrong, to_do)


def overran(case, number, tick):
    start, limit = case.morning.started[number], case.morning.limit(number)
    may_take = many(limit - start, "tick")
    wrong = f"Task {number} started at {start} and may take {may_take}, so its limit is {limit}, and tick {tick} is after it."
    in_time = f"Where it ended in time, correct the tick: {limit} at the latest."
    longer = f"Where it truly took longer, plan it longer in plan.txt; no report past {limit} is accepted until it has ended."
    return wrong_tick(case, number, wrong, f"{in_time} {longer}")


def other_overdue(case, number, tick):
    overdue = sorted((case.morning.limit(k), k) for k in case.morning.running() if case.morning.limit(k) < tick)
    who = "; ".join(f"task {k} runs since {case.morning.started[k]} and its limit is {limit}" for limit, k in overdue)
    other, them = ("another task", "it") if len(overdue) == 1 else ("other tasks", "them")
    limit, sooner = overdue[0]
    to_do = f"Report the end of task {sooner} first, at {limit} or before; or correct the tick of task {number}."
    look = at_entry(case, 2) + [str(case.plan().task(k)) for _, k in overdue]
    return Account(f"By tick {tick} {other} must have ended, and no end of {them} was accepted: {who}.", to_do, look)


def no_drop(case, number, _second):
    look, morning = at_task(case, number), case.morning
    if number in morning.ended or number in morning.dropped:
        return Account(past(morning, number), "Nothing is to be done: remove the line, or correct the task's number.", look)
    wrong = f"The start of task {number} is known ({morning.started[number]}), so it can no longer be dropped."
    soonest = max(morning.started[number] + 1, morning.clock)
    by = morning.known_by[number]
    also = f"; or put the drop above line {by}, which lets it start" if by else ": a task that waits for nobody cannot be dropped"
    return Account(wrong, f"Report its end instead, at {soonest} to {morning.limit(number)}{also}.", look)
