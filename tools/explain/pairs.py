"""Words for 6 to 8 and 17: a plan whose lines are right and that cannot be kept."""
from .account import Account, listed, planned
from .morning import contested


def both(a, b):
    return [str(a), str(b)]


def overlap(a, b):
    return f"from {max(a.begin, b.begin)} to {min(a.finish, b.finish)}"


def apart(a, b):
    """The later one moved behind the other, or, if they do not begin together, the sooner one cut."""
    first, second = sorted((a, b), key=lambda task: (task.begin, task.number))
    sooner = f", or task {first.number} to finish by {second.begin}" if first.begin < second.begin else ""
    return f"Plan task {second.number} to start at {first.finish} or later{sooner}"


def one_board(case, first, second):
    a, b = case.plan().task(first), case.plan().task(second)
    wrong = f"Tasks {first} and {second} are both planned on board {a.board} {overlap(a, b)}."
    return Account(wrong, f"{apart(a, b)}; or give one of them another board.", both(a, b))


def one_drive(case, first, second):
    a, b = case.plan().task(first), case.plan().task(second)
    drives = contested(a, b)
    holds = [f"task {task.number} as {','.join(task.drives()[drive] + str(drive) for drive in drives)}" for task in (a, b)]
    wrong = f"Tasks {first} and {second} both hold {listed(drives, 'drive', 'drives')} {overlap(a, b)}: {', '.join(holds)}."
    share = "; or share it in both (`s`)" if case.plan().edition == 1 else ""
    return Account(wrong, f"{apart(a, b)}; or take the drive{'s' if drives[1:] else ''} out of the holds of one{share}.", both(a, b))


def order_broken(case, first, second):
    if first == second:
        to_do = "Take it out of its own list; write `-` where nothing is left."
        return Account(f"Task {first} lists itself under after.", to_do, planned(case, first))
    a, b = case.plan().task(first), case.plan().task(second)
    later, sooner = (a, b) if second in a.tasks_before() and b.finish > a.begin else (b, a)
    is_planned = f"is planned to start at {later.begin}, before that one's planned finish {sooner.finish}"
    to_do = f"Plan task {later.number} to start at {sooner.finish} or later, or take {sooner.number} out of its after list."
    return Account(f"Task {later.number} comes after task {sooner.number}, and {is_planned}.", to_do, both(a, b))


def begins_late(case, first, _second):
    plan = case.plan()
    who = [task.number for task in plan.tasks if task.begin == first]
    ready = ", and off every ready tick, not below 0" if plan.edition == 2 else ""
    to_do = f"Take {first} off every planned start and finish{ready}: then the morning begins at 0."
    wrong = f"No task is planned at tick 0: the least planned start is {first} ({listed(who)})."
    return Account(wrong, to_do, [str(plan.task(number)) for number in who])
