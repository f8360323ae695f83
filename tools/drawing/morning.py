"""A plan and its log or timetable as rows of bars, boards or drives, and the figure M of a log."""
from common.plans import read_plan
from common.words import many

from .logs import Log, Task, read_log, rows_in
from .svg import ALONE, BAR, FIGURE, INK, LANE, LEFT, LINE, MARK, QUIET, RIGHT, SHARED, TOP, WIDTH, Picture


class Row:
    """A board or a drive: its tasks, and for each the lane in which its planned and its actual bar stand."""

    def __init__(self, name, tasks, shares, clock):
        self.name, self.tasks, self.shares = name, tasks, shares
        self.planned = lanes([(task.begin, task.finish, task.number) for task in tasks])
        ran = [task for task in tasks if task.start is not None]
        self.actual = lanes([(task.start, end_of(task, clock), task.number) for task in ran])
        self.above = 1 + max(self.planned.values(), default=0)
        self.has_log = clock is not None
        below = 1 + max(self.actual.values(), default=0) if self.has_log else 0
        self.height = LANE * (self.above + below) + 8

    def colours(self, task):
        return SHARED if self.shares.get(task.number) else ALONE

    def pair(self):
        return [task for task in self.tasks if task.marked]

    def overlap(self):
        """The time in which a marked pair is planned in this row; None if it is not."""
        begin, end = max((task.begin for task in self.pair()), default=0), min((task.finish for task in self.pair()), default=0)
        return (begin, end) if len(self.pair()) == 2 and begin < end else None


def end_of(task, clock):
    """Where the bar of a task that has started ends: one that runs still is drawn up to the clock."""
    return task.end if task.end is not None else max(clock, task.start)


def lanes(spans):
    """The lane of each task, the first one that is free: bars of one lane do not overlap."""
    free, found = [], {}
    for begin, end, number in sorted(spans):
        lane = next((k for k, until in enumerate(free) if until <= begin), len(free))
        free[lane:lane + 1] = [end]
        found[number] = lane
    return found


def rows_of(boards, tasks, by_drive, clock):
    if not by_drive:
        return [Row(f"board {board}", [task for task in tasks if task.board == board], {}, clock) for board in range(1, boards + 1)]
    held = sorted({drive for task in tasks for drive in task.drives()})
    holders = {drive: [task for task in tasks if drive in task.drives()] for drive in held}
    shares = {drive: {task.number: task.drives()[drive] == "s" for task in holders[drive]} for drive in held}
    return [Row(f"drive {drive}", holders[drive], shares[drive], clock) for drive in held]


def step_of(last, most):
    """The distance of ticks on an axis: 1, 2 or 5 times a power of ten, at most so many."""
    power = 1
    while True:
        for times in (1, 2, 5):
            if last <= times * power * most:
                return times * power
        power *= 10


def draw_legend(picture, title, by_drive, log):
    picture.text(LEFT, 26, title, 16, INK, "start")
    has_actual = log.clock is not None
    colours = 2 if has_actual else 1
    if by_drive:
        words = ", planned and actual" if has_actual else ", planned"
        x = picture.swatch(LEFT, ALONE[:colours], "exclusive" + words)
        x = picture.swatch(x, SHARED[:colours], "shared" + words)
    else:
        x = picture.swatch(LEFT, ALONE[:1], "planned")
        x = picture.swatch(x, ALONE[1:], "actual") if has_actual else x
    if log.steps:
        picture.lines.append(f'<path d="M{x} 47h26" stroke="{LINE}" stroke-width="2"/>')
        picture.text(x + 34, 52, "M, how early all that is left will be at least", 12, INK, "start")


def draw_axis(picture):
    """As many ticks as their numbers have room, and not more than 24."""
    room = 7 * len(str(picture.last)) + 12
    step = step_of(picture.last, min(24, int((WIDTH - LEFT - RIGHT) / room)))
    for tick in range(0, picture.last + 1, step):
        picture.line(picture.x(tick), TOP - 6, picture.x(tick), picture.bottom)
        picture.text(picture.x(tick), picture.bottom + 20, tick, 11, QUIET)
    picture.text(LEFT - 24, picture.bottom + 20, "tick", 11, QUIET, "end")


def draw_task(picture, row, task, y, clock):
    pale, solid = row.colours(task)
    below = y + 2 + LANE * row.above
    picture.planned(task, y + 2 + LANE * row.planned[task.number], pale)
    if task.skip is not None:
        picture.skipped(task, below, solid)
    if task.start is not None:
        place = below + LANE * row.actual[task.number]
        picture.bar(task, task.start, end_of(task, clock), place, solid, "#fff", task.end is None)
        # Ahead of the clock a start is known only if the task's class is awaited.
        if task.known < task.start == task.ready:
            picture.known(task, place + BAR / 2, solid)
    if task.ready > 0:
        picture.ready(task, y + 1 + BAR + LANE * row.planned[task.number])


def draw_pair(picture, row, y):
    """A band if the two that are marked are planned in one row at the same time."""
    if row.overlap():
        begin, end = row.overlap()
        says = f"{row.name}: {' and '.join(f'task {task.number}' for task in row.pair())} overlap from {begin} to {end}"
        picture.band(begin, end, y, LANE * row.above + 2, says)


def draw_rows(picture, rows, clock):
    y = TOP
    for row in rows:
        picture.line(LEFT, y + row.height - 3, WIDTH - RIGHT, y + row.height - 3)
        picture.text(LEFT - 10, y + row.height / 2 + 2, row.name, 12, MARK if row.overlap() else INK, "end")
        for task in row.tasks:
            draw_task(picture, row, task, y, clock)
        draw_pair(picture, row, y)
        y += row.height


def draw_values(picture, known, level):
    """A value where M changes, as far as there is room; those that stay longest go first."""
    changes = [(clock, value) for k, (clock, value) in enumerate(known) if k == 0 or known[k - 1][1] != value]
    until = [clock for clock, _ in changes[1:]] + [picture.last]
    taken = []
    for _, clock, value in sorted((clock - end, clock, value) for (clock, value), end in zip(changes, until)):
        left, low, width = picture.x(clock) + 3, level(value) - 5, 7 * len(str(value))
        if all(left > right or left + width < begin or low - 11 > bottom or low < top for begin, right, top, bottom in taken):
            picture.text(left, low, value, 11, LINE, "start")
            taken.append((left, left + width, low - 11, low))


def draw_figure(picture, steps):
    """M from the last step of each clock on."""
    highest = max(value for _, value in steps) or 1

    def level(value):
        return picture.bottom - FIGURE * value / highest

    for value in range(0, highest + 1, step_of(highest, 4)):
        picture.line(LEFT, level(value), WIDTH - RIGHT, level(value))
        picture.text(LEFT - 10, level(value) + 4, value, 11, QUIET, "end")
    picture.text(LEFT - 70, picture.bottom - FIGURE / 2 + 5, "M", 14, LINE, "end")
    known = sorted(dict(steps).items())
    path = f"M{picture.x(known[0][0]):.1f} {level(known[0][1]):.1f}"
    path += "".join(f"H{picture.x(clock):.1f}V{level(value):.1f}" for clock, value in known)
    picture.lines.append(f'<path d="{path}" fill="none" stroke="{LINE}" stroke-width="2"/>')
    draw_values(picture, known, level)


def legends_of(tasks, by_drive):
    """What else is to be explained."""
    if any(task.marked for task in tasks):
        yield "red: the pair that is refused, and where its bars of one row overlap"
    if any(task.dropped for task in tasks):
        yield "dashed: a dropped task, a diamond: the tick on which it was skipped"
    if any(task.ready > 0 for task in tasks):
        yield "a triangle: ready, dotted: a start known before its tick"
    idle = sum(task.holds == "-" for task in tasks)
    if by_drive and idle:
        yield f"not drawn: {many(idle, 'task')} without a drive"


def title_of(boards, tasks, log, by_drive):
    has_log = log.clock is not None and not log.is_timetable
    went = f"the plan, {log.refused}" if log.refused else "the plan and how it went" if has_log else "the plan"
    went += " and its timetable" if log.is_timetable else ""
    rule = " by the clash rule" if log.by_clash else ""
    by = ", by drive" if by_drive else ""
    return f"{many(len(tasks), 'task')} on {many(boards, 'board')}{by}: {went}{rule}"


def draw(plan_path, log_path, by_drive):
    plan = read_plan(plan_path, rows_in(plan_path), Task)
    boards, tasks = plan.boards, plan.tasks
    log = read_log(log_path, boards, tasks) if log_path else Log()
    rows = rows_of(boards, tasks, by_drive, log.clock)
    last = max([log.clock or 0] + [max(task.finish, task.start or 0) for task in tasks])
    picture = Picture(sum(row.height for row in rows), last, bool(log.steps))
    draw_legend(picture, title_of(boards, tasks, log, by_drive), by_drive, log)
    draw_axis(picture)
    draw_rows(picture, rows, log.clock)
    if log.steps:
        draw_figure(picture, log.steps)
    legends = "; ".join(legends_of(tasks, by_drive))
    if legends:
        picture.text(LEFT, picture.bottom + 42, legends, 11, INK, "start")
    source = "a plan and its timetable" if log.is_timetable else "a plan and its log" if log_path else "a plan"
    words = f"Drawn by tools/picture from {source}. The drawing is no part of what is proved."
    picture.text(LEFT, picture.height - 14, words, 11, QUIET, "start")
    return picture.whole()
