"""Reads a plan's log or timetable for drawing, and refuses what cannot be drawn. A log may be another school's."""
from common.plans import Task as PlannedTask
from common.texts import Unfit, number, rows_of

# Of a longer text only so much is read.
MOST_BYTES = 1_000_000
# How many numbers follow each word of a log, below its first line.
LOG_WORDS = {"start": 4, "skip": 4, "end": 4, "drop": 2, "early": 2, "refused": 3}
# The ticks early of these lines, their last field, may be negative.
SIGNED = ("start", "end")
# Refusals of a plan whose lines are right, so that it can be drawn; those of a pair name two tasks.
OF_PAIR, OF_PLAN = (6, 7, 8), (6, 7, 8, 17)


class Task(PlannedTask):
    """A task line, and what the log or the timetable says of the task."""

    def __init__(self, *line):
        super().__init__(*line)
        self.start = self.end = self.skip = self.known = None
        self.dropped = self.marked = False

    def says(self):
        """What is told when a bar is hovered."""
        words = f"task {self.number}, board {self.board}, holds {self.holds}: planned {self.begin} to {self.finish}"
        if self.ready > 0:
            words += f", ready at {self.ready}"
        if self.dropped:
            words += ", dropped" if self.skip is None else f", dropped, skipped at {self.skip}"
        if self.start is not None:
            words += f", started at {self.start}, has not ended" if self.end is None else f", ran {self.start} to {self.end}"
        return words


class Log:
    """What a log says of a whole morning: the rule, the steps of M as (clock, M), and by what the plan is refused, if it is.

    The clock is the tick up to which the log tells what went on, in a timetable its last end; None if only the plan is drawn.
    """

    def __init__(self, by_clash=False, steps=(), refused=None, clock=None, is_timetable=False):
        self.by_clash, self.steps, self.refused, self.clock = by_clash, list(steps), refused, clock
        self.is_timetable = is_timetable


def check_ticks_early(word, where):
    """Only checked, and not drawn."""
    late = word.startswith("-")
    if number(word[late:], where) == 0 and late:
        raise Unfit(f"{where}: {word!r} is no number")


def rows_in(path):
    with open(path, "rb") as file:
        return rows_of(path, file.read(MOST_BYTES))


def read_log(path, boards, tasks):
    """Fills in the tasks. Of a refusal of the whole plan a pair is marked, and nothing else is in such a log."""
    rows = rows_in(path)
    if rows[0][1][0] == "task":
        return read_timetable(path, rows, tasks)
    refused = read_refusal(rows[0], tasks)
    if refused:
        return Log(refused=refused)
    by_clash = read_first_line(rows[0], boards, len(tasks))
    steps, clock = [], 0
    for where, word, numbers in map(read_line, rows[1:]):
        if word in ("end", "early"):
            clock = max(clock, numbers[2] if word == "end" else numbers[0])
        if word in ("start", "skip", "end"):
            note(where, tasks, word, numbers)
        if word == "start":
            tasks[numbers[0] - 1].known = clock
        if word == "drop":
            task_on(where, tasks, numbers[0], numbers[1]).dropped = True
        if word == "early":
            steps.append((numbers[0], numbers[1]))
    check_times(path, tasks)
    return Log(by_clash, steps, clock=clock)


def check_times(path, tasks):
    """The lines of another school's log may stand in any order."""
    for task in tasks:
        if task.end is not None and (task.start is None or task.end <= task.start):
            raise Unfit(f"{path}: task {task.number} ends before it has started")


def read_timetable(path, rows, tasks):
    """Fills in the tasks, of which each has its line; one that takes no time is a dropped one."""
    if len(rows) != len(tasks):
        raise Unfit(f"{path}: the timetable is not of this plan")
    for task, (where, fields) in zip(tasks, rows):
        numbers = [number(field, where) for field in fields[1:]]
        if fields[0] != "task" or len(numbers) != 4 or numbers[:2] != [task.number, task.board]:
            raise Unfit(f"{where}: the timetable is not of this plan")
        start, end = numbers[2:]
        if not 0 <= end - start <= task.finish - task.begin:
            raise Unfit(f"{where}: task {task.number} takes no length from 0 to its planned one")
        if start == end:
            task.dropped, task.skip = True, start
        else:
            task.start, task.known, task.end = start, start, end
    return Log(clock=max(task.skip if task.dropped else task.end for task in tasks), is_timetable=True)


def read_refusal(row, tasks):
    """The words of a refusal that leaves the plan to be drawn; None if the line is no refusal."""
    where, fields = row
    if fields[0] != "refused":
        return None
    _, _, (code, first, second) = read_line(row)
    if code not in OF_PLAN:
        raise Unfit(f"{where}: refused by {code} ({first}, {second}), so there is no morning to draw")
    if code not in OF_PAIR:
        return f"refused by {code}"
    if not (1 <= first <= len(tasks) and 1 <= second <= len(tasks)):
        raise Unfit(f"{where}: the log is not of this plan")
    tasks[first - 1].marked = tasks[second - 1].marked = True
    return f"refused by {code} (tasks {first} and {second})"


def read_first_line(row, boards, tasks):
    """Whether a log that begins so is by the clash rule."""
    where, fields = row
    by_rule = [["run", "1", str(boards), str(tasks)], ["run", "2", str(boards), str(tasks), "clash"]]
    if fields not in by_rule:
        raise Unfit(f"{where}: the log is not of this plan")
    return fields == by_rule[1]


def read_line(row):
    where, fields = row
    if fields[0] == "run":
        raise Unfit(f"{where}: a second log begins here")
    if LOG_WORDS.get(fields[0]) != len(fields) - 1:
        raise Unfit(f"{where}: not a line of a log")
    if fields[0] in SIGNED:
        check_ticks_early(fields.pop(), where)
    return where, fields[0], [number(field, where) for field in fields[1:]]


def task_on(where, tasks, k, board):
    task = tasks[k - 1] if 1 <= k <= len(tasks) else None
    if task is None or task.board != board:
        raise Unfit(f"{where}: the log is not of this plan")
    return task


def note(where, tasks, word, numbers):
    """A task starts and ends once, on its own board; a dropped one is skipped instead."""
    k, board, tick = numbers[:3]
    task = task_on(where, tasks, k, board)
    if getattr(task, word) is not None or task.dropped != (word == "skip"):
        raise Unfit(f"{where}: the log is not of this plan")
    setattr(task, word, tick)
