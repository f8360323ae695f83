"""Reads plan texts whose lines are right; pairs of tasks are not judged here. No part of what is proved."""
import re

from .texts import Unfit, number

MOST_BOARDS, MOST_TASKS, MOST_DRIVES = 8, 64, 32
HOLDS = re.compile(r"-|[es][0-9]{1,2}(?:,[es][0-9]{1,2})*")


class Task:
    """A task line; in edition 1 a task is ready at 0. `holds` and `after` are as typed."""

    def __init__(self, edition, numbers, holds, after):
        self.number, self.board, self.ready, self.begin, self.finish = numbers
        self.edition, self.holds, self.after = edition, holds, after

    def drives(self):
        """Each drive that it holds, and how: `e` exclusively, `s` shared."""
        return {} if self.holds == "-" else {int(item[1:]): item[0] for item in self.holds.split(",")}

    def tasks_before(self):
        """The tasks that its after list names."""
        return [] if self.after == "-" else [int(item) for item in self.after.split(",")]


class Plan:
    """A plan of which no line was refused."""

    def __init__(self, edition, boards, tasks):
        self.edition, self.boards, self.tasks = edition, boards, tasks

    def task(self, k):
        return self.tasks[k - 1]

    def last_finish(self):
        return max(task.finish for task in self.tasks)


def read_first_line(row):
    """The edition, and how many boards and tasks."""
    where, fields = row
    if len(fields) != 4 or fields[0] != "plan" or fields[1] not in ("1", "2"):
        raise Unfit(f"{where}: not the first line of a plan")
    return int(fields[1]), number(fields[2], where), number(fields[3], where)


def read_task(k, edition, boards, row, task_type):
    where, fields = row
    if len(fields) != 6 + edition or fields[0] != "task":
        raise Unfit(f"{where}: not a task line")
    if edition == 1:
        fields = fields[:3] + ["0"] + fields[3:]
    task = task_type(edition, [number(field, where) for field in fields[1:6]], *fields[6:])
    is_in_order = task.number == k and 1 <= task.board <= boards and task.ready <= task.begin < task.finish
    if not is_in_order or not HOLDS.fullmatch(task.holds):
        raise Unfit(f"{where}: not an accepted plan's task {k}")
    return task


def read_plan(name, rows, task_type):
    """The plan of these rows, its tasks of that type."""
    edition, boards, tasks = read_first_line(rows[0])
    if not (1 <= boards <= MOST_BOARDS and 1 <= tasks <= MOST_TASKS and len(rows) == tasks + 1):
        raise Unfit(f"{name}: not a plan of 1 to {MOST_BOARDS} boards and 1 to {MOST_TASKS} tasks, a line each")
    return Plan(edition, boards, [read_task(k, edition, boards, row, task_type) for k, row in enumerate(rows[1:], 1)])
