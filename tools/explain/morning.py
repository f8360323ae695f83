"""The plan of a folder, and how far its morning has come by the lines of the log."""
from common.plans import Task as PlannedTask, read_plan
from common.texts import rows_of


class Task(PlannedTask):
    """A task line, and its words."""

    def __str__(self):
        ready = f", ready {self.ready}" if self.edition == 2 else ""
        times = f"{ready}, planned {self.begin} to {self.finish}"
        return f"task {self.number}: board {self.board}{times}, holds {self.holds}, after {self.after}"


def plan_of(text):
    """The plan of a text of which no line was refused."""
    return read_plan(text.name, rows_of(text.name, text.bytes), Task)


def contested(a, b):
    """The drives that both hold, at least one of them exclusively."""
    of_a, of_b = a.drives(), b.drives()
    return [drive for drive in sorted(of_a.keys() & of_b.keys()) if "e" in (of_a[drive], of_b[drive])]


def clash(a, b):
    return a.board == b.board or bool(contested(a, b)) or a.number in b.tasks_before() or b.number in a.tasks_before()


class Morning:
    """What the log has said so far."""

    def __init__(self, plan, by_clash):
        self.plan, self.by_clash = plan, by_clash
        self.started, self.ended, self.skipped, self.dropped = {}, {}, {}, set()
        # The line of ends.txt by which a start was known; 0 for those known at opening.
        self.known_by, self.is_open = {}, False
        self.clock = 0
        # A first line that chooses the rule counts as a line, and has none in the log.
        self.ends_lines = 1 if by_clash else 0

    def note(self, word, numbers):
        """Takes in a line of the log; each end, drop and refusal answers the next line of ends.txt."""
        if word in ("end", "drop", "refused"):
            self.ends_lines += 1
        if word == "start":
            self.known_by[numbers[0]] = self.ends_lines if self.is_open else 0
        if word == "early":
            self.clock, self.is_open = numbers[0], True
        elif word == "drop":
            self.dropped.add(numbers[0])
        elif word in ("start", "end", "skip"):
            {"start": self.started, "end": self.ended, "skip": self.skipped}[word][numbers[0]] = numbers[2]

    def limit(self, number):
        task = self.plan.task(number)
        return self.started[number] + task.finish - task.begin

    def running(self):
        return [number for number in sorted(self.started) if number not in self.ended]

    def not_ended(self):
        return [task.number for task in self.plan.tasks if task.number not in self.ended and task.number not in self.skipped]

    def holding_back(self, number):
        """Those that the task waits for and that have not ended, by the rule that the log names."""
        task, open_still = self.plan.task(number), self.not_ended()
        waited_for = [other for other in self.plan.tasks if other.finish <= task.begin and (not self.by_clash or clash(other, task))]
        return [other.number for other in waited_for if other.number in open_still]
