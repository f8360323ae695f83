"""What is told of one refusal, and the folder that it is told of."""
from common.plans import read_first_line
from common.texts import fields_of

from .morning import plan_of
from .texts import Text, shown


class Account:
    """What is told of one refusal."""

    def __init__(self, wrong, to_do, look=()):
        self.wrong, self.to_do, self.look = wrong, to_do, list(look)


class Case:
    """The folder, and how far its log has come when a line is refused; there is no morning before the plan is accepted."""

    def __init__(self, folder):
        self.folder, self.plan_text, self.ends_text = folder, Text(folder, "plan.txt"), Text(folder, "ends.txt")
        self.morning = None

    def plan(self):
        return self.morning.plan if self.morning else plan_of(self.plan_text)

    def first_line(self):
        """The edition, and how many boards and tasks, of a plan whose first line was not refused."""
        return read_first_line((self.plan_text.name, fields_of(self.plan_text.line(1))))

    def refused_text(self):
        """A line of the plan is refused before the morning begins."""
        return self.ends_text if self.morning else self.plan_text


def listed(numbers, one="task", several="tasks"):
    words = [str(number) for number in numbers]
    return f"{one} {words[0]}" if len(words) == 1 else f"{several} {', '.join(words[:-1])} and {words[-1]}"


def at_line(text, k, column):
    place = f"{text.name}, line {k}" + (f", column {column}" if column else "") + ":"
    return [place] + ["  " + words for words in shown(text.line(k), column)]


def joined(causes, look):
    return Account(" ".join(wrong for wrong, _ in causes), " ".join(to_do for _, to_do in causes if to_do), look)


def planned(case, number):
    return [str(case.plan().task(number))]
