"""The desk at a terminal: a prompt, lines that can be edited, and each answer shown as it comes.

One writer: what the program says on standard error is shown behind the answer or log that it belongs to.
"""
import os
import re
import sys

LAST_WORDS = (b"early", b"exact", b"now", b"drive", b"why", b"refused")
# The numbers of a refused line that stop a log.
STOPPING = (b"3", b"4")
HELP = """\
end TASK TICK   the task ended at that tick: kept, and who starts is shown
drop TASK       the task's student is absent: kept
rule clash      the morning goes by the clash rule, as long as nothing is kept: kept
early           the clock and the figure M
exact           the clock and the largest figure that is still true, - for none
now             who runs or has a known start: task, board, start, limit
drive NUMBER    who is on the drive, and who is next
why TASK        the chain of its start: task, board, start, end
help            this list
Ctrl-C gives up a line that is being typed, Ctrl-D ends the desk. What was kept is in ends.txt.
"""


def answers_in_log():
    """How many answers a log that is not stopped has: the opening, and one for each line of ends.txt but the rule's."""
    try:
        with open("ends.txt", "rb") as file:
            text = file.read()
    except OSError:
        text = b""
    return 1 + text.count(b"\n") - text.startswith(b"rule\tclash\n")


def show_answer(program):
    """The fields of the answer's last line; none if the program has ended."""
    for line in program.process.stdout:
        sys.stdout.buffer.write(line)
        sys.stdout.buffer.flush()
        fields = line.rstrip(b"\n").split(b"\t")
        if fields[0] in LAST_WORDS:
            return fields
    return []


def show_log(program):
    """Whether lines are read behind the log: not if the plan is refused, or the log is stopped."""
    for k in range(answers_in_log()):
        last = show_answer(program)
        if not last or (last[0] == b"refused" and (k == 0 or last[1] in STOPPING)):
            return False
    return True


def with_tabs(typed):
    """The line with tabs for blanks."""
    return re.sub("[ \t]+", "\t", typed.strip(" \t"))


def converse(program, prompt):
    if not show_log(program):
        return
    program.tell()
    while (typed := prompt.line()) is not None:
        line = with_tabs(typed)
        if line == "help":
            print(HELP, end="", flush=True)
        elif line:
            if not (program.ask(os.fsencode(line)) and show_answer(program)):
                return
            program.tell()
