"""morning.py PLAN ENDS DRIVE TASK: a morning through the desk: who starts, who is on the drive, and why the task started.

README.md beside this file tells how to run it. It needs ./desk and Python's own library, nothing else.
"""
import os
import shutil
import subprocess
import sys
import tempfile

ROOT = os.path.dirname(os.path.dirname(os.path.dirname(os.path.realpath(__file__))))
# The words of an answer's last line.
LAST_WORDS = ("early", "exact", "now", "drive", "why", "refused")


def word_of(line):
    return line.rstrip("\n").split("\t")[0]


class Desk:
    """A desk on a folder: a line in, the lines of its answer out."""

    def __init__(self, folder):
        command = [os.path.join(ROOT, "desk"), folder]
        self.process = subprocess.Popen(command, stdin=subprocess.PIPE, stdout=subprocess.PIPE, encoding="ascii")

    def answer(self):
        lines = []
        for line in self.process.stdout:
            lines.append(line)
            if word_of(line) in LAST_WORDS:
                break
        return lines  # shorter where the desk has ended: its status tells whether it failed

    def ask(self, *fields):
        self.process.stdin.write("\t".join(fields) + "\n")
        self.process.stdin.flush()
        return self.answer()

    def end(self):
        self.process.stdin.close()
        return self.process.wait()


def go_through(desk, ends, drive, task):
    """Prints the answer to each line of the ends, behind what changes the book who is on the drive, and last why."""
    # A folder without ends.txt has the opening for its log, which is one answer.
    answer = desk.answer()
    if answer and word_of(answer[-1]) == "refused":
        sys.stdout.writelines(answer)
        return
    if ends[:1] == [["rule", "clash"]]:
        answer = desk.ask(*ends.pop(0))
    for fields in [*ends, ["why", task]]:
        sys.stdout.writelines(answer)
        if answer and word_of(answer[-1]) == "early":
            sys.stdout.writelines(desk.ask("drive", drive))
        answer = desk.ask(*fields)
    sys.stdout.writelines(answer)


def main(plan, ends, drive, task):
    with open(ends, encoding="ascii") as lines:
        ends = [line.rstrip("\n").split("\t") for line in lines]
    # The desk keeps what it is told beside the plan, so it gets a folder of its own.
    with tempfile.TemporaryDirectory() as folder:
        shutil.copyfile(plan, os.path.join(folder, "plan.txt"))
        desk = Desk(folder)
        go_through(desk, ends, drive, task)
        return desk.end()


if len(sys.argv) != 5:
    sys.exit("use: morning.py PLAN ENDS DRIVE TASK")
sys.exit(main(*sys.argv[1:]))
