"""The lines of an SVG: shapes of a task, texts, and where a tick stands."""
from html import escape

LEFT, RIGHT, TOP, WIDTH = 104, 28, 78, 1080
BAR, LANE, FIGURE = 18, 20, 110
INK, QUIET, GRID = "#1f2933", "#616e7c", "#e4e7eb"
LINE, MARK = "#b7410e", "#d7263d"
# (planned, actual) bars of a task, and of one that shares the drive.
ALONE, SHARED = ("#c6dbef", "#2b6ca3"), ("#cfe9cf", "#3c8a4e")
# A bar is seen at any width; a white border would hide one that is narrower than NARROW.
LEAST, NARROW = 2, 4


class Picture:
    """A picture of so many ticks, below each other rows and the figure."""

    def __init__(self, rows_height, last, has_figure):
        self.last = max(last, 1)
        self.rows_end = TOP + rows_height
        self.figure_top = self.rows_end + 34
        self.bottom = self.figure_top + FIGURE if has_figure else self.rows_end + 6
        self.height = self.bottom + 72
        self.lines = []

    def x(self, tick):
        return LEFT + (WIDTH - LEFT - RIGHT) * tick / self.last

    def text(self, x, y, words, size=12, fill=INK, anchor="middle"):
        place = f'x="{x:.1f}" y="{y:.1f}" font-size="{size}" fill="{fill}" text-anchor="{anchor}"'
        self.lines.append(f"<text {place}>{escape(str(words))}</text>")

    def line(self, x1, y1, x2, y2, stroke=GRID):
        self.lines.append(f'<line x1="{x1:.1f}" y1="{y1:.1f}" x2="{x2:.1f}" y2="{y2:.1f}" stroke="{stroke}"/>')

    def shape(self, start, says):
        """A shape that tells something when it is hovered."""
        name = start.split(" ", 1)[0]
        self.lines.append(f"<{start}><title>{escape(says)}</title></{name}>")

    def bar(self, task, begin, end, y, fill, ink, is_open=False):
        x, width = self.x(begin), max(self.x(end) - self.x(begin), LEAST)
        dash = ' stroke-dasharray="4 3"' if is_open else ""
        border = "" if width < NARROW else f' rx="2" stroke="#fff"{dash}'
        if task.marked:
            border = f' stroke="{MARK}" stroke-width="2"'
        box = f'x="{x:.1f}" y="{y:.1f}" width="{width:.1f}" height="{BAR}"'
        self.shape(f'rect {box} fill="{fill}"{border}', task.says())
        if width >= 12:
            self.text(x + width / 2, y + 13, task.number, 11, ink)

    def planned(self, task, y, fill):
        """A pale bar, hollow if the task is dropped."""
        self.bar(task, task.begin, task.finish, y, "#fff" if task.dropped else fill, INK)
        if task.dropped:
            x, width = self.x(task.begin), self.x(task.finish) - self.x(task.begin)
            box = f'x="{x + 0.5:.1f}" y="{y + 0.5:.1f}" width="{max(width - 1, 1):.1f}" height="{BAR - 1}" rx="2"'
            self.shape(f'rect {box} fill="none" stroke="{QUIET}" stroke-dasharray="3 2"', task.says())

    def skipped(self, task, y, stroke):
        """A mark at the tick on which a dropped task started and ended."""
        x, middle = self.x(task.skip), y + BAR / 2
        self.shape(f'path d="M{x:.1f} {middle - 7:.1f}l6 7l-6 7l-6 -7z" fill="#fff" stroke="{stroke}" stroke-width="2"', task.says())
        self.text(x + 9, y + 13, task.number, 11, QUIET, "start")

    def ready(self, task, y):
        """A triangle at the tick from which on a task may start."""
        self.shape(f'path d="M{self.x(task.ready):.1f} {y:.1f}l4 7h-8z" fill="{LINE}"', task.says())

    def known(self, task, y, stroke):
        """A dotted line from the clock at which a start was known to the start."""
        says = f"task {task.number}, board {task.board}: its start at {task.start} known at {task.known}"
        place = f'x1="{self.x(task.known):.1f}" y1="{y:.1f}" x2="{self.x(task.start):.1f}" y2="{y:.1f}"'
        self.shape(f'line {place} stroke="{stroke}" stroke-width="2" stroke-dasharray="2 3"', says)

    def band(self, begin, end, y, height, says):
        """The time in which a marked pair overlaps."""
        box = f'x="{self.x(begin):.1f}" y="{y:.1f}" width="{max(self.x(end) - self.x(begin), LEAST):.1f}" height="{height:.1f}"'
        self.shape(f'rect {box} fill="{MARK}" fill-opacity="0.35"', says)

    def swatch(self, x, fills, words):
        """One or two colours of the legend and their word; answers where the next one may stand."""
        for place, fill in enumerate(fills):
            self.lines.append(f'<rect x="{x + 22 * place}" y="40" width="20" height="14" rx="2" fill="{fill}"/>')
        after = x + 22 * len(fills) + 6
        self.text(after, 52, words, 12, INK, "start")
        return after + 7 * len(words) + 20

    def whole(self):
        head = f'<svg xmlns="http://www.w3.org/2000/svg" viewBox="0 0 {WIDTH} {self.height}" width="{WIDTH}" height="{self.height}"'
        paper = f'<rect width="{WIDTH}" height="{self.height}" fill="#fff"/>'
        return "\n".join([f'{head} font-family="sans-serif">', paper, *self.lines, "</svg>", ""])
