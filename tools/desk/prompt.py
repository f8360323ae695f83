"""The prompt: one line at a time, which Ctrl-C gives up whenever it is pressed."""
import signal

PROMPT = "desk> "
# Python's readline shows the prompt and only then waits for keys. A Ctrl-C in between is noted, and acted on at the
# next key or signal: this timer's, in seconds.
LONGEST_UNSEEN = 0.05


def edit_lines():
    """Lines can be edited and called back, if Python has the means."""
    try:
        import readline
    except ImportError:
        return
    # Of several lines pasted in at once each is a line of its own.
    readline.parse_and_bind("set enable-bracketed-paste off")
    readline.parse_and_bind('"\\t": self-insert')


class Prompt:
    """Ctrl-C gives up a line that is being asked for. While an answer is awaited it does nothing."""

    def __init__(self):
        self.is_asking = False
        signal.signal(signal.SIGINT, self.interrupt)
        signal.signal(signal.SIGALRM, lambda number, frame: None)
        # A write that the timer breaks off is taken up again: else what was to be shown would be lost.
        signal.siginterrupt(signal.SIGALRM, False)
        edit_lines()

    def interrupt(self, number, frame):
        # At most one exception a prompt: a second Ctrl-C finds nothing to give up.
        if self.is_asking:
            self.is_asking = False
            raise KeyboardInterrupt

    def typed(self):
        """What is typed; None at the end of input."""
        signal.setitimer(signal.ITIMER_REAL, LONGEST_UNSEEN, LONGEST_UNSEEN)
        self.is_asking = True
        try:
            line = input(PROMPT)
        except EOFError:
            line = None
        self.is_asking = False
        return line

    def line(self):
        """The next line; None at the end of input, nothing if the line was given up."""
        try:
            line = self.typed()
        except KeyboardInterrupt:
            line = ""
            print()
        signal.setitimer(signal.ITIMER_REAL, 0)
        if line is None:
            print()
        return line
