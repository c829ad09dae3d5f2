"""One line of a terminal that is kept up to date on standard error."""
import os
import sys


class Line:
    """The line. If standard error is no terminal, nothing is shown."""

    def __init__(self):
        self.is_shown, self.is_drawn = os.isatty(2), False

    def show(self, text):
        if self.is_shown:
            columns = os.get_terminal_size(2).columns or 80
            sys.stderr.write("\r\x1b[K" + f"morph: {text}"[:columns - 1])
            sys.stderr.flush()
            self.is_drawn = True

    def clear(self):
        if self.is_drawn:
            sys.stderr.write("\r\x1b[K")
            sys.stderr.flush()
            self.is_drawn = False


def duration(seconds):
    """So many seconds, in words: `40 s`, `7 min`."""
    return f"{seconds:.0f} s" if seconds < 90 else f"{seconds / 60:.0f} min"
