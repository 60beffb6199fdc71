"""A line that shows how far long work has come."""
import sys
import time

#: Seconds before work on a terminal is long enough to show, and between two lines.
PATIENCE, PAUSE = 1.0, 0.1


class Progress:
    """Shows one line, which is written over, on the standard error.

    Parameters
    ----------
    wanted : bool or None
        True shows it, False doesn't. None shows it where the standard error is a terminal, once the work has taken a
        second, and takes the line away at the end.
    """

    def __init__(self, wanted):
        self.file = sys.stderr
        self.stays = bool(wanted)
        self.shows = bool(wanted) if wanted is not None else self.file is not None and self.file.isatty()
        self.began = time.monotonic()
        self.next = self.began + (0 if wanted else PATIENCE)
        self.width, self.last = 0, ""

    def say(self, *words):
        """Shows the words and the time, if the last line is old enough."""
        if self.shows:
            self.last = "  ".join(words)
            if time.monotonic() >= self.next:
                self.next = time.monotonic() + PAUSE
                self._write()

    def _write(self):
        line = f"{self.last}  {time.monotonic() - self.began:.1f} s"
        self.file.write("\r" + line.ljust(self.width))
        self.file.flush()
        self.width = len(line)

    def end(self):
        """Shows the last line if it stays, or takes it away."""
        if self.shows and self.stays and self.last:
            self._write()
            self.file.write("\n")
            self.file.flush()
        elif self.width:
            self.file.write("\r" + " " * self.width + "\r")
            self.file.flush()
        self.shows = False
