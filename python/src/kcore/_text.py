"""Reads what the program prints, block by block."""
from ._errors import unlike


class Lines:
    """Cuts the blocks of a text into whole lines, and passes these on, many at a time."""

    def __init__(self, take):
        self.take, self.rest = take, []

    def __call__(self, block):
        cut = block.rfind(b"\n") + 1
        if not cut:
            self.rest.append(block)
            return
        self.rest.append(block[:cut])
        lines = b"".join(self.rest)
        self.rest = [block[cut:]] if cut < len(block) else []
        self.take(lines)


class Rows:
    """Reads rows of a fixed number of words, the first of which is given, and the second counts the rows from 0.

    Keeps the numbers at some places of the rows, a column for each.
    """

    def __init__(self, word, width, *places):
        self.word, self.width, self.places = word, width, places
        self.columns = [[] for _ in places]
        self.count = 0

    def __call__(self, lines):
        words = lines.split()
        rows = len(words) // self.width
        if len(words) % self.width or words[0] != self.word or int(words[1]) != self.count:
            raise unlike(f"the lines {lines[:100]!r}, where the next is that of {self.word.decode()} {self.count}")
        if words[-self.width] != self.word or int(words[1 - self.width]) != self.count + rows - 1:
            raise unlike(f"the lines {lines[-100:]!r}, where the last is that of {self.word.decode()} {self.count + rows - 1}")
        self.count += rows
        for column, place in zip(self.columns, self.places):
            column.extend(map(int, words[place::self.width]))
