"""Inputs, and the text that the definition gives for an input that is cut off. A module of check.py."""
import os
import random
import re

EXAMPLES = os.path.join(os.path.dirname(os.path.abspath(__file__)), "..", "..", "examples")


def example(name):
    with open(os.path.join(EXAMPLES, name), "rb") as file:
        return file.read()


def long_input():
    """Batches whose run text is longer than what the program keeps back, with some that are refused, and readers."""
    chance, vertices = random.Random(7), 60
    lines = ["kcore 1", f"vertices {vertices}", "ask 50 0 1 2", "ask 1000 59"]
    for batch in range(1500):
        lines.append("batch")
        for _ in range(6):
            lines.append(f"{chance.choice('++-')} {chance.randrange(vertices)} {chance.randrange(vertices + (batch % 50 == 7))}")
        lines.append("end")
    return "\n".join(lines).encode() + b"\n"


def text_beside(name, words):
    """The text that lies beside an example for a command; None where there is none."""
    ending = ".txt" if words[0] == "run" else f"_{words[0]}.txt"
    path = os.path.join(EXAMPLES, name[: -len(".kc")] + ending)
    return example(os.path.relpath(path, EXAMPLES)) if os.path.exists(path) else None


def cut_batches(data, first=rb"kcore [12]"):
    """Reads the beginning of a well-formed input, whose first line has this form. Gives the input up to its last complete batch, and the
    batch that isn't complete as its number, its first fault's line and the reason; None where there is no such batch. Where the header
    isn't complete, gives None and the line at which it is refused."""
    pieces = data.split(b"\n")
    if not pieces[-1]:
        pieces.pop()
    lines = [(number, line) for number, line in enumerate(pieces, 1) if line.strip(b" \t\r") and not line.startswith(b"#")]
    end = len(pieces) + 1
    for place, form in enumerate([first, rb"vertices [1-9][0-9]*"]):
        number, line = lines[place] if place < len(lines) else (end, b"")
        if not re.fullmatch(form, line):
            return None, number
    place, complete, batches = 2, lines[1][0], 0
    while place < len(lines) and re.fullmatch(rb"ask\b.*", lines[place][1]):
        complete, line = lines[place]
        if not re.fullmatch(rb"ask [1-9][0-9]*( [0-9]+)+ ?", line):
            return None, complete
        place += 1
    while place < len(lines):
        batches += 1
        fault = first_fault(lines[place:])
        if fault != "end":
            return upto(pieces, complete), (batches, *(fault or (end, b"truncated")))
        place = next(at for at in range(place, len(lines)) if lines[at][1] == b"end") + 1
        complete = lines[place - 1][0]
    return upto(pieces, complete), None


def first_fault(lines):
    """The line and reason of the first line of a batch that doesn't fit; "end" where its `end` comes before, None where neither does."""
    for place, (number, line) in enumerate(lines):
        if place and line == b"end":
            return "end"
        if not re.fullmatch(rb"([-+] )?[0-9]+ [0-9]+|x [0-9]+" if place else rb"batch", line):
            return number, b"bad-line"
    return None


def upto(lines, count):
    return b"".join(line + b"\n" for line in lines[:count])


def with_refusal(text, refusal, is_noted):
    """The text of an input with one more batch, its last one, that is refused: a line of the run, or a note before the document."""
    line = b"batch %d refused line %d %s\n" % refusal
    if is_noted:
        at = re.search(rb"(?m)^kcore-", text).start()
        line = b"# " + line
    else:
        at = re.search(rb"(?m)^(reader|vertex) ", text).start()
    return text[:at] + line + text[at:]


def without_replies(text):
    """A text with each level that a reader was told as `L`: those depend on how the threads ran."""
    return re.sub(rb"(?m)^reader .*$", lambda line: re.sub(rb"=[0-9]+", b"=L", line.group()), text)
