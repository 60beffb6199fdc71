"""Inputs and command lines that are broken: cut off, without end, of any bytes. A module of check.py."""
import os
import random
import re

from devices import queued
from inputs import EXAMPLES, example, with_refusal, without_replies
from program import Failing
from trials import BATCHES, DONE, REFUSED, USAGE, Command, Trial

MOST_MEMORY = 64 * 1024  # KiB, for a small graph
MEBIBYTE, GIBIBYTE = 1 << 20, 1 << 30
RUN, CHECK = Command("run 1", BATCHES, False), Command("check", [], False)
HEAD = b"kcore 1\nvertices 5\n"
PROMISE = b"kcore-cert 1\nprofile 1\nvertices 5\nedges 16777216\n"


def cuts(kcore):
    for command in kcore.batch_commands():
        for name in command.inputs[:3]:
            data = example(name)
            trial = Trial(f"{command.words}, {name}, cut off after each of its {len(data)} bytes")
            for size in range(len(data) + 1):
                ended = kcore.program.run(command.words.split(), data[:size])
                trial.ends[ended.status] += 1
                got, wanted = (ended.status, without_replies(ended.text)), kcore.cut(command, data[:size])
                trial.holds(got == wanted and not ended.errors, f"after {size} bytes: {got} in place of {wanted}")
            yield trial


def cut_certificates(kcore):
    """Refused at the line that is cut, or at the end after it, where what is left of the line fits."""
    data = example("karate_batches_final.txt")
    trial = Trial(f"check, karate_batches_final.txt, cut off after each of its {len(data)} bytes")
    status, whole = kcore.whole(CHECK, data)
    for size in range(len(data) + 1):
        ended = kcore.program.run(["check"], data[:size])
        # The last line fits without its line feed too.
        if size >= len(data) - 1:
            trial.ended(f"{size} bytes", ended, {status: "whole"}, whole)
            continue
        trial.ended(f"{size} bytes", ended, {REFUSED: "whole"}, ended.text)
        line = data[:size].count(b"\n") + 1
        refused = re.fullmatch(rb"refused line ([0-9]+) (header|bad-line|truncated)\n", ended.text)
        trial.holds(refused and line <= int(refused[1]) <= line + 1, f"{size} bytes: {ended.text!r}")
    yield trial


def asks_without_end(kcore):
    yield great(kcore, "ask lines without end", HEAD, b"ask 1 0\n" * 1000, MEBIBYTE, b"refused line 67 header\n")


def great_inputs(kcore):
    """All of them are read up to the limit of an input, which goes before a line is found too long."""
    comments = b"#" * 63 + b"\n"
    lines = 2 + (GIBIBYTE - len(b"kcore 1\n")) // len(comments)
    nothing = kcore.whole(RUN, HEAD)[1]
    yield great(kcore, "one line without end", b"", b"x" * MEBIBYTE, GIBIBYTE, b"refused line 1 header\n")
    yield great(kcore, "one line of zeros without end", b"", bytes(MEBIBYTE), GIBIBYTE, b"refused line 1 header\n")
    yield great(kcore, "a header without end", b"kcore 1\n", comments * 16384, GIBIBYTE, b"refused line %d header\n" % lines)
    yield great(kcore, "one line without end in a batch", HEAD + b"batch\n", b"x" * MEBIBYTE, GIBIBYTE,
                with_refusal(nothing, (1, 4, b"input-limit"), False))
    yield great(kcore, "line feeds without end", b"", b"\n" * MEBIBYTE, GIBIBYTE, b"refused line %d header\n" % (GIBIBYTE + 1))
    yield great(kcore, "1 GiB of line feeds", b"", b"\n" * MEBIBYTE, GIBIBYTE, b"refused line %d header\n" % (GIBIBYTE + 1), GIBIBYTE)
    for command in "check", "audit":
        limit, end = (b"refused line %d %s\n" % (GIBIBYTE + 1, reason) for reason in (b"input-limit", b"truncated"))
        yield great(kcore, "line feeds without end", b"", b"\n" * MEBIBYTE, GIBIBYTE, limit, command=command)
        yield great(kcore, "1 GiB of line feeds", b"", b"\n" * MEBIBYTE, GIBIBYTE, end, GIBIBYTE, command=command)
    # A line of a run text may be as long as the whole input, and is kept whole.
    run = b"kcore-run 1\nvertices 1\n"
    yield great(kcore, "one line without end", run, b"x" * MEBIBYTE, GIBIBYTE, b"refused line 3 input-limit\n", command="audit", memory=3 << 20)
    lines = 3 + (GIBIBYTE - len(run)) // len(comments)
    yield great(kcore, "comments without end", run, comments * 16384, GIBIBYTE, b"refused line %d input-limit\n" % lines, command="audit")


def promises(kcore):
    """A misfit of a certificate is answered where it stands, whatever comes after it and however many edges are promised."""
    ended = b"kcore-cert 1\nprofile 1\nvertices 1\nedges 0\nlevel 0 0\nend\n"
    yield great(kcore, "lines after the end", ended, b"end\n" * 4096, MEBIBYTE, b"refused line 7 bad-line\n", command="check")
    yield great(kcore, "an edge over and over", PROMISE, b"edge 0 1\n" * 4096, MEBIBYTE, b"refused line 6 bad-line\n", command="check")
    yield great(kcore, "levels in place of edges", PROMISE, b"level 0 0\n" * 4096, MEBIBYTE, b"refused line 5 bad-line\n", command="check")


def great_certificates(kcore):
    small = b"kcore-cert 1\nprofile 1\nvertices 1\nedges 0\nlevel 0 0\n"
    comments = b"#" * 63 + b"\n"
    lines = 6 + (GIBIBYTE - len(small)) // len(comments)
    yield great(kcore, "comments before the end", small, comments * 16384, GIBIBYTE, b"refused line %d input-limit\n" % lines, command="check")
    start = small + b"end\n"
    lines = 7 + (GIBIBYTE - len(start)) // len(comments)
    yield great(kcore, "comments after the end", start, comments * 16384, GIBIBYTE, b"refused line %d input-limit\n" % lines, command="check")
    yield great(kcore, "one line in place of an edge", PROMISE, b"x" * MEBIBYTE, GIBIBYTE, b"refused line 5 input-limit\n", command="check")


def great(kcore, name, start, more, most, text, size=1 << 40, command="run 1", of="", memory=MOST_MEMORY):
    """Runs a command on a beginning and then this over and over, up to a size. It is refused, reads not much more than `most`, and takes
    less than `memory` KiB."""
    def pieces():
        yield start
        for _ in range((size - len(start)) // len(more)):
            yield more

    trial = Trial(f"{of} {command}, {name}".strip())
    ended, given = kcore.program.feed(command.split(), pieces())
    trial.ended(name, ended, {REFUSED: "whole"}, text)
    trial.holds(ended.memory < memory, f"it took {ended.memory} KiB of memory")
    trial.holds(given <= most + MEBIBYTE, f"it read {given} bytes")
    trial.notes.append(f"{given} bytes in {ended.seconds:.1f} s, at most {ended.memory >> 10} MiB of memory")
    return trial


def byte_values(kcore):
    trial = Trial("run 1, each byte value alone, at the end of the header's lines, as an item and as a batch; and all of them")
    one_vertex = b"kcore 1\nvertices 1\n"
    for byte in range(256):
        one = bytes([byte])
        is_skipped = one in b" \t\r\n#"
        for before, after, line in (b"batch\n", b"\nend\n", 4), (b"", b"\nbatch\nend\n", 3):
            if is_skipped:
                wanted = kcore.whole(RUN, one_vertex + b"batch\nend\n")
            else:
                wanted = REFUSED, with_refusal(kcore.whole(RUN, one_vertex)[1], (1, line, b"bad-line"), False)
            ended = kcore.program.run(["run", "1"], one_vertex + before + one + after)
            trial.ended(f"byte {byte} at line {line}", ended, {wanted[0]: "whole"}, wanted[1])
        ended = kcore.program.run(["run", "1"], one)
        trial.ended(f"byte {byte}", ended, {REFUSED: "whole"}, b"refused line %d header\n" % (2 if is_skipped else 1))
        # A blank or a line feed ends a word, and the header's lines are the same; a digit makes another number.
        for line in 1, 2:
            data = b"kcore 1\nvertices 1\n".replace(b"1\n", b"1" + one + b"\n", line).replace(b"1" + one + b"\n", b"1\n", line - 1)
            ended = kcore.program.run(["run", "1"], data)
            accepted = one in b" \t\r\n" or line == 2 and one.isdigit()
            trial.holds((ended.status == DONE) == accepted, f"byte {byte} after line {line}: {ended.status}, {ended.text!r}")
            trial.ended(f"byte {byte} after line {line}", ended, {DONE: "whole", REFUSED: "whole"}, ended.text)
    ended = kcore.program.run(["run", "1"], bytes(range(256)) * 300)
    trial.ended("all bytes", ended, {REFUSED: "whole"}, b"refused line 1 header\n")
    yield trial


def random_inputs(kcore):
    trial = Trial("random bytes, and lines of inputs in a random order")
    chance = random.Random(1)
    for command in kcore.commands:
        examples = [example(name) for name in command.inputs]
        lines = b"".join(examples).splitlines(True) or [b"\n"]
        heads = [b"".join(data.splitlines(True)[:size]) for data in examples for size in range(1, 6)]
        for _ in range(300):
            some = b"".join(chance.choices(lines, k=chance.randrange(30)))
            head = chance.choice(heads)
            data = chance.choice([chance.randbytes(chance.randrange(300)), some, head + some, head + chance.randbytes(30) + some])
            ended = kcore.program.run(command.words.split(), data)
            trial.ended(f"{command.words} of {data!r}", ended, {DONE: "whole", REFUSED: "whole"}, ended.text)
    yield trial


def refuses_words(trial, program, line, head):
    """Runs a program with words that it has to refuse, and with an input that begins so: nothing may be read or written."""
    out, into = os.pipe()
    os.write(into, head)
    os.close(into)
    about = str(line)[:80]
    ended = program.run(line, failing=Failing(), stdin=out)
    trial.ended(about, ended, {USAGE: "nothing"})
    trial.holds(queued(out) == len(head) and ended.calls["reads"] == 0, f"{about}: something was read")
    trial.holds(ended.calls["writes"] == 0, f"{about}: something was written")
    os.close(out)


def words(kcore):
    trial = Trial("words that name no command: nothing is read or written")
    numbers = ["", "0", "00", "65", "-1", "+1", "1.0", "1e0", "0x1", "1 1", "00000000001", "4294967297", "18446744073709551617", "x", "½", "１"]
    lines = [["run", number] for number in numbers] + [["run", "1 "], ["run", " 1"], ["run", "1\n"], ["Run", "1"], ["run1"], ["run"]]
    lines += [[], [""], ["exact", "1"], ["exact", ""], ["EXACT"], ["help"], ["--help"], ["--version"], ["run", "1", "1"], ["run", "1"] * 50]
    lines += [[b"run", b"\xff"], [b"\xff\xfe"], [b"ex\xc3"], ["x" * 100_000], ["run"] * 10_000]
    for line in lines:
        refuses_words(trial, kcore.program, line, HEAD)
    yield trial


def workers(kcore):
    trial = Trial("run W, with W of all accepted forms and 64 workers")
    for name in sorted(name for name in os.listdir(f"{EXAMPLES}/cases") if name.endswith(".kc")):
        data = example(f"cases/{name}")
        status, whole = kcore.whole(RUN, data)
        for number in "64", "064", "0000000064", "0000000001", "3":
            ended = kcore.program.run(["run", number], data)
            trial.ended(f"run {number}, {name}", ended, {status: "whole"}, whole)
    yield trial


TRIALS = [words, workers, cuts, cut_certificates, byte_values, random_inputs, asks_without_end, promises, great_certificates, great_inputs]
