"""kserve: scripts of clients with calls, devices, memory or inputs that fail. Any order of the clients' updates is
right (`served.py`).

A module of check.py.
"""
import errno
import os
import random
import resource
import signal
import subprocess
import tempfile
import time

import broken
import calls
import devices
from broken import GIBIBYTE, MEBIBYTE
from inputs import cut_batches, example
from program import Failing, limited
from served import beginning_fault_of, block, fault_of
from trials import DONE, NO_MEMORY, READ_FAULT, REFUSED, WRITE_FAULT, Texts, Trial, end_name

HEAD = b"kserve 1\nvertices 2\n"
ONE_VERTEX = b"kserve 1\nvertices 1\n"
NOBODY = b"kserve-run 1\nvertices 1\nvertex 0 level 0 est 0 low 0 high 0 up 0 down 0\nend\n"


class Served(Texts):
    """The texts that scripts may have. `kcore` is the path of the program that tells the lines of the vertices."""

    def __init__(self, n, scripts, kcore):
        self.n, self.scripts, self.kcore = n, scripts, kcore

    def has(self, text):
        return fault_of(self.n, self.scripts, text.decode(), self.kcore) is None

    def begins_with(self, text):
        return beginning_fault_of(self.n, self.scripts, text.decode(), self.kcore) is None


class Kserve:
    """The program, and what it writes where nothing fails. Its trials are those of `Kcore`, but for the texts."""

    def __init__(self, program, kcore):
        self.program, self.kcore = program, kcore

    def whole(self, data):
        """The exit number and the texts of these bytes, which are the beginning of an input."""
        complete, refusal = cut_batches(data, rb"kserve 1")
        if complete is None:
            return REFUSED, b"refused line %d header\n" % refusal
        if refusal:
            return REFUSED, b"refused line %d %s\n" % refusal[1:]
        return DONE, served(complete, self.kcore)

    def batch_commands(self):
        """There is none."""
        return []

    def cases(self):
        """Words, inputs and how they end: one client with one update, three clients of which one takes an edge out, a refused block."""
        for name in "../crates/kserve/stdin", "clients.ks":
            data = example(name)
            yield f"kserve 2, {os.path.basename(name)}", ["2"], data, *self.whole(data)
        data = HEAD + b"batch\n0 1\nend\nbatch\n0 1\n0 2\nend\n"
        yield "kserve 2, a refused block", ["2"], data, REFUSED, b"refused line 8 bad-vertex\n"


def served(data, kcore):
    """The texts of a well-formed input."""
    lines = [line.decode().split() for line in data.split(b"\n") if line.strip() and not line.startswith(b"#")]
    scripts, n = [], int(lines[1][1])
    for words in lines[2:]:
        if words == ["batch"]:
            scripts.append([])
        elif words != ["end"]:
            scripts[-1].append(" ".join(words if words[0] in "+-" else ["+", *words]))
    return Served(n, scripts, kcore)


def input_of(n, scripts):
    return (f"kserve 1\nvertices {n}\n" + "".join(map(block, scripts))).encode()


def long_input():
    """Four scripts whose text is longer than what the program keeps back, so that it writes while clients still submit."""
    draw = random.Random(11)
    scripts = [[f"{draw.choice('++-')} {draw.randrange(60)} {draw.randrange(60)}" for _ in range(items)] for items in (6000, 10, 3000, 2500)]
    return input_of(60, scripts)


def long_texts(kserve):
    """It writes while clients wait for room."""
    data = long_input()
    status, whole = kserve.whole(data)
    for kind, error, fault, how in ("read", errno.EIO, READ_FAULT, "nothing"), ("write", errno.ENOSPC, WRITE_FAULT, "prefix"):
        trial = Trial(f"kserve 3, four clients with 11,510 updates, one {kind} of 7919 bytes fails")
        for number, ended in calls.in_turn(kserve, ["3"], data, kind, error, (7919, 7919)):
            trial.ended(f"{kind} {number}", ended, {fault: how} if ended.calls["failed"] else {status: "whole"}, whole)
        yield trial
    trial = Trial("kserve 3, four clients with 11,510 updates, one allocation refused")
    count = kserve.program.run(["3"], data, Failing()).calls["allocations"]
    refused = without = 0
    for number in range(1, count, count // 100 + 1):
        ended = kserve.program.run(["3"], data, Failing("allocation", number, error=errno.ENOMEM))
        # It does without the memory of a thread. How many threads it starts depends on how the updates come, so a run can't tell by their
        # number whether it was that: what is held is that it does so seldom.
        trial.ended(f"allocation {number}", ended, {NO_MEMORY: "prefix", status: "whole"}, whole)
        if ended.calls["failed"]:
            refused += 1
            without += ended.status == status
    trial.holds(10 * without <= refused, f"{without} of {refused} runs did without the memory that was refused")
    trial.notes.append(f"of about {count}; {without} did without it")
    yield trial


def full_devices(kserve):
    trial = Trial("kserve, the device is full, or the file may not grow")
    for name, words, data, status, whole in [*kserve.cases(), ("kserve 3, a long text", ["3"], long_input(), *kserve.whole(long_input()))]:
        with open("/dev/full", "wb") as full:
            trial.ended(name, kserve.program.run(words, data, stdout=full), {WRITE_FAULT: "nothing"})
        length = len(kserve.program.run(words, data).text)
        for size in range(0, 2 * length, length // 7 + 1):
            with tempfile.TemporaryFile() as file:
                ended = kserve.program.run(words, data, stdout=file, preexec_fn=limited(resource.RLIMIT_FSIZE, size))
                file.seek(0)
                text = file.read()
            # Its length depends on how many batches there are.
            wanted = {WRITE_FAULT: "prefix"} if size < 3 * length // 2 else {}
            wanted.update({status: "whole"} if size >= length // 2 else {})
            trial.ended(f"{name}, {size} bytes", ended._replace(text=text), wanted, whole)
    yield trial


def one_line_is_read(kserve):
    trial = Trial("kserve 2 on a long text, of which `head -1` reads one line")
    with tempfile.TemporaryFile() as source:
        source.write(input_of(60, [["+ 0 1"] * 200_000] * 4)), source.seek(0)
        process = kserve.program.begin(["2"], stdin=source)
        reader = subprocess.Popen(["head", "-1"], stdin=process.stdout, stdout=subprocess.PIPE)
        process.stdout.close()
        status = process.wait(120)
        trial.ends[status] += 1
        trial.holds(status == WRITE_FAULT, f"it ended with {end_name(status)}")
        trial.holds(reader.communicate()[0] == b"kserve-run 1\n", "head didn't read the first line")
        process.stderr.close()
    yield trial


def cuts(kserve):
    for name, words, data, _, _ in [*kserve.cases()][:2]:
        trial = Trial(f"{name}, cut off after each of its {len(data)} bytes")
        for size in range(len(data) + 1):
            status, whole = kserve.whole(data[:size])
            trial.ended(f"after {size} bytes", kserve.program.run(words, data[:size]), {status: "whole"}, whole)
        yield trial


def vanishing_scripts(kserve):
    """How much was read before isn't known: whole scripts were, or the input is refused at the line where it is cut, or after it."""
    trial = Trial("kserve 2, the file of the scripts is removed, cut off or emptied meanwhile")
    scripts = [["+ 0 1", "- 0 1", "+ 1 1"] * 5000] * 8
    data = input_of(2, scripts)
    refusals = {b"refused line %d header\n" % line for line in (1, 2, 3)}
    refusals |= {b"refused line %d %s\n" % (line, reason) for line in range(3, data.count(b"\n") + 2) for reason in (b"bad-line", b"truncated")}
    for size in len(data), len(data) - 1000, len(data) // 2, 9, 0:
        for _ in range(5):
            with tempfile.NamedTemporaryFile(delete=False) as file:
                file.write(data)
            with open(file.name, "rb") as source:
                process = kserve.program.begin(["2"], stdin=source)
                if size < len(data):
                    os.truncate(file.name, size)
                os.remove(file.name)
                text, errors = process.communicate(timeout=120)
            trial.ends[process.returncode] += 1
            whole = [Served(2, scripts[:count], kserve.kcore) for count in range(8, -1 if size < len(data) else 7, -1)]
            right = text in refusals if process.returncode == REFUSED else process.returncode == DONE and any(some.has(text) for some in whole)
            trial.holds(right and not errors, f"{size} bytes: {process.returncode}, {text[-200:]!r}, {errors!r}")
    yield trial


def byte_values(kserve):
    trial = Trial("kserve 1, each byte value alone, at the end of the header's lines, as an item and as a block; and all of them")
    for byte in range(256):
        one = bytes([byte])
        is_skipped = one in b" \t\r\n#"
        for before, after, line in (b"batch\n", b"\nend\n", 4), (b"", b"\nbatch\nend\n", 3):
            ended = kserve.program.run(["1"], ONE_VERTEX + before + one + after)
            wanted = (DONE, NOBODY) if is_skipped else (REFUSED, b"refused line %d bad-line\n" % line)
            trial.ended(f"byte {byte} at line {line}", ended, {wanted[0]: "whole"}, wanted[1])
        ended = kserve.program.run(["1"], one)
        trial.ended(f"byte {byte}", ended, {REFUSED: "whole"}, b"refused line %d header\n" % (2 if is_skipped else 1))
        # A blank or a line feed ends a word, and the header's lines are the same; a digit makes another number.
        for line in 1, 2:
            data = ONE_VERTEX.replace(b"1\n", b"1" + one + b"\n", line).replace(b"1" + one + b"\n", b"1\n", line - 1)
            ended = kserve.program.run(["1"], data)
            accepted = one in b" \t\r\n" or line == 2 and one.isdigit()
            wanted = {DONE: "whole"} if accepted else {REFUSED: "whole"}
            trial.ended(f"byte {byte} after line {line}", ended, wanted, ended.text if accepted else b"refused line %d header\n" % line)
    ended = kserve.program.run(["1"], bytes(range(256)) * 300)
    trial.ended("all bytes", ended, {REFUSED: "whole"}, b"refused line 1 header\n")
    yield trial


def random_inputs(kserve):
    trial = Trial("kserve 2, random bytes, and lines of inputs in a random order")
    chance = random.Random(1)
    lines = example("clients.ks").splitlines(True) + [b"0 1\n", b"batch\n", b"end\n", b"- 1 0\n", b"x 1\n"]
    for _ in range(300):
        some = b"".join(chance.choices(lines, k=chance.randrange(30)))
        data = chance.choice([chance.randbytes(chance.randrange(300)), some, HEAD + some, HEAD + b"batch\n" + some + b"end\n"])
        ended = kserve.program.run(["2"], data)
        trial.ended(repr(data), ended, {DONE: "whole", REFUSED: "whole"}, ended.text)
    yield trial


def words(kserve):
    trial = Trial("kserve with words that aren't one number of workers: nothing is read or written")
    for line in [[], [""], ["0"], ["65"], ["-1"], ["+1"], ["1.0"], ["x"], ["run", "1"], ["1", "1"], ["00000000001"], ["4294967297"], [b"\xff"], ["1"] * 5000]:
        broken.refuses_words(trial, kserve.program, line, HEAD)
    yield trial


def stops(kserve):
    trial = Trial("kserve 2 is stopped and goes on, again and again")
    data = input_of(60, [[f"+ {k % 60} {(k * k + c) % 60}" for k in range(20_000)] for c in range(6)])
    whole = served(data, kserve.kcore)
    for _ in range(3):
        with tempfile.TemporaryFile() as source, tempfile.TemporaryFile() as out:
            source.write(data), source.seek(0)
            process = kserve.program.begin(["2"], stdin=source, stdout=out)
            while process.poll() is None:
                process.send_signal(signal.SIGSTOP)
                process.send_signal(signal.SIGCONT)
                time.sleep(0.001)
            out.seek(0)
            text = out.read()
            trial.ends[process.returncode] += 1
            trial.holds(process.returncode == DONE and whole.has(text), f"{process.returncode}, or another text")
            process.stderr.close()
    yield trial


def blocks_without_end(kserve):
    """Each is refused at the end of the first one too many."""
    yield broken.great(kserve, "blocks without end", HEAD, b"batch\n0 1\nend\n" * 1000, MEBIBYTE, b"refused line 197 too-many\n", command="1", of="kserve")


def great_inputs(kserve):
    """All of them are read up to the limit of an input, which goes before a line is found too long."""
    comments = b"#" * 63 + b"\n"
    lines = 2 + (GIBIBYTE - len(b"kserve 1\n")) // len(comments)
    for name, start, more, text in (
        ("one line without end", b"", b"x" * MEBIBYTE, b"refused line 1 header\n"),
        ("one line of zeros without end", b"", bytes(MEBIBYTE), b"refused line 1 header\n"),
        ("a header without end", b"kserve 1\n", comments * 16384, b"refused line %d header\n" % lines),
        ("one line without end in a block", HEAD + b"batch\n", b"x" * MEBIBYTE, b"refused line 4 input-limit\n"),
        ("a block without end", HEAD + b"batch\n", b"0 1\n" * 262_144, b"refused line 1048580 too-many\n"),
        ("line feeds without end", b"", b"\n" * MEBIBYTE, b"refused line %d header\n" % (GIBIBYTE + 1)),
    ):
        yield broken.great(kserve, name, start, more, GIBIBYTE, text, command="1", of="kserve")
    yield broken.great(kserve, "1 GiB of line feeds", b"", b"\n" * MEBIBYTE, GIBIBYTE, b"refused line %d header\n" % (GIBIBYTE + 1), GIBIBYTE, "1", "kserve")


# Those of `kcore` that ask for nothing but cases.
SHARED = [calls.refused_memory, calls.little_stack, calls.failing_reads, calls.failing_writes, calls.interrupted_calls, calls.small_pieces,
          calls.threads_not_started, devices.closed_pipes, devices.closed_streams, devices.other_places]
TRIALS = [words, cuts, byte_values, random_inputs, long_texts, full_devices, one_line_is_read, vanishing_scripts, stops, blocks_without_end, great_inputs]
