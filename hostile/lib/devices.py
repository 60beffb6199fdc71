"""Devices that fail: full ones, closed ones, ones that vanish or aren't ready. A module of check.py."""
import fcntl
import os
import pty
import resource
import signal
import socket
import subprocess
import sys
import tempfile
import termios
import time

from program import Failing, limited
from trials import DONE, READ_FAULT, REFUSED, WRITE_FAULT, Trial, end_name
from inputs import with_refusal, without_replies


def full_devices(kcore):
    trial = Trial("the device is full, or the file may not grow")
    for name, words, data, status, whole in kcore.cases():
        with open("/dev/full", "wb") as full:
            trial.ended(name, kcore.program.run(words, data, stdout=full), {WRITE_FAULT: "nothing"})
        for size in range(0, len(whole) + 97, 97):
            with tempfile.TemporaryFile() as file:
                ended = kcore.program.run(words, data, stdout=file, preexec_fn=limited(resource.RLIMIT_FSIZE, size))
                file.seek(0)
                text = file.read()
            wanted = {WRITE_FAULT: "prefix"} if size < len(whole) else {status: "whole"}
            trial.ended(f"{name}, {size} bytes", ended._replace(text=text), wanted, whole)
    yield trial


def closed_pipes(kcore):
    trial = Trial("nobody reads the pipe or socket that is written to")
    for name, words, data, status, whole in kcore.cases():
        for signals in False, True:
            out, into = os.pipe()
            os.close(out)
            trial.ended(name, kcore.program.run(words, data, stdout=into, restore_signals=signals), {WRITE_FAULT: "nothing"})
            os.close(into)
        out, into = socket.socketpair()
        out.close()
        trial.ended(f"{name}, a socket", kcore.program.run(words, data, stdout=into.fileno()), {WRITE_FAULT: "nothing"})
        into.close()
    yield trial


def one_line_is_read(kcore):
    trial = Trial("run 1 on batches without end, of which `head -1` reads one line")
    process = kcore.program.begin(["run", "1"], stdin=subprocess.PIPE)
    reader = subprocess.Popen(["head", "-1"], stdin=process.stdout, stdout=subprocess.PIPE)
    process.stdout.close()
    given, batches = 0, b"batch\n+ 0 1\nend\nbatch\n- 0 1\nend\n" * 100
    try:
        process.stdin.write(b"kcore 1\nvertices 2\n")
        while given < 1 << 30:
            given += process.stdin.write(batches)
    except BrokenPipeError:
        pass
    status = process.wait(60)
    trial.ends[status] += 1
    trial.holds(status == WRITE_FAULT, f"it ended with {end_name(status)}")
    trial.holds(reader.communicate()[0] == b"kcore-run 1\n", "head didn't read the first line")
    trial.holds(given < 16 << 20, "it didn't end at once")
    trial.notes.append(f"it took {given >> 10} KiB of the input")
    process.stderr.close()
    yield trial


def closed_streams(kcore):
    trial = Trial("a stream is closed, a folder, open the other way, or not ready")
    for name, words, data, status, whole in kcore.cases():
        run = kcore.program.run
        if data:
            trial.ended(f"{name}, no input", run(words, stdin=None, preexec_fn=lambda: os.close(0)), {READ_FAULT: "nothing"})
        trial.ended(f"{name}, no output", run(words, data, preexec_fn=lambda: os.close(1)), {WRITE_FAULT: "nothing"})
        trial.ended(f"{name}, no standard error", run(words, data, preexec_fn=lambda: os.close(2)), {status: "whole"}, whole)
        folder = os.open(".", os.O_RDONLY)
        out, into = os.pipe()
        os.set_blocking(out, False), os.set_blocking(into, False)
        with open(os.devnull, "wb") as writable, open(os.devnull, "rb") as readable:
            if data:
                trial.ended(f"{name}, from a folder", run(words, stdin=folder), {READ_FAULT: "nothing"})
                trial.ended(f"{name}, from a stream for writing", run(words, stdin=writable), {READ_FAULT: "nothing"})
                trial.ended(f"{name}, from a pipe that isn't ready", run(words, stdin=out), {READ_FAULT: "nothing"})
            trial.ended(f"{name}, to a folder", run(words, data, stdout=folder), {WRITE_FAULT: "nothing"})
            trial.ended(f"{name}, to a stream for reading", run(words, data, stdout=readable), {WRITE_FAULT: "nothing"})
            filled = fill(into)
            trial.ended(f"{name}, to a pipe that isn't ready", run(words, data, stdout=into), {WRITE_FAULT: "nothing"})
            trial.holds(queued(out) == filled, f"{name}, to a pipe that isn't ready: it was written to")
        os.close(folder), os.close(out), os.close(into)
    yield trial


def vanishing_files(kcore):
    trial = Trial("the file that is read is removed, cut off or emptied meanwhile")
    batch = b"batch\n" + b"+ 0 1\n" * 20 + b"end\nbatch\n- 0 1\nend\n"
    data = b"kcore 1\nvertices 2\n" + batch * 20000
    for command in kcore.batch_commands():
        for size in len(data), len(data) - 1000, len(data) // 2, 0:
            with tempfile.NamedTemporaryFile(delete=False) as file:
                file.write(data)
            with open(file.name, "rb") as source:
                process = kcore.program.begin(command.words.split(), stdin=source)
                if size < len(data):
                    os.truncate(file.name, size)
                os.remove(file.name)
                text, errors = process.communicate(timeout=600)
            got = process.returncode, text
            trial.ends[got[0]] += 1
            # Some of it was read before. How much isn't known, but the text is that of an input that is cut off somewhere.
            right = got == kcore.whole(command, data) or size < len(data) and is_cut(kcore, command, batch, got)
            trial.holds(right and not errors, f"{command.words}, {size} bytes: {got[0]}, {text[-300:]!r}, {errors!r}")
    yield trial


def is_cut(kcore, command, batch, got):
    """Whether a run ended so on a header and this pair of batches over and over, cut off somewhere."""
    status, text = got
    if text == b"refused line 1 header\n":
        return status == REFUSED
    refusals = [line.lstrip(b"# ").split() for line in text.split(b"\n") if b" refused " in line]
    if not refusals and command.is_noted:
        return status == DONE
    number = int(refusals[0][1]) if refusals else text.count(b"\nbatch ") + 1
    one = batch[: batch.index(b"end\n") + 4]
    complete = b"kcore 1\nvertices 2\n" + batch * ((number - 1) // 2) + one * ((number - 1) % 2)
    wanted = kcore.whole(command, complete)
    if refusals:
        refusal = number, int(refusals[0][4]), refusals[0][5]
        wanted = REFUSED, with_refusal(wanted[1], refusal, command.is_noted)
    return got == wanted


def closed_terminals(kcore):
    trial = Trial("the terminal that is the input, or the output, is closed")
    for command in kcore.batch_commands():
        for name, words, data, status, whole in kcore.cases():
            if words != command.words.split():
                continue
            lines = data.splitlines(True)
            for count in range(1, len(lines) + 1):
                typed = b"".join(lines[:count])
                got, errors = type_and_close(kcore, words, typed, count)
                trial.ends[got[0]] += 1
                right = got == kcore.cut(command, typed) or got[0] == READ_FAULT and without_replies(whole).startswith(got[1])
                trial.holds(right and not errors, f"{name}, {count} lines: {got}, {errors!r}")
            master, slave = quiet_terminal()
            process = kcore.program.begin(words, stdin=subprocess.PIPE, stdout=slave)
            os.close(master)
            errors = process.communicate(data, timeout=60)[1]
            os.close(slave)
            trial.ends[process.returncode] += 1
            trial.holds(process.returncode == WRITE_FAULT and not errors, f"{name}, output: {process.returncode}, {errors!r}")
    yield trial


def type_and_close(kcore, words, typed, count):
    """Runs a command at a terminal that is closed once the program has read these lines. Gives its exit number and text, and its errors."""
    master, slave = quiet_terminal()
    process = kcore.program.begin(words, Failing(), stdin=slave)
    os.write(master, typed)
    # Each line is one read. After the last one the program waits in a further read.
    until = time.monotonic() + 60
    while kcore.program.calls()["reads"] <= count and process.poll() is None and time.monotonic() < until:
        time.sleep(0.001)
    os.close(master), os.close(slave)
    text, errors = process.communicate(timeout=60)
    return (process.returncode, without_replies(text)), errors


def quiet_terminal():
    """The two ends of a terminal that echoes nothing."""
    master, slave = pty.openpty()
    settings = termios.tcgetattr(slave)
    settings[3] &= ~termios.ECHO
    termios.tcsetattr(slave, termios.TCSANOW, settings)
    return master, slave


def stops(kcore):
    trial = Trial("the program is stopped and goes on, again and again")
    data = b"kcore 1\nvertices 2\n" + b"batch\n+ 0 1\nend\nbatch\n- 0 1\nend\n" * 5000
    for command in kcore.batch_commands():
        with tempfile.TemporaryFile() as source, tempfile.TemporaryFile() as out:
            source.write(data), source.seek(0)
            process = kcore.program.begin(command.words.split(), stdin=source, stdout=out)
            while process.poll() is None:
                process.send_signal(signal.SIGSTOP)
                process.send_signal(signal.SIGCONT)
                time.sleep(0.001)
            out.seek(0)
            got = process.returncode, out.read()
            trial.ends[got[0]] += 1
            trial.holds(got == kcore.whole(command, data), f"{command.words}: {got[0]}, or another text")
            process.stderr.close()
    yield trial


def other_places(kcore):
    trial = Trial("an empty environment; a current folder that is gone")
    for name, words, data, status, whole in kcore.cases():
        trial.ended(name, kcore.program.run(words, data, environment={}), {status: "whole"}, whole)
        folder = tempfile.mkdtemp()
        ended = kcore.program.run(words, data, cwd=folder, preexec_fn=lambda: os.rmdir(folder))
        trial.ended(name, ended, {status: "whole"}, whole)
    yield trial


def fill(into):
    """Fills a pipe, and tells how much there is room for."""
    filled = 0
    try:
        while True:
            filled += os.write(into, bytes(4096))
    except BlockingIOError:
        return filled


def queued(fd):
    """How many bytes wait to be read."""
    return int.from_bytes(fcntl.ioctl(fd, termios.FIONREAD, bytes(4)), sys.byteorder)


TRIALS = [full_devices, closed_pipes, one_line_is_read, closed_streams, vanishing_files, closed_terminals, stops, other_places]
