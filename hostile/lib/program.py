"""A program run with calls, devices or memory that fail, and how it ended. A module of check.py."""
import collections
import os
import resource
import shutil
import signal
import struct
import subprocess
import tempfile
import time

COUNTS = ("allocations", "reads", "writes", "starts", "threads", "failed")

# How a run ended: its exit number (below 0: the signal that ended it; None: it didn't end in time), what it wrote to the standard
# output and to the standard error, how many calls it made (`failing_calls.c`), the greatest memory in KiB, and the seconds.
Ended = collections.namedtuple("Ended", "status text errors calls memory seconds")


class Failing:
    """The calls that fail: those of a kind (allocation, read, write, thread) from number `first` to `last`, with an error."""

    def __init__(self, kind="none", first=0, last=None, error=0, pieces=(0, 0)):
        self.words = (kind, first, first if last is None else last, error, *pieces)


class Program:
    """The program at a path. What it needs besides is kept in a folder of its own until `close`."""

    def __init__(self, path):
        self.folder = tempfile.mkdtemp(prefix="hostile.")
        os.chmod(self.folder, 0o755)
        self.path = shutil.copy(path, os.path.join(self.folder, "program"))
        os.chmod(self.path, 0o755)
        self.in_front = os.path.join(self.folder, "failing_calls.so")
        self.counts = os.path.join(self.folder, "counts")
        source = os.path.join(os.path.dirname(os.path.abspath(__file__)), "failing_calls.c")
        subprocess.run([os.environ.get("CC", "cc"), "-shared", "-fPIC", "-O1", "-o", self.in_front, source, "-ldl"], check=True)

    def close(self):
        shutil.rmtree(self.folder)

    def begin(self, words, failing=None, environment=None, **streams):
        """Starts the program. The streams are those of `subprocess.Popen`."""
        environment = dict(os.environ if environment is None else environment)
        if failing:
            with open(self.counts, "wb") as file:
                file.write(bytes(8 * len(COUNTS)))
            os.chmod(self.counts, 0o666)
            environment["LD_PRELOAD"] = self.in_front
            environment["FAILING_CALLS"] = " ".join(map(str, (self.counts, *failing.words)))
        streams = {"stdin": subprocess.DEVNULL, "stdout": subprocess.PIPE, "stderr": subprocess.PIPE, **streams}
        return subprocess.Popen([self.path, *words], env=environment, **streams)

    def run(self, words, data=None, failing=None, seconds=60, **streams):
        """Runs the program on these bytes, or on the given streams."""
        if data is not None:
            streams["stdin"] = subprocess.PIPE
        began = time.monotonic()
        process = self.begin(words, failing, **streams)
        try:
            text, errors = process.communicate(data, timeout=seconds)
            status = process.returncode
        except subprocess.TimeoutExpired:
            process.kill()
            text, errors = process.communicate()
            status = None
        return Ended(status, text or b"", errors, self.calls() if failing else None, None, time.monotonic() - began)

    def feed(self, words, pieces, seconds=600):
        """Runs the program on the pieces of an iterator, through a pipe, for as long as it takes them. Tells how many bytes it took too."""
        began, given, memory = time.monotonic(), 0, 0
        with tempfile.TemporaryFile() as out, tempfile.TemporaryFile() as err:
            process = self.begin(words, stdin=subprocess.PIPE, bufsize=0, stdout=out, stderr=err)
            try:
                for piece in pieces:
                    rest = memoryview(piece)
                    while rest:
                        taken = process.stdin.write(rest)
                        given, rest = given + taken, rest[taken:]
                    memory = max(memory, most_memory(process.pid))
                process.stdin.close()
            except BrokenPipeError:
                process.stdin = None
            try:
                status = process.wait(seconds)
            except subprocess.TimeoutExpired:
                process.kill()
                process.wait()
                status = None
            out.seek(0), err.seek(0)
            return Ended(status, out.read(), err.read(), None, memory, time.monotonic() - began), given

    def calls(self):
        with open(self.counts, "rb") as file:
            return dict(zip(COUNTS, struct.unpack(f"{len(COUNTS)}q", file.read())))


def most_memory(pid):
    """The most memory that a process has had until now, in KiB. (What the system tells at its end counts ours too, from before it became
    the program.)"""
    try:
        with open(f"/proc/{pid}/status", encoding="ascii") as file:
            return next((int(line.split()[1]) for line in file if line.startswith("VmHWM:")), 0)
    except FileNotFoundError:
        return 0


def limited(what, most):
    """What a process does before it becomes the program, so that it has a limit. A file that may not grow is an error, and no signal."""
    def limit():
        signal.signal(signal.SIGXFSZ, signal.SIG_IGN)
        resource.setrlimit(what, (most, most))
    return limit
