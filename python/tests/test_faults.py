"""Programs that aren't there, that end, and that print something else."""
import os
import signal
import subprocess
import sys
import tempfile
import time
import unittest
from unittest import mock

import kcore

from .plain import fake

SOURCE = os.path.join(os.path.dirname(os.path.dirname(os.path.abspath(__file__))), "src")


class Finding(unittest.TestCase):
    def setUp(self):
        self.path = kcore.program().path

    def test_order(self):
        with fake("exit 0") as other, mock.patch.dict(os.environ, {"KCORE": other}):
            self.assertEqual(kcore.program(), (other, "the variable KCORE"))
            self.assertEqual(kcore.program(self.path), (self.path, "the argument"))
            self.assertEqual(os.fspath(kcore.program()), other)
            self.assertIn("the variable KCORE", str(kcore.program()))

    def test_path(self):
        with tempfile.TemporaryDirectory() as folder, mock.patch.dict(os.environ, {"PATH": folder}):
            os.environ.pop("KCORE", None)
            with mock.patch("kcore._program._of_package", return_value=[]):
                with self.assertRaises(kcore.ProgramNotFound):
                    kcore.program()
                os.symlink(self.path, os.path.join(folder, "kcore"))
                self.assertEqual(kcore.program(), (os.path.join(folder, "kcore"), "PATH"))

    def test_copies(self):
        # A checkout, and an installed package beside its own copy.
        with tempfile.TemporaryDirectory() as folder:
            package = os.path.join(folder, "python", "src", "kcore")
            os.makedirs(os.path.dirname(package))
            os.symlink(os.path.join(SOURCE, "kcore"), package)
            from kcore._program import _of_package
            copies = _of_package(package)
            self.assertEqual(copies, [(os.path.join(package, "bin", "kcore"), "the copy in this package"),
                                      (os.path.join(folder, "dist", "kcore"), "the repository's dist/kcore")])
            self.assertEqual(_of_package(os.path.join(folder, "kcore")),
                             [(os.path.join(folder, "kcore", "bin", "kcore"), "the copy in this package")])

    def test_wrong_paths(self):
        with self.assertRaisesRegex(kcore.ProgramNotFound, "isn't there"):
            kcore.program("/nowhere/kcore")
        with self.assertRaisesRegex(kcore.ProgramNotFound, "can't be run"):
            kcore.program(__file__)
        with mock.patch.dict(os.environ, {"KCORE": "/nowhere/kcore"}):
            with self.assertRaisesRegex(kcore.ProgramNotFound, "the variable KCORE"):
                kcore.core_number([(0, 1)])

    def test_no_program(self):
        with tempfile.NamedTemporaryFile("w", delete=False) as file:
            file.write("neither a script nor a program")
        os.chmod(file.name, 0o755)
        try:
            with self.assertRaisesRegex(kcore.ProgramNotFound, "can't be run"):
                kcore.core_number([(0, 1)], program=file.name)
        finally:
            os.unlink(file.name)


class Endings(unittest.TestCase):
    def test_words_are_shown_apart(self):
        with self.assertRaisesRegex(kcore.ProgramEnded, "^`kcore 'run 1'` ended with 2"):
            kcore.command("run 1")

    def test_numbers_in_words(self):
        for number, words in (2, "name no command"), (3, "a read failed"), (4, "a write failed"), (5, "memory"), (77, "never gives"):
            with fake(f"head -c 1 >/dev/null; exit {number}") as path:
                for call in (lambda: kcore.core_number([(0, 1)], program=path), lambda: kcore.Stream(nodes=2, program=path),
                             lambda: kcore.check(b"", program=path)):
                    with self.assertRaisesRegex(kcore.ProgramEnded, words) as caught:
                        call()
                    self.assertEqual(caught.exception.status, number)

    def test_what_it_says_is_told(self):
        with fake("echo 'no such library' >&2; exit 127") as path:
            with self.assertRaisesRegex(kcore.ProgramEnded, "127.*: no such library"):
                kcore.core_number([(0, 1)], program=path)

    def test_killed_between_batches(self):
        stream = kcore.Stream(nodes=10)
        stream.apply(add=[(0, 1)])
        os.kill(stream._process.popen.pid, signal.SIGKILL)
        with self.assertRaisesRegex(kcore.ProgramEnded, r"SIGKILL \(9\), after 1 batch; the system may have run out of memory$") as caught:
            stream.apply(add=[(1, 2)])
        self.assertEqual(caught.exception.status, -signal.SIGKILL)
        self.assertEqual(stream.level(0), 1)
        for call in (lambda: stream.apply(), stream.close, lambda: stream.result):
            with self.assertRaisesRegex(kcore.StreamClosed, "SIGKILL"):
                call()

    def test_killed_before_its_end(self):
        stream = kcore.Stream(nodes=10)
        os.kill(stream._process.popen.pid, signal.SIGKILL)
        with self.assertRaisesRegex(kcore.ProgramEnded, "SIGKILL"):
            stream.close()

    def test_killed_while_a_batch_is_written(self):
        script = "echo kcore-run 1; echo vertices 9; echo batch 1 loops 0 repeats 0 idle 0 removed 0 added 0; sleep 0.2; kill -9 $$"
        with fake(script) as path:
            stream = kcore.Stream(nodes=9, program=path)
            with self.assertRaisesRegex(kcore.ProgramEnded, "SIGKILL"):
                stream.apply(add=[(0, 1)] * 200_000)

    @unittest.skipUnless(os.path.exists("/dev/full"), "there is no full device")
    def test_full_device(self):
        data = b"kcore 1\nvertices 9\n"
        with self.assertRaisesRegex(kcore.ProgramEnded, "the device is full") as caught:
            kcore.command("exact", input=data, output="/dev/full")
        self.assertEqual(caught.exception.status, 4)
        with self.assertRaises(OSError):
            kcore.Stream(nodes=2, record="/dev/full")

    def test_record_that_fails(self):
        import resource
        with tempfile.TemporaryDirectory() as folder:
            path = os.path.join(folder, "run.kc")
            with kcore.Stream(nodes=1000, record=path) as stream:
                stream.apply(add=[("a", "b")])
                size, before = os.path.getsize(path), resource.getrlimit(resource.RLIMIT_FSIZE)
                handler = signal.signal(signal.SIGXFSZ, signal.SIG_IGN)
                resource.setrlimit(resource.RLIMIT_FSIZE, (size + 20, before[1]))
                try:
                    with self.assertRaises(OSError):
                        stream.apply(add=[(0, v) for v in range(100)])
                finally:
                    resource.setrlimit(resource.RLIMIT_FSIZE, before)
                    signal.signal(signal.SIGXFSZ, handler)
                # Nothing of the batch was sent, kept or recorded.
                self.assertEqual((os.path.getsize(path), stream.nodes, stream.batches), (size, ["a", "b"], 1))
                self.assertEqual(stream.apply(add=[("b", "c")]).number, 2)
            self.assertEqual(kcore.command("run", 1, input=path).count(b"added 1"), 2)

    def test_exception_in_the_body(self):
        with self.assertRaises(ZeroDivisionError):
            with kcore.Stream(nodes=3) as stream:
                1 / 0
        with self.assertRaisesRegex(kcore.StreamClosed, "exception"):
            stream.apply()
        self.assertIsNotNone(stream._process.popen.returncode)

    def test_interrupted_call(self):
        stream = kcore.Stream(nodes=3)
        with mock.patch.object(stream._process, "read", side_effect=KeyboardInterrupt):
            with self.assertRaises(KeyboardInterrupt):
                stream.apply(add=[(0, 1)])
        with self.assertRaisesRegex(kcore.StreamClosed, "interrupted"):
            stream.apply()

    def test_forgotten_stream_ends_its_program(self):
        stream = kcore.Stream(nodes=3)
        popen = stream._process.popen
        del stream
        self.assertIsNotNone(popen.poll())

    def test_copy_of_the_process_leaves_the_program_alone(self):
        with kcore.Stream(nodes=3) as stream:
            child = os.fork()
            if not child:
                stream._let_go()
                os._exit(0)
            os.waitpid(child, 0)
            self.assertEqual(stream.apply(add=[(0, 1)]).added, 1)

    def test_python_ends_while_a_stream_is_open(self):
        code = ("import kcore, sys\ns = kcore.Stream(nodes=3)\ns.apply(add=[(0, 1)])\n"
                "print(s._process.popen.pid, flush=True)\n")
        done = subprocess.run([sys.executable, "-c", code], env={**os.environ, "PYTHONPATH": SOURCE}, stdout=subprocess.PIPE,
                              stderr=subprocess.PIPE, timeout=60)
        self.assertEqual((done.returncode, done.stderr), (0, b""))
        with self.assertRaises(ProcessLookupError):
            os.kill(int(done.stdout), 0)


class OtherTexts(unittest.TestCase):
    """Fakes that print what the program never prints."""

    START = ("read head; read vertices; read batch; read end; "
             "echo kcore-run 1; echo vertices 2; echo batch 1 loops 0 repeats 0 idle 0 removed 0 added 0; ")
    MARK = "echo batch 3 loops 0 repeats 0 idle 0 removed 0 added 0; "

    def test_exact(self):
        rows = "vertex {} coreness 1 low 1 est 2 high 2\n".format
        for text in ["", "kcore-exact 1\nvertices 2\n", "kcore-exact 2\nvertices 2\nend\n", "kcore-exact 1\nvertices 2\n" + rows(0) + "end\n",
                     "kcore-exact 1\nvertices 2\n" + rows(0) + rows(0) + "end\n", "kcore-exact 1\nvertices 2\n" + rows(0) + rows(1),
                     "kcore-exact 1\nvertices 2\n" + rows(0) + rows(1) + "end\nend\n", "kcore-exact 1\nvertices 2\n" + rows(0) + rows(1) + "end"]:
            with fake(f"cat >/dev/null; printf '%s' '{text}'") as path:
                with self.assertRaises(kcore.Mismatch):
                    kcore.core_number([(0, 1)], program=path)

    def test_refused_note(self):
        with fake("cat >/dev/null; echo '# batch 17 refused line 9 edge-limit'; echo kcore-exact 1; echo vertices 2; echo end; exit 1") as path:
            with self.assertRaisesRegex(kcore.BatchRefused, "16,777,216 edges") as caught:
                kcore.core_number([(0, 1)], program=path)
        self.assertEqual((caught.exception.number, caught.exception.line, caught.exception.reason), (17, None, "edge-limit"))

    def test_batch_refused_at_its_end(self):
        with fake(self.START + f"read batch; echo batch 2 refused line 7 edge-limit; {self.MARK} cat >/dev/null") as path:
            stream = kcore.Stream(nodes=2, program=path)
            with self.assertRaisesRegex(kcore.BatchRefused, "^batch 1 is refused as a whole: edge-limit") as caught:
                stream.apply(add=[(0, 1)])
            self.assertEqual((caught.exception.line, caught.exception.item, caught.exception.sent), (None, None, True))
            stream._give_up("the test is over")

    def stream(self, script, call, said="can't read: .* `python -m kcore program` says which"):
        with fake(self.START + script) as path:
            stream = kcore.Stream(nodes=2, program=path)
            with self.assertRaisesRegex(kcore.Mismatch, said) as caught:
                call(stream)
            # The reason stays, and says what to do.
            with self.assertRaises(kcore.StreamClosed) as closed:
                stream.apply()
            self.assertIn(str(caught.exception), str(closed.exception))

    def test_batch(self):
        for line in "batch 5 loops 0 repeats 0 idle 0 removed 0 added 0", "nothing", "":
            self.stream(f"read batch; echo '{line}'; {self.MARK} cat >/dev/null", lambda stream: stream.apply(add=[(0, 1)]))
        accepted = "echo batch 2 loops 0 repeats 0 idle 0 removed 0 added 1; "
        for line in "group 1 0 0:1", "phrase 1 insert quiet 0":
            self.stream(f"read batch; {accepted} echo '{line}'; {self.MARK} cat >/dev/null", lambda stream: stream.apply(add=[(0, 1)]))

    def test_bounds(self):
        good = "vertex {} level 0 est 0 low 0 high 0 up 0 down 0".format
        for level, bounds, said in [(1, "est 2 low 1 high 1", "node number 1, .* on level 1 by the program, .* kept 0: .* `record`"),
                                    (0, "est 2 low 0 high 0", "may be wrong"), (0, "est 0 low 1 high 0", "may be wrong"),
                                    (0, "est 0 low 0 high 1", "may be wrong")]:
            row = f"vertex 1 level {level} {bounds} up 0 down 0"
            self.stream(f"cat >/dev/null; echo {good(0)}; echo {row}; echo end", lambda stream: stream.close(), said)
        self.stream(f"cat >/dev/null; echo {good(0)}; echo {good(2)}; echo end", lambda stream: stream.close())
        self.stream(f"cat >/dev/null; echo {good(0)}; echo {good(1)}; echo end; echo end", lambda stream: stream.close())

    def test_head(self):
        with fake("echo kcore-run 2; echo vertices 2; echo batch 1 loops 0 repeats 0 idle 0 removed 0 added 0; cat >/dev/null") as path:
            with self.assertRaises(kcore.Mismatch):
                kcore.Stream(nodes=2, program=path)

    def test_output_before_input(self):
        # A program that prints far more than a pipe holds before it reads: neither waits for the other.
        from kcore._program import converse, find
        with fake("head -c 3000000 /dev/zero; wc -c") as path:
            blocks = []
            converse(find(path), [], [b"x" * 3_000_000], blocks.append)
        text = b"".join(blocks)
        self.assertEqual((text.count(0), text.strip(b"\0").strip()), (3_000_000, b"3000000"))

    def test_program_that_never_answers(self):
        with fake("cat >/dev/null") as path, mock.patch("kcore._stream.START", 0.2):
            began = time.monotonic()
            with self.assertRaisesRegex(kcore.ProgramEnded, "didn't answer"):
                kcore.Stream(nodes=2, program=path)
            self.assertLess(time.monotonic() - began, 10)
