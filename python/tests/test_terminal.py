"""``python -m kcore``, and the page of a run."""
import contextlib
import io
import json
import os
import re
import subprocess
import sys
import tempfile
import unittest

import kcore
from kcore import _view
from kcore.__main__ import main
from kcore._inputs import Input, Run

from .plain import corenesses, fake

EXAMPLES = os.path.join(os.path.dirname(os.path.dirname(os.path.dirname(os.path.abspath(__file__)))), "examples")


def example(name):
    return os.path.join(EXAMPLES, name)


def content_of(page):
    """The run that a page holds."""
    return json.loads(re.search(r'<script id="run" type="application/json">(.*?)</script>', page, re.DOTALL).group(1))


class Terminal(unittest.TestCase):
    def say(self, *words, number=0):
        out, err = io.StringIO(), io.StringIO()
        with contextlib.redirect_stdout(out), contextlib.redirect_stderr(err):
            self.assertEqual(main(list(words)), number, err.getvalue())
        return out.getvalue() if not number else err.getvalue()

    def test_program(self):
        self.assertEqual(self.say("program"), f"{kcore.program()}\n")
        self.assertRegex(self.say("--program", "/nowhere", "program", number=1), "^kcore: /nowhere.*isn't there\n$")

    def test_cores_of_edges_and_of_an_input(self):
        rows = [line.split("\t") for line in self.say("cores", example("karate.snap")).splitlines()]
        self.assertEqual(rows.pop(0), ["node", "coreness"])
        with open(example("karate.snap")) as file:
            edges = [tuple(map(int, line.split())) for line in file if not line.startswith("#")]
        self.assertEqual({int(node): int(core) for node, core in rows}, corenesses(edges))
        self.assertEqual(sorted(self.say("cores", example("karate.kc")).splitlines()[1:]), sorted("\t".join(row) for row in rows))
        self.assertEqual(self.say("cores", example("karate.snap"), "--top", "2").count("\t4\n"), 2)

    def test_levels(self):
        said = self.say("levels", example("karate.kc"), "--top", "1")
        self.assertEqual(said, "node\tlevel\tlow\test\thigh\n0\t15\t1\t2\t4\n")
        said = self.say("levels", example("karate.snap"), "--profile", "1", "--workers", "2")
        self.assertEqual(len(said.splitlines()), 35)

    def test_faults(self):
        self.assertIn("No such file", self.say("cores", "/nowhere", number=1))
        with tempfile.TemporaryDirectory() as folder:
            path = os.path.join(folder, "x")
            with open(path, "w") as file:
                file.write("kcore 3\n")
            for command in "cores", "levels", "watch":
                self.assertIn("refused line 1 header", self.say(command, path, number=1))
            self.assertIn("isn't an input", self.say("view", path, "-o", path + ".html", number=1))
            self.assertFalse(os.path.exists(path + ".html"))
        with fake("exit 3") as path:
            for command in "cores", "levels", "watch":
                self.assertIn("a read failed", self.say("--program", path, command, example("karate.kc"), number=1))
        with contextlib.redirect_stderr(io.StringIO()), self.assertRaises(SystemExit):
            main(["fly"])

    def test_watch(self):
        said = self.say("watch", example("refused.kc")).splitlines()
        self.assertEqual([line.split()[:3] for line in said[1:5]],
                         [["1", "1", "0"], ["2", "refused", "line"], ["3", "1", "0"], ["4", "refused", "line"]])
        self.assertRegex(said[5], r"^4 batches \(2 refused\), .* edges a second, 3 vertices moved in 2 groups$")
        self.assertEqual(said[6], "largest groups: 2 with 0 in batch 1, 1 with 3 in batch 3")
        said = self.say("watch", example("karate.snap"), "--batch", "30").splitlines()
        self.assertEqual([line.split()[1] for line in said[1:4]], ["30", "30", "18"])

    def test_table_on_a_terminal(self):
        class Terminal(io.StringIO):
            def isatty(self):
                return True

        from kcore._watch import Table
        shown = Terminal()
        table = Table("a run", shown, {0: "ann"})
        with open(example("history.txt"), "rb") as file:
            table.lines(file.read())
        table.show(at_once=True)
        table.end()
        last = shown.getvalue().split("\x1b[8A")[-1]
        self.assertIn("a run: 6 vertices, 5 edges, ended", last)
        self.assertRegex(last, r"\n +3 +2 +1 +1 +1 +1 +1\x1b\[K\n")
        self.assertIn("largest groups: 3 with ann in batch 1", last)

    def test_standard_input_and_a_reader_that_leaves(self):
        environment = {**os.environ, "PYTHONPATH": os.path.join(os.path.dirname(EXAMPLES), "python", "src")}
        words = [sys.executable, "-m", "kcore", "cores", "-"]
        with open(example("karate.snap"), "rb") as file:
            done = subprocess.run(words, stdin=file, env=environment, stdout=subprocess.PIPE, stderr=subprocess.PIPE, timeout=60)
        self.assertEqual((done.returncode, len(done.stdout.splitlines()), done.stderr), (0, 35, b""))
        if os.path.exists("/dev/full"):
            with open("/dev/full", "wb") as full:
                done = subprocess.run(words[:-1] + [example("karate.snap")], env=environment, stdout=full, stderr=subprocess.PIPE, timeout=60)
            self.assertEqual((done.returncode, done.stderr), (1, b"kcore: [Errno 28] No space left on device\n"))


class Pages(unittest.TestCase):
    def test_history(self):
        with open(example("readers.kc"), "rb") as data, open(example("readers.txt"), "rb") as text:
            text = text.read().replace(b"=L", b"=0")
            page = _view.page(data.read(), text.replace(b"reader 0 0=0 4=0 0=0 4=0 0=0 4=0", b"reader 0 0=0 4=1 0=1 4=1 0=1 4=0"), "Readers & <more>")
        run = content_of(page)
        self.assertIn("<title>Readers &amp; &lt;more&gt;</title>", page)
        self.assertEqual((run["title"], run["vertices"], run["profile"], run["drawn"]), ("Readers & <more>", 6, 1, True))
        self.assertEqual([batch["counts"] for batch in run["batches"]], [[0, 0, 0, 0, 3], [0, 0, 0, 0, 2], [0, 0, 0, 1, 1]])
        first = run["batches"][0]["phases"][0]
        # Each group has its moves, from level to level, and its edges.
        self.assertEqual(first["groups"], [[[0, 0, 1, 1, 0, 1, 2, 0, 1], [0, 1, 1, 2]], [[3, 0, 1, 4, 0, 1], [3, 4]]])
        last = run["batches"][2]["phases"]
        self.assertEqual([phase["kind"] for phase in last], ["delete", "insert"])
        self.assertEqual(last[0]["groups"], [[[4, 1, 0], [3, 4]]])
        self.assertEqual((last[1]["groups"], last[1]["quiet"]), ([], [0, 2]))
        # The place, the vertex, the level and the point of each reply.
        self.assertEqual(run["readers"][0]["replies"], [0, 0, 0, 0, 1, 4, 1, 2, 2, 0, 1, 2, 3, 4, 1, 2, 4, 0, 1, 2, 5, 4, 0, 4])

    def test_nothing_comes_from_outside(self):
        with open(example("karate_batches.kc"), "rb") as data, open(example("karate_batches.txt"), "rb") as text:
            page = _view.page(data.read(), text.read(), "Karate")
        self.assertNotRegex(page, r"https?:|src=|@import|url\(|<link|fetch\(|XMLHttp")
        self.assertEqual(page.count("<script"), 2)

    def test_names_and_texts_that_could_end_a_script(self):
        with tempfile.TemporaryDirectory() as folder:
            path, out = os.path.join(folder, "run.kc"), os.path.join(folder, "run.html")
            with kcore.Stream(nodes=9, record=path) as stream:
                stream.apply(add=[("</script>", "b\n"), ("b\n", 7), (7, "</script>")])
                stream.isolate(7)
            with contextlib.redirect_stdout(io.StringIO()):
                self.assertEqual(main(["view", path, "-o", out, "--title", "t"]), 0)
            with open(out) as file:
                run = content_of(file.read())
        self.assertEqual(run["names"], {"0": "</script>", "1": "b\n", "2": "7"})
        self.assertEqual([batch["counts"][3:] for batch in run["batches"]], [[0, 3], [2, 0]])

    def test_refused_batches_and_many_vertices(self):
        with open(example("refused.kc"), "rb") as data, open(example("refused.txt"), "rb") as text:
            run = content_of(_view.page(data.read(), text.read(), ""))
        self.assertEqual(run["batches"][1], {"refused": "line 10 bad-vertex"})
        data = b"kcore 2\nvertices 2001\nbatch\n0 2000\nend\n"
        run = content_of(_view.page(data, kcore.command("run", 1, input=data), ""))
        self.assertFalse(run["drawn"])
        self.assertEqual(run["batches"][0]["phases"][0]["groups"], [[[0, 0, 1, 2000, 0, 1], []]])

    def test_texts_of_other_runs(self):
        with open(example("history.kc"), "rb") as data, open(example("history.txt"), "rb") as text:
            data, text = data.read(), text.read()
        for wrong in (b"", text[:-4], text.replace(b"group 2 1 1:2 5:1", b"group 2 1 1:2"), text.replace(b"removed 0 added 3", b"removed 0 added 4"),
                      text.replace(b"vertex 1 level 2 est 2", b"vertex 1 level 2 est 4"), text.replace(b"vertex 0", b"reader 0 0=5\nvertex 0")):
            with self.assertRaises(kcore.Mismatch):
                _view.page(data, wrong, "")
        with self.assertRaises(ValueError):
            _view.page(text, text, "")
        # Graphs that aren't drawn, so that their edges aren't compared: with other numbers of vertices, or of batches.
        for vertices, batches in (2002, 1), (2001, 2):
            other = b"kcore 2\nvertices %d\n" % vertices + b"batch\n0 1\nend\n" * batches
            with self.assertRaisesRegex(kcore.Mismatch, "is the text that of this input"):
                _view.page(b"kcore 2\nvertices 2001\nbatch\n0 1\nend\n", kcore.command("run", 1, input=other), "")

    def test_cleaning(self):
        # Blanks, comments, a carriage return, an isolation, and a batch that is refused at its first line.
        data = (b"# c\nkcore 2\r\nvertices 5\nask 1 0\nbatch\n\n0\t1\n+ 1 2\n 2 3 \n#\nend\nend\nbatch\nx 1\n+ 1 3\n- 2 3\n3 3\nend\nbatch\n0 1")
        text = kcore.command("run", 1, input=data)
        run, given = Run(text), Input(data)
        self.assertEqual((given.asks, len(list(given.batches()))), ([(1, [0])], 4))
        run.with_edges(given)
        edges = [[sorted(set(phase.quiet + [edge for group in phase.groups for edge in group.edges])) for phase in batch.phases] for batch in run.batches]
        self.assertEqual(edges, [[[(0, 1), (1, 2), (2, 3)]], [], [[(0, 1), (1, 2), (2, 3)], [(1, 3)]], []])

    def test_points_that_explain(self):
        text = (b"kcore-run 1\nvertices 2\nbatch 1 loops 0 repeats 0 idle 0 removed 0 added 1\nphase 1 insert quiet 0\ngroup 1 0 0:1 1:1\n"
                b"batch 2 loops 0 repeats 0 idle 0 removed 1 added 0\nphase 2 delete quiet 0\ngroup 2 0 0:0 1:0\n"
                b"reader 0 0=0 1=1 0=1 0=0 1=0\nreader 1 0=1 1=0 1=1\nvertex 0 level 0 est 0 low 0 high 0 up 0 down 0\n"
                b"vertex 1 level 0 est 0 low 0 high 0 up 0 down 0\nend\n")
        run = Run(text)
        self.assertEqual([point for _, _, point in run.explained(0)], [0, 1, 1, 2, 2])
        with self.assertRaisesRegex(kcore.Mismatch, "doesn't explain reply 3 of reader 1"):
            run.explained(1)

    def test_many_replies_are_thinned(self):
        told = [(0, 0, 0)] * 5000 + [(0, 1, 1)] * 3
        kept = _view._thinned(told)
        self.assertLessEqual(len(kept), _view.MOST_REPLIES)
        self.assertEqual((kept[0], kept[-1]), ((0, 0, 0, 0), (5002, 0, 1, 1)))
        self.assertIn((4999, 0, 0, 0), kept)
