#!/usr/bin/env python3
"""Tries `to_kcore.py` and `with_names.py` on each format, good and bad. Run by `check.sh`, and by hand:

    python3 checks/programs/test_to_kcore.py
"""
import argparse
import bz2
import gzip
import lzma
import os
import subprocess
import sys
import tempfile
import unittest
import unittest.mock

EXAMPLES = os.path.normpath(os.path.join(os.path.dirname(os.path.abspath(__file__)), "../../examples"))
sys.path.append(EXAMPLES)
import to_kcore  # noqa: E402


def run(script, words, given=b""):
    """What a script wrote, what it said on standard error, and its exit number."""
    ran = subprocess.run([sys.executable, f"{EXAMPLES}/{script}", *words], input=given if isinstance(given, bytes) else given.encode(),
                         stdout=subprocess.PIPE, stderr=subprocess.PIPE)
    return ran.stdout.decode(), ran.stderr.decode(), ran.returncode


# Input, words, the text after `kcore 1`.
GOOD = {
    "SNAP, ids kept": ("# x\n1\t0\r\n\n %% y\n0 1\n2 2", "--batch 2",
                       "vertices 3\nbatch\n1 0\n0 1\nend\nbatch\n2 2\nend\n"),
    "twice the count is kept": ("0 1\n2 3\n4 10\n", "", "vertices 11\nbatch\n0 1\n2 3\n4 10\nend\n"),
    "one more than twice is renumbered": ("0 1\n2 3\n4 13\n", "", "vertices 6\nbatch\n0 1\n2 3\n4 5\nend\n"),
    "a single far id": ("1 16000000\n", "", "vertices 2\nbatch\n0 1\nend\n"),
    "kept by hand": ("1 9\n", "--keep", "vertices 10\nbatch\n1 9\nend\n"),
    "renumbered by hand": ("1 2\n", "--renumber", "vertices 2\nbatch\n0 1\nend\n"),
    "numbers beyond 64 bits": ("99999999999999999999999 1\n", "", "vertices 2\nbatch\n1 0\nend\n"),
    "leading zeros are one id": ("01 0\n1 0\n", "", "vertices 2\nbatch\n1 0\n1 0\nend\n"),
    "KONECT with weights": ("% sym positive\n% 2 3 3\n1 2 5\n2 3 -1\n", "--ignore-columns", "vertices 4\nbatch\n1 2\n2 3\nend\n"),
    "a mark ahead of UTF-8": (b"\xef\xbb\xbf0 1\n", "", "vertices 2\nbatch\n0 1\nend\n"),
    "csv with a header": ("source,target\n0,1\n1, 2\n", "", "vertices 3\nbatch\n0 1\n1 2\nend\n"),
    "csv without a header": ("0,1\n", "", "vertices 2\nbatch\n0 1\nend\n"),
    "csv with quotes and a weight": ('"0","1","x, y"\n', "--ignore-columns", "vertices 2\nbatch\n0 1\nend\n"),
    "csv with names and a header": ("from,to\nAda,Bob\nBob,\"Cy, Jr\"\n", "--names --header", "vertices 3\nbatch\n0 1\n1 2\nend\n"),
    "a heading with tabs": ("# c\nsource\ttarget\n1\t0\n", "--header", "vertices 2\nbatch\n1 0\nend\n"),
    "names with a heading and tabs": ("from\tto\nada\tbob\n", "--names --header", "vertices 2\nbatch\n0 1\nend\n"),
    "names like the first line of an input": ("kcore 1\n1 cy\n", "--names --format edges", "vertices 3\nbatch\n0 1\n1 2\nend\n"),
    "names with blanks between tabs": ("# a\tb\nAda L\tBob\t7\nBob\tAda L\t8\n", "--names --ignore-columns",
                                       "vertices 2\nbatch\n0 1\n1 0\nend\n"),
    "names": ("ada bob\nbob cy\n", "--names", "vertices 3\nbatch\n0 1\n1 2\nend\n"),
    "METIS": ("% c\n4 3\n2 3\n1\n1 4\n3\n", "--format metis", "vertices 4\nbatch\n0 1\n0 2\n2 3\nend\n"),
    "METIS with an isolated vertex": ("3 1\n2\n1\n\n", "--format metis", "vertices 3\nbatch\n0 1\nend\n"),
    "METIS with weights": ("2 1 11 2\n7 8 2 5\n7 8 1 5\n", "--format metis", "vertices 2\nbatch\n0 1\nend\n"),
    "Matrix Market": ("%%MatrixMarket matrix coordinate real symmetric\n% c\n4 4 2\n2 1 0.5\n3 3 1\n", "",
                      "vertices 4\nbatch\n1 0\n2 2\nend\n"),
    "Matrix Market, pattern": ("%%MatrixMarket matrix coordinate pattern general\n2 2 1\n1 2\n", "", "vertices 2\nbatch\n0 1\nend\n"),
    "window by count": ("0 1\n1 2\n2 3\n3 4\n", "--window 2 --batch 1",
                        "vertices 5\nbatch\n+ 0 1\nend\nbatch\n+ 1 2\nend\nbatch\n- 0 1\n+ 2 3\nend\nbatch\n- 1 2\n+ 3 4\nend\n"),
    "window with an edge that comes again": ("0 1\n1 0\n1 2\n", "--window 2 --batch 1",
                                             "vertices 3\nbatch\n+ 0 1\nend\nbatch\nend\nbatch\n+ 1 2\nend\n"),
    "window by time, sorted": ("2 3 30\n0 1 10\n1 2 15\n", "--window-time 10 --batch 1",
                               "vertices 4\n# up to 10\nbatch\n+ 0 1\nend\n# up to 15\nbatch\n+ 1 2\nend\n"
                               "# up to 30\nbatch\n- 0 1\n- 1 2\n+ 2 3\nend\n"),
    "window by time in a column of KONECT": ("% asym\n0 1 1 10\n1 2 1 19.5\n", "--window-time 9.5 --batch 1 --time-column 4",
                                             "vertices 3\n# up to 10\nbatch\n+ 0 1\nend\n# up to 19.5\nbatch\n- 0 1\n+ 1 2\nend\n"),
    "window shorter than a batch": ("0 1\n1 2\n2 3\n", "--window 1 --batch 3", "vertices 4\nbatch\n+ 2 3\nend\n"),
}

# Input, words, what standard error says.
BAD = {
    "empty": ("", "", "no edge in the input"),
    "comments alone": ("# x\n", "", "no edge in the input"),
    "a word for an id": ("0 1\n# x\n2 x\n", "", "line 3: 'x' isn't a decimal number .* --names"),
    "a sign": ("-1 2\n", "", "line 1: '-1' isn't"),
    "one id": ("0 1\n2\n", "", "line 2: one id"),
    "a third column": ("0 1 5\n", "", "line 1: 3 columns .* --ignore-columns"),
    "too large to keep": ("0 16777216\n", "--keep", "leave out --keep"),
    "UTF-16": (b"\xff\xfe0\0 \x001\0\n\0", "", "line 1: the text is UTF-16; use `iconv"),
    "an input": ("# c\nkcore 2\nvertices 3\n", "--names", "an input of kcore already"),
    "a text": ("kcore-run 1\nvertices 3\nend\n", "", "a text that kcore printed"),
    "a zip archive": (b"PK\x03\x04xx", "", "zip archive; use `unzip"),
    "no text": (b"0 1\n\0\1\2\n", "", "line 2: a zero byte"),
    "a cut gzip file": (gzip.compress(b"0 1\n" * 1000)[:-12], "", "standard input: the gzip file ends too early"),
    "a damaged gzip file": (gzip.compress(b"0 1\n" * 1000)[:-5] + b"xxxxx", "", "standard input: the gzip file is damaged .*CRC"),
    "a heading": ("source\ttarget\n0\t1\n", "", "line 1: 'source' isn't a decimal number .* --names .* --header"),
    "a heading of times": ("# c\nfrom to time\nada bob 5\n", "--names --window 1", "line 2: 'time' isn't a time.* --header"),
    "a heading alone": ("source,target\n", "", "no edge in the input"),
    "csv of another code": (b"a,b\n\xe9,1\n", "--names", "line 2: the text isn't UTF-8; use `iconv"),
    "bipartite": ("% bip unweighted\n1 1\n", "", "line 1: a bipartite graph"),
    "METIS without its first line": ("1\n", "--format metis", "line 1: the first line of a METIS file"),
    "METIS, a neighbour too many": ("2 1\n2\n1 3\n", "--format metis", "line 3: vertex 3"),
    "METIS, an edge at one end": ("2 1\n2\n\n", "--format metis", "1 neighbours, where 1 edges have 2"),
    "METIS, cut off": ("3 1\n2\n1\n", "--format metis", "the neighbours of 2 vertices"),
    "METIS, its own neighbour": ("2 1\n1\n2\n", "--format metis", "line 2: vertex 1 is a neighbour of its own"),
    "Matrix Market, an array": ("%%MatrixMarket matrix array real general\n2 2\n1\n", "", "line 1: an array"),
    "Matrix Market, not square": ("%%MatrixMarket matrix coordinate real general\n2 3 1\n1 2 1\n", "", "line 2: 2 rows and 3 columns"),
    "Matrix Market, cut off": ("%%MatrixMarket matrix coordinate pattern general\n2 2 2\n1 2\n", "", "1 entries where 2"),
    "Matrix Market, an index too many": ("%%MatrixMarket matrix coordinate pattern general\n2 2 1\n0 2\n", "", "line 3: entry 0 2"),
    "a window by time without times": ("0 1\n", "--window-time 5", "no times in the input; --window N"),
    "a time that is none": ("0 1 x\n", "--window-time 5", "line 1: 'x' isn't a time"),
    "a time that is missing": ("0 1 5\n1 2\n", "--window 5", "line 2: no time"),
    "a window over METIS": ("2 1\n2\n1\n", "--format metis --window 3", "a metis file lists edges in no order .* leave out --window"),
    "names in METIS": ("2 1\n2\n1\n", "--format metis --names", "a metis file has numbers alone; leave out --names"),
    "a heading of Matrix Market": ("%%MatrixMarket matrix coordinate pattern general\n2 2 1\n1 2\n", "--header", "numbers alone; .* --header"),
    "row numbers of pandas": (",source,target\n0,7,8\n", "--ignore-columns", "line 1: the first column has no name, .*`index=False`"),
    "an empty name": ("ada,bob\ncy,\n", "--names", "line 2: an id is empty"),
    "an empty name between tabs": ("ada\tbob\n\tcy\n", "--names", "line 2: an id is empty"),
    "semicolons": ("0;1\n", "", "line 1: one id where two are wanted; for semicolons"),
    "times that are left out": ("0 1 5\n", "--window-time 5 --ignore-columns", "--ignore-columns leaves out the times too"),
}

# Words that the command line can't have.
WORDS = ["--batch 0", "--batch 1048577", "--profile 3", "--window 0", "--window-time 0", "--window 1 --window-time 1", "--keep --renumber",
         "--keep --names", "--time-column 2", "--format xml", "--unknown"]


class Converter(unittest.TestCase):
    def test_good(self):
        for name, (given, words, wanted) in GOOD.items():
            with self.subTest(name):
                out, err, status = run("to_kcore.py", words.split(), given)
                self.assertEqual((out, status), ("kcore 1\n" + wanted, 0), err)
                self.assertEqual(err.count("\n"), 1)

    def test_bad(self):
        for name, (given, words, wanted) in BAD.items():
            with self.subTest(name):
                out, err, status = run("to_kcore.py", words.split(), given)
                self.assertEqual((out, status), ("", 1))
                self.assertRegex(err, wanted)
                self.assertEqual(err.count("\n"), 1)

    def test_words(self):
        for words in WORDS:
            with self.subTest(words):
                out, err, status = run("to_kcore.py", words.split(), "0 1\n")
                self.assertEqual((out, status), ("", 2), err)

    def test_profile(self):
        self.assertEqual(run("to_kcore.py", ["--profile", "2"], "0 1\n")[0], "kcore 2\nvertices 2\nbatch\n0 1\nend\n")

    def test_compressed_files_and_names_of_files(self):
        with tempfile.TemporaryDirectory() as room:
            for end, packed in (".gz", gzip.compress), (".bz2", bz2.compress), (".xz", lzma.compress), ("", bytes):
                for name, text in ("a.txt", b"0 1\n"), ("a.csv", b"0,1\n"), ("a.graph", b"2 1\n2\n1\n"):
                    with self.subTest(name + end):
                        path = f"{room}/{name}{end}"
                        with open(path, "wb") as file:
                            file.write(packed(text))
                        out, err, status = run("to_kcore.py", [path])
                        self.assertEqual((out, status), ("kcore 1\nvertices 2\nbatch\n0 1\nend\n", 0), err)
            with open(f"{room}/cut.gz", "wb") as file:
                file.write(gzip.compress(b"0 1\n" * 1000)[:-12])
            self.assertEqual(run("to_kcore.py", [f"{room}/cut.gz"]),
                             ("", f"to_kcore.py: {room}/cut.gz: the gzip file ends too early; copy or fetch it again\n", 1))
            self.assertRegex(run("to_kcore.py", [f"{room}/none"])[1], "No such file")

    def test_what_is_said(self):
        self.assertEqual(run("to_kcore.py", [], "5 9\n9 70\n")[1],
                         "to_kcore.py: edges: 2 edges between 3 vertices, 1 batch; ids 5 to 70 renumbered in ascending order;"
                         " --map FILE writes down which vertex is which\n")
        self.assertIn("ids kept, so there are 5 vertices", run("to_kcore.py", [], "1 2\n3 4\n")[1])
        self.assertIn("line 1 taken for the names of columns", run("to_kcore.py", [], "a,b\n1,2\n")[1])
        self.assertIn("line 2 taken for the names of columns", run("to_kcore.py", ["--header"], "# c\na b\n1 2\n")[1])

    def test_a_heading_that_was_taken_for_an_edge(self):
        note = "line 1 taken for an edge (use --header if it is a heading)"
        for text in "from,to\nada,bob\nbob,cy\n", "from,to\n7,8\n8,9\n":
            self.assertIn(note, run("to_kcore.py", ["--names"], text)[1])
        # A name that comes again, a number, a loop, one edge alone, and a heading that is none of the edges.
        for text in "ada,bob\nbob,cy\n", "ada,bob\ncy,ada\n", "1,ada\nbob,cy\n", "ada,ada\nbob,cy\n", "ada,bob\n":
            self.assertNotIn("heading", run("to_kcore.py", ["--names"], text)[1])
        self.assertNotIn("heading", run("to_kcore.py", ["--names", "--header"], "from,to\nada,bob\ncy,dee\n")[1])
        self.assertNotIn("heading", run("to_kcore.py", [], "0,1\n2,3\n")[1])

    def test_a_window_that_does_not_move(self):
        note = "the window doesn't move: one batch holds all edges"
        text = "0 1 10\n1 2 20\n2 3 30\n"
        for words in ["--window", "2"], ["--window-time", "20"]:
            self.assertIn(note, run("to_kcore.py", words, text)[1])
            self.assertNotIn("the window", run("to_kcore.py", words + ["--batch", "2"], text)[1])
        for words in ["--window", "3"], ["--window-time", "20.5"]:
            for batch in "2", "3":
                self.assertIn("the window doesn't move: it holds all edges", run("to_kcore.py", words + ["--batch", batch], text)[1])
        self.assertNotIn("the window", run("to_kcore.py", [], "0 1\n")[1])

    def test_a_reader_that_closes_its_end(self):
        for script, words, given in ("to_kcore.py", "", "0 1\n" * 200_000), ("with_names.py", os.devnull, "edge 0 1\n" * 200_000):
            shell = f"{sys.executable} {EXAMPLES}/{script} {words} | head -1 >/dev/null"
            ran = subprocess.run(["sh", "-c", shell], input=given.encode(), stderr=subprocess.PIPE)
            self.assertNotIn(b"pipe", ran.stderr.lower())

    def test_a_long_batch_of_a_window_is_cut(self):
        graph = to_kcore.Graph()
        for v in range(8):
            graph.add(v, v + 1, 0)
        graph.add(0, 1, 9)
        chosen = argparse.Namespace(batch=4, window=None, window_time=5)
        with unittest.mock.patch.object(to_kcore, "MAX_ITEMS", 5):
            made = list(to_kcore.window_batches(graph, range(9), chosen))
        self.assertEqual([it.count("\n- ") + it.count("\n+ ") for it in made], [4, 4, 5, 2])
        self.assertEqual([it.splitlines()[0] for it in made], ["# up to 0", "# up to 0", "# up to 9", "# up to 9"])

    def test_names_come_back(self):
        with tempfile.TemporaryDirectory() as room:
            ids = f"{room}/map"
            run("to_kcore.py", ["--names", "--map", ids, "--format", "csv"], 'ada,bob\nbob,"cy=x"\n"d e",ada\n')
            rows = [
                ("vertex 0 level 1 est 2 low 1 high 2 up 2 down 2", "vertex ada level 1 est 2 low 1 high 2 up 2 down 2"),
                ("vertex 1 coreness 3 low 1 est 2 high 4", "vertex bob coreness 3 low 1 est 2 high 4"),
                ("vertex 0 colour 2 out 1 2", r'vertex ada colour 2 out bob "cy\u003dx"'),
                ("vertex 3 colour 0 out", r'vertex "d\u0020e" colour 0 out'),
                ("group 1 0 0:1 1:2", "group 1 ada ada:1 bob:2"),
                ("reader 0 1=1 0=2", "reader 0 bob=1 ada=2"),
                ("member 1", "member bob"),
                ("edge 0 3", r'edge ada "d\u0020e"'),
                ("level 2 1", r'level "cy\u003dx" 1'),
                ("take 0 + 0 1", "take 0 + ada bob"),
                ("upper 1", "upper bob"),
                ("batch 1 loops 0 repeats 0 idle 0 removed 0 added 1", None),
                ("phase 1 insert quiet 0", None),
                ("# batch 1 refused line 2 bad-line", None),
                ("vertices 4", None),
                ("end", None),
            ]
            out, err, status = run("with_names.py", [ids], "".join(row + "\n" for row, _ in rows))
            self.assertEqual((out.splitlines(), err, status), ([wanted or row for row, wanted in rows], "", 0))

    def test_a_map_of_another_graph(self):
        with tempfile.TemporaryDirectory() as room:
            ids = f"{room}/map"
            # Ids that stay as they are, with gaps; that are renumbered; and of formats that number vertices from 1.
            for words, given, n in [["--keep"], "0 1\n1 4\n", 5], [["--renumber"], "7 5\n5 9\n", 3], [["--format", "metis"], "4 1\n2\n1\n\n\n", 4]:
                run("to_kcore.py", [*words, "--map", ids], given)
                for count in n - 1, n, n + 1:
                    out, err, status = run("with_names.py", [ids], f"vertices {count}\n")
                    self.assertEqual((out, status), (f"vertices {count}\n", 0))
                    self.assertEqual(err, "" if count == n else f"with_names.py: {ids} is the map of a graph with {n} vertices, and the text has {count}:"
                                     " is it of another graph?\n")
            # Lines that were taken out of a text.
            self.assertEqual(run("with_names.py", [ids], "edge 0 3\n"), ("edge 1 4\n", "", 0))
            self.assertEqual(run("with_names.py", [ids], "edge 0 17\nedge 8 1\n")[:2],
                             ("edge 1 17\nedge 8 2\n", f"with_names.py: {ids} is the map of a graph with 4 vertices, and the text names vertex 17:"
                              " is it of another graph?\n"))

    def test_map_of_numbers(self):
        with tempfile.TemporaryDirectory() as room:
            run("to_kcore.py", ["--map", f"{room}/map"], "70 5\n5 9\n")
            with open(f"{room}/map", encoding="utf-8") as file:
                self.assertEqual(file.read(), "0\t5\n1\t9\n2\t70\n")
            run("to_kcore.py", ["--map", f"{room}/map", "--format", "metis"], "4 1\n2\n1\n\n\n")
            with open(f"{room}/map", encoding="utf-8") as file:
                self.assertEqual(file.read(), "0\t1\n1\t2\n2\t3\n3\t4\n")
            with open(f"{room}/map", "w", encoding="utf-8") as file:
                file.write("0 5\n")
            self.assertRegex(run("with_names.py", [f"{room}/map"])[1], "line 1 isn't")
        self.assertEqual(run("with_names.py", [])[2], 2)


if __name__ == "__main__":
    unittest.main()
