"""A running program: batches, levels, bounds, and the lines at its end."""
import os
import random
import tempfile
import threading
import unittest
from itertools import combinations
from unittest import mock

import kcore

from .plain import corenesses, networkx, numpy, pandas, random_edges


class RandomGraphs(unittest.TestCase):
    def follow(self, profile, workers, nodes, batches, size, seed):
        """Applies random batches, and compares with a plain set of edges after each."""
        draw, edges, levels, groups, phases = random.Random(seed), set(), {}, 0, 0
        times = 2 if profile == 2 else 3
        with kcore.Stream(nodes=nodes, workers=workers, profile=profile) as stream:
            for number in range(1, batches + 1):
                add = [(draw.randrange(nodes), draw.randrange(nodes)) for _ in range(draw.randrange(size))]
                some = draw.sample(sorted(edges), min(len(edges), draw.randrange(size)))
                remove = [edge[::draw.choice((1, -1))] for edge in some] + add[:draw.randrange(3)]
                alone = [draw.randrange(nodes)] if profile == 2 and draw.random() < 0.3 else []
                before = set(edges)
                edges = {edge for edge in edges if not set(edge) & set(alone)}
                edges -= {tuple(sorted(edge)) for edge in remove}
                edges |= {tuple(sorted(edge)) for edge in add if edge[0] != edge[1]}

                batch = stream.apply(add=add, remove=remove, isolate=alone)
                self.assertEqual(batch.number, number)
                self.assertEqual((batch.removed, batch.added), (len(before - edges), len(edges - before)))
                self.assertEqual(stream.edge_count, len(edges))
                for group in batch.groups:
                    groups += 1
                    self.assertEqual((group.number, group.label), (groups, next(iter(group.moves))))
                    self.assertEqual({node: levels.get(node, 0) for node in group.moves}, group.before)
                    levels.update(group.moves)
                for phase in batch.phases:
                    phases += 1
                    self.assertEqual(phase.number, phases)
                    self.assertEqual({group.phase for group in phase.groups} - {phases}, set())
                self.assertEqual([phase.kind for phase in batch.phases],
                                 ["delete"] * (batch.removed > 0) + ["insert"] * (batch.added > 0))
                self.assertEqual(batch.moved, sum(len(group.moves) for group in batch.groups))
                kept, cores = stream.levels(), corenesses(edges)
                self.assertEqual(kept, {node: levels.get(node, 0) for node in kept})
                for node, (low, est, high, level) in stream.bounds().items():
                    core = cores.get(node, 0)
                    self.assertEqual((low, est, high, level), stream.bounds(node))
                    self.assertEqual(level, stream.level(node))
                    self.assertTrue(low <= core <= high and est <= 2 * core and core <= times * est, (low, core, high))
            bounds = stream.bounds()
        self.assertEqual({node: vertex.bounds for node, vertex in stream.result.items()}, bounds)
        cores = kcore.core_number(edges)
        self.assertEqual(cores, {node: corenesses(edges)[node] for node in cores})

    def test_sparse(self):
        self.follow(profile=2, workers=1, nodes=40, batches=60, size=12, seed=1)

    def test_dense(self):
        self.follow(profile=2, workers=3, nodes=12, batches=60, size=40, seed=2)

    def test_first_profile(self):
        self.follow(profile=1, workers=2, nodes=30, batches=60, size=30, seed=3)

    def test_larger(self):
        self.follow(profile=2, workers=4, nodes=80, batches=6, size=250, seed=4)


class Batches(unittest.TestCase):
    def test_order_of_items(self):
        with kcore.Stream(nodes=4) as stream:
            stream.apply(add=[(0, 1), (1, 2)])
            batch = stream.apply(add=[(1, 0), (1, 3)], remove=[(0, 1), (1, 2)], isolate=[1])
            # The last item decides on a pair: 0-1 is there already, so only 1-2 leaves.
            self.assertEqual((batch.removed, batch.added), (1, 1))
            self.assertEqual(stream.edge_count, 2)

    def test_nothing_to_do(self):
        with kcore.Stream(nodes=2) as stream:
            batch = stream.apply()
            self.assertEqual(batch, (1, 0, 0, 0, 0, 0, (), ()))
            self.assertEqual((batch.groups, batch.moved), ((), 0))
            self.assertEqual(stream.apply(remove=[("a", "b")]).idle, 1)
            self.assertEqual(stream.levels(), {"a": 0, "b": 0})

    def test_forms_of_edges(self):
        with kcore.Stream(nodes=20) as stream:
            stream.apply(add={0: [1, 2], 1: [2], 9: []})
            stream.apply(add=iter([(2, 3)]))
            if numpy:
                stream.apply(add=numpy.array([[3, 4], [4, 5]]), remove=numpy.empty((0, 2)))
            if networkx:
                stream.apply(add=networkx.path_graph(range(10, 15)))
                self.assertIn(14, stream.nodes)
            self.assertEqual(stream.level(9), 0)

    def test_names_of_any_kind(self):
        names = ["a", b"a", ("a", 1), frozenset("a"), None, 1.5, 2, Ellipsis, "é\n 7"]
        with kcore.Stream(nodes=names) as stream:
            stream.apply(add=combinations(names[:5], 2))
            self.assertEqual(stream.nodes, names)
            self.assertTrue(all(stream.bounds(name).low >= 1 for name in names[:5]))
            stream.isolate(None)
            self.assertEqual(stream.level(None), 0)
        self.assertEqual(set(stream.result), set(names))
        self.assertEqual(stream.result[b"a"].down, 3)

    def test_nodes_that_no_batch_named(self):
        with kcore.Stream(nodes=5) as stream:
            with self.assertRaises(KeyError):
                stream.level("a")
            with self.assertRaises(KeyError):
                stream.bounds("a")
            self.assertEqual(stream.bounds(), {})
        self.assertEqual(stream.result, {})

    def test_more_nodes_than_there_may_be(self):
        with kcore.Stream(nodes=3) as stream:
            stream.apply(add=[("a", "b")])
            with self.assertRaisesRegex(kcore.TooManyNodes, "4 nodes in a stream that was opened for 3: .* open one with more"):
                stream.apply(add=[("b", "c"), ("c", "d")])
            with self.assertRaises(TypeError):
                stream.apply(add=[("b", "c"), ("c", [])])
            with self.assertRaises(ValueError):
                stream.apply(add=[("b", float("nan"))])
            # Nothing of it was kept.
            self.assertEqual(stream.nodes, ["a", "b"])
            self.assertEqual(stream.apply(add=[("b", "c")]).number, 2)
        self.assertEqual(len(stream.result), 3)

    def test_arguments(self):
        for words in dict(nodes=0), dict(nodes=16_777_217), dict(nodes=5, workers=0), dict(nodes=5, workers=65), \
                dict(nodes=5, profile=3), dict(nodes=[]), dict(nodes=[float("nan")]), dict(nodes="abc"):
            with self.assertRaises(ValueError):
                kcore.Stream(**words)
        with kcore.Stream(nodes=2, profile=1) as stream:
            with self.assertRaisesRegex(ValueError, "profile 2"):
                stream.isolate(0)
            with self.assertRaisesRegex(ValueError, "list of nodes"):
                stream.apply(isolate="ann")

    @unittest.skipUnless(pandas and numpy, "pandas or numpy isn't there")
    def test_nodes_in_columns(self):
        frame = pandas.DataFrame([(1, 2), (2, 3)], columns=["u", "v"])
        for wrong in frame, frame.to_numpy():
            with self.assertRaisesRegex(ValueError, "not a text, a table or a matrix"):
                kcore.Stream(nodes=wrong)
        with kcore.Stream(nodes=numpy.unique(frame)) as stream:
            self.assertEqual((stream.nodes, stream.apply(add=frame).added), ([1, 2, 3], 2))

    def test_large_batch(self):
        # More is printed than a pipe holds, and the items of the batch are more than that too.
        nodes = 3000
        edges = [(a, a + 1) for a in range(nodes - 1)]
        with mock.patch("kcore._program.BLOCK", 4096), kcore.Stream(nodes=nodes) as stream:
            self.assertEqual(stream.apply(add=edges).moved, nodes)
            self.assertEqual(stream.apply(remove=edges[::2]).removed, nodes // 2)
            self.assertEqual(stream.apply(remove=edges[1::2]).moved, nodes - 2)
        self.assertEqual({vertex.level for vertex in stream.result.values()}, {0})

    def test_result_comes_when_closed(self):
        stream = kcore.Stream(nodes=2)
        with self.assertRaisesRegex(kcore.StreamClosed, "is open.* call `close`"):
            stream.result
        self.assertEqual(stream.close(), stream.close())
        self.assertEqual(stream.result, {})
        with self.assertRaisesRegex(kcore.StreamClosed, "no more batches, since `close` was called, .* open another one"):
            stream.apply(add=[(0, 1)])
        self.assertIn("closed", repr(stream))

    def test_progress(self):
        import contextlib
        import io
        shown = io.StringIO()
        with contextlib.redirect_stderr(shown):
            with kcore.Stream(nodes=9, progress=True) as stream:
                stream.apply(add=[(0, 1), (1, 2)])
            with kcore.Stream(nodes=9) as stream:
                stream.apply(add=[(0, 1), (1, 2)])
        self.assertRegex(shown.getvalue(), r"\rbatches 1  edges 2  moved 3  \d+\.\d s\n$")


class RefusedBatches(unittest.TestCase):
    def test_by_the_program(self):
        with kcore.Stream(nodes=range(4)) as stream:
            stream.apply_lines(b"0 1\n")
            before = stream.levels()
            # Lines are those of the batch that was given, whatever the stream has sent before it; comments and empty ones are no items.
            for data, line, reason, item in [(b"1 2\n2 4\n", 2, "bad-vertex", 1), (b"1 2 3\n", 1, "bad-line", 0),
                                             (b"# c\n \t\r\n1 2\nbatch\n1 2", 4, "bad-line", 1), (b"x" * 70_000, 1, "line-long", 0)]:
                with self.assertRaises(kcore.BatchRefused) as caught:
                    stream.apply_lines(data)
                self.assertEqual((caught.exception.line, caught.exception.reason, caught.exception.item), (line, reason, item))
                self.assertTrue(caught.exception.sent)
                self.assertIn(f"is refused at line {line} of its items: {reason}, ", str(caught.exception))
                self.assertEqual(stream.levels(), before)
            self.assertEqual(stream.apply_lines(b"x 0\n1 2").number, 6)
            self.assertEqual(stream.edge_count, 1)
        self.assertEqual(stream.result[2].down, 1)

    def test_lines_that_would_end_a_batch(self):
        with kcore.Stream(nodes=range(4)) as stream:
            for data in b"end", b"0 1\n \tend \r\n0 2\n":
                with self.assertRaises(ValueError):
                    stream.apply_lines(data)
            stream.apply_lines(b"# end\n0 1\n")
            self.assertEqual(stream.edge_count, 1)
        with kcore.Stream(nodes=4) as stream:
            with self.assertRaisesRegex(ValueError, "range"):
                stream.apply_lines(b"0 1\n")

    def test_limit_of_the_input(self):
        with kcore.Stream(nodes=20) as stream, mock.patch("kcore._stream.MOST_BYTES", 150):
            stream.apply(add=[(0, 1)])
            with self.assertRaises(kcore.BatchRefused) as caught:
                stream.apply(add=[(1, v) for v in range(2, 20)])
            refusal = caught.exception
            self.assertEqual((refusal.reason, refusal.sent, refusal.line, refusal.item), ("input-limit", False, None, None))
            self.assertRegex(str(refusal), "^batch 2 is refused as a whole: input-limit, .*; close the stream, and put its edges into a new one$")
            self.assertEqual((stream.nodes, stream.batches), ([0, 1], 1))
        self.assertEqual(set(stream.result), {0, 1})

    def test_too_many_items(self):
        most = 1000
        edges = [(0, 1)] * most + [(1, 2), (2, 3)]
        with kcore.Stream(nodes=5) as stream, mock.patch("kcore._stream.MOST_ITEMS", most):
            with self.assertRaises(kcore.BatchRefused) as caught:
                stream.apply(add=edges)
            refusal = caught.exception
            self.assertEqual((refusal.reason, refusal.item, refusal.sent, refusal.number), ("too-many", most, False, 1))
            self.assertEqual(refusal.line, most + 1)
            self.assertRegex(str(refusal), "too-many, .*; `cut=True` cuts it into several$")
            self.assertEqual(stream.nodes, [])
            batch = stream.apply(add=edges, cut=True)
            self.assertEqual([piece.added for piece in batch.pieces], [1, 2])
            self.assertEqual((batch.added, batch.repeats, batch.number, stream.batches), (3, most - 1, 1, 2))
            self.assertEqual(stream.apply(add=[(3, 4)]).number, 3)
            self.assertEqual(stream.nodes, [0, 1, 2, 3, 4])


class Threads(unittest.TestCase):
    def test_threads_share_a_stream(self):
        threads, rounds = 4, 25
        stream = kcore.Stream(nodes=threads * 10, workers=2)
        done, faults = threading.Event(), []

        def write(which):
            try:
                nodes = range(10 * which, 10 * which + 10)
                for _ in range(rounds):
                    stream.apply(add=combinations(nodes, 2))
                    stream.apply(remove=combinations(nodes, 2))
                stream.apply(add=combinations(nodes, 2))
            except Exception as fault:
                faults.append(fault)

        def read():
            try:
                while not done.is_set():
                    levels = stream.levels()
                    # Each clique comes and goes as a whole.
                    for which in range(threads):
                        self.assertLessEqual(len({levels[node] for node in range(10 * which, 10 * which + 10) if node in levels}), 1)
                    for node in stream.nodes:
                        stream.bounds(node)
            except Exception as fault:
                faults.append(fault)

        writers = [threading.Thread(target=write, args=(which,)) for which in range(threads)]
        readers = [threading.Thread(target=read) for _ in range(2)]
        for thread in writers + readers:
            thread.start()
        for thread in writers:
            thread.join()
        done.set()
        for thread in readers:
            thread.join()
        self.assertEqual(faults, [])
        self.assertEqual(stream.batches, threads * (2 * rounds + 1))
        self.assertEqual({vertex.down for vertex in stream.close().values()}, {9})

    def test_two_streams(self):
        with kcore.Stream(nodes=10) as one, kcore.Stream(nodes=20, profile=1, workers=2) as other:
            for node in range(8):
                one.apply(add=[(node, node + 1)])
                other.apply(add=combinations(range(2 * node), 2))
            self.assertEqual((one.edge_count, other.edge_count), (8, 91))
        self.assertEqual(max(vertex.down for vertex in one.result.values()), 2)
        self.assertEqual({vertex.down for vertex in other.result.values()}, {13})


class Records(unittest.TestCase):
    def test_record_is_an_input(self):
        edges = random_edges(30, 200, 7)
        with tempfile.TemporaryDirectory() as folder:
            path = os.path.join(folder, "run.kc")
            with kcore.Stream(nodes=30, record=path) as stream:
                stream.apply(add=[(f"node {a}", f"node {b}") for a, b in edges[:150]])
                stream.apply(add=[(f"node {a}", f"node {b}") for a, b in edges[150:]])
                stream.isolate("node 1")
            lines = kcore.command("run", 2, input=path).decode().splitlines()
            with open(path) as file:
                names = dict(line.rstrip("\n").split(" ", 3)[2:] for line in file if line.startswith("# node "))
        rows = [line.split() for line in lines if line.startswith("vertex ")]
        printed = {names[row[1]].strip('"'): tuple(map(int, row[3::2])) for row in rows if row[1] in names}
        self.assertEqual(printed, {node: tuple(vertex) for node, vertex in stream.result.items()})
