"""Each function over a graph that stands still, beside plain answers and beside networkx."""
import contextlib
import gzip
import io
import os
import tempfile
import unittest
from fractions import Fraction
from itertools import combinations
from unittest import mock

import kcore

from .plain import corenesses, neighbours_of, networkx, numpy, pandas, random_edges

needs_networkx = unittest.skipUnless(networkx, "networkx isn't there")

#: Nodes and edges of random graphs, from a few edges to nearly all pairs.
SIZES = [(2, 1), (12, 30), (12, 200), (60, 150), (200, 900)]


def random_graphs():
    return [random_edges(nodes, count, seed) for seed, (nodes, count) in enumerate(SIZES)]


class BesidePlain(unittest.TestCase):
    def test_core_number(self):
        for edges in random_graphs():
            expected = corenesses(edges)
            expected.update({a: 0 for a, b in edges if a not in expected})
            self.assertEqual(kcore.core_number(edges), expected)

    def test_degeneracy_and_k_core(self):
        for edges in random_graphs():
            cores = corenesses(edges)
            most = max(cores.values(), default=0)
            self.assertEqual(kcore.degeneracy(edges), most)
            for k in 1, most:
                part = kcore.k_core(edges, k)
                self.assertEqual({node for node in part.nodes if node in cores}, {node for node in cores if cores[node] >= k})
                self.assertEqual(part.edges, [(a, b) for a, b in edges if a != b and {a, b} <= part.nodes])
            self.assertEqual(kcore.k_core(edges).nodes, {node for node in cores if cores[node] == most} or {1})

    def test_bounds(self):
        for edges in random_graphs():
            cores = corenesses(edges)
            for profile, times in (1, 3), (2, 2):
                bounds = kcore.core_bounds(edges, profile=profile, workers=2)
                thresholds = kcore.Thresholds(len(bounds), profile)
                for node, (low, est, high, level) in bounds.items():
                    core = cores.get(node, 0)
                    self.assertTrue(low <= core <= high and est <= 2 * core and core <= times * est)
                    self.assertEqual(thresholds.bounds(level), (low, est, high, level))

    def test_orientation_and_coloring(self):
        for edges in random_graphs()[1:4]:
            neighbours, cores = neighbours_of(edges), corenesses(edges)
            for profile, times in (1, 6), (2, 4):
                out = kcore.orientation(edges, profile=profile)
                directed = [(a, b) for a, others in out.items() for b in others]
                self.assertEqual(len(directed), sum(map(len, neighbours.values())) // 2)
                self.assertEqual(neighbours_of(directed), neighbours)
                for node, others in out.items():
                    self.assertLessEqual(len(others), times * cores.get(node, 0))
                colours = kcore.coloring(edges, profile=profile)
                self.assertTrue(all(colours[a] != colours[b] for a, b in directed))
                self.assertLessEqual(max(colours.values()), times * max(cores.values()))

    def test_densest(self):
        for edges in random_edges(8, 14, 5), random_edges(8, 25, 6), [(0, 1)], [(0, 0)]:
            neighbours = neighbours_of(edges)
            pairs = {frozenset((a, b)) for a, others in neighbours.items() for b in others}

            def between(nodes):
                return sum(pair <= set(nodes) for pair in pairs)

            part = kcore.densest(edges)
            self.assertEqual(part.edges, between(part.nodes))
            parts = (some for size in range(1, len(neighbours) + 1) for some in combinations(neighbours, size))
            best = max((Fraction(between(some), len(some)) for some in parts), default=0)
            self.assertGreaterEqual(2 * Fraction(part.edges, len(part.nodes)), best)
            self.assertEqual(part.density, part.edges / len(part.nodes))

    def test_certificate(self):
        edges = random_edges(40, 100, 3)
        for profile in 1, 2:
            c = kcore.certificate(edges, profile=profile, workers=3)
            verdict = kcore.check(c)
            self.assertTrue(verdict)
            pairs = {frozenset(edge) for edge in edges if edge[0] != edge[1]}
            self.assertEqual({frozenset(edge) for edge in c.edges()}, pairs)
            self.assertEqual(verdict.line, f"certified vertices {len(c.names)} edges {len(pairs)}")
            bounds = kcore.core_bounds(edges, profile=profile)
            self.assertEqual(c.levels(), {node: bounds[node].level for node in bounds})
            with tempfile.TemporaryDirectory() as folder:
                path = os.path.join(folder, "graph.cert")
                c.save(path)
                self.assertEqual(kcore.check(path), verdict)

    def test_bad_certificates(self):
        c = kcore.certificate([("a", "b"), ("b", "c")])
        self.assertEqual(c.levels(), {"a": 1, "b": 2, "c": 1})
        low = c._replace(text=c.text.replace(b"level 1 2", b"level 1 0"))
        self.assertEqual(kcore.check(low), (False, "upper 1", "b"))
        high = c._replace(text=c.text.replace(b"level 2 1", b"level 2 4"))
        self.assertEqual(kcore.check(high), (False, "lower 2", "c"))
        self.assertEqual(kcore.check(b"kcore-cert 2\n"), (False, "refused line 1 bad-line", None))
        self.assertFalse(kcore.check(b""))

    def test_graphs_without_nodes_or_edges(self):
        self.assertEqual(kcore.core_number([]), {})
        self.assertEqual(kcore.core_bounds([]), {})
        self.assertEqual(kcore.orientation([]), {})
        self.assertEqual(kcore.coloring([]), {})
        self.assertEqual(kcore.degeneracy([]), 0)
        self.assertEqual(kcore.densest([]), (set(), 0))
        self.assertEqual(kcore.densest([]).density, 0)
        self.assertEqual(kcore.k_core([]), (set(), []))
        with self.assertRaises(ValueError):
            kcore.certificate([])
        self.assertEqual(kcore.core_number({"a": [], "b": []}), {"a": 0, "b": 0})
        self.assertEqual(kcore.core_number([(7, 7)]), {7: 0})

    def test_thresholds(self):
        # From the tables of docs/DEFINITIONS.md: height, last group and top level.
        sizes = 1, 2, 3, 4, 5, 6, 8, 1_048_576, 16_777_216
        tables = {1: [(1, 1), (2, 1), (3, 1), (4, 5), (5, 6), (5, 11), (6, 19), (58, 3365), (71, 5042)],
                  2: [(1, 1), (2, 1), (3, 4), (4, 5), (5, 11), (6, 19), (8, 33), (104, 11233), (128, 16769)]}
        for profile, table in tables.items():
            for nodes, expected in zip(sizes, table):
                thresholds = kcore.Thresholds(nodes, profile)
                self.assertEqual((thresholds.height, thresholds.top), expected)
                with self.assertRaises(ValueError):
                    thresholds.bounds(thresholds.top + 1)
                with self.assertRaises(ValueError):
                    thresholds.bounds(-1)


class Forms(unittest.TestCase):
    """Edges in any form, and nodes of any kind."""

    EDGES = [(0, 1), (1, 2), (2, 0), (2, 3)]
    CORES = {0: 2, 1: 2, 2: 2, 3: 1}

    def test_pairs(self):
        for form in self.EDGES, tuple(self.EDGES), iter(self.EDGES), set(self.EDGES), [list(edge) for edge in self.EDGES]:
            self.assertEqual(kcore.core_number(form), self.CORES)

    def test_numbers_with_gaps(self):
        for edges in [(0, 3), (3, 3), (5, 5), (0, 1), (1, 3)], [(0, 90), (90, 1), (1, 0)], [(-1, 1)], [(True, 2), (2, 3)]:
            expected = {**{a: 0 for a, b in edges}, **corenesses(edges)}
            self.assertEqual(kcore.core_number(edges), expected)
            self.assertEqual(kcore.k_core(edges, 1).nodes, {node for node, core in expected.items() if core})
            self.assertEqual(set(kcore.core_bounds(edges)), set(expected))

    def test_mapping(self):
        self.assertEqual(kcore.core_number({0: [1, 2], 1: [0, 2], 2: [0, 1, 3], 3: [2], 4: ()}), {**self.CORES, 4: 0})

    def test_names(self):
        names = ["a", b"a", ("a",), frozenset("a"), None, 1.5, 2, Ellipsis, int, "é\n 7"]
        edges = list(combinations(names[:5], 2)) + [(names[0], name) for name in names[5:]]
        cores = kcore.core_number(edges)
        self.assertEqual(cores, {name: 4 if name in names[:5] else 1 for name in names})
        self.assertEqual(kcore.core_number([(1, 2), (1.0, 3), (True, 2)]), {1: 1, 2: 1, 3: 1})

    def test_wrong_forms(self):
        nan = float("nan")
        for wrong in [(1, 2, 3)], [1], [(1,)], ["ab"], ["a", "b"], [(1, 2), b"ab"], [(nan, 1)], 5:
            with self.assertRaises((ValueError, TypeError)):
                kcore.core_number(wrong)
        for wrong in [([], 1)], None:
            with self.assertRaises(TypeError):
                kcore.core_number(wrong)

    def test_files(self):
        text = b"# a comment\n% another\n\n0\t1\r\n1 2 0.5\n2 0\n2 3\nx 3\n"
        cores = {0: 2, 1: 2, 2: 2, 3: 1, "x": 1}
        with tempfile.TemporaryDirectory() as folder:
            path = os.path.join(folder, "graph.txt")
            with open(path, "wb") as file:
                file.write(text)
            with gzip.open(path + ".gz", "wb") as file:
                file.write(text)
            self.assertEqual(kcore.core_number(path), cores)
            self.assertEqual(kcore.core_number(path + ".gz"), cores)
            # Whatever its name is; and with the mark that some editors put ahead.
            with open(path, "wb") as file:
                file.write(gzip.compress(b"\xef\xbb\xbf" + text[12:]))
            self.assertEqual(kcore.core_number(path), cores)
            packed = gzip.compress(text * 100)
            for wrong, said in (packed[:-12], "ends too early"), (packed[:-5] + b"xxxxx", "is damaged"), (b"0 1\n\0\1\n", "another format"):
                with open(path, "wb") as file:
                    file.write(wrong)
                with self.assertRaisesRegex(ValueError, f"{path}.* {said}"):
                    kcore.core_number(path)
            with open(path, "wb") as file:
                file.write(text)
            with open(path, "ab") as file:
                file.write(b"alone\n")
            with self.assertRaisesRegex(ValueError, "line 9"):
                kcore.core_number(path)
            with open(path, "wb") as file:
                file.write(b"kcore 1\nvertices 3\n")
            with self.assertRaisesRegex(ValueError, "an input of the program"):
                kcore.core_number(path)
            with open(path, "wb") as file:
                file.write(b"kcore-run 1\nvertices 3\n")
            with self.assertRaisesRegex(ValueError, "a text that the program printed"):
                kcore.core_number(path)
            with self.assertRaises(FileNotFoundError):
                kcore.core_number(path + ".none")

    @unittest.skipUnless(numpy, "numpy isn't there")
    def test_numpy(self):
        self.assertEqual(kcore.core_number(numpy.array(self.EDGES)), self.CORES)
        self.assertEqual(kcore.core_number(numpy.array(self.EDGES, dtype="uint8")), self.CORES)
        self.assertEqual(kcore.core_number(numpy.empty((0, 2), int)), {})
        for wrong in numpy.zeros((2, 3)), numpy.arange(4), numpy.array([[numpy.nan, 1.0]]):
            with self.assertRaises(ValueError):
                kcore.core_number(wrong)
        matrix = numpy.zeros((4, 4))
        matrix[tuple(zip(*self.EDGES))] = 1
        with self.assertRaisesRegex(ValueError, r"numpy\.argwhere\(array\)"):
            kcore.core_number(matrix)
        self.assertEqual(kcore.core_number(numpy.argwhere(matrix)), self.CORES)

    @unittest.skipUnless(pandas, "pandas isn't there")
    def test_pandas(self):
        plain = pandas.DataFrame(self.EDGES)
        named = pandas.DataFrame([(1.5, b, a) for a, b in self.EDGES], columns=["weight", "target", "source"])
        self.assertEqual(kcore.core_number(plain), self.CORES)
        self.assertEqual(kcore.core_number(named), self.CORES)
        numbered = pandas.read_csv(io.StringIO(pandas.DataFrame(self.EDGES, columns=["from", "to"]).to_csv()))
        with self.assertRaisesRegex(ValueError, r"row numbers are: pass .* frame\[\['from', 'to'\]\]"):
            kcore.core_number(numbered)
        for wrong in plain[[0]], pandas.DataFrame([(1, None), (1, 2)]):
            with self.assertRaises(ValueError):
                kcore.core_number(wrong)


@needs_networkx
class BesideNetworkx(unittest.TestCase):
    def graphs(self):
        yield networkx.karate_club_graph()
        yield networkx.les_miserables_graph()
        yield networkx.complete_graph(7)
        yield networkx.empty_graph(3)
        for seed, (nodes, edges) in enumerate(SIZES):
            yield networkx.gnm_random_graph(nodes, edges, seed=seed)

    def test_core_number_and_k_core(self):
        for graph in self.graphs():
            cores = kcore.core_number(graph)
            self.assertEqual(list(cores.items()), list(networkx.core_number(graph).items()))
            self.assertEqual(kcore.degeneracy(graph), max(cores.values()))
            for k in None, 2:
                mine, theirs = kcore.k_core(graph, k), networkx.k_core(graph, k)
                self.assertEqual(dict(mine.nodes(data=True)), dict(theirs.nodes(data=True)))
                self.assertTrue(networkx.utils.graphs_equal(mine, theirs))

    def test_orientation_is_acyclic(self):
        for graph in self.graphs():
            out = kcore.orientation(graph)
            directed = networkx.DiGraph((a, b) for a in out for b in out[a])
            self.assertTrue(networkx.is_directed_acyclic_graph(directed))
            self.assertEqual(directed.number_of_edges(), graph.number_of_edges())

    def test_loops_are_passed_over(self):
        graph = networkx.karate_club_graph()
        expected = networkx.core_number(graph)
        graph.add_edge(3, 3)
        with self.assertRaises(networkx.NetworkXException):
            networkx.core_number(graph)
        self.assertEqual(kcore.core_number(graph), expected)

    def test_parallel_edges_count_once(self):
        graph = networkx.karate_club_graph()
        many = networkx.MultiGraph(list(graph.edges) * 2)
        with self.assertRaises(networkx.NetworkXNotImplemented):
            networkx.core_number(many)
        self.assertEqual(kcore.core_number(many), networkx.core_number(graph))
        with kcore.Stream(nodes=many) as stream:
            self.assertEqual(stream.apply(add=many).added, graph.number_of_edges())

    def test_directed_graphs_are_refused(self):
        graph = networkx.DiGraph([(0, 1), (1, 0)])
        self.assertEqual(networkx.core_number(graph), {0: 2, 1: 2})
        for call in kcore.core_number, kcore.core_bounds, kcore.densest, kcore.k_core, kcore.Stream(nodes=2).apply:
            with self.assertRaisesRegex(ValueError, "directed"):
                call(graph)
        self.assertEqual(kcore.core_number(graph.to_undirected()), {0: 1, 1: 1})

    def test_views(self):
        graph = networkx.karate_club_graph()
        view = graph.subgraph(range(20))
        self.assertEqual(kcore.core_number(view), networkx.core_number(view))


class Pieces(unittest.TestCase):
    def test_more_items_than_a_batch_holds(self):
        edges = [(0, node) for node in range(1, 500)] + random_edges(100, 700, 8)
        expected = corenesses(edges)
        with mock.patch("kcore._edges.MOST_ITEMS", 100), mock.patch("kcore._edges.ROWS", 30):
            self.assertEqual(kcore.core_number(edges), expected)
            # As a graph the first node comes last, so that all its edges are lines of its own.
            sizes = self.sizes(kcore._edges.Numbered(edges))
            self.assertEqual((sizes[0], sum(sizes)), (90, len(edges)))
            if networkx:
                graph = networkx.Graph(edge for edge in reversed(edges) if edge[0] != edge[1])
                graph.add_nodes_from(list(graph.nodes))
                self.assertEqual(kcore.core_number(graph), networkx.core_number(graph))
                star = networkx.Graph()
                star.add_nodes_from(range(1, 500))
                star.add_edges_from((0, node) for node in range(1, 500))
                sizes = self.sizes(kcore._edges.Numbered(star))
                self.assertEqual(sum(sizes), 499)
                self.assertEqual(set(kcore.core_number(star).values()), {1})

    def sizes(self, graph):
        """The numbers of items of the batches of an input, each of which is at most 100."""
        batches = b"".join(graph.input(2)).split(b"batch\n")[1:]
        self.assertTrue(all(batch.endswith(b"end\n") for batch in batches))
        sizes = [batch.count(b"\n") - 1 for batch in batches]
        self.assertLessEqual(max(sizes), 100)
        return sizes

    def test_progress(self):
        shown = io.StringIO()
        with contextlib.redirect_stderr(shown):
            kcore.core_number(random_edges(100, 2000, 1), progress=True)
            kcore.core_number([(0, 1)], progress=False)
            kcore.core_number([(0, 1)])
        self.assertRegex(shown.getvalue(), r"^\rkcore exact .* s *\n$")
