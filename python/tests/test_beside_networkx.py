"""What `beside_networkx.py` compares by hand on a large graph, on small ones; and wrong answers, which it has to see."""
import unittest
from unittest import mock

import kcore

from .plain import networkx

if networkx:
    from . import beside_networkx


@unittest.skipUnless(networkx, "networkx isn't there")
class BesideNetworkx(unittest.TestCase):
    def graphs(self):
        yield networkx.karate_club_graph()
        yield networkx.gnm_random_graph(50, 120, seed=5)

    def test_all_functions_and_a_stream(self):
        for graph in self.graphs():
            said = []
            beside_networkx.standing(graph, said.append)
            beside_networkx.changing(graph, 3, 7, said.append)
            self.assertEqual(len(said), 7 + 5)

    def test_wrong_answers(self):
        graph = networkx.karate_club_graph()
        cores, bounds = kcore.core_number(graph), kcore.core_bounds(graph)
        colours, part = kcore.coloring(graph), kcore.densest(graph)
        wrong = {"core_number": {**cores, 7: 3}, "core_bounds": {**bounds, 7: bounds[7]._replace(high=3)}, "degeneracy": 3,
                 "k_core": graph, "coloring": {**colours, 0: colours[1]}, "densest": part._replace(edges=part.edges - 1)}
        for name, answer in wrong.items():
            with self.subTest(name), mock.patch.object(kcore, name, return_value=answer), self.assertRaises(beside_networkx.Differs):
                beside_networkx.standing(graph, str)
        with mock.patch.object(kcore.Stream, "bounds", return_value={**bounds, 7: bounds[7]._replace(low=9)}):
            with self.assertRaises(beside_networkx.Differs):
                beside_networkx.changing(graph, 1, 7, str)
