"""The texts that relations become."""

import tempfile
import unittest
from pathlib import Path

from gannetdivan.relations import matrix_text, relation_text

try:
    import networkx
except ImportError:
    networkx = None
try:
    import numpy
except ImportError:
    numpy = None


class Texts(unittest.TestCase):
    def test_texts_and_files(self):
        self.assertEqual(relation_text("DQc"), "DQc")
        self.assertEqual(relation_text(b"DQc\n"), "DQc\n")
        with tempfile.TemporaryDirectory() as folder:
            path = Path(folder, "r")
            path.write_bytes(b"DQc\r\n")
            self.assertEqual(relation_text(path), "DQc\r\n")

    def test_matrices(self):
        self.assertEqual(relation_text([[0, 1], [2, 0]]), "matrix 2\n0 1\n2 0\n")
        self.assertEqual(relation_text(((True, 0.0), (1.0, False))), "matrix 2\n1 0\n1 0\n")
        self.assertEqual(matrix_text([]), "matrix 0\n")

    def test_what_is_no_matrix(self):
        for rows, fault in [
            ([[0, 1], [1]], ValueError),
            ([[0, 1]], ValueError),
            ([[0, -1], [1, 0]], ValueError),
            ([[0, 0.5], [1, 0]], TypeError),
            ([0, 1], TypeError),
            (["01", "10"], TypeError),
            (5, TypeError),
            (None, TypeError),
        ]:
            with self.subTest(rows=rows), self.assertRaises(fault):
                relation_text(rows)

    @unittest.skipIf(numpy is None, "numpy is not installed")
    def test_numpy(self):
        self.assertEqual(relation_text(numpy.array([[0, 1], [2, 0]], dtype=numpy.uint16)), "matrix 2\n0 1\n2 0\n")
        self.assertEqual(relation_text(numpy.eye(2)), "matrix 2\n1 0\n0 1\n")

    @unittest.skipIf(networkx is None, "networkx is not installed")
    def test_networkx(self):
        graph = networkx.Graph([("b", "a"), ("a", "c")])
        self.assertEqual(relation_text(graph), networkx.to_graph6_bytes(graph, header=False).decode())
        self.assertEqual(relation_text(networkx.DiGraph([(0, 1)])), "matrix 2\n0 1\n2 0\n")
        graph = networkx.Graph([(0, 1), (1, 1)])
        self.assertEqual(relation_text(graph), "matrix 2\n0 1\n1 3\n")
        with self.assertRaises(TypeError):
            relation_text(networkx.MultiGraph([(0, 1), (0, 1)]))

    def test_sage(self):
        # Sage is seldom installed, so two classes stand in that have its methods and its module's name.
        graph = type("Graph", (), {"__module__": "sage.graphs.graph", "graph6_string": lambda self: "DQc"})
        digraph = type("DiGraph", (), {"__module__": "sage.graphs.digraph", "dig6_string": lambda self: "DI?AO?"})
        self.assertEqual(relation_text(graph()), "DQc\n")
        self.assertEqual(relation_text(digraph()), "&DI?AO?\n")


if __name__ == "__main__":
    unittest.main()
