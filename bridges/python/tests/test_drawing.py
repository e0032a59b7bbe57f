"""Pictures: that they are made, and are the same for the same input. How they look was judged by eye."""

import subprocess
import sys
import tempfile
import unittest
from pathlib import Path

import gannetdivan
from gannetdivan.answers import ClassRow
from gannetdivan.drawing import draw_classes, draw_graph, draw_matrix, nested_blocks
from gannetdivan.palette import class_colours, class_groups, ink_on

from .live import EXAMPLES, live

try:
    import matplotlib
    import networkx
except ImportError:
    matplotlib = networkx = None


class Palette(unittest.TestCase):
    def test_colours_differ(self):
        for rank in (1, 2, 9, 22, 60):
            rows = [ClassRow(it, 1, 1, it, (0, int(it > 1)), (0, 0)) for it in range(rank)]
            colours = class_colours(rows)
            self.assertEqual(len(set(colours)), rank)
            self.assertTrue(all(0 <= part <= 1 for colour in colours for part in colour))

    def test_many_classes_share_colours_by_their_valency(self):
        rows = [ClassRow(0, 64, 1, 0, (0, 0), (0, 0))]
        rows += [ClassRow(it, 64 * (1 + it % 3), 1 + it % 3, it, (0, it), (0, 0)) for it in range(1, 60)]
        groups = class_groups(rows)
        self.assertEqual([it.said for it in groups], ["diagonal", "valency 1", "valency 2", "valency 3"])
        self.assertEqual(sorted(it.number for group in groups for it in group.classes), list(range(60)))
        self.assertEqual(len({it.colour for it in groups}), 4)
        alone = class_groups(rows, [7, 9])
        self.assertEqual([len(it.classes) for it in alone], [1, 1, 58])
        self.assertEqual([len(it.classes) for it in class_groups(rows[:22])], [1] * 22)
        valencies = [ClassRow(it, 64 * it, it, it, (0, it), (0, 0)) for it in range(1, 40)]
        self.assertEqual(len(class_groups([rows[0], *valencies])), 14)

    def test_ink(self):
        self.assertEqual((ink_on((0, 0, 0)), ink_on((1, 1, 0))), ("white", "black"))


@unittest.skipIf(matplotlib is None, "matplotlib or networkx is not installed")
@live
class Pictures(unittest.TestCase):
    VIEWS = [
        ("matrix", "petersen.g6"),
        ("matrix", "cube_5.g6", "--by", "0", "5"),
        ("matrix", "hoffman_singleton.g6", "--title", "Hoffman and Singleton"),
        ("matrix", "path_7.g6"),
        ("matrix", "dodecahedron.g6", "--classes", "1", "5"),
        ("graph", "cube_3.g6", "--classes", "1", "3"),
        ("graph", "petersen.g6", "--layout", "spring"),
        ("classes", "paley_7.d6"),
        ("classes", "cube_3.g6", "--by", "0", "3"),
    ]

    def draw(self, picture, view, relation, *words):
        command = [sys.executable, "-m", "gannetdivan", "draw", view, str(EXAMPLES / relation), str(picture), *words]
        return subprocess.run(command, capture_output=True, text=True, check=False)

    def test_pictures(self):
        with tempfile.TemporaryDirectory() as folder:
            forms = [("a.svg", b"<?xml"), ("a.png", b"\x89PNG"), ("a.pdf", b"%PDF")]
            for at, words in enumerate(self.VIEWS):
                for name, front in forms if at == 0 else [forms[at % 3]]:
                    path = Path(folder, name)
                    ended = self.draw(path, *words)
                    self.assertEqual((ended.returncode, ended.stderr), (0, ""), words)
                    self.assertTrue(path.read_bytes().startswith(front))

    def test_the_same_bytes_each_time(self):
        with tempfile.TemporaryDirectory() as folder:
            for form in ("svg", "png", "pdf"):
                paths = [Path(folder, f"{name}.{form}") for name in "ab"]
                for it in paths:
                    self.draw(it, "matrix", "cube_3.g6")
                self.assertEqual(paths[0].read_bytes(), paths[1].read_bytes())

    def test_faults(self):
        for words, said in [
            (("graph", "cube_3.g6", "--classes", "9"), "has no class 9"),
            (("matrix", "cube_3.g6", "--by", "0", "1"), "no closed subset"),
            (("matrix", "cube_3.g6", "--classes", "9"), "has no class 9"),
            (("matrix", "no_such_file"), "no_such_file"),
        ]:
            ended = self.draw("/nowhere/a.svg", *words)
            self.assertEqual(ended.returncode, 3)
            self.assertIn(said, ended.stderr)
        self.assertIn("ends in .svg, .png or .pdf", self.draw("a.gif", "matrix", "cube_3.g6").stderr)


def steps(side, turned):
    """Make the matrix of the steps on a torus, where each step has a colour, with its opposite if it is turned."""
    points = [(a, b) for a in range(side) for b in range(side)]

    def step(x, y):
        found = ((y[0] - x[0]) % side, (y[1] - x[1]) % side)
        return min(found, (-found[0] % side, -found[1] % side)) if turned else found

    numbers = {}
    return [[numbers.setdefault(step(x, y), len(numbers)) for y in points] for x in points]


@live
class Blocks(unittest.TestCase):
    def test_points_are_sorted_by_closed_subsets(self):
        wreath = gannetdivan.closure("Dhc").wreath("Dhc").wreath("A_")
        sizes = [sorted(map(len, it)) for it in nested_blocks(wreath)]
        self.assertEqual(sizes, [[25, 25], [5] * 10])
        cube = gannetdivan.closure("Gr`HOk")
        self.assertEqual(nested_blocks(cube)[0], cube.blocks([0, 2]))
        self.assertEqual(nested_blocks(gannetdivan.closure("IheA@GUAo")), [])
        path = gannetdivan.closure("DQc")
        self.assertEqual(nested_blocks(path), [path.fibres])


@unittest.skipIf(matplotlib is None, "matplotlib or networkx is not installed")
@live
class LargePictures(unittest.TestCase):
    def test_matrices(self):
        rank_34 = gannetdivan.closure(steps(8, turned=True))
        self.assertEqual((rank_34.points, rank_34.rank), (64, 34))
        said = {it.get_text() for axes in draw_matrix(rank_34).axes for it in axes.texts}
        self.assertLessEqual({"valency 1: 3 classes", "valency 2: 30 classes", "33"}, said)
        large = gannetdivan.closure(steps(16, turned=True))
        self.assertEqual((large.points, large.rank), (256, 130))
        said = {it.get_text() for axes in draw_matrix(large).axes for it in axes.texts}
        self.assertIn("valency 2: 126 classes", said)
        said = {it.get_text() for axes in draw_matrix(large, classes=[1, 2]).axes for it in axes.texts}
        self.assertEqual(said, {"class 1, valency 2", "class 2, valency 2", "all others: 128 classes"})

    def test_what_would_tell_nothing_says_so(self):
        thin = gannetdivan.closure(steps(16, turned=False))
        with self.assertRaisesRegex(ValueError, "would tell nothing: .*name some of them"):
            draw_matrix(thin)
        cube = gannetdivan.closure([[bin(x ^ y).count("1") for y in range(256)] for x in range(256)])
        with self.assertRaisesRegex(ValueError, "8960 edges would tell nothing"):
            draw_graph(cube, 4)
        with self.assertRaisesRegex(ValueError, "21 colours are told apart, and 22 classes"):
            draw_graph(thin, range(22))
        (axes,) = draw_graph(thin, [1, 15, 2]).axes
        said = [it.get_text() for it in axes.get_legend().get_texts()]
        self.assertEqual(said, ["class 1, valency 1", "class 15, valency 1", "class 2, valency 1"])
        (axes,) = draw_graph(thin, [1, 15, 2, 14]).axes
        said = [it.get_text() for it in axes.get_legend().get_texts()]
        self.assertEqual(said, ["class 1 and 15, valency 1", "class 2 and 14, valency 1"])
        titles = [axes.get_title() for axes in draw_classes(cube).axes]
        self.assertIn("class 4, valency 70\nthe matrix, since 8960 edges are a blot", titles)
        self.assertIn("class 8, valency 1", titles)


@unittest.skipIf(matplotlib is not None, "matplotlib is installed")
@live
class WithoutLibraries(unittest.TestCase):
    def test_a_clear_error(self):
        command = [sys.executable, "-m", "gannetdivan", "draw", "matrix", str(EXAMPLES / "cube_3.g6"), "a.svg"]
        ended = subprocess.run(command, capture_output=True, text=True, check=False)
        self.assertEqual(ended.returncode, 3)
        self.assertIn("matplotlib, which is not installed", ended.stderr)


if __name__ == "__main__":
    unittest.main()
