"""Closures and sessions, over the program."""

import os
import tempfile
import unittest
from contextlib import contextmanager
from pathlib import Path
from unittest import mock

import gannetdivan
from gannetdivan import Disconnected, Edited, IntersectionArray, Irregular, Refusal

from . import plain
from .live import EXAMPLES, live

try:
    import networkx
except ImportError:
    networkx = None

CYCLE_5, CUBE, PETERSEN, PATH_5 = "Dhc", "Gr`HOk", "IheA@GUAo", "DQc"
CUBE_FUSIONS = [(0, 1, 1, 1), (0, 1, 1, 2), (0, 1, 2, 1), (0, 1, 2, 3)]
COMPLETE_4 = [[0, 1, 1, 1], [1, 0, 1, 1], [1, 1, 0, 1], [1, 1, 1, 0]]


@live
class Configurations(unittest.TestCase):
    def test_matrix_rank_and_fibres(self):
        path = gannetdivan.closure(PATH_5)
        self.assertEqual((path.points, path.rank), (5, 13))
        self.assertEqual(path.fibres, [[0, 3], [1, 2], [4]])
        self.assertEqual(path.matrix[0], [0, 3, 4, 5, 6])
        self.assertEqual(path, gannetdivan.closure("&DI?AO?"))
        self.assertEqual(gannetdivan.closure(path), path)
        self.assertEqual(gannetdivan.closure(path.matrix), path)
        self.assertEqual(len({path, gannetdivan.closure(path)}), 1)

    def test_classes(self):
        rows = gannetdivan.closure(PATH_5).classes
        self.assertEqual([it.transpose for it in rows], [0, 1, 2, 7, 9, 5, 11, 3, 8, 4, 12, 6, 10])
        self.assertEqual(rows[11], gannetdivan.ClassRow(11, 2, 2, 6, (4, 0), (2, 0)))

    def test_constants(self):
        cycle = gannetdivan.closure(CYCLE_5)
        self.assertEqual(len(cycle.constants.entries), 13)
        self.assertEqual([cycle.p(1, 1, 0), cycle.p(1, 1, 1), cycle.p(1, 1, 2)], [2, 0, 1])
        self.assertEqual(cycle.constants_of(2), {(0, 2): 1, (1, 1): 1, (1, 2): 1, (2, 0): 1, (2, 1): 1})
        for call in (lambda: cycle.p(0, 0, 3), lambda: cycle.p(-1, 0, 0), lambda: cycle.constants_of(-1)):
            with self.assertRaises(IndexError):
                call()

    def test_constants_that_are_counted_are_those_that_the_program_lists(self):
        for relation in (PATH_5, CUBE, "&BP_"):
            closure = gannetdivan.closure(relation)
            listed = closure.constants.entries
            ranks = range(closure.rank)
            counted = {(i, j, k): closure.p(i, j, k) for i in ranks for j in ranks for k in ranks}
            self.assertEqual({key: it for key, it in counted.items() if it}, listed)
            of_each = {(*pair, k): it for k in ranks for pair, it in closure.constants_of(k).items()}
            self.assertEqual(of_each, listed)

    def test_one_constant_asks_for_no_table(self):
        cube = gannetdivan.closure(CUBE)
        with mock.patch("gannetdivan.configuration.answers", side_effect=AssertionError):
            self.assertEqual(cube.p(1, 1, 2), 2)

    def test_colours_and_classes(self):
        path = gannetdivan.closure(PATH_5)
        by_colour = [[0, 1, 2], [4, 6, 9, 11], [3, 5, 7, 8, 10, 12], []]
        self.assertEqual([path.classes_of(it) for it in range(4)], by_colour)
        self.assertEqual([path.colour_of(it) for it in (0, 3, 4)], [0, 2, 1])
        self.assertEqual(path.graph6(path.classes_of(1)), PATH_5)
        two = gannetdivan.closure([[7, 9], [9, 7]])
        self.assertEqual((two.classes_of(9), two.colour_of(0)), ([1], 7))
        with self.assertRaises(IndexError):
            path.colour_of(13)

    def test_edges_in_two_classes(self):
        # The Holt graph: its group turns no edge round, so that its arcs are two classes, each the other turned.
        points = [(a, b) for b in range(3) for a in range(9)]
        arcs = {((a, b), ((4 * a + it) % 9, (b + 1) % 3)) for a, b in points for it in (1, -1)}
        matrix = [[int((x, y) in arcs or (y, x) in arcs) for y in points] for x in points]
        holt = gannetdivan.closure(matrix)
        self.assertEqual({sum(row) for row in matrix}, {4})
        edges = holt.classes_of(1)
        self.assertEqual(len(edges), 2)
        self.assertEqual([holt.classes[it].transpose for it in edges], edges[::-1])
        self.assertIsInstance(holt.array(edges), Irregular)

    def test_tests(self):
        self.assertEqual(gannetdivan.closure(CYCLE_5).tests, gannetdivan.SchemeTests(True, True, True, False, True))
        self.assertEqual(gannetdivan.closure("&BP_").tests, gannetdivan.SchemeTests(True, False, True, True, True))

    def test_arrays(self):
        self.assertEqual(gannetdivan.closure(CUBE).array(1), IntersectionArray((3, 2, 1), (1, 2, 3)))
        self.assertEqual(gannetdivan.closure(PETERSEN).array([2]), IntersectionArray((6, 2), (1, 4)))
        self.assertEqual(gannetdivan.closure(CUBE).array(3), Disconnected((0, 1)))
        self.assertEqual(gannetdivan.closure(PATH_5).array((4, 9, 6, 11)), Irregular((0, 2), (0, 4)))
        with self.assertRaises(ValueError):
            gannetdivan.closure(CUBE).array([])

    def test_closed_subsets_quotients_and_subschemes(self):
        cube = gannetdivan.closure(CUBE)
        self.assertEqual(cube.closed_subsets(), [(0,), (0, 2), (0, 3), (0, 1, 2, 3)])
        self.assertEqual(cube.quotient([0, 3]).matrix, COMPLETE_4)
        self.assertEqual(cube.subscheme(0, [0, 2]).matrix, COMPLETE_4)
        self.assertEqual(cube.blocks([0, 3]), [[0, 7], [1, 6], [2, 5], [3, 4]])
        with self.assertRaises(ValueError):
            cube.blocks([0, 1])
        for ask, word in [
            (lambda: cube.quotient([0, 1]), "NotClosed"),
            (lambda: cube.subscheme(8, [0, 2]), "PointRange"),
            (lambda: gannetdivan.closure(PATH_5).quotient(0), "NotHomogeneous"),
        ]:
            with self.assertRaises(gannetdivan.Refused) as caught:
                ask()
            self.assertEqual(caught.exception.word, word)

    def test_products(self):
        edge = gannetdivan.closure("A_")
        self.assertEqual(edge.direct(edge).matrix, [[0, 1, 2, 3], [1, 0, 3, 2], [2, 3, 0, 1], [3, 2, 1, 0]])
        self.assertEqual(edge.wreath("A_").matrix, [[0, 1, 2, 1], [1, 0, 1, 2], [2, 1, 0, 1], [1, 2, 1, 0]])
        cube = gannetdivan.closure(CUBE)
        self.assertEqual(cube.direct(cube).rank, 16)
        with self.assertRaisesRegex(gannetdivan.Refused, "TooManyPoints"):
            cube.direct(cube).direct(cube)

    def test_fusions_page_by_themselves(self):
        cube = gannetdivan.closure(CUBE)
        for page in (1, 2, 3, 4, 5, 1000):
            self.assertEqual(list(cube.fusions(page=page)), CUBE_FUSIONS)
        self.assertEqual(list(cube.fusions(after=(0, 1, 1, 2))), CUBE_FUSIONS[2:])
        self.assertEqual(list(cube.fusions()), plain.fusions(cube.matrix))
        self.assertEqual(list(gannetdivan.closure("@").fusions()), [(0,)])

    def test_a_rank_above_the_limit(self):
        with self.assertRaisesRegex(gannetdivan.Refused, "RankAbove"):
            next(gannetdivan.closure([[5 * x + y for y in range(5)] for x in range(5)]).fusions())

    def test_good_subsets(self):
        good = gannetdivan.closure(CUBE).good_subsets()
        self.assertEqual(good, [(0,), (1,), (2,), (1, 2), (3,), (1, 3), (1, 2, 3)])

    def test_merged_classes(self):
        cube = gannetdivan.closure(CUBE)
        self.assertEqual(cube.close((0, 1, 2, 2)), (0, 1, 2, 3))
        self.assertEqual(cube.fuse((0, 1, 1, 2)).rank, 3)
        # (blocks, in any order, are the same)
        self.assertEqual(cube.close([[3, 2], [0], [1]]), (0, 1, 2, 3))
        self.assertEqual(cube.fuse([{0}, {1, 2}, {3}]), cube.fuse((0, 1, 1, 2)))
        self.assertEqual(list(cube.fusions(after=[[0], [1, 3], [2]])), CUBE_FUSIONS[3:])
        for blocks, said in [
            ([[1], [2, 3]], "class 0 is in no block"),
            ([[0, 1], [1, 2, 3]], "class 1 is in more than one block"),
            ([[0], [1, 2, 3, 4]], "no class 4: classes are numbered from 0 to 3"),
            ([[0], [1, 2, 3], []], "at least one class"),
        ]:
            with self.assertRaisesRegex(ValueError, said):
                cube.fuse(blocks)
        with self.assertRaisesRegex(gannetdivan.Refused, "NotGrowth"):
            cube.fuse((0, 1, 3, 2))

    def test_graphs(self):
        self.assertEqual(gannetdivan.closure(CUBE).graph6(1), CUBE)
        self.assertEqual(gannetdivan.closure("&BP_").digraph6(1), "&BP_")
        with self.assertRaisesRegex(gannetdivan.Refused, "BadSet"):
            gannetdivan.closure("&BP_").graph6(1)

    def test_traces(self):
        two = gannetdivan.closure([[7, 7], [7, 7]])
        self.assertEqual(two.trace(), (EXAMPLES / "one_colour_2.trace").read_text())
        self.assertEqual(two.check(), gannetdivan.Verdict(True, points=2, rank=2, steps=1))
        self.assertTrue(gannetdivan.check((EXAMPLES / "one_colour_2.trace").read_bytes()))
        self.assertTrue(gannetdivan.check(EXAMPLES / "one_colour_2.trace"))
        with self.assertRaisesRegex(TypeError, "no list"):
            gannetdivan.check([two.trace()])
        idle = gannetdivan.check((EXAMPLES / "idle_step_2.trace").read_text())
        self.assertEqual((bool(idle), idle.line, idle.word), (False, 7, "IdleStep"))
        with self.assertRaises(gannetdivan.BadTrace) as caught:
            gannetdivan.check(two.trace()[:-4])
        self.assertEqual((caught.exception.line, caught.exception.word), (10, "End"))
        self.assertTrue(gannetdivan.closure(PATH_5).check())
        rounds = gannetdivan.closure(PATH_5).trace(version=2)
        self.assertEqual(rounds.splitlines().count("R"), 2)
        self.assertEqual(gannetdivan.check(rounds), gannetdivan.Verdict(True, points=5, rank=13, steps=2))

    def test_bad_relations(self):
        for relation, word, place in [
            ("DQd", "PadBits", 2),
            ("DQ", "WrongLength", 2),
            ("", "NoLine", 0),
            ("?", "NoPoints", 0),
            (":An", "BadByte", 0),
            ([[1048576]], "ColourTooLarge", 9),
            ([], "NoPoints", 7),
            ([[0] * 257] * 257, "TooManyPoints", 7),
        ]:
            with self.subTest(relation=str(relation)[:20]), self.assertRaises(gannetdivan.BadRelation) as caught:
                gannetdivan.closure(relation)
            self.assertEqual((caught.exception.word, caught.exception.place), (word, place))

    def test_a_file(self):
        self.assertEqual(gannetdivan.closure(EXAMPLES / "cube_3.g6"), gannetdivan.closure(CUBE))

    def test_a_matrix_against_the_definition(self):
        matrix = [[(3 * x * x + 5 * y + x * y) % 4 for y in range(6)] for x in range(6)]
        self.assertEqual(gannetdivan.closure(matrix).matrix, plain.closure(matrix))

    @unittest.skipIf(networkx is None, "networkx is not installed")
    def test_arrays_against_networkx(self):
        graphs = [
            networkx.petersen_graph(),
            networkx.icosahedral_graph(),
            networkx.dodecahedral_graph(),
            networkx.heawood_graph(),
            networkx.pappus_graph(),
            networkx.desargues_graph(),
            networkx.octahedral_graph(),
            networkx.complete_bipartite_graph(5, 5),
            networkx.complete_graph(7),
            networkx.paley_graph(13).to_undirected(),
            networkx.line_graph(networkx.complete_graph(6)),
            networkx.line_graph(networkx.complete_bipartite_graph(5, 5)),
            *(networkx.hypercube_graph(it) for it in (2, 3, 4)),
            # (networkx takes a bound on the diameter that longer cycles are above)
            *(networkx.cycle_graph(it) for it in (5, 8, 20)),
        ]
        for graph in graphs:
            with self.subTest(graph=str(graph)):
                b, c = networkx.intersection_array(graph)
                closure = gannetdivan.closure(graph)
                # (for networkx a complete graph has the class of edges alone)
                nodes = list(graph)
                near = next(y for y, it in enumerate(nodes) if graph.has_edge(nodes[0], it))
                edges = closure.matrix[0][near]
                self.assertEqual(closure.array(edges), IntersectionArray(tuple(b), tuple(c)))

    @unittest.skipIf(networkx is None, "networkx is not installed")
    def test_digraphs_of_networkx(self):
        graph = networkx.DiGraph([(0, 1), (1, 2), (2, 0)])
        self.assertEqual(gannetdivan.closure(graph).matrix, [[0, 1, 2], [2, 0, 1], [1, 2, 0]])
        looped = networkx.DiGraph([(0, 0), (0, 1), (1, 2), (2, 0)])
        matrix = [[3, 1, 2], [2, 0, 1], [1, 2, 0]]
        self.assertEqual(gannetdivan.closure(looped).matrix, plain.closure(matrix))


@contextmanager
def working_in(folder):
    before = os.getcwd()
    os.chdir(folder)
    try:
        yield
    finally:
        os.chdir(before)


@live
class Sessions(unittest.TestCase):
    def test_history(self):
        session = gannetdivan.Session(CYCLE_5)
        self.assertEqual(session.fix(0), Edited(5, 13))
        self.assertEqual(session.closure().matrix[0], [0, 3, 4, 4, 3])
        self.assertEqual(session.undo(), Edited(5, 3))
        self.assertEqual((session.edits, session.undone), ([], ["fix 0"]))
        self.assertEqual(session.redo(), Edited(5, 13))
        self.assertEqual((session.edits, session.undone), (["fix 0"], []))

    def test_an_edit_forgets_what_was_undone(self):
        session = gannetdivan.Session(CYCLE_5)
        session.run("fix 0", "fix 1", "undo", "undo", "fix 2")
        self.assertEqual((session.edits, session.undone), (["fix 2"], []))
        with self.assertRaisesRegex(gannetdivan.Refused, "NothingToRedo"):
            session.redo()

    def test_refused_lines_change_nothing(self):
        session = gannetdivan.Session(CYCLE_5)
        said = session.run("both 0 1 9", "join 9 1", "join 9 1\nredo", "# nothing", "join 9 9", "set 0 1 8")
        ok = [Edited(5, 13), Edited(5, 3), Refusal("ColourAbsent"), Refusal("NothingToRedo"), Edited(5, 3)]
        self.assertEqual(said, [*ok, Edited(5, 25)])
        self.assertEqual(session.edits, ["both 0 1 9", "join 9 1", "join 9 9", "set 0 1 8"])
        with self.assertRaises(gannetdivan.Refused) as caught:
            session.set(9, 0, 1)
        self.assertEqual((caught.exception.word, caught.exception.asked), ("PointRange", "set 9 0 1"))
        self.assertEqual(session.trace().count("stage"), 3)
        self.assertTrue(gannetdivan.check(session.trace()))

    def test_bad_lines(self):
        session = gannetdivan.Session(CYCLE_5)
        session.fix(0)
        with self.assertRaises(gannetdivan.BadScript) as caught:
            session.run("fix 1", "shwo")
        self.assertEqual((caught.exception.word, caught.exception.line), ("UnknownWord", 2))
        self.assertEqual(session.edits, ["fix 0"])

    def test_products(self):
        session = gannetdivan.Session("A_")
        self.assertEqual(session.direct([[0, 1], [1, 0]]), Edited(4, 4))
        self.assertEqual(session.undo(), Edited(2, 2))
        self.assertEqual(session.wreath("A_"), Edited(4, 3))
        self.assertEqual(session.run(f"direct {EXAMPLES / 'cycle_5.g6'}"), [Edited(20, 9)])
        self.assertEqual(session.undo(), Edited(4, 3))

    def test_names_of_files_are_apart_from_names_of_our_own(self):
        with tempfile.TemporaryDirectory() as folder:
            with working_in(folder):
                for name in ("product-1", "product-2", "script", "relation", "input"):
                    Path(name).write_text(f"{CYCLE_5}\n")
                    for asked in (["undo", f"direct {name}"], ["undo", f"direct {name}", "undo", f"wreath {name}"]):
                        session = gannetdivan.Session(CYCLE_5)
                        session.direct("A_")
                        fresh = gannetdivan.Session(CYCLE_5)
                        self.assertEqual(session.run(*asked)[1:], fresh.run(*asked[1:]))
                        self.assertEqual(session.closure(), fresh.closure())
                        self.assertEqual(session.edits, fresh.edits)
            # What stands in the history is the name that was given, or none that a line can have.
            session.undo()
            session.direct("A_")
            self.assertEqual(session.edits[-1].split()[0], "direct")
            with self.assertRaises(gannetdivan.BadScript):
                gannetdivan.Session(CYCLE_5).run(*session.edits)

    def test_a_bad_product_is_named(self):
        with tempfile.TemporaryDirectory() as folder:
            path = Path(folder, "bad.g6")
            path.write_text("DQd\n")
            session = gannetdivan.Session(CYCLE_5)
            with self.assertRaisesRegex(gannetdivan.BadRelation, "^.*bad.g6: PadBits at 2"):
                session.run(f"direct {path}")
            self.assertEqual(session.edits, [])
            with self.assertRaisesRegex(gannetdivan.BadRelation, r"^\(relation 1\): PadBits at 2"):
                session.direct("DQd")

    def test_merged_classes(self):
        session = gannetdivan.Session(CUBE)
        self.assertEqual(session.fuse([[0], [1, 2], [3]]), Edited(8, 3))
        session.undo()
        self.assertEqual(session.fuse([0, 1, 1, 2]), Edited(8, 3))
        self.assertEqual(session.adopt(), Edited(8, 3))
        self.assertEqual(session.raw().colours, 3)


@live
class LongSessions(unittest.TestCase):
    def test_each_point_of_a_history_in_runs_of_all_lengths(self):
        """Answers do not depend on how lines are spread over calls, nor on what is kept of the colourings."""
        lines = ["fix 0", "set 1 2 9", "show", "undo", "join 1 2", "trace", "adopt", "trace 2", "undo", "undo"]
        lines += ["redo", "direct A", "raw", "fuse 0 1 2 2", "undo", "undo", "undo", "undo", "redo", "redo"]
        lines += ["trace", "redo", "undo", "fix 1", "redo", "trace", "tests"]
        with tempfile.TemporaryDirectory() as folder, working_in(folder):
            Path("A").write_text("A_\n")
            whole = gannetdivan.Session(CYCLE_5).run(*lines)
            for apart, latest in ((0, 1), (2, 1), (32, 1), (2, 2), (32, 16)):
                for step in (1, 2, 3, 7):
                    smaller = {"_APART_EDITS": apart, "_LATEST": latest}
                    with mock.patch.multiple("gannetdivan.history", **smaller):
                        session, said = gannetdivan.Session(CYCLE_5), []
                        for at in range(0, len(lines), step):
                            said += session.run(*lines[at : at + step])
                    self.assertEqual(said, whole)

    def test_more_than_one_script_holds(self):
        """The same with limits so small that each call takes many runs."""
        lines = ["fix 0", "fix 1", "trace", "undo", "join 0 1", "show", "undo", "undo", "redo", "both 2 3 7"]
        lines += ["trace 2", "undo", "undo", "redo", "show", "adopt", "join 0 1", "fix 2", "fix 3", "trace"]
        lines += ["undo", "show", "undo"]
        whole = gannetdivan.Session(CYCLE_5).run(*lines)
        for name, most in (("_MOST_EDITS", 3), ("_MOST_LINES", 21), ("_MOST_BYTES", 16 + 40)):
            with self.subTest(name=name), mock.patch(f"gannetdivan.history.{name}", most):
                smaller = {"_APART_EDITS": 2, "_APART_BYTES": 16, "_LATEST": 1, "_FREE_FOR_EACH": 16}
                with mock.patch.multiple("gannetdivan.history", **smaller):
                    session = gannetdivan.Session(CYCLE_5)
                    self.assertEqual(session.run(*lines), whole)
                    session = gannetdivan.Session(CYCLE_5)
                    self.assertEqual([it for line in lines for it in session.run(line)], whole)

    def test_a_history_and_a_script_of_any_length(self):
        session = gannetdivan.Session(CYCLE_5)
        # (none of these edits only refines)
        lines = [f"set 0 1 {it % 3}" for it in range(300)]
        self.assertEqual(len(session.run(*lines)), 300)
        self.assertEqual(session.raw().matrix[0][1], 2)
        self.assertEqual(session.run(*["undo"] * 300, "raw")[-1].matrix, gannetdivan.Session(CYCLE_5).raw().matrix)
        self.assertEqual(len(session.undone), 300)
        answered = session.run(*["redo"] * 300, *["tests"] * 10_001, "raw")
        self.assertEqual((len(answered), answered[-1].matrix[0][1]), (10_302, 2))
        self.assertEqual(session.trace(2), session.closure().trace(2))

    def test_lines_are_counted_as_the_user_wrote_them(self):
        session = gannetdivan.Session(CYCLE_5)
        session.run(*["fix 0", "undo"] * 100)
        with self.assertRaises(gannetdivan.BadScript) as caught:
            session.run(*["tests"] * 10_500, "shwo")
        self.assertEqual((caught.exception.line, caught.exception.shown), (10_501, "shwo"))
        with self.assertRaises(gannetdivan.BadScript) as caught:
            session.run("fix 1", "# " + "x" * 1_048_576, "tests")
        self.assertEqual((caught.exception.word, caught.exception.line), ("TooLong", 2))
        self.assertEqual(session.edits, [])

    def test_large_mergings_again_and_again(self):
        # Each pair of 200 points is a class of its own, so that a growth string has 40,000 numbers.
        points = range(200)
        session = gannetdivan.Session([[200 * x + y for y in points] for x in points])
        for _ in range(6):
            self.assertEqual(session.fuse(range(40_000)), Edited(200, 40_000))
        merged = [0] * 200 + list(range(1, 39_801))
        self.assertEqual(session.fuse(merged).points, 200)
        self.assertEqual(session.undo(), Edited(200, 40_000))
        self.assertEqual(session.trace(2).count("stage"), 7)

    def test_a_trace_that_fits_in_no_script(self):
        with mock.patch("gannetdivan.history._MOST_EDITS", 2):
            session = gannetdivan.Session(CYCLE_5)
            session.run("fix 0", "fix 1", "fix 2")
            with self.assertRaisesRegex(gannetdivan.BadScript, "TooLong.*certificate of one stage"):
                session.trace()
            self.assertTrue(gannetdivan.check(session.closure().trace()))
            # (this colouring does not refine the one before, so that the trace begins anew)
            session.run("join 0 1", "fix 3")
            self.assertEqual(session.trace().count("stage"), 2)


if __name__ == "__main__":
    unittest.main()
