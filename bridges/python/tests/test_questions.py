"""The questions beside scripts: Schur rings, cells, tables of arrays, lattices; and closed subsets that classes generate."""

import itertools
import random
import re
import shutil
import subprocess
import unittest
from unittest import mock

import gannetdivan

from . import plain
from .known_groups import GROUPS
from .live import EXAMPLES, live

try:
    import networkx
except ImportError:
    networkx = None

CUBE, PETERSEN, PATH_5 = "Gr`HOk", "IheA@GUAo", "DQc"
DREADNAUT = shutil.which("dreadnaut")

CELLS_3 = "cells 1\npoints 3\n0 1 0\n1 0 1\n0 1 0\nS 0 0\ncells\n0 1 0\nend\n"
TABLE_4 = "table points 4 rank 2 entries 5\n0 0 0 1\n1 1 0 3\n0 1 1 1\n1 0 1 1\n1 1 1 2\n"
LATTICE_3 = "lattice fusions 2 covers 1\n0 1 1\n0 1 2\n1 0\nend\n"


def cyclic(order):
    return [[(x + y) % order for y in range(order)] for x in range(order)]


def binary(order):
    return [[x ^ y for y in range(order)] for x in range(order)]


class Texts(unittest.TestCase):
    """What is read from answers that are written out here."""

    def ask(self, text, ask):
        outcome = gannetdivan.program.Outcome(0, text, "")
        with mock.patch("gannetdivan.program.run", return_value=outcome):
            return ask()

    QUESTIONS = [
        ("ring points 6 rank 4\n0 1 2 3 2 1\n", lambda: gannetdivan.ring("", [0, 1, 0, 0, 0, 1])),
        (CELLS_3, lambda: gannetdivan.cells("Bg")),
        (TABLE_4, lambda: gannetdivan.table("{3;1}")),
        (LATTICE_3, lambda: gannetdivan.Lattice("")),
    ]

    def test_answers(self):
        ring, cells, table, lattice = (self.ask(*it) for it in self.QUESTIONS)
        self.assertEqual((ring.rank, ring.basic_sets), (4, [(0,), (1, 5), (2, 4), (3,)]))
        self.assertEqual((cells.numbers, cells.blocks), ((0, 1, 0), [(0, 2), (1,)]))
        self.assertEqual((cells.steps, cells.trace), (((0, 0),), CELLS_3))
        self.assertEqual((table.points, table.valencies, table.numbers(1, 1, 1)), (4, (1, 3), 2))
        self.assertEqual((lattice.fusions, lattice.covers, len(lattice)), ([(0, 1, 1), (0, 1, 2)], [(1, 0)], 2))
        self.assertEqual([lattice.is_finer(*it) for it in ((1, 0), (0, 1), (1, 1))], [True, False, True])

    def test_no_answer_is_read_from_a_part_of_it_or_from_more(self):
        for text, ask in self.QUESTIONS:
            for bad in [text[:end] for end in range(len(text))] + [f"{text}end\n", text.replace("0 1", "0 x")]:
                with self.subTest(text=bad), self.assertRaises(gannetdivan.UnreadableAnswer):
                    self.ask(bad, ask)

    def test_refusals(self):
        for text, ask in self.QUESTIONS:
            with self.assertRaises(gannetdivan.Refused) as caught:
                self.ask("refused Valency 2\n", ask)
            fault = caught.exception
            self.assertEqual((fault.word, fault.numbers), ("Valency", (2,)))
            self.assertIn("refused Valency 2: no graph has this array", str(fault))

    def test_what_is_no_array(self):
        for array, said in [
            ("3,2", "unpack"),
            ("{3,2;1,1;1}", "unpack"),
            ("{3,;1}", "no intersection array"),
            (([3, 2], [1]), "not as many b as c"),
            (([], []), "not as many b as c, 1 to 32"),
            (([2] * 33, [1] * 33), "1 to 32"),
            (([256], [1]), "not from 1 to 255"),
            (([3, 0], [1, 1]), "not from 1 to 255"),
        ]:
            with self.subTest(array=array), self.assertRaisesRegex(ValueError, said):
                gannetdivan.table(array)


@live
class Rings(unittest.TestCase):
    def test_rings_that_sets_generate(self):
        for sets, basic in [
            ([[1, 5]], [(0,), (1, 5), (2, 4), (3,)]),
            ([[2, 4]], [(0,), (1, 3, 5), (2, 4)]),
            ([{2, 3}], [(it,) for it in range(6)]),
            ([[3], [2, 4]], [(0,), (1, 5), (2, 4), (3,)]),
            ([[1, 2, 4, 5], [1, 3, 5]], [(0,), (1, 5), (2, 4), (3,)]),
            ([[]], [(0,), (1, 2, 3, 4, 5)]),
        ]:
            with self.subTest(sets=sets):
                self.assertEqual(gannetdivan.ring(cyclic(6), sets).basic_sets, basic)

    def test_colours_against_the_definition(self):
        for table in (cyclic(5), cyclic(6), binary(8), sorted_table(plain.elements([[1, 2, 0], [1, 0, 2]]))):
            order = range(len(table))
            quotient = [[table[x].index(y) for y in order] for x in order]
            for seed in range(1, 12):
                colours = [(seed * it * it + it // 2) % 3 for it in order]
                wanted = plain.closure([[colours[it] for it in row] for row in quotient])[0]
                with self.subTest(table=table, colours=colours):
                    ring = gannetdivan.ring(table, colours)
                    self.assertEqual(ring.numbers, tuple(wanted))
                    self.assertEqual(gannetdivan.ring(table, ring.basic_sets), ring)

    def test_how_many_there_are_over_cyclic_groups(self):
        published = [1, 1, 2, 3, 3, 7, 4, 10, 7, 10, 4, 32, 6, 13, 21, 37]
        # (the rows of a table are the permutations x to a x, whose orbits on pairs are the thin scheme)
        counts = [len(list(gannetdivan.orbitals(cyclic(it)).fusions())) for it in range(1, 17)]
        self.assertEqual(counts, published)

    def test_what_is_refused(self):
        for table, colours, fault, said in [
            ([[1, 0], [0, 1]], [0, 1], gannetdivan.Refused, "NotGroup: .*unit 0"),
            (cyclic(3), [0, 1], gannetdivan.Refused, "ColourCount"),
            (cyclic(2), [0, 1_048_576], gannetdivan.Refused, "ColourRange"),
            ([[0, 1], [1]], [0, 1], ValueError, "square"),
            ("DQd", [0, 1], gannetdivan.BadRelation, "table: PadBits at 2"),
            (cyclic(2), [], ValueError, "a colour for each element"),
            (cyclic(2), [[2]], ValueError, "no element 2: elements are numbered from 0 to 1"),
            (cyclic(2), [0, -1], ValueError, "at least 0"),
        ]:
            with self.subTest(table=table, colours=colours), self.assertRaisesRegex(fault, said):
                gannetdivan.ring(table, colours)

    def test_a_group_is_no_table(self):
        group = type("PermutationGroup", (), {"generators": [], "degree": 3})()
        with self.assertRaisesRegex(TypeError, "table of products"):
            gannetdivan.ring(group, [[1]])


def sorted_table(elements):
    """Write the table of a group of permutations, whose least element is the unit."""
    listed = sorted(elements)
    return [[listed.index(tuple(other[it] for it in one)) for other in listed] for one in listed]


def small_graphs():
    """List some graphs without loops, as numbers of points and sets of edges: paths, regular ones and others."""
    paths = [(size, {(it, it + 1) for it in range(size - 1)}) for size in (2, 5, 9)]
    cycles = [(7, {(it, (it + 1) % 7) for it in range(7)}), (6, {(0, 1), (1, 2), (2, 0), (3, 4), (4, 5), (5, 3)})]
    numbers = random.Random(1)
    others = []
    for size in [6, 8, 10, 12] * 15:
        pairs = itertools.combinations(range(size), 2)
        others.append((size, {(0, 1), *(it for it in pairs if numbers.random() < 2 / size)}))
    return [*paths, *cycles, *others]


def matrix_of(size, arcs, both=True):
    near = arcs | {(y, x) for x, y in arcs} if both else arcs
    return [[1 if (x, y) in near else 0 if x == y else 2 for y in range(size)] for x in range(size)]


def as_sets(blocks):
    return {frozenset(it) for it in blocks}


@live
class CellsOfGraphs(unittest.TestCase):
    def test_cells(self):
        path = gannetdivan.cells("FhCGG")
        self.assertEqual(len(path.blocks), 4)
        self.assertEqual(path.blocks[0], (0, 6))
        verdict = gannetdivan.check_cells(path.trace)
        self.assertEqual(verdict, gannetdivan.Verdict(True, points=7, steps=len(path.steps), cells=4))
        self.assertEqual(gannetdivan.cells(PETERSEN).blocks, [tuple(range(10))])
        # (of a configuration the colours are its classes)
        closure = gannetdivan.closure(PATH_5)
        self.assertEqual(gannetdivan.cells(closure, closure.classes_of(1)), gannetdivan.cells(PATH_5))
        self.assertEqual(gannetdivan.cells([[0, 7], [9, 0]], [7, 9]).numbers, (0, 0))

    def test_against_the_definition(self):
        for size, edges in small_graphs():
            for both in (True, False):
                matrix = matrix_of(size, edges, both)
                with self.subTest(edges=edges, both=both):
                    cells = gannetdivan.cells(matrix)
                    self.assertEqual(cells.numbers, plain.cells(matrix))
                    self.assertTrue(gannetdivan.check_cells(cells.trace))

    @unittest.skipIf(DREADNAUT is None, "nauty (dreadnaut) is not installed")
    def test_against_nauty(self):
        graphs = small_graphs()
        edges = (";".join(f"{x}:{y}" for x, y in sorted(arcs)) for _, arcs in graphs)
        asked = "l=0\n" + "".join(f"n={size} g {it}. i &\n" for (size, _), it in zip(graphs, edges)) + "q\n"
        ended = subprocess.run([DREADNAUT], input=asked, capture_output=True, text=True, check=True)
        found = re.findall(r"^(?:\[ (.*) \]|unit partition)$", ended.stdout, re.M)
        self.assertEqual(len(found), len(graphs))
        for (size, arcs), said in zip(graphs, found):
            said = said or f"0:{size - 1}"
            blocks = [[y for it in cell.split() for y in points_in(it)] for cell in said.split("|")]
            with self.subTest(edges=arcs):
                self.assertEqual(as_sets(gannetdivan.cells(matrix_of(size, arcs)).blocks), as_sets(blocks))

    @unittest.skipIf(networkx is None, "networkx is not installed")
    def test_against_networkx(self):
        for size, edges in small_graphs():
            graph = networkx.empty_graph(size)
            graph.add_edges_from(edges)
            hashes = networkx.weisfeiler_lehman_subgraph_hashes(graph, iterations=size)
            last = {it: found[-1] for it, found in hashes.items()}
            blocks = [[it for it in graph if last[it] == value] for value in set(last.values())]
            with self.subTest(edges=edges):
                self.assertEqual(as_sets(gannetdivan.cells(graph).blocks), as_sets(blocks))

    def test_what_is_refused(self):
        with self.assertRaisesRegex(gannetdivan.Refused, "cells - 9: refused BadSet: .*1 for the edges"):
            gannetdivan.cells(PETERSEN, 9)
        with self.assertRaisesRegex(gannetdivan.BadRelation, "relation: PadBits at 2"):
            gannetdivan.cells("DQd")
        idle = CELLS_3.replace("S 0 0\n", "S 0 0\nS 0 0\n")
        self.assertEqual(gannetdivan.check_cells(idle), gannetdivan.Verdict(False, line=7, word="IdleStep"))
        with self.assertRaisesRegex(gannetdivan.BadTrace, "trace: line 9 End: .*cut") as caught:
            gannetdivan.check_cells(CELLS_3.replace("end\n", ""))
        self.assertEqual((caught.exception.line, caught.exception.word), (9, "End"))
        with self.assertRaisesRegex(gannetdivan.BadTrace, "line 1 Head: a trace of cells begins"):
            gannetdivan.check_cells("trace 1\n")
        with self.assertRaisesRegex(gannetdivan.BadTrace, "trace: TooLong: a trace of cells has at most 1,048,576"):
            gannetdivan.check_cells(CELLS_3 + " " * 1_048_576)


def points_in(word):
    first, _, last = word.partition(":")
    return range(int(first), int(last or first) + 1)


@live
class Tables(unittest.TestCase):
    def test_tables_of_graphs(self):
        for name in ("petersen", "heawood", "dodecahedron", "johnson_7_3", "icosahedron", "hoffman_singleton"):
            closure = gannetdivan.closure(EXAMPLES / f"{name}.g6")
            array = closure.array(closure.classes_of(1))
            table = gannetdivan.table(array)
            distance = distances(closure, closure.classes_of(1)[0])
            counted = {tuple(distance[it] for it in key): it for key, it in closure.constants.entries.items()}
            with self.subTest(name=name):
                self.assertEqual((table.points, table.array), (closure.points, array))
                self.assertEqual(table.numbers.entries, counted)
                self.assertEqual(sum(table.valencies), table.points)
                self.assertEqual(gannetdivan.table(str(array)), table)
                self.assertEqual(gannetdivan.table((array.b, array.c)), table)

    def test_an_array_without_a_graph(self):
        self.assertEqual(gannetdivan.table(" { 3, 2 ; 1, 2 } ").valencies, (1, 3, 3))

    def test_arrays_that_are_refused(self):
        for array, word, numbers in [
            ("{3;2}", "FirstC", ()),
            ("{2,2;1,1}", "Parts", (1,)),
            ("{5,3;1,4}", "Valency", (2,)),
            ("{200,199;1,1}", "TooManyPoints", (2,)),
            ("{10,1;1,5}", "Negative", (2, 2, 2)),
            ("{4,3,1;1,2,3}", "Division", (2, 2, 1)),
        ]:
            with self.subTest(array=array), self.assertRaises(gannetdivan.Refused) as caught:
                gannetdivan.table(array)
            fault = caught.exception
            self.assertEqual((fault.word, fault.numbers, bool(fault.hint)), (word, numbers, True))
            self.assertTrue(str(fault).startswith(f"table of {array}: refused {word}"))


def distances(closure, edge):
    """Tell the distance in a graph that each class is at, by walking from point 0."""
    distance, fresh = {0: 0}, [0]
    while fresh:
        near = {y for x in fresh for y, it in enumerate(closure.matrix[x]) if it == edge and y not in distance}
        distance.update(dict.fromkeys(near, 1 + max(distance.values())))
        fresh = list(near)
    return {it: distance[y] for y, it in enumerate(closure.matrix[0])}


@live
class Lattices(unittest.TestCase):
    def test_lattices_against_the_definition(self):
        groups = [gannetdivan.orbitals(it) for it in (GROUPS["PSL(2,7) on 28 points"][0], cyclic(8))]
        for closure in [*map(gannetdivan.closure, (CUBE, PETERSEN, "@")), *groups]:
            lattice = closure.lattice()
            fusions = list(closure.fusions())
            with self.subTest(closure=closure):
                self.assertEqual(lattice.fusions, fusions)
                self.assertEqual(lattice.covers, plain.covers(fusions))
                for i, j in itertools.product(range(len(fusions)), repeat=2):
                    self.assertEqual(lattice.is_finer(i, j), plain.is_finer(fusions[i], fusions[j]))

    def test_meets_against_the_definition(self):
        closure = gannetdivan.orbitals(cyclic(6))
        lattice = closure.lattice()
        self.assertEqual(len(lattice), 7)
        for i, j in itertools.product(range(7), repeat=2):
            below = [it for it in range(7) if lattice.is_finer(it, i) and lattice.is_finer(it, j)]
            (coarsest,) = [it for it in below if all(lattice.is_finer(other, it) for other in below)]
            self.assertEqual(lattice.meet(i, j), coarsest)
        with self.assertRaisesRegex(IndexError, "no fusion 7: they are numbered from 0 to 6"):
            lattice.meet(0, 7)
        with self.assertRaises(IndexError):
            lattice.rank(-1)

    def test_lattices_that_are_refused(self):
        with self.assertRaisesRegex(gannetdivan.Refused, "lattice: refused TooManyFusions: .*at most 300"):
            gannetdivan.orbitals(binary(16)).lattice()
        with self.assertRaisesRegex(gannetdivan.Refused, "lattice: refused RankAbove"):
            gannetdivan.orbitals(cyclic(17)).lattice()

    @unittest.skipIf(networkx is None, "networkx is not installed")
    def test_a_digraph(self):
        lattice = gannetdivan.closure(CUBE).lattice()
        graph = lattice.digraph()
        self.assertEqual(sorted(graph.edges), lattice.covers)
        self.assertEqual([graph.nodes[it]["fusion"] for it in range(4)], lattice.fusions)
        self.assertEqual([graph.nodes[it]["rank"] for it in range(4)], [2, 3, 3, 4])
        # (covers are what is left where whatever follows from others is left out)
        self.assertEqual(set(networkx.transitive_reduction(graph).edges), set(graph.edges))

    def test_a_digraph_without_networkx(self):
        lattice = gannetdivan.closure(CUBE).lattice()
        with mock.patch.dict("sys.modules", {"networkx": None}):
            with self.assertRaisesRegex(gannetdivan.CohereError, "networkx"):
                lattice.digraph()


@live
class Generated(unittest.TestCase):
    def test_it_is_the_least_closed_subset(self):
        for relation in (CUBE, PETERSEN, "&BP_", PATH_5, gannetdivan.orbitals(cyclic(8)), gannetdivan.orbitals(binary(8))):
            closure = gannetdivan.closure(relation)
            closed = list(map(set, closure.closed_subsets()))
            for size in (1, 2):
                for classes in itertools.combinations(range(closure.rank), size):
                    least = min((it for it in closed if it.issuperset(classes)), key=len)
                    with self.subTest(closure=closure, classes=classes):
                        self.assertEqual(set(closure.generated(classes)), least)

    def test_a_rank_above_the_limit(self):
        for orbitals, generating, size in [
            (gannetdivan.orbitals(binary(64)), [1, 2, 32], 8),
            (gannetdivan.orbitals(cyclic(60)), [12, 20], 15),
            (gannetdivan.orbitals(cyclic(60)), 7, 60),
        ]:
            generated = orbitals.generated(generating)
            self.assertEqual(len(generated), size)
            self.assertEqual({len(it) for it in orbitals.blocks(generated)}, {size})
            # (the program refuses a set that is not closed)
            quotient = orbitals.quotient(generated)
            self.assertEqual((quotient.points, quotient.rank), (orbitals.points // size,) * 2)
        with self.assertRaisesRegex(gannetdivan.Refused, "NotClosed"):
            orbitals.quotient([0, 12, 20])

    def test_what_is_no_class(self):
        numbered = "classes are numbered from 0 to 3"
        for classes, said in [([0, 4], f"no class 4: {numbered}"), (-1, "no class -1"), ([], "one class")]:
            with self.assertRaisesRegex(ValueError, said):
                gannetdivan.closure(CUBE).generated(classes)


if __name__ == "__main__":
    unittest.main()
