"""Orbits of permutation groups on pairs, and Schur rings."""

import json
import shutil
import subprocess
import unittest

import gannetdivan
from gannetdivan.permutations import orbital_matrix, permutations_of

from . import plain
from .known_groups import GROUPS
from .live import TOP, live

try:
    import sympy.combinatorics as sympy
except ImportError:
    sympy = None


def sage_group(generators, domain):
    """Make what has the methods of a permutation group of Sage."""
    of_sage = {"gens": lambda self: generators, "domain": lambda self: domain}
    return type("PermutationGroup", (), {"__module__": "sage.groups.perm_gps", **of_sage})()


class Orbits(unittest.TestCase):
    def test_how_many_there_are(self):
        for name, (generators, rank, order) in GROUPS.items():
            with self.subTest(name=name):
                matrix = orbital_matrix(generators)
                self.assertEqual(1 + max(map(max, matrix)), rank)
                if order < 2_000:
                    # (as many as an element fixes pairs, on the average)
                    elements = plain.elements(generators)
                    fixed = [sum(it == x for x, it in enumerate(one)) for one in elements]
                    self.assertEqual((len(elements), sum(it * it for it in fixed)), (order, rank * order))

    def test_each_generator_keeps_them(self):
        for name, (generators, _, _) in GROUPS.items():
            matrix = orbital_matrix(generators)
            points = range(len(matrix))
            for one in generators:
                with self.subTest(name=name):
                    # (a difference of matrices would take minutes to print)
                    self.assertTrue([[matrix[one[x]][one[y]] for y in points] for x in points] == matrix)

    def test_what_is_taken(self):
        turn = [1, 2, 3, 0]
        for generators, points, wanted in [
            ([turn], None, [turn]),
            (iter([tuple(turn)]), 4, [turn]),
            ([], 2, [[0, 1]]),
            (sage_group([lambda it: it % 4 + 1], (1, 2, 3, 4)), None, [turn]),
            (sage_group([{"a": "c", "b": "b", "c": "a"}.get], "abc"), None, [[2, 1, 0]]),
        ]:
            with self.subTest(generators=str(generators)):
                self.assertEqual(permutations_of(generators, points), wanted)

    def test_what_is_no_permutation(self):
        for generators, points, fault, said in [
            ([[1, 2, 3]], None, ValueError, "generator 0 is no permutation of 3 points"),
            ([[1, 0], [1, 2, 0]], None, ValueError, "generator 1 is no permutation of 2 points"),
            ([[1, 0]], 3, ValueError, "generator 0 is no permutation of 3 points"),
            ([[0, 0]], None, ValueError, "generator 0"),
            ([], None, ValueError, "points=N"),
            ([1, 0], None, TypeError, "no int"),
            (["10"], None, TypeError, "no str"),
            ([[1.0, 0.0]], None, TypeError, "float"),
        ]:
            with self.subTest(generators=generators), self.assertRaisesRegex(fault, said):
                orbital_matrix(generators, points)

    def test_too_many_points(self):
        with self.assertRaisesRegex(gannetdivan.BadRelation, "permutations: TooManyPoints: .*256"):
            orbital_matrix([], 257)


@live
class Orbitals(unittest.TestCase):
    def test_the_closure_of_orbits_is_the_orbits(self):
        for name, (generators, rank, _) in GROUPS.items():
            with self.subTest(name=name):
                orbitals = gannetdivan.orbitals(generators)
                # (class by class, number for number)
                self.assertTrue(orbitals.matrix == orbital_matrix(generators))
                self.assertEqual((orbitals.rank, gannetdivan.closure(orbitals)), (rank, orbitals))

    def test_fusions(self):
        orbitals = gannetdivan.orbitals(GROUPS["PSL(2,7) on 28 points"][0])
        self.assertEqual(len(list(orbitals.fusions())), 8)
        self.assertEqual(sorted(it.valency for it in orbitals.classes), [1, 3, 3, 3, 6, 6, 6])

    def test_graphs_of_their_classes(self):
        for name, arrays in [
            ("the Petersen graph", ["{3,2;1,1}", "{6,2;1,4}"]),
            ("the edges of the Petersen graph", ["{4,2,1;1,1,4}"]),
            ("the Johnson graph J(8,3)", ["{15,8,3;1,4,9}"]),
            ("the Clebsch graph", ["{10,3;1,6}", "{5,4;1,2}"]),
        ]:
            orbitals = gannetdivan.orbitals(GROUPS[name][0])
            found = {str(orbitals.array(it)) for it in range(1, orbitals.rank)}
            with self.subTest(name=name):
                self.assertLessEqual(set(arrays), found)

    def test_a_group_that_is_not_transitive(self):
        orbitals = gannetdivan.orbitals(GROUPS["three orbits"][0])
        self.assertEqual(orbitals.fibres, [[0, 1, 2], [3, 4], [5]])

    def test_a_group_closes_to_less_than_its_graph(self):
        # The group of the Shrikhande graph has two orbits on the pairs that are no edges.
        group = gannetdivan.orbitals(GROUPS["the Shrikhande graph"][0])
        graph = next(it for it in range(1, 4) if str(group.array(it)) == "{6,3;1,2}")
        self.assertEqual((group.rank, gannetdivan.closure(group.graph6(graph)).rank), (4, 3))

    def test_groups_as_relations(self):
        cycle = gannetdivan.orbitals([[1, 2, 3, 4, 0]])
        group = sage_group([lambda it: it % 5 + 1], range(1, 6))
        self.assertEqual(gannetdivan.closure(group), cycle)
        self.assertEqual(gannetdivan.orbitals(group), cycle)
        self.assertEqual(gannetdivan.Session(group).closure(), cycle)

    @unittest.skipIf(sympy is None, "sympy is not installed")
    def test_groups_of_sympy(self):
        for name, (generators, rank, _) in GROUPS.items():
            with self.subTest(name=name):
                listed = list(map(sympy.Permutation, generators))
                group = sympy.PermutationGroup(listed)
                self.assertEqual(gannetdivan.orbitals(group).rank, rank)
                self.assertEqual(gannetdivan.orbitals(group), gannetdivan.orbitals(generators))
                self.assertEqual(gannetdivan.closure(group), gannetdivan.orbitals(listed))

    @unittest.skipIf(shutil.which("gap") is None, "gap is not installed")
    def test_orbitals_against_gap(self):
        groups = [[[it + 1 for it in one] for one in generators] for generators, _, _ in GROUPS.values()]
        asked = (
            f'Read("{TOP}/bridges/gap/cohere.g"); SetPrintFormattingStatus("*stdout*", false);\n'
            f"Print(List({groups}, function(it) return CohereOrbitals("
            "Group(List(it, PermList), ()), [1 .. Length(it[1])]).matrix - 1; end));\nQuitGap(true);\n"
        )
        ended = subprocess.run(["gap", "-q", "-b"], input=asked, capture_output=True, text=True, check=True)
        for name, matrix in zip(GROUPS, json.loads(ended.stdout)):
            with self.subTest(name=name):
                self.assertTrue(gannetdivan.orbitals(GROUPS[name][0]).matrix == matrix)


if __name__ == "__main__":
    unittest.main()
