"""The readers of answers, on texts that are written out here."""

import sys
import unittest
from unittest import mock

from gannetdivan import (
    ClassRow,
    Disconnected,
    Edited,
    IntersectionArray,
    Irregular,
    MatrixAnswer,
    Page,
    Raw,
    Refusal,
    SchemeTests,
    UnreadableAnswer,
    Verdict,
)
from gannetdivan.answers import read_answers, read_verdict

COMPLETE_4 = [[0, 1, 1, 1], [1, 0, 1, 1], [1, 1, 0, 1], [1, 1, 1, 0]]

# A line of a script, the text of its answer, and the answer.
ANSWERS = [
    ("fix 0", "ok points 5 rank 13\n", Edited(5, 13)),
    ("fix 9", "refused PointRange\n", Refusal("PointRange")),
    ("show", "show points 3 rank 3\n0 1 2\n2 0 1\n1 2 0\n", MatrixAnswer(3, 3, [[0, 1, 2], [2, 0, 1], [1, 2, 0]])),
    ("show", "show points 1 rank 1\n0\n", MatrixAnswer(1, 1, [[0]])),
    ("raw", "raw points 2 colours 1\n7 7\n7 7\n", Raw(2, 1, [[7, 7], [7, 7]])),
    (
        "classes",
        "classes 2\n"
        "class 0 size 4 valency 1 transpose 0 pair 0 0 fibres 0 0\n"
        "class 1 size 12 valency 3 transpose 1 pair 0 1 fibres 0 0\n",
        [ClassRow(0, 4, 1, 0, (0, 0), (0, 0)), ClassRow(1, 12, 3, 1, (0, 1), (0, 0))],
    ),
    (
        "tests",
        "tests homogeneous yes symmetric no commutative yes thin yes primitive no\n",
        SchemeTests(True, False, True, True, False),
    ),
    ("array 1", "array {3,2,1;1,2,3}\n", IntersectionArray((3, 2, 1), (1, 2, 3))),
    ("array 3", "array disconnected 0 1\n", Disconnected((0, 1))),
    ("array 4 9 6 11", "array irregular 0 2 0 4\n", Irregular((0, 2), (0, 4))),
    ("closed", "closed\n0\n0 2\n0 3\n0 1 2 3\nend\n", [(0,), (0, 2), (0, 3), (0, 1, 2, 3)]),
    ("good", "good\n0\n1\n1 2\nend\n", [(0,), (1,), (1, 2)]),
    (
        "quotient 0 3",
        "quotient points 4 rank 2\n0 1 1 1\n1 0 1 1\n1 1 0 1\n1 1 1 0\n",
        MatrixAnswer(4, 2, COMPLETE_4),
    ),
    ("sub 0 0 2", "sub points 4 rank 2\n0 1 1 1\n1 0 1 1\n1 1 0 1\n1 1 1 0\n", MatrixAnswer(4, 2, COMPLETE_4)),
    ("close 0 1 2 2", "close 0 1 2 3\n", (0, 1, 2, 3)),
    ("mergings 2", "mergings\n0 1 1 1\n0 1 1 2\nnext after 0 1 1 2\n", Page([(0, 1, 1, 1), (0, 1, 1, 2)], False)),
    ("mergings 2 after 0 1 2 3", "mergings\nend\n", Page([], True)),
    ("mergings 5", "mergings\n0\nend\n", Page([(0,)], True)),
    (
        "trace",
        "trace 1\npoints 2\nstage\n7 7\n7 7\nD 0\nclosure\n0 1\n1 0\nend\n",
        "trace 1\npoints 2\nstage\n7 7\n7 7\nD 0\nclosure\n0 1\n1 0\nend\n",
    ),
    (
        "trace 2",
        "trace 2\npoints 2\nstage\n7 7\n7 7\nR\nclosure\n0 1\n1 0\nend\n",
        "trace 2\npoints 2\nstage\n7 7\n7 7\nR\nclosure\n0 1\n1 0\nend\n",
    ),
    ("write graph6 1", "graph6 Gr`HOk\n", "Gr`HOk"),
    ("write digraph6 1", "digraph6 &BP_\n", "&BP_"),
]


class Answers(unittest.TestCase):
    def test_each_by_itself(self):
        for line, text, answer in ANSWERS:
            with self.subTest(line=line, text=text):
                self.assertEqual(read_answers([line], text), [answer])

    def test_all_together_with_lines_that_ask_for_nothing(self):
        lines = [it for line, _, _ in ANSWERS for it in (line, "# closed", "")]
        text = "".join(text for _, text, _ in ANSWERS)
        self.assertEqual(read_answers(lines, text), [answer for _, _, answer in ANSWERS])

    def test_constants(self):
        text = "constants 2 entries 4\n0 0 0 1\n1 1 0 1\n0 1 1 1\n1 0 1 1\n"
        (constants,) = read_answers(["constants"], text)
        self.assertEqual([constants(1, 1, 0), constants(1, 1, 1), constants.rank], [1, 0, 2])
        self.assertEqual(list(constants), [(0, 0, 0, 1), (1, 1, 0, 1), (0, 1, 1, 1), (1, 0, 1, 1)])
        self.assertEqual([list(it) for it in (constants.i, constants.k)], [[0, 1, 0, 1], [0, 0, 1, 1]])
        self.assertEqual((len(constants), constants.entries[1, 0, 1]), (4, 1))
        with self.assertRaises(IndexError):
            constants(0, 0, 2)

    def test_constants_in_pieces_and_between_other_answers(self):
        rows = [(i, j, k, 1 + (i * j) % 3) for k in range(9) for i in range(9) for j in range(9)]
        table = "constants 9 entries 729\n" + "".join("%d %d %d %d\n" % it for it in rows)
        tests = "tests homogeneous yes symmetric no commutative yes thin yes primitive no\n"
        for piece in (8, 100, 1 << 22):
            with mock.patch("gannetdivan.answers._PIECE", piece):
                _, constants, _ = read_answers(["tests", "constants", "tests"], tests + table + tests)
            self.assertEqual(list(constants), rows)
            self.assertEqual([constants(*it[:3]) for it in rows], [it[3] for it in rows])

    def test_constants_without_numpy(self):
        table = "constants 1 entries 1\n0 0 0 1\n"
        with mock.patch.dict(sys.modules, {"numpy": None}):
            (constants,) = read_answers(["constants"], table)
        self.assertEqual((list(constants), type(constants.i).__name__), ([(0, 0, 0, 1)], "array"))
        one = "constants 1 entries 1\n0 0 0"
        for bad in ("constants 1 entries 2\n0 0 0 1\n", f"{one}\n", f"{one} 1", f"{one} 1 1\n"):
            with self.assertRaises(UnreadableAnswer):
                read_answers(["constants"], bad)

    def test_no_answer_is_read_from_a_part_of_it(self):
        for line, text, answer in ANSWERS:
            for end in range(len(text)):
                with self.subTest(line=line, text=text[:end]), self.assertRaises(UnreadableAnswer):
                    read_answers([line], text[:end])

    def test_what_is_no_answer(self):
        for line, text in [
            ("tests", "ok points 2 rank 2\n"),
            ("show", "show points 2 rank 2\n0 1\n1\n"),
            ("show", "show points 2 rank 2\n0 1\n1 x\n"),
            ("adopt", "ok points 2 rank 2\nok points 2 rank 2\n"),
            ("# nothing", "ok points 2 rank 2\n"),
        ]:
            with self.subTest(line=line, text=text), self.assertRaises(UnreadableAnswer):
                read_answers([line], text)

    def test_verdicts(self):
        accepted = read_verdict("accepted points 2 rank 4 steps 1\n")
        self.assertEqual(accepted, Verdict(True, points=2, rank=4, steps=1))
        self.assertTrue(accepted)
        self.assertEqual(read_verdict("accepted points 3 cells 2 steps 1\n"), Verdict(True, 3, steps=1, cells=2))
        refused = read_verdict("refused line 7 IdleStep\n")
        self.assertEqual(refused, Verdict(False, line=7, word="IdleStep"))
        self.assertFalse(refused)
        with self.assertRaises(UnreadableAnswer):
            read_verdict("")


if __name__ == "__main__":
    unittest.main()
