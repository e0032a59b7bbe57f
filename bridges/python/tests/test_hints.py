"""What is said beside the program's words: that it is there for each word, and fits what users hand over."""

import re
import unittest

import gannetdivan
from gannetdivan import hints
from gannetdivan.errors import Handed, error_of

from .live import EXAMPLES, TOP, live


def words_of_formats():
    """Read the words of docs/FORMATS.md out of its tables."""
    text = (TOP / "docs" / "FORMATS.md").read_text("utf-8")
    refused = text[text.index("### Refused lines") : text.index("## Traces")]
    rest = text.replace(refused, "")
    first = re.findall(r"^\| `([A-Z][A-Za-z]+)` \|", rest, re.M)
    second = re.findall(r"^\| (?:a step|`stage`[^|]*|`closure`|`cells`) \| `([A-Z][A-Za-z]+)` \|", rest, re.M)
    # (these two stand beside the tables)
    return {*first, *second, *re.findall("`([A-Z][a-z]+[A-Z][A-Za-z]+)`", refused), "NoLine", "TooLong"}


class Words(unittest.TestCase):
    def test_each_word_has_a_hint(self):
        hinted = {*hints.RELATION, *hints.SCRIPT, *hints.REFUSED, *hints.TRACE, *hints.QUESTION, *hints.CELL_TRACE}
        self.assertEqual(hinted, words_of_formats())

    def test_the_manual_page_has_each_word(self):
        page = (TOP / "docs" / "cohere.1").read_text("utf-8")
        page = page[page.index(".SH WORDS OF ERRORS") : page.index(".SH EXAMPLES")]
        self.assertEqual(set(re.findall(r"^\.B ([A-Z][A-Za-z]+)$", page, re.M)), words_of_formats())

    def test_the_file_for_gap_has_each_word(self):
        text = (TOP / "bridges" / "gap" / "hints.g").read_text("utf-8")
        self.assertEqual(set(re.findall(r"^  ([A-Z][A-Za-z]+) :=", text, re.M)), words_of_formats())


class Texts(unittest.TestCase):
    def hint(self, text, word, place=0):
        return gannetdivan.BadRelation(word, place, text=text)

    def test_what_is_handed_over(self):
        for text, word, place, said in [
            ("examples/x.g6", "BadByte", 8, "pathlib.Path('examples/x.g6')"),
            (str(EXAMPLES / "cube_3.g6"), "BadByte", 0, "pathlib.Path("),
            ("no_such.matrix", "BadByte", 7, "name of a file"),
            ("\ufeffDhc\n", "BadByte", 0, "byte order mark"),
            (":An\n", "BadByte", 0, "sparse6"),
            (">>sparse6<<:An\n", "BadByte", 2, "sparse6"),
            ("0,1\n1,0\n", "BadByte", 0, "commas"),
            ("0 1 1\n1 0 1\n1 1 0\n", "BadByte", 0, "'matrix 3'"),
            ("0 1\n1 2\n2 0\n", "BadByte", 0, "parse_edgelist"),
            ("[[0, 1], [1, 0]]", "BadByte", 1, "text of a list"),
            ("tests\nshow\n", "WrongLength", 5, "the relation comes first"),
            ("trace 1\npoints 2\n", "WrongLength", 7, "check judges it"),
            ("graph {\n", "BadByte", 5, "networkx"),
            ("~?CB", "TooManyPoints", 0, "259 points"),
            ("DQ", "WrongLength", 2, "5 points is a line of 3 characters, and this one has 2"),
            ("&BP", "WrongLength", 3, "3 points is a line of 4 characters, and this one has 3"),
            ("DQd", "PadBits", 2, "it is no graph6"),
            ("", "NoLine", 0, "empty"),
        ]:
            with self.subTest(text=text):
                self.assertIn(said, self.hint(text, word, place).hint)

    def test_rows_of_a_matrix(self):
        for text, word, place, row, said in [
            ("matrix 2\n0 1\n1\n", "MatrixCount", 14, 1, "row 1, counted from 0, has 1 numbers, and 2 are due"),
            ("matrix 2\n0 1\n", "MatrixCount", 13, 1, "'matrix 2' is followed by 2 rows, and here are 1"),
            ("matrix 2\n0,1\n1,0\n", "BadByte", 10, 0, "no commas"),
            ("matrix 2\n0 1\n1 -1\n", "BadByte", 15, 1, "colours are at least 0"),
            ("matrix 1\n07\n", "MatrixNumber", 9, 0, "leading zero"),
            ("matrix x\n", "MatrixHead", 0, None, "'matrix N'"),
        ]:
            with self.subTest(text=text):
                fault = self.hint(text, word, place)
                self.assertEqual(fault.row, row)
                self.assertIn(said, fault.hint)
                self.assertIn(f"{word} at {place}" + ("" if row is None else f" (row {row})"), str(fault))

    def test_lines_of_a_script(self):
        for line, word, said in [
            ("shwo", "UnknownWord", "'show' does"),
            ("trace 1", "UnknownWord", "'trace 2'"),
            ("write sparse6 1", "UnknownWord", "write graph6"),
            ("fix 1,2", "BadNumber", "comma"),
            ("IheA@GUAo", "UnknownWord", "the relation comes first"),
            ("matrix 2", "UnknownWord", "the relation comes first"),
        ]:
            with self.subTest(line=line):
                fault = error_of(3, f"cohere: s: line 1 {word}\n", "s", {"s": Handed("my", f"{line}\n")})
                self.assertIn(f"my: line 1 {word}, {line!r}: ", str(fault))
                self.assertIn(said, fault.hint)


@live
class Live(unittest.TestCase):
    def test_a_name_of_a_file(self):
        with self.assertRaisesRegex(gannetdivan.BadRelation, r"BadByte at 8: .*pathlib\.Path\('examples/x\.g6'\)"):
            gannetdivan.closure("examples/x.g6")

    def test_rows_and_lines(self):
        with self.assertRaisesRegex(gannetdivan.BadRelation, r"MatrixCount at 14 \(row 1\)"):
            gannetdivan.closure("matrix 2\n0 1\n1\n")
        with self.assertRaisesRegex(gannetdivan.BadScript, "line 3 WrongCount, 'fix'"):
            gannetdivan.Session("Dhc").run("tests", "show\nfix")
        with self.assertRaisesRegex(gannetdivan.Refused, "fix 5: refused PointRange: .*numbered from 0"):
            gannetdivan.Session("Dhc").fix(5)


if __name__ == "__main__":
    unittest.main()
