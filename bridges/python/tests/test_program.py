"""Where the program is looked for, and what its endings mean."""

import os
import stat
import tempfile
import unittest
from pathlib import Path
from unittest import mock

import gannetdivan
from gannetdivan.errors import error_of
from gannetdivan.program import answers, find


def stand_in(folder, body, name="cohere"):
    """Make a program of a shell script."""
    path = Path(folder, name)
    path.write_text(f"#!/bin/sh\n{body}\n")
    path.chmod(path.stat().st_mode | stat.S_IXUSR)
    return str(path)


class Endings(unittest.TestCase):
    def test_errors(self):
        for status, said, kind, kept in [
            (3, "cohere: r: PadBits at 2\n", gannetdivan.BadRelation, {"word": "PadBits", "place": 2}),
            (3, "cohere: a: b: NoLine at 0\n", gannetdivan.BadRelation, {"word": "NoLine", "place": 0}),
            (3, "cohere: r: TooLong\n", gannetdivan.BadRelation, {"word": "TooLong", "place": None}),
            (3, "cohere: script: line 2 BadLimit\n", gannetdivan.BadScript, {"word": "BadLimit", "line": 2}),
            (3, "cohere: script: TooLong\n", gannetdivan.BadScript, {"word": "TooLong", "line": None}),
            (3, "cohere: t: line 10 End\n", gannetdivan.BadTrace, {"word": "End", "line": 10}),
            (4, "cohere: cannot read S\n", gannetdivan.ProgramFailed, {"status": 4}),
            (6, "cohere: out of memory\n", gannetdivan.OutOfMemory, {"status": 6}),
            (70, "cohere: the program is not built\n", gannetdivan.ProgramMissing, {}),
            (-9, "", gannetdivan.ProgramFailed, {"status": -9}),
        ]:
            with self.subTest(said=said, status=status):
                fault = error_of(status, said)
                self.assertIs(type(fault), kind)
                self.assertEqual({name: getattr(fault, name) for name in kept}, kept)

    def test_messages(self):
        for fault, front in [
            (error_of(3, "cohere: r: PadBits at 2\n"), "r: PadBits at 2"),
            (error_of(3, "cohere: script: line 2 BadLimit\n"), "script: line 2 BadLimit"),
            (gannetdivan.Refused("NotClosed", "quotient 0 1"), "quotient 0 1: refused NotClosed"),
        ]:
            self.assertTrue(fault.hint)
            self.assertEqual(str(fault), f"{front}: {fault.hint}")
        # (a word that a newer program has)
        self.assertEqual(str(error_of(3, "cohere: r: NewWord at 2\n")), "r: NewWord at 2")
        self.assertEqual(str(gannetdivan.Refused("NewWord", "new")), "new: refused NewWord")


class Finding(unittest.TestCase):
    def test_the_environment_comes_first_and_then_the_path(self):
        with tempfile.TemporaryDirectory() as folder:
            one = stand_in(folder, "exit 0", "one")
            other = stand_in(folder, "exit 0")
            with mock.patch.dict(os.environ, {"COHERE": one, "PATH": folder}):
                self.assertEqual(find(), os.path.realpath(one))
            with mock.patch.dict(os.environ, {"COHERE": "", "PATH": folder}):
                self.assertEqual(find(), os.path.realpath(other))

    def test_a_missing_program_says_how_to_build_it(self):
        with mock.patch.dict(os.environ, {"COHERE": "/no/such/program"}):
            with self.assertRaisesRegex(gannetdivan.ProgramMissing, "bin/cohere"):
                gannetdivan.closure("A_")

    def test_a_checkout_that_is_not_built(self):
        with tempfile.TemporaryDirectory() as folder:
            Path(folder, "crates.txt").touch()
            Path(folder, "bin").mkdir()
            program = stand_in(Path(folder, "bin"), "echo 'cohere: the program is not built' >&2; exit 70")
            with mock.patch.dict(os.environ, {"COHERE": program}):
                with self.assertRaisesRegex(gannetdivan.ProgramMissing, "not built.*Build it"):
                    gannetdivan.closure("A_")

    def test_a_checkout_that_is_built_gives_the_program_itself(self):
        with tempfile.TemporaryDirectory() as folder:
            for it in ("bin", "build"):
                Path(folder, it).mkdir()
            Path(folder, "crates.txt").touch()
            program = stand_in(Path(folder, "bin"), "exit 2")
            built = stand_in(Path(folder, "build"), "exit 2", "cohere-0123")
            with mock.patch.dict(os.environ, {"COHERE": program}):
                self.assertEqual(find(), os.path.realpath(built))


class Asking(unittest.TestCase):
    def test_files_and_faults_by_their_names(self):
        body = 'cat; cat "$3" product; echo "cohere: -: BadByte at 3" >&2; exit $(cat status)'
        with tempfile.TemporaryDirectory() as folder:
            with mock.patch.dict(os.environ, {"COHERE": stand_in(folder, body)}):
                said = answers("r\n", ["show", "tests"], {"product": "p\n", "status": "0"})
                self.assertEqual(said, "r\nshow\ntests\np\n")
                with self.assertRaisesRegex(gannetdivan.BadRelation, "^relation: BadByte at 3: "):
                    answers("r\n", ["show"], {"product": "", "status": "3"})
                body = body.replace("-: BadByte at 3", "product: BadByte at 2")
                stand_in(folder, body)
                with self.assertRaisesRegex(gannetdivan.BadRelation, "^my.g6: BadByte at 2: .*name of a file"):
                    answers("r\n", ["show"], {"product": "a/b.g6", "status": "3"}, {"product": "my.g6"})
                body = body.replace("product: BadByte at 2", "script: line 2 UnknownWord")
                stand_in(folder, body)
                said = "^script: line 2 UnknownWord, 'shwo': .*'show' does"
                with self.assertRaisesRegex(gannetdivan.BadScript, said):
                    answers("r\n", ["tests", "shwo"], {"product": "", "status": "3"})


if __name__ == "__main__":
    unittest.main()
