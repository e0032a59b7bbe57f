"""A script over many graphs."""

import io
import os
import shutil
import subprocess
import sys
import tempfile
import unittest
from pathlib import Path
from unittest import mock

import gannetdivan
from gannetdivan.each import each, write_each

from . import plain
from .live import EXAMPLES, live
from .test_program import stand_in

# Debian has nauty's programs under other names.
GENG = shutil.which("geng") or shutil.which("nauty-geng")


class Terminal(io.StringIO):
    def isatty(self):
        return True


class Order(unittest.TestCase):
    def test_blocks_come_in_the_order_of_the_lines(self):
        # This program takes the longer the earlier its graph is, and finds no fault but in 'bad'.
        body = 'read it; sleep "0.$((9 - ${#it}))"; test "$it" = bad || { echo "got $it"; exit 0; }\n'
        body += 'echo "cohere: -: BadByte at 1" >&2; exit 3'
        lines = ["a\n", "bad\r\n", "cc\n", "dddd\n", "eeeeeee"]
        wanted = "# 1 a\ngot a\n# 3 cc\ngot cc\n# 4 dddd\ngot dddd\n# 5 eeeeeee\ngot eeeeeee\n"
        with tempfile.TemporaryDirectory() as folder:
            with mock.patch.dict(os.environ, {"COHERE": stand_in(folder, body)}):
                for jobs in (1, 8):
                    out, err = io.StringIO(), io.StringIO()
                    self.assertEqual(write_each("s", lines, out, err, jobs), 1)
                    self.assertEqual(out.getvalue(), wanted)
                    self.assertRegex(err.getvalue(), r"^gannetdivan each: line 2: BadByte at 1: .+\n$")

    def test_a_progress_bar_on_a_terminal(self):
        with tempfile.TemporaryDirectory() as folder:
            with mock.patch.dict(os.environ, {"COHERE": stand_in(folder, "exit 0")}):
                err = Terminal()
                write_each("s", ["a"] * 4, io.StringIO(), err, 2, 4)
        self.assertRegex(err.getvalue(), r"4/4 \[#+\] graphs, [0-9]+ a second\n$")


@live
class Many(unittest.TestCase):
    def script(self, *lines):
        folder = tempfile.TemporaryDirectory()
        self.addCleanup(folder.cleanup)
        path = Path(folder.name, "script")
        path.write_text("".join(f"{it}\n" for it in lines))
        return str(path)

    def command(self, *words, **streams):
        command = [sys.executable, "-m", "gannetdivan", "each", *words]
        return subprocess.run(command, capture_output=True, text=True, check=False, **streams)

    def test_command(self):
        ended = self.command(self.script("array 1"), input=f"Dhc\nDQd\nGr`HOk\n")
        self.assertEqual(ended.stdout, "# 1 Dhc\narray {2,1;1,1}\n# 3 Gr`HOk\narray {3,2,1;1,2,3}\n")
        self.assertRegex(ended.stderr, r"^gannetdivan each: line 2: PadBits at 2: .+\n$")
        self.assertEqual(ended.returncode, 1)

    def test_a_file_of_graphs(self):
        ended = self.command(self.script("tests"), str(EXAMPLES / "connected_5.g6"))
        self.assertEqual((ended.returncode, ended.stdout.count("# ")), (0, 21))

    def test_a_bad_script_stops_it(self):
        ended = self.command(self.script("shwo"), input="DQd\nDhc\nDhc\n")
        self.assertEqual((ended.returncode, ended.stdout), (3, ""))
        self.assertIn("line 1 UnknownWord", ended.stderr)
        self.assertEqual(self.command("no_such_script", input="Dhc\n").returncode, 3)

    @unittest.skipIf(GENG is None, "nauty's geng is not installed")
    def test_all_graphs_on_up_to_6_points(self):
        script = self.script("show")
        counts = []
        for points in range(1, 7):
            made = subprocess.run([GENG, "-q", str(points)], capture_output=True, text=True, check=True)
            graphs = made.stdout.splitlines()
            counts.append(len(graphs))
            for it in each(script, graphs):
                matrix = plain.closure(plain.graph_matrix(it.graph))
                rows = [[int(c) for c in line.split()] for line in it.text.splitlines()[1:]]
                self.assertEqual(rows, matrix, it.graph)
        # How many graphs there are up to isomorphism: OEIS A000088.
        self.assertEqual(counts, [1, 2, 4, 11, 34, 156])


if __name__ == "__main__":
    unittest.main()
