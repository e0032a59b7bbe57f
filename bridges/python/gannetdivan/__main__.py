"""The commands of the package: ``python3 -m gannetdivan each`` and ``python3 -m gannetdivan draw``."""

from __future__ import annotations

import argparse
import os
import sys
from pathlib import Path
from typing import List, Optional

from . import __version__
from .configuration import Configuration
from .each import write_each
from .errors import CohereError


def _parser() -> argparse.ArgumentParser:
    parser = argparse.ArgumentParser(prog="python3 -m gannetdivan", description=__doc__)
    parser.add_argument("--version", action="version", version=__version__)
    commands = parser.add_subparsers(dest="command", required=True, metavar="COMMAND")

    each = commands.add_parser(
        "each",
        help="answer a script over each line of a file of graphs",
        description="Answers a script over each line of a file of graphs, in the order of the lines. Each "
        "block of answers is headed by '# LINE GRAPH'. A bad line is reported and the rest goes on; the "
        "exit status is then 1.",
    )
    each.add_argument("script", metavar="SCRIPT", help="the file of the script")
    each.add_argument("graphs", metavar="GRAPHS", nargs="?", default="-", help="a file of graph6 or digraph6 lines")
    each.add_argument("--jobs", type=_at_least_one, metavar="N", help="runs at a time (default: one a processor)")
    each.set_defaults(act=_each)

    draw = commands.add_parser(
        "draw",
        help="draw a closure, to SVG, PNG or PDF",
        description="Draws the closure of a relation, with matplotlib and networkx.",
    )
    draw.set_defaults(act=_draw)
    views = draw.add_subparsers(dest="view", required=True, metavar="VIEW")
    matrix = views.add_parser("matrix", help="the matrix of classes, with a legend")
    graph = views.add_parser("graph", help="the graph of one class or more")
    page = views.add_parser("classes", help="each class as a graph, all on one page")
    for view in (matrix, graph, page):
        view.add_argument("relation", metavar="RELATION", help="a file, or '-' for standard input")
        view.add_argument("picture", metavar="PICTURE", help="the file to write: .svg, .png or .pdf")
        view.add_argument("--title", metavar="TEXT", help="a line above the picture")
        default = "fibres, or closed subsets that classes generate" if view is matrix else "fibres"
        by = f"a closed subset to sort the points by (default: {default})"
        view.add_argument("--by", type=int, nargs="+", metavar="CLASS", help=by)
    matrix.add_argument(
        "--classes", type=int, nargs="+", metavar="CLASS", help="the classes that have colours (default: all)"
    )
    graph.add_argument("--classes", type=int, nargs="+", default=[1], metavar="CLASS", help="default: 1")
    for view in (graph, page):
        view.add_argument(
            "--layout", choices=["circle", "spring"], default="circle", help="where the points are put"
        )
    return parser


def _at_least_one(word: str) -> int:
    number = int(word)
    if number < 1:
        raise argparse.ArgumentTypeError("at least 1")
    return number


def _each(words: argparse.Namespace) -> int:
    if words.graphs == "-":
        return 1 if write_each(words.script, sys.stdin, jobs=words.jobs) else 0
    with open(words.graphs, encoding="utf-8", errors="surrogateescape") as graphs:
        total = sum(1 for _ in graphs) if sys.stderr.isatty() else None
        graphs.seek(0)
        return 1 if write_each(words.script, graphs, jobs=words.jobs, total=total) else 0


def _draw(words: argparse.Namespace) -> int:
    from . import drawing

    text = sys.stdin.read() if words.relation == "-" else Path(words.relation).read_text("utf-8", "surrogateescape")
    closure = Configuration(text)
    if words.view == "matrix":
        figure = drawing.draw_matrix(closure, words.by, words.title, words.classes)
    elif words.view == "graph":
        figure = drawing.draw_graph(closure, words.classes, words.by, words.layout, words.title)
    else:
        figure = drawing.draw_classes(closure, words.by, words.layout, words.title)
    drawing.save(figure, words.picture)
    return 0


def main(words: Optional[List[str]] = None) -> int:
    """Run a command, and tell its exit status: 0 done, 1 a graph was bad, 2 wrong words, 3 anything else."""
    given = _parser().parse_args(words)
    try:
        return given.act(given)
    except (CohereError, ValueError, OSError) as fault:
        if isinstance(fault, BrokenPipeError):
            # Whoever read has gone; what is left in the buffer is not to be written at exit.
            os.dup2(os.open(os.devnull, os.O_WRONLY), sys.stdout.fileno())
            return 3
        print(f"gannetdivan {given.command}: {fault}", file=sys.stderr)
        return 3
    except KeyboardInterrupt:
        return 130


if __name__ == "__main__":
    sys.exit(main())
