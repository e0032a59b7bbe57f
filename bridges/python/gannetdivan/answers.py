"""The answers of the program, and one reader for each answer's text.

Points, colours and classes are numbered from 0. A matrix is a list of N rows of N colours; the entry at
place y of row x is the colour of the pair (x, y).
"""

from __future__ import annotations

import re
from array import array
from bisect import bisect_left, bisect_right
from dataclasses import dataclass
from functools import cached_property
from typing import Any, Callable, Dict, Iterable, Iterator, List, Sequence, Tuple, TypeVar, Union

from . import hints
from .errors import Refused, UnreadableAnswer
from .history import words_of

__all__ = [
    "ArrayAnswer",
    "ClassRow",
    "Constants",
    "Disconnected",
    "Edited",
    "Irregular",
    "IntersectionArray",
    "Lines",
    "MatrixAnswer",
    "Page",
    "Raw",
    "Refusal",
    "SchemeTests",
    "Verdict",
    "read_answers",
    "read_question",
    "read_verdict",
]

Matrix = List[List[int]]
Numbers = Tuple[int, ...]
Answer = TypeVar("Answer")


@dataclass(frozen=True)
class Edited:
    """An edit, an undo or a redo was carried out.

    Attributes
    ----------
    points, rank : int
        The number of points and the rank of the closure afterwards.
    """

    points: int
    rank: int


@dataclass(frozen=True)
class Refusal:
    """A line was refused, and changed nothing.

    Attributes
    ----------
    word : str
        Why, as ``PointRange``.
    """

    word: str


@dataclass(frozen=True)
class MatrixAnswer:
    """A configuration: the closure, or a quotient or subscheme of it.

    Attributes
    ----------
    points, rank : int
    matrix : list of list of int, points rows of points colours
    """

    points: int
    rank: int
    matrix: Matrix


@dataclass(frozen=True)
class Raw:
    """The colouring itself, before any closure.

    Attributes
    ----------
    points : int
    colours : int
        How many colours are in use. They need not be 0, 1 and so on.
    matrix : list of list of int, points rows of points colours
    """

    points: int
    colours: int
    matrix: Matrix


@dataclass(frozen=True)
class ClassRow:
    """A class of a configuration.

    Attributes
    ----------
    number : int
        Its number, which is its colour in the matrix.
    size : int
        How many pairs it has.
    valency : int
        How many points v have (X, v) in it, where X is the first point of `pair`.
    transpose : int
        The class of the turned pairs.
    pair : tuple of two int
        Its first pair: the diagonal comes first, and then the other pairs row by row.
    fibres : tuple of two int
        The classes of (X, X) and (Y, Y), where (X, Y) is `pair`.
    """

    number: int
    size: int
    valency: int
    transpose: int
    pair: Tuple[int, int]
    fibres: Tuple[int, int]


class Constants:
    """The intersection numbers p(i, j; k) that are not 0, as four columns.

    Iterating gives them as (i, j, k, number), and `len` tells how many there are. They come by k, then i, then j.

    Attributes
    ----------
    rank : int
    i, j, k, number : arrays of int
        The columns, of numpy where it is installed, else of `array`. Entry at of `number` is how many points z
        have (x, z) in class ``i[at]`` and (z, y) in class ``j[at]``, for each pair (x, y) of class ``k[at]``.
    """

    def __init__(self, rank: int, columns: Sequence[Sequence[int]]) -> None:
        self.rank = rank
        self.i, self.j, self.k, self.number = columns

    def __repr__(self) -> str:
        return f"<Constants of rank {self.rank}, {len(self)} of them not 0>"

    def __len__(self) -> int:
        return len(self.number)

    def __iter__(self) -> Iterator[Tuple[int, int, int, int]]:
        return zip(*(it.tolist() for it in (self.i, self.j, self.k, self.number)))

    def __call__(self, i: int, j: int, k: int) -> int:
        """Tell p(i, j; k), where i, j and k are classes from 0 to rank - 1."""
        if not all(0 <= it < self.rank for it in (i, j, k)):
            raise IndexError(f"p({i}, {j}; {k}) has no meaning where the rank is {self.rank}")
        start, end = 0, len(self)
        for column, wanted in ((self.k, k), (self.i, i), (self.j, j)):
            start, end = bisect_left(column, wanted, start, end), bisect_right(column, wanted, start, end)
        return int(self.number[start]) if start < end else 0

    @cached_property
    def entries(self) -> Dict[Tuple[int, int, int], int]:
        """The numbers by (i, j, k), as a dict, which takes much memory where the rank is high."""
        return {(i, j, k): number for i, j, k, number in self}


@dataclass(frozen=True)
class SchemeTests:
    """Five properties of a configuration.

    Attributes
    ----------
    homogeneous, symmetric, commutative, thin, primitive : bool
    """

    homogeneous: bool
    symmetric: bool
    commutative: bool
    thin: bool
    primitive: bool


@dataclass(frozen=True)
class IntersectionArray:
    """The intersection array of a distance-regular graph of diameter d.

    Attributes
    ----------
    b : tuple of int
        The numbers b_0 to b_(d-1).
    c : tuple of int
        The numbers c_1 to c_d.
    """

    b: Numbers
    c: Numbers

    def __str__(self) -> str:
        return "{%s;%s}" % (",".join(map(str, self.b)), ",".join(map(str, self.c)))


@dataclass(frozen=True)
class Disconnected:
    """A graph is not connected.

    Attributes
    ----------
    pair : tuple of two int
        Two points with no walk between them, the first such pair row by row.
    """

    pair: Tuple[int, int]

    def __str__(self) -> str:
        return "disconnected: there is no walk from %d to %d" % self.pair


@dataclass(frozen=True)
class Irregular:
    """A graph is connected and not distance-regular.

    Attributes
    ----------
    pair, other : tuple of two int
        Two pairs of points at the same distance, whose numbers of nearer and farther neighbours differ.
    """

    pair: Tuple[int, int]
    other: Tuple[int, int]

    def __str__(self) -> str:
        return "irregular: (%d, %d) and (%d, %d) differ" % (*self.pair, *self.other)


ArrayAnswer = Union[IntersectionArray, Disconnected, Irregular]


@dataclass(frozen=True)
class Page:
    """A part of the list of all fusions.

    Attributes
    ----------
    strings : list of tuple of int
        Growth strings: entry i is the block of class i. They come in lexicographic order.
    is_last : bool
        Whether no fusion comes after them.
    """

    strings: List[Numbers]
    is_last: bool


@dataclass(frozen=True)
class Verdict:
    """What the checker says of a trace. It is true where the trace is accepted.

    Attributes
    ----------
    accepted : bool
    points, rank, steps : int or None
        The size and the rank of the claimed closure and the number of all steps, where it is accepted.
    line : int or None
        The first bad line, counted from 1, where it is not.
    word : str or None
        What is wrong with it, as ``IdleStep``.
    cells : int or None
        The number of cells that are claimed, where a trace of cells is accepted; such a trace has no rank.
    """

    accepted: bool
    points: Union[int, None] = None
    rank: Union[int, None] = None
    steps: Union[int, None] = None
    line: Union[int, None] = None
    word: Union[str, None] = None
    cells: Union[int, None] = None

    def __bool__(self) -> bool:
        return self.accepted


# What ends a table of numbers.
_NO_NUMBER = re.compile("[^0-9 \n]")
# As many characters of a table are read at a time.
_PIECE = 1 << 22


class Lines:
    """The lines of a text, taken one by one. A line that does not fit raises ValueError."""

    def __init__(self, text: str) -> None:
        self._text = text
        self._at = 0

    def next(self) -> str:
        """The line that is taken next, or nothing where no whole line is left."""
        return self._text[self._at : max(self._at, self._text.find("\n", self._at))]

    def take(self) -> str:
        line = self.next()
        if not line:
            raise ValueError
        self._at += len(line) + 1
        return line

    def is_at_end(self) -> bool:
        return self._at == len(self._text)

    def table(self, rows: int, columns: int) -> List[Any]:
        """Take lines of numbers, and tell their columns as arrays."""
        start, past = self._at, _NO_NUMBER.search(self._text, self._at)
        self._at = end = past.start() if past else len(self._text)
        found = (self._text.count("\n", start, end), self._text.count(" ", start, end))
        if found != (rows, rows * (columns - 1)) or not self._text.endswith("\n", start, end):
            raise ValueError
        return _columns(self._text, start, end, columns)

    def match(self, pattern: str) -> List[str]:
        return list(_match(pattern, self.take()))

    def numbers(self, pattern: str) -> List[int]:
        return [int(it) for it in self.match(pattern)]

    def row(self) -> List[int]:
        return _row(self.take())

    def matrix(self, points: int) -> Matrix:
        rows = [self.row() for _ in range(points)]
        if any(len(it) != points for it in rows):
            raise ValueError
        return rows

    def until_end(self) -> List[Numbers]:
        return [tuple(_row(it)) for it in iter(self.take, "end")]


def _match(pattern: str, line: str) -> Tuple[str, ...]:
    # N in a pattern stands for a number.
    found = re.fullmatch(pattern.replace("N", "([0-9]+)"), line)
    if found is None:
        raise ValueError
    return found.groups()


def _row(line: str) -> List[int]:
    return [int(it) for it in line.split(" ")]


def _columns(text: str, start: int, end: int, columns: int) -> List[Any]:
    """Read the numbers between two places of a text, in pieces of whole lines, as columns."""
    try:
        import numpy
    except ImportError:
        numpy = None
    pieces: List[List[Any]] = [[] for _ in range(columns)]
    while start < end:
        stop = end if end - start <= _PIECE else text.rindex("\n", start, start + _PIECE) + 1
        piece = text[start:stop]
        if numpy:
            flat = numpy.fromstring(piece, dtype=numpy.uint32, sep=" ")
        else:
            flat = array("I", map(int, piece.split()))
        if len(flat) != columns * piece.count("\n"):
            raise ValueError
        for at, column in enumerate(pieces):
            # (a copy, so that the rest of the piece is given back)
            column.append(flat[at::columns].copy() if numpy else flat[at::columns])
        start = stop
    if numpy:
        return [numpy.concatenate(it) for it in pieces]
    return [sum(it[1:], it[0]) for it in pieces]


def _edited(lines: Lines) -> Edited:
    return Edited(*lines.numbers("ok points N rank N"))


def _matrix_under(head: str) -> Callable[[Lines], MatrixAnswer]:
    def read(lines: Lines) -> MatrixAnswer:
        points, rank = lines.numbers(f"{head} points N rank N")
        return MatrixAnswer(points, rank, lines.matrix(points))

    return read


def _raw(lines: Lines) -> Raw:
    points, colours = lines.numbers("raw points N colours N")
    return Raw(points, colours, lines.matrix(points))


def _classes(lines: Lines) -> List[ClassRow]:
    (rank,) = lines.numbers("classes N")
    return [_class_row(lines) for _ in range(rank)]


def _class_row(lines: Lines) -> ClassRow:
    number, size, valency, transpose, x, y, a, b = lines.numbers(
        "class N size N valency N transpose N pair N N fibres N N"
    )
    return ClassRow(number, size, valency, transpose, (x, y), (a, b))


def _constants(lines: Lines) -> Constants:
    rank, entries = lines.numbers("constants N entries N")
    i, j, k, number = lines.table(entries, 4)
    return Constants(rank, (i, j, k, number))


def _tests(lines: Lines) -> SchemeTests:
    words = "tests homogeneous W symmetric W commutative W thin W primitive W"
    return SchemeTests(*(it == "yes" for it in lines.match(words.replace("W", "(yes|no)"))))


def _array(lines: Lines) -> ArrayAnswer:
    said = lines.take()
    if said.startswith("array disconnected"):
        x, y = map(int, _match("array disconnected N N", said))
        return Disconnected((x, y))
    if said.startswith("array irregular"):
        x, y, u, v = map(int, _match("array irregular N N N N", said))
        return Irregular((x, y), (u, v))
    b, c = (it.split(",") if it else [] for it in _match(r"array \{([0-9,]*);([0-9,]*)\}", said))
    return IntersectionArray(tuple(map(int, b)), tuple(map(int, c)))


def _sets_under(head: str) -> Callable[[Lines], List[Numbers]]:
    def read(lines: Lines) -> List[Numbers]:
        lines.match(head)
        return lines.until_end()

    return read


def _closed_string(lines: Lines) -> Numbers:
    return tuple(_row(lines.match("close (.+)")[0]))


def _page(lines: Lines) -> Page:
    lines.match("mergings")
    strings: List[Numbers] = []
    while True:
        said = lines.take()
        if said == "end":
            return Page(strings, True)
        if said.startswith("next after "):
            return Page(strings, False)
        strings.append(tuple(_row(said)))


def _trace(lines: Lines) -> str:
    (head,) = lines.match("(trace [12])")
    return "".join(f"{it}\n" for it in [head, *iter(lines.take, "end"), "end"])


def _graph(lines: Lines) -> str:
    return lines.match("(?:di)?graph6 (.+)")[0]


_READERS: Dict[str, Callable[[Lines], Any]] = {
    **dict.fromkeys(
        ["set", "both", "fix", "join", "adopt", "fuse", "direct", "wreath", "undo", "redo"], _edited
    ),
    **{it: _matrix_under(it) for it in ["show", "quotient", "sub"]},
    **{it: _sets_under(it) for it in ["closed", "good"]},
    "raw": _raw,
    "classes": _classes,
    "constants": _constants,
    "tests": _tests,
    "array": _array,
    "close": _closed_string,
    "mergings": _page,
    "trace": _trace,
    "write": _graph,
}


def read_answers(asked: Iterable[str], text: str) -> List[Any]:
    """Read the answers to the lines of a script.

    Parameters
    ----------
    asked : iterable of str
        The lines of the script.
    text : str
        What the program printed.

    Returns
    -------
    list
        For each line that asks for something its answer, a `Refusal` where it was refused: an `Edited`,
        `MatrixAnswer`, `Raw`, `Constants`, `SchemeTests`, `IntersectionArray`, `Disconnected`, `Irregular`
        or `Page`; a list of `ClassRow`, or of closed or good subsets as tuples; the growth string of
        ``close`` as a tuple; the text of a trace or of a graph.

    Raises
    ------
    UnreadableAnswer
        The text is not that of the answers to these lines.
    """
    lines, answers, line = Lines(text), [], ""
    try:
        for line in asked:
            words = words_of(line)
            if words:
                answers.append(_answer(words[0], lines))
    except (KeyError, ValueError):
        raise UnreadableAnswer(f"{line!r:.200} is not answered by what the program printed: {text!r:.1000}") from None
    if not lines.is_at_end():
        raise UnreadableAnswer("the program went on after the last answer")
    return answers


def _answer(word: str, lines: Lines) -> Any:
    if lines.next().startswith("refused "):
        return Refusal(lines.match("refused ([A-Za-z]+)")[0])
    return _READERS[word](lines)


def read_question(text: str, asked: str, read: Callable[[Lines], Answer]) -> Answer:
    """Read the answer to a question beside scripts.

    Parameters
    ----------
    text : str
        What the program printed.
    asked : str
        The question, for errors.
    read : callable
        What reads the answer where it is no refusal.

    Raises
    ------
    Refused
        The answer is a refusal.
    UnreadableAnswer
        It is neither.
    """
    lines = Lines(text)
    try:
        if lines.next().startswith("refused "):
            word, numbers = lines.match("refused ([A-Za-z]+)((?: [0-9]+)*)")
            raise Refused(word, asked, tuple(map(int, numbers.split())), hints.QUESTION)
        answer = read(lines)
    except ValueError:
        raise UnreadableAnswer(f"the program answered {text!r:.1000} to {asked!r:.200}") from None
    if not lines.is_at_end():
        raise UnreadableAnswer("the program went on after the answer")
    return answer


def read_verdict(text: str) -> Verdict:
    """Read what ``cohere check`` or ``cohere check-cells`` prints.

    Parameters
    ----------
    text : str
        The one line.

    Returns
    -------
    Verdict

    Raises
    ------
    UnreadableAnswer
        It is no verdict.
    """
    try:
        if text.startswith("accepted"):
            points, kind, count, steps = _match("accepted points N (rank|cells) N steps N\n", text)
            counted = {"points": int(points), kind: int(count), "steps": int(steps)}
            return Verdict(True, **counted)
        line, word = _match("refused line N ([A-Za-z]+)\n", text)
        return Verdict(False, line=int(line), word=word)
    except ValueError:
        raise UnreadableAnswer(f"the program answered {text!r} to a trace") from None


def numbers_text(numbers: Sequence[int]) -> str:
    """Write numbers as the words of a script."""
    return " ".join(map(str, numbers))
