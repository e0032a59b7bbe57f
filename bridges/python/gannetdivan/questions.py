"""The questions beside scripts: Schur rings, equitable partitions, tables of intersection arrays.

The lattice of the fusions is a question about a configuration, and stands in `gannetdivan.lattices`.
"""

from __future__ import annotations

import operator
import re
from dataclasses import dataclass, field
from typing import Any, Iterable, List, Sequence, Tuple, Union

from .answers import Constants, IntersectionArray, Lines, Numbers, read_answers, read_question
from .configuration import Classes, class_numbers
from .permutations import is_group
from .program import answers, question
from .relations import colour_number, relation_text

__all__ = ["Cells", "Ring", "Table", "cells", "ring", "table"]

# What the program takes as a diameter, and as a number of an intersection array.
_DIAMETERS, _ENTRIES = range(1, 33), range(1, 256)


def blocks_of(numbers: Sequence[int]) -> List[Numbers]:
    """Tell the blocks of a partition, by the number of the block of each thing."""
    blocks: List[List[int]] = [[] for _ in range(1 + max(numbers))]
    for thing, number in enumerate(numbers):
        blocks[number].append(thing)
    return [tuple(it) for it in blocks]


@dataclass(frozen=True)
class Ring:
    """A Schur ring over a group, by its basic sets.

    Attributes
    ----------
    numbers : tuple of int
        For each element of the group the number of its basic set. Sets are numbered in the order in which
        they are first met, from the unit on.
    """

    numbers: Numbers

    @property
    def rank(self) -> int:
        """How many basic sets there are."""
        return 1 + max(self.numbers)

    @property
    def basic_sets(self) -> List[Numbers]:
        """The basic sets, each as a tuple of elements that rise. The first is that of the unit, (0,)."""
        return blocks_of(self.numbers)


@dataclass(frozen=True)
class Cells:
    """The coarsest equitable partition of the points of a digraph.

    From the points of one cell equally many arcs lead into each cell.

    Attributes
    ----------
    numbers : tuple of int
        The cell of each point. Cells are numbered in the order in which they are first met, from point 0 on.
    steps : tuple of (int, int)
        Steps that lead to it from the partition with one cell. A step (c, z) parts the cell c by how many
        arcs lead from a point into the cell z; `docs/FORMATS.md` of the repository says which numbers the
        parts get.
    trace : str
        The certificate, which `gannetdivan.check_cells` judges.
    """

    numbers: Numbers
    steps: Tuple[Tuple[int, int], ...]
    trace: str = field(repr=False)

    @property
    def blocks(self) -> List[Numbers]:
        """The cells, each as a tuple of points that rise."""
        return blocks_of(self.numbers)


@dataclass(frozen=True)
class Table:
    """The parameters that an intersection array determines, whether there is such a graph or not.

    Attributes
    ----------
    array : IntersectionArray
    points : int
        The number of points.
    numbers : Constants
        How many points are at distance i from x and j from y, where x and y are at distance k, of those that
        are not 0: ``numbers(i, j, k)``.
    """

    array: IntersectionArray
    points: int
    numbers: Constants = field(repr=False, compare=False)

    @property
    def valencies(self) -> Numbers:
        """How many points are at each distance from a point, from distance 0 on."""
        return tuple(self.numbers(it, it, 0) for it in range(self.numbers.rank))


def ring(table: Any, colours: Union[Sequence[int], Iterable[Iterable[int]]]) -> Ring:
    """Compute the Schur ring over a group that sets of its elements generate.

    It is the coarsest Schur ring in which each of these sets is a union of basic sets.

    Parameters
    ----------
    table : matrix or text
        The table of products of the group, as `gannetdivan.closure` takes a relation: the product of x and y
        stands at place y of row x, and element 0 is the unit.
    colours : sequence of int, or iterable of iterables of int
        A colour for each element, so that the sets are those of one colour; or the sets themselves, which may
        overlap.

    Returns
    -------
    Ring

    Raises
    ------
    BadRelation
        The program does not read the table.
    Refused
        ``NotGroup``: it is no table of a group. ``ColourCount``: there is not a colour for each element.
        ``ColourRange``: a colour is above 1,048,575.
    TypeError
        `table` is a group, and not its table.
    ValueError
        There is no colour, or a set has what is no element.

    Examples
    --------
    >>> import gannetdivan
    >>> cyclic = [[(x + y) % 6 for y in range(6)] for x in range(6)]
    >>> gannetdivan.ring(cyclic, [[1, 5]]).basic_sets
    [(0,), (1, 5), (2, 4), (3,)]
    """
    if is_group(table):
        raise TypeError("a ring is over the table of products of a group, as lists of numbers of elements")
    text = relation_text(table)
    given = list(colours)
    if any(isinstance(it, Iterable) for it in given):
        given = _colours_of_sets(given, _points(text))
    if not given:
        raise ValueError("there is a colour for each element, or one set at least")
    words = ["ring", "-", *(str(colour_number(it)) for it in given)]
    return read_question(question(words, text, "table"), "ring", _ring)


def _points(text: str) -> int:
    return read_answers(["raw"], answers(text, ["raw"]))[0].points


def _colours_of_sets(sets: Sequence[Iterable[int]], order: int) -> List[int]:
    """Give elements one colour where they are in the same sets."""
    chosen = [{operator.index(it) for it in one} for one in sets]
    for it in sorted(set().union(*chosen)):
        if not 0 <= it < order:
            raise ValueError(f"there is no element {it}: elements are numbered from 0 to {order - 1}")
    patterns = [tuple(it in one for one in chosen) for it in range(order)]
    number = {it: at for at, it in enumerate(dict.fromkeys(patterns))}
    return [number[it] for it in patterns]


def _ring(lines: Lines) -> Ring:
    points, rank = lines.numbers("ring points N rank N")
    found = Ring(tuple(lines.row()))
    if len(found.numbers) != points or found.rank != rank:
        raise ValueError
    return found


def cells(relation: Any, colours: Classes = 1) -> Cells:
    """Compute the coarsest equitable partition of the points, which colour refinement ends at.

    Parameters
    ----------
    relation : anything that `gannetdivan.closure` takes
    colours : int or iterable of int
        The pairs of these colours of the relation, as it is read, are the arcs: 1 for the edges of a graph.
        Of a `Configuration` the colours are its classes.

    Returns
    -------
    Cells

    Raises
    ------
    BadRelation
        The program does not read the relation.
    Refused
        ``BadSet``: no pair has one of the colours.

    Examples
    --------
    >>> import gannetdivan
    >>> gannetdivan.cells("Bg").blocks
    [(0, 2), (1,)]
    """
    words = ["cells", "-", *(str(colour_number(it)) for it in class_numbers(colours))]
    text = question(words, relation_text(relation))
    return Cells(*read_question(text, " ".join(words), _cells), text)


def _cells(lines: Lines) -> Tuple[Numbers, Tuple[Tuple[int, int], ...]]:
    lines.match("cells 1")
    (points,) = lines.numbers("points N")
    for _ in range(points):
        lines.take()
    steps = []
    while lines.next() != "cells":
        parted, by = lines.numbers("S N N")
        steps.append((parted, by))
    lines.match("cells")
    numbers = tuple(lines.row())
    lines.match("end")
    if len(numbers) != points:
        raise ValueError
    return numbers, tuple(steps)


def table(array: Any) -> Table:
    """Tell the parameters that an intersection array determines.

    Every distance-regular graph with this array has them. That there is one they do not say.

    Parameters
    ----------
    array : IntersectionArray, str, or pair of sequences of int
        Its numbers b_0 to b_(D-1) and c_1 to c_D, as a text ``{3,2;1,1}`` or as two sequences.

    Returns
    -------
    Table

    Raises
    ------
    Refused
        No graph on at most 256 points has this array: the first test that it fails. ``FirstC``, ``Parts``,
        ``Valency``, ``TooManyPoints``, ``Negative`` or ``Division``; `numbers` of the exception tells where.
    ValueError
        This is no array with a diameter of 1 to 32 and numbers from 1 to 255.

    Examples
    --------
    >>> import gannetdivan
    >>> gannetdivan.table("{3,2;1,1}").valencies
    (1, 3, 6)
    """
    given = _array_of(array)
    words = ["table", *map(str, [len(given.b), *given.b, *given.c])]
    points, numbers = read_question(question(words), f"table of {given}", _table)
    return Table(given, points, numbers)


def _array_of(array: Any) -> IntersectionArray:
    if isinstance(array, str):
        halves = array.split(";")
        if not all(re.fullmatch(r"[{\s]*[0-9]+(\s*,\s*[0-9]+)*[}\s]*", it) for it in halves):
            raise ValueError(f"{array!r} is no intersection array, which is written as '{{3,2;1,1}}'")
        array = [map(int, re.findall("[0-9]+", it)) for it in halves]
    b, c = (array.b, array.c) if isinstance(array, IntersectionArray) else array
    found = IntersectionArray(tuple(map(operator.index, b)), tuple(map(operator.index, c)))
    if len(found.b) != len(found.c) or len(found.b) not in _DIAMETERS:
        raise ValueError(f"{found} has not as many b as c, 1 to {_DIAMETERS[-1]} of each")
    if not all(it in _ENTRIES for it in [*found.b, *found.c]):
        raise ValueError(f"{found} has a number that is not from 1 to {_ENTRIES[-1]}")
    return found


def _table(lines: Lines) -> Tuple[int, Constants]:
    points, rank, entries = lines.numbers("table points N rank N entries N")
    return points, Constants(rank, lines.table(entries, 4))
