"""A coherent configuration, and the questions that the program answers about it."""

from __future__ import annotations

import operator
from collections import Counter
from functools import cached_property
from typing import Any, Dict, Iterable, Iterator, List, Optional, Sequence, Tuple, Union

from .answers import (
    ArrayAnswer,
    ClassRow,
    Constants,
    Matrix,
    MatrixAnswer,
    Numbers,
    Page,
    Refusal,
    SchemeTests,
    Verdict,
    numbers_text,
    read_answers,
)
from .errors import Refused
from .lattices import Lattice
from .program import answers
from .relations import matrix_text, relation_text
from .traces import check, trace_line
from .unions import join, leader

__all__ = ["Classes", "Configuration", "Merging", "closure"]

Classes = Union[int, Iterable[int]]
"""A class, or several; they stand for the set of all pairs in one of them."""

Merging = Union[Sequence[int], Iterable[Iterable[int]]]
"""How classes are merged: a growth string, whose entry i is the block of class i; or the blocks, as lists of
classes in which each class stands once."""


def closure(relation: Any) -> Configuration:
    """Compute the coherent closure of a relation.

    It is the coarsest coherent configuration that refines the relation's colouring, which the
    two-dimensional Weisfeiler-Leman algorithm computes too.

    Parameters
    ----------
    relation : str, bytes, path, matrix or graph
        A graph6 or digraph6 text; a square matrix of colours, as lists or as a numpy array; a graph or
        digraph of networkx or Sage; a permutation group of sympy or Sage; a `pathlib.Path` of a file.
        `gannetdivan.relations.relation_text` says more.

    Returns
    -------
    Configuration

    Raises
    ------
    BadRelation
        The program does not read the relation: more than 256 points, a bad byte of graph6, and so on.

    Examples
    --------
    >>> import gannetdivan
    >>> petersen = gannetdivan.closure("IheA@GUAo")
    >>> petersen.rank
    3
    >>> str(petersen.array(1))
    '{3,2;1,1}'
    """
    return Configuration(relation_text(relation))


def class_numbers(classes: Classes) -> Numbers:
    """Tell the classes as a tuple that is not empty."""
    try:
        # (numbers of numpy and Sage are no int)
        return (operator.index(classes),)
    except TypeError:
        numbers = tuple(operator.index(it) for it in classes)
    if not numbers:
        raise ValueError("name at least one class")
    return numbers


def growth_string(merging: Merging, rank: Optional[int] = None) -> Numbers:
    """Tell the growth string of a merging, be it given as one or as blocks.

    Parameters
    ----------
    merging : sequence of int, or iterable of iterables of int
    rank : int, optional
        How many classes there are. Blocks that have not each of them once are then an error here.

    Raises
    ------
    ValueError
        Blocks do not have each class once.
    """
    given = list(merging)
    if not any(isinstance(it, Iterable) for it in given):
        return tuple(operator.index(it) for it in given)
    blocks = sorted(sorted(operator.index(it) for it in block) for block in given)
    counts = Counter(it for block in blocks for it in block)
    if not all(blocks):
        raise ValueError("a block has at least one class")
    count = len(counts) if rank is None else rank
    for it in sorted({*counts, *range(count)}):
        if not 0 <= it < count and rank is not None:
            raise ValueError(f"there is no class {it}: classes are numbered from 0 to {rank - 1}")
        if counts[it] != 1:
            said = "no block" if counts[it] == 0 else "more than one block"
            raise ValueError(f"class {it} is in {said}, and each class is in one; they are numbered from 0")
    place = {it: at for at, block in enumerate(blocks) for it in block}
    return tuple(place[it] for it in range(count))


class Configuration:
    """The coherent closure of a relation.

    Points are numbered from 0 to `points` - 1. Classes are numbered from 0 to `rank` - 1, in the order in
    which they are first met: along the diagonal, and then off it, row by row. So their numbers depend on the
    numbering of the points. A class's number is its colour in the matrix.

    A configuration does not change. Its matrix is computed when it is made; any other question is one run of
    the program when it is asked, and attributes keep their answer.

    Parameters
    ----------
    text : str
        The text of a relation, as the program reads it. `gannetdivan.closure` takes much else.

    Attributes
    ----------
    points : int
        The number of points, 1 to 256.
    rank : int
        The number of classes.
    matrix : list of list of int, points rows of points classes
        The entry at place y of row x is the class of the pair (x, y).
    """

    def __init__(self, text: str) -> None:
        self._text = text
        shown = self._ask("show")
        self.points: int = shown.points
        self.rank: int = shown.rank
        self.matrix: Matrix = shown.matrix

    def __repr__(self) -> str:
        return f"<Configuration of rank {self.rank} on {self.points} points>"

    def __eq__(self, other: object) -> bool:
        return self.matrix == other.matrix if isinstance(other, Configuration) else NotImplemented

    def __hash__(self) -> int:
        return hash(tuple(map(tuple, self.matrix)))

    def __cohere_text__(self) -> str:
        return matrix_text(self.matrix)

    def _ask(self, line: str, product: Optional[str] = None, then: Sequence[str] = ()) -> Any:
        asked = [line, *then]
        texts = None if product is None else {"product": product}
        answered = read_answers(asked, answers(self._text, asked, texts))
        for line, answer in zip(asked, answered):
            if isinstance(answer, Refusal):
                raise Refused(answer.word, line)
        return answered[-1]

    @cached_property
    def classes(self) -> List[ClassRow]:
        """The classes in turn, a list of `ClassRow`: sizes, valencies, transposes, first pairs, fibres."""
        return self._ask("classes")

    @cached_property
    def fibres(self) -> List[List[int]]:
        """The fibres, a list of lists of points. Fibre i has the points whose diagonal pair is in class i."""
        fibres: List[List[int]] = []
        for x, row in enumerate(self.matrix):
            if row[x] == len(fibres):
                fibres.append([])
            fibres[row[x]].append(x)
        return fibres

    @cached_property
    def constants(self) -> Constants:
        """All intersection numbers that are not 0, as the program lists them: at most points**3.

        `p` and `constants_of` tell single ones without this table.
        """
        return self._ask("constants")

    def p(self, i: int, j: int, k: int) -> int:
        """Tell an intersection number, which is counted in the matrix.

        Parameters
        ----------
        i, j, k : int
            Classes.

        Returns
        -------
        int
            p(i, j; k): how many points z have (x, z) in class i and (z, y) in class j, for each pair (x, y)
            of class k.
        """
        if not all(0 <= it < self.rank for it in (i, j, k)):
            raise IndexError(f"p({i}, {j}; {k}) has no meaning where the rank is {self.rank}")
        return sum(it == (i, j) for it in self._walks(k))

    def constants_of(self, k: int) -> Dict[Tuple[int, int], int]:
        """Tell the intersection numbers p(i, j; k) of one class k that are not 0.

        They are counted in the matrix, at the first pair of the class.

        Parameters
        ----------
        k : int
            A class.

        Returns
        -------
        dict of (int, int) to int
            By (i, j), by i and then j.
        """
        if not 0 <= k < self.rank:
            raise IndexError(f"{self!r} has no class {k}")
        return dict(sorted(Counter(self._walks(k)).items()))

    def _walks(self, k: int) -> Iterator[Tuple[int, int]]:
        """Tell the classes of (x, z) and (z, y) for each point z, where (x, y) is a pair of class k."""
        x, y = self._pairs[k]
        return zip(self.matrix[x], (row[y] for row in self.matrix))

    @cached_property
    def _pairs(self) -> Dict[int, Tuple[int, int]]:
        """A pair of each class."""
        return {it: (x, y) for x, row in enumerate(self.matrix) for y, it in enumerate(row)}

    @cached_property
    def _colouring(self) -> Matrix:
        return self._ask("raw").matrix

    def classes_of(self, colour: int) -> List[int]:
        """Tell the classes that a colour of the relation fell into.

        Parameters
        ----------
        colour : int
            A colour of the matrix that this is the closure of. Of a graph the edges or arcs have the colour 1,
            the other pairs off the diagonal 2, the diagonal 0, and loops 3.

        Returns
        -------
        list of int
            The classes, rising; none where no pair has the colour.

        Examples
        --------
        >>> import gannetdivan
        >>> path = gannetdivan.closure("Bg")
        >>> path.classes_of(1)
        [2, 4]
        >>> path.graph6(path.classes_of(1))
        'Bg'
        """
        coloured = zip(self.matrix, self._colouring)
        return sorted({it for row, colours in coloured for it, had in zip(row, colours) if had == colour})

    def colour_of(self, number: int) -> int:
        """Tell the colour that all pairs of a class have in the relation.

        Parameters
        ----------
        number : int
            A class.

        Returns
        -------
        int
            The colour, as `classes_of` takes it.
        """
        if not 0 <= number < self.rank:
            raise IndexError(f"{self!r} has no class {number}")
        x, y = self._pairs[number]
        return self._colouring[x][y]

    @cached_property
    def tests(self) -> SchemeTests:
        """Whether it is homogeneous, symmetric, commutative, thin, primitive."""
        return self._ask("tests")

    def array(self, classes: Classes) -> ArrayAnswer:
        """Tell the intersection array of a graph of classes.

        Parameters
        ----------
        classes : int or iterable of int
            The classes whose pairs are the edges.

        Returns
        -------
        IntersectionArray, Disconnected or Irregular
            Disconnected and Irregular name points that show why there is no array.

        Raises
        ------
        Refused
            ``BadSet``: a number is no class, or the pairs are not the edges of an undirected graph without
            loops.
        """
        return self._ask(f"array {numbers_text(class_numbers(classes))}")

    def closed_subsets(self) -> List[Numbers]:
        """List the closed subsets: the sets of classes whose pairs form an equivalence relation.

        Returns
        -------
        list of tuple of int
            Each set's classes rise. The sets come by their bit numbers, in which class c counts 2**c.

        Raises
        ------
        Refused
            ``RankAbove``: the rank is above 16.
        """
        return self._ask("closed")

    def good_subsets(self) -> List[Numbers]:
        """List the good subsets: the sets of classes that are a block of some fusion.

        Returns
        -------
        list of tuple of int
            In the form and order of `closed_subsets`.

        Raises
        ------
        Refused
            ``RankAbove``: the rank is above 16.
        """
        return self._ask("good")

    def quotient(self, classes: Classes) -> Configuration:
        """Make the quotient by a closed subset.

        Parameters
        ----------
        classes : int or iterable of int
            The closed subset.

        Returns
        -------
        Configuration
            Its points are the classes of the equivalence relation, by their least points.

        Raises
        ------
        Refused
            ``NotHomogeneous`` or ``NotClosed``.
        """
        return _of_matrix(self._ask(f"quotient {numbers_text(class_numbers(classes))}"))

    def subscheme(self, point: int, classes: Classes) -> Configuration:
        """Make the subscheme on the class of a point by a closed subset.

        Parameters
        ----------
        point : int
        classes : int or iterable of int
            The closed subset.

        Returns
        -------
        Configuration
            Its points are those y with (point, y) in the closed subset, rising.

        Raises
        ------
        Refused
            ``NotHomogeneous``, ``NotClosed`` or ``PointRange``.
        """
        return _of_matrix(self._ask(f"sub {point} {numbers_text(class_numbers(classes))}"))

    def direct(self, relation: Any) -> Configuration:
        """Make the direct product with the closure of a relation.

        Parameters
        ----------
        relation : anything that `closure` takes
            The second factor, on m points.

        Returns
        -------
        Configuration
            Point x * m + u stands for (x, u).

        Raises
        ------
        Refused
            ``TooManyPoints``: the product has more than 256 points.
        """
        return _of_matrix(self._ask("direct product", relation_text(relation), ["show"]))

    def wreath(self, relation: Any) -> Configuration:
        """Make the wreath product with the closure of a relation.

        A pair ((x, u), (y, v)) is coloured by (u, v) where u and v differ, and by (x, y) where not.

        Parameters
        ----------
        relation : anything that `closure` takes
            The second factor, on m points.

        Returns
        -------
        Configuration
            Point x * m + u stands for (x, u).

        Raises
        ------
        Refused
            ``TooManyPoints`` or ``NotHomogeneous``.
        """
        return _of_matrix(self._ask("wreath product", relation_text(relation), ["show"]))

    def fusions(self, after: Optional[Merging] = None, page: int = 1000) -> Iterator[Numbers]:
        """Iterate over all fusions: the partitions of the classes whose unions are a configuration.

        Parameters
        ----------
        after : growth string or blocks, optional
            As for `fuse`, to go on with the fusions that come after it.
        page : int
            How many are asked for in one run of the program, 1 to 10,000.

        Yields
        ------
        tuple of int
            A growth string of length `rank`: entry i is the block of class i, and blocks are numbered in
            the order in which they are first met. The strings come in lexicographic order, the last of
            them being 0, 1, 2 and so on, the configuration itself.

        Raises
        ------
        Refused
            ``RankAbove``: the rank is above 16. ``NotGrowth``: `after` is no growth string of length `rank`.
        """
        while True:
            tail = "" if after is None else f" after {numbers_text(growth_string(after, self.rank))}"
            got: Page = self._ask(f"mergings {page}{tail}")
            yield from got.strings
            if got.is_last:
                return
            after = got.strings[-1]

    def lattice(self) -> Lattice:
        """Make the lattice of all fusions: which of them is finer than which.

        Returns
        -------
        Lattice

        Raises
        ------
        Refused
            ``RankAbove``: the rank is above 16. ``TooManyFusions``: there are more than 300 fusions.

        Examples
        --------
        >>> import gannetdivan
        >>> lattice = gannetdivan.closure("Gr`HOk").lattice()
        >>> lattice.covers
        [(1, 0), (2, 0), (3, 1), (3, 2)]
        >>> lattice.meet(1, 2)
        3
        """
        return Lattice(self._text)

    def fuse(self, merging: Merging) -> Configuration:
        """Merge classes, and close what comes of it.

        Parameters
        ----------
        merging : sequence of int, or of sequences of int
            A growth string of length `rank`, whose entry i is the block of class i; or the blocks, as lists of
            classes. It need not be a fusion.

        Returns
        -------
        Configuration
            The closure of the merged colouring; where the merging is a fusion, its blocks themselves.

        Raises
        ------
        Refused
            ``NotGrowth``: it is no growth string of length `rank`.
        ValueError
            Blocks do not have each class once.
        """
        string = growth_string(merging, self.rank)
        return _of_matrix(self._ask(f"fuse {numbers_text(string)}", then=["show"]))

    def close(self, merging: Merging) -> Numbers:
        """Tell the coarsest fusion that refines a partition of the classes.

        Parameters
        ----------
        merging : sequence of int, or of sequences of int
            A growth string of length `rank`, or the blocks, as for `fuse`.

        Returns
        -------
        tuple of int
            The growth string of the fusion.

        Raises
        ------
        Refused
            ``NotGrowth``: it is no growth string of length `rank`.
        ValueError
            Blocks do not have each class once.
        """
        return self._ask(f"close {numbers_text(growth_string(merging, self.rank))}")

    def graph6(self, classes: Classes) -> str:
        """Write the graph of these classes in graph6.

        Parameters
        ----------
        classes : int or iterable of int
            The classes whose pairs are the edges.

        Returns
        -------
        str
            One line, without its end.

        Raises
        ------
        Refused
            ``BadSet``: a number is no class, or the pairs are not the edges of an undirected graph without
            loops.
        """
        return self._ask(f"write graph6 {numbers_text(class_numbers(classes))}")

    def digraph6(self, classes: Classes) -> str:
        """Write the digraph of these classes in digraph6.

        Parameters
        ----------
        classes : int or iterable of int
            The classes whose pairs are the arcs.

        Returns
        -------
        str
            One line, without its end.

        Raises
        ------
        Refused
            ``BadSet``: a number is no class.
        """
        return self._ask(f"write digraph6 {numbers_text(class_numbers(classes))}")

    def generated(self, classes: Classes) -> Numbers:
        """Tell the closed subset that classes generate: the least one that has them all.

        This is told from the matrix, so it knows no bound on the rank. Where there is one fibre, `quotient` by it
        has the program confirm that it is closed.

        Parameters
        ----------
        classes : int or iterable of int

        Returns
        -------
        tuple of int
            The classes, rising.

        Raises
        ------
        ValueError
            A number is no class.

        Examples
        --------
        >>> import gannetdivan
        >>> cube = gannetdivan.closure("Gr`HOk")
        >>> cube.generated(2), cube.generated([2, 3])
        ((0, 2), (0, 1, 2, 3))
        """
        chosen = frozenset(class_numbers(classes))
        for it in sorted(chosen):
            if not 0 <= it < self.rank:
                raise ValueError(f"there is no class {it}: classes are numbered from 0 to {self.rank - 1}")
        leaders = list(range(self.points))
        for x, row in enumerate(self.matrix):
            for y, it in enumerate(row):
                if it in chosen:
                    join(leaders, x, y)
        blocks = [leader(leaders, x) for x in range(self.points)]
        pairs = ((it, blocks[x] == blocks[y]) for x, row in enumerate(self.matrix) for y, it in enumerate(row))
        return tuple(sorted({it for it, are_together in pairs if are_together}))

    def blocks(self, classes: Classes) -> List[List[int]]:
        """Tell the classes of the equivalence relation that a closed subset is.

        This is told from the matrix, so it knows no bound on the rank.

        Parameters
        ----------
        classes : int or iterable of int
            The closed subset.

        Returns
        -------
        list of list of int
            Lists of points, rising, by their least points.

        Raises
        ------
        ValueError
            The pairs of these classes are no equivalence relation on all points.
        """
        chosen = frozenset(class_numbers(classes))
        near = [[y for y, it in enumerate(row) if it in chosen] for row in self.matrix]
        if any(x not in near[x] or near[y] != near[x] for x in range(self.points) for y in near[x]):
            raise ValueError(f"{sorted(chosen)} is no closed subset of {self!r}")
        return [it for x, it in enumerate(near) if it[0] == x]

    def trace(self, version: int = 1) -> str:
        """Make a certificate that this is the closure of the relation that it was made of.

        Parameters
        ----------
        version : int
            1 for steps on one class each, 2 for rounds of refinement, which leave nothing to the program.

        Returns
        -------
        str
            A trace, which `gannetdivan.check` judges.
        """
        return self._ask(trace_line(version))

    def check(self) -> Verdict:
        """Make the trace, and let the checker judge it.

        Returns
        -------
        Verdict
            It is true where the trace is accepted.
        """
        return check(self.trace())


def _of_matrix(answer: MatrixAnswer) -> Configuration:
    # The closure of a configuration whose classes are so numbered is itself.
    return Configuration(matrix_text(answer.matrix))
