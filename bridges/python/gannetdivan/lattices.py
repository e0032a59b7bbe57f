"""The lattice of all fusions of a configuration."""

from __future__ import annotations

from typing import Any, List, Tuple

from .answers import Lines, Numbers, read_question
from .errors import CohereError
from .program import question

__all__ = ["Lattice"]


class Lattice:
    """The fusions of a configuration, and which is finer than which.

    Fusions are numbered from 0 in lexicographic order; the last one is the configuration itself. A fusion is
    finer than another where all classes that it merges are merged by the other too.

    Parameters
    ----------
    text : str
        The text of a relation. `gannetdivan.Configuration.lattice` is what users call.

    Attributes
    ----------
    fusions : list of tuple of int
        Growth strings: entry i of one is the block of class i.
    covers : list of (int, int)
        The pairs (i, j) by i and then j where fusion i is finer than fusion j, with none between.
    """

    def __init__(self, text: str) -> None:
        self._text = text
        self.fusions: List[Numbers]
        self.covers: List[Tuple[int, int]]
        self.fusions, self.covers = read_question(question(["lattice", "-"], text), "lattice", _lattice)

    def __len__(self) -> int:
        return len(self.fusions)

    def __repr__(self) -> str:
        return f"<Lattice of {len(self)} fusions, with {len(self.covers)} covers>"

    def rank(self, number: int) -> int:
        """Tell how many classes a fusion has."""
        return 1 + max(self.fusions[self._place(number)])

    def is_finer(self, one: int, other: int) -> bool:
        """Tell whether a fusion is finer than another, or the same."""
        pairs = zip(self.fusions[self._place(one)], self.fusions[self._place(other)])
        return len(set(pairs)) == self.rank(one)

    def meet(self, one: int, other: int) -> int:
        """Tell the coarsest fusion that is finer than both of two fusions.

        Parameters
        ----------
        one, other : int
            The numbers of two fusions.

        Returns
        -------
        int
            The number of that fusion.
        """
        words = ["lattice", "-", str(self._place(one)), str(self._place(other))]
        return read_question(question(words, self._text), " ".join(words), _common)

    def digraph(self) -> Any:
        """Make the digraph of the covers, which draws the lattice.

        Returns
        -------
        networkx.DiGraph
            Its nodes are the numbers of the fusions, each with its growth string as `fusion` and its `rank`.
            An arc leads from each fusion to each that covers it.

        Raises
        ------
        CohereError
            networkx is not installed.
        """
        try:
            import networkx
        except ImportError as fault:
            raise CohereError("a digraph needs networkx, which is not installed for this Python") from fault
        graph = networkx.DiGraph()
        for number, fusion in enumerate(self.fusions):
            graph.add_node(number, fusion=fusion, rank=self.rank(number))
        graph.add_edges_from(self.covers)
        return graph

    def _place(self, number: int) -> int:
        if not 0 <= number < len(self):
            raise IndexError(f"there is no fusion {number}: they are numbered from 0 to {len(self) - 1}")
        return number


def _lattice(lines: Lines) -> Tuple[List[Numbers], List[Tuple[int, int]]]:
    fusions, covers = lines.numbers("lattice fusions N covers N")
    strings = [tuple(lines.row()) for _ in range(fusions)]
    pairs = [lines.numbers("N N") for _ in range(covers)]
    lines.match("end")
    return strings, [(one, other) for one, other in pairs]


def _common(lines: Lines) -> int:
    return lines.numbers("common N N N")[2]
