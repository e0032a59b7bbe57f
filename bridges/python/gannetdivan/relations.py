"""The text of a relation, made of what users have: texts, matrices, graphs and groups of networkx, sympy, Sage.

No graph format is written here: graphs are handed on by their own library's methods, and where it has none
for a graph, as a matrix of colours.
"""

from __future__ import annotations

import operator
import os
from pathlib import Path
from typing import Any, Iterable, List

from .permutations import is_group, orbital_matrix

__all__ = ["colour_number", "matrix_text", "relation_text"]

# The colours that the program gives to the pairs of a graph: the diagonal, an edge or arc, any other pair,
# a loop.
_DIAGONAL, _ARC, _OTHER, _LOOP = range(4)


def relation_text(relation: Any) -> str:
    """Tell the text that the program reads for a relation.

    Parameters
    ----------
    relation : str, bytes, path, matrix or graph
        A line of graph6 or digraph6, or a matrix in the program's own format (``matrix 2`` and its rows);
        a `pathlib.Path` of a file with one of these in front; a square matrix of N rows of N colours, as
        lists or as a numpy array; a graph or digraph of networkx or Sage; a permutation group of sympy or
        Sage, for its orbits on pairs; or a `gannetdivan.Configuration`.

    Returns
    -------
    str
        The text. Nothing is judged here that the program judges.

    Raises
    ------
    TypeError
        `relation` is none of these, or a multigraph, or its entries are no integers.
    ValueError
        `relation` is a matrix that is not square.

    Notes
    -----
    Point x is row x of a matrix, and the x-th node of a networkx graph in the order of ``list(graph)``. For
    a Sage graph it is what ``graph6_string`` and ``dig6_string`` make of it.

    A matrix of 0 and 1 is a matrix of two colours. Its closure is that of the graph without loops whose
    adjacency matrix it is, since a closure parts the diagonal from the rest.
    """
    if isinstance(relation, (bytes, bytearray)):
        return bytes(relation).decode("utf-8", "surrogateescape")
    if isinstance(relation, str):
        return relation
    if isinstance(relation, os.PathLike):
        return Path(relation).read_bytes().decode("utf-8", "surrogateescape")
    if hasattr(relation, "__cohere_text__"):
        return relation.__cohere_text__()
    if _is_of("networkx", relation) and hasattr(relation, "adj"):
        return _networkx_text(relation)
    if _is_of("sage", relation) and hasattr(relation, "graph6_string"):
        return f"{relation.graph6_string()}\n"
    if _is_of("sage", relation) and hasattr(relation, "dig6_string"):
        return f"&{relation.dig6_string().lstrip('&')}\n"
    if is_group(relation):
        return matrix_text(orbital_matrix(relation))
    if hasattr(relation, "tolist"):
        relation = relation.tolist()
    if isinstance(relation, Iterable):
        return matrix_text(relation)
    raise TypeError(f"a relation is a text, a matrix, a graph or a group, and no {type(relation).__name__}")


def matrix_text(rows: Iterable[Iterable[Any]]) -> str:
    """Write a matrix of colours in the program's own format.

    Parameters
    ----------
    rows : iterable of iterables of int
        N rows of N colours.

    Returns
    -------
    str
        ``matrix N``, and a line for each row.

    Raises
    ------
    TypeError
        A row is no row, or an entry is no integer.
    ValueError
        The matrix is not square, or an entry is negative.
    """
    matrix: List[List[int]] = []
    for x, row in enumerate(rows):
        if isinstance(row, (str, bytes)) or not isinstance(row, Iterable):
            raise TypeError(f"row {x} of a matrix of colours is a list of integers, and no {type(row).__name__}")
        matrix.append([colour_number(it) for it in row])
    for x, row in enumerate(matrix):
        if len(row) != len(matrix):
            raise ValueError(f"a matrix of colours is square: row {x} of {len(matrix)} has {len(row)} entries")
    lines = [f"matrix {len(matrix)}", *(" ".join(map(str, row)) for row in matrix)]
    return "".join(f"{line}\n" for line in lines)


def colour_number(entry: Any) -> int:
    """Tell an entry of a matrix of colours, or one colour, as an int."""
    # (adjacency matrices are often of floats)
    if isinstance(entry, float) and entry.is_integer():
        entry = int(entry)
    # (for Python 3.9 the index of True is True)
    colour = int(operator.index(entry))
    if colour < 0:
        raise ValueError(f"a colour is at least 0, and {colour} is not")
    return colour


def _is_of(library: str, thing: object) -> bool:
    return any(it.__module__.split(".")[0] == library for it in type(thing).__mro__)


def _networkx_text(graph: Any) -> str:
    import networkx

    if graph.is_multigraph():
        raise TypeError("a multigraph is no relation: hand over a matrix with a colour for each pair of points")
    nodes = list(graph)
    if not graph.is_directed() and networkx.number_of_selfloops(graph) == 0:
        return networkx.to_graph6_bytes(graph, nodes=None, header=False).decode("ascii")
    # networkx writes no digraph6, and no loops.
    return matrix_text([[_colour_of_pair(graph, x, y) for y in nodes] for x in nodes])


def _colour_of_pair(graph: Any, x: Any, y: Any) -> int:
    if x == y:
        return _LOOP if graph.has_edge(x, y) else _DIAGONAL
    return _ARC if graph.has_edge(x, y) else _OTHER
