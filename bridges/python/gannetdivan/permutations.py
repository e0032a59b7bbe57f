"""Permutations of points, as users have them, and the orbits of their group on pairs of points.

Points are numbered from 0, and a permutation of n points is the list of the n images of 0, 1 and so on.
"""

from __future__ import annotations

import operator
from typing import Any, Iterable, List, Optional

from .answers import Matrix
from .errors import BadRelation
from .unions import join, leader

__all__ = ["Permutation", "is_group", "orbital_matrix", "permutations_of"]

Permutation = List[int]

# The program reads no relation on more points.
_MOST_POINTS = 256


def is_group(thing: Any) -> bool:
    """Tell whether this is a permutation group of sympy or Sage, or has the methods of one."""
    return _is_of_sympy(thing) or _is_of_sage(thing)


def _is_of_sympy(thing: Any) -> bool:
    return hasattr(thing, "generators") and hasattr(thing, "degree")


def _is_of_sage(thing: Any) -> bool:
    return hasattr(thing, "gens") and hasattr(thing, "domain")


def permutations_of(generators: Any, points: Optional[int] = None) -> List[Permutation]:
    """Tell the permutations that generate a group, each as the list of its images.

    Parameters
    ----------
    generators : iterable of sequences of int, or group
        Permutations, as lists of images or as those of sympy; a ``PermutationGroup`` of sympy; or one of Sage,
        whose points are numbered from 0 in the order of its domain.
    points : int, optional
        The number of points; where it is left out, the generators tell it.

    Returns
    -------
    list of list of int
        The permutations, one at least: the identity where there is no generator.

    Raises
    ------
    TypeError
        A generator is no sequence of integers.
    ValueError
        A generator is no permutation of the points, or nothing tells how many points there are.
    """
    if _is_of_sage(generators):
        listed = _images_in_sage(generators)
    elif _is_of_sympy(generators):
        listed = [_images(it) for it in generators.generators]
    else:
        listed = [_images(it) for it in generators]
    if points is None and not listed:
        raise ValueError("no generator tells the number of points: say points=N")
    size = len(listed[0]) if points is None else operator.index(points)
    for at, images in enumerate(listed):
        if sorted(images) != list(range(size)):
            raise ValueError(
                f"generator {at} is no permutation of {size} points: its images are to be 0 to {size - 1}, each once"
            )
    return listed or [list(range(size))]


def _images(permutation: Any) -> Permutation:
    if isinstance(permutation, (str, bytes)) or not isinstance(permutation, Iterable):
        raise TypeError(f"a permutation is the list of its images, and no {type(permutation).__name__}")
    return [operator.index(it) for it in permutation]


def _images_in_sage(group: Any) -> List[Permutation]:
    domain = list(group.domain())
    place = {it: at for at, it in enumerate(domain)}
    return [[place[generator(it)] for it in domain] for generator in group.gens()]


def orbital_matrix(generators: Any, points: Optional[int] = None) -> Matrix:
    """Tell the orbit of each pair of points under the group that permutations generate.

    It is found by union-find over the pairs: each generator joins a pair to its image.

    Parameters
    ----------
    generators, points
        As for `permutations_of`.

    Returns
    -------
    list of list of int, points rows of points numbers
        Orbits are numbered from 0 in the order in which they are first met: along the diagonal, and then off
        it, row by row.

    Raises
    ------
    BadRelation
        ``TooManyPoints``: there are more than 256 points.
    TypeError, ValueError
        As for `permutations_of`.
    """
    permutations = permutations_of(generators, points)
    size = len(permutations[0])
    if size > _MOST_POINTS:
        raise BadRelation("TooManyPoints", None, "permutations")
    leaders = list(range(size * size))
    for images in permutations:
        for x, image in enumerate(images):
            for y, other in enumerate(images):
                join(leaders, size * x + y, size * image + other)
    return _numbered([leader(leaders, it) for it in range(size * size)], size)


def _numbered(orbits: List[int], size: int) -> Matrix:
    numbers = {it: at for at, it in enumerate(dict.fromkeys([*orbits[:: size + 1], *orbits]))}
    return [[numbers[it] for it in orbits[size * x : size * (x + 1)]] for x in range(size)]
