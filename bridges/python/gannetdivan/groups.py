"""Configurations of permutation groups."""

from __future__ import annotations

from typing import Any, Optional

from .configuration import Configuration
from .permutations import orbital_matrix
from .relations import matrix_text

__all__ = ["orbitals"]


def orbitals(generators: Any, points: Optional[int] = None) -> Configuration:
    """Make the configuration whose classes are the orbits of a permutation group on pairs of points.

    They are the 2-orbits of the group, with which a search for mergings begins. The group need not be
    transitive. The orbits are found here, by union-find over the pairs; that they are a configuration the
    program tells, as it does for every closure.

    Parameters
    ----------
    generators : iterable of sequences of int, or group
        Permutations, each as the list of the images of the points 0, 1 and so on, or as sympy has them; a
        ``PermutationGroup`` of sympy; or one of Sage, whose points are numbered from 0 in the order of its
        domain.
    points : int, optional
        The number of points, where there is no generator to tell it.

    Returns
    -------
    Configuration

    Raises
    ------
    BadRelation
        ``TooManyPoints``: there are more than 256 points.
    TypeError
        A generator is no sequence of integers.
    ValueError
        A generator is no permutation of the points, or nothing tells how many points there are.

    Examples
    --------
    >>> import gannetdivan
    >>> gannetdivan.orbitals([[1, 2, 3, 4, 0], [0, 4, 3, 2, 1]])
    <Configuration of rank 3 on 5 points>
    >>> gannetdivan.orbitals([[1, 2, 0, 3]]).fibres
    [[0, 1, 2], [3]]
    """
    return Configuration(matrix_text(orbital_matrix(generators, points)))
