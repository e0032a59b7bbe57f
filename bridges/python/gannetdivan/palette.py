"""Colours for classes, that people of every colour vision tell apart as far as their number allows."""

from __future__ import annotations

import colorsys
from typing import Dict, List, NamedTuple, Optional, Sequence, Tuple

from .answers import ClassRow

__all__ = ["MOST_COLOURS", "Colour", "Group", "class_colours", "class_groups", "ink_on"]

Colour = Tuple[float, float, float]
"""Red, green and blue, each from 0 to 1."""

# Okabe and Ito, "Color Universal Design" (2008), without their black, which is for the diagonal. The order
# puts far apart what a picture of few classes has.
_OKABE_ITO = ["#e69f00", "#0072b2", "#f0e442", "#009e73", "#cc79a7", "#56b4e9", "#d55e00"]
# Where more colours are needed: each of them again, darker and lighter.
_SHADES = [0.0, -0.45, 0.55]


def _rgb(text: str) -> Colour:
    red, green, blue = (int(text[at : at + 2], 16) / 255 for at in (1, 3, 5))
    return red, green, blue


def _shaded(colour: Colour, shade: float) -> Colour:
    """Mix the colour with white, or with black where the shade is negative."""
    end = 1.0 if shade > 0 else 0.0
    red, green, blue = (it + (end - it) * abs(shade) for it in colour)
    return red, green, blue


MOST_COLOURS = len(_SHADES) * len(_OKABE_ITO)
"""How many colours there are that are told apart, beside the greys of the diagonal."""


def _spread(count: int) -> List[Colour]:
    """Take this many colours from the list, or from the circle of hues where it is too short."""
    listed = [_shaded(_rgb(it), shade) for shade in _SHADES for it in _OKABE_ITO]
    if count <= len(listed):
        return listed[:count]
    # Hues a golden section apart, of changing lightness.
    return [
        colorsys.hls_to_rgb(at * 0.618033988749895 % 1, (0.35, 0.6, 0.8)[at % 3], 0.75) for at in range(count)
    ]


def _greys(count: int) -> List[Colour]:
    return [(at * 0.6 / max(count - 1, 1),) * 3 for at in range(count)]


class Group(NamedTuple):
    """Classes that have one colour, and what they have in common."""

    colour: Colour
    classes: List[ClassRow]
    said: str


# How many groups of classes a picture has at most, beside the diagonal and the rest.
_MOST_GROUPS = 12
_REST: Colour = (0.94, 0.94, 0.94)


def class_groups(classes: Sequence[ClassRow], chosen: Optional[Sequence[int]] = None) -> List[Group]:
    """Choose colours for classes: one for each, or where there are too many, one for each valency.

    Parameters
    ----------
    classes : sequence of ClassRow
        All classes in turn.
    chosen : sequence of int, optional
        The classes that have colours of their own; all others share one.

    Returns
    -------
    list of Group
        Each class stands in one group.
    """
    if chosen is not None:
        wanted = list(dict.fromkeys(chosen))
        groups = [Group(colour, [classes[it]], "") for colour, it in zip(_spread(len(wanted)), wanted)]
        return [*groups, Group(_REST, [it for it in classes if it.number not in wanted], "all others")]
    fibres = sum(it.pair[0] == it.pair[1] for it in classes)
    if len(classes) - fibres <= MOST_COLOURS and fibres <= MOST_COLOURS:
        return [Group(colour, [it], "") for colour, it in zip(class_colours(classes), classes)]
    by_valency: Dict[int, List[ClassRow]] = {}
    for it in classes[fibres:]:
        by_valency.setdefault(it.valency, []).append(it)
    # (those with the most pairs have colours of their own)
    ranked = sorted(by_valency, key=lambda it: -sum(row.size for row in by_valency[it]))
    groups = [Group((0.0, 0.0, 0.0), list(classes[:fibres]), "diagonal")]
    for colour, valency in zip(_spread(min(len(ranked), _MOST_GROUPS)), sorted(ranked[:_MOST_GROUPS])):
        groups.append(Group(colour, by_valency[valency], f"valency {valency}"))
    rest = [it for valency in ranked[_MOST_GROUPS:] for it in by_valency[valency]]
    return [*groups, Group(_REST, rest, "other valencies")] if rest else groups


def class_colours(classes: Sequence[ClassRow]) -> List[Colour]:
    """Choose a colour for each class.

    Diagonal classes are greys, from black on. A class and its transpose have colours of their own.

    Parameters
    ----------
    classes : sequence of ClassRow
        All classes in turn.

    Returns
    -------
    list of Colour
        By class.
    """
    fibres = sum(it.pair[0] == it.pair[1] for it in classes)
    return [*_greys(fibres), *_spread(len(classes) - fibres)]


def ink_on(colour: Colour) -> str:
    """Tell whether black or white is read on a colour."""
    red, green, blue = colour
    return "black" if 0.299 * red + 0.587 * green + 0.114 * blue > 0.5 else "white"
