"""Union-find: things that are numbered from 0, joined to one another, each with a leader that tells who is with it."""

from __future__ import annotations

from typing import List

__all__ = ["join", "leader"]


def leader(leaders: List[int], one: int) -> int:
    """Tell the leader of a thing. `leaders` begins as 0, 1 and so on, and paths in it are made shorter on the way."""
    while leaders[one] != one:
        leaders[one] = one = leaders[leaders[one]]
    return one


def join(leaders: List[int], one: int, other: int) -> None:
    """Put two things together, with all that is with them."""
    if one != other:
        leaders[leader(leaders, one)] = leader(leaders, other)
