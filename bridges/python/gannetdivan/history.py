"""The history of a session, and what of it is sent again with the lines that are asked next.

The program keeps nothing between two runs. So a session sends the text of a colouring that it knows, and the
edits since then. It knows the relation that it began with, and the colouring after each run that edited.
"""

from __future__ import annotations

import re
from typing import Dict, Iterable, List, NamedTuple, Optional, Sequence, Set

__all__ = ["EDITS", "PRODUCTS", "History", "Line", "Plan", "words_of"]

PRODUCTS = ("direct", "wreath")
EDITS = ("set", "both", "fix", "join", "adopt", "fuse", *PRODUCTS)
_MOVES = (*EDITS, "undo", "redo")

# What one script holds: lines, bytes, edits, and lines with a product.
_MOST_LINES, _MOST_BYTES, _MOST_EDITS, _MOST_PRODUCTS = 10_000, 1_048_576, 256, 64
# Bytes and lines that are left free for a line of our own at the end.
_FREE = 16
# The same where each edit is followed by such a line.
_FREE_FOR_EACH = 2_048
# So many of the latest colourings are kept; older ones are so many edits apart, or so many bytes of them.
_LATEST = 16
_APART_EDITS, _APART_BYTES, _APART_PRODUCTS = 32, 65_536, 16

# The words of a line have blanks and tabs between them, and one CR at its end is dropped.
_FIRST = re.compile("[ \t]*([^ \t\r]*)")


def words_of(line: str) -> List[str]:
    """Tell the words of a line of a script; none for a comment and a line of blanks."""
    if first_word(line):
        return [it for it in re.split("[ \t]+", line[:-1] if line.endswith("\r") else line) if it]
    return []


def first_word(line: str) -> str:
    """Tell the first word of a line; nothing for a comment and a line of blanks."""
    word = _FIRST.match(line)[1]
    return "" if word.startswith("#") else word


class Line(NamedTuple):
    """A line of a script, as it is shown to the user and as it is sent to the program.

    The two differ for products: a name that is sent is one of the session's own, whatever a file is called.
    """

    shown: str
    sent: str

    @property
    def word(self) -> str:
        """The first word; nothing where the line asks for nothing."""
        return first_word(self.sent)


class Plan(NamedTuple):
    """What is sent before some lines: the text of a relation, and lines."""

    relation: str
    past: List[str]


def _count(lines: Iterable[Line], words: Sequence[str]) -> int:
    return sum(it.word in words for it in lines)


def _bytes(lines: Iterable[Line]) -> int:
    return sum(len(it.sent.encode("utf-8", "surrogateescape")) + 1 for it in lines)


class History:
    """The edits of a session, the position in them, and the colourings that are known at some positions.

    Attributes
    ----------
    edits : list of Line
        Those that were carried out, the undone ones among them.
    position : int
        How many of them the present colouring comes of.
    """

    def __init__(self, relation: str) -> None:
        self.edits: List[Line] = []
        self.position = 0
        self._known: Dict[int, str] = {0: relation}
        # Positions at which a trace begins anew, since the edit there did more than refine.
        self._starts: Set[int] = {0}

    def copy(self) -> History:
        twin = History(self._known[0])
        twin.edits, twin.position = list(self.edits), self.position
        twin._known, twin._starts = dict(self._known), set(self._starts)
        return twin

    def keep(self, line: Line) -> None:
        """Take note of an edit, an undo or a redo that was carried out."""
        if line.word in EDITS:
            self.edits[self.position :] = [_shortened(line)]
            self._known = {at: it for at, it in self._known.items() if at <= self.position}
            self._starts = {at for at in self._starts if at <= self.position}
        self.position += -1 if line.word == "undo" else 1

    def know(self, matrix: str, position: Optional[int] = None) -> None:
        """Take note of the colouring at a position, the present one where none is given."""
        at = self.position if position is None else position
        self._known[at] = matrix
        # An older one between two that are near enough is forgotten.
        known = sorted(it for it in self._known if it <= at)
        for before, old, after in zip(known, known[1:-_LATEST], known[2:]):
            if old not in self._starts and self._is_near(before, after):
                del self._known[old]
                return

    def _is_near(self, start: int, end: int) -> bool:
        between = self.edits[start:end]
        return (
            len(between) <= _APART_EDITS
            and _bytes(between) <= _APART_BYTES
            and _count(between, PRODUCTS) <= _APART_PRODUCTS
        )

    def start_trace_at(self, position: int, matrix: str) -> None:
        """Take note that the edit before this position did more than refine, and made this colouring."""
        self._known[position] = matrix
        self._starts.add(position)

    def reach(self, lines: Sequence[Line]) -> int:
        """Tell a position that these lines do not go below."""
        return max(0, self.position - _count(lines, ["undo"]))

    def plan(self, lines: Sequence[Line]) -> Optional[Plan]:
        """Tell what is sent before these lines; None where all of it is more than one script holds."""
        reach = self.reach(lines)
        known = self._starts if _count(lines, ["trace"]) else self._known
        start = max(at for at in known if at <= reach)
        end = min(len(self.edits), self.position + _count(lines, ["redo"]))
        past = self.edits[start:end] + [Line("undo", "undo")] * (end - self.position)
        if not _is_script([*past, *lines]):
            return None
        return Plan(self._known[start], [it.sent for it in past])

    def plan_to(self, position: int) -> Plan:
        """Tell what is sent so that the colouring at a position is the present one."""
        start = max(at for at in self._known if at <= position)
        return Plan(self._known[start], [it.sent for it in self.edits[start:position]])

    def fitting(self, lines: Sequence[Line]) -> int:
        """Tell how many of these lines are answered in one run; 0 where not even the first one is."""
        if self.plan(lines) is not None:
            return len(lines)
        least, most = 0, len(lines) - 1
        while least < most:
            middle = (least + most + 1) // 2
            if self.plan(lines[:middle]) is None:
                most = middle - 1
            else:
                least = middle
        return least

    def first_of_script(self) -> int:
        """Tell the first position from which all edits up to the present one fit in one script."""
        at = self.position
        while at > 0 and _is_script(self.edits[at - 1 : self.position], _FREE_FOR_EACH):
            at -= 1
        return at


def _is_script(lines: Sequence[Line], free: int = _FREE) -> bool:
    return (
        len(lines) <= _MOST_LINES - free
        and _bytes(lines) <= _MOST_BYTES - free
        and _count(lines, EDITS) <= _MOST_EDITS
        and _count(lines, PRODUCTS) <= _MOST_PRODUCTS
    )


def _shortened(line: Line) -> Line:
    """Write an edit that was carried out as short as it can be."""
    words = words_of(line.sent)
    # (nothing is merged, and such a string has as many numbers as there are classes)
    if words[0] == "fuse" and words[1:] == [str(it) for it in range(len(words) - 1)]:
        return line._replace(sent="adopt")
    return line


def moves(lines: Iterable[Line]) -> bool:
    """Tell whether one of these lines can change the colouring."""
    return any(it.word in _MOVES for it in lines)


def refines(fine: str, coarse: str) -> bool:
    """Tell whether pairs of one colour of the first matrix have one colour in the second.

    Parameters
    ----------
    fine, coarse : str
        Two matrices of one size, as `gannetdivan.relations.matrix_text` writes them.
    """
    found: Dict[str, str] = {}
    (head, *colours), (other, *under) = (it.split("\n") for it in (fine, coarse))
    pairs = zip(" ".join(colours).split(), " ".join(under).split())
    return head == other and all(found.setdefault(a, b) == b for a, b in pairs)
