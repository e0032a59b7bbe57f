"""The exceptions of the package, each with the word that the program said, and a hint.

Every exception is a `CohereError`. What the words mean is said in ``docs/FORMATS.md`` of the repository; a hint
is what they most often come of, and a guess.
"""

from __future__ import annotations

import re
from typing import Mapping, NamedTuple, Optional, Sequence

from . import hints

__all__ = [
    "BadInput",
    "BadRelation",
    "BadScript",
    "BadTrace",
    "CohereError",
    "Handed",
    "OutOfMemory",
    "ProgramFailed",
    "ProgramMissing",
    "Refused",
    "UnreadableAnswer",
]


class CohereError(Exception):
    """Anything that goes wrong between a question and its answer."""


class ProgramMissing(CohereError):
    """There is no program ``cohere`` to run; the message says how to build it."""


class ProgramFailed(CohereError):
    """The program ended with a status that has no exception of its own.

    Attributes
    ----------
    status : int
        The exit status, negative for a signal.
    said : str
        What the program wrote on standard error.
    """

    def __init__(self, status: int, said: str) -> None:
        super().__init__(said.strip() or f"cohere ended with status {status}, and said nothing")
        self.status = status
        self.said = said


class OutOfMemory(ProgramFailed):
    """The program ran out of memory."""


class BadInput(CohereError, ValueError):
    """The program read an input that is not in its format.

    Attributes
    ----------
    word : str
        The program's word for the fault, such as ``PadBits``.
    hint : str
        What it most often comes of.
    """

    def __init__(self, message: str, word: str, hint: str = "") -> None:
        super().__init__(message + (f": {hint}" if hint else ""))
        self.word = word
        self.hint = hint


class BadRelation(BadInput):
    """A relation is bad.

    Attributes
    ----------
    word, hint : str
        The program's word for the fault, such as ``PadBits``, and what it most often comes of.
    place : int or None
        The byte of the relation's text, counted from 0, where the fault is; None for ``TooLong``.
    row : int or None
        The row of the matrix, counted from 0, in which that byte is; None where it is in no row.
    """

    def __init__(
        self, word: str, place: Optional[int], name: str = "relation", text: Optional[str] = None
    ) -> None:
        self.place = place
        self.row = None if text is None else hints.row_of(text, place)
        at = "" if place is None else f" at {place}"
        row = "" if self.row is None else f" (row {self.row})"
        super().__init__(f"{name}: {word}{at}{row}", word, hints.relation_hint(text, word, place))


class BadScript(BadInput):
    """A script is bad.

    Attributes
    ----------
    word, hint : str
        The program's word for the fault, such as ``UnknownWord``, and what it most often comes of.
    line : int or None
        The line of the script, counted from 1; None for ``TooLong``.
    shown : str or None
        The line itself, where it is known.
    """

    def __init__(
        self, word: str, line: Optional[int], name: str = "script", shown: Optional[str] = None, hint: str = ""
    ) -> None:
        said = f"{name}: " + ("" if line is None else f"line {line} ") + word
        said += "" if shown is None else f", {_cut(shown)!r}"
        super().__init__(said, word, hint or hints.script_hint(word, shown, line))
        self.line = line
        self.shown = shown


class BadTrace(BadInput):
    """A trace is not in the trace format.

    Attributes
    ----------
    word, hint : str
        The program's word for what was expected, such as ``End``, and what it most often comes of.
    line : int or None
        The line of the trace, counted from 1; None for ``TooLong``.
    """

    def __init__(
        self,
        word: str,
        line: Optional[int],
        name: str = "trace",
        hinted: Mapping[str, str] = hints.TRACE,
    ) -> None:
        said = f"{name}: " + ("" if line is None else f"line {line} ") + word
        super().__init__(said, word, hinted.get(word, ""))
        self.line = line


class Refused(CohereError):
    """The program read a line of a script, or another question, and refused it, which changes nothing.

    Attributes
    ----------
    word, hint : str
        The program's word, such as ``NotClosed``, and what it most often comes of.
    asked : str
        The line that was refused.
    numbers : tuple of int
        The numbers behind the word, which `gannetdivan.table` has alone.
    """

    def __init__(
        self,
        word: str,
        asked: str,
        numbers: Sequence[int] = (),
        hinted: Mapping[str, str] = hints.REFUSED,
    ) -> None:
        self.word = word
        self.asked = asked
        self.numbers = tuple(numbers)
        self.hint = hinted.get(word, "")
        said = " ".join(map(str, [word, *self.numbers]))
        super().__init__(f"{_cut(asked)}: refused {said}" + (f": {self.hint}" if self.hint else ""))


def _cut(line: str) -> str:
    """Cut what is too long for a message."""
    return line if len(line) <= 200 else f"{line[:150]}.. ({len(line)} characters)"


class UnreadableAnswer(CohereError):
    """The program printed what is no answer to the line that it was asked."""


_FAULT = re.compile(
    r"cohere: (?P<name>.*): (?:line (?P<line>[0-9]+) )?(?P<word>[A-Za-z]+)(?: at (?P<place>[0-9]+))?"
)


class Handed(NamedTuple):
    """A file that the program was handed: what the user calls it, and its text where it is known."""

    name: str
    text: Optional[str] = None


def error_of(
    status: int,
    said: str,
    script: str = "script",
    handed: Optional[Mapping[str, Handed]] = None,
    of_trace: Optional[Mapping[str, str]] = None,
) -> CohereError:
    """Tell the exception for an exit status of the program.

    Parameters
    ----------
    status : int
        An exit status other than 0 and 1.
    said : str
        What was written on standard error.
    script : str
        The name under which the program was handed its script.
    handed : mapping of str to Handed, optional
        What the program was handed, by the names that it was told.
    of_trace : mapping of str to str, optional
        The hints of a trace, where the program was handed one, and no relation.

    Returns
    -------
    CohereError
        The exception, not raised.
    """
    if status == 6:
        return OutOfMemory(status, said)
    if status == 70:
        return ProgramMissing(said.strip())
    fault = _FAULT.fullmatch(said.strip())
    if status != 3 or fault is None:
        return ProgramFailed(status, said)
    word = fault["word"]
    name, text = (handed or {}).get(fault["name"], Handed(fault["name"]))
    line = int(fault["line"]) if fault["line"] else None
    if fault["name"] == script:
        lines = (text or "").split("\n")
        shown = lines[line - 1] if line is not None and text and line <= len(lines) else None
        return BadScript(word, line, name, shown)
    if of_trace is not None:
        return BadTrace(word, line, name, of_trace)
    if line is not None or word in hints.TRACE and word not in hints.RELATION:
        return BadTrace(word, line, name)
    return BadRelation(word, int(fault["place"]) if fault["place"] else None, name, text)
