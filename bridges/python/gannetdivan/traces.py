"""Traces: certificates of closures and of cells, and the program's checkers for them."""

from __future__ import annotations

import os
from pathlib import Path
from typing import Any, Mapping

from . import hints
from .answers import Verdict, read_verdict
from .errors import Handed, error_of
from .program import run

__all__ = ["check", "check_cells", "trace_line"]

# The statuses of a trace that is accepted, and of one that is not.
_JUDGED = (0, 1)


def trace_line(version: int) -> str:
    """Write the line of a script that asks for a trace of this version."""
    return "trace" if version == 1 else f"trace {version}"


def check(trace: Any) -> Verdict:
    """Judge a trace, whoever made it.

    A yes means that the claimed colouring is the coherent closure of the colours of the last stage, number
    for number. The checker computes no closure.

    Parameters
    ----------
    trace : str, bytes or path
        The text of a trace, as `Configuration.trace` and `Session.trace` give it; or a `pathlib.Path` of a file.

    Returns
    -------
    Verdict
        It is true where the trace is accepted.

    Raises
    ------
    BadTrace
        The text is not in the trace format.
    """
    return _judged("check", trace, hints.TRACE)


def check_cells(trace: Any) -> Verdict:
    """Judge a trace of cells, whoever made it.

    A yes means that the claimed cells are the coarsest equitable partition for the arcs of the trace, number
    for number.

    Parameters
    ----------
    trace : str, bytes or path
        The text of a trace of cells, as `Cells.trace` has it; or a `pathlib.Path` of a file.

    Returns
    -------
    Verdict
        It is true where the trace is accepted; then `cells` is the number of cells, and `rank` is None.

    Raises
    ------
    BadTrace
        The text is not in the format of traces of cells.
    """
    return _judged("check-cells", trace, hints.CELL_TRACE)


def _judged(word: str, trace: Any, hinted: Mapping[str, str]) -> Verdict:
    ended = run([word, "-"], stdin=_text_of(trace))
    if ended.status not in _JUDGED:
        raise error_of(ended.status, ended.err, script="", handed={"-": Handed("trace")}, of_trace=hinted)
    return read_verdict(ended.out)


def _text_of(trace: Any) -> str:
    if isinstance(trace, os.PathLike):
        trace = Path(trace).read_bytes()
    if isinstance(trace, (bytes, bytearray)):
        return bytes(trace).decode("utf-8", "surrogateescape")
    if isinstance(trace, str):
        return trace
    raise TypeError(f"a trace is a text, bytes or a path, and no {type(trace).__name__}")
