"""One script over many graphs, several at a time, with the answers in the order of the graphs."""

from __future__ import annotations

import os
import sys
import tempfile
import time
from collections import deque
from concurrent.futures import Future, ThreadPoolExecutor
from contextlib import contextmanager
from pathlib import Path
from typing import Deque, Iterable, Iterator, NamedTuple, Optional, TextIO

from .errors import BadRelation, Handed, error_of
from .program import Outcome, find, run

__all__ = ["Answered", "each", "write_each"]

# How many graphs are handed out for each worker, so that none waits for the slowest.
_AHEAD = 8


class Answered(NamedTuple):
    """The answers of a script over one graph of many.

    Attributes
    ----------
    line : int
        The line of the graph, counted from 1.
    graph : str
        The line itself, graph6 or digraph6.
    text : str
        The answers, as the program prints them; empty where the graph is bad.
    fault : BadRelation or None
        What is wrong with the graph.
    """

    line: int
    graph: str
    text: str
    fault: Optional[BadRelation]


def each(script: str, graphs: Iterable[str], jobs: Optional[int] = None) -> Iterator[Answered]:
    """Answer a script over each line of graphs, one run of the program for each.

    Parameters
    ----------
    script : str
        The name of a file with the script, or of a pipe, which is read once. Files that its lines name count
        from the present folder.
    graphs : iterable of str
        Lines of graph6 or digraph6. They are taken as they are needed.
    jobs : int, optional
        How many runs there are at a time; as many as there are processors where it is left out.

    Yields
    ------
    Answered
        In the order of the lines.

    Raises
    ------
    CohereError
        Anything but a bad graph: the script is bad, the program is missing, and so on.
    """
    find()
    jobs = jobs or os.cpu_count() or 1
    with _kept(script) as script, ThreadPoolExecutor(jobs) as workers:
        waiting: Deque[tuple[int, str, Future[Outcome]]] = deque()
        try:
            for line, graph in enumerate(graphs, 1):
                graph = graph.rstrip("\r\n")
                task = workers.submit(run, ["run", "-", script], f"{graph}\n")
                waiting.append((line, graph, task))
                if len(waiting) >= jobs * _AHEAD:
                    yield _answered(*waiting.popleft(), script)
            while waiting:
                yield _answered(*waiting.popleft(), script)
        finally:
            for _, _, task in waiting:
                task.cancel()


@contextmanager
def _kept(script: str) -> Iterator[str]:
    """Tell a name under which the script can be read again and again."""
    if not os.path.exists(script) or os.path.isfile(script):
        yield script
        return
    with tempfile.TemporaryDirectory(prefix="cohere-") as folder:
        copy = Path(folder, "script")
        copy.write_bytes(Path(script).read_bytes())
        yield str(copy)


def _text_of(script: str) -> Optional[str]:
    """Tell the text of the script, for a hint; None where it cannot be read."""
    try:
        return Path(script).read_text("utf-8", "surrogateescape")
    except OSError:
        return None


def _answered(line: int, graph: str, task: Future[Outcome], script: str) -> Answered:
    ended = task.result()
    if ended.status == 0:
        return Answered(line, graph, ended.out, None)
    handed = {"-": Handed("-", f"{graph}\n"), script: Handed(script, _text_of(script))}
    fault = error_of(ended.status, ended.err, script, handed)
    if not isinstance(fault, BadRelation) or not ended.err.startswith("cohere: -: "):
        raise fault
    return Answered(line, graph, "", fault)


class _Progress:
    """How many graphs are done, on a terminal; nothing where the stream is none."""

    _BETWEEN = 0.1
    _WIDTH = 30

    def __init__(self, stream: TextIO, total: Optional[int]) -> None:
        self._stream, self._total = stream, total
        self._is_shown = stream.isatty()
        self._begun = self._last = time.monotonic()

    def show(self, done: int, is_last: bool = False) -> None:
        now = time.monotonic()
        if not self._is_shown or (now - self._last < self._BETWEEN and not is_last):
            return
        self._last = now
        of = ""
        if self._total:
            full = self._WIDTH * done // self._total
            of = f"/{self._total} [{'#' * full}{'.' * (self._WIDTH - full)}]"
        rate = done / max(now - self._begun, 1e-9)
        self._stream.write(f"\r\033[K{done}{of} graphs, {rate:.0f} a second" + "\n" * is_last)
        self._stream.flush()

    def say(self, line: str) -> None:
        """Write a line that stays."""
        self._stream.write(("\r\033[K" if self._is_shown else "") + f"{line}\n")


def write_each(
    script: str,
    graphs: Iterable[str],
    out: Optional[TextIO] = None,
    err: Optional[TextIO] = None,
    jobs: Optional[int] = None,
    total: Optional[int] = None,
) -> int:
    """Write the answers of a script over each line of graphs.

    Each block of answers is headed by ``# LINE GRAPH``. A bad graph is reported on `err` and gets no block.

    Parameters
    ----------
    script, graphs, jobs
        As for `each`.
    out, err : text streams, optional
        Where the answers, and where the reports and the progress bar go; standard output and standard error
        where they are left out.
    total : int, optional
        How many lines there are, for the progress bar.

    Returns
    -------
    int
        How many graphs were bad.
    """
    out, err = out or sys.stdout, err or sys.stderr
    progress, bad, line = _Progress(err, total), 0, 0
    for line, graph, text, fault in each(script, graphs, jobs):
        if fault is None:
            out.write(f"# {line} {graph}\n{text}")
        else:
            bad += 1
            at = "" if fault.place is None else f" at {fault.place}"
            progress.say(f"gannetdivan each: line {line}: {fault.word}{at}: {fault.hint}")
        progress.show(line)
    progress.show(line, is_last=True)
    out.flush()
    return bad
