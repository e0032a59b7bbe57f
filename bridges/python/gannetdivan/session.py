"""A session: a relation, a history of edits, and questions over it."""

from __future__ import annotations

from pathlib import Path
from typing import Any, Dict, List, NamedTuple, Sequence

from .answers import Edited, Raw, Refusal, numbers_text, read_answers
from .configuration import Configuration, Merging, growth_string
from .errors import BadScript, Refused
from .history import PRODUCTS, History, Line, first_word, moves, refines, words_of
from .program import answers
from .relations import matrix_text, relation_text
from .traces import trace_line

__all__ = ["Session"]

_RAW = Line("raw", "raw")
_TRACE_TOO_LONG = (
    "more edits in a row only refined than one script holds; closure().trace() has a certificate of one stage"
)


class _Product(NamedTuple):
    """A relation that a line ``direct`` or ``wreath`` names: its text, and what the user calls it."""

    text: str
    called: str


class Session:
    """A relation and a history of edits, with undo and redo.

    The program answers one script and ends. So a session keeps its edits and the colourings that came of
    them, and each call of `run` sends one of these, the edits since then and the new lines. Many lines in one
    call are fast. What does not fit in one script is sent in several: the limits of a script and of a
    history are none of a session, but for its traces.

    Points, colours and classes are numbered from 0.

    Parameters
    ----------
    relation : anything that `gannetdivan.closure` takes

    Raises
    ------
    BadRelation
        The program does not read the relation.

    Examples
    --------
    >>> import gannetdivan
    >>> session = gannetdivan.Session("Dhc")
    >>> session.fix(0)
    Edited(points=5, rank=13)
    >>> session.undo()
    Edited(points=5, rank=3)
    >>> session.ask("tests").primitive
    True
    """

    def __init__(self, relation: Any) -> None:
        self._history = History(relation_text(relation))
        self._products: Dict[str, _Product] = {}
        self.run()

    @property
    def edits(self) -> List[str]:
        """The edits that the present colouring comes of, as lines of a script.

        The name of a file stands there as it was given. A relation that came from no file is shown as
        ``(relation 1)`` and so on, which no line of a script can name.
        """
        return [it.shown for it in self._history.edits[: self._history.position]]

    @property
    def undone(self) -> List[str]:
        """The edits that `redo` brings back, the next one first."""
        return [it.shown for it in self._history.edits[self._history.position :]]

    def run(self, *lines: str) -> List[Any]:
        """Answer lines of a script, in one run of the program, or in several where one script is too short.

        Edits that are carried out stay in the history. A line that is refused changes nothing.

        Parameters
        ----------
        *lines : str
            Lines of a script, or texts of several lines. In ``direct FILE`` and ``wreath FILE`` the file is
            read at once.

        Returns
        -------
        list
            The answer of each line but comments, as `gannetdivan.answers.read_answers` says; a `Refusal` where
            the line is refused.

        Raises
        ------
        BadScript
            A line is bad. Then none was answered, and the history is as it was. Lines are counted from 1 in
            this call.
        """
        products = dict(self._products)
        asked = [_line(line, products) for it in lines for line in it.split("\n")]
        return self._run(asked, products)

    def _run(self, asked: List[Line], products: Dict[str, _Product]) -> List[Any]:
        history, answered, at = self._history.copy(), [], 0
        while True:
            rest = asked[at:]
            count = history.fitting(rest)
            if rest and count == 0:
                _prepare(history, rest[0], products)
                count = max(1, history.fitting(rest))
            answered += _answer(history, rest[:count], at, products)
            at += count
            if at == len(asked):
                break
        # (nothing is kept of a call that ended with an error)
        self._history, self._products = history, products
        return answered

    def ask(self, line: str) -> Any:
        """Answer one line of a script.

        Parameters
        ----------
        line : str

        Returns
        -------
        The answer, as `run` gives it.

        Raises
        ------
        Refused
            The line is refused.
        """
        (answer,) = self.run(line)
        if isinstance(answer, Refusal):
            raise Refused(answer.word, line)
        return answer

    def set(self, x: int, y: int, colour: int) -> Edited:
        """Give the pair (x, y) the colour, which is at most 1,048,575."""
        return self.ask(f"set {x} {y} {colour}")

    def both(self, x: int, y: int, colour: int) -> Edited:
        """Give the pairs (x, y) and (y, x) the colour, which is at most 1,048,575."""
        return self.ask(f"both {x} {y} {colour}")

    def fix(self, x: int) -> Edited:
        """Give the pair (x, x) the least number that no pair has, which individualises the point x."""
        return self.ask(f"fix {x}")

    def join(self, kept: int, gone: int) -> Edited:
        """Give all pairs of the colour `gone` the colour `kept`."""
        return self.ask(f"join {kept} {gone}")

    def adopt(self) -> Edited:
        """Make the closure the colouring."""
        return self.ask("adopt")

    def fuse(self, merging: Merging) -> Edited:
        """Make the closure, with its classes merged, the colouring.

        Parameters
        ----------
        merging : sequence of int, or of sequences of int
            A growth string, whose entry i is the block of class i; or the blocks, as lists of classes.
        """
        return self.ask(f"fuse {numbers_text(growth_string(merging))}")

    def direct(self, relation: Any) -> Edited:
        """Make the direct product of the closure and that of a relation the colouring."""
        return self._product("direct", relation)

    def wreath(self, relation: Any) -> Edited:
        """Make the wreath product of the closure and that of a relation the colouring."""
        return self._product("wreath", relation)

    def _product(self, word: str, relation: Any) -> Edited:
        products = dict(self._products)
        # (a name with a blank in it is none that a line can have)
        line = _product_line(word, relation, f"(relation {len(products) + 1})", products)
        (answer,) = self._run([line], products)
        if isinstance(answer, Refusal):
            raise Refused(answer.word, line.shown)
        return answer

    def undo(self) -> Edited:
        """Go one step back in the history."""
        return self.ask("undo")

    def redo(self) -> Edited:
        """Go one step on in the history."""
        return self.ask("redo")

    def raw(self) -> Raw:
        """Tell the colouring itself."""
        return self.ask("raw")

    def closure(self) -> Configuration:
        """Make the closure of the present colouring, for questions about it.

        Returns
        -------
        Configuration
            It does not change with the session. Its trace has one stage; `trace` has the whole chain.
        """
        return Configuration(matrix_text(self.raw().matrix))

    def trace(self, version: int = 1) -> str:
        """Make a certificate of the present closure, with a stage for each edit that only refined.

        Parameters
        ----------
        version : int
            1 for steps on one class each, 2 for rounds of refinement, which leave nothing to the program.

        Returns
        -------
        str
            A trace, which `gannetdivan.check` judges.

        Raises
        ------
        BadScript
            ``TooLong``: there were more edits in a row that only refined than one script holds. Then
            ``session.closure().trace()`` has a certificate of one stage.
        """
        return self.ask(trace_line(version))


def _line(line: str, products: Dict[str, _Product]) -> Line:
    words = words_of(line)
    if len(words) != 2 or words[0] not in PRODUCTS or words[1] == "-":
        return Line(line, line)
    return _product_line(words[0], Path(words[1]), words[1], products)


def _product_line(word: str, relation: Any, called: str, products: Dict[str, _Product]) -> Line:
    """Keep the relation under a name of our own, which no line of the user is read as."""
    name = f"product-{len(products) + 1}"
    products[name] = _Product(relation_text(relation), called)
    return Line(f"{word} {called}", f"{word} {name}")


def _answer(history: History, lines: Sequence[Line], before: int, products: Dict[str, _Product]) -> List[Any]:
    """Answer lines in one run of the program, and move the history on."""
    plan = history.plan(lines)
    if plan is None:
        hint = _TRACE_TOO_LONG if lines[0].word == "trace" else ""
        raise BadScript("TooLong", before + 1, shown=lines[0].shown, hint=hint)
    relation, past = plan
    added = [_RAW] if moves(lines) else []
    sent = [*past, *(it.sent for it in lines), *(it.sent for it in added)]
    try:
        text = _ask(relation, sent, products)
    except BadScript as fault:
        if fault.line is None:
            raise
        # Lines are counted as the user wrote them.
        at = fault.line - len(past)
        raise type(fault)(fault.word, before + at, shown=lines[at - 1].shown) from None
    answered = read_answers(sent, text)[len(past) :]
    raw = answered.pop() if added else None
    for line, answer in zip((it for it in lines if it.word), answered):
        if isinstance(answer, Edited):
            history.keep(line)
    if raw is not None:
        history.know(matrix_text(raw.matrix))
    return answered


def _ask(relation: str, sent: Sequence[str], products: Dict[str, _Product]) -> str:
    lines = [words_of(it) for it in sent if first_word(it) in PRODUCTS]
    named = {it[1]: products[it[1]] for it in lines if len(it) == 2 and it[1] in products}
    texts, called = ({name: it[at] for name, it in named.items()} for at in range(2))
    return answers(relation, sent, texts, called)


def _colouring(history: History, position: int, products: Dict[str, _Product]) -> str:
    """Tell the colouring at a position, as the text of a matrix."""
    relation, past = history.plan_to(position)
    sent = [*past, "raw"]
    return matrix_text(read_answers(sent, _ask(relation, sent, products))[-1].matrix)


def _prepare(history: History, line: Line, products: Dict[str, _Product]) -> None:
    """Get to know a colouring from which the line fits in one script, where there is one."""
    if line.word == "trace":
        _find_start(history, products)
    else:
        position = history.reach([line])
        history.know(_colouring(history, position, products), position)


def _find_start(history: History, products: Dict[str, _Product]) -> None:
    """Find the last edit that did more than refine, among those that fit in one script."""
    first = history.first_of_script()
    colourings = [_colouring(history, first, products)]
    sent = [line for it in history.edits[first : history.position] for line in (it.sent, "raw")]
    answered = read_answers(sent, _ask(colourings[0], sent, products))
    colourings += [matrix_text(it.matrix) for it in answered[1::2]]
    for at in range(len(colourings) - 1, 0, -1):
        if not refines(colourings[at], colourings[at - 1]):
            history.start_trace_at(first + at, colourings[at])
            return
