"""What the program's words most often come of, and what to do then.

The program says one word for each fault, and `docs/FORMATS.md` of the repository what it means. Here is what
those meet who do not know the formats. A hint is a guess; the word is the answer.
"""

from __future__ import annotations

import difflib
import os
import re
from typing import Dict, Optional

__all__ = [
    "CELL_TRACE",
    "QUESTION",
    "REFUSED",
    "RELATION",
    "SCRIPT",
    "TRACE",
    "relation_hint",
    "row_of",
    "script_hint",
]

RELATION: Dict[str, str] = {
    "BadByte": "this is no character of the format: graph6 and digraph6 have '?' to '~', rows of a matrix digits "
    "and blanks",
    "WrongLength": "the line is longer or shorter than its first characters say: it was cut, a shell or an editor "
    "changed it, or it is no graph6",
    "NoPoints": "a relation has at least one point",
    "TooManyPoints": "a relation has at most 256 points",
    "SizeForm": "up to 62 points the size is one character; write the graph with another program",
    "PadBits": "the last character is none that graph6 has there: the line was changed, or it is no graph6",
    "NoLine": "the text has no such line: it is empty, or it has fewer lines than were asked for",
    "MatrixHead": "the first line is 'matrix N' with one space, where N is the number of rows",
    "MatrixCount": "each of the N rows has N numbers, and 'matrix N' stands before them",
    "MatrixNumber": "a number has no leading zero",
    "ColourTooLarge": "colours are 0 to 1,048,575; number those that there are from 0",
    "TooLong": "a relation has at most 4,194,304 bytes",
}

SCRIPT: Dict[str, str] = {
    "TooManyLines": "a script has at most 10,000 lines; ask the rest in another one",
    "BadByte": "a byte that is no plain character: a byte order mark, a quote or a dash of a word processor, or a "
    "file that is no script",
    "UnknownWord": "no line of a script begins so",
    "WrongCount": "a line with this word has more words after it, or fewer",
    "BadNumber": "a number has digits alone, with blanks between numbers: no sign, comma, bracket or leading zero",
    "BadLimit": "mergings takes 1 to 10,000",
    "BadName": "'-' is no file here: write the relation to one",
    "TooManyProducts": "a script has at most 64 lines with direct or wreath",
    "TooLong": "a script has at most 1,048,576 bytes",
}

REFUSED: Dict[str, str] = {
    "PointRange": "there is no such point: they are numbered from 0, so that the last one is the number of points "
    "less 1",
    "ColourRange": "colours are 0 to 1,048,575",
    "ColourAbsent": "no pair has this colour: raw shows the colours, while the numbers of show are classes",
    "HistoryFull": "a history has 257 entries: go on with the matrix that raw shows as the relation",
    "TooManyPoints": "a product has at most 256 points",
    "NotHomogeneous": "this is for configurations with one fibre, and tests says 'homogeneous no': fix no point, or "
    "take a part of the points",
    "NotGrowth": "a growth string has one number for each class, the first is 0, and each is at most one more than "
    "the largest before it; blocks have each class from 0 to the rank less 1 once",
    "NothingToUndo": "no edit is left to undo",
    "NothingToRedo": "nothing was undone, or an edit came after that",
    "RankAbove": "this is for at most 16 classes: merge some first (fuse), or ask for quotients by hand",
    "NotClosed": "the pairs of these classes are no equivalence relation: closed lists the sets that are, and each "
    "of them has the class 0 of the diagonal",
    "BadSet": "the edges of a graph are classes from 0 to the rank less 1, none of the diagonal, and with each its "
    "transpose, which classes tells",
}

TRACE: Dict[str, str] = {
    "Head": "a trace begins with 'trace 1' or 'trace 2': cut the answers before it off",
    "Points": "the second line is 'points N'",
    "Stage": "the third line is 'stage'",
    "Row": "a row of N numbers is due here: the trace was cut, or a line of it was changed",
    "Body": "a step, 'stage' or 'closure' is due here: the trace was cut, or a line of it was changed",
    "End": "'end' is due here: the trace was cut",
    "Extra": "nothing is due after 'end': cut the answers after it off",
    "TooLong": "a trace has at most 268,435,456 bytes",
    "StageNotRefining": "a stage after the first only parts colours of the one before",
    "NoSuchClass": "a step names a class that there is not yet",
    "IdleStep": "a step splits its class, or it is left out",
    "NotCoherent": "the steps end too early: the last partition is not coherent",
    "WrongClosure": "the claimed matrix is not this partition, with its classes numbered as they are first met",
}

# Of a question beside scripts that is refused: ring, cells, table and lattice.
QUESTION: Dict[str, str] = {
    "NotGroup": "the relation is no table of products with the unit 0: the number at (x, y) is that of the product x y",
    "ColourCount": "ring takes one colour for each element",
    "ColourRange": "colours are 0 to 1,048,575",
    "BadSet": "cells takes colours of pairs of the relation as it is read: 1 for the edges of a graph",
    "RankAbove": "this is for at most 16 classes: merge some first (fuse)",
    "TooManyFusions": "a lattice has at most 300 fusions: mergings lists more of them, in pages",
    "PlaceRange": "there is no such fusion: they are numbered from 0, and lattice without places lists them",
    "FirstC": "the first number after the b is c_1, and that is 1",
    "Parts": "b_i and c_i are together more than b_0",
    "Valency": "no graph has this array: how many points are at distance i would be no whole number",
    "TooManyPoints": "a table has at most 256 points",
    "Negative": "no graph has this array: an intersection number would be below 0",
    "Division": "no graph has this array: an intersection number would be no whole number",
}

# Of a trace of cells that is none, or is refused.
CELL_TRACE: Dict[str, str] = {
    "Head": "a trace of cells begins with 'cells 1'",
    "Points": "the second line is 'points N'",
    "Row": "a row of N numbers is due here: 0 and 1 for arcs, and after the line 'cells' the cell of each point",
    "Body": "a step 'S C Z' or the line 'cells' is due here: the trace was cut, or a line of it was changed",
    "End": "'end' is due here: the trace was cut",
    "Extra": "nothing is due after 'end': cut what stands after it off",
    "TooLong": "a trace of cells has at most 1,048,576 bytes",
    "NoSuchCell": "a step names a cell that there is not yet",
    "IdleStep": "a step parts its cell, or it is left out",
    "NotEquitable": "the steps end too early: the last partition is not equitable",
    "WrongCells": "the claimed cells are not this partition, numbered as they are first met from point 0 on",
}

# Words with which a line of a script begins.
_WORDS = (
    "set both fix join adopt fuse direct wreath undo redo show raw classes constants tests array closed good "
    "quotient sub close mergings write trace"
).split()

# Words that are said of a line that was read as a graph.
_OF_GRAPHS = ("BadByte", "WrongLength", "PadBits", "SizeForm")

# How a relation begins that is read as a script.
_RELATION_FRONT = re.compile("matrix [0-9]|>>|[&:~]|[?-~]{2,}$")

# So much of a text is looked at.
_LOOKED_AT = 1_048_576


def row_of(text: str, place: Optional[int]) -> Optional[int]:
    """Tell the row of a matrix in which a byte is, counted from 0; None where it is in none."""
    data = text.encode("utf-8", "surrogateescape")
    if place is None or not re.match(rb"(>>(di)?graph6<<)?matrix ", data):
        return None
    head = data.find(b"\n")
    if head < 0 or place <= head:
        return None
    # (the place of a line that is missing is the end of the file)
    return data.count(b"\n", 0, place) - 1


def relation_hint(text: Optional[str], word: str, place: Optional[int]) -> str:
    """Tell what the text of a bad relation most likely is.

    Parameters
    ----------
    text : str or None
        The text, where it is known.
    word, place
        What the program said of it.
    """
    if text is not None:
        found = _of_form(text[:_LOOKED_AT], word) or _of_matrix(text[:_LOOKED_AT], word, place)
        found = found or _of_length(text[:_LOOKED_AT], word)
        if found:
            return found
    return RELATION.get(word, "")


def _of_form(text: str, word: str) -> str:
    front = text.lstrip()
    first = front.split("\n", 1)[0].strip()
    if text.startswith(("\ufeff", "\udcff\udcfe", "\udcfe\udcff")):
        return "the text begins with a byte order mark, which some editors write: save it without (as plain UTF-8)"
    if front.startswith((":", ";", ">>sparse6<<")):
        return "this is sparse6: nauty's 'copyg -g' writes it as graph6, and networkx.from_sparse6_bytes reads it"
    if front.startswith("trace ") and "points " in front[:20]:
        return "this is a trace: check judges it"
    if _is_file_name(text):
        return (
            f"this looks like the name of a file, and a text is read as a graph: hand over pathlib.Path({first!r})"
        )
    if front.startswith("["):
        return "this is the text of a list: hand over the list itself, or its rows below a line 'matrix N'"
    if front.startswith(("<", "{", "graph ", "digraph ", "p edge", "c ")):
        return "this is no graph6, digraph6 or matrix: read it with networkx, and hand over the graph"
    if (re.match(r"[a-z0-9]*", front) or [""])[0] in _WORDS:
        return "this looks like a script: the relation comes first, and then the script"
    if word in _OF_GRAPHS and re.fullmatch("[-+0-9.,; \t]*[0-9][-+0-9.,; \t]*", first):
        return _of_numbers(front, first)
    return ""


def _is_file_name(text: str) -> bool:
    # (graph6 has neither '/' nor '.')
    name = text.strip()
    if not name or "\n" in name or len(name) > 4096 or name.startswith("matrix "):
        return False
    if re.search(r"^~?/|[^ ]/[^ ]|\.[A-Za-z][A-Za-z0-9]*$", name):
        return True
    try:
        return "\0" not in name and os.path.exists(name)
    except (OSError, ValueError):
        return False


def _of_numbers(text: str, first: str) -> str:
    if re.search("[,;]", first):
        return (
            "these are numbers with commas: hand the rows over as lists, or write blanks between the numbers and a "
            "line 'matrix N' before the N rows"
        )
    rows = [it.split() for it in text.splitlines() if it.strip()]
    if all(len(it) == 2 for it in rows) and len(rows) != 2:
        return "these look like pairs of points: read them with networkx.parse_edgelist, and hand over the graph"
    return (
        f"this looks like a matrix without its head: write a line 'matrix {len(rows)}' before the rows, or hand the "
        "rows over as lists"
    )


def _of_matrix(text: str, word: str, place: Optional[int]) -> str:
    row = row_of(text, place)
    if row is None:
        return ""
    lines = text.split("\n")
    points = int((re.search("matrix ([0-9]+)", lines[0]) or [0, 0])[1])
    said = lines[row + 1].strip() if row + 1 < len(lines) else ""
    if word == "MatrixCount":
        count = len(said.split())
        if not said:
            return f"'matrix {points}' is followed by {points} rows, and here are {row}"
        return f"row {row}, counted from 0, has {count} numbers, and {points} are due"
    data = text.encode("utf-8", "surrogateescape")
    byte = chr(data[place]) if place is not None and place < len(data) else ""
    if word == "BadByte":
        why = {
            ",": "numbers have blanks between them, and no commas",
            "-": "colours are at least 0",
            ".": "colours are integers",
        }
        return f"row {row}, counted from 0, has {byte!r}: " + why.get(byte, "a row has digits and blanks alone")
    return ""


def _of_length(text: str, word: str) -> str:
    if word not in ("TooManyPoints", "WrongLength"):
        return ""
    line = re.sub("^>>(di)?graph6<<", "", text.split("\n", 1)[0].rstrip("\r"))
    if line.startswith("matrix "):
        return ""
    is_digraph, body = line.startswith("&"), [ord(it) - 63 for it in line.lstrip("&")]
    if body[:2] == [63, 63]:
        head, size = 8, body[2:8]
    elif body[:1] == [63]:
        head, size = 4, body[1:4]
    else:
        head, size = 1, body[:1]
    if len(size) < max(1, head - 1 - (head == 8)) or not all(0 <= it < 64 for it in size):
        return ""
    points = 0
    for it in size:
        points = 64 * points + it
    if word == "TooManyPoints":
        return f"a graph of {points} points, and at most 256 are read"
    bits = points * points if is_digraph else points * (points - 1) // 2
    due, have = head + (bits + 5) // 6, len(body)
    return (
        f"a graph of {points} points is a line of {due + is_digraph} characters, and this one has "
        f"{have + is_digraph}: it was cut, a shell or an editor changed it, or it is no graph6"
    )


def script_hint(word: str, shown: Optional[str], line: Optional[int] = None) -> str:
    """Tell what a bad line of a script most likely is.

    Parameters
    ----------
    word : str
        What the program said of it.
    shown : str or None
        The line as the user wrote it, where it is known.
    line : int or None
        Its number, counted from 1.
    """
    hint = SCRIPT.get(word, "")
    if shown is None:
        return hint
    first = (shown.split() or [""])[0]
    near = difflib.get_close_matches(first.lower(), _WORDS, 1)
    if word in ("UnknownWord", "BadByte") and line == 1 and not near and _RELATION_FRONT.match(shown):
        return "this looks like a relation: the relation comes first, and then the script"
    if word == "UnknownWord":
        if first in ("trace", "write", "mergings"):
            return {
                "trace": "the lines are 'trace' and 'trace 2'",
                "write": "the lines are 'write graph6 NUMBERS' and 'write digraph6 NUMBERS'",
                "mergings": "the lines are 'mergings M' and 'mergings M after NUMBERS'",
            }[first]
        if near:
            return f"{hint}; {near[0]!r} does"
    return hint
