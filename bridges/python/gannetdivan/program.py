"""Where the program is, and how it is run."""

from __future__ import annotations

import os
import shutil
import subprocess
import tempfile
from functools import lru_cache
from pathlib import Path
from typing import Mapping, NamedTuple, Optional, Sequence

from .errors import Handed, ProgramMissing, error_of

__all__ = ["Outcome", "answers", "find", "question", "run"]

_HOW_TO_BUILD = (
    "Build it in a checkout of the repository with 'bin/cohere' (which needs 'rt', the command of the kit "
    "of Rattle), and name it in the environment: COHERE=/path/to/checkout/bin/cohere. "
    "Or put a directory with a program 'cohere' on the PATH."
)


# The name of the script in the folder that the program runs in.
_SCRIPT = "script"


class Outcome(NamedTuple):
    """What one run of the program came to.

    Attributes
    ----------
    status : int
        The exit status.
    out, err : str
        What was written on standard output and on standard error.
    """

    status: int
    out: str
    err: str


def find() -> str:
    """Find the program.

    It is what ``COHERE`` in the environment names, else ``cohere`` on the PATH, else ``bin/cohere`` of the
    checkout that this package stands in.

    Returns
    -------
    str
        The absolute path of an executable file.

    Raises
    ------
    ProgramMissing
        There is none.
    """
    return _find(os.environ.get("COHERE"), os.environ.get("PATH"))


@lru_cache(maxsize=None)
def _find(named: Optional[str], path: Optional[str]) -> str:
    if named:
        found = shutil.which(named, path=path)
        if found is None:
            raise ProgramMissing(f"COHERE names {named!r}, which is no program. {_HOW_TO_BUILD}")
    else:
        of_checkout = Path(__file__).resolve().parents[3] / "bin" / "cohere"
        found = shutil.which("cohere", path=path) or shutil.which(str(of_checkout))
        if found is None:
            raise ProgramMissing(f"There is no program 'cohere'. {_HOW_TO_BUILD}")
    return _built(Path(found).resolve())


def _built(program: Path) -> str:
    """Take what ``bin/cohere`` of a checkout would run, since that script looks at every source first."""
    top = program.parent.parent
    if program.parent.name != "bin" or not (top / "crates.txt").is_file():
        return str(program)
    # With no words it builds the program where need be, and says how it is used, with status 2.
    said = run([], program=str(program))
    if said.status == 70:
        raise ProgramMissing(f"{said.err.strip()}. {_HOW_TO_BUILD}")
    kept = [it for it in (top / "build").glob("cohere-*") if os.access(it, os.X_OK)]
    return str(kept[0] if len(kept) == 1 else program)


def run(
    words: Sequence[str], stdin: str = "", folder: Optional[str] = None, program: Optional[str] = None
) -> Outcome:
    """Run the program with these words.

    Parameters
    ----------
    words : sequence of str
        The words after the program's name.
    stdin : str
        What it reads from standard input.
    folder : str, optional
        The folder that it runs in, from which names of files count.
    program : str, optional
        The program; what `find` finds where it is left out.

    Returns
    -------
    Outcome

    Raises
    ------
    ProgramMissing
        There is no program, or it cannot be run.
    """
    command = [program or find(), *words]
    try:
        ended = subprocess.run(
            command,
            input=stdin.encode("utf-8", "surrogateescape"),
            stdout=subprocess.PIPE,
            stderr=subprocess.PIPE,
            cwd=folder,
            check=False,
        )
    except OSError as fault:
        raise ProgramMissing(f"{command[0]} cannot be run: {fault}. {_HOW_TO_BUILD}") from fault
    out = ended.stdout.decode("utf-8", "backslashreplace")
    return Outcome(ended.returncode, out, ended.stderr.decode("utf-8", "backslashreplace"))


def answers(
    relation: str,
    lines: Sequence[str],
    products: Optional[Mapping[str, str]] = None,
    called: Optional[Mapping[str, str]] = None,
) -> str:
    """Answer the lines of a script over a relation, in one run of the program.

    Parameters
    ----------
    relation : str
        The text of the relation.
    lines : sequence of str
        The lines of the script.
    products : mapping of str to str, optional
        The texts of the relations that lines ``direct`` and ``wreath`` name.
    called : mapping of str to str, optional
        What the user calls these relations.

    Returns
    -------
    str
        The answers, as they are printed.

    Raises
    ------
    BadRelation, BadScript
        The relation, one of the products, or the script is bad.
    ProgramMissing, ProgramFailed, OutOfMemory
        The program did not come to its end.
    """
    script = "".join(f"{it}\n" for it in lines)
    products = products or {}
    with tempfile.TemporaryDirectory(prefix="cohere-") as folder:
        for name, text in {**products, _SCRIPT: script}.items():
            Path(folder, name).write_bytes(text.encode("utf-8", "surrogateescape"))
        ended = run(["run", "-", _SCRIPT], stdin=relation, folder=folder)
    if ended.status != 0:
        handed = {name: Handed((called or {}).get(name, name), text) for name, text in products.items()}
        handed.update({"-": Handed("relation", relation), _SCRIPT: Handed("script", script)})
        raise error_of(ended.status, ended.err, _SCRIPT, handed)
    return ended.out


def question(words: Sequence[str], relation: str = "", called: str = "relation") -> str:
    """Answer a question beside scripts.

    Parameters
    ----------
    words : sequence of str
        The words of the question, in which ``-`` stands for the relation.
    relation : str
        The text of the relation, where there is one.
    called : str
        What the user calls it.

    Returns
    -------
    str
        The answer, as it is printed; a refusal is one.

    Raises
    ------
    BadRelation
        The relation is bad.
    ProgramMissing, ProgramFailed, OutOfMemory
        The program did not come to its end.
    """
    ended = run(words, stdin=relation)
    if ended.status != 0:
        raise error_of(ended.status, ended.err, script="", handed={"-": Handed(called, relation)})
    return ended.out
