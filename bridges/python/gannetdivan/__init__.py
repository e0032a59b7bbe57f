"""Coherent configurations and association schemes, by the program ``cohere``.

`closure` takes a graph or a matrix of colours, and gives the `Configuration` that is its coherent closure.
`orbitals` takes permutations, and gives that of the orbits of their group on pairs of points.
A `Session` keeps a history of edits, and asks over them. `check` judges a certificate of a closure.
`ring`, `cells` and `table` are questions of their own: Schur rings, equitable partitions (with `check_cells` for
their certificates) and the parameters of an intersection array.

``python3 -m gannetdivan each`` answers a script over many graphs, and ``python3 -m gannetdivan draw`` makes
pictures.

Every answer is computed by the program, each function of which is proved to meet its contract. This package
is plain Python: it hands over questions and reads answers, and nothing of that is proved.

Points, colours and classes are numbered from 0.
"""

from .answers import (
    ClassRow,
    Constants,
    Disconnected,
    Edited,
    IntersectionArray,
    Irregular,
    MatrixAnswer,
    Page,
    Raw,
    Refusal,
    SchemeTests,
    Verdict,
)
from .configuration import Configuration, closure
from .errors import (
    BadInput,
    BadRelation,
    BadScript,
    BadTrace,
    CohereError,
    OutOfMemory,
    ProgramFailed,
    ProgramMissing,
    Refused,
    UnreadableAnswer,
)
from .groups import orbitals
from .lattices import Lattice
from .questions import Cells, Ring, Table, cells, ring, table
from .session import Session
from .traces import check, check_cells

__version__ = "0.1"

__all__ = [
    "BadInput",
    "BadRelation",
    "BadScript",
    "BadTrace",
    "Cells",
    "ClassRow",
    "CohereError",
    "Configuration",
    "Constants",
    "Disconnected",
    "Edited",
    "IntersectionArray",
    "Irregular",
    "Lattice",
    "MatrixAnswer",
    "OutOfMemory",
    "Page",
    "ProgramFailed",
    "ProgramMissing",
    "Raw",
    "Refusal",
    "Refused",
    "Ring",
    "SchemeTests",
    "Session",
    "Table",
    "UnreadableAnswer",
    "Verdict",
    "cells",
    "check",
    "check_cells",
    "closure",
    "orbitals",
    "ring",
    "table",
]
