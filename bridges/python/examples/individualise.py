"""Fixes points of a relation one after the other, until each pair is a class of the closure by itself.

    python3 individualise.py RELATION
"""

import sys
from pathlib import Path

import gannetdivan

session = gannetdivan.Session(Path(sys.argv[1]))
closure = session.closure()
print("rank", closure.rank)
while len(closure.fibres) < closure.points:
    point = min(x for fibre in closure.fibres if len(fibre) > 1 for x in fibre)
    session.fix(point)
    closure = session.closure()
    print("fix", point, "rank", closure.rank)
print("certificate", "accepted" if gannetdivan.check(session.trace()) else "refused")
