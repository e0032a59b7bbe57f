"""Permutation groups of the field, by generators: what the tests of orbitals and GAP's are asked about."""

import itertools


def acting(points, *maps):
    """Write maps of some things to themselves as lists of images."""
    place = {it: at for at, it in enumerate(points)}
    return [[place[one(it)] for it in points] for one in maps]


def turned(count):
    return lambda it: (it + 1) % count


def swapped(it):
    return {0: 1, 1: 0}.get(it, it)


def on_sets(one):
    return lambda points: frozenset(map(one, points))


def subsets(count, size):
    return [frozenset(it) for it in itertools.combinations(range(count), size)]


def symmetric_on(count, size):
    """Make the symmetric group on subsets of this size."""
    return acting(subsets(count, size), on_sets(turned(count)), on_sets(swapped))


def symmetric_on_petersen_edges():
    """Make the symmetric group on the edges of the Petersen graph, which are pairs of disjoint pairs."""
    pairs = subsets(5, 2)
    edges = [frozenset([x, y]) for x, y in itertools.combinations(pairs, 2) if not x & y]
    return acting(edges, *(on_sets(on_sets(it)) for it in (turned(5), swapped)))


def beside(first, second):
    """Let a group act on two things at once, whose generators correspond."""
    return [[*one, *(len(one) + it for it in other)] for one, other in zip(first, second)]


def simple_of_order_168():
    """Make PSL(2,7), which is GL(3,2), on the 28 pairs of a point and a line of the Fano plane that is not on it."""
    lines = {frozenset([x, y, x ^ y]) for x in range(1, 8) for y in range(1, x)}
    pairs = sorted((x, sorted(line)) for x in range(1, 8) for line in lines if x not in line)
    flags = [(x, frozenset(line)) for x, line in pairs]

    def on_flags(one):
        return lambda it: (one(it[0]), frozenset(map(one, it[1])))

    # Multiplication in the field of 8 elements, and a transvection.
    return acting(flags, on_flags(lambda x: x << 1 ^ 11 * (x >> 2)), on_flags(lambda x: x ^ (x & 1) << 1))


def of_shrikhande():
    """Make the whole group of the Shrikhande graph, of order 192, on the pairs of integers modulo 4."""
    points = list(itertools.product(range(4), repeat=2))
    steps = [lambda it: ((it[0] + 1) % 4, it[1]), lambda it: ((it[0] - it[1]) % 4, it[0]), lambda it: it[::-1]]
    return acting(points, *steps)


def of_clebsch():
    """Make the whole group of the Clebsch graph, of order 1,920, on the even words of length 5."""
    words = [it for it in range(32) if bin(it).count("1") % 2 == 0]
    turn = [lambda it: it >> 1 | (it & 1) << 4, lambda it: it & 28 | (it & 1) << 1 | it >> 1 & 1]
    return acting(words, lambda it: it ^ 3, *turn)


# By name: generators, the rank, and how many elements the group has.
GROUPS = {
    "the Petersen graph": (symmetric_on(5, 2), 3, 120),
    "the edges of the Petersen graph": (symmetric_on_petersen_edges(), 4, 120),
    "its points and edges": (beside(symmetric_on(5, 2), symmetric_on_petersen_edges()), 13, 120),
    "PSL(2,7) on 28 points": (simple_of_order_168(), 7, 168),
    "the Johnson graph J(8,3)": (symmetric_on(8, 3), 4, 40_320),
    "the Shrikhande graph": (of_shrikhande(), 4, 192),
    "the Clebsch graph": (of_clebsch(), 3, 1_920),
    "three orbits": ([[1, 2, 0, 3, 4, 5], [0, 1, 2, 4, 3, 5]], 12, 6),
    "no element but the identity": ([[0, 1, 2]], 9, 1),
}
