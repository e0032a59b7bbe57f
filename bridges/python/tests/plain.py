"""The closure by its definition, and its neighbours, plain and slow: what the tests compare the program with.

It shares nothing with the package, nor with the program.
"""

import itertools


def closure(matrix):
    """Refine a colouring until nothing changes, and name it in the order in which classes are first met.

    Two pairs stay together where they have the same colour, are both on the diagonal or both off it, have
    turned pairs of the same colour, and have equal numbers of points z for any two colours of (x, z), (z, y).
    """
    points = range(len(matrix))
    colours = named({(x, y): (x == y, matrix[x][y], matrix[y][x]) for x in points for y in points})
    while True:
        finer = named(
            {
                (x, y): (colours[x, y], sorted((colours[x, z], colours[z, y]) for z in points))
                for x in points
                for y in points
            }
        )
        if len(set(finer.values())) == len(set(colours.values())):
            return [[finer[x, y] for y in points] for x in points]
        colours = finer


def named(colours):
    numbers = {}
    for x, y in sorted(colours, key=lambda pair: (pair[0] != pair[1], pair)):
        numbers.setdefault(repr(colours[x, y]), len(numbers))
    return {pair: numbers[repr(colour)] for pair, colour in colours.items()}


def graph_matrix(line):
    """Read a graph of at most 62 points from graph6."""
    size, *body = (ord(it) - 63 for it in line)
    bits = iter("".join(format(it, "06b") for it in body))
    matrix = [[0 if x == y else 2 for y in range(size)] for x in range(size)]
    for y, x in ((y, x) for y in range(size) for x in range(y)):
        matrix[x][y] = matrix[y][x] = 2 - int(next(bits))
    return matrix


def is_coherent(matrix):
    return len({it for row in closure(matrix) for it in row}) == len({it for row in matrix for it in row})


def growth_strings(length):
    for string in itertools.product(range(length), repeat=length):
        if all(it <= max(string[:at], default=-1) + 1 for at, it in enumerate(string)):
            yield string


def fusions(matrix):
    rank = 1 + max(map(max, matrix))
    return [it for it in growth_strings(rank) if is_coherent([[it[c] for c in row] for row in matrix])]


def elements(generators):
    """List the elements of a group of permutations, each as the tuple of its images."""
    found = {tuple(range(len(generators[0])))}
    fresh = list(found)
    while fresh:
        fresh = list({tuple(one[it] for it in element) for element in fresh for one in generators} - found)
        found.update(fresh)
    return found


def cells(matrix):
    """Refine the partition with one cell by arcs, which have the colour 1, and name it as cells are first met."""
    points = range(len(matrix))
    numbers = [0] * len(matrix)
    while True:
        counted = [(numbers[x], sorted(numbers[y] for y in points if matrix[x][y] == 1)) for x in points]
        finer = [counted.index(it) for it in counted]
        if len(set(finer)) == len(set(numbers)):
            return tuple(sorted(set(finer)).index(it) for it in finer)
        numbers = finer


def is_finer(one, other):
    """Tell whether classes that one growth string merges are merged by the other too."""
    places = range(len(one))
    return all(other[i] == other[j] for i in places for j in places if one[i] == one[j])


def covers(fusions):
    """List the pairs of places of growth strings, one finer than the other with none between."""
    places = range(len(fusions))
    finer = {(i, j) for i in places for j in places if i != j and is_finer(fusions[i], fusions[j])}
    return sorted((i, j) for i, j in finer if not any((i, k) in finer and (k, j) in finer for k in places))
