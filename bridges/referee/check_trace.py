#!/usr/bin/env python3
"""Judges a certificate of a coherent closure, by the standard library of Python alone.

    check_trace.py TRACE [RELATION [LINE]]

A trace tells steps from a colouring of the pairs of points to its coherent closure. Each parts pairs that no coherent
refinement has in one class. Nothing is searched for: the steps are made anew, and if the partition after the last one
is coherent, it is the closure. docs/FORMATS.md has the formats and the words, docs/DEFINITIONS.md the definitions.

'accepted points N rank R steps S' (status 0) says: the claimed colouring is the closure of the colours of the last
stage; and these are those of the relation, number for number, if one is named. 'refused line L WORD' (status 1) has
the first wrong line, 'refused OtherRelation' says that the colours are not those of the relation. A bad file gets a
line on standard error (status 3, or 4 where it cannot be read). '-' is standard input.
"""

import re
import sys
from array import array

try:
    import numpy  # (for speed, at one place)
except ImportError:
    numpy = None

MOST_POINTS, MOST_COLOUR, MOST_STEP_NUMBER, MOST_TRACE, MOST_RELATION = 256, 1_048_575, 65_535, 1 << 28, 1 << 22
NUMBER = rb"(?:0|[1-9][0-9]{0,6})"  # (no number in a trace has more than seven digits)
BODY = rb"stage|closure|D #|F # #|T # # #".replace(b"#", NUMBER)


def stop_if(fails, *says, status=3):
    if fails:
        print("cohere:", *says, file=sys.stderr)
        sys.exit(status)


def load(name, most):
    """Returns the lines, each with the place of its first byte, and the length of the file."""
    try:
        with open(0 if name == "-" else name, "rb") as file:
            data = file.read(most + 1)
    except OSError:
        stop_if(True, "cannot read", name, status=4)
    stop_if(len(data) > most, f"{name}: TooLong")
    lines = re.finditer(rb"[^\n]*\n|[^\n]+", data)
    return [(it.start(), it[0].removesuffix(b"\n").removesuffix(b"\r")) for it in lines], len(data)


def read_trace(name):
    """Returns the number of points, and each 'stage', step and 'closure' as its line, its word and its numbers."""
    (lines, _), at, parts, word = load(name, MOST_TRACE), 0, [], b""

    def take(expected, pattern, most=0):
        nonlocal at
        line = lines[at][1] if at < len(lines) else b"\n"
        numbers = [int(it) for it in re.findall(rb"[0-9]+", line)] if re.fullmatch(pattern, line) else [most + 1]
        at += 1
        stop_if(max(numbers, default=0) > most, f"{name}: line", at, expected)
        return line.partition(b" ")[0], numbers

    version, points = take("Head", rb"trace [12]", 2)[1] + take("Points", rb"points [1-9][0-9]{0,2}", MOST_POINTS)[1]
    body, row = BODY + (rb"|R" if version == 2 else b""), NUMBER + rb"(?: %b){%d}" % (NUMBER, points - 1)
    while word != b"closure":
        word, numbers = take("Body", body, MOST_STEP_NUMBER) if parts else take("Stage", rb"stage")
        parts.append((at, word, array("L", numbers)))
        for _ in range(points if word in (b"stage", b"closure") else 0):
            parts[-1][2].extend(take("Row", row, MOST_COLOUR)[1])
    take("End", rb"end")
    stop_if(at < len(lines), f"{name}: line", at + 1, "Extra")
    return points, parts


def read_relation(name, number):
    """Returns the colours, row by row, of the relation that begins on the line with this number."""
    (lines, length), source = load(name, MOST_RELATION), f"{name}:"
    stop_if(number > len(lines), source, "NoLine at", length)
    first, line = lines[number - 1]
    header = re.match(rb"(>>(di)?graph6<<)?", line).end() if number == 1 else 0
    first, line, end = first + header, line[header:], first + len(line)
    if line.startswith(b"matrix "):
        points, colours = int(line[7:]) if re.fullmatch(rb"0|[1-9][0-9]{0,9}", line[7:]) else 1 << 32, array("L")
        stop_if(points >= 1 << 32, source, "MatrixHead at", first)
        stop_if(not 0 < points <= MOST_POINTS, source, "TooManyPoints at" if points else "NoPoints at", first + 7)
        for x in range(points):
            stop_if(number + x >= len(lines), source, "MatrixCount at", length)
            first, line = lines[number + x]
            good = re.match(rb"[0-9 \t]*", line).end()
            stop_if(good < len(line), source, "BadByte at", first + good)
            for y, it in enumerate(re.finditer(rb"[0-9]+", line)):
                stop_if(y == points, source, "MatrixCount at", first + it.start())
                stop_if(re.match(rb"0[0-9]", it[0]), source, "MatrixNumber at", first + it.start())
                stop_if(len(it[0]) > 7 or int(it[0]) > MOST_COLOUR, source, "ColourTooLarge at", first + it.start())
                colours.append(int(it[0]))
            stop_if(len(colours) < (x + 1) * points, source, "MatrixCount at", first + len(line))
        return colours
    is_digraph = line.startswith(b"&")
    first, line = first + is_digraph, line[is_digraph:]
    good = re.match(rb"[?-~]*", line).end()
    stop_if(good < len(line), source, "BadByte at", first + good)
    stop_if(line[:1] == b"?", source, "NoPoints at", first)
    stop_if(line[:2] == b"~~", source, "TooManyPoints at", first)
    head = 4 if line[:1] == b"~" else 1
    stop_if(len(line) < head, source, "WrongLength at", end)
    bits = "".join(f"{byte - 63:06b}" for byte in line)
    points, bits = int(bits[:6] if head == 1 else bits[6:24], 2), bits[6 * head :]
    stop_if(head == 4 and points <= 62, source, "SizeForm at", first)
    stop_if(points > MOST_POINTS, source, "TooManyPoints at", first)
    rows = [(x, y) for x in range(points) for y in range(points)]
    told = rows if is_digraph else [(x, y) for y, x in rows if x < y]
    stop_if(not 0 <= len(bits) - len(told) < 6, source, "WrongLength at", end)
    stop_if("1" in bits[len(told) :], source, "PadBits at", end - 1)
    arcs = {pair for pair, bit in zip(told, bits) if bit == "1"}
    arcs |= set() if is_digraph else {(y, x) for x, y in arcs}
    return array("L", ((3 if x == y else 1) if (x, y) in arcs else (0 if x == y else 2) for x, y in rows))


class Partition:
    """Pairs in classes, those of one key in one class. The pair (x, y) stands at the place x * points + y. Classes are
    numbered from 0 as they are met: on the diagonal first, then row by row."""

    def __init__(self, points, keys):
        walk, firsts = sorted(range(points * points), key=lambda it: it % (points + 1) != 0), {}
        self.points, self.classes, self.members = points, [0] * len(walk), [walk]
        self.part(walk, [firsts.setdefault(keys[it], at) for at, it in enumerate(walk)])

    def part(self, places, keys):
        """Parts classes by keys: in each the least keeps the number, others get new ones. Tells if there are others."""
        found, least = {}, {}
        for place, key in zip(places, keys):
            found.setdefault((key, self.classes[place]), []).append(place)
        for (key, number), part in sorted(found.items()):
            new = number if least.setdefault(number, key) == key else len(self.members)
            self.members[new : new + 1] = [part]
            for place in part:
                self.classes[place] = new
        return len(found) > len(least)

    def step(self, word, number=0, *others):
        """Makes a step, and returns whether it parted something."""
        places, points, left, right = self.members[number], self.points, [0] * self.points, [0] * self.points
        if word == b"R":
            return self.part(range(points * points), self.first_alike())
        if word == b"D":
            return self.part(places, [it % (points + 1) != 0 for it in places])
        if word == b"F":
            return self.part(places, [self.classes[it % points * points + it // points] != others[0] for it in places])
        # For each x the points z with (x, z) in the one class, and for each y those with (z, y) in the other, as bits.
        for it in self.members[others[0]]:
            left[it // points] |= 1 << it % points
        for it in self.members[others[1]]:
            right[it % points] |= 1 << it // points
        return self.part(places, [bin(left[it // points] & right[it % points]).count("1") for it in places])

    def first_alike(self):
        """Returns for each pair the first that is alike: on the diagonal or off it too, in one class, turned round too,
        with as many z for all classes of (x, z) and (z, y). A partition is coherent where each class is all alike."""
        found, firsts, n, rank, classes = {}, [], self.points, len(self.members), self.classes
        table = numpy and numpy.array(classes, "u4").reshape(n, n)
        for x in range(n):
            left = [it * rank for it in classes[x * n : x * n + n]]
            over = [array("I", sorted(map(int.__add__, left, classes[y::n]))) for y in range(0 if numpy else n)]
            over = numpy.sort(table[x] * rank + table.T) if numpy else over
            for it in range(x * n, x * n + n):
                pair = (it % (n + 1) != 0, classes[it], classes[it % n * n + x], over[it % n].tobytes())
                firsts.append(found.setdefault(pair, (pair[0], it)))
        return firsts


def conditions(points, parts, colours=None):
    """Yields line by line what is to hold of the claim: whether it does, the line, and the word where it does not."""
    for line, word, numbers in parts:
        if word == b"stage":
            yield not colours or len(set(zip(numbers, colours))) == len(set(numbers)), line, "StageNotRefining"
            partition = Partition(points, list(zip(numbers, partition.classes)) if colours else numbers)
            colours = numbers
        elif word == b"closure":
            yield len(set(partition.first_alike())) == len(partition.members), line, "NotCoherent"
            yield Partition(points, partition.classes).classes == list(numbers), line, "WrongClosure"
        else:
            yield max(numbers, default=0) < len(partition.members), line, "NoSuchClass"
            yield partition.step(word, *numbers), line, "IdleStep"


def main(words):
    line = (words + ["1", "1", "1"])[2]
    if not 1 <= len(words) <= 3 or words[:2] == ["-", "-"] or not re.fullmatch("[1-9][0-9]{0,5}|1000000", line):
        print("usage: check_trace.py TRACE [RELATION [LINE]]", file=sys.stderr)
        return 2
    points, parts = read_trace(words[0])
    relation = read_relation(words[1], int(line)) if len(words) > 1 else None
    stages = [numbers for _, word, numbers in parts if word == b"stage"]
    accepted = f"accepted points {points} rank {len(set(parts[-1][2]))} steps {len(parts) - len(stages) - 1}"
    wrong = (f"refused line {line} {word}" for holds, line, word in conditions(points, parts) if not holds)
    verdict = next(wrong, accepted if relation in (None, stages[-1]) else "refused OtherRelation")
    print(verdict)
    return 0 if verdict == accepted else 1


if __name__ == "__main__":
    sys.exit(main(sys.argv[1:]))
