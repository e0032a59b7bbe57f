#!/usr/bin/env python3
"""Compares check_trace.py with the program, over good and spoiled traces and relations that are made at random.

    test_check_trace.py [COUNT [SEED]]

COUNT are made, after those of two tables. Each is to have the same line on standard output, the same status and the
same line on standard error as 'cohere check' has, and with a relation as 'cohere certify' has; where the program has
no such form, as its answers to 'check' and 'run' tell. Half of them are judged without numpy. All words of both
formats are met. The program is what COHERE names, else bin/cohere of this checkout. The last line begins with
'referee: N judged alike', or else 'FAILED' comes before.
"""

import collections
import contextlib
import io
import os
import random
import re
import subprocess
import sys
import tempfile
from pathlib import Path

import check_trace

TOP = Path(__file__).resolve().parents[2]
sys.path.insert(0, str(TOP / "bridges/python"))
os.environ.setdefault("COHERE", str(TOP / "bin/cohere"))
from gannetdivan.program import find  # noqa: E402

EXAMPLES = [it.read_bytes() for it in sorted(TOP.glob("examples/*.[gdm]*6*")) if it.stat().st_size < 400]
NUMBERS = [b"0", b"1", b"2", b"3", b"7", b"00", b"01", b"1048575", b"1048576", b"65535", b"65536", b"9999999999", b"-1"]
WORDS = """accepted OtherRelation StageNotRefining NoSuchClass IdleStep NotCoherent WrongClosure
    Head Points Stage Row Body End Extra
    NoLine WrongLength BadByte NoPoints TooManyPoints SizeForm PadBits
    MatrixHead MatrixCount MatrixNumber ColourTooLarge""".split()


# A trace, and what makes each word of it: a text in it, and what stands in its place.
TRACE = (TOP / "examples/one_colour_2.trace").read_bytes()
CHANGES = [
    (b"", b""),
    (b"D 0", b"D 0\nstage\n8 8\n8 8"),
    (b"D 0", b"stage\n1 2\n2 1\nstage\n3 3\n3 3"),
    *((b"D 0", it) for it in (b"D 1", b"F 0 0", b"T 0 0 0", b"D 65536", b"D 00", b"R", b"D 0 0")),
    (b"D 0\n", b""),
    *((b"1 0", it) for it in (b"1 1", b"1  0", b"1 1048576", b"1", b"1 0 0", b"1 -0")),
    (b"0 1\n1 0", b"1 0\n0 1"),
    *((b"trace 1", it) for it in (b"trace 2", b"trace 3", b"trace 01", b"Trace 1", b"\ntrace 1")),
    *((b"points 2", it) for it in (b"points 0", b"points 3", b"points 257", b"points 02", b"points  2")),
    (b"stage", b"closure"),
    (b"end\n", b""),
    (b"end", b"end\n"),
    (b"end", b"end\r\n\r"),
]
# Relations that make each word, and the colours of that trace.
RELATIONS = [
    *b"|:An|?|~~|~~?????|~??|~??D|~?C@|DQ|DQc?|DQd|&A_|>>graph6<<DQc|>>graph6<<|>>digraph6<<matrix x".split(b"|"),
    *b"matrix x|matrix 4294967296|matrix 0|matrix 257|matrix 1|matrix 1\nx|matrix 1\n0 1".split(b"|"),
    *b"matrix 1\n07|matrix 1\n1048576|matrix 2\n0 1\n1|matrix 2\n7 7\n7 8|matrix 2\n7\t7\r\n 7 7 \n".split(b"|"),
]


def program(words):
    ended = subprocess.run([find(), *words], capture_output=True, check=False)
    return ended.returncode, ended.stdout.decode(), ended.stderr.decode()


def checker(words):
    out, err = io.StringIO(), io.StringIO()
    with contextlib.redirect_stdout(out), contextlib.redirect_stderr(err):
        try:
            status = check_trace.main(words)
        except SystemExit as ended:
            status = ended.code
    return status, out.getvalue(), err.getvalue()


def some_relation(chance):
    """Makes a relation: a graph, a digraph, a matrix, or one of the examples."""
    kind, points = chance.randrange(5), chance.randint(1, chance.choice([4, 7, 12]))
    if kind == 0:
        return chance.choice(EXAMPLES)
    if kind < 3:
        count = points * (points - 1) // 2 if kind == 1 else points * points
        most = chance.choice([0.2, 0.5, 0.9])
        bits = [chance.random() < most for _ in range(count)] + [False] * (-count % 6)
        sixes = (bits[at : at + 6] for at in range(0, len(bits), 6))
        text = bytes(63 + sum(bit << 5 - at for at, bit in enumerate(six)) for six in sixes)
        head = b">>graph6<<" if chance.random() < 0.1 else b""
        return head + (b"&" if kind == 2 else b"") + bytes([63 + points]) + text + b"\n"
    colours = chance.choice([1, 2, 3, 1_048_575])
    start = [[chance.randint(0, colours) for _ in range(points)] for _ in range(points)]
    if kind == 4:  # (a circulant, which has a closure with few classes)
        start = [[start[0][(y - x) % points] for y in range(points)] for x in range(points)]
    return b"matrix %d\n" % points + b"".join(b" ".join(b"%d" % it for it in row) + b"\n" for row in start)


def spoiled_relation(chance, text):
    """Changes one or two bytes or numbers of a relation, or its front or end."""
    for _ in range(chance.randint(1, 2)):
        at = chance.randrange(len(text) + 1)
        byte = bytes([chance.choice([0, 9, 10, 13, 32, 48, 63, 64, 95, 125, 126, 127, 200])])
        long = b"~?" + bytes([chance.choice([63, 63, 64, 66, 67, 70]), chance.randint(63, 126)])
        number = chance.choice(list(re.finditer(rb"\d+|$", text)))
        text = chance.choice([
            text[:at] + byte + text[at + 1 :],
            text[:at] + byte + text[at:],
            text[:at],
            b"?" + text[1:],
            text.rstrip(b"\n")[:-1] + b"~\n",
            text + b"1\n",
            b">>digraph6<<" + text,
            long + text[1:],
            text[:1] + long + text[1:],
            text[: number.start()] + chance.choice(NUMBERS) + text[number.end() :],
            text[: number.start()] + chance.choice(NUMBERS) + text[number.end() :],
            re.sub(rb"\n", b"\r\n", text),
        ])  # fmt: skip
    return text


def some_trace(chance, folder):
    """Makes a relation and a script of edits, and returns the relation and the trace that the program prints."""
    relation = some_relation(chance)
    (folder / "relation").write_bytes(relation)
    edits = [b"fix 0", b"fix 1", b"set 0 1 5", b"both 1 2 9", b"join 1 2", b"adopt", b"undo", b"set 0 0 3"]
    script = chance.choices(edits, k=chance.choice([0, 0, 1, 2, 5])) + [chance.choice([b"trace", b"trace 2"])]
    (folder / "script").write_bytes(b"\n".join(script))
    status, out, _ = program(["run", str(folder / "relation"), str(folder / "script")])
    assert status == 0, (relation, script)
    return relation, out[out.index("trace ") :].encode()


def with_other_steps(chance, text):
    """Puts some steps at random in the place of the last stage's: rounds, where they may stand, and then others."""
    if b"\nclosure\n" not in text or b"\nstage\n" not in text:
        return text
    front, claim = text.split(b"\nclosure\n", 1)
    lines = [it for it in front.split(b"\n") if not re.match(rb"[DFTR]", it)]
    most = chance.choice([2, 5, 15])
    steps = [b"R"] * chance.randint(0, 2) if text.startswith(b"trace 2") else []
    for kind in chance.choices([b"D", b"F", b"T", b"T", b"T"], k=chance.randint(1, 4)):
        count = {b"D": 1, b"F": 2, b"T": 3}[kind]
        steps.append(b" ".join([kind, *(b"%d" % chance.randint(0, most) for _ in range(count))]))
    return b"\n".join([*lines, *steps, b"closure", claim])


def spoiled_trace(chance, text):
    """Changes a line or a number of a trace, or the text as a whole, once or twice."""
    steps = [b"D 0", b"D 1", b"F 0 1", b"F 1 1", b"T 0 1 1", b"T 1 0 1", b"T 2 1 2", b"R", b"D 65535", b"D 65536", b"D"]
    fixed = [b"stage", b"closure", b"end", b"", b"trace 2", b"trace 1", b"points 2", b"0", b"0 0 0", b"\r", b" R"]
    if chance.random() < 0.3:
        return with_other_steps(chance, text)
    for _ in range(chance.randint(1, 2)):
        lines = text.split(b"\n")
        at = chance.randrange(len(lines))
        # Half of the changes are after the rows of the first stage, where the steps are.
        if chance.random() < 0.5 and b"closure" in lines:
            at = max(0, lines.index(b"closure") - chance.randint(-1, 3))
        kind = chance.randrange(12)
        if kind == 0:
            lines[at:at] = [chance.choice(steps)]
        elif kind == 1:
            lines[at] = chance.choice(steps + fixed)
        elif kind == 2:
            del lines[at]
        elif kind == 3:
            lines[at:at] = [lines[at]]
        elif kind == 4:
            other = chance.randrange(len(lines))
            lines[at], lines[other] = lines[other], lines[at]
        elif kind in (5, 6, 7):
            found = list(re.finditer(rb"\d+", lines[at]))
            if found:
                one = chance.choice(found)
                lines[at] = lines[at][: one.start()] + chance.choice(NUMBERS) + lines[at][one.end() :]
        elif kind == 8:
            lines[at] += chance.choice([b"\r", b"\r\r", b" ", b" 0"])
        elif kind == 9 and b"closure" in lines:
            # One stage more, of the colours of the closure or of one colour.
            claim = lines.index(b"closure")
            rows = [it for it in lines[claim + 1 :] if it not in (b"end", b"")]
            again = [re.sub(rb"\d+", b"4", it) for it in rows] if chance.random() < 0.5 else rows
            lines[claim:claim] = [b"stage", *again]
        elif kind == 10:
            lines = [it + b"\r" for it in lines[:-1]]
        else:
            lines = b"\n".join(lines)[: chance.randrange(len(text) + 1)].split(b"\n")
        text = b"\n".join(lines)
    return text


def certified(trace, relation, line, script):
    """Returns what 'certify' is to answer, from the answers of the program to 'check' and to 'run'."""
    judged = program(["check", trace])
    if judged[0] > 1:
        return judged
    status, out, err = program(["run", relation, script, line])
    if status != 0 or judged[0] == 1:
        return (status, "", err) if status != 0 else judged
    rows = out.split("\n")[1:]
    lines = Path(trace).read_text("ascii").replace("\r", "").split("\n")
    last = len(lines) - lines[::-1].index("stage")
    is_same = lines[last : last + len(rows) - 1] == rows[:-1]
    return judged if is_same else (1, "refused OtherRelation\n", "")


def judges_words(trace, folder):
    """Compares what is said of words that fit no form, and of files that cannot be read or are over their limits."""
    usage = (2, "", "usage: check_trace.py TRACE [RELATION [LINE]]\n")
    misfits = [[], ["-", "-"], ["-", "-", "2"], *([trace, trace, it] for it in ("0", "01", "1000001", "x"))]
    large = folder / "large"
    large.write_bytes(b"\n" * 4_194_305)
    is_right = all(checker(it) == usage for it in [*misfits, [trace, trace, "1", "1"]])
    for it in (str(folder), str(folder / "none"), str(large)):
        is_right &= checker([trace, it]) == program(["run", it, trace]) and checker([it]) == program(["check", it])
    return is_right


def cases(chance, count, folder):
    """Yields traces, each with a relation and its line, or without: those of the tables, and then so many at random."""
    yield from ((TRACE.replace(*it), None, 1) for it in CHANGES)
    yield from ((TRACE, it, 1) for it in RELATIONS)
    yield from ((TRACE, b"DQc\n" + RELATIONS[-1], it) for it in range(1, 6))
    # After one round of the path on 7 points: which of its classes a step parts tells how a round numbers them.
    (folder / "script").write_text("trace 2\n", encoding="ascii")
    rounds = program(["run", str(TOP / "examples/path_7.g6"), str(folder / "script")])[1].encode()
    yield from ((rounds.replace(b"R\nR", b"R\nT 3 %d 1" % it), None, 1) for it in range(14))
    for at in range(count):
        of, text = some_trace(chance, folder)
        # (a relation is judged only if the trace is one)
        if chance.random() < (0.25 if at % 2 else 0.9):
            text = spoiled_trace(chance, text)
        bad, line = spoiled_relation(chance, of), chance.choice([1, 1, 1, 2, 3])
        of = chance.choice([of, of, bad, bad, bad, some_relation(chance)])
        front = chance.choice([of, of, some_relation(chance)]) if line != 1 else b""
        yield text, front + of if at % 2 else None, line


def main():
    count, seed = (list(map(int, sys.argv[1:])) + [400, 1][len(sys.argv) - 1 :])[:2]
    chance, met, judged = random.Random(seed), collections.Counter(), 0
    with tempfile.TemporaryDirectory() as name:
        folder = Path(name)
        trace, relation, script = (str(folder / it) for it in ("t", "r", "s"))
        Path(script).write_text("raw\n", encoding="ascii")
        # A first call, with two files that are there.
        Path(trace).touch()
        Path(relation).touch()
        has_certify = program(["certify", trace, relation])[0] != 2
        Path(trace).write_bytes(TRACE)
        if not judges_words(trace, folder):
            print("FAILED: words that fit no form, or files that cannot be read")
            return 1
        numpy = check_trace.numpy
        for text, of, line in cases(chance, count, folder):
            Path(trace).write_bytes(text)
            words, wanted = [trace], program(["check", trace])
            if of is not None:
                Path(relation).write_bytes(of)
                words = [trace, relation, str(line)]
                wanted = program(["certify", *words]) if has_certify else certified(*words, script)
            for check_trace.numpy in {numpy, None} if judged % 4 == 0 else {chance.choice([numpy, None])}:
                found = checker(words)
                if found != wanted:
                    print(f"FAILED: {words}\nthe program: {wanted}\nthe checker: {found}", text, of, sep="\n")
                    return 1
            judged += 1
            met.update(it for it in re.findall(r"[A-Za-z]+", found[1] + found[2].rpartition(": ")[2]) if it in WORDS)
    missed = [it for it in WORDS if not met[it]]
    if missed:
        print(f"FAILED: never met: {' '.join(missed)}")
        return 1
    print(" ".join(f"{it} {met[it]}" for it in WORDS))
    more = "half of them with numpy" if numpy else "without numpy"
    print(f"referee: {judged} judged alike, {more}, certify {'asked' if has_certify else 'worked out'}")
    return 0


if __name__ == "__main__":
    sys.exit(main())
