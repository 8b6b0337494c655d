"""The report of document 01, written a second time: from the document's "Sheet and report" alone, over reference.py and reference_sheets.py. It shares
nothing with the library.

    python3 tests/reference_report.py < samples/handout.sheet
"""
import fractions
import math
import sys

import reference
import reference_sheets
from reference import Refused


def index_line(key, index):
    """`key=over/under,thousandths`, not reduced and halves up; or `key=none`."""
    if index is None:
        return f"{key}=none"
    over, under = index
    thousandths = math.floor(1000 * fractions.Fraction(over, under) + fractions.Fraction(1, 2))
    assert 0 <= thousandths <= 1000
    return f"{key}={over}/{under},{thousandths}"


def ranges_line(key, ranges):
    return f"{key}=" + ",".join(f"{low}-{high}" for low, high in ranges)


def lines(text):
    n, c, choice, tree, rows = reference_sheets.read_sheet(text)
    matrix = [state for row in rows for state in row]
    scores = reference.all_characters(n, c, tree, matrix)
    yield f"taxa={n}"
    yield f"characters={c}"
    yield f"length={scores.length}"
    yield index_line("ci", scores.ci)
    yield index_line("ri", scores.ri)
    yield f"resolve={choice}"
    for j in range(1, c + 1):
        scores, first, _, final, states = reference.one_character(n, c, j, choice, tree, matrix)
        yield f"character={j}"
        yield f"length={scores.length}"
        yield ranges_line("first", first)
        yield ranges_line("mpr", final)
        yield "states=" + ",".join(map(str, states))
        yield index_line("ci", scores.ci)
        yield index_line("ri", scores.ri)


def report(text):
    """The report on a text of bytes, as bytes."""
    try:
        written = list(lines(text))
    except Refused as refused:
        written = [f"refused={refused.number},{refused.place}"]
    return "".join(line + "\n" for line in written).encode()


if __name__ == "__main__":
    sys.stdout.buffer.write(report(sys.stdin.buffer.read()))
