#!/usr/bin/env python3
"""Random and damaged sheets through the built program, crates/report/out/report, compared with tests/reference_report.py byte for byte.

The seed is fixed. The whole run has a time limit, and each run of the program has one: no text is too much for it. At least so many texts have to be
compared, reports and refusals of each number among them, so that an empty run is no success.
"""
import collections
import random
import sys
import time

import reference_report
from cases_characters import states
from cases_sheets import sheet_cases, sheet_text, spoil_bytes, spoil_lines, spoil_values
from cases_trees import damaged, random_tree
from samples import written

SECONDS, LEAST = 240, 3000


def sound(rng, n=None, c=None):
    """A sheet with a tree, and with states that are mostly below 10000."""
    n, c = n or rng.choice([3, 4, 4, 5, 6, 7, 9, 12]), c or rng.randint(1, 4)
    tree = random_tree(rng, n, comb=rng.random() < 0.3)
    cells = states(rng, n * c)
    if rng.random() < 0.15:
        cells[rng.randrange(n * c)] = rng.choice([9999, 10000, 65535])
    if rng.random() < 0.25:
        tree = damaged(rng, n, tree)
    rows = [cells[t * c:(t + 1) * c] for t in range(n)]
    return sheet_text(n, c, tree, rows, rng.choice([None, "acctran", "deltran"]))


def texts(rng):
    for _, _, text in sheet_cases(rng):
        yield text
    for last in (None, "deltran"):
        for n, c in ((256, 63), (256, 1), (31, 512), (3, 512), (100, 150)):
            yield sheet_text(n, c, random_tree(rng, n), [[rng.randint(0, 9) for _ in range(c)] for _ in range(n)], last)
    yield sheet_text(256, 25, random_tree(rng, 256, comb=True), [[9999 * (t % 2)] * 25 for t in range(256)])
    for tree in ([0, 1, 5, 6, 6, 5], [0, 1, 4, 4]):                                    # every count of descendants is right: refusal 6
        for c in range(1, 6):
            n = len(tree) // 2 + 1
            yield sheet_text(n, c, tree, [[rng.randint(0, 9) for _ in range(c)] for _ in range(n)])
    while True:
        text = sound(rng)
        for _ in range(rng.choice([0, 0, 0, 0, 1, 1, 2])):
            if text:
                text = rng.choice([spoil_bytes, spoil_lines, spoil_values])(rng, text)
        yield text


def main():
    rng, start, seen = random.Random(19870104), time.monotonic(), collections.Counter()
    for text in texts(rng):
        if sum(seen.values()) >= 2 * LEAST or time.monotonic() - start > SECONDS / 2:
            break
        expected = reference_report.report(text)
        got = written(text)
        if got != expected:
            print(f"reports: another report on {text[:400]!r}\nexpected {expected[:400]!r}\nwritten  {got[:400]!r}")
            return 1
        seen[expected.partition(b",")[0].decode() if expected.startswith(b"refused=") else "report"] += 1
    asked = {"report"} | {f"refused={number}" for number in (1, 3, 4, 5, 6, 7, 11, 12)}
    if set(seen) != asked or sum(seen.values()) < LEAST or seen["report"] < LEAST // 10:
        print(f"reports: too little was compared: {dict(seen)}")
        return 1
    print(f"reports: {sum(seen.values())} texts, {dict(sorted(seen.items()))}")
    return 0


if __name__ == "__main__":
    sys.exit(main())
