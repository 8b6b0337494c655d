"""Trees with a matrix for run_characters: both calls, every slice, every refusal."""
import random

import reference
from cases_trees import RISING, damaged, random_tree
from reference import Refused


HANDOUT = 4, [0, 5, 6, 6, 1, 5], [0, 0, 3, 1, 1, 1, 5, 0]
# the paper's Fig. 4; Narushima and Hanazawa's example, rooted at f and at i: f to l are the taxa 1 to 7, a to e the interior nodes 8 to 12
FIGURE_4 = 7, [8, 8, 9, 9, 11, 11, 0, 10, 10, 12, 12, 7], [2, 4, 5, 6, 0, 3, 1]
NARUSHIMA = 7, [0, 12, 12, 10, 10, 9, 9, 11, 8, 8, 1, 11], [1, 3, 0, 6, 5, 2, 4]
NARUSHIMA_AT_I = 7, [11, 12, 12, 0, 10, 9, 9, 10, 8, 4, 8, 11], [1, 3, 0, 6, 5, 2, 4]


def balanced_tree(rng, n):
    """An accepted table whose two sides are level at each node, as far as they can be; interior nodes are numbered in no order."""
    taxa = rng.sample(range(1, n + 1), n)
    inner = rng.sample(range(n + 1, 2 * n - 1), n - 2)
    up = {taxa[0]: 0}

    def join(run):
        if len(run) == 1:
            return run[0]
        v = inner.pop()
        for half in (run[:len(run) // 2], run[len(run) // 2:]):
            up[join(half)] = v
        return v

    up[join(taxa[1:])] = taxa[0]
    return [up[k] for k in range(1, 2 * n - 1)]


def states(rng, count, kind=None):
    """States as people score them: two, a few, many, and with the ends of what is allowed."""
    kind = kind or rng.choice(["two", "few", "many", "ends", "same"])
    one = rng.randint(0, 9999)
    pick = {"two": lambda: rng.randint(0, 1), "few": lambda: rng.randint(0, 6), "many": lambda: rng.randint(0, 9999),
            "ends": lambda: rng.choice([0, 1, 9998, 9999]), "same": lambda: one}[kind]
    return [pick() for _ in range(count)]


def exact(n, c):
    """The lengths that document 01 asks of the eight slices."""
    return [max(2 * n - 2, 0), n * c] + [max(n - 2, 0)] * 6


def case(n, c, character, resolve, tree, matrix, receiving=()):
    """A case of both calls. `receiving` gives other lengths to the six slices that receive."""
    return n, c, character, resolve, tree, matrix, [len(tree), len(matrix)] + (list(receiving) or exact(n, c)[2:])


def whole(n, c, tree, matrix):
    """Each character in both ways."""
    for j in range(1, c + 1):
        for resolve in ("acctran", "deltran"):
            yield case(n, c, j, resolve, tree, matrix)


def with_entry(entries, k, value):
    return entries[:k - 1] + [value] + entries[k:]


def character_cases(rng):
    # the documents' own
    yield from whole(4, 2, *HANDOUT[1:])
    for n, tree, column in (FIGURE_4, NARUSHIMA, NARUSHIMA_AT_I):
        yield from whole(n, 1, tree, column)
    yield from whole(3, 1, [0, 4, 4, 1], [2, 2, 2])
    n, tree, matrix = HANDOUT
    # 9999 passes, 10000 does not: in the character, in another, in all
    for i in range(1, 9):
        for state in (9999, 10000, 65535):
            for j in (1, 2):
                yield case(4, 2, j, "acctran", tree, with_entry(matrix, i, state))
    yield case(4, 2, 2, "deltran", tree, [10000] * 8)
    yield case(4, 2, 2, "deltran", tree, with_entry([9999] * 8, 6, 10000))
    # 1 before all else
    for n, c in ((0, 1), (2, 1), (257, 1), (65535, 1), (3, 0), (3, 513), (256, 65535), (2, 513)):
        yield case(n, c, 1, "acctran", [], [], [0] * 6)
    yield case(2, 2, 1, "acctran", [0, 1], [0, 0, 1, 1], [0] * 6)
    # 2: each slice too short and too long, alone and with another; before 3, 7 and 8
    for bad in ([], [1], [2], [3], [4], [5], [6], [7], [8], [1, 2], [2, 8], [4, 3], [8, 7], [6, 5], [1, 8]):
        for by in (-1, 1):
            for character, entries, cells in ((1, tree, matrix), (3, [0] * 6, [10000] * 8)):
                lens = [k + by if i in bad else k for i, k in enumerate(exact(4, 2), 1)]
                yield case(4, 2, character, "acctran", (entries + [5])[:lens[0]], (cells + [1])[:lens[1]], lens[2:])
    yield case(4, 2, 1, "acctran", [], [], [0] * 6)
    # 3 to 6 before 8 and 7
    for entries in ([0, 5, 6, 6, 0, 5], [0, 0, 6, 6, 1, 5], [5, 5, 6, 6, 1, 5], [0, 5, 6, 7, 1, 5], [0, 5, 2, 6, 1, 5], [0, 5, 5, 5, 1, 5], [0, 1, 5, 6, 6, 5]):
        for character, cells in ((1, matrix), (9, matrix), (1, [10000] * 8), (0, [10000] * 8)):
            yield case(4, 2, character, "acctran", entries, cells)
    yield case(3, 1, 1, "acctran", [0, 1, 4, 4], [0] * 3)
    # 8 before 7, and 7 in the character's cells alone
    for character in (0, 3, 512, 513, 65535):
        yield case(4, 2, character, "acctran", tree, matrix)
        yield case(4, 2, character, "acctran", tree, [10000] * 8)
    # sizes
    for c in (1, 511, 512):
        yield case(3, c, c, "deltran", random_tree(rng, 3, rng.randint(1, 3)), states(rng, 3 * c, "few"))
    tree, matrix = random_tree(rng, 8), states(rng, 8 * 512, "two")
    for j, resolve in ((1, "acctran"), (512, "deltran"), (513, "acctran")):
        yield case(8, 512, j, resolve, tree, matrix)
    yield case(8, 512, 511, "acctran", tree, with_entry(matrix, 8 * 512, 10000))
    for n in (4, 17):
        for root in (1, 2, n):
            for tree in (random_tree(rng, n, root), random_tree(rng, n, root, comb=True)):
                yield from whole(n, 2, tree, states(rng, 2 * n))
    for tree, kinds in ((random_tree(rng, 256), ["many", "few"]), (random_tree(rng, 256, comb=True), ["many", "ends"]),
                        (balanced_tree(rng, 256), ["many", "two"]), (random_tree(rng, 256, 256, comb=True), ["same", "few"])):
        columns = [states(rng, 256, kind) for kind in kinds]
        matrix = [column[t] for t in range(256) for column in columns]
        yield case(256, 2, 1, rng.choice(["acctran", "deltran"]), tree, matrix)
        yield case(256, 2, 2, rng.choice(["acctran", "deltran"]), tree, matrix)
    # the lowest and the highest state in turn, on a balanced tree and on a comb that is numbered from its tips to the root
    for tree in (balanced_tree(rng, 256), RISING):
        yield case(256, 1, 1, "acctran", tree, [9999 * (t % 2) for t in range(256)])
    # random trees and matrices, sound and damaged
    for _ in range(180):
        n, c = rng.choice([3, 3, 4, 4, 5, 5, 6, 7, 8, 9]), rng.choice([1, 1, 2, 3])
        tree, matrix = random_tree(rng, n, comb=rng.random() < 0.3), states(rng, n * c)
        if rng.random() < 0.35:
            yield from whole(n, c, tree, matrix)
        lens = exact(n, c)[2:]
        if rng.random() < 0.3:
            tree = damaged(rng, n, tree)
        if rng.random() < 0.3:
            for _ in range(rng.randint(1, 3)):
                matrix[rng.randrange(n * c)] = rng.choice([9999, 10000, 65535])
        if rng.random() < 0.15:
            lens[rng.randrange(6)] += rng.choice([-1, 1, 5])
        if rng.random() < 0.1:
            tree, matrix = rng.choice([(tree[:-1], matrix), (tree, matrix + [0]), (tree + [0], matrix[1:])])
        yield case(n, c, rng.choice(list(range(1, c + 1)) * 4 + [0, c + 1]), rng.choice(["acctran", "deltran"]), tree, matrix, lens)


def line(*parts):
    numbers = []
    for part in parts:
        numbers += part if isinstance(part, list) else [part]
    return " ".join(map(str, numbers)) + "\n"


def shown_index(index):
    return "none" if index is None else "%d/%d" % index


def shown_scores(scores):
    return f"length={scores.length} m={scores.m} g={scores.g} ci={shown_index(scores.ci)} ri={shown_index(scores.ri)}"


def shown_list(name, numbers):
    return " ".join([name, *map(str, numbers)])


def characters():
    rng = random.Random(1971)
    given, expected = [], []
    for n, c, character, resolve, tree, matrix, lens in character_cases(rng):
        given.append(line(n, c, character, 0 if resolve == "acctran" else 1, lens, tree, matrix))
        try:
            scores, first, subtree, final, chosen = reference.one_character(n, c, character, resolve, tree, matrix, lens)
            answer = shown_scores(scores)
            lists = [low for low, _ in first], [high for _, high in first], subtree, [low for low, _ in final], [high for _, high in final], chosen
        except Refused as refused:
            answer = str(refused)
            lists = [[4000000000 if i == 2 else 60000] * k for i, k in enumerate(lens[2:])]
        expected.append("one " + answer)
        expected += map(shown_list, ("first lows", "first highs", "subtree lengths", "final lows", "final highs", "states"), lists)
        try:
            answer = shown_scores(reference.all_characters(n, c, tree, matrix))
        except Refused as refused:
            answer = str(refused)
        expected.append("all " + answer)
    return "".join(given), "\n".join(expected) + "\n"
