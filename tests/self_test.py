#!/usr/bin/env python3
"""Tries the second implementation: against every way of giving states to the interior nodes of small trees, and against the documents' examples."""
import itertools
import random

from reference import (
    NEVER, Meaning, Refused, Table, all_characters, build, ci, column, correct, gap, kept_character, kept_length,
    middle, neighbours, one_character, ri, way_length,
)


def by_all_ways(n, tree, given, states):
    """The same as Meaning, by trying every way: the least length below each node and of the whole, and the states that the shortest ways have."""
    descendants = neighbours(tree)
    inner = list(range(n + 1, 2 * n - 1))
    below = {v: [v] for v in inner}
    for v in inner:
        for k in below[v]:
            below[v] += descendants[k]
    whole, used, sub, first = NEVER, {}, {v: NEVER for v in inner}, {}
    for chosen in itertools.product(states, repeat=n - 2):
        way = list(given) + list(chosen)
        step = [abs(way[k] - way[up - 1]) if up else 0 for k, up in enumerate(tree)]
        length = sum(step)
        if length < whole:
            whole, used = length, {v: set() for v in inner}
        if length == whole:
            for v in inner:
                used[v].add(way[v - 1])
        for v in inner:
            length = sum(step[k - 1] for k in below[v] if k != v)
            if length < sub[v]:
                sub[v], first[v] = length, set()
            if length == sub[v]:
                first[v].add(way[v - 1])
    return whole, sub, first, used


def self_test():
    rng = random.Random(1987)

    def tree_of(n):
        inner = rng.sample(range(n + 1, 2 * n - 1), n - 2)
        root = rng.randint(1, n)
        tops, up = [t for t in range(1, n + 1) if t != root], {root: 0}
        for v in inner:
            for _ in range(2):
                up[tops.pop(rng.randrange(len(tops)))] = v
            tops.append(v)
        up[tops[0]] = root
        return [up[k] for k in range(1, 2 * n - 1)]

    def run_of(ends):
        return set(range(ends[0], ends[1] + 1))

    for n, times in ((3, 40), (4, 60), (5, 40), (6, 12)):
        for _ in range(times):
            tree, given = tree_of(n), [rng.randint(0, 4) for _ in range(n)]
            whole, sub, first, used = by_all_ways(n, tree, given, range(-1, 6) if n < 6 else range(5))
            meaning = Meaning(n, tree, given)
            assert meaning.length == whole and meaning.subtree == sub
            assert {v: run_of(r) for v, r in meaning.first.items()} == first and {v: run_of(r) for v, r in meaning.final.items()} == used
            for resolve in ("acctran", "deltran"):
                assert way_length(tree, given + meaning.states(resolve)) == whole
    # larger trees: the reconstructions have the least length; corrections keep the table what a fresh build makes it; kept answers are the fresh ones
    for _ in range(25):
        n, c = rng.randint(3, 12), rng.randint(1, 3)
        tree, matrix = tree_of(n), [rng.choice([0, 1, 2, 3, 50, 9999]) for _ in range(n * c)]
        table, fresh = (Table(*([[0] * ((n - 2) * c)] * 3)) for _ in range(2))
        build(n, c, tree, matrix, table)
        for _ in range(8):
            taxon, character = rng.randint(1, n), rng.randint(1, c)
            count = correct(n, c, taxon, character, rng.randint(0, 60), tree, matrix, table)
            assert (count == 0) == (tree[taxon - 1] == 0) and count <= n - 2
            build(n, c, tree, matrix, fresh)
            assert table.lists() == fresh.lists()
            scores, _, _, final, states = one_character(n, c, character, rng.choice(["acctran", "deltran"]), tree, matrix)
            assert kept_character(n, c, character, tree, matrix, table) == (scores.length, final)
            assert way_length(tree, column(n, c, character, matrix) + states) == scores.length
            assert kept_length(n, c, tree, matrix, table) == all_characters(n, c, tree, matrix).length

    # P1 to P7, and the neighbouring ranges
    for a, b, join, cost in (((1, 1), (5, 5), (1, 5), 4), ((1, 3), (5, 6), (3, 5), 2), ((1, 3), (2, 4), (2, 3), 0), ((3, 3), (1, 5), (3, 3), 0),
                             ((0, 2), (2, 2), (2, 2), 0), ((9999, 9999), (0, 0), (0, 9999), 9999), ((4, 4), (4, 4), (4, 4), 0), ((1, 3), (4, 6), (3, 4), 1)):
        assert middle([a, b]) == middle([b, a]) == join and gap(a, b) == gap(b, a) == cost

    def shows(scores):
        return scores.length, scores.m, scores.g, scores.ci, scores.ri

    # P8, P9 and the tree of the handout; DELTRAN; the choice 1,3
    tree, matrix = [0, 5, 6, 6, 1, 5], [0, 0, 3, 1, 1, 1, 5, 0]
    scores, first, subtree, final, states = one_character(4, 2, 1, "acctran", tree, matrix)
    assert (shows(scores), first, subtree, final, states) == ((7, 5, 9, (5, 7), (2, 4)), [(3, 3), (1, 5)], [4, 4], [(1, 3), (1, 3)], [3, 3])
    scores, first, subtree, final, states = one_character(4, 2, 2, "acctran", tree, matrix)
    assert (shows(scores), first, subtree, final, states) == ((2, 1, 2, (1, 2), (0, 1)), [(1, 1), (0, 1)], [1, 1], [(0, 1), (0, 1)], [1, 1])
    assert one_character(4, 2, 1, "deltran", tree, matrix)[4] == [1, 1] and way_length(tree, [0, 3, 1, 5, 1, 3]) == 9
    assert shows(all_characters(4, 2, tree, matrix)) == (9, 6, 11, (6, 9), (2, 5))
    # P10 and P11
    table = Table([0] * 4, [0] * 4, [0] * 4)
    build(4, 2, tree, matrix, table)
    before, cells = [list(entries) for entries in table.lists()], list(matrix)
    assert correct(4, 2, 4, 1, 3, tree, matrix, table) == 2
    assert [entries[:2] for entries in table.lists()] == [[3, 1], [3, 3], [2, 2]] and kept_character(4, 2, 1, tree, matrix, table)[0] == 5
    table = Table(*before)
    assert correct(4, 2, 1, 1, 4, tree, cells, table) == 0 and list(table.lists()) == before and kept_character(4, 2, 1, tree, cells, table)[0] == 5
    # P12
    scores = one_character(3, 1, 1, "acctran", [0, 4, 4, 1], [2, 2, 2])[0]
    assert (scores.length, scores.ci, scores.ri) == (0, None, None)
    # the paper's Fig. 4, with Figs. 5 and 6
    paper = [8, 8, 9, 9, 11, 11, 0, 10, 10, 12, 12, 7]
    scores, first, _, final, states = one_character(7, 1, 1, "acctran", paper, [2, 4, 5, 6, 0, 3, 1])
    assert (scores.length, first, final) == (10, [(2, 4), (5, 6), (4, 5), (0, 3), (3, 4)], [(2, 4), (5, 5), (2, 4), (1, 3), (1, 3)])
    assert states == [4, 5, 4, 3, 3] and one_character(7, 1, 1, "deltran", paper, [2, 4, 5, 6, 0, 3, 1])[4] == [2, 5, 2, 1, 1]
    # Narushima and Hanazawa: f to l are the taxa 1 to 7 and a to e the interior nodes 8 to 12; rooted at f, and at i
    states = [1, 3, 0, 6, 5, 2, 4]
    for tree in ([0, 12, 12, 10, 10, 9, 9, 11, 8, 8, 1, 11], [11, 12, 12, 0, 10, 9, 9, 10, 8, 4, 8, 11]):
        scores, _, _, final, _ = one_character(7, 1, 1, "acctran", tree, states)
        assert (scores.length, final) == (10, [(2, 4), (2, 4), (5, 5), (1, 3), (1, 3)])
    # refusals that document 01 names
    for answer, call in (((1, 0), lambda: one_character(2, 1, 1, "acctran", [0, 1], [1, 1])),
                         ((6, 3), lambda: all_characters(4, 1, [0, 1, 5, 6, 6, 5], [0] * 4)),
                         ((6, 3), lambda: all_characters(3, 1, [0, 1, 4, 4], [0] * 3)),
                         ((5, 5), lambda: all_characters(4, 1, [0, 5, 5, 5, 1, 5], [0] * 4)),
                         ((7, 4), lambda: one_character(3, 2, 2, "acctran", [0, 4, 4, 1], [0, 9999, 10000, 10000, 0, 0]))):
        try:
            call()
            assert False
        except Refused as refused:
            assert (refused.number, refused.place) == answer
    print("reference: ok")


if __name__ == "__main__":
    self_test()
