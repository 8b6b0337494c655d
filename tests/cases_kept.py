"""Kept tables and lists of corrections for run_kept."""
import random

import reference
from cases_characters import FIGURE_4, HANDOUT, balanced_tree, line, shown_list, states
from cases_trees import RISING, random_tree
from reference import Refused


def corrections(rng, n, c, count, taxa=None):
    """A list of corrections, refused ones among them: taxon, character, state. Some of the taxa are of a list."""
    calls = []
    for _ in range(count):
        taxon = rng.choice(taxa) if taxa and rng.random() < 0.5 else rng.randint(1, n)
        call = [taxon, rng.randint(1, c), rng.choice([0, 1, 2, 3, 5, 8, 9999, rng.randint(0, 9999)])]
        spoilt = rng.random()
        if spoilt < 0.06:
            call[0] = rng.choice([0, n + 1, 2 * n - 2, 65535])                        # 8
        elif spoilt < 0.12:
            call[1] = rng.choice([0, c + 1, 65535])                                   # 8
        elif spoilt < 0.2:
            call[2] = rng.choice([10000, 65535])                                      # 9
        elif spoilt < 0.3 and calls:
            call = list(rng.choice(calls))                                            # repeated
        calls.append(call)
    return calls


def kept_cases(rng):
    """n, c, tree, matrix, the lengths of the three slices of the table or the table that is given, and the corrections."""
    # P10 and P11; and document 01's trap, a subtree length that changes above a range that does not
    n, tree, matrix = HANDOUT
    for call in ([4, 1, 3], [1, 1, 4], [3, 1, 2], [2, 1, 4], [2, 2, 1]):
        yield n, 2, tree, matrix, None, [call]
    n, tree, matrix = FIGURE_4
    yield n, 1, tree, matrix, None, [[t, 1, x] for t in range(1, 8) for x in (0, 6, 3)]
    # built tables under long lists of corrections
    for n, c, count in ((3, 1, 12), (3, 2, 12), (4, 2, 30), (5, 3, 40), (6, 1, 30), (8, 3, 60), (17, 2, 60)):
        for comb in (False, True):
            root = rng.randint(1, n)
            tree, matrix = random_tree(rng, n, root, comb), states(rng, n * c, "few")
            yield n, c, tree, matrix, None, corrections(rng, n, c, count, [root, rng.randint(1, n)])
    yield 4, 512, random_tree(rng, 4), states(rng, 4 * 512, "few"), None, corrections(rng, 4, 512, 8) + [[2, 512, 7]]
    # the largest: the deepest taxa of a comb, the root, any
    for tree, taxa, kind in ((RISING, [2, 3, 1], "few"), (random_tree(rng, 256, comb=True), None, "ends"), (balanced_tree(rng, 256), None, "few")):
        yield 256, 2, tree, states(rng, 2 * 256, kind), None, [[2, 1, 0], [2, 1, 9999], [3, 2, 9999], *corrections(rng, 256, 2, 9, taxa)]
    # refusals 1 to 7, of building and of what follows it, each before 8, 9 and 10
    n, tree, matrix = HANDOUT
    calls = [[4, 1, 3], [4, 1, 10000], [9, 9, 10000], [1, 2, 3], [1, 3, 3], [0, 1, 3], [1, 0, 10000]]
    for n, c, entries, cells, lens in ((2, 2, [0, 1], [1] * 4, [0] * 3), (257, 2, [], [], [0] * 3), (4, 0, tree, [], [0] * 3), (4, 513, tree, matrix, [4] * 3),
                                       (4, 2, tree[1:], matrix, [4] * 3), (4, 2, tree, matrix[1:], [4] * 3), (4, 2, tree, matrix, [3, 4, 5]),
                                       (4, 2, tree, matrix, [4, 5, 4]), (4, 2, tree, matrix, [4, 4, 3]), (4, 2, tree + [0], matrix + [0], [5] * 3),
                                       (4, 2, [0, 0] + tree[2:], matrix, [4] * 3), (4, 2, [0, 9] + tree[2:], matrix, [4] * 3),
                                       (4, 2, [0, 5, 5, 5, 1, 5], matrix, [4] * 3), (4, 2, [0, 1, 5, 6, 6, 5], matrix, [4] * 3),
                                       (4, 2, tree, [0, 0, 3, 10000, 1, 1, 5, 0], [4] * 3), (4, 2, tree, [0, 0, 3, 1, 1, 1, 10000, 65535], [4] * 3)):
        yield n, c, entries, cells, lens, calls
    # tables that are not built: sound entries, and each fault of 10 at each entry, alone and with others
    n, tree, matrix = HANDOUT
    for i in range(4):
        for fault in ((5, 4, 1), (0, 10000, 1), (1, 2, 5089492), (10000, 10000, 4294967295), (9999, 9999, 5089491)):
            for others in (False, True):
                table = [[3, 1, 1, 0], [3, 5, 1, 1], [4, 4, 1, 1]]
                for k in range(i, 4 if others else i + 1):
                    for entries, value in zip(table, fault):
                        entries[k] = value
                yield n, 2, tree, matrix, table, [[0, 1, 3], [2, 2, 3], [2, 1, 3], [1, 1, 2], [4, 1, 10000], [4, 1, 7], [4, 2, 7]]
    for _ in range(40):
        n, c = rng.choice([3, 4, 5, 6, 9]), rng.choice([1, 2, 3])
        tree, matrix, many = random_tree(rng, n, comb=rng.random() < 0.4), states(rng, n * c, "few"), (n - 2) * c
        lows = [rng.randint(0, 9) for _ in range(many)]
        highs = [min(9999, low + rng.choice([0, 0, 1, 3, 9999])) for low in lows]
        lengths = [rng.choice([0, rng.randint(0, 40), 5089491, rng.randint(0, 5089491)]) for _ in range(many)]
        for _ in range(rng.choice([0, 0, 1, 3])):
            k = rng.randrange(many)
            rng.choice([lows, highs, lengths])[k] = rng.choice([10000, 65535])
            lengths[k] = rng.choice([lengths[k], 5089492])
        for _ in range(rng.choice([0, 0, 0, 1])):
            matrix[rng.randrange(n * c)] = 10000
        yield n, c, tree, matrix, [lows, highs, lengths], corrections(rng, n, c, 10)
    # the longest lengths that a correction can write: along a comb, from entries that are as long as 10 allows
    yield 256, 1, RISING, [9999 * (t % 2) for t in range(256)], [[9999] * 254, [9999] * 254, [5089491] * 254], [[0, 1, 0], [2, 1, 0]]
    yield 16, 1, balanced_tree(rng, 16), [0] * 16, [[9999] * 14, [9999] * 14, [5089491] * 14], [[t, 1, 0] for t in range(1, 17)]


def shown_digest(name, entries):
    total = 0
    for entry in entries:
        total = (total * 31 + entry + 1) % 65521
    return f" {name}={total}"


def shown_table(table):
    return "".join(map(shown_digest, ("lows", "highs", "lengths"), table.lists()))


def answer(call, show):
    """What a call answers, as it is shown, or its refusal."""
    try:
        return show(call())
    except Refused as refused:
        return str(refused)


def kept():
    rng = random.Random(1987)
    given, expected = [], []
    for n, c, tree, matrix, how, calls in kept_cases(rng):
        is_given = how is not None and isinstance(how[0], list)
        lens = [len(entries) for entries in how] if is_given else how or [(n - 2) * c] * 3
        matrix = list(matrix)
        table = reference.Table(*how) if is_given else reference.Table(*([mark] * k for mark, k in zip((11, 13, 17), lens)))
        numbers = table.lows + table.highs + [part for length in table.lengths for part in divmod(length, 65536)] if is_given else []
        if not is_given:
            built = answer(lambda: reference.build(n, c, tree, matrix, table), lambda _: "built")
            expected.append(built + shown_table(table))
        # the two slices that receive final ranges are of the right length but for every sixth correction
        finals = [[max(n - 2 + (k % 12 == 5) - (k % 24 == 11), 0), max(n - 2 + (k % 12 == 11), 0)] for k in range(len(calls))]
        given.append(line(n, c, len(tree), len(matrix), lens, tree, matrix, 1 if is_given else 0, numbers, len(calls), *(a + b for a, b in zip(calls, finals))))
        for (taxon, character, state), lengths in zip(calls, finals):
            count = answer(lambda: reference.correct(n, c, taxon, character, state, tree, matrix, table), lambda count: f"rewritten={count}")
            expected.append(count + shown_digest("matrix", matrix) + shown_table(table))
            fresh = reference.Table(*([0] * k for k in table.lens()))
            built = answer(lambda: reference.build(n, c, tree, matrix, fresh), lambda _: "built")
            expected.append("  fresh " + built + shown_table(fresh))
            assert is_given or built != "built" or fresh.lists() == table.lists()
            expected.append("  tree " + answer(lambda: reference.kept_length(n, c, tree, matrix, table), lambda length: f"length={length}"))
            lists = [[60000] * k for k in lengths]

            def shown(got):
                length, final = got
                lists[:] = zip(*final)
                return f"length={length}"

            length = answer(lambda: reference.kept_character(n, c, character, tree, matrix, table, lengths), shown)
            expected.append("  character " + length + "".join(map(shown_digest, ("final lows", "final highs"), lists)))
        if len(table.lows) <= 40:
            expected += map(shown_list, ("lows", "highs", "lengths"), table.lists())
    return "".join(given), "\n".join(expected) + "\n"
