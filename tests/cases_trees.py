"""Tree tables for run_trees, and trees for other cases."""
import random

import reference
from reference import Refused

# a comb of 256 taxa, numbered from its tips to the root: the taxa 2 and 3 are the deepest
RISING = [0, 257] + list(range(257, 511)) + list(range(258, 511)) + [1]


def random_tree(rng, n, root=None, comb=False):
    """An accepted table of n taxa: a random shape, or a comb; the interior nodes are numbered in no order."""
    taxa = list(range(1, n + 1))
    root = root or rng.choice(taxa)
    interior = list(range(n + 1, 2 * n - 1))
    rng.shuffle(interior)
    tops = [t for t in taxa if t != root]
    rng.shuffle(tops)
    up = {root: 0}
    for v in interior:
        if comb:
            a, b = tops.pop(), tops.pop()
        else:
            a, b = (tops.pop(rng.randrange(len(tops))) for _ in range(2))
        up[a] = up[b] = v
        tops.append(v)
    up[tops[0]] = root
    return [up[k] for k in range(1, 2 * n - 1)]


def damaged(rng, n, tree):
    """The table with one to three entries changed, most of them to something that is nearly right."""
    tree = list(tree)
    for _ in range(rng.randint(1, 3)):
        k = rng.randrange(len(tree))
        tree[k] = rng.choice([0, rng.randint(1, n), rng.randint(n + 1, 2 * n - 2), 2 * n - 1, 2 * n - 2, k + 1, 65535, rng.choice(tree)])
    return tree


def tree_cases(rng):
    # document 01's own
    yield 4, [0, 5, 6, 6, 1, 5]
    yield 4, [0, 1, 5, 6, 6, 5]
    yield 3, [0, 1, 4, 4]
    yield 4, [0, 5, 5, 5, 1, 5]
    yield 2, [0, 1]
    yield 257, [0] * 512
    yield 0, []
    yield 65535, [1]
    # slices that are too short or too long
    for n in (3, 4, 17, 256):
        yield n, [0] * (2 * n - 3)
        yield n, [0] * (2 * n - 1)
    # each fault by itself, and two of them at once, in either order of their nodes
    for n in (3, 4, 17):
        for root in {1, 2, n}:
            good = random_tree(rng, n, root)
            yield n, good
            yield n, [e or n + 1 for e in good]                                       # 3: no root
            for k in (0, 1, n - 1, n, 2 * n - 3):
                yield n, good[:k] + [0] + good[k + 1:]                                # 3: another 0, an interior one among them
                yield n, good[:k] + [2 * n - 1] + good[k + 1:]                        # 4: above the nodes
                yield n, good[:k] + [root % n + 1] + good[k + 1:]                     # 4: a taxon that is not the root
                yield n, good[:k] + [k + 1] + good[k + 1:]                            # 4, 5 or 6: its own ancestor
                for j in (0, n - 1, n, 2 * n - 3):
                    both = good[:k] + [0] + good[k + 1:]
                    both[j] = 2 * n - 1
                    yield n, both                                                     # 3 before 4
                    both = good[:k] + [2 * n - 2] + good[k + 1:]
                    both[j] = root % n + 1
                    yield n, both                                                     # 4 before 5
    # rounds in which every count is right: refusal 6
    for n in (4, 5, 17):
        for _ in range(8):
            tree = random_tree(rng, n)
            inner = list(range(n + 1, 2 * n - 1))
            v, w = rng.sample(inner, 2)
            tree[v - 1], tree[w - 1] = tree[w - 1], tree[v - 1]
            yield n, tree
            k = rng.randrange(len(tree))
            for entry in (0, rng.randint(1, n), rng.choice(inner)):                   # 3, 4 and 5 before 6
                yield n, tree[:k] + [entry] + tree[k + 1:]
    # random and damaged ones of all sizes, and the largest
    for _ in range(220):
        n = rng.choice([3, 3, 4, 4, 5, 6, 7, 8, 17])
        tree = random_tree(rng, n, comb=rng.random() < 0.3)
        yield n, tree if rng.random() < 0.3 else damaged(rng, n, tree)
    for comb in (False, True):
        tree = random_tree(rng, 256, comb=comb)
        yield 256, tree
        yield 256, damaged(rng, 256, tree)
    yield 256, RISING                                                                 # a comb numbered from its tips to the root
    yield 256, [0, 510] + list(range(510, 256, -1)) + [1] + list(range(257, 510))     # and one numbered from the root to its tips
    yield 256, [0, 1] + RISING[2:509] + [257]                                         # the first one, closed to a round with every count right
    tree = random_tree(rng, 256)
    tree[300], tree[400] = tree[400], tree[300]
    yield 256, tree


def trees():
    rng = random.Random(1987)
    cases = list(tree_cases(rng))
    given = "".join(" ".join(map(str, [n, len(tree)] + tree)) + "\n" for n, tree in cases)
    expected = []
    for n, tree in cases:
        try:
            expected.append("root=%d,%d" % reference.accept_tree(n, tree))
        except Refused as refused:
            expected.append(str(refused))
    return given, "\n".join(expected) + "\n"
