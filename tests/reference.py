"""Document 01, written a second time: from the documents alone, as an engineer would without proofs. It shares nothing with the library.

Nodes are counted from 1, as in the documents; tables are lists counted from 0. A refusal is a `Refused` with its number and place.

tests/self_test.py tries it against every way of giving states on small trees, and against the documents' examples. Sheets are in reference_sheets.py.
"""
import functools


class Refused(Exception):
    def __init__(self, number, place):
        super().__init__(f"refused={number},{place}")
        self.number, self.place = number, place


def lowest(places, number):
    """Refuses at the first of the places, if there is one."""
    for place in places:
        raise Refused(number, place)


def accept_tree(n, tree):
    """The root and its descendant, or refusal 1 (of n), 2 (of the tree), 3, 4, 5 or 6."""
    if not 3 <= n <= 256:
        raise Refused(1, 0)
    if len(tree) != 2 * n - 2:
        raise Refused(2, 1)
    nodes = range(1, len(tree) + 1)
    up = dict(zip(nodes, tree))
    zeros = [k for k in nodes if up[k] == 0]
    if not zeros:
        raise Refused(3, 0)
    lowest((k for k in zeros if k > n or k != zeros[0]), 3)
    root = zeros[0]
    lowest((k for k in nodes if up[k] > len(tree) or (1 <= up[k] <= n and up[k] != root)), 4)
    descendants = {k: [j for j in nodes if up[j] == k] for k in nodes}
    lowest((k for k in nodes if (k == root and len(descendants[k]) != 1) or (k > n and len(descendants[k]) != 2)), 5)

    def lost(k):
        for _ in nodes:
            if k == root:
                return False
            k = up[k]
        return True

    lowest((k for k in nodes if lost(k)), 6)
    return root, descendants[root][0]


# ---- the checks of the calls, in document 01's order

STATES, LONGEST = 9999, 5089491


def sizes(n, c, lens, asked):
    """Refusal 1, then 2: of n and c, and of the lengths of the slices in the call's order."""
    if not (3 <= n <= 256 and 1 <= c <= 512):
        raise Refused(1, 0)
    lowest((i for i, (has, want) in enumerate(zip(lens, asked), 1) if has != want), 2)


def cell(c, taxon, character):
    return (taxon - 1) * c + character


def all_cells(matrix):
    """Refusal 7, over all cells."""
    lowest((i for i, state in enumerate(matrix, 1) if state > STATES), 7)


def column(n, c, character, matrix):
    """The states of one character, the taxon 1 first; refusal 8 or 7 of the character's cells alone."""
    if not 1 <= character <= c:
        raise Refused(8, 0)
    lowest((cell(c, t, character) for t in range(1, n + 1) if matrix[cell(c, t, character) - 1] > STATES), 7)
    return [matrix[cell(c, t, character) - 1] for t in range(1, n + 1)]


# ---- lengths and ranges, by their meaning
#
# Not by joins: each node has a cost for each state that occurs among the taxa, what is least below it (`inside`) and what is least elsewhere (`outside`),
# each by itself with the state given. A change costs the difference of the states, so both are convex and break only at states of taxa: what is least
# over all integers is found there, and between the lowest and the highest state of least cost every integer has it.

def neighbours(tree):
    """The descendants of each node."""
    descendants = {k: [] for k in range(len(tree) + 1)}
    for k, up in enumerate(tree, 1):
        descendants[up].append(k)
    return descendants


def moved(costs, states):
    """For each state, the least cost after a change to it from any state: two sweeps over the states in rising order."""
    costs = list(costs)
    for i in range(1, len(states)):
        costs[i] = min(costs[i], costs[i - 1] + states[i] - states[i - 1])
    for i in range(len(states) - 2, -1, -1):
        costs[i] = min(costs[i], costs[i + 1] + states[i + 1] - states[i])
    return costs


def least_states(costs, states):
    least = min(costs)
    at = [x for x, cost in zip(states, costs) if cost == least]
    return least, (at[0], at[-1])


NEVER = 10 ** 9


class Meaning:
    """Of one character on an accepted tree: its least length; at each interior node the least length below it, the states that shortest ways below
    it have there, and those that shortest ways of the whole tree have there. `given` is the state of each taxon."""

    def __init__(self, n, tree, given):
        self.n, self.tree, self.given = n, tree, given
        root = tree.index(0) + 1
        descendants = neighbours(tree)
        top = descendants[root][0]
        states = sorted(set(given))
        order = [top]
        for v in order:
            order += descendants[v]
        inside, risen = {}, {}
        for v in reversed(order):
            if v <= n:
                inside[v] = [0 if x == given[v - 1] else NEVER for x in states]
            else:
                inside[v] = [sum(pair) for pair in zip(*(risen[k] for k in descendants[v]))]
            risen[v] = moved(inside[v], states)
        outside = {top: [abs(x - given[root - 1]) for x in states]}
        for v in order:
            for k in descendants[v]:
                rest = [risen[s] for s in descendants[v] if s != k] + [outside[v]]
                outside[k] = moved([sum(costs) for costs in zip(*rest)], states)
        self.length = risen[top][states.index(given[root - 1])]
        self.first, self.subtree, self.final = {}, {}, {}
        for v in range(n + 1, 2 * n - 1):
            self.subtree[v], self.first[v] = least_states(inside[v], states)
            least, self.final[v] = least_states([a + b for a, b in zip(inside[v], outside[v])], states)
            assert least == self.length
        self.order, self.root = [v for v in order if v > n], root

    def states(self, resolve):
        """ACCTRAN's or DELTRAN's: from the root downward, the state of the first-pass or of the final range nearest the ancestor's state."""
        ranges = self.first if resolve == "acctran" else self.final
        chosen = {t: x for t, x in enumerate(self.given, 1)}
        for v in self.order:
            low, high = ranges[v]
            x = chosen[self.tree[v - 1]]
            chosen[v] = low if x < low else high if x > high else x
        return [chosen[v] for v in range(self.n + 1, 2 * self.n - 1)]

    def listed(self, entries):
        return [entries[v] for v in range(self.n + 1, 2 * self.n - 1)]


@functools.lru_cache(maxsize=None)
def remembered(n, tree, given):
    return Meaning(n, list(tree), list(given))


def meaning_of(n, tree, given):
    """The same, and the work is done once where it is asked for again."""
    return remembered(n, tuple(tree), tuple(given))


def way_length(tree, way):
    """The plain sum over the branches; way is the state of each node, the node 1 first."""
    return sum(abs(way[k] - way[up - 1]) for k, up in enumerate(tree) if up)


# ---- indices

def spread(given):
    return max(given) - min(given)


def star(given, root):
    return sum(abs(x - given[root - 1]) for x in given)


def ci(m, s):
    return None if s == 0 else (m, s)


def ri(m, s, g):
    return None if g == m or g < s else (g - s, g - m)


# ---- the calls

class Scores:
    def __init__(self, s, m, g):
        self.length, self.m, self.g, self.ci, self.ri = s, m, g, ci(m, s), ri(m, s, g)


def one_character(n, c, character, resolve, tree, matrix, lens=None):
    """One character afresh: scores, first-pass ranges, subtree lengths, final ranges and states, the node n + 1 first. `lens` are the lengths of the
    eight slices that are lent, where they are not all exact."""
    asked = [2 * n - 2, n * c] + [n - 2] * 6
    sizes(n, c, lens or [len(tree), len(matrix)] + asked[2:], asked)
    root, _ = accept_tree(n, tree)
    given = column(n, c, character, matrix)
    meaning = meaning_of(n, tree, given)
    scores = Scores(meaning.length, spread(given), star(given, root))
    return scores, meaning.listed(meaning.first), meaning.listed(meaning.subtree), meaning.listed(meaning.final), meaning.states(resolve)


def all_characters(n, c, tree, matrix):
    """All characters afresh: the tree's scores. m, s and g are summed first."""
    sizes(n, c, [len(tree), len(matrix)], [2 * n - 2, n * c])
    root, _ = accept_tree(n, tree)
    all_cells(matrix)
    columns = [column(n, c, j, matrix) for j in range(1, c + 1)]
    return Scores(sum(meaning_of(n, tree, given).length for given in columns), sum(map(spread, columns)), sum(star(given, root) for given in columns))


# ---- the kept table: three lists, by character and then by node

class Table:
    def __init__(self, lows, highs, lengths):
        self.lows, self.highs, self.lengths = list(lows), list(highs), list(lengths)

    def lists(self):
        return self.lows, self.highs, self.lengths

    def lens(self):
        return [len(entries) for entries in self.lists()]

    def bad(self, i):
        return self.lows[i] > self.highs[i] or self.highs[i] > STATES or self.lengths[i] > LONGEST


def kept_sizes(n, c, tree, matrix, table, finals=()):
    sizes(n, c, [len(tree), len(matrix)] + table.lens() + list(finals), [2 * n - 2, n * c] + [(n - 2) * c] * 3 + [n - 2] * 2)


def build(n, c, tree, matrix, table):
    """Writes the table; its lists have to be as long as the table is."""
    kept_sizes(n, c, tree, matrix, table)
    accept_tree(n, tree)
    all_cells(matrix)
    table.lows, table.highs, table.lengths = [], [], []
    for j in range(1, c + 1):
        meaning = meaning_of(n, tree, column(n, c, j, matrix))
        for v in range(n + 1, 2 * n - 1):
            table.lows.append(meaning.first[v][0])
            table.highs.append(meaning.first[v][1])
            table.lengths.append(meaning.subtree[v])


# A table that was not built from its tree and matrix has no meaning, and is answered by the steps over its entries as they stand.

def middle(ranges):
    """The two middle ends of ranges: the join."""
    row = sorted(end for r in ranges for end in r)
    return row[len(ranges) - 1], row[len(ranges)]


def gap(a, b):
    return max(0, a[0] - b[1], b[0] - a[1])


class Column:
    """One character of a table beside its matrix: the range and the length at a node."""

    def __init__(self, n, c, character, matrix, table):
        self.n, self.at, self.table = n, (character - 1) * (n - 2) - n - 1, table
        self.given = [matrix[cell(c, t, character) - 1] for t in range(1, n + 1)]

    def range(self, v):
        if v <= self.n:
            return self.given[v - 1], self.given[v - 1]
        return self.table.lows[self.at + v], self.table.highs[self.at + v]

    def length(self, v):
        return 0 if v <= self.n else self.table.lengths[self.at + v]

    def whole(self, root, top):
        return self.length(top) + gap((self.given[root - 1],) * 2, self.range(top))


def kept_length(n, c, tree, matrix, table):
    kept_sizes(n, c, tree, matrix, table)
    root, top = accept_tree(n, tree)
    all_cells(matrix)
    lowest((n + 1 + i % (n - 2) for i in range((n - 2) * c) if table.bad(i)), 10)
    return sum(Column(n, c, j, matrix, table).whole(root, top) for j in range(1, c + 1))


def kept_character(n, c, character, tree, matrix, table, finals=None):
    """The length and the final ranges. `finals` are the lengths of the two slices that receive them."""
    kept_sizes(n, c, tree, matrix, table, finals or [n - 2] * 2)
    root, top = accept_tree(n, tree)
    given = column(n, c, character, matrix)
    kept = Column(n, c, character, matrix, table)
    lowest((v for v in range(n + 1, 2 * n - 1) if table.bad(kept.at + v)), 10)
    descendants = neighbours(tree)
    above, final = {top: (given[root - 1],) * 2}, {}
    order = [top]
    for v in order:
        left, right = descendants[v]
        final[v] = middle([kept.range(left), kept.range(right), above[v]])
        above[left] = middle([kept.range(right), above[v]])
        above[right] = middle([kept.range(left), above[v]])
        order += [k for k in (left, right) if k > n]
    return kept.whole(root, top), [final[v] for v in range(n + 1, 2 * n - 1)]


def correct(n, c, taxon, character, state, tree, matrix, table):
    """Writes one cell and the entries between it and the root; answers how many those are."""
    kept_sizes(n, c, tree, matrix, table)
    accept_tree(n, tree)
    if not 1 <= taxon <= n:
        raise Refused(8, 0)
    column(n, c, character, matrix)
    if state > STATES:
        raise Refused(9, 0)
    descendants = neighbours(tree)
    path, v = [], tree[taxon - 1]
    while v > n:
        path.append(v)
        v = tree[v - 1]
    at = (character - 1) * (n - 2) - n - 1
    lowest(sorted(k for v in path for k in descendants[v] if k > n and k not in path and table.bad(at + k)), 10)
    matrix[cell(c, taxon, character) - 1] = state
    kept = Column(n, c, character, matrix, table)
    for v in path:
        left, right = (kept.range(k) for k in descendants[v])
        table.lengths[at + v] = sum(kept.length(k) for k in descendants[v]) + gap(left, right)
        table.lows[at + v], table.highs[at + v] = middle([left, right])
    return len(path)
