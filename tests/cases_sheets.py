"""Texts for run_sheets: sheets, damaged sheets, and texts at the limits."""
import functools
import random

import reference_sheets
from cases_trees import damaged, random_tree
from reference import Refused


def sheet_text(n, c, ancestors, rows, last=None):
    lines = [f"taxa={n}", f"characters={c}", "ancestors=" + ",".join(map(str, ancestors))]
    lines += ["row=" + ",".join(map(str, row)) for row in rows]
    lines += [f"resolve={last}"] if last else []
    return "".join(line + "\n" for line in lines).encode()


def random_sheet(rng, n=None, c=None):
    """A sheet in form; its tree need not be one, and its states need not be below 10000."""
    n, c = n or rng.randint(3, 6), c or rng.randint(1, 4)
    number = lambda: rng.choice([0, rng.randint(0, 9), rng.randint(0, 9), rng.randint(0, 65535), 9999, 65535])
    ancestors = random_tree(rng, n) if rng.random() < 0.7 else [number() for _ in range(2 * n - 2)]
    return sheet_text(n, c, ancestors, [[number() for _ in range(c)] for _ in range(n)], rng.choice([None, None, "acctran", "deltran"]))


def spoil_bytes(rng, text):
    """A byte dropped, doubled, replaced, put in, or the rest cut off."""
    k = rng.randrange(len(text))
    byte = bytes([rng.choice(b"0123456789,,==\n\n\r \t.-+racxte\0\xff")])
    return rng.choice([text[:k] + text[k + 1:], text[:k + 1] + text[k:], text[:k] + byte + text[k + 1:], text[:k] + byte + text[k:], text[:k]])


def spoil_lines(rng, text):
    """A line dropped, doubled, ended in another way, or out of its place."""
    lines = text.split(b"\n")[:-1] or [text]
    j, k = rng.randrange(len(lines)), rng.randrange(len(lines))
    way = rng.randrange(8)
    if way == 0:
        del lines[k]
    elif way == 1:
        lines.insert(k, lines[k])
    elif way == 2:
        lines[j], lines[k] = lines[k], lines[j]
    elif way == 3:
        lines[k] += b"\r"
    elif way == 4:
        lines = [line + b"\r" for line in lines]
    elif way == 5:
        lines.insert(rng.choice([k, len(lines)]), rng.choice([b"", b"resolve=acctran", b"resolve=deltran", b"resolve=", b"resolve=none", b"row=0"]))
    elif way == 6:
        return b"\n".join(lines)                                                      # the last LF is missing
    else:
        key, _, values = lines[k].partition(b"=")
        other = rng.choice([b"taxa", b"characters", b"ancestors", b"row", b"resolve", b"Row", b"rows", b"", key.upper(), key + b" "])
        lines[k] = other + b"=" + values
    return b"".join(line + b"\n" for line in lines)


def spoil_values(rng, text):
    """A number written in another way, or a number too few or too many."""
    lines = text.split(b"\n")[:-1] or [text]
    k = rng.randrange(len(lines))
    key, _, values = lines[k].partition(b"=")
    fields = values.split(b",")
    i = rng.randrange(len(fields))
    way = rng.randrange(9)
    if way == 0:
        fields[i] = b"0" + fields[i]
    elif way == 1:
        fields[i] = rng.choice([b"65535", b"65536", b"65537", b"70000", b"99999", b"100000", b"655350", b"4294967296", b"18446744073709551616"])
    elif way == 2:
        del fields[i]
    elif way == 3:
        fields.insert(i, fields[i])
    elif way == 4:
        fields[i] = rng.choice([b"", b"+1", b"-1", b"1.0", b"1e3", b"0x1", b"a", b" 1", b"1 ", b"\xef\xbc\x91", b"00", b"0"])
    elif way == 5:
        return text.replace(b",", rng.choice([b";", b", ", b" ", b"\t", b",,"]), rng.choice([1, -1]))
    elif way == 6:
        fields.append(b"")
    else:
        limit = rng.choice([b"0", b"1", b"2", b"3", b"4", b"256", b"257", b"512", b"513", b"65535"])
        lines[min(way - 7, len(lines) - 1)] = rng.choice([b"taxa=", b"characters="]) + limit
    lines[k] = key + b"=" + b",".join(fields) if way < 7 else lines[k]
    return b"".join(line + b"\n" for line in lines)


def sheet_of_bytes(rng, n, c, size):
    """A sheet in form of so many bytes: numbers of one digit, and longer ones until it is long enough."""
    rows = [[rng.randint(0, 9) for _ in range(c)] for _ in range(n)]
    ancestors = random_tree(rng, n)
    short = size - len(sheet_text(n, c, ancestors, rows))
    assert 0 <= short <= 4 * n * c
    for j in range(n * c):
        more = min(4, short)
        rows[j // c][j % c] = int("65535"[:more + 1]) if more else rows[j // c][j % c]
        short -= more
    text = sheet_text(n, c, ancestors, rows)
    assert len(text) == size
    return text


HANDOUT_SHEET = b"taxa=4\ncharacters=2\nancestors=0,5,6,6,1,5\nrow=0,0\nrow=3,1\nrow=1,1\nrow=5,0\n"


def sheet_cases(rng):
    """The lengths of the tree slice and the matrix slice, and a text."""
    exact = (510, 16384)
    # document 01's own, whole and with a resolve line, and each part of it
    for last in (b"", b"resolve=acctran\n", b"resolve=deltran\n"):
        yield *exact, HANDOUT_SHEET + last
    for k in range(len(HANDOUT_SHEET)):
        yield *exact, HANDOUT_SHEET[:k]
    twice = b"resolve=deltran\nresolve=deltran\n"
    for end in (b"\n", b" ", b"\r\n", b"resolve=acctran", b"resolve=acctran\n\n", twice, b"row=0,0\n", b"resolve=\n", b"\0"):
        yield *exact, HANDOUT_SHEET + end
    yield *exact, HANDOUT_SHEET.replace(b"\n", b"\r\n")
    # slices that are not exact: 2 comes before everything else
    for lengths in ((509, 16384), (511, 16384), (510, 16383), (510, 16385), (0, 0), (509, 16383), (510, 0), (600, 16384)):
        yield *lengths, HANDOUT_SHEET
        yield *lengths, b"taxa=2\n"
    # the limits of n and c: before the third line, and after the second
    for n in (0, 2, 3, 256, 257, 65535, 65536):
        for c in (0, 1, 512, 513, 65535, 65536):
            yield *exact, b"taxa=%d\ncharacters=%d\nrubbish" % (n, c)
    yield *exact, b"taxa=2\ncharacters=x\n"
    yield *exact, random_sheet(rng, 3, 512)
    yield *exact, random_sheet(rng, 256, 1)
    # the longest texts, and the most cells
    yield *exact, sheet_of_bytes(rng, 256, 40, 32768)
    yield *exact, sheet_of_bytes(rng, 256, 40, 32769)
    yield *exact, sheet_of_bytes(rng, 60, 266, 32768)
    yield *exact, b"taxa=3\n" + b"9" * 32800
    # random ones, damaged in one or two ways
    for _ in range(100):
        yield *exact, random_sheet(rng)
    for _ in range(2400):
        text = random_sheet(rng)
        for _ in range(rng.choice([1, 1, 1, 2])):
            if text:
                text = rng.choice([spoil_bytes, spoil_lines, spoil_values])(rng, text)
        yield *exact, text


@functools.lru_cache(maxsize=64)
def checksum(numbers):
    total = 1
    for number in numbers:
        total = (total * 31 + number) % 65521
    return total


def sheets():
    rng = random.Random(1987)
    given, expected = b"", []
    for nodes, cells, text in sheet_cases(rng):
        given += b"%-6d%-6d%-6d" % (nodes, cells, len(text)) + text
        tree, matrix = [7] * nodes, [8] * cells
        try:
            n, c, choice, ancestors, rows = reference_sheets.read_sheet(text, nodes, cells)
            tree[:2 * n - 2] = ancestors
            matrix[:n * c] = sum(rows, [])
            answer = f"read={n},{c},{choice}"
        except Refused as refused:
            answer = str(refused)
        expected.append(f"{answer} tree={checksum(tuple(tree))} matrix={checksum(tuple(matrix))}\n")
    return given, "".join(expected)
