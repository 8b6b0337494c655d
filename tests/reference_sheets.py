"""Reading a sheet, written a second time from document 01 alone."""
import re

from reference import Refused


def read_sheet(text, tree_length=510, matrix_length=16384):
    """A sheet's n, c, choice, ancestors and rows, or refusal 2, 12, 11 or 1. The text is bytes; the lengths are those of the lent slices."""
    if tree_length != 510:
        raise Refused(2, 1)
    if matrix_length != 16384:
        raise Refused(2, 2)
    if len(text) > 32768:
        raise Refused(12, 0)
    *lines, rest = text.split(b"\n")                                                  # what follows the last LF is no line

    def values(k, key, count):
        """The numbers of line k, which has this key and so many numbers."""
        line = lines[k - 1] if k <= len(lines) else b""
        fields = line[len(key):].split(b",")
        if not line.startswith(key) or len(fields) != count:
            raise Refused(11, k)
        if not all(re.fullmatch(b"0|[1-9][0-9]{0,4}", field) and int(field) <= 65535 for field in fields):
            raise Refused(11, k)
        return [int(field) for field in fields]

    [n], [c] = values(1, b"taxa=", 1), values(2, b"characters=", 1)
    if n not in range(3, 257) or c not in range(1, 513):
        raise Refused(1, 0)
    ancestors = values(3, b"ancestors=", 2 * n - 2)
    rows = [values(k, b"row=", c) for k in range(4, 4 + n)]
    end, choice = 4 + n, "acctran"
    if len(lines) >= end:
        if lines[end - 1] not in (b"resolve=acctran", b"resolve=deltran"):
            raise Refused(11, end)
        choice = lines[end - 1].decode()[len("resolve="):]
        end += 1
    if len(lines) >= end or rest:
        raise Refused(11, end)
    return n, c, choice, ancestors, rows
