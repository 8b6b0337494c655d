#!/usr/bin/env python3
"""Counts in src/ the places of which docs/DESIGN-PASS.md speaks, point by point, and lists them with --list.

    python3 tools/places.py [--list] [FOLDER]

FOLDER is a checkout, this one unless another is named. A place is found by its text; what a place is stands beside each point below.
Comments are not read.
"""
import os
import re
import sys

ARGS = [a for a in sys.argv[1:] if not a.startswith("--")]
TOP = ARGS[0] if ARGS else os.path.join(os.path.dirname(os.path.abspath(__file__)), "..")
LIST = "--list" in sys.argv


def sources():
    folder = os.path.join(TOP, "crates")
    for crate in sorted(os.listdir(folder)):
        src = os.path.join(folder, crate, "src")
        for name in sorted(os.listdir(src)) if os.path.isdir(src) else []:
            if name.endswith(".rt"):
                lines = open(os.path.join(src, name), encoding="utf-8").read().split("\n")
                yield crate + "/src/" + name, [re.sub(r"//.*$", "", l) for l in lines]


def functions(lines):
    """(line number, name, signature up to the result, body) of each function."""
    i = 0
    while i < len(lines):
        m = re.match(r"\s*(?:pub(?:\(crate\))? )?(?:extern \"C\" )?fn (\w+)", lines[i])
        if not m:
            i += 1
            continue
        j, text = i, ""
        while True:
            text += lines[j] + "\n"
            if re.match(r"\s*\{\s*$", lines[j]) or lines[j].rstrip().endswith("{") and "requires" not in lines[j] and "ensures" not in lines[j]:
                break
            j += 1
        k, depth, body = j, 0, ""
        while True:
            depth += lines[k].count("{") - lines[k].count("}")
            body += lines[k] + "\n"
            if depth <= 0 and k >= j:
                break
            k += 1
        head = re.split(r"\n\s*(?:requires|ensures)", text)[0]
        yield i + 1, m.group(1), head, body
        i = k + 1


POINTS = [
    "1a own enums with a value beside nothing, or beside a refusal (NoRoot is an error and has two)",
    "1b numbers for refusals",
    "1c numbers for no digit, no character or no root (digit, wanted, find_root)",
    "2  functions with the same body and the same shape of signature, in groups (a group of k counts k - 1)",
    "3  loops that count an index by hand",
    "4a casts by `as`",
    "4b functions that only cast, compare, name or print a value",
    "5a functions that take two or more lists that always travel together (left and right; lows and highs)",
    "5b functions with more than eight parameters",
    "6  fixed lists lent with a count or a partner beside them",
    "7  a match whose arms are calls of one function",
]


def norm(text):
    text = re.sub(r"\b(u8|u16|u32|u64|usize)\b", "N", text)
    text = re.sub(r"\b\d+\b", "0", text)
    return re.sub(r"\s+", " ", re.sub(r"\b[a-z_]\w*\b", "x", text))


def main():
    found = {p: [] for p in POINTS}
    bodies = {}
    for path, lines in sources():
        text = "\n".join(lines)
        for m in re.finditer(r"enum (\w+) \{(.*?)\n\}", text, re.S):
            variants = [v.strip() for v in m.group(2).strip().split("\n") if v.strip()]
            if any("(" in v for v in variants) and m.group(1) != "NoRoot":
                found[POINTS[0]].append((path, text[: m.start()].count("\n") + 1, m.group(1)))
        for n, line in enumerate(lines, 1):
            if re.search(r"number: \d+\b|pub number: u32|refuse\(number: u32|number: u32, place|refuse\(\d+,|refusal\.number\b", line):
                found[POINTS[1]].append((path, n, line.strip()))
            for _ in re.finditer(r"\bas (u8|u16|u32|u64|usize)\b", line):
                found[POINTS[5]].append((path, n, line.strip()))
        for n, name, head, body in functions(lines):
            if name in ("digit", "wanted", "find_root") and re.search(r"return 10;|return 0;|= 0;|\{ 0 \} else", body):
                found[POINTS[2]].append((path, n, name))
            if re.search(r"\bwhile\b", body) and re.search(r"\b\w+ (\+|-)= ", body):
                for m in re.finditer(r"\bwhile\b", body):
                    found[POINTS[4]].append((path, n, name))
            params = re.findall(r"(\w+): ([^,()]*?)(?=,|\)|\n)", head)
            names = [p for p, _ in params]
            short = len([l for l in body.split("\n") if l.strip()]) <= 3
            if short and re.search(r"^\s*(\w+ as \w+|\w+\.\w+ as .*|if a < b \{ [ab] \} else \{ [ab] \})\s*$", body, re.M):
                found[POINTS[6]].append((path, n, name))
            pairs = [("left", "right"), ("lows", "highs"), ("first_lows", "first_highs"), ("final_lows", "final_highs"), ("low", "high"),
                     ("first_low", "first_high"), ("above_lows", "above_highs"), ("block_lows", "block_highs")]
            if any(a in names and b in names for a, b in pairs):
                found[POINTS[7]].append((path, n, name))
            if len(names) > 8:
                found[POINTS[8]].append((path, n, "%s (%d)" % (name, len(names))))
            for p, t in params:
                if re.search(r"\[u\d+; ?\d+\]", t):
                    found[POINTS[9]].append((path, n, "%s: %s" % (name, p)))
            for m in re.finditer(r"match \w+ \{(.*?)\n    \}", body, re.S):
                calls = re.findall(r"=> (?:\w+::)?(\w+)\(", m.group(1))
                if len(calls) == 2 and calls[0] == calls[1] and calls[0] not in ("Ok", "Err", "Some"):
                    found[POINTS[10]].append((path, n, name))
            if len(body.strip()) > 20:
                bodies.setdefault((norm(head), norm(body)), []).append((path, n, name))
    for group in bodies.values():
        found[POINTS[3]].extend(group[1:])
    for p in POINTS:
        print("%4d  %s" % (len(found[p]), p))
        if LIST:
            for path, n, what in found[p]:
                print("        %s:%d  %s" % (path, n, what))


main()
