#!/usr/bin/env python3
"""Respells this repository's own definitions and lemmas as today's Rattle spells names. Run once, after the kit's port.py, at the top.

Words are in snake case, and types and modules in camel case. A dash stays only where it joins names: where each part is the name of a
definition (of specs/, or one of LIBRARY below) or an operator, as in `meets-climb`; else it becomes `_`, as in `meets_all`.
Functions of src/, exported C names, strings, inputs and outputs keep their names. Where two names would fall together, the dash stays
(or CLASHES below has another name). What Rattle makes of a function (names at `tie.`) is left alone.

`--map` prints the old and the new names, one pair a line, and changes nothing.
"""
import collections
import glob
import re
import sys

# names that a dash joins, beside this repository's definitions: what the library calls its lists' and numbers' operations
LIBRARY = set("length append drop take map nil cons set get_or add mul sub suc zero min max reverse filter replicate".split())
# a snake-case name that another thing has already
CLASHES = {"lengthFrom": "length_from_entries", "sameIndex": "index_test"}

TOKEN = r"[^\s(){}\[\],;.:\"|`]+"
SIGNATURE = re.compile(
    r"^\s*(?:(abbrev|unfoldable|record|data|pub data|pub record)\s+)?(?:pub\s+)?((?:" + TOKEN + r"\s+)*?" + TOKEN + r")\s:\s")


def sources(walks=True):
    """The files of specs/ and proofs/; the walks of functions too, or not."""
    found = sorted(f for p in ("specs", "proofs") for f in glob.glob(f"crates/*/{p}/**/*.antt", recursive=True))
    return [f for f in found if walks or not f.endswith("/Proof.antt")]


def snake(word):
    """lengthBelow -> length_below; a type's capital at the head stays."""
    if not re.match(r"[a-z]", word):
        return word
    return re.sub(r"(?<=[a-z0-9])([A-Z])", lambda m: "_" + m.group(1).lower(), word)


def definitions():
    """Names with the kinds of place that define them: 'word' in specs/ or by abbrev or unfoldable, else 'lemma'."""
    found = collections.defaultdict(set)
    for f in sources(walks=False):
        for line in open(f, encoding="utf-8"):
            if line.lstrip().startswith("--"):
                continue
            m = SIGNATURE.match(line)
            if not m:
                continue
            for name in m.group(2).split():
                if name in ("abbrev", "pub", "unfoldable", "let", "λ", "elim", "→") or "=" in name:
                    continue
                word = m.group(1) in ("abbrev", "unfoldable") or "/specs/" in f
                found[name].add("word" if word else "lemma")
    return found


def renaming():
    found = definitions()
    words = {n for n, k in found.items() if "word" in k and "-" not in n} | LIBRARY
    words |= {snake(w) for w in words}
    taken = set()
    for f in sources(walks=False):
        taken |= set(re.findall(TOKEN, open(f, encoding="utf-8").read()))
    result = {}
    for name, kinds in sorted(found.items(), key=lambda it: ("-" in it[0], it[0])):
        parts = name.split("-")
        if len(parts) == 1:
            new = snake(name)
        else:
            parts = [snake(p) for p in parts]
            joins = "word" not in kinds and all(p in words or not re.match(r"\w", p) or p[0].isupper() for p in parts)
            new = ("-" if joins else "_").join(parts)
            if "" in parts:
                continue
        if new == name:
            continue
        new = CLASHES.get(name, new)
        if new in taken or new in result.values():
            if "-" in name and name not in CLASHES:
                new = "-".join(snake(p) for p in name.split("-"))
                if new == name:
                    continue
            if new in taken or new in result.values():
                sys.exit(f"respell: {name}: {new} is taken: give it a name in CLASHES")
        result[name] = new
    return result


def main():
    if sys.argv[1:] not in ([], ["--map"]):
        sys.exit("respell: it takes --map or nothing, and with nothing it rewrites the repository")
    names = renaming()
    if "--map" in sys.argv:
        for old, new in names.items():
            print(old, new)
        return
    token = re.compile(r"(?<![\w'′₀-₉-])(" + "|".join(re.escape(n) for n in sorted(names, key=len, reverse=True)) + r")(?![\w'′₀-₉-])")
    changed = 0
    for f in sources() + sorted(glob.glob("crates/*/src/*.rt")):
        text = open(f, encoding="utf-8").read()
        lines = []
        for line in text.splitlines(keepends=True):
            # strings of src/ and what Rattle makes stay as they are
            keep = re.findall(r'"[^"]*"|tie\.[^\s()]+', line)
            spaced = re.sub(r'"[^"]*"|tie\.[^\s()]+', "\x00", line)
            spaced = token.sub(lambda m: names[m.group(1)], spaced)
            for k in keep:
                spaced = spaced.replace("\x00", k, 1)
            lines.append(spaced)
        new = "".join(lines)
        if new != text:
            open(f, "w", encoding="utf-8").write(new)
            changed += 1
    print(f"respell: {len(names)} names, {changed} files")


main()
