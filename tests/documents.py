#!/usr/bin/env python3
"""The documents name things that are there.

Every `name` that stands in a row of docs/THEOREMS.md beside a file is found in that file; every edit that a row names is a must-fail edit, written
`crate/edit`, and every edit is named by a row; every crate of crates.txt is in the README's map; every file that README.md or docs/ names is there, and
no document names an absolute path.
"""
import pathlib
import re
import sys

root = pathlib.Path(__file__).resolve().parent.parent
faults = []


def rows(text):
    for number, line in enumerate(text.splitlines(), 1):
        if line.startswith("|") and not re.match(r"^\|[\s:|-]+\|$", line):
            yield number, [cell.strip() for cell in line.strip().strip("|").split("|")]


def has_name(text, name):
    return re.search(r"(?<![\w·-])" + re.escape(name) + r"(?![\w'-])", text) is not None


documents = [root / "README.md"] + sorted((root / "docs").rglob("*.md"))
edits = {f"{path.parts[-3]}/{path.stem}" for path in (root / "crates").glob("*/must-fail/*.edit")}
named = set()
for document in documents:
    text = document.read_text(encoding="utf-8")
    short = document.relative_to(root)
    for number, line in enumerate(text.splitlines(), 1):
        for path in re.findall(r"`((?:crates|docs|tests|samples|bindings|examples|include|tools|\.ci)/[\w./*-]+)`", line):
            if not list(root.glob(path.rstrip("/"))):
                faults.append(f"{short}:{number}: no such file: {path}")
        if re.search(r"(?<![\w.$}])/(work|opt|home|root|tmp|usr)/\w", line):
            faults.append(f"{short}:{number}: an absolute path")

theorems = root / "docs" / "THEOREMS.md"
text = theorems.read_text(encoding="utf-8")
for number, cells in rows(text):
    if len(cells) < 4 or cells[1].startswith("Theorem"):
        continue
    # "`name`, `other` (`crates/..`)": each name is in the file in brackets
    for names, path in re.findall(r"((?:`[^`]+`(?:, | and )?)+)\s*\(`(crates/[^`]+)`\)", cells[1]):
        file = root / path
        if not file.is_file():
            continue
        body = file.read_text(encoding="utf-8")
        for name in re.findall(r"`([^`]+)`", names):
            if not has_name(body, name):
                faults.append(f"docs/THEOREMS.md:{number}: {name} is not in {path}")
    for name in re.findall(r"`([\w/]+)`", cells[3]):
        named.add(name)
        if name not in edits:
            faults.append(f"docs/THEOREMS.md:{number}: no must-fail edit {name}")
for name in sorted(edits - named):
    faults.append(f"docs/THEOREMS.md: no row names the edit {name}")

listed = re.findall(r"^(\w+)(?: staticlib)?:", (root / "crates.txt").read_text(encoding="utf-8"), re.M)
for name in listed:
    if not re.search(rf"^\| [^|]*`{name}`", (root / "README.md").read_text(encoding="utf-8"), re.M):
        faults.append(f"README.md: the map has no crate {name}")

for fault in faults:
    print(fault)
print(f"documents: {len(documents)} read, {len(edits)} edits, {len(faults)} faults")
sys.exit(1 if faults else 0)
