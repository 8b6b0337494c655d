#!/usr/bin/env python3
"""Writes the inputs of the programs run_* and the outputs that the independent implementation (reference.py) expects of them.

    python3 tests/vectors.py            writes crates/run_*/stdin and stdout
    python3 tests/vectors.py --check    says whether they are what this writes, and changes nothing

The choice is random from a fixed seed, so it is the same on every machine.
"""
import pathlib
import sys

from cases_characters import characters
from cases_kept import kept
from cases_sheets import sheets
from cases_trees import trees

ROOT = pathlib.Path(__file__).resolve().parent.parent

MAKERS = {"run_trees": trees, "run_characters": characters, "run_sheets": sheets, "run_kept": kept}


def main():
    check = sys.argv[1:] == ["--check"]
    wrong = []
    for crate, make in MAKERS.items():
        for name, text in zip(("stdin", "stdout"), make()):
            path = ROOT / "crates" / crate / name
            text = text if isinstance(text, bytes) else text.encode()
            if check:
                if not path.exists() or path.read_bytes() != text:
                    wrong.append(f"crates/{crate}/{name} is not what tests/vectors.py writes")
            else:
                path.write_bytes(text)
    print("\n".join(wrong) if wrong else "vectors: ok")
    return 1 if wrong else 0


if __name__ == "__main__":
    sys.exit(main())
