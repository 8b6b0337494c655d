#!/usr/bin/env python3
"""Every sample sheet gives its expected report: samples/NAME.sheet, and samples/NAME.report beside it.

The expected reports are those of tests/reference_report.py, which shares nothing with the library; here they are compared with it again, and the
built program with them, byte for byte. Each refusal that a sheet can give has a sample, and so have both choices. The handout, wherever it is shown, is
document 01's.

    python3 tests/samples.py            tries crates/report/out/report
    python3 tests/samples.py --write    writes the samples and their reports
"""
import pathlib
import subprocess
import sys

import reference_report
from cases_characters import FIGURE_4, NARUSHIMA
from cases_sheets import HANDOUT_SHEET, sheet_text

ROOT = pathlib.Path(__file__).resolve().parent.parent
SAMPLES = ROOT / "samples"
PROGRAM = ROOT / "crates" / "report" / "out" / "report"

# document 01's report on its own sheet, to the letter, and what its sheet says of DELTRAN
DOCUMENT = b"""taxa=4
characters=2
length=9
ci=6/9,667
ri=2/5,400
resolve=acctran
character=1
length=7
first=3-3,1-5
mpr=1-3,1-3
states=3,3
ci=5/7,714
ri=2/4,500
character=2
length=2
first=1-1,0-1
mpr=0-1,0-1
states=1,1
ci=1/2,500
ri=0/1,0
"""
DELTRAN = DOCUMENT.replace(b"acctran", b"deltran").replace(b"states=3,3", b"states=1,1", 1).replace(b"states=1,1\nci=1/2", b"states=0,0\nci=1/2")


def one_column(tree_and_column):
    n, tree, column = tree_and_column
    return sheet_text(n, 1, tree, [[state] for state in column])


def made():
    tree = lambda entries: HANDOUT_SHEET.replace(b"0,5,6,6,1,5", entries)
    return {
        "handout": HANDOUT_SHEET,
        "handout_corrected": HANDOUT_SHEET.replace(b"row=5,0", b"row=3,0"),
        "handout_deltran": HANDOUT_SHEET + b"resolve=deltran\n",
        "figure_4": one_column(FIGURE_4),
        "narushima_hanazawa": one_column(NARUSHIMA),
        "all_alike": sheet_text(3, 1, [0, 4, 4, 1], [[2], [2], [2]]),
        "refused_1_two_taxa": b"taxa=2\ncharacters=1\n",
        "refused_3_two_roots": tree(b"0,0,6,6,1,5"),
        "refused_4_taxon_as_ancestor": tree(b"0,5,2,6,1,5"),
        "refused_5_three_descendants": tree(b"0,5,5,5,1,5"),
        "refused_6_round_and_round": tree(b"0,1,5,6,6,5"),
        "refused_7_state_10000": HANDOUT_SHEET.replace(b"row=1,1", b"row=1,10000"),
        "refused_11_leading_zero": HANDOUT_SHEET.replace(b"row=3,1", b"row=03,1"),
        "refused_11_last_lf_missing": HANDOUT_SHEET[:-1],
        "refused_12_too_long": b"taxa=3\n" + b"9" * 32762,
    }


def written(text):
    """What the program writes on a text. It ends, within a minute, and without a complaint."""
    done = subprocess.run([str(PROGRAM)], input=text, capture_output=True, timeout=60, check=True)
    assert not done.stderr
    return done.stdout


def main():
    if sys.argv[1:] == ["--write"]:
        SAMPLES.mkdir(exist_ok=True)
        for name, text in made().items():
            (SAMPLES / f"{name}.sheet").write_bytes(text)
            (SAMPLES / f"{name}.report").write_bytes(reference_report.report(text))
    faults, seen = [], set()
    names = sorted(path.stem for path in SAMPLES.glob("*.sheet"))
    if set(names) != set(made()) or set(names) != {path.stem for path in SAMPLES.glob("*.report")}:
        faults.append("samples/ has not each of the samples with its report")
    for name in names:
        text, expected = ((SAMPLES / f"{name}{end}").read_bytes() for end in (".sheet", ".report"))
        if expected != reference_report.report(text):
            faults.append(f"{name}: the expected report is not that of tests/reference_report.py")
        if written(text) != expected:
            faults.append(f"{name}: the program writes another report")
        seen.add(expected.partition(b",")[0] if expected.startswith(b"refused=") else expected.split(b"\n")[5])
    asked = {b"refused=%d" % number for number in (1, 3, 4, 5, 6, 7, 11, 12)} | {b"resolve=acctran", b"resolve=deltran"}
    if seen != asked:
        faults.append(f"the samples show {sorted(seen)}, and not {sorted(asked)}")
    for name, expected in (("handout", DOCUMENT), ("handout_deltran", DELTRAN)):
        if (SAMPLES / f"{name}.report").read_bytes() != expected:
            faults.append(f"{name}: not the report that document 01 has")
    for name, shown in (("README.md", [DOCUMENT]), ("docs/TEACHERS.md", [HANDOUT_SHEET, DOCUMENT])):
        for text in shown:
            if b"".join(b"    " + line for line in text.splitlines(keepends=True)) not in (ROOT / name).read_bytes():
                faults.append(f"{name}: does not show the handout as it is")
    for name, expected in (("stdin", HANDOUT_SHEET), ("stdout", DOCUMENT)):
        if (ROOT / "crates" / "report" / name).read_bytes() != expected:
            faults.append(f"crates/report/{name}: not the handout")
    print("\n".join(faults) if faults else f"samples: {len(names)} sheets give their reports")
    return 1 if faults else 0


if __name__ == "__main__":
    sys.exit(main())
