#!/usr/bin/env python3
"""Are the example files the ones that tools/edition_file.py writes, has each a stored report, and does edition_cases run them all?

The files stand twice: in examples/ for readers, and in the folder from which the program edition_cases reads them.
"""
import pathlib
import subprocess
import sys
import tempfile

ROOT = pathlib.Path(__file__).resolve().parent.parent
CASES = ROOT / "crates/edition_cases"


def contents(folder):
    return {p.name: p.read_bytes() for p in pathlib.Path(folder).iterdir()}


def main():
    with tempfile.TemporaryDirectory() as folder:
        subprocess.run([sys.executable, ROOT / "tools/edition_file.py", folder], check=True)
        made = {p.stem: p.read_bytes() for p in pathlib.Path(folder).glob("*.edp")}
    kept = {p.stem: p.read_bytes() for p in (CASES / "data").glob("*.edp")}
    reports = {p.stem for p in (CASES / "data").glob("*.out")}
    if made != kept:
        sys.exit("the example files are not what tools/edition_file.py writes")
    if reports != set(kept):
        sys.exit(f"examples without a report, or reports without an example: {reports ^ set(kept)}")
    if contents(ROOT / "examples") != contents(CASES / "data"):
        sys.exit("examples/ and crates/edition_cases/data differ")
    if (CASES / "args").read_text().split() != sorted(kept):
        sys.exit("crates/edition_cases/args does not name every example file in order")
    if (ROOT / "crates/edition/stdin").read_bytes() not in kept.values():
        sys.exit("crates/edition/stdin is none of the example files")
    print(f"{len(kept)} example files are as they are written, and edition_cases runs them all")


if __name__ == "__main__":
    main()
