#!/usr/bin/env python3
"""Does the program print the stored report of every example file?  (It is run with no proof: rt ci proves it.)"""
import pathlib
import shutil
import subprocess
import sys
import tempfile

ROOT = pathlib.Path(__file__).resolve().parent.parent


def main():
    files = sorted((ROOT / "examples").glob("*.edp"))
    with tempfile.TemporaryDirectory() as folder:
        for file in files:
            case = pathlib.Path(folder) / file.stem
            shutil.copyfile(file, case)
            shutil.copyfile(file.with_suffix(".out"), case.with_suffix(".stdout"))
        tried = subprocess.run(["rt", "try", "--cases", folder], cwd=ROOT / "crates/edition", capture_output=True, text=True)
    said = tried.stdout + tried.stderr
    expected = said.count(" status=0 ") == said.count(" output=expected ") == len(files)
    if tried.returncode != 0 or not expected:
        print(said)
        sys.exit("a report is not the stored one")
    print(f"{len(files)} examples are reported as stored")


if __name__ == "__main__":
    main()
