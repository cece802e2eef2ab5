#!/usr/bin/env python3
"""Does the compiler refuse each misuse of a session in misuse/ as the use of a value that was moved?

A session that was laid aside cannot take a step, and one that was closed cannot be closed again. Each file of misuse/ is an edit
of the crate `sessions`; it is made in a copy of the repository, and the program `edition` is compiled there, with no proof.
"""
import pathlib
import re
import shutil
import subprocess
import sys
import tempfile

ROOT = pathlib.Path(__file__).resolve().parent.parent
MOVED = "error[borrow-e0382]"


def parts(edit):
    found = re.fullmatch(r"file: (.*)\nold: (.*)\nnew: (.*)\n", edit.read_text())
    if not found:
        sys.exit(f"{edit.name} is not an edit")
    return found.groups()


def compiled(copy):
    """What the compiler says of the program over the crates of the copy."""
    program = copy / "crates/edition"
    said = subprocess.run(["rt", "try"], cwd=program, stdin=(program / "stdin").open("rb"), capture_output=True, text=True)
    return said.stdout + said.stderr


def compiled_with(edit, copy):
    """The same with an edit of a source; the copy is put right again."""
    name, old, new = parts(edit)
    source = copy / name
    text = source.read_text()
    if text.count(old) != 1:
        sys.exit(f"{edit.name}: its old text does not stand once in {name}")
    source.write_text(text.replace(old, new))
    said = compiled(copy)
    source.write_text(text)
    return said


def main():
    edits = sorted((ROOT / "misuse").glob("*.edit"))
    with tempfile.TemporaryDirectory() as folder:
        copy = pathlib.Path(folder) / "copy"
        shutil.copytree(ROOT, copy, ignore=shutil.ignore_patterns(".git", "out"))
        said = compiled(copy)
        if "error" in said:
            print(said)
            sys.exit("the sessions do not compile without any misuse")
        for edit in edits:
            said = compiled_with(edit, copy)
            if MOVED not in said:
                print(said)
                sys.exit(f"{edit.name} is not refused as a use of a moved value")
            print(f"refused: {edit.stem}")


if __name__ == "__main__":
    main()
