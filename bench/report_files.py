#!/usr/bin/env python3
"""Writes edition files of 40,000 bytes, the longest there are, for timing whole reports.

Usage: bench/report_files.py FOLDER

All have 128 ids and a goal with two nested quantifiers, over the tags of labels. An id's tags are its row; rows of ids that are
no labels only fill the file and the register.

steps_without_facts   no fact and as many steps as fit: small labels, and the 4,097th step is refused
accepted_4096         4,096 accepted steps that change the facts: a work of about a thousand labels each
large_labels          about a thousand steps that carry on a label of 502 parts, with a work of nearly 4,096 labels each
"""
import pathlib
import sys

sys.dont_write_bytecode = True
sys.path.append(str(pathlib.Path(__file__).resolve().parent.parent / "tools"))
from edition_file import FIRST, LABEL, PATH, SECOND, TAG, edition, entry, operation, predicate

LONGEST = 40000
IDS = range(128)
KEPT = 4
PREDICATES = [
    predicate("label", 1), predicate("path", 1), predicate("stream", 1), predicate("tag", 2), predicate("kept", 2),
]
WAIT, DROP, LAY, WIPE, WRITE = range(5)
OPERATIONS = [
    operation(0, 1),
    operation(1, 0, needs=[entry(PATH, FIRST)], takes=[entry(PATH, FIRST)]),
    operation(1, 2, needs=[entry(PATH, FIRST, negated=True)], puts=[entry(PATH, FIRST)]),
    operation(2, 1, needs=[entry(TAG, FIRST, SECOND)], takes=[entry(TAG, FIRST, SECOND)]),
    operation(2, 1, needs=[entry(TAG, FIRST, SECOND, negated=True)], puts=[entry(TAG, FIRST, SECOND)]),
]

# At all times a label's tag names a path or a stream, or else it is wiped before its number becomes a stream's.
REUSE = "G A ?l:label(?l) A ?f:tag(?l,?f) (path(?f)|stream(?f)|(!stream(?f) U !tag(?l,?f)))"
# A tag that is kept now is wiped within 9,000 hours, before its number becomes a stream's.
KEEP = "(A ?l:label(?l) A ?f:kept(?l,?f) (!stream(?f) U[0,9000] !tag(?l,?f)))"


def file_of(facts, goal, steps):
    return edition(len(IDS), PREDICATES, OPERATIONS, facts, goal, steps)


def room(facts, goal, steps):
    """How many bytes are left."""
    return LONGEST - len(file_of(facts, goal, steps))


def whole(facts, goal, steps):
    """The file, made up to 40,000 bytes by blanks behind the goal."""
    return file_of(facts, goal + " " * room(facts, goal, steps), steps)


def labels_and_paths(labels):
    """The first ids are labels, and all are paths."""
    return [(LABEL, label, 0) for label in range(labels)] + [(PATH, path, 0) for path in IDS]


def rows(count):
    return [(TAG, row, tag) for row in range(count) for tag in IDS]


def steps_without_facts():
    steps = [(WAIT, 0, 0, 0)] * (room([], REUSE, []) // 4)
    return whole([], REUSE, steps)


def renumbering(labels, path):
    """A path is dropped, its tags are wiped, it is laid again and tagged again."""
    wiped = [(WIPE, label, path, 0) for label in range(labels)]
    written = [(WRITE, label, path, 0) for label in range(labels)]
    return [(DROP, path, 0, 0), *wiped, (LAY, path, 0, 0), *written]


def accepted_4096():
    labels = 8
    steps = [step for _ in range(2) for path in IDS for step in renumbering(labels, path)][:4096]
    facts = labels_and_paths(labels)
    facts += rows(len(IDS))[:room(facts, REUSE, steps) // 3]
    return whole(facts, REUSE, steps)


def large_labels():
    goal = KEEP + " & " + REUSE
    facts = labels_and_paths(27) + rows(90)
    facts += [(KEPT, label, path) for label in range(25) for path in range(10)]
    steps = [(WAIT, 0, 0, 0)] * (room(facts, goal, []) // 4)
    return whole(facts, goal, steps)


def main():
    folder = pathlib.Path(sys.argv[1])
    for make in [steps_without_facts, accepted_4096, large_labels]:
        (folder / f"{make.__name__}.edp").write_bytes(make())


if __name__ == "__main__":
    main()
