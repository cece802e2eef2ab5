#!/usr/bin/env python3
"""Writes the example edition files of this repository, byte by byte as docs/EDITION_FILE.md has it.

Usage: tools/edition_file.py FOLDER
"""
import pathlib
import sys


def word(n):
    return n.to_bytes(2, "big")


def predicate(name, places):
    return bytes([places, len(name)]) + name.encode()


def entry(predicate, first=0, second=0, negated=False):
    return bytes([predicate + (128 if negated else 0), first, second])


def operation(parameters, span, needs=(), takes=(), puts=()):
    head = bytes([parameters]) + word(span) + bytes([len(needs), len(takes), len(puts)])
    return head + b"".join(needs) + b"".join(takes) + b"".join(puts)


def edition(ids, predicates, operations, facts, goal, steps):
    head = b"EDP" + word(1) + bytes([ids, len(predicates), len(operations)])
    head += word(len(facts)) + word(len(goal)) + word(len(steps))
    body = b"".join(predicates) + b"".join(operations)
    body += b"".join(bytes(f) for f in facts) + goal.encode() + b"".join(bytes(s) for s in steps)
    return head + body


LABEL, PATH, STREAM, TAG = 0, 1, 2, 3
FIRST, SECOND = 128, 129  # the first and the second parameter of an operation
DROP, DRAW, WIPE = 0, 1, 2


RULE = "G A ?l:label(?l) A ?f:tag(?l,?f) (path(?f)|stream(?f)|(!stream(?f) U !tag(?l,?f)))"


def footpath(steps, goal=RULE):
    """A footpath and a stream share a number; a label row names the number until it is wiped."""
    predicates = [predicate("label", 1), predicate("path", 1), predicate("stream", 1), predicate("tag", 2)]
    operations = [
        operation(1, 0, needs=[entry(PATH, FIRST)], takes=[entry(PATH, FIRST)]),
        operation(1, 2, needs=[entry(PATH, FIRST, negated=True)], puts=[entry(STREAM, FIRST)]),
        operation(2, 1, needs=[entry(TAG, FIRST, SECOND)], takes=[entry(TAG, FIRST, SECOND)]),
    ]
    facts = [(LABEL, 0, 0), (PATH, 1, 0), (TAG, 0, 1)]
    return edition(2, predicates, operations, facts, goal, steps)


def marks(count, steps=1):
    """As many ids are marked; at once each pair of them has to be linked in the next state, and is not. The one operation does nothing."""
    predicates = [predicate("mark", 1), predicate("link", 2)]
    facts = [(0, i, 0) for i in range(count)]
    goal = "A ?x:mark(?x) A ?y:mark(?y) X link(?x,?y)"
    return edition(128, predicates, [operation(0, 0)], facts, goal, [(0, 0, 0, 0)] * steps)


DROP_FIRST = [(DROP, 1, 0, 0)]
IN_ORDER = [(DROP, 1, 0, 0), (WIPE, 0, 1, 0), (DRAW, 1, 0, 0)]

EXAMPLES = {
    "number_reused_at_once": footpath([(DROP, 1, 0, 0), (DRAW, 1, 0, 0), (WIPE, 0, 1, 0)]),
    "row_wiped_first": footpath(IN_ORDER),
    "nothing_done": footpath([]),
    "row_never_wiped": footpath(DROP_FIRST),
    "stream_within_three_hours": footpath(IN_ORDER, "F[0,3] stream(1)"),
    "stream_within_two_hours": footpath(IN_ORDER, "F[0,2] stream(1)"),
    "path_goes_at_once": footpath(DROP_FIRST, "X !path(1)"),
    "no_such_operation": footpath(DROP_FIRST + [(3, 0, 0, 0)]),
    "argument_too_high": footpath(DROP_FIRST + [(DRAW, 2, 0, 0)]),
    "unused_argument": footpath([(DROP, 1, 1, 0)]),
    "need_does_not_hold": footpath([(DRAW, 1, 0, 0)]),
    "label_too_long": marks(17),
    "longest_label": marks(16, steps=2),
    "too_much_work": marks(46),
    "steps_run_out": marks(0, steps=4097),
    "name_unknown": footpath(IN_ORDER, "G road(1)"),
    "bracket_left_open": footpath(IN_ORDER, "G (path(1)"),
    "mark_missing": b"EDQ" + footpath(IN_ORDER)[3:],
    "last_byte_missing": footpath(IN_ORDER)[:-1],
}


def main():
    folder = pathlib.Path(sys.argv[1])
    for name, data in EXAMPLES.items():
        (folder / f"{name}.edp").write_bytes(data)


if __name__ == "__main__":
    main()
