#!/usr/bin/env python3
"""Writes a program and files of trees that are at all limits of the language at once: 10,000 items, 4,096 rules in one
language and in one transformation, 8 fields, constructors of rank 8, 64 parentheses in a guard and 64 operations in an
expression, a tree that is written 2,000 deep, and 1,048,576 bytes of program; trees that are 2,000 deep, and a wide tree in
a file of 1,048,576 bytes.

usage: limits.py FOLDER
"""

import sys

BYTES = 1048576
FIELDS = 8
ITEMS = 10000
RULES = 4096
GUARD = 64
DEPTH = 2000
LABEL = "[" + "0," * (FIELDS - 1) + "0]"


def chain(depth, name, leaf):
    """A tree of so many nodes, one below the other."""
    return f"({name}{LABEL}" * (depth - 1) + f"({leaf}{LABEL})" + ")" * (depth - 1)


def wide(count):
    """A tree of about so many nodes, with eight children where there are as many, and never deep."""
    if count < 9:
        return f"(z{LABEL})"
    return f"(n{LABEL}" + wide((count - 1) // 8) * 8 + ")"


def operations(count, inner):
    """So many operations inside each other."""
    return "(complement " * count + inner + ")" * count


def program():
    fields = ",".join(f"x{k}:Int" for k in range(FIELDS))
    children = ",".join(f"c{k}" for k in range(8))
    guard = "(" * GUARD + "x0=0" + ")" * GUARD
    rules = "".join(f"|z() where x0={k}" for k in range(1, RULES - 2))
    gives = "".join(f"|z() where x0={k} to(z{LABEL})" for k in range(1, RULES - 2))
    lines = [
        f"type W[{fields}]{{z(0),s(1),n(8)}}",
        f"lang all:W{{z() where {guard}{rules}|s(c0) given(all c0)|n({children}) given"
        + "".join(f"(all c{k})" for k in range(8))
        + "}",
        f"trans copy:W->W{{z() where {guard} to(z{LABEL}){gives}|s(c0) to(s{LABEL}(copy c0))|n({children}) to(n{LABEL}"
        + "".join(f"(copy c{k})" for k in range(8))
        + ")}",
        f"tree deep:W:={chain(DEPTH, 's', 'z')}",
        f"lang zero:W{{z() where x0=0|s(c0) given(zero c0)}}",
        f"def even:W:={operations(64, 'zero')}",
        "assert-true deep in even",
        "assert-false(is-empty zero)",
    ]
    lines += [f"def d{k}:W:=zero" for k in range(ITEMS - len(lines))]
    text = "\n".join(lines) + "\n"
    return text + " " * (BYTES - len(text))


def main():
    folder = sys.argv[1]
    count = 1
    while len(wide(count * 8 + 1)) <= BYTES:
        count = count * 8 + 1
    deep, broad = chain(DEPTH, "s", "z"), wide(count)
    # leaves beside the wide tree fill its file to the last byte
    leaf = f"(z{LABEL})"
    while len(broad) + len(leaf) <= BYTES:
        broad += leaf
    for name, text in [("program", program()), ("deep", deep), ("wide", broad + " " * (BYTES - len(broad)))]:
        with open(f"{folder}/{name}", "w", encoding="utf-8") as it:
            it.write(text)


main()
