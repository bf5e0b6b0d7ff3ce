#!/usr/bin/env python3
"""Compares verdicts on random guards with counting: for each guard over two small whole numbers, the program is asked
whether a label satisfies it, and all labels in the range are tried here. What is shown must satisfy the guard.

usage: random_guards.py PROGRAM [COUNT [SEED]]
"""

import random
import re
import subprocess
import sys
import tempfile

RANGE = range(-6, 7)
COMPARE = {
    "=": lambda a, b: a == b,
    "!=": lambda a, b: a != b,
    "<": lambda a, b: a < b,
    "<=": lambda a, b: a <= b,
    ">": lambda a, b: a > b,
    ">=": lambda a, b: a >= b,
}


def number(depth):
    """A whole number as text, and as a function of x and y."""
    if depth == 0 or random.random() < 0.35:
        constant = random.randint(-9, 9)
        return random.choice(
            [
                ("x", lambda x, y: x),
                ("y", lambda x, y: y),
                (f"({constant})" if constant < 0 else str(constant), lambda x, y: constant),
            ]
        )
    text, value = number(depth - 1)
    sign = random.choice("+-*%")
    if sign == "*":
        factor = random.randint(-4, 4)
        return f"(({factor}) * {text})", lambda x, y: factor * value(x, y)
    if sign == "%":
        divisor = random.randint(1, 7)
        return f"({text} % {divisor})", lambda x, y: value(x, y) % divisor
    other_text, other = number(depth - 1)
    if sign == "+":
        return f"({text} + {other_text})", lambda x, y: value(x, y) + other(x, y)
    return f"({text} - {other_text})", lambda x, y: value(x, y) - other(x, y)


def guard(depth):
    """A guard as text, and as a function of x and y."""
    if depth == 0 or random.random() < 0.4:
        relation = random.choice(list(COMPARE))
        (left_text, left), (right_text, right) = number(2), number(2)
        return (
            f"({left_text} {relation} {right_text})",
            lambda x, y: COMPARE[relation](left(x, y), right(x, y)),
        )
    word = random.choice(["not", "and", "or", "=", "!="])
    text, holds = guard(depth - 1)
    if word == "not":
        return f"(not {text})", lambda x, y: not holds(x, y)
    other_text, other = guard(depth - 1)
    both = {
        "and": lambda a, b: a and b,
        "or": lambda a, b: a or b,
        "=": lambda a, b: a == b,
        "!=": lambda a, b: a != b,
    }[word]
    return f"({text} {word} {other_text})", lambda x, y: both(holds(x, y), other(x, y))


def is_right(report, holds):
    met = any(holds(x, y) for x in RANGE for y in RANGE)
    if not met:
        return report == "assert 3 pass\n"
    shown = re.fullmatch(r"assert 3 fail \(z \[(-?\d+), (-?\d+)\]\)\n", report)
    if not shown:
        return False
    x, y = int(shown[1]), int(shown[2])
    return x in RANGE and y in RANGE and holds(x, y)


def main():
    program = sys.argv[1]
    count = int(sys.argv[2]) if len(sys.argv) > 2 else 500
    random.seed(int(sys.argv[3]) if len(sys.argv) > 3 else 1)
    wrong = 0
    with tempfile.NamedTemporaryFile("w+", suffix=".fast") as file:
        for _ in range(count):
            text, holds = guard(2)
            file.seek(0)
            file.truncate()
            file.write(
                "type N[x : Int, y : Int]{z(0)}\n"
                f"lang p : N {{ z() where x >= -6 and x <= 6 and y >= -6 and y <= 6 and {text} }}\n"
                "assert-true (is-empty p)\n"
            )
            file.flush()
            run = subprocess.run([program, "run", file.name], capture_output=True, text=True, timeout=60)
            if not is_right(run.stdout, holds):
                wrong += 1
                print(f"wrong: {text}: {run.stdout}", end="")
    print(f"{count} guards, {wrong} wrong verdicts")
    sys.exit(1 if wrong else 0)


main()
