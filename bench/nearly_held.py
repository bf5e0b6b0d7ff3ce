#!/usr/bin/env python3
"""Times guards that are hard to decide: comparisons of sums and nested remainders over up to four whole numbers, all of
which hold at one point, but for none, one or two that are turned. It counts those that take long, and those without a
report in three seconds, and checks each label that is shown.

usage: nearly_held.py PROGRAM [COUNT [SEED]]
"""

import operator
import random
import re
import subprocess
import sys
import tempfile
import time

COMPARE = {"<": operator.lt, "<=": operator.le, "=": operator.eq}
TURNED = {"<": ">=", "<=": ">", "=": "!="}
FIELDS = "xyzw"
LIMIT = 3


def times(factor, text):
    return text if factor == 1 else f"({factor}) * {text}"


def part(fields, depth):
    """A field, a number or a remainder, as text and as a function of the fields' values."""
    kind = random.random()
    factor = random.choice([1, 1, 1, 2, 3, -1, -2, 5])
    if kind < 0.45:
        field = random.randrange(fields)
        return times(factor, FIELDS[field]), lambda values: factor * values[field]
    if kind < 0.65 or depth == 0:
        number = random.randint(-20, 20)
        return f"({number})", lambda values: number
    text, value = total(fields, depth - 1)
    divisor = random.randint(2, 26)
    return times(factor, f"(({text}) % {divisor})"), lambda values: factor * (value(values) % divisor)


def total(fields, depth):
    """A sum of one to three parts."""
    text, value = part(fields, depth)
    for _ in range(random.randint(0, 2)):
        sign = random.choice("+-")
        more, own = part(fields, depth)
        text = f"{text} {sign} {more}"
        value = (
            (lambda old, own: lambda values: old(values) + own(values))(value, own)
            if sign == "+"
            else (lambda old, own: lambda values: old(values) - own(values))(value, own)
        )
    return text, value


def comparison(fields, point):
    """A comparison that holds at the point, as text, turned text and a function."""
    (left_text, left), (right_text, right) = total(fields, 2), total(fields, 2)
    relation = random.choice(["<", "<", "<=", "<=", "=", "="])
    holds = lambda values: COMPARE[relation](left(values), right(values))
    so = f"{left_text} {relation} {right_text}"
    turned = f"{left_text} {TURNED[relation]} {right_text}"
    if holds(point):
        return so, turned, holds
    return turned, so, lambda values: not holds(values)


def guard():
    """Comparisons as texts, each with whether it has to hold, and what tells whether all do."""
    fields = random.randint(1, 4)
    point = [random.randint(-30, 30) for _ in range(fields)]
    count = random.randint(3, 10)
    made = [comparison(fields, point) for _ in range(count)]
    turned = set(random.sample(range(count), random.choice([0, 1, 1, 2])))
    texts = [both[1] if k in turned else both[0] for k, both in enumerate(made)]
    holds = lambda values: all(own[2](values) != (k in turned) for k, own in enumerate(made))
    return fields, " and ".join(f"({text})" for text in texts), holds


def is_right(report, holds):
    if report == "assert 3 pass\n":
        return True
    shown = re.fullmatch(r"assert 3 fail \(z \[(.*)\]\)\n", report)
    return bool(shown) and holds([int(value) for value in shown[1].split(", ")])


def main():
    program = sys.argv[1]
    count = int(sys.argv[2]) if len(sys.argv) > 2 else 1000
    random.seed(int(sys.argv[3]) if len(sys.argv) > 3 else 1)
    late, slow, took = 0, 0, 0.0
    with tempfile.NamedTemporaryFile("w", suffix=".fast") as file:
        for _ in range(count):
            fields, text, holds = guard()
            names = ", ".join(f"{name} : Int" for name in FIELDS[:fields])
            file.seek(0)
            file.truncate()
            file.write(f"type N[{names}]{{z(0)}}\nlang p : N {{ z() where {text} }}\nassert-true (is-empty p)\n")
            file.flush()
            start = time.time()
            try:
                ran = subprocess.run([program, "run", file.name], capture_output=True, text=True, timeout=LIMIT)
            except subprocess.TimeoutExpired:
                late += 1
                continue
            own = time.time() - start
            took += own
            slow += own > 0.15
            if not is_right(ran.stdout, holds):
                print(f"wrong: {text}\n{ran.stdout}{ran.stderr}")
                return 1
    print(f"{count} guards: {late} without a report in {LIMIT} s, {slow} more over 0.15 s, the mean of the others {1000 * took / max(1, count - late):.1f} ms")
    return 0


if __name__ == "__main__":
    sys.exit(main())
