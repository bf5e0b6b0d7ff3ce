#!/usr/bin/env python3
"""Times the program on random programs of two to five languages over labels of one to three whole numbers: guards have
sums, multiples and remainders, all relations and their negations. Prints how many took how long, and each that took longer
than a second, which it keeps in the folder.

usage: random_programs.py PROGRAM [COUNT [SEED [FOLDER]]]
"""

import os
import random
import resource
import subprocess
import sys
import tempfile

BOUNDS = [0.01, 0.03, 0.1, 0.3, 1.0]
TIMEOUT = 20


def number(chance, fields, depth):
    """A whole number over the fields."""
    if depth == 0 or chance.random() < 0.4:
        constant = chance.choice([0, 1, 2, 3, 5, 7, 26, chance.randint(-100, 100)])
        return chance.choice([chance.choice(fields), chance.choice(fields), f"({constant})"])
    inner = number(chance, fields, depth - 1)
    sign = chance.choice("+-*%%")
    if sign == "*":
        return f"({chance.choice([-3, -1, 2, 3, 5])} * {inner})"
    if sign == "%":
        return f"({inner} % {chance.choice([2, 3, 4, 5, 6, 7, 10, 12, 26])})"
    return f"({inner} {sign} {number(chance, fields, depth - 1)})"


def comparison(chance, fields):
    relation = chance.choice(["=", "=", "!=", "!=", "<", "<=", ">", ">="])
    return f"({number(chance, fields, 2)} {relation} {number(chance, fields, 2)})"


def guard(chance, fields):
    parts = []
    for _ in range(chance.randint(1, 4)):
        part = comparison(chance, fields)
        if chance.random() < 0.2:
            part = f"not {part}"
        elif chance.random() < 0.2:
            part = f"({part} or {comparison(chance, fields)})"
        parts.append(part)
    return " and ".join(parts)


def rule(chance, fields, languages):
    name, places = chance.choice([("z", []), ("n", ["a"]), ("b", ["a", "b"])])
    text = f"{name}({', '.join(places)})"
    if chance.random() < 0.85:
        text += f" where {guard(chance, fields)}"
    demands = [f"({chance.choice(languages)} {chance.choice(places)})" for _ in range(chance.randint(1, 3)) if places]
    if demands:
        text += f" given {' '.join(demands)}"
    return text


def program(chance):
    fields = ["x", "y", "w"][: chance.randint(1, 3)]
    languages = [f"p{i}" for i in range(chance.randint(2, 5))]
    lines = [f"type N[{', '.join(field + ' : Int' for field in fields)}]{{z(0), n(1), b(2)}}"]
    for language in languages:
        rules = [rule(chance, fields, languages) for _ in range(chance.randint(1, 5))]
        if chance.random() < 0.6:
            rules.append(f"z() where {guard(chance, fields)}")
        lines.append(f"lang {language} : N {{ {' | '.join(rules)} }}")
    for language in languages:
        lines.append(f"assert-true (is-empty {language})")
    first, second = chance.sample(languages, 2)
    lines.append(f"assert-true (is-empty (intersect {first} {second}))")
    lines.append(f"assert-true (is-empty (difference {first} {second}))")
    return "\n".join(lines) + "\n"


def seconds(words):
    """The seconds of a processor that a command takes, and whether it gave a report."""
    before = resource.getrusage(resource.RUSAGE_CHILDREN).ru_utime
    try:
        run = subprocess.run(words, capture_output=True, text=True, timeout=TIMEOUT)
        answered = run.stdout.count("assert")
    except subprocess.TimeoutExpired:
        return float(TIMEOUT), None
    return resource.getrusage(resource.RUSAGE_CHILDREN).ru_utime - before, answered


def main():
    program_path = sys.argv[1]
    count = int(sys.argv[2]) if len(sys.argv) > 2 else 1000
    seed = int(sys.argv[3]) if len(sys.argv) > 3 else 1
    folder = sys.argv[4] if len(sys.argv) > 4 else tempfile.mkdtemp()
    os.makedirs(folder, exist_ok=True)
    within = [0] * (len(BOUNDS) + 1)
    unanswered = slowest = 0
    for number_of in range(seed, seed + count):
        path = os.path.join(folder, f"{number_of}.fast")
        with open(path, "w") as file:
            file.write(program(random.Random(number_of)))
        took, answered = seconds([program_path, "run", path])
        slowest = max(slowest, took)
        within[sum(took > bound for bound in BOUNDS)] += 1
        unanswered += not answered
        if took > BOUNDS[-1]:
            print(f"{path}: {took:.1f} seconds", flush=True)
        else:
            os.remove(path)
    for bound, found in zip(BOUNDS, within):
        print(f"at most {bound} seconds: {found}")
    print(f"more: {within[-1]}; the slowest took {slowest:.2f}; {unanswered} without a report")


main()
