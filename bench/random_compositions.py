#!/usr/bin/env python3
"""Compares compositions and pre-images of random transformations with what their parts give tree by tree: a composition gives
what the second gives of each output of the first, and a tree is in a pre-image where one of its outputs is in the language.
Prints how many programs and trees agreed and how many compositions were refused, and keeps each program that differs.

usage: random_compositions.py PROGRAM [COUNT [SEED [FOLDER]]]
"""

import os
import random
import subprocess
import sys
import tempfile

CONSTRUCTORS = [("z", []), ("n", ["a"]), ("b", ["a", "c"])]
TREES = 12


def guard(chance):
    number = chance.choice(["i", "i + 1", "2 * i", "i % 3"])
    part = f"{number} {chance.choice(['=', '!=', '<', '>='])} {chance.randint(-1, 3)}"
    return chance.choice([part, part, "t", "not t", f"{part} and t", f"{part} or not t"])


def label(chance):
    return f"[{chance.choice(['i', 'i + 1', '(i + 2) % 3', '0', '2 - i'])}, {chance.choice(['t', 'not t', 'i > 0', 'true'])}]"


def term(chance, places, states, depth):
    """An output: a child unchanged, a call on a child, or a node of terms."""
    if places and chance.random() < (0.5 if depth else 0.9):
        place = chance.choice(places)
        return place if chance.random() < 0.3 else f"({chance.choice(states)} {place})"
    name, parts = chance.choice(CONSTRUCTORS if depth else CONSTRUCTORS[:1])
    inner = "".join(" " + term(chance, places, states, depth - 1) for _ in parts)
    return f"({name} {label(chance)}{inner})"


def head(chance, name, places, languages):
    text = f"{name}({', '.join(places)})"
    if chance.random() < 0.6:
        text += f" where {guard(chance)}"
    if places and chance.random() < 0.4:
        text += f" given ({chance.choice(languages)} {chance.choice(places)})"
    return text


def language(chance, name, languages):
    rules = [head(chance, *chance.choice(CONSTRUCTORS), languages) for _ in range(chance.randint(2, 4))]
    return f"lang {name} : N {{ z() | {' | '.join(rules)} }}"


def transformation(chance, name, states, languages):
    rules = []
    for constructor, places in CONSTRUCTORS:
        for _ in range(chance.choice([1, 1, 2])):
            rules.append(f"{head(chance, constructor, places, languages)} to {term(chance, places, states, 2)}")
    return f"trans {name} : N -> N {{ {' | '.join(rules)} }}"


def program(chance):
    lines = ["type N[i : Int, t : Bool]{z(0), n(1), b(2)}"]
    languages = ["l0", "l1"]
    lines += [language(chance, name, languages) for name in languages]
    firsts, seconds = ["f0", "f1"], ["g0", "g1"]
    lines += [transformation(chance, name, firsts, languages) for name in firsts]
    lines += [transformation(chance, name, seconds, languages) for name in seconds]
    lines.append("def before : N := (pre-image f0 l0)")
    return "\n".join(lines) + "\n"


def tree(chance, depth):
    name, parts = chance.choice(CONSTRUCTORS if depth else CONSTRUCTORS[:1])
    inner = "".join(" " + tree(chance, depth - 1) for _ in parts)
    return f"({name} [{chance.randint(-2, 4)}, {chance.choice(['true', 'false'])}]{inner})"


class Tool:
    def __init__(self, binary, folder):
        self.binary = binary
        self.folder = folder

    def report(self, command, name, trees):
        """The status and the lines of a command on trees."""
        path = os.path.join(self.folder, "trees")
        with open(path, "w") as file:
            file.write("\n".join(trees) + "\n")
        words = [self.binary, command, os.path.join(self.folder, "program"), name, path]
        done = subprocess.run(words, capture_output=True, text=True, timeout=60)
        return done.returncode, done.stdout.splitlines()

    def outputs(self, name, trees):
        """The outputs of each tree, or None where they were refused."""
        status, lines = self.report("apply", name, trees)
        if status != 0:
            return None
        found = []
        for line in lines:
            if line.startswith("input "):
                found.append([])
            else:
                found[-1].append(line.removeprefix("output "))
        return found

    def inside(self, name, trees):
        status, lines = self.report("accepts", name, trees)
        return None if status != 0 else [line.endswith(" yes") for line in lines]


def through(tool, trees, name):
    """For each list of trees, all that the transformation gives of them."""
    flat = sorted({one for many in trees for one in many})
    if not flat:
        return [set() for _ in trees]
    given = tool.outputs(name, flat)
    if given is None:
        return None
    given = dict(zip(flat, given))
    return [{out for one in many for out in given[one]} for many in trees]


def compare(tool, chance, text, counts):
    """Whether the program's answers agree. Counts what was compared, and what was refused."""
    path = os.path.join(tool.folder, "program")
    with open(path, "w") as file:
        file.write(text)
    trees = [tree(chance, chance.randint(0, 3)) for _ in range(TREES)]
    middle = tool.outputs("f0", trees)
    if middle is None:
        counts["refused"] += 1
        return True
    before = tool.inside("before", trees)
    flat = sorted({one for many in middle for one in many})
    inside = dict(zip(flat, tool.inside("l0", flat) or [])) if flat else {}
    if before is None or before != [any(inside[one] for one in many) for many in middle]:
        return False
    counts["pre-images"] += len(trees)
    with open(path, "a") as file:
        file.write("def both : N -> N := (compose f0 g0)\n")
    together = tool.outputs("both", trees)
    one_by_one = through(tool, middle, "g0")
    if together is None or one_by_one is None:
        counts["not composed"] += 1
        return True
    counts["compositions"] += len(trees)
    return [set(many) for many in together] == one_by_one


def main():
    binary = sys.argv[1]
    count = int(sys.argv[2]) if len(sys.argv) > 2 else 500
    seed = int(sys.argv[3]) if len(sys.argv) > 3 else 1
    kept = sys.argv[4] if len(sys.argv) > 4 else "."
    counts = {"compositions": 0, "pre-images": 0, "not composed": 0, "refused": 0}
    differ = 0
    with tempfile.TemporaryDirectory() as folder:
        tool = Tool(binary, folder)
        for number in range(count):
            chance = random.Random(seed * 1_000_003 + number)
            text = program(chance)
            if not compare(tool, chance, text, counts):
                differ += 1
                with open(os.path.join(kept, f"composition-{seed}-{number}"), "w") as file:
                    file.write(text)
    told = ", ".join(f"{what} {many}" for what, many in counts.items())
    print(f"{count} programs, {differ} differ; {told}")
    sys.exit(1 if differ else 0)


if __name__ == "__main__":
    main()
