#!/usr/bin/env python3
"""Prints a program of so many languages over binary trees, each with three rules that demand random languages of both
children. Some take leaves. The first language demands all others of one child or the other, so each is reached. With a third
word `mona` it prints the same languages as sets of nodes in the language of MONA: D has the nodes of a tree, A its leaves
that are an a, and R0, R1 and so on the nodes whose subtrees are in r0, r1 and so on."""
import random
import sys

count, seed = int(sys.argv[1]), int(sys.argv[2])
chance = random.Random(seed)


def chosen():
    return chance.sample(range(1, count), chance.choice([1, 1, 2]))


# for each language its rules, as the languages of both children, and which leaves it takes
languages = [([([own for own in range(1, count) if own % 2 == 0], [own for own in range(1, count) if own % 2])], [])]
for own in range(1, count):
    rules = [(chosen(), chosen()) for _ in range(3)]
    leaves = [leaf for leaf in "ab" if chance.random() < 0.5]
    languages.append((rules, leaves))


def demands(states, place):
    return " ".join(f"(r{state} {place})" for state in states)


def print_program():
    print("type B[]{a(0), b(0), n(2)}")
    for own, (rules, leaves) in enumerate(languages):
        written = [f"n(x, y) given {demands(left, 'x')} {demands(right, 'y')}" for left, right in rules]
        written += [f"{leaf}()" for leaf in leaves]
        print(f"lang r{own} : B {{ {' | '.join(written)} }}")
    print("assert-false (is-empty r0)")


def print_mona():
    print("ws2s;")
    print("var2 D, A, " + ", ".join(f"R{own}" for own in range(count)) + ";")
    print("assert root in D & (all1 p: p in D & p ~= root => p^ in D) & (all1 p: p in D => (p.0 in D <=> p.1 in D));")
    for own, (rules, leaves) in enumerate(languages):
        written = [
            "(p.0 in D & " + " & ".join([f"p.0 in R{s}" for s in left] + [f"p.1 in R{s}" for s in right]) + ")"
            for left, right in rules
        ]
        written += [f"(p.0 notin D & p {'in' if leaf == 'a' else 'notin'} A)" for leaf in leaves]
        print(f"assert all1 p: (p in R{own} <=> (p in D & ({' | '.join(written)})));")


if sys.argv[3:] == ["mona"]:
    print_mona()
else:
    print_program()
