"""The sanitiser of bench/apply.sh, written by hand: drops scripts and escapes quotes in attributes."""
import re
import sys

sys.setrecursionlimit(100000)
tokens = re.compile(r'\(|\)|"(?:[^"\\]|\\.)*"|\[|\]|\w+')


def read(words):
    next(words)
    name = next(words)
    next(words)
    tag = next(words)
    next(words)
    children = []
    for word in words:
        if word == ")":
            return (name, tag, children)
        children.append(read_behind(words))


def read_behind(words):
    name = next(words)
    next(words)
    tag = next(words)
    next(words)
    children = []
    for word in words:
        if word == ")":
            return (name, tag, children)
        children.append(read_behind(words))


def clean(tree):
    name, tag, children = tree
    if name == "node" and tag == '"script"':
        return clean(children[2])
    if name == "node":
        return (name, tag, [escape(children[0]), clean(children[1]), clean(children[2])])
    return tree


def escape(tree):
    name, tag, children = tree
    inside = (name, tag, [escape(child) for child in children])
    if name == "val" and tag == '"\'"':
        return (name, '"\\\\"', [inside])
    return inside


def put(tree, out):
    name, tag, children = tree
    out.append(f"({name} [{tag}]")
    for child in children:
        out.append(" ")
        put(child, out)
    out.append(")")


def main():
    words = iter(tokens.findall(open(sys.argv[1]).read()))
    out = ["input 1 outputs 1\noutput "]
    put(clean(read(words)), out)
    print("".join(out))


main()
