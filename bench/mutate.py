#!/usr/bin/env python3
"""Changes texts into ones that are nearly programs, or nearly trees: bytes are flipped, put in, removed or doubled, two tokens
change places, a token is another one of its kind or a number at a border, or lines are missing; one to three times. The same
seed gives the same texts (changed.py).
"""

import re

TOKEN = re.compile(
    rb'"(?:[^"\\]|\\.)*"|(?:assert|is|type|get|pre|restrict)-(?:true|false|empty|check|witness|image|out)|[A-Za-z_][A-Za-z0-9_.]*'
    rb"|[0-9]+|:=|->|==|!=|<=|>=|\S"
)
ALIKE = [
    it.split()
    for it in (
        b"= != < <= > >=",
        b"+ - * %",
        b"and or",
        b"true false",
        b"assert-true assert-false",
        b"== in",
        b"union intersect difference",
        b"complement minimize domain get-witness",
        b"pre-image restrict restrict-out compose apply",
    )
]
WORDS = b"type tree lang trans def where given to not is-empty type-check".split() + [it for its in ALIKE for it in its]
BORDERS = [0, 1, 2, 8, 9, 63, 64, 65, 4095, 4096, 4097, 2**31 - 1, 2**31, 2**63 - 1, 2**63, 2**64, 10**37, 10**38]


def cut(chance, text, most):
    """The borders of a piece of the text of so many bytes at most."""
    begin = chance.randrange(len(text) + 1)
    return begin, min(len(text), begin + chance.randint(1, most))


def flipped(chance, text):
    at = chance.randrange(len(text))
    return text[:at] + bytes([text[at] ^ 1 << chance.randrange(8)]) + text[at + 1 :]


def put_in(chance, text):
    at = chance.randrange(len(text) + 1)
    return text[:at] + bytes(chance.randrange(256) for _ in range(chance.randint(1, 3))) + text[at:]


def removed(chance, text):
    begin, end = cut(chance, text, 20)
    return text[:begin] + text[end:]


def doubled(chance, text):
    begin, end = cut(chance, text, 60)
    return text[:end] + text[begin:end] * chance.choice([1, 1, 2, 50]) + text[end:]


def tokens_exchanged(chance, text):
    found = list(TOKEN.finditer(text))
    if len(found) < 2:
        return text
    one, two = sorted(chance.sample(found, 2), key=lambda it: it.start())
    return text[: one.start()] + two[0] + text[one.end() : two.start()] + one[0] + text[two.end() :]


def kind_of(token):
    """The tokens that are as this one is, or a word for its kind."""
    for its in ALIKE:
        if token in its:
            return its
    if token in WORDS:
        return token
    return "number" if token.isdigit() else "name" if token[:1].isalpha() or token[:1] == b"_" else token[:1]


def token_replaced(chance, text):
    found = list(TOKEN.finditer(text))
    if not found:
        return text
    it = chance.choice(found)
    kind = kind_of(it[0])
    if chance.random() < 0.2:
        new = chance.choice(found)[0]
    elif kind == "number" and chance.random() < 0.5:
        new = str(chance.choice(BORDERS)).encode()
    else:
        new = chance.choice(kind if isinstance(kind, list) else [other[0] for other in found if kind_of(other[0]) == kind])
    return text[: it.start()] + new + text[it.end() :]


def lines_dropped(chance, text):
    lines = text.splitlines(keepends=True)
    begin = chance.randrange(len(lines))
    return b"".join(lines[:begin] + lines[begin + chance.randint(1, 3) :])


CHANGES = [flipped, put_in, removed, doubled, tokens_exchanged, lines_dropped] + [token_replaced] * 8


def mutated(chance, text):
    for _ in range(chance.choice([1, 1, 1, 2, 3])):
        if text:
            text = chance.choice(CHANGES)(chance, text)
    return text


def trees_of(report):
    """The trees that a report shows, one on a line."""
    return b"".join(it + b"\n" for it in re.findall(rb"^(?:assert \d+ \w+|tree \S+) (\(.*\))$", report, re.M)) or b"(nil [])\n"


def name_of(chance, word, text):
    """A name that the text declares by this word."""
    return chance.choice(re.findall(word + rb" ([A-Za-z_][A-Za-z0-9_.]*)", text) or [b"none"]).decode()
