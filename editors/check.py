#!/usr/bin/env python3
"""Checks both grammars on all examples, and on a text with every keyword and sign: each token has the colour that its kind has.

The tokens are cut here by docs/LANGUAGE.md, Grammar. The TextMate grammar is followed line by line, with Python's patterns;
the Vim one by Vim itself, where it is there.
"""

import glob
import json
import os
import re
import shutil
import subprocess
import sys
import tempfile

HERE = os.path.dirname(os.path.abspath(__file__))
KINDS = {
    "declaration": "type tree lang trans def",
    "control": "where given to",
    "operation": "is-empty type-check get-witness pre-image restrict-out intersect union complement difference minimize "
    "domain compose restrict apply",
    "assertion": "assert-true assert-false",
    "word": "in and or not ∈",
    "truth": "true false",
    "sign": ":= -> == != <= >= = < > + - * % |",
    "bracket": "( ) { } [ ] , :",
}
KIND_OF = {word: kind for kind, words in KINDS.items() for word in words.split()}
NAME = r"[A-Za-z_][A-Za-z0-9_.]*"
HYPHENATED = "|".join(rf"{it}(?![A-Za-z0-9_.])" for it in KIND_OF if re.fullmatch("[a-z]+-[a-z]+", it))
TOKEN = re.compile(
    rf'(?P<comment>//.*)|(?P<text>"(?:[^"\\\n]|\\(?:["\\nt]|u\{{[0-9A-Fa-f]{{1,6}}\}}))*")|(?P<number>[0-9]+)'
    rf"|(?P<name>{HYPHENATED}|{NAME})|(?P<sign>:=|->|==|!=|<=|>=|[=<>+\-*%|(){{}}\[\],:∈])|(?P<blank>\s)|(?P<illegal>.)"
)
EVERY = (
    "\n".join(KIND_OF)
    + '\nx.type is-emptyx type-checker x-is-empty toto 7x _a.b.0 "a\\"b\\\\\\n\\t\\u{1F600}// no" true.x # ! / // "in" type\n'
)

# The groups or scopes that tokens of a kind may have.
VIM = {"name": "Name Constructor Declared Sort", **{it: it.capitalize() for it in [*KINDS, "number", "comment", "illegal"]}}
VIM["text"] = "Text Escape"
SCOPES = {
    "declaration": "keyword.declaration",
    "control": "keyword.control.fast",
    "operation": "support.function",
    "assertion": "keyword.control.assert",
    "word": "keyword.operator.word",
    "truth": "constant.language",
    "sign": "keyword.operator",
    "bracket": "punctuation",
    "number": "constant.numeric",
    "comment": "comment",
    "illegal": "invalid.illegal.fast",
    "text": "string constant.character.escape punctuation.definition.string",
    "name": "variable.other entity.name support.type",
}


def tokens(line):
    """Each token of the line: its place, its text and its kind."""
    for found in TOKEN.finditer(line):
        kind, text = found.lastgroup, found.group()
        if kind in ("name", "sign"):
            kind = KIND_OF.get(text, kind)
        if kind != "blank":
            yield found.start(), text, kind


def scopes_by(grammar):
    """A function that gives the innermost scope of each character of a line."""

    def opened(rules):
        for rule in rules:
            if "include" in rule:
                rule = grammar["repository"][rule["include"][1:]]
            yield from opened(rule["patterns"]) if "match" not in rule and "begin" not in rule else [rule]

    def paint(scopes, found, rule, captures, name):
        for at in range(*found.span()):
            scopes[at] = rule.get(name, scopes[at])
        for number, it in rule.get(captures, {}).items():
            for at in range(*found.span(int(number))):
                scopes[at] = it["name"]

    def scopes_of(line):
        scopes, at, stack = [""] * len(line), 0, []
        while at < len(line):
            rules = list(opened(stack[-1].get("patterns", []) if stack else grammar["patterns"]))
            tried = [(re.compile(stack[-1]["end"]).search(line, at), None)] if stack else []
            tried += [(re.compile(it.get("match") or it["begin"]).search(line, at), it) for it in rules]
            tried = [it for it in tried if it[0]]
            if not tried:
                break
            found, rule = min(tried, key=lambda it: it[0].start())
            if stack:
                scopes[at : found.start()] = [stack[-1]["name"]] * (found.start() - at)
            if rule is None:
                paint(scopes, found, stack.pop(), "endCaptures", "none")
            elif "begin" in rule:
                stack.append(rule)
                paint(scopes, found, rule, "beginCaptures", "name")
            else:
                paint(scopes, found, rule, "captures", "name")
            at = max(found.end(), at + (found.end() == at and rule is not None))
        return scopes

    return scopes_of


def groups_by_vim(text):
    """The group that Vim gives each character, line by line."""
    with tempfile.TemporaryDirectory() as folder:
        with open(f"{folder}/text", "w", encoding="utf-8") as it:
            it.write(text)
        with open(f"{folder}/script", "w", encoding="utf-8") as it:
            it.write(
                f"set encoding=utf-8 synmaxcol=0\nedit {folder}/text\nsyntax on\nsource {HERE}/fast.vim\nlet out = []\n"
                "for row in range(1, line('$'))\n  let line = getline(row)\n  let names = []\n"
                "  for col in range(strchars(line))\n"
                "    call add(names, synIDattr(synID(row, byteidx(line, col) + 1, 1), 'name'))\n"
                "  endfor\n  call add(out, join(names, ' '))\nendfor\n"
                f"call writefile(out, '{folder}/groups')\nqa!\n"
            )
        subprocess.run(["vim", "-u", "NONE", "-es", "-S", f"{folder}/script"], check=True, stdin=subprocess.DEVNULL, timeout=300)
        with open(f"{folder}/groups", encoding="utf-8") as it:
            return [[name.removeprefix("fast") for name in line.rstrip("\n").split(" ")] for line in it]


def wrong(file, text, given, allowed, begins):
    """How many tokens of the text have a colour that their kind hasn't; each is told."""
    count = 0
    for row, line in enumerate(text.splitlines()):
        for at, word, kind in tokens(line):
            if not all(begins(it, allowed[kind].split()) for it in given[row][at : at + len(word)]):
                count += 1
                print(f"{file}:{row + 1}:{at + 1}: {word} is {kind}, and not {given[row][at]}")
    return count


def main():
    with open(f"{HERE}/fast.tmLanguage.json", encoding="utf-8") as it:
        scopes_of = scopes_by(json.load(it))
    files = sorted(glob.glob(f"{HERE}/../crates/examples/data/*.fast"))
    texts = {os.path.basename(it): open(it, encoding="utf-8").read() for it in files} | {"every word": EVERY}
    count = seen = 0
    for file, text in texts.items():
        seen += sum(len(list(tokens(line))) for line in text.splitlines())
        scopes = [scopes_of(line) for line in text.splitlines()]
        count += wrong(file, text, scopes, SCOPES, lambda it, names: it.startswith(tuple(names)))
        if shutil.which("vim"):
            count += wrong(file, text, groups_by_vim(text), VIM, lambda it, names: it in names)
    print(f"{seen} tokens of {len(texts)} texts{'' if shutil.which('vim') else ', without Vim'}: {count} are wrong")
    sys.exit(1 if count else 0)


main()
